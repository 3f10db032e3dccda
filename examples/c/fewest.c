/* A disk of the square code dies. Planning's plan reads 4 symbols; one with the fewest reads 3, and brings the disk back too. Of a large array
 * the fewest isn't looked for.
 *
 *     sh library.sh
 *     gcc -Wall -Iinclude examples/c/fewest.c target/staticlib/libcapi.a -o target/fewest && target/fewest
 *
 * Exit status 0 only if all of it goes right. */
#include <navorzim.h>
#include <stdio.h>
#include <stdlib.h>
#include <string.h>

enum { DISKS = 4, ROWS = 2, DATA = 4, SYMBOLS = DISKS * ROWS, LENGTH = 6 + 8 * SYMBOLS };

/* the data disks a b and c d, then a + c and b + d, then a + d and b + c, where + is XOR */
static const uint8_t rows[SYMBOLS] = {1, 2, 4, 8, 5, 10, 9, 6}, lost[] = {0};
static uint8_t sheet[LENGTH] = {4, 1, DISKS, ROWS, DATA, SYMBOLS}, large[NAVORZIM_SHEET_BYTES], plan[NAVORZIM_PLAN_DISKS_BYTES];

/* Says what went wrong, and ends the program. */
static void must(int holds, const char *what) {
    if (!holds) {
        printf("wrong: %s\n", what);
        exit(1);
    }
}

/* Whether a copy or an add of the plan takes a symbol. The steps come after 10 bytes and the list of disks. */
static int takes(size_t length, unsigned symbol) {
    for (size_t step = 10 + sizeof lost; step < length; step += 3)
        if (plan[step] != 0 && plan[step + 2] == symbol) return 1;
    return 0;
}

int main(void) {
    for (size_t s = 0; s < SYMBOLS; s++) sheet[6 + 8 * s] = rows[s];
    must(navorzim_read_code(sheet, LENGTH).number == 0, "the code sheet");
    navorzim_planned any = navorzim_plan_disks(sheet, LENGTH, lost, sizeof lost, NULL, 0, plan, sizeof plan);
    must(any.number == 0 && any.length > 0, "planning");
    printf("disk 0 of the square code: planning's plan reads %zu symbols\n", (size_t)any.reads);

    navorzim_planned fewest = navorzim_plan_fewest(sheet, LENGTH, lost, sizeof lost, NULL, 0, plan, sizeof plan);
    must(fewest.number == 0 && fewest.length > 0 && fewest.reads == 3 && fewest.reads < any.reads, "planning with the fewest reads");
    printf("no plan reads fewer than %zu, and this one reads", (size_t)fewest.reads);
    for (unsigned s = ROWS; s < SYMBOLS; s++)
        if (takes(fewest.length, s)) printf(" %u", s);
    printf("\n");

    /* it is a plan like any other */
    const uint8_t contents[DATA] = {0x11, 0x22, 0x44, 0x88};
    uint8_t whole[SYMBOLS], stripe[SYMBOLS];
    must(navorzim_encode(sheet, LENGTH, 1, contents, sizeof contents, whole, sizeof whole).number == 0, "encoding");
    memcpy(stripe, whole, sizeof stripe);
    memset(stripe, 0xdb, ROWS);
    must(navorzim_rebuild_disks(sheet, LENGTH, lost, sizeof lost, plan, fewest.length, 1, stripe, sizeof stripe).number == 0, "rebuilding");
    must(memcmp(stripe, whole, sizeof stripe) == 0, "the disk");

    /* 56 symbols survive: refused, and planning for these disks is left */
    navorzim_sheet code = navorzim_liberation(7, 7, large, sizeof large);
    navorzim_planned refused = navorzim_plan_fewest(large, code.length, lost, sizeof lost, NULL, 0, plan, sizeof plan);
    must(code.number == 0 && refused.number == 41 && refused.place == 56 && refused.length == 0, "a large array");
    printf("Liberation, w 7, k 7: refused %zu at %zu, %s\n", (size_t)refused.number, (size_t)refused.place, navorzim_reason(refused.number));
    must(navorzim_plan_disks(large, code.length, lost, sizeof lost, NULL, 0, plan, sizeof plan).length > 0, "planning for a large array");
    return 0;
}
