/* A disk of a Liberation array (w 5, k 5) dies. Before it is rebuilt, the survivors are tested: a damaged byte is found, and its column named.
 *
 *     sh library.sh
 *     gcc -Wall -Iinclude examples/c/survivors.c target/staticlib/libcapi.a -o target/survivors && target/survivors
 *
 * Exit status 0 only if all of it goes right. */
#include <navorzim.h>
#include <stdio.h>
#include <stdlib.h>
#include <string.h>

enum { W = 5, DATA_DISKS = 5, SYMBOLS = (DATA_DISKS + 2) * W, L = 512, LOST = 2, DAMAGED = 17, COLUMN = 300 };

static uint8_t sheet[NAVORZIM_SHEET_BYTES], plan[NAVORZIM_PLAN_BYTES];
static uint8_t contents[DATA_DISKS * W * L], stripe[SYMBOLS * L];
static const uint8_t lost[] = {LOST};

/* Says what went wrong, and ends the program. */
static void must(int holds, const char *what) {
    if (!holds) {
        printf("wrong: %s\n", what);
        exit(1);
    }
}

static navorzim_tested test(size_t code_length) {
    return navorzim_test_survivors(sheet, code_length, lost, sizeof lost, L, stripe, sizeof stripe);
}

/* The equations that a symbol stands in. */
static void show_equations(size_t code_length, unsigned symbol) {
    navorzim_count equations = navorzim_equations(sheet, code_length, lost, sizeof lost);
    must(equations.number == 0 && equations.count > 0, "the equations");
    printf("%zu equations; symbol %u stands in\n", (size_t)equations.count, symbol);
    for (uint64_t index = 0; index < equations.count; index++) {
        navorzim_set equation = navorzim_equation(sheet, code_length, lost, sizeof lost, index);
        must(equation.number == 0, "an equation");
        if (!(equation.low >> symbol & 1)) continue;
        printf("  0 = the XOR of symbols");
        for (unsigned s = 0; s < SYMBOLS; s++)
            if (equation.low >> s & 1) printf(" %u", s);
        printf("\n");
    }
}

int main(void) {
    navorzim_sheet code = navorzim_liberation(W, DATA_DISKS, sheet, sizeof sheet);
    must(code.number == 0, "the family");
    srand(1);
    for (size_t i = 0; i < sizeof contents; i++) contents[i] = (uint8_t)(rand() >> 7);
    must(navorzim_encode(sheet, code.length, L, contents, sizeof contents, stripe, sizeof stripe).number == 0, "encoding");

    /* the disk is gone: what its strip holds doesn't matter */
    memset(stripe + LOST * W * L, 0xdb, W * L);
    navorzim_tested whole = test(code.length);
    must(whole.number == 0 && whole.sound == 1, "sound survivors");
    printf("disk %d is lost, and the survivors are sound\n", LOST);

    /* a byte of a survivor rots */
    stripe[DAMAGED * L + COLUMN] ^= 0x10;
    navorzim_tested damaged = test(code.length);
    must(damaged.number == 0 && damaged.sound == 0 && damaged.column == COLUMN, "a damaged byte");
    printf("a survivor is damaged in byte %zu of its symbol: no rebuild from these\n", (size_t)damaged.column);
    show_equations(code.length, DAMAGED);

    /* whole again, and rebuilt */
    stripe[DAMAGED * L + COLUMN] ^= 0x10;
    must(test(code.length).sound == 1, "survivors that are sound again");
    navorzim_planned planned = navorzim_plan(sheet, code.length, LOST, plan, sizeof plan);
    must(planned.number == 0 && planned.length > 0, "planning");
    must(navorzim_rebuild(sheet, code.length, LOST, plan, planned.length, L, stripe, sizeof stripe).number == 0, "rebuilding");
    must(memcmp(stripe + LOST * W * L, contents + LOST * W * L, W * L) == 0, "the disk");
    printf("sound again, and disk %d is back\n", LOST);
    return 0;
}
