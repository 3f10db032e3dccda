/* A disk of a Liberation array (w 5, k 5) dies. With all others idle at the same price its plan costs 19; then P, disk 5, is busy, and another
 * plan leaves it alone; then P is away, and that plan brings the disk back without it.
 *
 *     sh library.sh
 *     gcc -Wall -Iinclude examples/c/prices.c target/staticlib/libcapi.a -o target/prices && target/prices
 *
 * Exit status 0 only if all of it goes right. */
#include <navorzim.h>
#include <stdio.h>
#include <stdlib.h>
#include <string.h>

enum { W = 5, DISKS = 7, DATA = 25, SYMBOLS = DISKS * W, P = 5, L = 16, AWAY = 0, IDLE = 1, BUSY = 2 };

static uint8_t sheet[NAVORZIM_SHEET_BYTES], plan[NAVORZIM_PLAN_DISKS_BYTES], contents[DATA * L], stripe[SYMBOLS * L];
static const uint8_t lost[] = {0};
static uint8_t kinds[DISKS];
static double prices[DISKS], factors[DISKS];

/* Says what went wrong, and ends the program. */
static void must(int holds, const char *what) {
    if (!holds) {
        printf("wrong: %s\n", what);
        exit(1);
    }
}

/* Plans for the lost disk, and says what the plan reads of P and what all of it costs. */
static navorzim_priced planned(size_t code_length, const char *how) {
    navorzim_priced priced = navorzim_plan_priced(sheet, code_length, lost, sizeof lost, NULL, 0, kinds, DISKS, prices, DISKS, factors, DISKS,
                                                  plan, sizeof plan);
    must(priced.number == 0 && priced.length > 0 && priced.settled, how);
    unsigned of_p = 0;
    for (unsigned s = P * W; s < (P + 1) * W; s++) {
        int read = 0;
        /* the steps come after 10 bytes and the two lists */
        for (size_t step = 10 + plan[6] + plan[7 + plan[6]]; step < priced.length; step += 3) read |= plan[step] != 0 && plan[step + 2] == s;
        of_p += read;
    }
    printf("%s: the plan reads %zu symbols, %u of them on disk %d, for %g\n", how, (size_t)priced.reads, of_p, P, priced.sum);
    must((of_p == 0) == (kinds[P] != IDLE), "what is read of P");
    return priced;
}

int main(void) {
    navorzim_sheet code = navorzim_liberation(W, 5, sheet, sizeof sheet);
    must(code.number == 0, "the family");
    for (unsigned disk = 0; disk < DISKS; disk++) kinds[disk] = IDLE, prices[disk] = 1;
    navorzim_planned any = navorzim_plan_disks(sheet, code.length, lost, sizeof lost, NULL, 0, plan, sizeof plan);
    must(any.number == 0 && any.length > 0, "planning");
    printf("disk 0 is lost, and planning's plan reads %zu symbols\n", (size_t)any.reads);

    navorzim_priced idle = planned(code.length, "all disks idle at 1");
    must(idle.sum <= (double)any.reads, "never dearer than planning's plan");
    kinds[P] = BUSY, factors[P] = 10;
    navorzim_priced busy = planned(code.length, "disk 5 busy at factor 10");
    must(busy.sum >= idle.sum, "a dearer disk");
    kinds[P] = AWAY;
    navorzim_priced away = planned(code.length, "disk 5 away");
    must(plan[6] == 2 && plan[7] == 0 && plan[8] == P, "the lost disks");

    /* the plan is for disks 0 and 5, and wants disk 0 alone: what there is of P stays */
    const uint8_t both[] = {0, P};
    uint8_t whole[SYMBOLS * L];
    for (size_t i = 0; i < sizeof contents; i++) contents[i] = (uint8_t)(i * i + 7);
    must(navorzim_encode(sheet, code.length, L, contents, sizeof contents, whole, sizeof whole).number == 0, "encoding");
    memcpy(stripe, whole, sizeof stripe);
    memset(stripe, 0xdb, W * L);
    memset(stripe + P * W * L, 0xdb, W * L);
    memset(whole + P * W * L, 0xdb, W * L);
    must(navorzim_rebuild_disks(sheet, code.length, both, sizeof both, plan, away.length, L, stripe, sizeof stripe).number == 0, "rebuilding");
    must(memcmp(stripe, whole, sizeof stripe) == 0, "the disk");
    printf("disk 0 is back, without disk %d\n", P);

    /* what is no price is refused, and the disk is named */
    kinds[P] = IDLE, prices[P] = -1;
    navorzim_priced refused = navorzim_plan_priced(sheet, code.length, lost, sizeof lost, NULL, 0, kinds, DISKS, prices, DISKS, factors, DISKS,
                                                   plan, sizeof plan);
    must(refused.number == 42 && refused.place == P && refused.length == 0, "a price below 0");
    printf("refused %zu at %zu: %s\n", (size_t)refused.number, (size_t)refused.place, navorzim_reason(refused.number));
    return 0;
}
