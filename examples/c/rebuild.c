/* A disk of a Liberation array (w 5, k 5) dies; one row of it is rebuilt, then all of it; then its plan, under another layout, is turned
 * away.
 *
 *     sh library.sh
 *     gcc -Wall -Iinclude examples/c/rebuild.c target/staticlib/libcapi.a -o target/rebuild && target/rebuild
 *
 * Exit status 0 only if all of it goes right. */
#include <navorzim.h>
#include <stdio.h>
#include <stdlib.h>
#include <string.h>

enum { W = 5, DATA_DISKS = 5, DISKS = DATA_DISKS + 2, L = 4096 };
enum { CONTENTS = DATA_DISKS * W * L, STRIPE = DISKS * W * L, STRIP = W * L };

static uint8_t sheet[NAVORZIM_SHEET_BYTES], other[NAVORZIM_SHEET_BYTES], plan[NAVORZIM_PLAN_BYTES];
static uint8_t contents[CONTENTS], stripe[STRIPE], whole[STRIPE];

/* Says what went wrong, and ends the program. */
static void must(int holds, const char *what) {
    if (!holds) {
        printf("wrong: %s\n", what);
        exit(1);
    }
}

int main(void) {
    /* the code, and a valid stripe of random data */
    navorzim_sheet code = navorzim_liberation(W, DATA_DISKS, sheet, sizeof sheet);
    must(code.number == 0, "the family");
    srand(1);
    for (size_t i = 0; i < sizeof contents; i++) contents[i] = (uint8_t)(rand() >> 7);
    must(navorzim_encode(sheet, code.length, L, contents, sizeof contents, whole, sizeof whole).number == 0, "encoding");
    printf("code sheet of %zu bytes, stripe of %zu\n", (size_t)code.length, sizeof whole);

    /* disk 0 dies: its strip is garbage */
    memcpy(stripe, whole, sizeof stripe);
    memset(stripe, 0xdb, STRIP);

    /* somebody waits for row 2: a plan for that symbol alone, and no other byte changes */
    const uint8_t wanted[] = {2};
    navorzim_planned row = navorzim_plan_wanted(sheet, code.length, 0, wanted, sizeof wanted, plan, sizeof plan);
    must(row.number == 0 && row.length > 0, "planning for a row");
    must(navorzim_rebuild(sheet, code.length, 0, plan, row.length, L, stripe, sizeof stripe).number == 0, "rebuilding a row");
    must(memcmp(stripe + 2 * L, whole + 2 * L, L) == 0 && stripe[2 * L - 1] == 0xdb && stripe[3 * L] == 0xdb, "the rebuilt row");
    printf("row 2 of disk 0 is back, from %zu symbols\n", (size_t)row.reads);

    /* a plan for the disk, looked at once more by the checker, and run */
    navorzim_planned planned = navorzim_plan(sheet, code.length, 0, plan, sizeof plan);
    must(planned.number == 0 && planned.length > 0, "planning");
    navorzim_checked checked = navorzim_check(sheet, code.length, 0, plan, planned.length);
    must(checked.number == 0 && checked.reads == planned.reads, "checking");
    must(navorzim_rebuild(sheet, code.length, 0, plan, planned.length, L, stripe, sizeof stripe).number == 0, "rebuilding");
    must(memcmp(stripe, whole, sizeof stripe) == 0, "the rebuilt stripe");
    printf("disk 0 is back, from %zu symbols, by a plan of %zu bytes\n", (size_t)planned.reads, (size_t)planned.length);

    /* another layout of the same shape: P and Q stand on each other's disks. The plan must not run, and nothing may change */
    uint8_t *p = other + 6 + 8 * DATA_DISKS * W, *q = p + 8 * W;
    memcpy(other, sheet, sizeof other);
    memcpy(p, sheet + (q - other), 8 * W);
    memcpy(q, sheet + (p - other), 8 * W);
    memset(stripe, 0xdb, STRIP);
    memcpy(whole, stripe, sizeof whole);
    navorzim_verdict verdict = navorzim_rebuild(other, code.length, 0, plan, planned.length, L, stripe, sizeof stripe);
    must(verdict.number == 21, "another layout takes the plan");
    must(memcmp(stripe, whole, sizeof stripe) == 0, "a refused call changed the stripe");
    printf("under another layout: refused %zu at %zu, and no byte changed\n", (size_t)verdict.number, (size_t)verdict.place);
    return 0;
}
