/* Three disks of an EVENODD array (p 5) die, one more than it stands. How much is gone, and what would bring all of it back?
 *
 *     sh library.sh
 *     gcc -Wall -Iinclude examples/c/gone.c target/staticlib/libcapi.a -o target/gone && target/gone
 *
 * Exit status 0 only if all of it goes right. */
#include <navorzim.h>
#include <stdio.h>
#include <stdlib.h>
#include <string.h>

enum { P = 5, ROWS = P - 1, DATA = P * ROWS, SYMBOLS = (P + 2) * ROWS };

static uint8_t sheet[NAVORZIM_SHEET_BYTES], plan[NAVORZIM_PLAN_DISKS_BYTES];
static const uint8_t lost[] = {0, 1, 2}, without_0[] = {1, 2}, row_0[] = {0, ROWS, 2 * ROWS};

/* Says what went wrong, and ends the program. */
static void must(int holds, const char *what) {
    if (!holds) {
        printf("wrong: %s\n", what);
        exit(1);
    }
}

/* Prints a pattern's data symbols, and looks at its stripe: 0 on every surviving disk, not 0 on the lost ones. */
static void show(uint64_t pattern, size_t code_length) {
    static const uint8_t zeros[SYMBOLS];
    uint8_t contents[DATA], stripe[SYMBOLS];
    printf("  could be others together: data symbols");
    for (int t = 0; t < DATA; t++) {
        contents[t] = pattern >> t & 1;
        if (contents[t]) printf(" %d", t);
    }
    printf("\n");
    must(navorzim_encode(sheet, code_length, 1, contents, sizeof contents, stripe, sizeof stripe).number == 0, "encoding");
    const size_t first = sizeof lost * ROWS; /* of the surviving symbols */
    must(memcmp(stripe + first, zeros, sizeof stripe - first) == 0, "a pattern shows on a survivor");
    must(memcmp(stripe, zeros, first) != 0, "a pattern shows nowhere");
}

int main(void) {
    navorzim_sheet code = navorzim_evenodd(P, sheet, sizeof sheet);
    must(code.number == 0, "the family");

    /* all three disks: no plan, and as many patterns as are gone */
    navorzim_planned all = navorzim_plan_disks(sheet, code.length, lost, sizeof lost, NULL, 0, plan, sizeof plan);
    must(all.number == 0 && all.length == 0 && all.patterns == ROWS, "planning for three disks");
    printf("of %zu lost symbols %zu are gone\n", sizeof lost * ROWS, (size_t)all.patterns);
    for (uint64_t index = 0; index < all.patterns; index++) {
        navorzim_set pattern = navorzim_lost_pattern(sheet, code.length, lost, sizeof lost, NULL, 0, index);
        must(pattern.number == 0 && (index > 0 || pattern.low == all.pattern), "a pattern");
        show(pattern.low, code.length);
    }
    must(navorzim_lost_pattern(sheet, code.length, lost, sizeof lost, NULL, 0, all.patterns).low == 0, "a pattern too many");

    /* row 0 of them alone: two of three symbols, since row parity has their XOR */
    navorzim_planned row = navorzim_plan_disks(sheet, code.length, lost, sizeof lost, row_0, sizeof row_0, plan, sizeof plan);
    must(row.number == 0 && row.length == 0 && row.patterns == 2, "planning for a row");
    printf("of the %zu in row 0, %zu are gone\n", sizeof row_0, (size_t)row.patterns);

    /* a copy of disk 0, as many symbols as are gone, would bring all of it back */
    navorzim_planned rest = navorzim_plan_disks(sheet, code.length, without_0, sizeof without_0, NULL, 0, plan, sizeof plan);
    must(rest.number == 0 && rest.length > 0 && rest.patterns == 0, "planning for two disks");
    printf("with disk 0 found again there is a plan for the others, from %zu symbols\n", (size_t)rest.reads);
    return 0;
}
