/* A test: NULL with length 0 for every buffer of every call, alone and all at once. Nothing may be read or written through it, and the
 * answer is the one that a buffer of no bytes has.
 *
 * The array is the smallest: two disks of one symbol, each data symbol 0. Exit status 0 only if every answer is right. */
#include <navorzim.h>
#include <stdio.h>

static const uint8_t sheet[22] = {4, 1, 2, 1, 1, 2, 1, 0, 0, 0, 0, 0, 0, 0, 1, 0, 0, 0, 0, 0, 0, 0};
static const uint8_t plan[12] = {6, 1, 2, 1, 1, 0, 1, 1, 0, 1, 0, 1}; /* symbol 0 becomes symbol 1 */
static const uint8_t disks[1] = {0}, both[2] = {0, 1}, wanted[1] = {0}, contents[1] = {7}, spare[1] = {9};
static const uint8_t kinds[2] = {2, 2}; /* both disks are busy, so that both lists are needed */
static const double prices[2] = {1, 1}, factors[2] = {1, 1};
static uint8_t stripe[2], buffer[NAVORZIM_PLAN_DISKS_BYTES];
static int wrong;

/* Compares the number that a call answered with the one it must answer. */
static void expect(const char *what, uint64_t number, uint64_t right) {
    if (number != right) {
        printf("wrong: %s answers %zu, not %zu\n", what, (size_t)number, (size_t)right);
        wrong = 1;
    }
}

static void families_and_encoding(void) {
    expect("read a code sheet", navorzim_read_code(NULL, 0).number, 1);
    expect("single parity", navorzim_single_parity(1, 1, NULL, 0).number, 37);
    expect("Liberation", navorzim_liberation(3, 2, NULL, 0).number, 37);
    expect("row-diagonal", navorzim_row_diagonal(3, NULL, 0).number, 37);
    expect("EVENODD", navorzim_evenodd(3, NULL, 0).number, 37);
    expect("encode, all", navorzim_encode(NULL, 0, 1, NULL, 0, NULL, 0).number, 1);
    expect("encode, sheet", navorzim_encode(NULL, 0, 1, contents, 1, stripe, 2).number, 1);
    expect("encode, data", navorzim_encode(sheet, 22, 1, NULL, 0, stripe, 2).number, 33);
    expect("encode, stripe", navorzim_encode(sheet, 22, 1, contents, 1, NULL, 0).number, 32);
}

static void checking_and_planning(void) {
    expect("check, all", navorzim_check(NULL, 0, 0, NULL, 0).number, 1);
    expect("check, sheet", navorzim_check(NULL, 0, 0, plan, 12).number, 1);
    expect("check, plan", navorzim_check(sheet, 22, 0, NULL, 0).number, 11);
    expect("plan, all", navorzim_plan(NULL, 0, 0, NULL, 0).number, 1);
    expect("plan, sheet", navorzim_plan(NULL, 0, 0, buffer, sizeof buffer).number, 1);
    expect("plan, buffer", navorzim_plan(sheet, 22, 0, NULL, 0).number, 34);
    expect("plan with a list, all", navorzim_plan_wanted(NULL, 0, 0, NULL, 0, NULL, 0).number, 1);
    expect("plan with a list, sheet", navorzim_plan_wanted(NULL, 0, 0, wanted, 1, buffer, sizeof buffer).number, 1);
    expect("plan with a list, list", navorzim_plan_wanted(sheet, 22, 0, NULL, 0, buffer, sizeof buffer).number, 23);
    expect("plan with a list, buffer", navorzim_plan_wanted(sheet, 22, 0, wanted, 1, NULL, 0).number, 34);
}

static void several_disks(void) {
    expect("check for disks, all", navorzim_check_disks(NULL, 0, NULL, 0, NULL, 0).number, 1);
    expect("check for disks, sheet", navorzim_check_disks(NULL, 0, disks, 1, plan, 12).number, 1);
    expect("check for disks, disks", navorzim_check_disks(sheet, 22, NULL, 0, plan, 12).number, 24);
    expect("check for disks, plan", navorzim_check_disks(sheet, 22, disks, 1, NULL, 0).number, 11);
    expect("plan for disks, all", navorzim_plan_disks(NULL, 0, NULL, 0, NULL, 0, NULL, 0).number, 1);
    expect("plan for disks, sheet", navorzim_plan_disks(NULL, 0, disks, 1, wanted, 1, buffer, sizeof buffer).number, 1);
    expect("plan for disks, disks", navorzim_plan_disks(sheet, 22, NULL, 0, wanted, 1, buffer, sizeof buffer).number, 24);
    /* no list wants everything */
    expect("plan for disks, list", navorzim_plan_disks(sheet, 22, disks, 1, NULL, 0, buffer, sizeof buffer).number, 0);
    expect("plan for disks, buffer", navorzim_plan_disks(sheet, 22, disks, 1, wanted, 1, NULL, 0).number, 34);
    expect("fewest reads, all", navorzim_plan_fewest(NULL, 0, NULL, 0, NULL, 0, NULL, 0).number, 1);
    expect("fewest reads, sheet", navorzim_plan_fewest(NULL, 0, disks, 1, wanted, 1, buffer, sizeof buffer).number, 1);
    expect("fewest reads, disks", navorzim_plan_fewest(sheet, 22, NULL, 0, wanted, 1, buffer, sizeof buffer).number, 24);
    expect("fewest reads, list", navorzim_plan_fewest(sheet, 22, disks, 1, NULL, 0, buffer, sizeof buffer).number, 0);
    expect("fewest reads, buffer", navorzim_plan_fewest(sheet, 22, disks, 1, wanted, 1, NULL, 0).number, 34);
    expect("pattern, all", navorzim_lost_pattern(NULL, 0, NULL, 0, NULL, 0, 0).number, 1);
    expect("pattern, sheet", navorzim_lost_pattern(NULL, 0, disks, 1, wanted, 1, 0).number, 1);
    expect("pattern, disks", navorzim_lost_pattern(sheet, 22, NULL, 0, wanted, 1, 0).number, 24);
    expect("pattern, list", navorzim_lost_pattern(sheet, 22, disks, 1, NULL, 0, 0).number, 0);
    expect("pattern where there is a plan", navorzim_lost_pattern(sheet, 22, disks, 1, NULL, 0, 0).low, 0);
    expect("pattern where there is none", navorzim_lost_pattern(sheet, 22, both, 2, NULL, 0, 0).low, 1);
    expect("pattern after the last", navorzim_lost_pattern(sheet, 22, both, 2, NULL, 0, 1).low, 0);
    expect("rebuild disks, all", navorzim_rebuild_disks(NULL, 0, NULL, 0, NULL, 0, 1, NULL, 0).number, 1);
    expect("rebuild disks, sheet", navorzim_rebuild_disks(NULL, 0, disks, 1, plan, 12, 1, stripe, 2).number, 1);
    expect("rebuild disks, disks", navorzim_rebuild_disks(sheet, 22, NULL, 0, plan, 12, 1, stripe, 2).number, 24);
    expect("rebuild disks, plan", navorzim_rebuild_disks(sheet, 22, disks, 1, NULL, 0, 1, stripe, 2).number, 11);
    expect("rebuild disks, stripe", navorzim_rebuild_disks(sheet, 22, disks, 1, plan, 12, 1, NULL, 0).number, 32);
}

static navorzim_priced priced(const uint8_t *states, size_t states_length, const double *price, const double *factor) {
    return navorzim_plan_priced(sheet, 22, disks, 1, wanted, 1, states, states_length, price, price ? 2 : 0, factor, factor ? 2 : 0, buffer,
                                sizeof buffer);
}

static void pricing(void) {
    navorzim_priced none = navorzim_plan_priced(NULL, 0, NULL, 0, NULL, 0, NULL, 0, NULL, 0, NULL, 0, NULL, 0);
    navorzim_priced no_sheet = navorzim_plan_priced(NULL, 0, disks, 1, wanted, 1, kinds, 2, prices, 2, factors, 2, buffer, sizeof buffer);
    navorzim_priced no_disks = navorzim_plan_priced(sheet, 22, NULL, 0, wanted, 1, kinds, 2, prices, 2, factors, 2, buffer, sizeof buffer);
    navorzim_priced no_list = navorzim_plan_priced(sheet, 22, disks, 1, NULL, 0, kinds, 2, prices, 2, factors, 2, buffer, sizeof buffer);
    expect("plan at prices, all", none.number, 1);
    expect("plan at prices, sheet", no_sheet.number, 1);
    expect("plan at prices, disks", no_disks.number, 24);
    expect("plan at prices, list", no_list.number, 0);
    expect("plan at prices, buffer", navorzim_plan_priced(sheet, 22, disks, 1, wanted, 1, kinds, 2, prices, 2, factors, 2, NULL, 0).number, 34);
    expect("plan at prices, kinds", priced(NULL, 0, prices, factors).number, 42);
    expect("plan at prices, prices", priced(kinds, 2, NULL, factors).number, 42);
    expect("plan at prices, factors", priced(kinds, 2, prices, NULL).number, 42);
    expect("plan at prices, nothing left out", priced(kinds, 2, prices, factors).reads, 1);
    /* an idle disk needs no factor, and an away one no price */
    const uint8_t idle[2] = {1, 1}, away[2] = {0, 0};
    expect("plan at prices, no factors of idle disks", priced(idle, 2, prices, NULL).reads, 1);
    expect("plan at prices, nothing of away disks", priced(away, 2, NULL, NULL).patterns, 1);
}

static void rebuilding(void) {
    expect("rebuild, all", navorzim_rebuild(NULL, 0, 0, NULL, 0, 1, NULL, 0).number, 1);
    expect("rebuild, sheet", navorzim_rebuild(NULL, 0, 0, plan, 12, 1, stripe, 2).number, 1);
    expect("rebuild, plan", navorzim_rebuild(sheet, 22, 0, NULL, 0, 1, stripe, 2).number, 11);
    expect("rebuild, stripe", navorzim_rebuild(sheet, 22, 0, plan, 12, 1, NULL, 0).number, 32);
}

static void survivors(void) {
    expect("equations, all", navorzim_equations(NULL, 0, NULL, 0).number, 1);
    expect("equations, sheet", navorzim_equations(NULL, 0, disks, 1).number, 1);
    expect("equations, disks", navorzim_equations(sheet, 22, NULL, 0).number, 24);
    expect("equation, all", navorzim_equation(NULL, 0, NULL, 0, 0).number, 1);
    expect("equation, sheet", navorzim_equation(NULL, 0, disks, 1, 0).number, 1);
    expect("equation, disks", navorzim_equation(sheet, 22, NULL, 0, 0).number, 24);
    expect("test, all", navorzim_test_survivors(NULL, 0, NULL, 0, 1, NULL, 0).number, 1);
    expect("test, sheet", navorzim_test_survivors(NULL, 0, disks, 1, 1, stripe, 2).number, 1);
    expect("test, disks", navorzim_test_survivors(sheet, 22, NULL, 0, 1, stripe, 2).number, 24);
    expect("test, stripe", navorzim_test_survivors(sheet, 22, disks, 1, 1, NULL, 0).number, 32);
}

static void looking(void) {
    expect("strip, all", navorzim_strip_verdict(NULL, 0, 0, 1, NULL, 0).number, 1);
    expect("strip, sheet", navorzim_strip_verdict(NULL, 0, 0, 1, stripe, 2).number, 1);
    expect("strip, stripe", navorzim_strip_verdict(sheet, 22, 0, 1, NULL, 0).number, 32);
    expect("look up, all", navorzim_look_up_verdict(NULL, 0, 0, 1, NULL, 0, NULL, 0, 0).number, 1);
    expect("look up, sheet", navorzim_look_up_verdict(NULL, 0, 0, 1, stripe, 2, spare, 1, 0).number, 1);
    expect("look up, stripe", navorzim_look_up_verdict(sheet, 22, 0, 1, NULL, 0, spare, 1, 0).number, 32);
    expect("look up, spare", navorzim_look_up_verdict(sheet, 22, 0, 1, stripe, 2, NULL, 0, 0).number, 35);
    expect("length of no strip", navorzim_strip(NULL, 0, 0, 1, stripe, 2).length, 0);
    expect("length of no strip", navorzim_strip(sheet, 22, 0, 1, NULL, 0).length, 0);
    expect("length of no symbol", navorzim_look_up(NULL, 0, 0, 1, stripe, 2, spare, 1, 0).length, 0);
    expect("length of no symbol", navorzim_look_up(sheet, 22, 0, 1, NULL, 0, spare, 1, 0).length, 0);
    expect("length of no symbol", navorzim_look_up(sheet, 22, 0, 1, stripe, 2, NULL, 0, 0).length, 0);
}

int main(void) {
    families_and_encoding();
    checking_and_planning();
    several_disks();
    pricing();
    rebuilding();
    survivors();
    looking();
    /* the same array and plan, with all their bytes */
    expect("encode", navorzim_encode(sheet, 22, 1, contents, 1, stripe, 2).number, 0);
    expect("rebuild", navorzim_rebuild(sheet, 22, 0, plan, 12, 1, stripe, 2).number, 0);
    if (!wrong) printf("NULL with length 0 is taken for every buffer\n");
    return wrong;
}
