/* navorzim.h: plan, check and rebuild for small disk arrays that are coded with XOR.
 *
 * The functions are in libnavorzim, which `sh install.sh --prefix DIR` proves and installs: `pkg-config --cflags --libs navorzim` says how
 * to compile and link. Without an installation they are in libcapi.a, which `sh library.sh` writes to target/staticlib/ (x86-64 Linux,
 * position independent).
 * Each of them is proved to answer, and to leave in every buffer, what its paragraph below says, for any input: no argument has to be
 * tested by the caller first. What the caller owes is under "Buffers". docs/RULES.md has the rules whole, with worked cases.
 *
 *
 * The parameters, in the order in which they come
 *
 *   n            disks in the array                                       2 to 64
 *   r            symbols on each disk: the rows                           1 to 32
 *   N            symbols in the array, n * r                              at most 64
 *   K            data symbols                                             1 to 64
 *   L            bytes in a symbol                                        1 to 65,536
 *
 *   sheet        a code sheet: n, r, K and the generator matrix           22 to 518 bytes, 6 + 8 * N
 *   plan         a plan sheet: the steps that rebuild one disk or more,   9 to 3,210 bytes, see below
 *                or some of their symbols
 *   disk         the failed disk, or the one asked for                    0 to n - 1
 *   disks        the failed disks, a byte each, rising                    1 to n bytes
 *   wanted       the numbers of the symbols to be rebuilt, a byte each,   for one disk 1 to r bytes; for a list of disks
 *                rising, all on failed disks                              0 to all their symbols, and 0 wants them all
 *   size         L
 *   contents     the data symbols one after the other                     K * L bytes
 *   stripe       all symbols one after the other; symbol s, which is      N * L bytes
 *                row s % r of disk s / r, at bytes s * L up to (s + 1) * L
 *   spare        the strip of the failed disk, on another disk            r * L bytes
 *   symbol       a symbol's number, disk * r + row                        0 to N - 1
 *   buffer       where a code sheet is to be written                      as long as the sheet, or longer
 *                where a plan sheet is to be written                      3,081 bytes or more; with wanted symbols 3,114 or more;
 *                                                                         for a list of disks 3,210 or more
 *   kinds        what each disk is, a byte each: 0 away, 1 idle, 2 busy   n bytes; what comes after them isn't looked at
 *   prices       what a symbol of each disk costs, a double each          0 to 1,000,000, of disks that are idle or busy
 *   factors      by how much more a busy disk costs, a double each        1 to 64, of disks that are busy
 *   index        which of several patterns or equations, from 0           any number
 *   .._length    the bytes of the buffer named before it; of prices and
 *                factors, the doubles
 *
 * A symbol is the XOR of the data symbols whose bits are set in its row of the generator matrix. Bit 0 is the lowest.
 *
 *
 * Plan sheets
 *
 * A plan rebuilds the WANTED symbols of the failed disks. A sheet of edition 1 wants the whole of one disk; one of edition 2 lists m
 * symbols of one disk; one of edition 3 lists d disks, and m of their symbols or, with m = 0, wants all of them.
 *
 *   byte of edition 1, 2, 3             holds
 *   0        0        0                 6 in editions 1 and 2, 5 in edition 3
 *   1        1        1                 the edition
 *   2, 3, 4  2, 3, 4  2, 3, 4           n, r, K
 *                     5                 how many symbols are read
 *   5        5                          the failed disk
 *                     6                 d, 1 to n
 *                     7                 the d failed disks, a byte each, rising
 *   6        6                          how many symbols are read
 *            7        7 + d             m: 1 to r in edition 2, 0 to d * r in edition 3
 *            8        8 + d             the m wanted symbols, a byte each, rising, all on failed disks
 *   7        8 + m    8 + d + m         how many steps, at most 1,024, in 2 bytes, low byte first
 *   9        10 + m   10 + d + m        the steps, 3 bytes each
 *
 * A step is kind, target, source. Kind 0, clear: the target becomes zero, and the source byte is 0. Kind 1, copy: the target becomes the
 * source. Kind 2, add: the target becomes target XOR source. A target is a wanted symbol. A source survives, or is a wanted symbol that an
 * earlier step has filled; clear and copy fill their target, add needs it filled.
 * The symbols that are read are the distinct surviving sources of copies and adds.
 *
 *
 * How much is gone
 *
 * Where no plan can be, planning answers d PATTERNS: at least 1, and at most as many as there are wanted symbols. A pattern is a set of data
 * symbols, as K bits: bit t is data symbol t. Its STRIPE is that of the data in which the symbols of the set bits are 01 bytes and the others
 * 0. It is 0 on every surviving disk: the survivors can't tell a stripe from the XOR of it and the pattern's.
 *
 * Take two data disks of one symbol, d0 and d1, and a parity disk, d0 XOR d1. With both data disks lost there is one pattern, 3, which is d0
 * and d1. Two symbols are lost, but only one is gone: their XOR survives, and who finds one of them has the other. With all three disks lost
 * there are two patterns, like 1 and 2.
 *
 * In general, look at one bit of each symbol, the same one in all of them. The survivors leave 2^d possibilities for these bits of the wanted
 * symbols, and any two of those differ by the XOR of the patterns' stripes for exactly one choice among the d patterns. d is 0 exactly where
 * there is a plan. A wanted symbol in which the stripes of all d patterns are 0 is known all the same, and has a plan by itself.
 * Which d patterns are answered is left open. They are the same whenever the same is asked.
 *
 *
 * The fewest reads
 *
 * Take four disks of two symbols: a and b; c and d; a XOR c and b XOR d; a XOR d and b XOR c. The first disk is lost. Row by row, a is made of
 * c and a XOR c, and b of d and b XOR d: 4 symbols are read. But b is also made of c and b XOR c, and c is read already: 3 are enough.
 *
 * navorzim_plan_fewest answers a plan whose read count no accepted plan goes below: none of any length, also of more steps than a sheet can
 * have, and none of any edition, that wants the same symbols when the same disks are lost. It looks for a smallest set of survivors that is
 * enough, and that may take twice as long with each survivor more. So it is for small arrays: where more than 16 symbols survive it refuses
 * (41), whether or not there is a plan, and navorzim_plan_disks is left.
 *
 *   navorzim_planned planned = navorzim_plan_fewest(sheet, sheet_length, disks, disks_length, NULL, 0, buffer, buffer_length);
 *   if (planned.number == 41) ..          planned.place symbols survive: ask navorzim_plan_disks, with the same arguments
 *
 *
 * Disks that cost more to read
 *
 * Take the same four disks, with the first lost. All others are idle, and each symbol of them costs 1. The plan that reads c, a XOR c and
 * b XOR c costs 3. Now the third disk, which has a XOR c and b XOR d, is busy, and its symbols cost ten times as much: the same plan costs 12.
 * The plan that reads c, d, a XOR d and b XOR c costs 4, and leaves the busy disk alone. With the third disk away no other is left.
 *
 * navorzim_plan_priced is told the STATE of each disk: AWAY, or IDLE at a price per symbol, or BUSY at a price and a factor. A disk's CHARGE is
 * the number of its symbols that the plan reads times its price, and then, if it is busy, times its factor. The SUM starts at 0 and adds
 * the charges in the order of the disks. Each product and each addition is rounded once, to the nearest double, the even one of two as near.
 * So the sum is fixed to the bit: charges of 0.1, 0.2 and 0.3 have the sum 0.6000000000000001, and in the other order it would be 0.6.
 *
 * An away disk counts as lost, and of what is on it only what was asked for is wanted. The plan lists it among the lost disks: checking and
 * rebuilding are asked about all of these, and a rebuild keeps the bytes of what isn't wanted.
 *
 * The call starts from the plan that navorzim_plan_disks has for these lost disks and wanted symbols. In it each wanted symbol is the XOR of a
 * set of survivors. A SWAP XORs one such set with one equation of navorzim_equations for these lost disks, whose symbols XOR to 0: the set is
 * another one for the same symbol. A swap is made only if it lowers the sum. The answer is SETTLED if no single swap lowers the sum any more;
 * else it was STOPPED, after 1,024 swaps. Which swaps are made is left open. A settled plan need not be the cheapest: two swaps together might
 * lower the sum where neither does alone.
 *
 *   const uint8_t kinds[] = {0, 1, 2, 1};                  disk 0 is lost, and no price of it matters; disk 2 is busy
 *   const double prices[] = {0, 1, 1, 1}, factors[] = {0, 0, 10, 0};
 *   navorzim_priced priced = navorzim_plan_priced(sheet, sheet_length, disks, disks_length, NULL, 0, kinds, 4, prices, 4, factors, 4, buffer,
 *                                                 buffer_length);
 *   if (priced.number == 42) ..           disk priced.place can't be in its state
 *   else if (priced.length != 0) ..       a plan, for priced.sum
 *
 *
 * Before a rebuild: can the survivors be sound?
 *
 * A rebuild believes what it reads. Where the survivors have symbols to spare, they can be held against each other first. An EQUATION is a set
 * of surviving symbols that XOR to 0 in every valid stripe: their rows of the generator matrix sum to zero. The survivors are SOUND if some
 * valid stripe agrees with them on every byte. They are so exactly if, in each byte column, all equations hold.
 *
 * Take three data disks of one symbol, d0, d1 and d2, and two parity disks, d0 XOR d1 XOR d2 and d0 XOR d1. With disk 0 lost there is one
 * equation: disks 2, 3 and 4 XOR to 0. A changed byte on one of them is found, and one on disk 1 is not: every d0 and d1 with the same XOR
 * give these parities. With both parity disks lost there is none, and any survivors are sound. A symbol whose row is zero is an equation by
 * itself: it must be 0.
 *
 *   navorzim_tested tested = navorzim_test_survivors(sheet, sheet_length, disks, disks_length, L, stripe, stripe_length);
 *   if (tested.number != 0) ..            refused, nothing was tested
 *   else if (tested.sound) ..             rebuild: no valid stripe is ruled out
 *   else ..                               byte tested.column of some surviving symbol is wrong; a rebuild would spread it
 *
 * The test doesn't say which symbol is wrong, and what no equation shows it can't find: sound isn't the same as right. The lost strips aren't
 * looked at. A list of no disks is refused (24): of an array with all disks there, name one, and compare its strip with what its plan makes.
 *
 *
 * Answers and refusals
 *
 * Every answer but a navorzim_part has `number` and `place`. Number 0 with place 0: nothing was refused. Otherwise the call refused its input
 * for the reason with that number, the first in its order, its other values are 0, and NO BYTE of any buffer has changed. The place is 0
 * but where the table names one.
 *
 *   number  given when                                                                 place
 *    1, 2   the code sheet is too short, too long
 *    3      its first count isn't 4, or its second isn't N
 *    4      its edition isn't 1
 *    5      its n, r, N or K is beyond a limit
 *    6      a bit at K or above is set in its matrix                                   row * 64 + bit of the first
 *    7      a disk that is asked about, or that the plan sheet lists, isn't below n
 *   11, 12  the plan sheet is too short, too long
 *   13      its first count isn't 6 or 5, or it has more than 1,024 steps
 *   14      its edition isn't 1 or 2 with first count 6, or 3 with first count 5
 *   15      its n, r or K isn't the code's
 *   16      its failed disks aren't those asked about
 *   17      a step's kind is above 2, a number isn't below N, or a clear has a source  the step, from 0
 *   18      a step's target isn't a wanted symbol                                      the step
 *   19      a step uses a lost place that no earlier step has filled                   the step
 *   20      a wanted symbol is never filled                                            the lowest: its row of the disk, or in
 *                                                                                      edition 3 its number
 *   21      a wanted symbol ends wrong                                                 the lowest, as for 20, times 64, plus the
 *                                                                                      lowest data symbol that is off
 *   22      the plan's read count isn't the true one                                   the true count
 *   23      the list of wanted symbols has more entries than there are lost symbols,   0
 *           or, in edition 2 and for navorzim_plan_wanted, none
 *           an entry isn't above the one before it, or isn't on a failed disk          its position in the list, from 0
 *   24      the list of failed disks has no entry, or more than n                      0
 *           an entry isn't above the one before it                                     its position in the list, from 0
 *   25      a copy or add has its target for its source                                the step
 *   31      L is 0 or above 65,536
 *   32      the stripe isn't N * L bytes
 *   33      the data aren't K * L bytes
 *   34      the plan buffer has fewer than 3,081 bytes, than 3,114 with wanted
 *           symbols, or than 3,210 for a list of disks
 *   35      the spare strip isn't r * L bytes
 *   36      the family has no such parameters, or its n, N or r is above a limit
 *   37      the sheet buffer is shorter than the sheet to be written
 *   38      the symbol isn't below N
 *   41      more than 16 symbols survive, too many for navorzim_plan_fewest            how many survive
 *   42      a disk is in no state that there is: its kind is above 2, it is idle or    the lowest such disk
 *           busy and its price isn't 0 to 1,000,000, it is busy and its factor isn't
 *           1 to 64, or one of these isn't there
 *
 * The order of "the code sheet's" is 1 (under 6 bytes), 3 (first count), 4, 5, 3 (second count), 1, 2, 6.
 *
 * That of "the plan sheet's" is 11 (under 9 bytes), 13 (first count), 14, 15; then by its edition
 *
 *   1   16, 13 (steps)
 *   2   16, 11 (the sheet ends before the step count does), 13 (steps), 23
 *   3   11 (the sheet ends before the step count does), 13 (steps), 7 (over the list of disks), 24, 16, 23
 *
 * and 11, 12; then 17, 18, 25, 19 of each step in turn; then 20 over the wanted symbols, 21 over the wanted symbols, 22.
 *
 * That of a list is its count, then its entries in turn. A list of disks that is asked about is tested for 7, over all of it, then 24.
 *
 *
 * Buffers
 *
 * A buffer is a pointer and a length in bytes; no alignment is asked for. All its bytes must be readable, and writable where the
 * pointer is not to const. A buffer that a call writes must not overlap any other buffer of that call; those that it only reads may. Nobody
 * else may write any of them while the call runs. A length of 0 may go with any pointer, NULL too: nothing is read or written through it.
 * Only prices and factors are doubles: they are aligned as C aligns these, and their length is the number of doubles.
 * No call keeps a pointer, allocates, does input or output, or has any state: calls on different buffers may run in as many threads as
 * there are. A code or a plan is never remembered from one call to the next; every call reads and tests its sheets anew.
 *
 * navorzim_plan_priced calculates as a C program does when it starts: doubles are rounded to the nearest, and tiny ones aren't taken for 0. A
 * thread that has changed this (fesetround, or an option like -ffast-math, which may change it for the whole program) has another sum.
 */
#ifndef NAVORZIM_H
#define NAVORZIM_H

#include <stddef.h>
#include <stdint.h>

/* The version of this header and of the library that it came with. A call that is there changes only with the first number, or before
 * 1.0.0 with the second: programs find the shared library by these. */
#define NAVORZIM_VERSION_MAJOR 0
#define NAVORZIM_VERSION_MINOR 2
#define NAVORZIM_VERSION_PATCH 3
#define NAVORZIM_VERSION "0.2.3"

/* Every answer may be a refusal, so a compiler warns where one is thrown away. */
#if defined(__cplusplus) && __cplusplus >= 201703L
#define NAVORZIM_ANSWER [[nodiscard]]
#elif defined(__STDC_VERSION__) && __STDC_VERSION__ >= 202311L
#define NAVORZIM_ANSWER [[nodiscard]]
#elif defined(__GNUC__)
#define NAVORZIM_ANSWER __attribute__((warn_unused_result))
#else
#define NAVORZIM_ANSWER
#endif

/* C before 1999 has no inline. */
#if defined(__cplusplus) || (defined(__STDC_VERSION__) && __STDC_VERSION__ >= 199901L)
#define NAVORZIM_INLINE static inline
#elif defined(__GNUC__)
#define NAVORZIM_INLINE static __inline__
#else
#define NAVORZIM_INLINE static
#endif

#ifdef __cplusplus
extern "C" {
#endif

/* Lengths of buffers that always suffice. No code sheet is longer than the first. A buffer for navorzim_plan must have 3,081 bytes or more,
 * and one for navorzim_plan_wanted 3,114 or more: the second is enough for both. A buffer for navorzim_plan_disks, navorzim_plan_fewest or
 * navorzim_plan_priced must have as many bytes as the third, or more, and no plan sheet is longer. */
#define NAVORZIM_SHEET_BYTES 518
#define NAVORZIM_PLAN_BYTES 3114
#define NAVORZIM_PLAN_DISKS_BYTES 3210

/* Nothing refused (0, 0), or the refusal. */
typedef struct {
    uint64_t number, place;
} navorzim_verdict;

/* The code that was read: n, r, K and N; all 0 on a refusal. */
typedef struct {
    uint64_t number, place, disks, rows, data_symbols, symbols;
} navorzim_code;

/* The length of the code sheet that was written; 0 on a refusal. */
typedef struct {
    uint64_t number, place, length;
} navorzim_sheet;

/* Number 0: accepted. reads: how many distinct surviving symbols the plan reads. */
typedef struct {
    uint64_t number, place, reads;
} navorzim_checked;

/* Exactly one of number, length and patterns is not 0. number: refused. length: a plan of so many bytes, and it reads so many symbols.
 * patterns: no plan exists, and so many patterns say how much is gone. pattern is the first of them: bit t stands for data symbol t.
 * pattern_high has the bits of data symbols from 64 on: 0, since K is at most 64. navorzim_lost_pattern answers each of them.
 * The last two fields are new. A program that was compiled when this struct ended with pattern must be compiled anew. */
typedef struct {
    uint64_t number, place, length, reads, pattern, pattern_high, patterns;
} navorzim_planned;

/* Exactly one of number, length and patterns is not 0. number: refused. length: a plan of so many bytes; it reads so many symbols for this sum,
 * and settled is 1, or 0 where it was stopped. patterns: no plan avoids the away disks, and so many patterns say how much is gone; pattern is
 * the first of them, and pattern_high has the bits of data symbols from 64 on. settled and sum are 0 where there is no plan. */
typedef struct {
    uint64_t number, place, length, reads, settled;
    double sum;
    uint64_t pattern, pattern_high, patterns;
} navorzim_priced;

/* A set of data symbols, or for navorzim_equation of symbols: bit t of low stands for number t, bit t of high for number 64 + t. Both are 0
 * on a refusal. */
typedef struct {
    uint64_t number, place, low, high;
} navorzim_set;

/* How many equations there are; 0 on a refusal. */
typedef struct {
    uint64_t number, place, count;
} navorzim_count;

/* Number 0: tested. sound is 1, and column 0; or sound is 0, and column, below L, is the lowest byte column that shows it. Both are 0 on a
 * refusal. */
typedef struct {
    uint64_t number, place, sound, column;
} navorzim_tested;

/* Bytes start up to start + length of slice 0, the stripe, or of slice 1, the spare strip. Length 0: refused. */
typedef struct {
    uint64_t slice, start, length;
} navorzim_part;


/* ---------------------------------------------------------------------------------------------------------------------------------
 * Codes by name. Each writes the family's code sheet, 6 + 8 * N bytes, to the front of the buffer and answers its length; the bytes after
 * it stay. Data disk c, row j is data symbol c * r + j; the parity disks follow the data disks.
 * Refusals: 36, 37. */

/* One parity disk, the XOR of the data disks. data_disks is 1 to 63, rows is 1 to 32, and N = (data_disks + 1) * rows is at most 64. */
NAVORZIM_ANSWER
navorzim_sheet navorzim_single_parity(uint64_t data_disks, uint64_t rows, uint8_t *buffer, size_t buffer_length);

/* Liberation (Plank): w is 3, 5 or 7, data_disks 2 to w; r = w, two parity disks. */
NAVORZIM_ANSWER
navorzim_sheet navorzim_liberation(uint64_t w, uint64_t data_disks, uint8_t *buffer, size_t buffer_length);

/* Row-diagonal parity (Corbett and others): p is 3, 5 or 7; p - 1 data disks, r = p - 1, two parity disks. The diagonals go over the data
 * disks and the row parity disk. Sheets from before that was corrected, with P left out of the diagonals, are codes like any other. */
NAVORZIM_ANSWER
navorzim_sheet navorzim_row_diagonal(uint64_t p, uint8_t *buffer, size_t buffer_length);

/* EVENODD (Blaum, Brady, Bruck and Menon): p is 3, 5 or 7; p data disks, r = p - 1, two parity disks. */
NAVORZIM_ANSWER
navorzim_sheet navorzim_evenodd(uint64_t p, uint8_t *buffer, size_t buffer_length);


/* ---------------------------------------------------------------------------------------------------------------------------------
 * Read a code sheet: is it good, and what are its n, r, K and N? With them a caller knows how long the other buffers must be. Writes nothing.
 * Refusals: the code sheet's. */
NAVORZIM_ANSWER
navorzim_code navorzim_read_code(const uint8_t *sheet, size_t sheet_length);

/* ---------------------------------------------------------------------------------------------------------------------------------
 * Encode: writes the whole stripe, N * L bytes, from the K data symbols; the data stay as they are.
 * Refusals: the code sheet's, 31, 33, 32. */
NAVORZIM_ANSWER
navorzim_verdict navorzim_encode(const uint8_t *sheet, size_t sheet_length, uint64_t size, const uint8_t *contents, size_t contents_length,
                                 uint8_t *stripe, size_t stripe_length);

/* ---------------------------------------------------------------------------------------------------------------------------------
 * Check: is this plan right for this code and this failed disk? It is accepted exactly when it brings back every wanted symbol of every
 * valid stripe, whatever the lost strip holds, from surviving symbols and wanted places that it has filled itself, writes no other place,
 * and states the number of symbols that it reads. Plan sheets of all editions are taken. Writes nothing.
 * Refusals: the code sheet's, 7, the plan sheet's. */
NAVORZIM_ANSWER
navorzim_checked navorzim_check(const uint8_t *sheet, size_t sheet_length, uint64_t disk, const uint8_t *plan, size_t plan_length);

/* Check for a list of failed disks: is this plan right for this code when all of these disks have failed? As navorzim_check, which asks
 * about the list of its one disk. A plan for other disks, some of these or more than these, is refused (16).
 * Refusals: the code sheet's, 7, 24, the plan sheet's. */
NAVORZIM_ANSWER
navorzim_checked navorzim_check_disks(const uint8_t *sheet, size_t sheet_length, const uint8_t *disks, size_t disks_length,
                                      const uint8_t *plan, size_t plan_length);

/* ---------------------------------------------------------------------------------------------------------------------------------
 * Plan: how can this disk be rebuilt from the others?
 * If it can, a plan sheet of edition 1 is written to the front of the buffer, which must have 3,081 bytes or more, and its length and read
 * count are answered; the bytes after it stay. The plan has at most r * (N - r) steps, and navorzim_check accepts these very bytes with
 * this very count. It need not be the one that reads the fewest symbols.
 * If it can't, by any plan of any length, nothing is written. Answered are the number of patterns and the first of them, whose stripe is 0 on
 * every surviving disk and not 0 on the lost one ("How much is gone", above).
 * Refusals: the code sheet's, 7, 34. */
NAVORZIM_ANSWER
navorzim_planned navorzim_plan(const uint8_t *sheet, size_t sheet_length, uint64_t disk, uint8_t *buffer, size_t buffer_length);

/* Plan for some symbols: how can the wanted symbols of this disk, and no others, be rebuilt? That may be possible where the whole disk is
 * beyond help, and may read fewer symbols. The list is bytes, one for each wanted symbol's number: 1 to r of them, rising, all on the disk.
 * If it can be done, a plan sheet of edition 2 with exactly this list is written to the front of the buffer, which must have 3,114 bytes or
 * more, and its length and read count are answered; the bytes after it stay. The plan has at most r * (N - r) steps, and navorzim_check
 * accepts these very bytes with this very count. It need not be the one that reads the fewest symbols.
 * If it can't, by any plan of any length, nothing is written. Answered are the number of patterns and the first of them, whose stripe is 0 on
 * every surviving disk and not 0 in some wanted symbol ("How much is gone", above).
 * Refusals: the code sheet's, 7, 23, 34. */
NAVORZIM_ANSWER
navorzim_planned navorzim_plan_wanted(const uint8_t *sheet, size_t sheet_length, uint64_t disk, const uint8_t *wanted, size_t wanted_length,
                                      uint8_t *buffer, size_t buffer_length);

/* Plan for a list of failed disks: how can they, or the wanted symbols of them, be rebuilt from the other disks? The disks are bytes, 1 to
 * n of them, rising. The wanted symbols are bytes too, rising, all on these disks; without any (length 0) all symbols of these disks are
 * wanted.
 * If it can be done, a plan sheet of edition 3 with exactly these lists is written to the front of the buffer, which must have 3,210 bytes
 * or more, and its length and read count are answered; the bytes after it stay. Of N symbols with x lost the plan has at most x * (N - x)
 * steps, or, if no disk survives, at most one clear for each wanted symbol. navorzim_check_disks accepts these very bytes with this very
 * count. It need not be the one that reads the fewest symbols: for that, navorzim_plan_fewest is asked.
 * If it can't, by any plan of any length, nothing is written. Answered are the number of patterns and the first of them, whose stripe is 0 on
 * every surviving disk and not 0 in some wanted symbol ("How much is gone", above).
 * Refusals: the code sheet's, 7, 24, 23, 34. */
NAVORZIM_ANSWER
navorzim_planned navorzim_plan_disks(const uint8_t *sheet, size_t sheet_length, const uint8_t *disks, size_t disks_length,
                                     const uint8_t *wanted, size_t wanted_length, uint8_t *buffer, size_t buffer_length);

/* Plan with the fewest reads, for small arrays: asked like navorzim_plan_disks, where at most 16 symbols survive ("The fewest reads", above).
 * If it can be done, a plan sheet of edition 3 with exactly these lists is written to the front of the buffer, which must have 3,210 bytes
 * or more, and its length and read count are answered; the bytes after it stay. No plan of any length and edition that wants the same symbols
 * of the same disks, and would be accepted, reads fewer; which one with so few reads it is, is left open. Of N symbols with x lost the plan
 * has at most x * (N - x) steps, or, if no disk survives, at most one clear for each wanted symbol. navorzim_check_disks accepts these very
 * bytes with this very count.
 * If it can't, by any plan of any length, nothing is written, and the answer is that of navorzim_plan_disks: the number of patterns and the
 * first of them ("How much is gone", above). navorzim_lost_pattern answers each of them.
 * Where more than 16 symbols survive it refuses with 41, and the place is their number, whether or not there is a plan. None, and 16, are few
 * enough.
 * Refusals: the code sheet's, 7, 24, 23, 34, 41. */
NAVORZIM_ANSWER
navorzim_planned navorzim_plan_fewest(const uint8_t *sheet, size_t sheet_length, const uint8_t *disks, size_t disks_length,
                                      const uint8_t *wanted, size_t wanted_length, uint8_t *buffer, size_t buffer_length);

/* Plan where disks cost more to read or less: asked like navorzim_plan_disks, and told the state of each disk ("Disks that cost more to read",
 * above). kinds has a byte for each disk, 0 away, 1 idle, 2 busy; prices and factors have a double for each disk. What a kind doesn't use isn't
 * looked at, and need not be there: price and factor of an away disk, the factor of an idle one. The same goes for entries from n on. The states
 * of the disks asked about are tested like all others. -0.0 is a price, like 0; what is no number, infinite or negative is none.
 * The lost disks are those asked about and those away. If it can be done, a plan sheet of edition 3 is written to the front of the buffer, which
 * must have 3,210 bytes or more. It lists all lost disks, and the wanted symbols one by one: those of the list, or without one all symbols of
 * the disks asked about, away or not. Its length, its read count, its sum, and whether it is settled or stopped are answered; the bytes after it
 * stay. It reads the symbols of the final sets and no other, and its sum is never above that of the plan that navorzim_plan_disks has for these
 * lost disks and this list. Of N symbols with x lost it has at most x * (N - x) steps, or, if no disk survives, at most one clear for each
 * wanted symbol. navorzim_check_disks, asked about all lost disks, accepts these very bytes with this very count.
 * If no plan of any length avoids the away disks, nothing is written. Answered are the number of patterns and the first of them ("How much is
 * gone", above), as of navorzim_plan_disks for these lost disks and wanted symbols. navorzim_lost_pattern answers each, asked about all lost
 * disks, with the wanted symbols one by one.
 * Refusals: the code sheet's, 7, 24, 23, 34, 42. */
NAVORZIM_ANSWER
navorzim_priced navorzim_plan_priced(const uint8_t *sheet, size_t sheet_length, const uint8_t *disks, size_t disks_length,
                                     const uint8_t *wanted, size_t wanted_length, const uint8_t *kinds, size_t kinds_length,
                                     const double *prices, size_t prices_length, const double *factors, size_t factors_length,
                                     uint8_t *buffer, size_t buffer_length);

/* One of the patterns that say how much is gone: where navorzim_plan_disks has no plan for these lists, number `index`, from 0, of the d
 * patterns that it answers. For those of navorzim_plan and navorzim_plan_wanted the list of disks has their one disk. From d on, and where
 * there is a plan, low and high are 0, which no pattern is: a program may ask from 0 on until both are 0. Every call plans anew. It asks for
 * no buffer, and writes nothing.
 * Refusals: the code sheet's, 7, 24, 23. */
NAVORZIM_ANSWER
navorzim_set navorzim_lost_pattern(const uint8_t *sheet, size_t sheet_length, const uint8_t *disks, size_t disks_length, const uint8_t *wanted,
                                   size_t wanted_length, uint64_t index);

/* ---------------------------------------------------------------------------------------------------------------------------------
 * Rebuild: checks the plan, on every call, and then runs its steps on the stripe. The wanted symbols are written, and all other bytes stay,
 * also those of lost symbols that aren't wanted. A plan of edition 1 wants the whole disk: the r * L bytes from byte disk * r * L on. Of a
 * valid stripe with its wanted symbols ruined it makes that stripe again. What is written never depends on what the lost strip held.
 * Refusals: those of navorzim_check, 31, 32. */
NAVORZIM_ANSWER
navorzim_verdict navorzim_rebuild(const uint8_t *sheet, size_t sheet_length, uint64_t disk, const uint8_t *plan, size_t plan_length,
                                  uint64_t size, uint8_t *stripe, size_t stripe_length);

/* Rebuild for a list of failed disks: as navorzim_rebuild, which is asked about the list of its one disk. A plan of edition 3 that lists no
 * wanted symbols writes the strips of all these disks. What is written never depends on what any lost strip held.
 * Refusals: those of navorzim_check_disks, 31, 32. */
NAVORZIM_ANSWER
navorzim_verdict navorzim_rebuild_disks(const uint8_t *sheet, size_t sheet_length, const uint8_t *disks, size_t disks_length,
                                        const uint8_t *plan, size_t plan_length, uint64_t size, uint8_t *stripe, size_t stripe_length);

/* ---------------------------------------------------------------------------------------------------------------------------------
 * Test the survivors: when these disks have failed, is there a valid stripe that agrees with this one on every byte of the other disks?
 * sound is 1 exactly if there is. If there is none, sound is 0, and column is the lowest byte column within a symbol, 0 to L - 1, for which
 * there is none: no valid stripe agrees with this one on byte `column` of every surviving symbol, and for each lower column some does. What
 * the strips of the failed disks hold doesn't matter. With all disks lost the answer is sound. Writes nothing.
 * Refusals: the code sheet's, 7, 24, 31, 32. */
NAVORZIM_ANSWER
navorzim_tested navorzim_test_survivors(const uint8_t *sheet, size_t sheet_length, const uint8_t *disks, size_t disks_length, uint64_t size,
                                        const uint8_t *stripe, size_t stripe_length);

/* The equations among the survivors: how many there are in a list of them when these disks have failed. Each is a set of surviving symbols
 * whose rows sum to zero. They are enough: whatever survives is sound exactly if it meets all of them, in every byte column. Which list it is
 * is left open. It is the same whenever the same is asked. There may be none: then any survivors are sound. Writes nothing.
 * Refusals: the code sheet's, 7, 24. */
NAVORZIM_ANSWER
navorzim_count navorzim_equations(const uint8_t *sheet, size_t sheet_length, const uint8_t *disks, size_t disks_length);

/* One of these equations: the symbols of number `index`, from 0, as bits. From the count on low and high are 0. Every call works the list out
 * anew. Writes nothing.
 * Refusals: the code sheet's, 7, 24. */
NAVORZIM_ANSWER
navorzim_set navorzim_equation(const uint8_t *sheet, size_t sheet_length, const uint8_t *disks, size_t disks_length, uint64_t index);

/* ---------------------------------------------------------------------------------------------------------------------------------
 * One strip: where the r * L bytes of a disk stand in the stripe (slice 0). Reads the sheet alone; writes nothing. Where it refuses, the
 * answer is 0, 0, 0, and the verdict of the same arguments says why; where it doesn't, that verdict is 0, 0.
 * Refusals: the code sheet's, 7, 31, 32. */
NAVORZIM_ANSWER
navorzim_part navorzim_strip(const uint8_t *sheet, size_t sheet_length, uint64_t disk, uint64_t size, const uint8_t *stripe,
                             size_t stripe_length);
NAVORZIM_ANSWER
navorzim_verdict navorzim_strip_verdict(const uint8_t *sheet, size_t sheet_length, uint64_t disk, uint64_t size, const uint8_t *stripe,
                                        size_t stripe_length);

/* ---------------------------------------------------------------------------------------------------------------------------------
 * Look up: where the L bytes of a symbol stand while `disk` is away and its strip is on a spare: a symbol that survives in the stripe
 * (slice 0), a lost one in the spare strip (slice 1). Reads the sheet alone; writes nothing. A refusal is as with one strip.
 * Refusals: the code sheet's, 7, 31, 32, 35, 38. */
NAVORZIM_ANSWER
navorzim_part navorzim_look_up(const uint8_t *sheet, size_t sheet_length, uint64_t disk, uint64_t size, const uint8_t *stripe,
                               size_t stripe_length, const uint8_t *spare, size_t spare_length, uint64_t symbol);
NAVORZIM_ANSWER
navorzim_verdict navorzim_look_up_verdict(const uint8_t *sheet, size_t sheet_length, uint64_t disk, uint64_t size, const uint8_t *stripe,
                                          size_t stripe_length, const uint8_t *spare, size_t spare_length, uint64_t symbol);


/* ---------------------------------------------------------------------------------------------------------------------------------
 * The sentence of a refusal's number, for a message; never NULL. What the place says is in the table above. */
NAVORZIM_INLINE const char *navorzim_reason(uint64_t number) {
    switch (number) {
    case 0: return "nothing was refused";
    case 1: return "the code sheet is too short";
    case 2: return "the code sheet is too long";
    case 3: return "a count of the code sheet is wrong: the first byte must be 4, byte 5 must be n * r";
    case 4: return "the code sheet's edition isn't 1";
    case 5: return "the code is beyond a limit: n is 2 to 64, r 1 to 32, n * r at most 64, K 1 to 64";
    case 6: return "a row of the code has a bit set that is not below K";
    case 7: return "the array has no such disk";
    case 11: return "the plan sheet is too short";
    case 12: return "the plan sheet is too long";
    case 13: return "a count of the plan sheet is wrong: the first byte must be 6 or 5, and there are at most 1,024 steps";
    case 14: return "the plan sheet's edition isn't 1 or 2 with first byte 6, or 3 with first byte 5";
    case 15: return "the plan was made for another layout: its n, r or K isn't the code's";
    case 16: return "the plan was made for another disk, or for other disks";
    case 17: return "a step is malformed";
    case 18: return "the target of a step isn't a wanted symbol";
    case 19: return "a step uses a lost place that no earlier step has filled";
    case 20: return "a wanted symbol is never filled";
    case 21: return "a wanted symbol ends wrong";
    case 22: return "the plan's read count is wrong";
    case 23: return "the list of wanted symbols is empty or too long, or an entry doesn't rise or isn't on a failed disk";
    case 24: return "the list of failed disks is empty or too long, or an entry doesn't rise";
    case 25: return "a step copies or adds a symbol onto itself";
    case 31: return "a symbol is 1 to 65,536 bytes long";
    case 32: return "the stripe isn't N symbols long";
    case 33: return "the data isn't K symbols long";
    case 34: return "a plan needs a buffer of 3,081 bytes or more, 3,114 with wanted symbols, 3,210 for a list of disks";
    case 35: return "the spare strip isn't r symbols long";
    case 36: return "the family has no code with these parameters";
    case 37: return "the buffer is shorter than the code sheet";
    case 38: return "the array has no such symbol";
    case 41: return "more than 16 symbols survive, too many to look for the fewest reads";
    case 42: return "a disk is neither away, nor idle at a price of 0 to 1,000,000, nor busy at such a price and a factor of 1 to 64";
    default: return "a refusal that this header has no sentence for";
    }
}

#ifdef __cplusplus
}
#endif

#endif
