"""The second program's judge of plans with the fewest reads, for small arrays: what planning for them may answer, worked out anew.

It doesn't search. All sets of survivors are tried, in the order of their size, and a set is enough if the wanted rows lie in the span of its
rows: the first size at which one is enough is the fewest. Which plan with so few reads is given is free, so a plan is judged, as planning's
are; and so are patterns, where no set is enough.

    python3 tests/second_fewest.py           runs its own test, on worked cases, on every plan of any length for tiny codes, on every family
                                             within range, and on planners that are wrong; then it judges the lines of
                                             crates/planvectors/stdout that were asked for the fewest reads, and the table in docs/RULES.md
    python3 tests/second_fewest.py table     prints that table
"""
import sys
from functools import cache, reduce
from itertools import combinations
from operator import xor
from pathlib import Path
from random import Random
from typing import Callable, Iterator, NamedTuple, Optional, Sequence, Union

import second_planner
from plans import fill, restorable, sources_of, survivors
from second import SQUARE, Code, Refusal, bits_of, changed, evenodd, liberation, rank, read_code, row_diagonal, sheet_of, single_parity
from second_checker import ADD, CLEAR, Disks, Step, read_count, set_sheet, steps_of
from second_planner import HALF, LOST, P8, P9, SET_BUFFER, Asked, Fault, Wish, echelon_form, for_disks, how_much_is_gone, judge_patterns
from second_planner import judge_plan, let_stand, planning_refusal, printed, wanted_rows

RULES = Path(__file__).resolve().parent.parent / "docs" / "RULES.md"
MOST_SURVIVORS = 16
RANDOM = Random(13)


def fewest_refusal(sheet: bytes, wish: Wish, buffer_length: int) -> Optional[Refusal]:
    """The order: code sheet, 7, 24, 23, 34, 41. Whether there is a plan is of no account."""
    refusal = planning_refusal(sheet, wish, buffer_length)
    if refusal:
        return refusal
    count = len(survivors(read_code(sheet), wish.disks))
    return Refusal(41, count) if count > MOST_SURVIVORS else None


# The smallest set


def smallest_set(code: Code, wish: Wish) -> Optional[list[int]]:
    """The first of the smallest sets of survivors that are enough; nothing where all of them are not."""
    known = survivors(code, wish.disks)
    chosen = smallest_choice(tuple(code.rows[symbol] for symbol in known), tuple(wanted_rows(code, wish)), code.data_symbols)
    return None if chosen is None else [known[at] for at in bits_of(chosen)]


def fewest_reads(code: Code, wish: Wish) -> Optional[int]:
    """As many as the smallest set has symbols: plans make sums of what they read, and each sum of it can be made."""
    chosen = smallest_set(code, wish)
    return None if chosen is None else len(chosen)


@cache
def smallest_choice(known: tuple[int, ...], wanted: tuple[int, ...], data_symbols: int) -> Optional[int]:
    """Of the known rows the first of the smallest sets that have the wanted rows in their span, as bits.

    A set is kept as all rows modulo its span, in one number: a field for each known row, and above them one for each wanted row. It is enough
    if nothing is left of the wanted rows. Another row joins it by being added to all fields that have its highest bit. A row that is in the
    span already has an empty field, and isn't tried: the set without it has the same span.
    """
    form, needed = echelon_form(known, data_symbols), echelon_form(wanted, data_symbols)
    if len(echelon_form(form + needed, data_symbols)) > len(form):
        return None
    # a row of the span is known by its bits in the columns in which the rows of the form begin
    columns = [row.bit_length() - 1 for row in form]
    fields = [sum((row >> column & 1) << bit for bit, column in enumerate(columns)) for row in (*known, *needed)]
    width, count = len(columns), len(known)
    ones, field = sum(1 << width * at for at in range(len(fields))), (1 << width) - 1
    sets = [(sum(row << width * at for at, row in enumerate(fields)), 0)]
    while True:
        for rows, chosen in sets:
            if rows >> width * count == 0:
                return chosen
        sets = [
            (rows ^ (rows >> row.bit_length() - 1 & ones) * row, chosen | 1 << at)
            for rows, chosen in sets
            for at in range(chosen.bit_length(), count)
            if (row := rows >> width * at & field)
        ]


# What was given


class Given(NamedTuple):
    """A plan sheet, and the read count of the answer."""

    plan: bytes
    reads: int


class Gone(NamedTuple):
    """The patterns that say how much is gone."""

    patterns: Sequence[int]


Answer = Union[Given, Gone, Refusal]


def judge(sheet: bytes, wish: Wish, buffer_length: int, answer: Answer) -> Fault:
    """Whether this may be answered: the right refusal; a plan that planning for edition 3 may give, with as few reads as there can be; or, where
    there is no plan, patterns that planning may give."""
    refusal = fewest_refusal(sheet, wish, buffer_length)
    if refusal or isinstance(answer, Refusal):
        return None if answer == refusal else f"{answer}, not {refusal}"
    if isinstance(answer, Gone):
        return judge_patterns(sheet, wish, answer.patterns) if answer.patterns else "neither a plan nor patterns"
    return judge_count(read_code(sheet), wish, answer.reads) or judge_plan(sheet, wish, answer.plan, answer.reads)


def judge_count(code: Code, wish: Wish, reads: int) -> Fault:
    fewest = fewest_reads(code, wish)
    if fewest is None:
        return "a plan, though a wanted symbol can't be rebuilt"
    return None if reads == fewest else f"{reads} reads, and the fewest are {fewest}"


def judge_line(asked: Asked, line: str) -> Fault:
    """Whether a line of the vectors may stand: as one of planning for the same lists, but for 41 and the read count."""
    refusal = fewest_refusal(asked.sheet, asked.wish, asked.buffer_length)
    if refusal:
        expected = f"refused {refusal.number} at {refusal.place} same"
        return None if line == expected else f"not '{expected}'"
    fault = second_planner.judge_line(asked, line)
    if fault or not line.startswith("plan "):
        return fault
    return judge_count(read_code(asked.sheet), asked.wish, int(line.split(" ")[2]))


# Families within range


def families() -> Iterator[tuple[str, Code]]:
    """Every family at every parameter."""
    for k, r in [(k, r) for r in range(1, 33) for k in range(1, 64) if (k + 1) * r <= 64]:
        yield f"single parity, k {k}, r {r}", single_parity(k, r)
    for w, k in [(w, k) for w in (3, 5, 7) for k in range(2, w + 1)]:
        yield f"Liberation, w {w}, k {k}", liberation(w, k)
    for p in (3, 5, 7):
        yield f"row-diagonal, p {p}", row_diagonal(p)
    for p in (3, 5, 7):
        yield f"EVENODD, p {p}", evenodd(p)


def sets_in_range(code: Code) -> list[tuple[int, ...]]:
    """Sets of disks that leave at most 16 survivors: all of them of up to 7 disks; of more disks some of the smallest and the set of all."""
    counts = [count for count in range(1, code.disks + 1) if (code.disks - count) * code.height <= MOST_SURVIVORS]
    if code.disks <= 7:
        return [disks for count in counts for disks in combinations(range(code.disks), count)]
    starts = sorted({0, (code.disks - counts[0]) // 2, code.disks - counts[0]})
    return [tuple(range(start, start + counts[0])) for start in starts] + [tuple(range(code.disks))]


# The table of the rules

TITLE = "| code | lost disk | survivors | planning reads | the fewest |"


def planning_reads() -> dict[tuple[bytes, int], int]:
    """What planning's plan for a whole disk reads, as crates/planvectors printed it."""
    lines = ((asked, line.split(" ")) for asked, line in zip(*printed()) if asked.kind == 0)
    return {(asked.sheet, asked.disk): int(words[2]) for asked, words in lines if words[0] == "plan"}


def table() -> list[str]:
    """One lost disk of each code that leaves at most 16 survivors, disks of the same numbers together. Single parity, which always reads all
    survivors, has one line."""
    ordinary = planning_reads()
    lines = [TITLE, "|---|---|---|---|---|", "| single parity, k × r at most 16 | any | k × r | k × r | k × r |"]
    for name, code in [("square code", SQUARE), *families()]:
        left = code.symbols - code.height
        if left > MOST_SURVIVORS:
            continue
        if name.startswith("single parity"):
            assert {reads for (sheet, _), reads in ordinary.items() if sheet == sheet_of(code)} == {left}, name
            continue
        reads = [(ordinary[sheet_of(code), disk], fewest_reads(code, for_disks([disk]))) for disk in range(code.disks)]
        for pair in sorted(set(reads), key=reads.index):
            disks = ", ".join(str(disk) for disk in range(code.disks) if reads[disk] == pair)
            lines.append(f"| {name} | {disks} | {left} | {pair[0]} | {pair[1]} |")
    return lines


# The program's own test

SQUARE_SHEET = sheet_of(SQUARE)
SAME = Code(4, 2, 2, (1, 2) * 4)
"""Each disk is a copy of every other."""

NOTHING = Code(3, 1, 1, (0, 0, 0))
LISTED = Code(2, 4, 3, (7, 1, 2, 4, 1, 2, 4, 7))
"""Symbol 0 alone is symbol 7. The first of the smallest sets for all of disk 0, symbols 4, 5 and 6, makes it of all three."""


def units(disks: int) -> Code:
    """So many disks of one symbol, each a data symbol that no other has."""
    return Code(disks, 1, disks, tuple(2**disk for disk in range(disks)))


def smallest_by_ranks(code: Code, wish: Wish) -> Optional[int]:
    """The size of the smallest set whose rank the wanted rows don't raise, by nothing but ranks."""
    wanted, known = wanted_rows(code, wish), survivors(code, wish.disks)
    for size in range(len(known) + 1):
        for tried in combinations(known, size):
            rows = [code.rows[symbol] for symbol in tried]
            if rank(rows + wanted) == rank(rows):
                return size
    return None


def fewest_of_all_plans(code: Code, wish: Wish) -> Optional[int]:
    """By the steps alone: all that plans of any length lead to. Where a plan stands is what its places hold, as rows, and what it has read."""
    known, places = survivors(code, wish.disks), list(wish.wanted(code))
    right = tuple(code.rows[place] for place in places)
    start: tuple[tuple[Optional[int], ...], int] = ((None,) * len(places), 0)
    reached, left = {start}, [start]
    while left:
        held, read = left.pop()
        read_now = [(code.rows[symbol], read | 1 << symbol) for symbol in known]
        for at, here in enumerate(held):
            sources = read_now + [(row, read) for other, row in enumerate(held) if other != at and row is not None]
            added = [] if here is None else [(here ^ row, after) for row, after in sources]
            for row, after in [(0, read), *sources, *added]:
                stands = (held[:at] + (row,) + held[at + 1 :], after)
                if stands not in reached:
                    reached.add(stands)
                    left.append(stands)
    return min((len(bits_of(read)) for held, read in reached if held == right), default=None)


def sets_of(code: Code) -> list[tuple[int, ...]]:
    """Every set of disks."""
    return [disks for count in range(1, code.disks + 1) for disks in combinations(range(code.disks), count)]


def some_of(items: Sequence[int]) -> list[int]:
    return sorted(RANDOM.sample(items, RANDOM.randrange(1, len(items) + 1)))


def wishes(code: Code, disks: Disks) -> list[Wish]:
    """All lost symbols; then lists: what can be rebuilt of them, some, and the last."""
    lost = for_disks(disks).lost(code)
    return [for_disks(disks)] + [for_disks(disks, listed) for listed in (restorable(code, disks), some_of(lost), lost[-1:]) if listed]


def any_code(disks: int, height: int, data_symbols: int) -> Code:
    """Random rows; every other time some of them are zero, equal, or sums of others."""
    rows: list[int] = []
    spoiled = RANDOM.randrange(2)
    for _ in range(disks * height):
        before, drawn = rows or [0], RANDOM.randrange(2**data_symbols)
        others = [0, RANDOM.choice(before), RANDOM.choice(before) ^ RANDOM.choice(before)]
        rows.append(RANDOM.choice([drawn] * 3 + others * spoiled))
    return Code(disks, height, data_symbols, tuple(rows))


def with_plan(code: Code, disks: Disks) -> Code:
    """The code with sums of survivors for its lost rows."""
    known, rows = survivors(code, disks), list(code.rows)
    for place in for_disks(disks).lost(code):
        rows[place] = reduce(xor, (rows[symbol] for symbol in known if RANDOM.randrange(2)), 0)
    return code._replace(rows=tuple(rows))


def any_question(most_disks: int, most_rows: int, most_data: int, most_survivors: int = MOST_SURVIVORS) -> tuple[Code, list[int]]:
    """A random code and lost disks, every other time with a plan."""
    code = any_code(RANDOM.randrange(2, most_disks + 1), RANDOM.randrange(1, most_rows + 1), RANDOM.randrange(1, most_data + 1))
    disks = some_of(range(code.disks))
    while len(survivors(code, disks)) > most_survivors:
        disks = some_of(range(code.disks))
    return (with_plan(code, disks) if RANDOM.randrange(2) else code), disks


def test_worked_cases() -> None:
    """The square code's disk 0 is 3. Row-diagonal is known to read three quarters of (p - 1) squared for each disk but Q."""
    known = [
        (SQUARE, [3, 3, 4, 4]),
        (row_diagonal(3), [3, 3, 3, 4]),
        (evenodd(3), [5, 5, 5, 5, 6]),
        (liberation(3, 2), [5, 5, 5, 6]),
        (liberation(3, 3), [7, 7, 7, 8, 9]),
        (liberation(5, 2), [8, 8, 9, 10]),
        (single_parity(4, 4), [16] * 5),
        (single_parity(16, 1), [16] * 17),
        (SAME, [2] * 4),
        (NOTHING, [0] * 3),
        (units(4), [None] * 4),
        (P9, [0, None]),
    ]
    for code, reads in known:
        assert [fewest_reads(code, for_disks([disk])) for disk in range(code.disks)] == reads, code
    assert smallest_set(SQUARE, for_disks([0])) == [2, 4, 7]
    by_list = [(SQUARE, [0], [0], 2), (SQUARE, [0], [1], 2), (SQUARE, [0, 2], [], 4), (SQUARE, [0, 2], [0, 4], 3), (SQUARE, [0, 1], [0], None)]
    by_list += [(HALF, [0], [1], 1), (HALF, [0], [0], None), (NOTHING, [0, 1, 2], [], 0), (P9, [0, 1], [0], 0), (P9, [0, 1], [], None)]
    by_list += [(LISTED, [0], [0], 1), (LISTED, [0], [0, 1], 2), (LISTED, [0], [], 3)]
    for code, disks, listed, reads in by_list:
        assert fewest_reads(code, for_disks(disks, listed)) == reads, (code, disks, listed)


def test_refusals() -> None:
    """41 comes last, plan or no plan, and its place is the number of survivors."""
    for code, disks, expected in [
        (single_parity(16, 1), [3], None),
        (single_parity(17, 1), [3], Refusal(41, 17)),
        (units(17), [0], None),
        (units(18), [0], Refusal(41, 17)),
        (single_parity(1, 16), [1], None),
        (single_parity(1, 17), [1], Refusal(41, 17)),
        (single_parity(63, 1), [0], Refusal(41, 63)),
        (units(64), range(48), None),
        (units(64), range(47), Refusal(41, 17)),
        (units(64), range(64), None),
        (row_diagonal(5), [0], Refusal(41, 20)),
        (row_diagonal(5), [0, 5], None),
        (NOTHING, [0, 1, 2], None),
    ]:
        assert fewest_refusal(sheet_of(code), for_disks(disks), SET_BUFFER) == expected, (code, disks)
        assert fewest_refusal(sheet_of(code), for_disks(disks), SET_BUFFER - 1) == Refusal(34)
    large = sheet_of(units(18))
    for disks, listed, refusal in [([18], [1], Refusal(7)), ([], [1], Refusal(24)), ([1, 0], [2], Refusal(24, 1)), ([0], [0, 0], Refusal(23))]:
        assert fewest_refusal(large, for_disks(disks, listed), 0) == fewest_refusal(large, for_disks(disks, listed), SET_BUFFER) == refusal
    assert fewest_refusal(changed(large, 0, 5), for_disks([18]), 0) == Refusal(3)


def test_all_plans() -> None:
    """What sets of survivors say is what plans of any length can do, tried step by step; first for the square code's disk 0."""
    for code, reads in [(SQUARE, 3), (row_diagonal(3), 3), (single_parity(2, 2), 4), (P9, 0), (P8, None)]:
        assert fewest_of_all_plans(code, for_disks([0])) == reads
    found = set()
    for _ in range(150):
        code, disks = any_question(6, 2, 3, 4)
        for wish in wishes(code, disks):
            if len(wish.wanted(code)) <= 2:
                reads = fewest_of_all_plans(code, wish)
                assert reads == fewest_reads(code, wish), (code, wish)
                found.add(reads)
    assert found == {None, 0, 1, 2, 3}


def test_small_codes() -> None:
    """By fields in one number, and by ranks."""
    found = set()
    for _ in range(600):
        code, disks = any_question(6, 3, 10, 9)
        for wish in wishes(code, disks):
            reads = smallest_by_ranks(code, wish)
            assert reads == fewest_reads(code, wish), (code, wish)
            found.add(reads)
    assert found >= {None, *range(8)}
    wide = Code(3, 2, 64, (2**63 + 2**40, 2**63, 2**40 + 1, 2**63, 2**63 + 1, 2**62))
    assert fewest_reads(wide, for_disks([0])) == smallest_by_ranks(wide, for_disks([0])) == 3


def test_families() -> None:
    """Every family, with sets of disks that leave at most 16 survivors: a count exactly where a plan can be, at least the rank of the wanted
    rows, at most the survivors; a list reads no more than everything; and a planner that tries all sets is right."""
    found = set()
    for name, code in families():
        for disks in sets_in_range(code):
            whole = fewest_reads(code, for_disks(disks))
            for wish in wishes(code, disks):
                reads = fewest_reads(code, wish)
                assert (reads is None) == (how_much_is_gone(code, wish) > 0)
                if reads is not None:
                    assert rank(wanted_rows(code, wish)) <= reads <= (len(survivors(code, disks)) if whole is None else whole)
                    assert judge(sheet_of(code), wish, SET_BUFFER, planner()(sheet_of(code), wish, SET_BUFFER)) is None, (name, wish)
                found.add(reads)
            if name.startswith("single parity") and len(disks) == 1:
                assert whole == code.symbols - code.height
    assert found == {None, *range(1, 17)}


# Planners

Planner = Callable[[bytes, Wish, int], Answer]
Chooser = Callable[[Code, Wish], Optional[Sequence[int]]]
Stepper = Callable[[Code, Wish, Sequence[int]], list[Step]]
Tester = Callable[[bytes, Wish, int], Optional[Refusal]]
Count = Callable[[Code, Wish], int]


def steps_from(code: Code, wish: Wish, chosen: Sequence[int]) -> list[Step]:
    """Each wanted symbol from the chosen survivors."""
    return [step for place in wish.wanted(code) for step in fill(place, sources_of(code, place, chosen) or [])]


def patterns_of(code: Code, wish: Wish) -> list[int]:
    """The data symbols' own patterns, added to each other until of those left one at most shows on a survivor, and then on a wanted symbol."""
    left, found = [2**t for t in range(code.data_symbols)], []
    for symbol in [*survivors(code, wish.disks), *wish.wanted(code)]:
        shown = [pattern for pattern in left if len(bits_of(pattern & code.rows[symbol])) % 2]
        if shown:
            left = [pattern ^ shown[0] if pattern in shown else pattern for pattern in left if pattern != shown[0]]
            found += shown[:1] if symbol in wish.wanted(code) else []
    return found


def planner(choose: Chooser = smallest_set, test: Tester = fewest_refusal, steps: Stepper = steps_from, more: int = 0) -> Planner:
    """One that chooses a set and plans from it; perhaps with another choice, other tests, other steps, or a count that isn't the plan's."""

    def plan(sheet: bytes, wish: Wish, buffer_length: int) -> Answer:
        refusal = test(sheet, wish, buffer_length)
        if refusal:
            return refusal
        code = read_code(sheet)
        chosen = choose(code, wish)
        if chosen is None:
            return Gone(patterns_of(code, wish))
        made = steps(code, wish, chosen)
        reads = read_count(code, wish.disks, made) + more
        return Given(set_sheet(code, wish.disks, made, reads, wish.listed or ()), reads)

    return plan


# Wrong planners


def if_any(choose: Callable[[Code, Wish], Sequence[int]]) -> Chooser:
    """A choice that is made where there is a plan."""
    return lambda code, wish: None if how_much_is_gone(code, wish) else choose(code, wish)


def fewest_mentions(code: Code, wish: Wish) -> list[int]:
    """The shortest sum of each wanted symbol: as few sources are named as can be, and none need serve two symbols."""
    sums = [smallest_set(code, for_disks(wish.disks, [place])) or [] for place in wish.wanted(code)]
    return sorted({symbol for sources in sums for symbol in sources})


def none_to_spare(code: Code, wish: Wish) -> list[int]:
    """Survivors left out one by one, as long as the others are enough."""
    kept = survivors(code, wish.disks)
    for symbol in list(kept):
        others = [code.rows[other] for other in kept if other != symbol]
        if rank(others + wanted_rows(code, wish)) == rank(others):
            kept.remove(symbol)
    return kept


def never_all(code: Code, wish: Wish) -> Optional[list[int]]:
    chosen = smallest_set(code, wish)
    return None if chosen == survivors(code, wish.disks) else chosen


def of_all_lost(code: Code, wish: Wish) -> Optional[list[int]]:
    """A smallest set for all lost symbols, where there is one, whatever the list says."""
    return smallest_set(code, for_disks(wish.disks)) or smallest_set(code, wish)


def with_one_more(code: Code, wish: Wish, chosen: Sequence[int]) -> list[Step]:
    """A survivor that isn't chosen is added twice."""
    others = [symbol for symbol in survivors(code, wish.disks) if symbol not in chosen]
    return steps_from(code, wish, chosen) + [Step(ADD, wish.wanted(code)[0], symbol) for symbol in others[:1]] * 2


def surviving(code: Code, wish: Wish) -> int:
    return len(survivors(code, wish.disks))


def testing(
    taken: range = range(MOST_SURVIVORS + 1), counted: Count = surviving, place: Count = surviving, before: int = 0, planned: bool = False
) -> Tester:
    """Another test for 41: other numbers taken, something else counted, another place, before another refusal, or only where there is a plan."""

    def test(sheet: bytes, wish: Wish, buffer_length: int) -> Optional[Refusal]:
        refusal = planning_refusal(sheet, wish, buffer_length)
        if refusal and refusal.number != before:
            return refusal
        code = read_code(sheet)
        if counted(code, wish) in taken or (planned and how_much_is_gone(code, wish)):
            return refusal
        return Refusal(41, place(code, wish))

    return test


WRONG = {
    "a read count that is one too high": planner(more=1),
    "mentions counted, not symbols": planner(if_any(fewest_mentions)),
    "a symbol read besides": planner(steps=with_one_more),
    "never all survivors": planner(never_all),
    "a set with no symbol to spare": planner(if_any(none_to_spare)),
    "all survivors": planner(if_any(lambda code, wish: survivors(code, wish.disks))),
    "the list isn't looked at": planner(of_all_lost),
    "patterns before 41": planner(test=testing(planned=True)),
    "17 survivors are taken": planner(test=testing(range(18))),
    "16 survivors are refused": planner(test=testing(range(16))),
    "no survivors are refused": planner(test=testing(range(1, 17))),
    "never 41": planner(test=planning_refusal),
    "all symbols are counted": planner(test=testing(counted=lambda code, wish: code.symbols)),
    "surviving disks are counted": planner(test=testing(counted=lambda code, wish: code.disks - len(wish.disks))),
    "the place is 0": planner(test=testing(place=lambda code, wish: 0)),
    "the place is the number of lost symbols": planner(test=testing(place=lambda code, wish: len(wish.lost(code)))),
    "41 before 34": planner(test=testing(before=34)),
    "41 before 23": planner(test=testing(before=23)),
}


@cache
def cases() -> list[tuple[bytes, Wish, int]]:
    """Small codes with all sets of disks; both sides of 16 survivors, with a plan and without; several faults at once."""
    small = (SQUARE, P8, P9, HALF, LOST, SAME, NOTHING, row_diagonal(3))
    asked = [(code, wish) for code in small for disks in sets_of(code) for wish in wishes(code, disks)]
    asked += [(LISTED, for_disks([0], listed)) for listed in ([], [0], [1], [0, 3])]
    asked += [(code, for_disks([disk])) for code in (evenodd(3), liberation(3, 2), single_parity(3, 2)) for disk in range(code.disks)]
    at_limit = (units(17), units(18), single_parity(16, 1), single_parity(17, 1), single_parity(1, 16), single_parity(1, 17))
    asked += [(code, for_disks([0])) for code in at_limit] + [(units(64), for_disks(range(count))) for count in (1, 47, 48, 64)]
    asked += [(code, for_disks(disks)) for code, disks in (any_question(5, 2, 6) for _ in range(30))]
    faults = [(disks, listed, length) for disks in ([0], [18], [1, 0], []) for listed in ([], [0], [2], [0, 0]) for length in (0, 3209, 3210)]
    given = [(sheet_of(code), wish, SET_BUFFER) for code, wish in asked]
    given += [(sheet_of(units(18)), for_disks(disks, listed), length) for disks, listed, length in faults]
    return given + [(sheet_of(units(18))[:-1], for_disks([0]), 0), (SQUARE_SHEET, for_disks([0]), 3209)]


def first_fault(plan: Planner) -> Fault:
    return next(filter(None, (judge(*given, plan(*given)) for given in cases())), None)


def test_planners() -> None:
    """One that tries all sets is right, and each wrong one is found."""
    assert first_fault(planner()) is None
    for name, wrong in WRONG.items():
        assert first_fault(wrong) is not None, name


def test_answers() -> None:
    """Answers that are wrong in one thing, for the square code's disk 0 and where there is no plan."""
    wish = for_disks([0])
    right = planner()(SQUARE_SHEET, wish, SET_BUFFER)
    assert isinstance(right, Given) and right.reads == 3 and judge(SQUARE_SHEET, wish, SET_BUFFER, right) is None
    steps, by_rows = steps_of(right.plan), steps_from(SQUARE, wish, [2, 3, 4, 5])
    wrong = [
        ("the answer's count, one more", right._replace(reads=4)),
        ("the answer's count, one less", right._replace(reads=2)),
        ("the sheet's count", right._replace(plan=changed(right.plan, 5, 4))),
        ("four reads, row by row", Given(set_sheet(SQUARE, [0], by_rows), 4)),
        ("four reads, and three are stated", Given(set_sheet(SQUARE, [0], by_rows, 3), 3)),
        ("a list that wasn't given", right._replace(plan=set_sheet(SQUARE, [0], steps, listed=[0, 1]))),
        ("a step left out", right._replace(plan=set_sheet(SQUARE, [0], steps[:-1], 3))),
        ("no plan", Gone([])),
        ("a pattern", Gone([1])),
        ("a refusal", Refusal(41, 6)),
    ]
    for why, answer in wrong:
        assert judge(SQUARE_SHEET, wish, SET_BUFFER, answer) is not None, why
    assert judge(sheet_of(P8), wish, SET_BUFFER, Gone([1])) is None
    for answer in (Gone([]), Gone([2]), Gone([1, 2]), Given(set_sheet(P8, [0], [Step(CLEAR, 0, 0)]), 0), Refusal(41, 1)):
        assert judge(sheet_of(P8), wish, SET_BUFFER, answer) is not None, answer


def test_lines() -> None:
    asked = Asked(SQUARE_SHEET, 0, buffer_length=SET_BUFFER, listed=b"", disks=b"\0", fewest=True)
    large, gone = asked._replace(sheet=sheet_of(single_parity(17, 1))), asked._replace(sheet=sheet_of(P8))
    right = planner()(SQUARE_SHEET, for_disks([0]), SET_BUFFER)
    line = f"plan {len(right.plan)} 3 accepted behind-same restored"
    assert judge_line(asked, line) is None and judge_line(asked._replace(shown=True), f"{line} {right.plan.hex()}") is None
    assert judge_line(large, "refused 41 at 17 same") is None and judge_line(large._replace(buffer_length=3209), "refused 34 at 0 same") is None
    assert judge_line(gone, "patterns 1 1 same good") is None
    wrong = [
        (asked, line.replace(" 3 ", " 4 ")),
        (asked, line.replace(" 3 ", " 2 ")),
        (asked, line.replace("accepted", "not-accepted")),
        (asked, "refused 41 at 6 same"),
        (asked, "patterns 1 1 same good"),
        (large, "refused 41 at 0 same"),
        (large, "refused 41 at 17 not-same"),
        (large, "plan 62 17 accepted behind-same restored"),
        (large._replace(buffer_length=3209), "refused 41 at 17 same"),
        (gone, "patterns 1 2 same good"),
        (gone, "refused 41 at 1 same"),
        (gone, "plan 14 1 accepted behind-same restored"),
    ]
    for question, said in wrong:
        assert judge_line(question, said) is not None, said
    # planning for the same lists may read more, and takes more survivors
    assert second_planner.judge_line(asked, line.replace(" 3 ", " 4 ")) is None
    assert second_planner.judge_line(large, "plan 62 17 accepted behind-same restored") is None


def test_rules() -> None:
    """The rules have the table, line for line."""
    rules = RULES.read_text("utf-8").splitlines()
    assert TITLE in rules, "docs/RULES.md doesn't have the table of the fewest reads"
    start = rules.index(TITLE)
    written = rules[start : rules.index("", start)]
    assert written == table(), "docs/RULES.md doesn't have the table that `python3 tests/second_fewest.py table` prints"


def judge_program() -> None:
    """What the program crates/planvectors printed of the fewest reads."""
    questions, every = printed()
    let_stand(questions, every, lambda asked, line: judge_line(asked, line) if asked.fewest else None)
    lines = [line.split(" ") for asked, line in zip(questions, every) if asked.fewest]
    reads = sorted({int(words[2]) for words in lines if words[0] == "plan"})
    refused = sum(words[:2] == ["refused", "41"] for words in lines)
    print(f"the fewest reads, as printed by crates/planvectors: {len(lines)} lines, {reads[0]} to {reads[-1]} reads, 41 {refused} times: ok")


if __name__ == "__main__":
    if sys.argv[1:] == ["table"]:
        print("\n".join(table()))
        sys.exit()
    test_worked_cases()
    test_refusals()
    test_all_plans()
    test_small_codes()
    test_families()
    test_planners()
    test_answers()
    test_lines()
    print("second program's fewest reads: ok")
    judge_program()
    test_rules()
