"""The records of edition 3 plan sheets, for check, rebuild and desk: sets of lost disks and lists of wanted symbols, good and bad, at both
sides of each limit, and sheets of every edition asked about sets."""
from itertools import combinations, product
from typing import Callable, Optional

from arrays import SPECIAL_CODES, below, chosen, random_bytes, random_code, random_codes, shuffled
from desk_vectors import desk_input
from plan_vectors import RIGHT, SQUARE_PLAN, SQUARE_SHEET, UNFILLED, WRONG, Asked, add, add_accepted, byte_fault, family_codes, length_fault
from plans import Plan, chained, direct, idle_ends, idle_starts, interleaved, lengthened, of_set, planted_code, restorable, some_lists
from rebuild_vectors import fitting_size
from records import Vectors, adjacent
from second import SQUARE, Code, changed, evenodd, liberation, row_diagonal, sheet_of, single_parity
from second_checker import ADD, CLEAR, COPY, P2, ROW_1, STEP_LIMIT, TWO_DISKS, Disks, Step, lost_places, read_count, set_sheet, steps_of

PAIR = of_set(SQUARE, [0, 2], steps=steps_of(TWO_DISKS))
"""Disks 0 and 2 of the square code; its sheet is TWO_DISKS."""

PART = of_set(SQUARE, [0, 2], [0, 4], PAIR.steps[:2] + PAIR.steps[4:6])
"""A row of each of the two; symbols 1 and 5 are lost and not wanted."""

ALONE = of_set(SQUARE, [1], steps=direct(Plan(SQUARE, [1], [])).steps)
"""A set of one disk, whose symbols are 2 and 3."""

UNEVEN = direct(of_set(liberation(3, 2), [1, 3], [3, 5, 10]))
"""Two symbols of a disk of three and one of another; symbols 4, 9 and 11 are lost and not wanted."""

COPIES = Code(4, 2, 2, (1, 2) * 4)
"""Each disk is a copy of every other."""

ZEROS = Code(64, 1, 1, (0,) * 64)
EVERY = list(range(64))
CLEARED = of_set(ZEROS, EVERY, steps=[Step(CLEAR, place, 0) for place in EVERY])
"""The largest set of disks, all lost: nothing survives, and clears are right."""


def any_set(code: Code) -> list[int]:
    return sorted(shuffled(range(code.disks))[: 1 + below(code.disks)])


def either(asked: Plan) -> Optional[Plan]:
    return chosen([direct, chained])(asked)


def stands_two_losses(family: Code) -> bool:
    """Whether a family has two parity disks."""
    return family.symbols - family.data_symbols == 2 * family.height


def all_sets(code: Code) -> list[list[int]]:
    """Every good set of disks."""
    return [list(disks) for count in range(1, code.disks + 1) for disks in combinations(range(code.disks), count)]


def restoring(code: Code, disks: Disks) -> Optional[Plan]:
    """A plan for what can be rebuilt of a set, all of it listed; nothing if nothing can be."""
    can = restorable(code, disks)
    return chained(of_set(code, disks, can)) if can else None


# Accepted plans


def add_accepted_sets(vectors: Vectors) -> None:
    for code in family_codes():
        for disks in [sorted(shuffled(range(code.disks))[: 1 + stands_two_losses(code)]), [below(code.disks)]]:
            listed = chosen([()] + some_lists(code, disks))
            add_accepted(vectors, "set, families", either(of_set(code, disks, listed)))
    for code in SPECIAL_CODES + random_codes():
        add_accepted(vectors, "set, other codes", restoring(code, any_set(code)))
        add_accepted(vectors, "set, other codes", either(of_set(code, any_set(code))))
    for disks, height, data_symbols, lost in [
        (3, 1, 9, [0, 2]),
        (4, 2, 11, [1, 2]),
        (5, 6, 8, [1, 2, 4]),
        (64, 1, 64, [0, 31, 63]),
        (8, 8, 64, [0, 7]),
        (16, 4, 33, [3, 4, 5, 12]),
        (64, 1, 64, range(1, 64, 2)),
        (31, 2, 48, range(12)),
        (2, 32, 64, [1]),
    ]:
        code = planted_code(disks, height, data_symbols, lost)
        for listed in [()] + some_lists(code, lost)[1:2]:
            add_accepted(vectors, "set, planted codes", either(of_set(code, lost, listed)))


def add_all_but_one(vectors: Vectors) -> None:
    """One survivor, first, in the middle and last, of which all others are copies, straight or handed on; and none, with zero rows."""
    kind = "set, nearly all and all disks"
    code = Code(64, 1, 1, (1,) * 64)
    for last in (0, 31, 63):
        disks = [disk for disk in EVERY if disk != last]
        add_accepted(vectors, kind, direct(of_set(code, disks)))
        add_accepted(vectors, kind, of_set(code, disks, steps=[Step(COPY, place, before) for before, place in zip([last] + disks, disks)]))
    add_accepted(vectors, kind, CLEARED)
    add_accepted(vectors, kind, CLEARED._replace(listed=EVERY))
    add_accepted(vectors, kind, of_set(ZEROS, EVERY, [63], [Step(CLEAR, 63, 0)]))
    add(vectors, kind, CLEARED.with_steps(CLEARED.steps[:63]))
    add(vectors, kind, CLEARED.with_steps(CLEARED.steps[:63] + [Step(COPY, 63, 62)]))
    one = ZEROS._replace(rows=(0,) * 40 + (1,) + (0,) * 23)
    add(vectors, kind, CLEARED._replace(code=one))
    add_accepted(vectors, kind, CLEARED._replace(code=one, listed=EVERY[:40] + EVERY[41:]).with_steps(CLEARED.steps[:40] + CLEARED.steps[41:]))
    for code in (SQUARE, Code(2, 1, 1, (0, 1)), Code(3, 2, 5, (0, 31, 0, 31, 16, 0))):
        disks, places = range(code.disks), range(code.symbols)
        clears = [Step(CLEAR, place, 0) for place in places]
        zero = [place for place in places if code.rows[place] == 0]
        for listed in [[], list(places), zero, zero[1:]]:
            add(vectors, kind, of_set(code, disks, listed, [clears[place] for place in listed or places]))
        for source in places:
            add(vectors, kind, of_set(code, disks, [places[-1]], [Step(COPY, places[-1], source)]))


def add_longer_ways(vectors: Vectors) -> None:
    kind = "set, longer ways"
    for plan in (PAIR, PART, ALONE, UNEVEN, chained(of_set(evenodd(3), [0, 4]))):
        for start in idle_starts(plan):
            add_accepted(vectors, kind, plan.with_steps(start + plan.steps))
        for end in idle_ends(plan):
            add_accepted(vectors, kind, plan.with_steps(plan.steps + end))
        add_accepted(vectors, kind, interleaved(direct(plan)))


# Sets that are asked about, and sets that are listed

ASKED_SETS = [
    *([], [0], [1], [2], [0, 1], [0, 2], [0, 3], [0, 1, 2], [0, 2, 3], [0, 1, 2, 3]),
    *([0, 0], [1, 1], [2, 0], [0, 2, 2], [0, 0, 2], [2, 0, 2], [0, 1, 3, 2], [3, 2, 1, 0], [0, 1, 2, 2]),
    *([0, 1, 2, 3, 3], [0, 1, 2, 3, 0], [0] * 5, [0] * 64, [0] * 65, [0] * 255, [0, 1, 2, 3] * 63),
    *([4], [0, 4], [4, 0], [0, 2, 4], [0, 0, 4], [2, 0, 4], [255], [0, 255], [0, 1, 2, 3, 4], [3, 2, 1, 0, 4], [0] * 254 + [4]),
]
"""For an array of four disks: good ones, such that don't rise, too long ones, and ones with a disk that isn't there."""

LONGER_SETS = [[0] * 256, [0] * 300, [0] * 300 + [4], [0] * 512 + [0, 2], [4] + [0] * 511, list(range(256)) * 2]
"""Sets of more disks than a sheet can list."""


def add_asked_sets(vectors: Vectors) -> None:
    """7 and 24 of the asked set come before everything of the sheet, a set that isn't the sheet's is 16."""
    kind = "set, asked"
    for disks in ASKED_SETS + LONGER_SETS:
        vectors.check(kind, SQUARE_SHEET, disks, TWO_DISKS)
    short = [disks for disks in ASKED_SETS if len(disks) <= 5]
    for disks, plan in product(short, (P2, ROW_1, ALONE.sheet(), TWO_DISKS[:8])):
        vectors.check(kind, SQUARE_SHEET, disks, plan)
    for disks in ([], [0, 0], [4], [0, 2]):
        vectors.check(kind, SQUARE_SHEET[:69], disks, TWO_DISKS)
        vectors.check(kind, SQUARE_SHEET, disks, b"")
    for disks in (EVERY[:63], EVERY[::-1], EVERY + [63], EVERY + [64], EVERY[:63] + [64], EVERY[:63] + [62], EVERY[:62] + [63, 62]):
        vectors.check(kind, CLEARED.code_sheet, disks, CLEARED.sheet())


def add_listed_sets(vectors: Vectors) -> None:
    """7 over the whole list, then 24, then 16, asked about good sets; and the same where the set of the sheet is asked about."""
    kind = "set, listed"
    for disks in ASKED_SETS:
        for asked in ([0, 2], [0], [0, 1, 2, 3]):
            vectors.check(kind, SQUARE_SHEET, asked, set_sheet(SQUARE, disks, PAIR.steps))
        vectors.check(kind, SQUARE_SHEET, [0, 2], set_sheet(SQUARE, disks, [Step(3, 255, 255)], listed=[0, 0]))


def add_every_set(vectors: Vectors) -> None:
    """Plans for every set, asked about every set, and plans of editions 1 and 2 asked about every set."""
    kind = "set, plans of others"
    for disks, asked in product(all_sets(SQUARE), repeat=2):
        vectors.check(kind, SQUARE_SHEET, asked, (restoring(SQUARE, disks) or of_set(SQUARE, disks)).sheet())
    for disk, asked in product(range(4), all_sets(SQUARE)):
        plan = direct(Plan(SQUARE, [disk], [], chosen([None, [2 * disk], [2 * disk, 2 * disk + 1]])))
        vectors.check(kind, plan.code_sheet, asked, plan.sheet())
    three = Code(3, 1, 1, (1, 1, 1))
    for asked in all_sets(three):
        for disks in [disks for count in range(3) for disks in product(range(4), repeat=count)]:
            vectors.check("set, every short one", sheet_of(three), asked, set_sheet(three, disks, [Step(COPY, place, 1) for place in asked]))


# The head


def add_set_heads(vectors: Vectors) -> None:
    """First counts with editions, for sheets of each; each byte of the head changed; nine bytes and fewer."""
    kind = "set, head"
    sheets = [([0], P2), ([0], ROW_1), ([0, 2], TWO_DISKS)]
    for (disks, sheet), count, edition in product(sheets, (0, 4, 5, 6, 7, 255), (0, 1, 2, 3, 4, 255)):
        vectors.check(kind, SQUARE_SHEET, disks, bytes([count, edition]) + sheet[2:])
    for plan in (PAIR, PART):
        sheet = plan.sheet()
        for at, right in enumerate(sheet[:14]):
            for value in sorted({(right + 255) % 256, right + 1, 128, 255}):
                vectors.check(kind, plan.code_sheet, plan.disks, changed(sheet, at, value))
    for first, edition in ((5, 3), (4, 3), (5, 4), (6, 3)):
        for length in (7, 8, 9, 10, 11):
            vectors.check(kind, SQUARE_SHEET, [0, 2], (bytes([first, edition]) + TWO_DISKS[2:6] + bytes(9))[:length])


def with_step_count(plan: Plan, count: int) -> bytes:
    """A sheet of edition 3 that states another number of steps."""
    sheet = plan.sheet()
    at = 8 + len(plan.disks) + len(plan.listed)
    return sheet[:at] + count.to_bytes(2, "little") + sheet[at + 2 :]


def add_set_lengths(vectors: Vectors) -> None:
    kind = "set, cut or longer"
    for plan in (PAIR, PART, ALONE, UNEVEN):
        sheet = plan.sheet()
        for length in range(len(sheet)):
            vectors.check(kind, plan.code_sheet, plan.disks, sheet[:length])
        for more in (1, 2, 3, 4):
            vectors.check(kind, plan.code_sheet, plan.disks, sheet + random_bytes(more))
        for count in (0, len(plan.steps) - 1, len(plan.steps) + 1, 256, STEP_LIMIT, STEP_LIMIT + 1, 65535):
            vectors.check(kind, plan.code_sheet, plan.disks, with_step_count(plan, count))
    for length in (3210, 3211):
        vectors.check(kind, SQUARE_SHEET, PAIR.disks, TWO_DISKS + random_bytes(length - len(TWO_DISKS)))


def add_counts(vectors: Vectors) -> None:
    """Counts of disks and of wanted symbols up to 255: with as many entries, with those of a good sheet, and with bytes behind."""
    kind = "set, counts"
    for count in (0, 1, 2, 3, 4, 5, 8, 64, 65, 255):
        for at in (6, 9):
            vectors.check(kind, SQUARE_SHEET, [0, 2], changed(TWO_DISKS, at, count))
            vectors.check(kind, SQUARE_SHEET, [0, 2], changed(TWO_DISKS, at, count) + bytes(260))
        rising, same = range(count), [2] * count
        for entries in (rising, same):
            vectors.check(kind, SQUARE_SHEET, [0, 2], set_sheet(SQUARE, entries, PAIR.steps))
            vectors.check(kind, SQUARE_SHEET, [0, 2], set_sheet(SQUARE, [0, 2], PAIR.steps, listed=entries))
            for length in (9, 10):
                vectors.check(kind, SQUARE_SHEET, [0, 2], set_sheet(SQUARE, [0, 2], [], listed=entries)[: 2 + count + length])
    for place in (62, 63, 64, 255):
        add(vectors, kind, CLEARED._replace(disks=EVERY[:63] + [place]))
        vectors.check(kind, CLEARED.code_sheet, EVERY, CLEARED._replace(listed=EVERY[:63] + [place]).sheet())
    vectors.check(kind, CLEARED.code_sheet, EVERY, CLEARED._replace(listed=EVERY + [63]).sheet())


def add_set_step_limit(vectors: Vectors) -> None:
    """1,024 and 1,025 steps, and the longest sheet, of 3,210 bytes."""
    kind = "set, step limit"
    full = lengthened(PART)
    add_accepted(vectors, kind, full)
    add(vectors, kind, full.with_steps(full.steps[:-1] + [Step(ADD, 4, 3)]))
    add(vectors, kind, lengthened(PART, STEP_LIMIT + 1))
    for sheet in (full.sheet()[:-1], full.sheet() + b"\0"):
        vectors.check(kind, PART.code_sheet, PART.disks, sheet)
    longest = CLEARED._replace(listed=EVERY).with_steps(CLEARED.steps * 16)
    add_accepted(vectors, kind, longest)
    add(vectors, kind, longest.with_steps(longest.steps + longest.steps[:1]))
    for sheet in (longest.sheet()[:-1], longest.sheet() + b"\0"):
        vectors.check(kind, longest.code_sheet, EVERY, sheet)


def add_bad_entries(vectors: Vectors) -> None:
    """Each position of the list of all lost symbols: one that survives between or beside the lost disks, at N, equal to the one before
    it, below it."""
    kind = "set, bad entry"
    good = lost_places(UNEVEN.code, UNEVEN.disks)
    for position in range(len(good)):
        for entry in sorted({0, 2, 3, 5, 6, 8, 9, 11, 12, 14, 15, 255, good[position - 1]} - {good[position]}):
            listed = good[:position] + [entry] + good[position + 1 :]
            vectors.check(kind, UNEVEN.code_sheet, UNEVEN.disks, set_sheet(UNEVEN.code, UNEVEN.disks, [], listed=listed))
    short = [listed for count in range(3) for listed in product(range(9), repeat=count)]
    for listed in short:
        steps = [step for step in PAIR.steps if step.target in listed]
        add(vectors, "set, every short list", of_set(SQUARE, [0, 2], listed, steps))


def add_bad_lists_in_order(vectors: Vectors) -> None:
    """Bad disks and bad wanted symbols with each other, with too many steps, with steps missing or left over, and with faulty steps."""
    kind = "set, order"
    for disks, listed in product(([0, 2], [], [2, 0], [0, 4], [0, 3]), ([], [0, 4], [4, 0], [2], [255] * 9)):
        plan = of_set(SQUARE, disks, listed, PART.steps)
        for count in (0, 3, STEP_LIMIT, STEP_LIMIT + 1):
            vectors.check(kind, SQUARE_SHEET, [0, 2], with_step_count(plan, count))
        for sheet in (plan.sheet() + b"\0", plan.sheet()[:-1], plan.sheet()[: 9 + len(disks) + len(listed)]):
            vectors.check(kind, SQUARE_SHEET, [0, 2], sheet)
        vectors.check(kind, SQUARE_SHEET, [0, 2], plan.with_steps([Step(3, 255, 255)]).sheet(9))


def add_set_pairs(vectors: Vectors) -> None:
    """Two faults at once, for the order of the refusals. Those of the length come last: a cut leaves less to change."""
    head = [(0, 4), (0, 6), (3, 1), (6, 255), (13, 4), (7, 4), (8, 0), (8, 3), (10, 2), (11, 0)]
    steps = [(14, 3), (14, 2), (15, 1), (16, 0), (16, 1), (16, 4), (20, 2), (21, 6)]
    ends = [byte_fault(at, value) for at, value in [(5, 4), (19, 2), (25, 6)]]
    ends.append(length_fault(lambda s: s[:12] + b"\2\0" + s[14:20]))
    lengths = [length_fault(change) for change in (lambda s: s + b"\1", lambda s: s[:25], lambda s: s[:13], lambda s: s[:8])]
    calls: list[Callable[[Asked], Asked]] = [
        lambda asked: asked._replace(disks=[0, 2, 4]),
        lambda asked: asked._replace(disks=[2, 0]),
        lambda asked: asked._replace(disks=[0, 3]),
        lambda asked: asked._replace(code_sheet=changed(asked.code_sheet, 69, 128)),
    ]
    changes = calls + [byte_fault(at, value) for at, value in head + steps] + ends + lengths
    for one, other in combinations(changes, 2):
        vectors.check("set, two faults", *other(one(Asked(SQUARE_SHEET, PART.disks, PART.sheet()))))


# Steps


def add_set_bytes_changed(vectors: Vectors) -> None:
    kind = "set, byte changed"
    for plan in (PAIR, PART, ALONE, chained(of_set(row_diagonal(3), [1, 2], [3, 4]))):
        sheet = plan.sheet()
        for at, byte in enumerate(sheet):
            for value in sorted({byte + 1, byte ^ 4}):
                vectors.check(kind, plan.code_sheet, plan.disks, changed(sheet, at, value))


def add_set_places(vectors: Vectors) -> None:
    """Each symbol of the array as a target and a source: surviving between the lost disks (18), lost and not wanted (18, 19), of the other
    lost disk before it is filled (19) and behind, onto itself (25)."""
    kind = "set, places"
    for plan, numbers in [(PAIR, (0, 8)), (PART, (0, 4)), (UNEVEN, (0,))]:
        used, survivor = plan.wanted[0], plan.survivors[0]
        for place, number in product(range(plan.code.symbols + 1), numbers):
            uses = [Step(CLEAR, place, 0), Step(COPY, place, survivor), Step(ADD, place, used), Step(COPY, used, place), Step(ADD, used, place)]
            for use in uses:
                add(vectors, kind, plan.with_steps(plan.steps[:number] + [use] + plan.steps[number:]))
    for number in range(len(PAIR.steps)):
        before, here, after = PAIR.steps[:number], PAIR.steps[number : number + 1], PAIR.steps[number + 1 :]
        add(vectors, kind, PAIR.with_steps(before + after))
        add(vectors, kind, PAIR.with_steps(after + before + here))


# The end


def add_set_ends(vectors: Vectors) -> None:
    """Every way in which symbols of two disks, all or some of them, are right, wrong or never filled: 20 and 21 name symbols. Then sets of
    one disk, where they do too."""
    kind = "set, symbols wrong or unfilled"
    for disks, listed in [([1, 3], []), ([1, 3], [3, 6]), ([1, 3], [2, 7]), ([2], []), ([3], [7]), ([0, 1, 2], [1, 3, 5])]:
        wanted = listed or lost_places(COPIES, disks)
        first = 2 * next(disk for disk in range(4) if disk not in disks)
        for fates in product((RIGHT, WRONG, UNFILLED), repeat=len(wanted)):
            filled = [(place, shift) for place, shift in zip(wanted, fates) if shift != UNFILLED]
            add(vectors, kind, of_set(COPIES, disks, listed, [Step(COPY, place, first + (place + shift) % 2) for place, shift in filled]))
    for plan in (direct(of_set(single_parity(1, 32), [1])), direct(of_set(liberation(7, 5), [3, 6]))):
        for place in plan.wanted[:: len(plan.wanted) - 1]:
            add(vectors, kind, plan.with_steps(step for step in plan.steps if step.target != place))
            add(vectors, kind, plan.with_steps(plan.steps + [Step(ADD, place, plan.survivors[-1])]))


def add_set_read_counts(vectors: Vectors) -> None:
    """Reads of a set are those of survivors: what another lost disk holds doesn't count."""
    kind = "set, read count"
    for plan in (PAIR, PART, ALONE, UNEVEN, CLEARED):
        true = read_count(plan.code, plan.disks, plan.steps)
        mentions = len([step for step in plan.steps if step.kind != CLEAR])
        named = len({step.source for step in plan.steps})
        for stated in sorted({0, max(true - 1, 0), true, true + 1, mentions, named, 64, 255}):
            add(vectors, kind, plan, stated)


# Plans of another code, and any


def add_sets_of_others(vectors: Vectors) -> None:
    kind = "set, plan of another code"
    for symbol, bit in product(range(8), range(4)):
        rows = [row ^ (1 << bit if place == symbol else 0) for place, row in enumerate(SQUARE.rows)]
        vectors.check(kind, sheet_of(SQUARE._replace(rows=tuple(rows))), [0, 2], TWO_DISKS)
    for disks in ([0, 2], [0, 3], [1, 2], [2, 3]):
        vectors.check(kind, sheet_of(row_diagonal(3)), disks, chained(of_set(SQUARE, disks)).sheet())
        vectors.check(kind, SQUARE_SHEET, disks, chained(of_set(row_diagonal(3), disks)).sheet())


def add_set_random(vectors: Vectors) -> None:
    kind = "set, random"
    for _ in range(40):
        code = random_code(2 + below(3), 1 + below(3), 1 + below(6))
        disks = any_set(code)
        listed = chosen([[]] + some_lists(code, disks))
        targets = listed or lost_places(code, disks)
        steps = [Step(chosen([CLEAR, COPY, COPY, ADD]), chosen(targets), below(code.symbols)) for _ in range(1 + below(8))]
        add(vectors, kind, of_set(code, disks, listed, [step._replace(source=0) if step.kind == CLEAR else step for step in steps]))
    for turn in range(40):
        disks, listed = random_small(turn), random_small(turn + 1)
        rest = bytes([below(4), 0]) + random_bytes(below(12))
        vectors.check(kind, SQUARE_SHEET, any_set(SQUARE), TWO_DISKS[:5] + bytes([below(4), *disks, *listed]) + rest)
        vectors.check(kind, SQUARE_SHEET, [0, 2], TWO_DISKS[: 2 + below(9)] + random_bytes(below(40)))


def random_small(turn: int) -> bytes:
    """A short list of small numbers after its count, rising every other time."""
    entries = [below(5) for _ in range(below(4))]
    return bytes([len(entries), *(sorted(set(entries)) if turn % 2 else entries)])


# Desk and rebuild


def add_set_desk(vectors: Vectors) -> None:
    """The desk is asked about one disk: sheets of edition 3 that list it, another or more than one. The longest that fits has 3,115 bytes."""
    given = desk_input(1, SQUARE_SHEET, ALONE.sheet())
    for length in range(73, len(given) + 1):
        vectors.desk("set, desk, cut", given[:length])
    for at in range(73, len(given)):
        vectors.desk("set, desk, one byte more", changed(given, at, given[at] + 1))
    for disks in ASKED_SETS:
        vectors.desk("set, desk, listed", desk_input(0, SQUARE_SHEET, set_sheet(SQUARE, disks, SQUARE_PLAN.steps)))
    tall = direct(of_set(single_parity(1, 32), [1], range(32, 64)))
    sheet = lengthened(tall).sheet()
    for plan in (sheet, sheet[:-1], sheet + b"\0"):
        vectors.desk("set, desk, long plan", desk_input(1, tall.code_sheet, plan))
    for plan in (ALONE, tall, direct(of_set(liberation(5, 5), [6], [31, 33]))):
        for tried in (plan, plan.with_steps(plan.steps[:-1])):
            vectors.desk("set, desk, plans", desk_input(plan.disk, plan.code_sheet, tried.sheet()))
        vectors.desk("set, desk, plans", desk_input(plan.disk, plan.code_sheet, plan.sheet(64)))


def add_set_both_ways(vectors: Vectors, plan: Optional[Plan], size: int) -> None:
    """On valid stripes with lost strips ruined, those of adjacent disks at once, and on survivors that belong to none."""
    if plan is None:
        return
    ruin = chosen([None, None, 0, 255])
    for ruined in adjacent(plan.disks):
        kind = "set, rebuild, valid stripe"
        vectors.rebuild(kind, plan.code_sheet, plan.disks, plan.sheet(), size, valid=True, ruin=ruin, ruined_disks=ruined)
    vectors.rebuild("set, rebuild, other stripe", plan.code_sheet, plan.disks, plan.sheet(), size, ruin=ruin)


def small_size(plan: Plan) -> int:
    return min(fitting_size(plan), chosen([1, 3, 16, 33, 100, 512]))


def add_set_rebuilds(vectors: Vectors) -> None:
    for code in family_codes():
        disks = sorted(shuffled(range(code.disks))[: 1 + stands_two_losses(code)])
        plan = either(of_set(code, disks, chosen([()] + some_lists(code, disks))))
        add_set_both_ways(vectors, plan, small_size(plan))
    for disks in all_sets(SQUARE):
        add_set_both_ways(vectors, restoring(SQUARE, disks), 3)
        add_set_both_ways(vectors, direct(of_set(COPIES, disks)), 5)
    for plan in (PAIR, PART, ALONE, UNEVEN):
        for size in (1, 8, 65):
            add_set_both_ways(vectors, plan, size)
        for start in idle_starts(plan)[1:3]:
            add_set_both_ways(vectors, plan.with_steps(start + plan.steps), 5)
    add_set_both_ways(vectors, PAIR, 4096)
    add_set_both_ways(vectors, CLEARED, 9)
    add_set_both_ways(vectors, direct(of_set(Code(2, 1, 1, (0, 1)), [0])), 65536)


def add_set_rebuilds_refused(vectors: Vectors) -> None:
    kind = "set, rebuild refused"
    for at, byte in enumerate(TWO_DISKS):
        vectors.rebuild(kind, SQUARE_SHEET, [0, 2], changed(TWO_DISKS, at, byte + 1), 2)
    for disks in ASKED_SETS[:19] + LONGER_SETS:
        vectors.rebuild(kind, SQUARE_SHEET, disks, TWO_DISKS, 2)
    for disks, plan in product(([0, 1], [0, 2], [], [0, 4], [1, 0]), (P2, ROW_1)):
        vectors.rebuild(kind, SQUARE_SHEET, disks, plan, 2)
    for size, length in [(0, 8), (65537, 8), (2**63, 0), (1, 7), (1, 9), (3, 16), (0, 7)]:
        vectors.rebuild(kind, SQUARE_SHEET, [0, 2], TWO_DISKS, size, length=length)
    for disks, plan, size, length in [([0, 2], TWO_DISKS[:-1], 0, 8), ([2, 0], TWO_DISKS, 0, 8), ([0, 4], TWO_DISKS, 0, 7), ([0], TWO_DISKS, 1, 9)]:
        vectors.rebuild(kind, SQUARE_SHEET, disks, plan, size, length=length)
    for sheet in (b"", SQUARE_SHEET[:69], changed(SQUARE_SHEET, 13, 128)):
        vectors.rebuild(kind, sheet, [0, 0], TWO_DISKS, 2, length=16)
    for disks in ([0, 2], [0, 3], [1, 2], [2, 3]):
        for code, other in [(SQUARE, row_diagonal(3)), (row_diagonal(3), SQUARE)]:
            vectors.rebuild("set, rebuild under another code", sheet_of(other), disks, direct(of_set(code, disks)).sheet(), 4, valid=True)


def add_edition_3_vectors(vectors: Vectors) -> None:
    vectors.check("set, square code", SQUARE_SHEET, [0, 2], TWO_DISKS)
    add_accepted_sets(vectors)
    add_all_but_one(vectors)
    add_longer_ways(vectors)
    add_asked_sets(vectors)
    add_listed_sets(vectors)
    add_every_set(vectors)
    add_set_heads(vectors)
    add_set_lengths(vectors)
    add_counts(vectors)
    add_set_step_limit(vectors)
    add_bad_entries(vectors)
    add_bad_lists_in_order(vectors)
    add_set_pairs(vectors)
    add_set_bytes_changed(vectors)
    add_set_places(vectors)
    add_set_ends(vectors)
    add_set_read_counts(vectors)
    add_sets_of_others(vectors)
    add_set_random(vectors)
    add_set_desk(vectors)
    add_set_rebuilds(vectors)
    add_set_rebuilds_refused(vectors)
