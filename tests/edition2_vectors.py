"""The records of edition 2 plan sheets, for check, rebuild and desk: lists of wanted symbols, good and bad, at both sides of each limit."""
from itertools import combinations, product
from typing import Callable, Optional, Sequence

from arrays import SPECIAL_CODES, below, chosen, random_bytes, random_code, random_codes
from desk_vectors import desk_input
from plan_vectors import RIGHT, SQUARE_PLAN, SQUARE_SHEET, UNFILLED, WRONG, Asked, add, add_accepted, byte_fault, family_codes, length_fault
from plan_vectors import parity_plans, planted_codes, random_step, some_disks
from plans import Plan, all_lists, chained_plan, direct_plan, idle_ends, idle_starts, interleaved, lengthened, restorable, some_lists, torn_codes
from rebuild_vectors import SIZES, fitting_size
from records import Vectors
from second import SQUARE, Code, changed, liberation, row_diagonal, single_parity
from second_checker import ADD, CLEAR, COPY, P2, ROW_1, STEP_LIMIT, Step, lost_places, plan_sheet, read_count

SQUARE_ROW = Plan(SQUARE, [0], SQUARE_PLAN.steps[2:], [1])
"""Row 1 alone of P2; its sheet is ROW_1."""

OUTER_ROWS = direct_plan(single_parity(2, 3), 1, [3, 5])
"""Rows 0 and 2 of a disk of three; symbol 4 is lost and not wanted."""


def either_plan(code: Code, disk: int, listed: Sequence[int]) -> Optional[Plan]:
    return chosen([direct_plan, chained_plan])(code, disk, listed)


# Accepted plans


def add_accepted_lists(vectors: Vectors) -> None:
    for code in family_codes():
        for disk in some_disks(code):
            add_accepted(vectors, "list, families", either_plan(code, disk, chosen(some_lists(code, [disk]))))
    for code in SPECIAL_CODES + random_codes():
        for disk in some_disks(code)[:2]:
            add_accepted(vectors, "list, other codes", either_plan(code, disk, chosen(some_lists(code, [disk]))))
    for code, disk in planted_codes()[::2]:
        add_accepted(vectors, "list, planted codes", either_plan(code, disk, chosen(some_lists(code, [disk]))))
    for code, disk in torn_codes(20):
        can = restorable(code, [disk])
        add_accepted(vectors, "list, torn disk", chained_plan(code, disk, can))
        add_accepted(vectors, "list, torn disk", direct_plan(code, disk, can[:1]))


def add_longer_ways(vectors: Vectors) -> None:
    kind = "list, longer ways"
    wide = chained_plan(liberation(5, 3), 1, [5, 7, 8])
    for plan in (SQUARE_ROW, OUTER_ROWS, wide):
        for start in idle_starts(plan):
            add_accepted(vectors, kind, plan.with_steps(start + plan.steps))
        for end in idle_ends(plan):
            add_accepted(vectors, kind, plan.with_steps(plan.steps + end))
        add_accepted(vectors, kind, interleaved(direct_plan(plan.code, plan.disk, plan.listed)))
    for plan in parity_plans()[:2]:
        add_accepted(vectors, kind, plan._replace(listed=range(5)))


# The list


def with_list(plan: Plan, listed: Sequence[int]) -> Plan:
    return plan._replace(listed=listed)


def add_bad_entries(vectors: Vectors) -> None:
    """Each position of a list of five: on other disks, at N, equal to the one before it, below it; and two bad ones."""
    kind = "list, bad entry"
    plan = direct_plan(single_parity(3, 5), 2, range(10, 15))
    good = list(plan.wanted)
    for position in range(5):
        for entry in sorted({0, 4, 9, 10, 14, 15, 19, 20, 255, good[position - 1]} - {good[position]}):
            add(vectors, kind, with_list(plan, good[:position] + [entry] + good[position + 1 :]))
        for other in range(position):
            twice = [255 if at in (position, other) else entry for at, entry in enumerate(good)]
            add(vectors, kind, with_list(plan, twice))
    for listed in (good[::-1], good[1:] + good[:1], [10, 11, 11, 10, 9], [12, 12, 12], [12, 11], [9, 8], [15, 14], [0, 10]):
        add(vectors, kind, with_list(plan, listed))


def add_all_lists(vectors: Vectors) -> None:
    """Every list of up to two entries, and some of three, for disk 1 of three disks of two rows."""
    plan = direct_plan(single_parity(2, 2), 1)
    for count in range(3):
        for listed in product(range(7), repeat=count):
            add(vectors, "list, every short one", with_list(plan, listed).with_steps(s for s in plan.steps if s.target in listed))
    for listed in product((1, 2, 3, 4), repeat=3):
        add(vectors, "list, every short one", with_list(plan, listed))


def add_list_counts(vectors: Vectors) -> None:
    """Counts of 0, r, r + 1 and more, also such that are 1 in their low bits, with their entries and without."""
    kind = "list, count"
    for plan in (SQUARE_ROW, OUTER_ROWS, direct_plan(single_parity(1, 9), 1, range(9, 18)), direct_plan(single_parity(3, 1), 2, [2])):
        height, lost = plan.code.height, list(plan.lost)
        for count in (0, 1, height, height + 1, height + 2, 65, 129, 255):
            listed = (lost + list(range(lost[-1] + 1, 256)) + lost * 8)[:count]
            add(vectors, kind, with_list(plan, listed))
            vectors.check(kind, plan.code_sheet, plan.disks, changed(plan.sheet(), 7, count))
            vectors.check(kind, plan.code_sheet, plan.disks, changed(plan.sheet(), 7, count) + bytes(300))
            vectors.check(kind, plan.code_sheet, plan.disks, with_list(plan, listed).sheet()[: 9 + count])


def add_lists_before_and_behind(vectors: Vectors) -> None:
    """A bad list with too many steps (13), with steps that are missing or left over (23), and with faulty steps (23)."""
    kind = "list, order"
    for listed in ([], [2], [1, 1], [1, 0], [0, 1, 1], [255] * 255, [1]):
        plan = with_list(SQUARE_ROW, listed)
        sheet = plan.sheet()
        at = 8 + len(listed)
        for count in (0, 1, 3, STEP_LIMIT, STEP_LIMIT + 1, 65535):
            vectors.check(kind, SQUARE_SHEET, [0], sheet[:at] + count.to_bytes(2, "little") + sheet[at + 2 :])
        vectors.check(kind, SQUARE_SHEET, [0], sheet + b"\0")
        vectors.check(kind, SQUARE_SHEET, [0], sheet[:-1])
        vectors.check(kind, SQUARE_SHEET, [0], sheet[: at + 1])
        add(vectors, kind, plan.with_steps([Step(3, 255, 255)] * 2))
        add(vectors, kind, plan, 9)
    add(vectors, kind, with_list(SQUARE_ROW, [1, 0]).with_steps([Step(COPY, 1, 1)] * (STEP_LIMIT + 1)))


# The rest of the head


def add_list_heads(vectors: Vectors) -> None:
    kind = "list, head"
    for plan in (SQUARE_ROW, OUTER_ROWS):
        sheet = plan.sheet()
        for at, right in enumerate(sheet[:9]):
            for value in sorted({(right + 255) % 256, (right + 1) % 256, 128, 255}):
                vectors.check(kind, plan.code_sheet, plan.disks, changed(sheet, at, value))
        for edition in (0, 1, 3, 4, 255):
            vectors.check(kind, plan.code_sheet, plan.disks, changed(sheet, 1, edition))
            vectors.check(kind, plan.code_sheet, plan.disks, changed(with_list(plan, None).sheet(), 1, edition))
            vectors.check(kind, plan.code_sheet, plan.disks, bytes([6, edition]) + bytes(7))
        for disk in sorted({0, 1, 2, plan.code.disks}):
            vectors.check(kind, plan.code_sheet, [disk], sheet)
            vectors.check(kind, plan.code_sheet, [disk], changed(sheet, 5, disk))
        for disks in ([], [plan.disk] * 2, sorted([plan.disk, 2])):
            vectors.check(kind, plan.code_sheet, disks, sheet)
            vectors.check(kind, plan.code_sheet, disks, sheet[:8])


def add_list_lengths(vectors: Vectors) -> None:
    kind = "list, cut or longer"
    for plan in (SQUARE_ROW, OUTER_ROWS):
        sheet = plan.sheet()
        for length in range(len(sheet)):
            vectors.check(kind, plan.code_sheet, plan.disks, sheet[:length])
        for more in (1, 2, 3, 4, 3114 - len(sheet), 3115 - len(sheet)):
            vectors.check(kind, plan.code_sheet, plan.disks, sheet + random_bytes(more))


def add_list_step_limit(vectors: Vectors) -> None:
    """The longest sheet, of 3,114 bytes, and those around it."""
    kind = "list, step limit"
    for plan in (SQUARE_ROW, direct_plan(single_parity(1, 32), 1, range(32, 64))):
        full = lengthened(plan)
        sheet = full.sheet()
        add_accepted(vectors, kind, full)
        add(vectors, kind, full.with_steps(full.steps[:-1] + [Step(ADD, plan.wanted[0], plan.survivors[0])]))
        add(vectors, kind, lengthened(plan, STEP_LIMIT + 1))
        for other in (sheet[:-1], sheet + b"\0"):
            vectors.check(kind, plan.code_sheet, plan.disks, other)


def add_list_pairs(vectors: Vectors) -> None:
    """Two faults at once, for the order of the refusals. Those of the length come last: a cut leaves less to change."""
    sheet = OUTER_ROWS.sheet()
    head = [byte_fault(at, value) for at, value in [(0, 4), (1, 3), (3, 1), (5, 2), (7, 0), (7, 4), (8, 2), (9, 3), (11, 5)]]
    steps = [byte_fault(at, value) for at, value in [(12, 3), (12, 2), (13, 4), (14, 4), (14, 9), (16, 6), (17, 4)]]
    ends = [byte_fault(at, value) for at, value in [(6, 5), (23, 6), (17, 7)]]
    ends.append(length_fault(lambda s: s[:10] + b"\2\0" + s[12:18]))
    lengths = [length_fault(change) for change in (lambda s: s + b"\1", lambda s: s[:22], lambda s: s[:11], lambda s: s[:8])]
    calls: list[Callable[[Asked], Asked]] = [
        lambda asked: asked._replace(disks=[3]),
        lambda asked: asked._replace(code_sheet=asked.code_sheet[:-1]),
    ]
    for one, other in combinations(calls + head + steps + ends + lengths, 2):
        vectors.check("list, two faults", *other(one(Asked(OUTER_ROWS.code_sheet, [1], sheet))))


# Steps


def add_list_bytes_changed(vectors: Vectors) -> None:
    kind = "list, byte changed"
    for plan in (SQUARE_ROW, OUTER_ROWS, chained_plan(row_diagonal(3), 1, [3])):
        sheet = plan.sheet()
        for at, byte in enumerate(sheet):
            for value in sorted({(byte + 1) % 256, (byte + 255) % 256, byte ^ 4}):
                vectors.check(kind, plan.code_sheet, plan.disks, changed(sheet, at, value))


def add_unwanted_places(vectors: Vectors) -> None:
    """A lost place that isn't wanted as a target (18) or a source (19), in any kind of step, before, among and behind the others."""
    kind = "list, unwanted place"
    for plan in (OUTER_ROWS, direct_plan(liberation(3, 3), 2, [7, 8])):
        used, survivor = plan.wanted[0], plan.survivors[0]
        for place in [place for place in plan.lost if place not in plan.wanted]:
            uses = [Step(CLEAR, place, 0), Step(COPY, place, survivor), Step(ADD, place, used), Step(COPY, place, place)]
            uses += [Step(COPY, used, place), Step(ADD, used, place), Step(ADD, place, place)]
            for use, number in product(uses, (0, 1, len(plan.steps))):
                add(vectors, kind, plan.with_steps(plan.steps[:number] + [use] + plan.steps[number:]))


def add_list_ends(vectors: Vectors) -> None:
    """Every way in which the wanted rows of three are right, wrong or never filled: 20 and 21 name the row, not the position."""
    kind = "list, rows wrong or unfilled"
    code = single_parity(1, 3)
    for listed in all_lists(code, [1]):
        for fates in product((RIGHT, WRONG, UNFILLED), repeat=len(listed)):
            filled = [(place, shift) for place, shift in zip(listed, fates) if shift != UNFILLED]
            add(vectors, kind, Plan(code, [1], [Step(COPY, place, (place + shift) % 3) for place, shift in filled], listed))
    tall = direct_plan(single_parity(1, 32), 1, [33, 47, 63])
    for place in tall.wanted:
        add(vectors, kind, tall.with_steps(step for step in tall.steps if step.target != place))
        add(vectors, kind, tall.with_steps(tall.steps + [Step(ADD, place, 5)]))
    for code, disk in torn_codes(8):
        place = next(place for place in lost_places(code, [disk]) if place not in restorable(code, [disk]))
        plan = Plan(code, [disk], [], [place])
        add(vectors, kind, plan.with_steps([Step(COPY, place, chosen(plan.survivors))]))


def add_list_read_counts(vectors: Vectors) -> None:
    kind = "list, read count"
    plans = [SQUARE_ROW, OUTER_ROWS, direct_plan(single_parity(1, 32), 1, [40, 41]), Plan(Code(2, 2, 1, (1, 0, 1, 1)), [0], [Step(CLEAR, 1, 0)], [1])]
    for plan in plans:
        true = read_count(plan.code, plan.disks, plan.steps)
        for stated in sorted({0, max(true - 1, 0), true, true + 1, len(plan.steps), 64, 255}):
            add(vectors, kind, plan, stated)


def add_list_short_plans(vectors: Vectors) -> None:
    """Every list with every plan of up to two well formed steps, for two rows of which one can't be rebuilt."""
    code = Code(2, 2, 2, (1, 2, 0, 2))
    steps = [Step(CLEAR, place, 0) for place in (0, 1)]
    steps += [Step(step, place, source) for step in (COPY, ADD) for place in (0, 1) for source in (0, 1, 3)]
    for listed, count in product(([0], [1], [0, 1]), range(3)):
        for some in product(steps, repeat=count):
            if count < 2 or below(3) == 0:
                add(vectors, "list, short plans", Plan(code, [0], list(some), listed))


def add_list_random(vectors: Vectors) -> None:
    kind = "list, random"
    for _ in range(40):
        code = random_code(2 + below(3), 1 + below(4), 1 + below(8))
        disk = below(code.disks)
        steps = [random_step(code, disk) for _ in range(1 + below(8))]
        add(vectors, kind, Plan(code, [disk], steps, chosen(all_lists(code, [disk]))))
    for turn in range(40):
        listed = bytes(below((9, 3)[turn % 2]) for _ in range(below(4)))
        rest = bytes([below(4), 0]) + random_bytes(below(12))
        vectors.check(kind, SQUARE_SHEET, [below(3)], ROW_1[:5] + bytes([below(3), below(4), len(listed)]) + listed + rest)
        vectors.check(kind, SQUARE_SHEET, [0], b"\6\2" + ROW_1[2 : 2 + below(8)] + random_bytes(below(40)))


# Desk and rebuild


def add_list_desk(vectors: Vectors) -> None:
    given = desk_input(0, SQUARE_SHEET, ROW_1)
    for length in range(73, len(given) + 1):
        vectors.desk("list, desk, cut", given[:length])
    for at in range(73, len(given)):
        vectors.desk("list, desk, one byte more", changed(given, at, given[at] + 1))
    tall = lengthened(direct_plan(single_parity(1, 32), 1, range(32, 64)))
    sheet = tall.sheet()
    for plan in (sheet, sheet[:-1], sheet + b"\0", sheet + random_bytes(4000)):
        vectors.desk("list, desk, long plan", desk_input(1, tall.code_sheet, plan))
    for more in (1, 3115 - len(ROW_1), 5000):
        vectors.desk("list, desk, long plan", given + random_bytes(more))
    for steps, length in [(1024, 3072), (1024, 3073), (1025, 3074), (1025, 3075)]:
        plan = ROW_1[:9] + steps.to_bytes(2, "little") + bytes(length)
        vectors.desk("list, desk, long plan", desk_input(0, SQUARE_SHEET, plan))
    for code in SPECIAL_CODES + [liberation(5, 5), row_diagonal(7)]:
        for disk, reads in product(sorted({0, code.disks - 1}), (None, 64)):
            plan = direct_plan(code, disk, chosen(some_lists(code, [disk])))
            if plan is not None:
                vectors.desk("list, desk, plans", desk_input(disk, plan.code_sheet, plan.sheet(reads)))


def add_both_ways(vectors: Vectors, plan: Optional[Plan], size: int) -> None:
    """On a valid stripe with its lost strip ruined, and on survivors that belong to none: what isn't wanted keeps its bytes."""
    if plan is not None:
        ruin = chosen([None, None, 0, 255])
        for kind, valid in (("list, rebuild, valid stripe", True), ("list, rebuild, other stripe", False)):
            vectors.rebuild(kind, plan.code_sheet, plan.disks, plan.sheet(), size, valid=valid, ruin=ruin)


def add_list_rebuilds(vectors: Vectors) -> None:
    asked = [(code, disk) for code in family_codes() for disk in some_disks(code)[:2]] + planted_codes()[::3]
    for code, disk in asked:
        plan = either_plan(code, disk, chosen(some_lists(code, [disk])[:2]))
        if plan is not None:
            add_both_ways(vectors, plan, min(fitting_size(plan), 4096))
    for code, disk in torn_codes(10):
        add_both_ways(vectors, chained_plan(code, disk, restorable(code, [disk])), 1 + below(20))
    for size in SIZES[:-1]:
        add_both_ways(vectors, SQUARE_ROW, size)
    for code in (SQUARE, liberation(3, 2)):
        for disk in range(code.disks):
            for listed in all_lists(code, [disk]):
                add_both_ways(vectors, chained_plan(code, disk, listed), 3)
    for start in idle_starts(OUTER_ROWS):
        add_both_ways(vectors, OUTER_ROWS.with_steps(start + OUTER_ROWS.steps), 5)


def add_list_rebuilds_refused(vectors: Vectors) -> None:
    kind = "list, rebuild refused"
    for at in range(len(ROW_1)):
        vectors.rebuild(kind, SQUARE_SHEET, [0], changed(ROW_1, at, ROW_1[at] + 1), 2)
    for size, length in [(0, 8), (65537, 8), (2**63, 0), (1, 7), (1, 9), (3, 16), (0, 7)]:
        vectors.rebuild(kind, SQUARE_SHEET, [0], ROW_1, size, length=length)
    for plan, size, length in [(ROW_1[:-1], 0, 8), (ROW_1 + b"\0", 1, 7), (changed(ROW_1, 8, 2), 0, 8), (changed(ROW_1, 7, 0), 1, 9)]:
        vectors.rebuild(kind, SQUARE_SHEET, [0], plan, size, length=length)
    for code, other in [(SQUARE, row_diagonal(3)), (row_diagonal(3), SQUARE)]:
        for disk in range(code.disks):
            sheet = direct_plan(code, disk, [disk * 2 + 1]).sheet()
            vectors.rebuild("list, rebuild under another code", Plan(other, [disk], []).code_sheet, [disk], sheet, 4, valid=True)


def add_edition_2_vectors(vectors: Vectors) -> None:
    vectors.check("list, square code", SQUARE_SHEET, [0], ROW_1)
    vectors.check("list, square code", SQUARE_SHEET, [0], plan_sheet(SQUARE, 0, SQUARE_PLAN.steps, listed=[0, 1]))
    vectors.check("list, square code", SQUARE_SHEET, [0], P2)
    add_accepted_lists(vectors)
    add_longer_ways(vectors)
    add_bad_entries(vectors)
    add_all_lists(vectors)
    add_list_counts(vectors)
    add_lists_before_and_behind(vectors)
    add_list_heads(vectors)
    add_list_lengths(vectors)
    add_list_step_limit(vectors)
    add_list_pairs(vectors)
    add_list_bytes_changed(vectors)
    add_unwanted_places(vectors)
    add_list_ends(vectors)
    add_list_read_counts(vectors)
    add_list_short_plans(vectors)
    add_list_random(vectors)
    add_list_desk(vectors)
    add_list_rebuilds(vectors)
    add_list_rebuilds_refused(vectors)
