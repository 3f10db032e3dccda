"""The records of plan sheets: accepted plans of many shapes, and plans with each fault at both sides of each limit."""
from itertools import combinations, permutations, product
from typing import Callable, NamedTuple, Optional

import second
from arrays import SMALLEST, SPECIAL_CODES, below, chosen, random_bytes, random_code, random_codes
from plans import Plan, chained_plan, direct_plan, fill, idle_ends, idle_starts, interleaved, lengthened, planted_code
from records import Vectors
from second import SQUARE, Code, changed
from second_checker import ADD, CLEAR, COPY, P2, STEP_LIMIT, Disks, Step, lost_places, read_count, steps_of

SQUARE_SHEET = second.sheet_of(SQUARE)
SQUARE_PLAN = Plan(SQUARE, [0], steps_of(P2))
TWO_EQUAL = Code(2, 1, 1, (1, 1))


def add(vectors: Vectors, kind: str, plan: Plan, reads: Optional[int] = None) -> None:
    vectors.check(kind, plan.code_sheet, plan.disks, plan.sheet(reads))


def add_accepted(vectors: Vectors, kind: str, plan: Optional[Plan]) -> None:
    """A plan that must be accepted; nothing where none exists."""
    if plan is not None:
        add(vectors, kind, plan)
        assert vectors.lines[-1].startswith("accepted"), plan


# Accepted plans


def family_codes() -> list[Code]:
    parameters = [(1, 1), (2, 1), (1, 2), (1, 32), (63, 1), (7, 8), (3, 4), (12, 4)]
    parity = [second.single_parity(k, r) for k, r in parameters]
    liberation = [second.liberation(w, k) for w in (3, 5, 7) for k in range(2, w + 1)]
    by_prime = [family(p) for family in (second.row_diagonal, second.evenodd) for p in (3, 5, 7)]
    return parity + liberation + by_prime


def some_disks(code: Code) -> list[int]:
    return sorted({0, code.disks // 2, code.disks - 1})


def planted_codes() -> list[tuple[Code, int]]:
    """Codes at every limit, each with a disk that can be rebuilt."""
    shapes = [(2, 1, 1), (2, 1, 64), (3, 1, 9), (4, 2, 11), (3, 5, 64), (2, 32, 64), (64, 1, 64), (8, 8, 64)]
    shapes += [(2, 32, 5), (16, 4, 33), (63, 1, 10), (31, 2, 48), (5, 6, 8)]
    asked = [(shape, disk) for shape in shapes for disk in sorted({0, shape[0] // 2, shape[0] - 1})]
    return [(planted_code(*shape, [disk]), disk) for shape, disk in asked]


def add_accepted_plans(vectors: Vectors) -> None:
    for code in family_codes():
        for disk in some_disks(code):
            add_accepted(vectors, "plan, families", chosen([direct_plan, chained_plan])(code, disk))
    for code in SPECIAL_CODES + random_codes():
        for disk in some_disks(code):
            add_accepted(vectors, "plan, other codes", direct_plan(code, disk))
    for code, disk in planted_codes():
        add_accepted(vectors, "plan, planted codes", chosen([direct_plan, chained_plan])(code, disk))


def add_varied_plans(vectors: Vectors) -> None:
    kind = "plan, longer ways"
    wide = planted_code(3, 4, 40, [1])
    plans = [SQUARE_PLAN, direct_plan(second.single_parity(3, 1), 2), chained_plan(wide, 1)]
    for plan in plans + [chained_plan(second.liberation(3, 3), 1)]:
        for start in idle_starts(plan):
            add_accepted(vectors, kind, plan.with_steps(start + plan.steps))
        for end in idle_ends(plan):
            add_accepted(vectors, kind, plan.with_steps(plan.steps + end))
            add_accepted(vectors, kind, plan.with_steps(chosen(idle_starts(plan)) + plan.steps + end))
        add_accepted(vectors, kind, plan.with_steps(plan.steps + plan.steps))
    for code, disk in [(SQUARE, 1), (second.liberation(5, 4), 4), (second.single_parity(3, 4), 0), (wide, 1)]:
        add_accepted(vectors, kind, interleaved(direct_plan(code, disk)))


def parity_plans() -> list[Plan]:
    """Liberation w 5, k 5, disk 0, whose data rows each stand in one row of P and one of Q: all 32 ways to choose."""
    code = second.liberation(5, 5)
    plans = []
    for choice in product((25, 30), repeat=5):
        steps = []
        for row, first in enumerate(choice):
            others = [bit for bit in second.bits_of(code.rows[first + row]) if bit != row]
            steps += fill(row, others + [first + row])
        plans.append(Plan(code, [0], steps))
    return plans


def add_parity_plans(vectors: Vectors) -> None:
    for plan in parity_plans():
        add_accepted(vectors, "plan, from P or Q", plan)


# The head


def add_plan_heads(vectors: Vectors) -> None:
    kind = "plan, head"
    larger = direct_plan(second.single_parity(4, 8), 4)
    for plan in (SQUARE_PLAN, larger):
        sheet = plan.sheet()
        for at, right in enumerate(sheet[:6]):
            for value in sorted({(right + 255) % 256, right + 1, 128}):
                vectors.check(kind, plan.code_sheet, plan.disks, changed(sheet, at, value))
    for at, other in combinations((2, 3, 4), 2):
        sheet = larger.sheet()
        exchanged = changed(changed(sheet, at, sheet[other]), other, sheet[at])
        vectors.check(kind, larger.code_sheet, larger.disks, exchanged)


def add_asked_disks(vectors: Vectors) -> None:
    """Asked disks that are, or aren't, the plan's own, and sets that aren't its one disk."""
    kind = "plan, asked disk"
    for plan in (SQUARE_PLAN, direct_plan(second.single_parity(63, 1), 63)):
        disks, own = plan.code.disks, plan.disk
        for disk in sorted({0, 1, disks - 1, disks, disks + 1, 255}):
            vectors.check(kind, plan.code_sheet, [disk], plan.sheet())
            if disk < disks and disk != own:
                vectors.check(kind, plan.code_sheet, [disk], changed(plan.sheet(), 5, disk))
        for asked in ([], [own, own], [own, disks], sorted([own, 1]), range(disks)):
            vectors.check(kind, plan.code_sheet, asked, plan.sheet())


def with_count(sheet: bytes, count: int) -> bytes:
    """A plan sheet that states another number of steps."""
    return sheet[:7] + count.to_bytes(2, "little") + sheet[9:]


def add_plan_lengths(vectors: Vectors) -> None:
    kind = "plan, cut or longer"
    for length in range(len(P2)):
        vectors.check(kind, SQUARE_SHEET, [0], P2[:length])
    for plan in (SQUARE_PLAN, direct_plan(second.single_parity(2, 1), 0)):
        sheet = plan.sheet()
        for more in (1, 2, 3, 4, 4000 - len(sheet)):
            vectors.check(kind, plan.code_sheet, plan.disks, sheet + random_bytes(more))
        for count in (0, len(plan.steps) - 1, len(plan.steps) + 1, 256, len(plan.steps) * 256, 1024, 1025, 65535):
            vectors.check(kind, plan.code_sheet, plan.disks, with_count(sheet, count))


def add_step_limit(vectors: Vectors) -> None:
    """1,024 steps, accepted and not; 1,025 steps with and without their bytes."""
    kind = "plan, step limit"
    for plan in (SQUARE_PLAN, direct_plan(second.single_parity(1, 32), 1)):
        full = lengthened(plan)
        sheet = full.sheet()
        add_accepted(vectors, kind, lengthened(plan, STEP_LIMIT - 1))
        add_accepted(vectors, kind, full)
        add(vectors, kind, full.with_steps(full.steps[:-1] + [Step(CLEAR, plan.lost[-1], 0)]))
        add(vectors, kind, full.with_steps(full.steps[:-1] + [Step(ADD, plan.lost[0], plan.survivors[0])]))
        add(vectors, kind, full.with_steps(full.steps[:-1] + [Step(COPY, plan.lost[0], 255)]))
        add(vectors, kind, lengthened(plan, STEP_LIMIT + 1))
        vectors.check(kind, plan.code_sheet, plan.disks, sheet[:-1])
        for more in (1, 3, 4000 - len(sheet)):
            vectors.check(kind, plan.code_sheet, plan.disks, sheet + bytes(more))
        for count in (STEP_LIMIT - 1, STEP_LIMIT + 1, 256, 0, 65535):
            vectors.check(kind, plan.code_sheet, plan.disks, with_count(sheet, count))
        vectors.check(kind, plan.code_sheet, plan.disks, with_count(plan.sheet(), STEP_LIMIT + 1))
    vectors.check(kind, SQUARE_SHEET, [0], with_count(P2, 1330) + random_bytes(9 + 3 * 1330 - len(P2)))
    for plan in parity_plans()[:2]:
        add_accepted(vectors, kind, lengthened(plan))


# Steps


def add_changed_bytes(vectors: Vectors) -> None:
    """Every byte of accepted plans one higher, and those of the square code's steps with other values too."""
    kind = "plan, byte changed"
    for plan in (SQUARE_PLAN, chained_plan(second.liberation(3, 2), 1), direct_plan(planted_code(2, 2, 64, [1]), 1)):
        sheet = plan.sheet()
        for at, byte in enumerate(sheet):
            vectors.check(kind, plan.code_sheet, plan.disks, changed(sheet, at, (byte + 1) % 256))
    for at, byte in list(enumerate(P2))[9:]:
        for value in sorted({(byte + 255) % 256, byte + 2, byte + 4, below(256)}):
            vectors.check(kind, SQUARE_SHEET, [0], changed(P2, at, value))


def add_changed_steps(vectors: Vectors) -> None:
    """Each step of accepted plans left out, or moved behind the next, with the true count of what is left."""
    kind = "plan, step changed"
    for plan in (SQUARE_PLAN, parity_plans()[7], chained_plan(second.row_diagonal(3), 3)):
        for number in range(len(plan.steps)):
            before, here, after = plan.steps[:number], plan.steps[number : number + 1], plan.steps[number + 1 :]
            add(vectors, kind, plan.with_steps(before + after))
            add(vectors, kind, plan.with_steps(before + after[:1] + here + after[1:]))


def add_step_numbers(vectors: Vectors) -> None:
    """Targets and sources at both sides of the failed disk and of N, and kinds behind the last, with each other."""
    kind = "plan, step at a limit"
    for plan in (Plan(SQUARE, [3], []), direct_plan(second.single_parity(4, 3), 2)):
        first, last, symbols = plan.lost[0], plan.lost[-1], plan.code.symbols
        numbers = sorted({0, first - 1, first, last, last + 1, symbols - 1, symbols, 255})
        for place in numbers:
            for step in (Step(COPY, place, plan.survivors[0]), Step(CLEAR, place, 0), Step(ADD, place, place)):
                add(vectors, kind, plan.with_steps(plan.steps + [step]))
        for source in numbers:
            for step in (Step(step_kind, last, source) for step_kind in (COPY, ADD, CLEAR, 3)):
                add(vectors, kind, plan.with_steps(plan.steps + [step]))
        for step_kind in (3, 4, 128, 255):
            add(vectors, kind, plan.with_steps([Step(step_kind, last, plan.survivors[0])] + plan.steps))


def add_unfilled_uses(vectors: Vectors) -> None:
    """Each use of a place before and behind the step that fills it."""
    kind = "plan, unfilled place"
    for plan in (SQUARE_PLAN, direct_plan(second.liberation(3, 3), 4)):
        first, last = plan.lost[0], plan.lost[-1]
        uses = [Step(COPY, first, first), Step(COPY, first, last), Step(COPY, last, first), Step(ADD, first, first)]
        uses += [Step(ADD, last, first), Step(ADD, first, plan.survivors[0])]
        for use in uses:
            for number in sorted({0, 1, len(plan.steps) - 1, len(plan.steps)}):
                add(vectors, kind, plan.with_steps(plan.steps[:number] + [use] + plan.steps[number:]))


def add_steps_onto_themselves(vectors: Vectors) -> None:
    """25: a copy or an add of every place of the array onto itself, before, among and behind the other steps. Lost places of the
    plan are 25, others 18; a clear of symbol 0 has the source byte 0 and is no such step."""
    kind = "plan, step onto itself"
    for plan in (SQUARE_PLAN, direct_plan(second.single_parity(2, 3), 0), chained_plan(second.liberation(3, 2), 1)):
        for step_kind, place in product((COPY, ADD), range(plan.code.symbols + 1)):
            for number in sorted({0, 1, len(plan.steps)}):
                add(vectors, kind, plan.with_steps(plan.steps[:number] + [Step(step_kind, place, place)] + plan.steps[number:]))
    add_accepted(vectors, kind, SQUARE_PLAN.with_steps([Step(CLEAR, 0, 0)] + SQUARE_PLAN.steps))
    # The first faulty step decides, also where a later one is onto itself.
    for step in (Step(3, 0, 0), Step(COPY, 2, 3), Step(ADD, 0, 1), Step(COPY, 0, 1)):
        add(vectors, kind, SQUARE_PLAN.with_steps([step, Step(COPY, 0, 0)] + SQUARE_PLAN.steps))
        add(vectors, kind, SQUARE_PLAN.with_steps([Step(ADD, 0, 0), step] + SQUARE_PLAN.steps))


# The end

RIGHT, WRONG, UNFILLED = 0, 1, 2
"""How a row ends; a wrong one is copied from one row further on."""


def add_ends(vectors: Vectors) -> None:
    """Every way in which three rows are right, wrong or never filled, and five are right or wrong."""
    kind = "plan, rows wrong or unfilled"
    for height, fates in [(3, (RIGHT, WRONG, UNFILLED)), (5, (RIGHT, WRONG))]:
        code = second.single_parity(1, height)
        for rows in product(fates, repeat=height):
            filled = [(row, shift) for row, shift in enumerate(rows) if shift != UNFILLED]
            steps = [Step(COPY, row, height + (row + shift) % height) for row, shift in filled]
            add(vectors, kind, Plan(code, [0], steps))
    tall = direct_plan(second.single_parity(1, 32), 1)
    spoil = {row: Step(ADD, tall.lost[row], row) for row in (0, 15, 31)}
    for row, wrong in spoil.items():
        others = [step for step in tall.steps if step.target != wrong.target]
        add(vectors, kind, tall.with_steps(others))
        add(vectors, kind, tall.with_steps(tall.steps + [wrong]))
        for also in [spoil[other] for other in spoil if other != row]:
            add(vectors, kind, tall.with_steps(others + [also]))
            add(vectors, kind, tall.with_steps(tall.steps + [wrong, also]))


def add_read_counts(vectors: Vectors) -> None:
    kind = "plan, read count"
    plans = [SQUARE_PLAN, direct_plan(second.single_parity(63, 1), 5), direct_plan(second.single_parity(1, 32), 0)]
    plans += [parity_plans()[0], parity_plans()[7], Plan(SMALLEST, [0], [Step(CLEAR, 0, 0)])]
    plans.append(SQUARE_PLAN.with_steps([Step(COPY, 0, symbol) for symbol in range(2, 8)] + SQUARE_PLAN.steps))
    last_zero = Plan(Code(2, 1, 1, (1, 0)), [1], [Step(CLEAR, 1, 0)])
    plans += [last_zero, last_zero.with_steps([Step(COPY, 1, 0), Step(CLEAR, 1, 0)])]
    for plan in plans:
        true = read_count(plan.code, plan.disks, plan.steps)
        mentions = len([step for step in plan.steps if step.kind != CLEAR])
        named = len({step.source for step in plan.steps})
        for stated in sorted({0, max(true - 1, 0), true, true + 1, mentions, named, 64, 128 + true, 255}):
            add(vectors, kind, plan, stated)


# Several faults


class Asked(NamedTuple):
    """A call's inputs."""

    code_sheet: bytes
    disks: Disks
    plan_sheet: bytes

    def with_byte(self, at: int, value: int) -> "Asked":
        """Another byte in the plan sheet, where it goes so far."""
        return self._replace(plan_sheet=changed(self.plan_sheet, at, value)) if at < len(self.plan_sheet) else self


def byte_fault(at: int, value: int) -> Callable[[Asked], Asked]:
    return lambda asked: asked.with_byte(at, value)


def length_fault(change: Callable[[bytes], bytes]) -> Callable[[Asked], Asked]:
    return lambda asked: asked._replace(plan_sheet=change(asked.plan_sheet))


def add_plan_pairs(vectors: Vectors) -> None:
    """Two faults at once, for the order of the refusals. Those of the length come last: a cut leaves less to change."""
    head = [byte_fault(at, value) for at, value in [(0, 4), (1, 3), (3, 1), (5, 1), (8, 4)]]
    steps = [byte_fault(at, value) for at, value in [(9, 3), (9, 2), (10, 3), (11, 8), (14, 8), (15, 2), (16, 2)]]
    ends = [byte_fault(at, value) for at, value in [(6, 4), (20, 6), (16, 0), (19, 0)]]
    lengths = [length_fault(change) for change in (lambda s: s + b"\1", lambda s: s[:18], lambda s: s[:8])]
    calls: list[Callable[[Asked], Asked]] = [
        lambda asked: asked._replace(disks=[4]),
        lambda asked: asked._replace(code_sheet=changed(asked.code_sheet, 69, 128)),
    ]
    for one, other in combinations(calls + head + steps + ends + lengths, 2):
        vectors.check("plan with two faults", *other(one(Asked(SQUARE_SHEET, [0], P2))))


def add_refused_code_sheets(vectors: Vectors) -> None:
    """Each fault of a code sheet, with plans good and bad, and disks."""
    sheets = [b"", SQUARE_SHEET[:5], SQUARE_SHEET[:69], SQUARE_SHEET + b"\0", changed(SQUARE_SHEET, 13, 16)]
    bytes_changed = [(0, 6), (1, 2), (2, 1), (3, 0), (4, 0), (4, 65), (5, 9)]
    sheets += [changed(SQUARE_SHEET, at, value) for at, value in bytes_changed]
    for sheet, (disk, plan) in product(sheets, [(0, P2), (4, P2), (0, b"")]):
        vectors.check("plan, code sheet refused", sheet, [disk], plan)


# Plans of another code


def flipped(code: Code, symbol: int, bit: int) -> Code:
    rows = list(code.rows)
    rows[symbol] ^= 1 << bit
    return code._replace(rows=tuple(rows))


def add_plans_of_others(vectors: Vectors) -> None:
    """Plans that were right for one code, asked for another of the same shape."""
    kind = "plan of another code"
    for bit, symbol in product(range(4), range(8)):
        vectors.check(kind, second.sheet_of(flipped(SQUARE, symbol, bit)), [0], P2)
    wide = direct_plan(planted_code(5, 3, 64, [2]), 2)
    for bit, symbol in product((0, 32, 63), range(3, 12)):
        vectors.check(kind, second.sheet_of(flipped(wide.code, symbol, bit)), [2], wide.sheet())
    codes = [SQUARE, second.row_diagonal(3), Code(4, 2, 4, (0,) * 8)]
    for (code, other), disk in product(permutations(codes, 2), range(4)):
        vectors.check(kind, second.sheet_of(other), [disk], chained_plan(code, disk).sheet())


# All and any


def add_short_plans(vectors: Vectors) -> None:
    """Every plan of up to two well formed steps for the smallest arrays."""
    kind = "plan, every short one"
    steps = [Step(CLEAR, 0, 0)] + [Step(step, 0, source) for step in (COPY, ADD) for source in (0, 1)]
    for code, count in product((SMALLEST, TWO_EQUAL), range(3)):
        for some in product(steps, repeat=count):
            add(vectors, kind, Plan(code, [0], list(some)))


def random_step(code: Code, disk: int) -> Step:
    """A step without a fault of its own, but for places not filled."""
    kind = chosen([CLEAR, COPY, COPY, ADD, ADD, ADD])
    return Step(kind, chosen(lost_places(code, [disk])), 0 if kind == CLEAR else below(code.symbols))


def add_random_plans(vectors: Vectors) -> None:
    kind = "plan, random"
    for turn in range(40):
        code = [SMALLEST, TWO_EQUAL, Code(3, 1, 1, (1, 1, 0)), Code(2, 2, 2, (1, 3, 2, 1))][turn % 4]
        disk = below(code.disks)
        start = [Step(COPY, place, chosen(Plan(code, [disk], []).survivors)) for place in lost_places(code, [disk])]
        add(vectors, kind, Plan(code, [disk], start + [random_step(code, disk) for _ in range(1 + below(6))]))
    for _ in range(30):
        code = random_code(2 + below(4), 1 + below(5), 1 + below(12))
        disk = below(code.disks)
        add(vectors, kind, Plan(code, [disk], [random_step(code, disk) for _ in range(1 + below(12))]))
    for turn in range(24):
        count = 1 + below(6)
        head = P2[:7] + count.to_bytes(2, "little")
        small = bytes(below((3, 4, 9)[at % 3]) for at in range(3 * count))
        vectors.check(kind, SQUARE_SHEET, [0], head + (small if turn % 2 else random_bytes(3 * count)))
        vectors.check(kind, SQUARE_SHEET, [below(5)], P2[: below(8)] + random_bytes(below(40)))


def add_plan_vectors(vectors: Vectors) -> None:
    vectors.check("plan of the square code", SQUARE_SHEET, [0], P2)
    add_accepted_plans(vectors)
    add_varied_plans(vectors)
    add_parity_plans(vectors)
    add_plan_heads(vectors)
    add_asked_disks(vectors)
    add_plan_lengths(vectors)
    add_step_limit(vectors)
    add_changed_bytes(vectors)
    add_changed_steps(vectors)
    add_step_numbers(vectors)
    add_unfilled_uses(vectors)
    add_steps_onto_themselves(vectors)
    add_ends(vectors)
    add_read_counts(vectors)
    add_plan_pairs(vectors)
    add_refused_code_sheets(vectors)
    add_plans_of_others(vectors)
    add_short_plans(vectors)
    add_random_plans(vectors)
