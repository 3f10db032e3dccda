"""The records of rebuilds: valid stripes with a ruined strip, survivors of no valid stripe, and every refusal."""
from arrays import SMALLEST, chosen
from plan_vectors import SQUARE_PLAN, SQUARE_SHEET, family_codes, planted_codes, some_disks
from plans import Plan, chained_plan, direct_plan, idle_ends, idle_starts
from records import ROOM, Vectors
from second import SQUARE, changed, liberation, row_diagonal
from second_checker import P2

SIZES = (1, 2, 3, 7, 8, 16, 31, 64, 100, 512, 4096, 65536)


def fitting_size(plan: Plan) -> int:
    most = ROOM // max(plan.code.symbols, plan.code.data_symbols)
    return chosen([size for size in SIZES if size <= most])


def add_both(vectors: Vectors, plan: Plan, size: int) -> None:
    """On a valid stripe with its lost strip ruined, and on survivors that belong to none."""
    ruin = chosen([None, 0, 255, 1])
    vectors.rebuild("rebuild, valid stripe", plan.code_sheet, plan.disks, plan.sheet(), size, valid=True, ruin=ruin)
    vectors.rebuild("rebuild, other stripe", plan.code_sheet, plan.disks, plan.sheet(), size, ruin=ruin)


def add_rebuilds(vectors: Vectors) -> None:
    asked = [(code, disk) for code in family_codes() for disk in some_disks(code)]
    for code, disk in asked + planted_codes():
        plan = chosen([direct_plan, chained_plan])(code, disk)
        if plan is not None:
            add_both(vectors, plan, fitting_size(plan))
    for size in SIZES[:-1]:
        add_both(vectors, SQUARE_PLAN, size)
    for ruin in (None, 0, 255, 0x55):
        vectors.rebuild("rebuild, valid stripe", SQUARE_SHEET, [0], P2, 9, valid=True, ruin=ruin)
    for plan in (SQUARE_PLAN, chained_plan(liberation(3, 3), 1)):
        for start in idle_starts(plan):
            add_both(vectors, plan.with_steps(start + plan.steps), 5)
        for end in idle_ends(plan):
            add_both(vectors, plan.with_steps(plan.steps + end), 5)
    add_both(vectors, direct_plan(SMALLEST, 0), 65536)


def add_rebuilds_refused(vectors: Vectors) -> None:
    kind = "rebuild refused"
    for size in (0, 65537, 2**32, 2**61, 2**63, 2**64 - 1):
        for length in (0, 8, 64):
            vectors.rebuild(kind, SQUARE_SHEET, [0], P2, size, length=length)
    for size in (1, 3, 64):
        for length in (0, 8 * size - 1, 8 * size + 1, 4 * size, 16 * size):
            vectors.rebuild(kind, SQUARE_SHEET, [0], P2, size, length=length)
    for at in range(len(P2)):
        vectors.rebuild("rebuild, byte changed", SQUARE_SHEET, [0], changed(P2, at, (P2[at] + 1) % 256), 2)
    for disks in ([1], [4], [0, 1]):
        vectors.rebuild(kind, SQUARE_SHEET, disks, P2, 2)
    for sheet in (b"", SQUARE_SHEET[:69], SQUARE_SHEET + b"\0", changed(SQUARE_SHEET, 13, 128)):
        vectors.rebuild(kind, sheet, [0], P2, 2, length=16)
    for plan, size, length in [(P2[:20], 0, 8), (P2 + b"\0", 1, 7), (changed(P2, 6, 4), 65537, 9), (P2, 0, 7)]:
        vectors.rebuild("rebuild, order", SQUARE_SHEET, [0], plan, size, length=length)


def add_other_layouts(vectors: Vectors) -> None:
    """The incident: a plan that was accepted under one code, run under another of the same shape."""
    for code, other in [(SQUARE, row_diagonal(3)), (row_diagonal(3), SQUARE)]:
        for disk in range(code.disks):
            plan = direct_plan(code, disk)
            foreign = Plan(other, [disk], plan.steps)
            vectors.rebuild("rebuild under another code", foreign.code_sheet, [disk], plan.sheet(), 4, valid=True)


def add_rebuild_vectors(vectors: Vectors) -> None:
    add_rebuilds(vectors)
    add_rebuilds_refused(vectors)
    add_other_layouts(vectors)
