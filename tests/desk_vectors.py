"""The records of desk inputs: cut anywhere, lengths past the end, plans longer than any sheet, and every kind of answer."""
from arrays import SPECIAL_CODES, below, random_bytes, random_codes
from plans import direct_plan
from records import Vectors
from second import SQUARE, changed, liberation, row_diagonal, sheet_of
from second_checker import P2
from second_desk import desk_input

P2_INPUT = desk_input(0, sheet_of(SQUARE), P2)


def add_cut(vectors: Vectors) -> None:
    for length in range(len(P2_INPUT) + 1):
        vectors.desk("desk, cut", P2_INPUT[:length])


def add_lengths(vectors: Vectors) -> None:
    """The code sheet's length changed: short of the sheet, past the end, and at the ends of two bytes."""
    kind = "desk, sheet length"
    for length in (0, 1, 5, 6, 21, 69, 70, 71, 78, 90, 91, 92, 255, 256, 326, 582, 65535):
        vectors.desk(kind, b"\0" + length.to_bytes(2, "little") + P2_INPUT[3:])
        vectors.desk(kind, b"\0" + length.to_bytes(2, "little") + sheet_of(SQUARE))


def add_bytes_changed(vectors: Vectors) -> None:
    for at in range(len(P2_INPUT)):
        vectors.desk("desk, one byte more", changed(P2_INPUT, at, (P2_INPUT[at] + 1) % 256))


def add_long(vectors: Vectors) -> None:
    """Plans with more bytes than any sheet has."""
    kind = "desk, long plan"
    for more in (1, 3, 2990, 3000, 3060, 3061, 5000):
        vectors.desk(kind, P2_INPUT + random_bytes(more))
    for steps in (1024, 1025):
        head = P2[:7] + steps.to_bytes(2, "little")
        for length in (3 * steps - 1, 3 * steps, 3 * steps + 1, 3073, 4000):
            vectors.desk(kind, desk_input(0, sheet_of(SQUARE), head + bytes(length)))


def add_answers(vectors: Vectors) -> None:
    kind = "desk, plans"
    for code in SPECIAL_CODES + random_codes() + [liberation(5, 5), liberation(7, 7), row_diagonal(7)]:
        for disk in sorted({0, code.disks - 1}):
            plan = direct_plan(code, disk)
            sheet = sheet_of(code)
            if plan is not None:
                vectors.desk(kind, desk_input(disk, sheet, plan.sheet(None)))
                vectors.desk(kind, desk_input(disk, sheet, plan.sheet(64)))
        vectors.desk(kind, desk_input(code.disks, sheet_of(code), P2))
        vectors.desk(kind, desk_input(255, sheet_of(code), b""))
    for _ in range(30):
        vectors.desk("desk, random input", random_bytes(below(200)))


def add_desk_vectors(vectors: Vectors) -> None:
    add_cut(vectors)
    add_lengths(vectors)
    add_bytes_changed(vectors)
    add_long(vectors)
    add_answers(vectors)
