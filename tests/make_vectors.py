"""Writes vectors/stdin and vectors/stdout anew: records, and the lines that the second program expects. Then it writes
planvectors/stdin anew, the records of planning, for which it expects no line: their answers are judged.

    python3 tests/make_vectors.py           writes them to crates/
    python3 tests/make_vectors.py FOLDER    writes them to another folder

Every run writes the same files.
"""
import sys
from functools import partial
from itertools import combinations, product
from pathlib import Path
from typing import Callable, Iterable, Optional

import second
from arrays import SMALLEST, SPECIAL_CODES, below, random_bytes, random_code, random_codes, random_row
from desk_vectors import add_desk_vectors
from edition2_vectors import add_edition_2_vectors
from edition3_vectors import add_edition_3_vectors
from plan_vectors import add_plan_vectors
from plans import direct_plan
from planner_vectors import Questions, add_fewest_questions, add_gone_questions, add_list_questions, add_planning_questions, add_priced_questions
from planner_vectors import add_set_questions
from rebuild_vectors import add_rebuild_vectors
from records import ROOM, Vectors
from second import Code, changed
from soundness_vectors import add_soundness_vectors

CRATES = Path(__file__).resolve().parent.parent / "crates"
HUGE = (2**31, 2**32, 2**32 + 1, 2**63, 2**63 + 1, 2**64 - 1)


def family_parameters() -> list[tuple[int, int, int]]:
    """Every family at every parameter that it allows; the second parameter of row-diagonal and EVENODD is of no account."""
    parity = [(second.SINGLE_PARITY, k, r) for k in range(1, 64) for r in range(1, 33) if (k + 1) * r <= 64]
    liberation = [(second.LIBERATION, w, k) for w in (3, 5, 7) for k in range(2, w + 1)]
    return parity + liberation + [(which, p, p - 3) for which in (second.ROW_DIAGONAL, second.EVENODD) for p in (3, 5, 7)]


# Families


def add_families(vectors: Vectors) -> None:
    for turn, (which, first, other) in enumerate(family_parameters()):
        sheet = second.sheet_of(second.family(which, first, other))
        every = which != second.SINGLE_PARITY
        if every or turn % 2 == 0:
            vectors.family("family, exact buffer", which, first, other, len(sheet))
        if every or turn % 2 == 1:
            vectors.family("family, longer buffer", which, first, other, len(sheet) + (1, 2, 8, 100, 2000)[turn % 5])
        if every or turn % 6 == 0:
            vectors.family("family, short buffer", which, first, other, len(sheet) - 1)
        vectors.read("family read back", sheet)
    for which, first, other in [(0, 1, 1), (0, 63, 1), (1, 7, 7), (2, 7, 0), (3, 7, 0)]:
        for length in (0, 1, 5, 6, 21):
            vectors.family("family, short buffer", which, first, other, length)
    vectors.family("family, longer buffer", second.LIBERATION, 5, 5, ROOM)


def add_families_refused(vectors: Vectors) -> None:
    """Parameters just outside, and far outside, with room and without (36 before 37)."""
    parity = [(0, 0), (0, 1), (1, 0), (0, 32), (63, 0), (64, 0), (64, 1), (255, 1), (1, 33)]
    parity += [(2, 22), (3, 17), (12, 5), (31, 3), (63, 2)]
    parity += [(2**32 - 1, 2**32), (2**63 - 1, 2), (2**64 - 1, 2**64 - 1), (2**64 - 2, 1), (2**62 - 1, 4), (2**58, 64)]
    parity += [(huge, 1) for huge in HUGE] + [(1, huge) for huge in HUGE]
    liberation = [(w, 2) for w in (0, 1, 2, 4, 6, 8, 9, 11, 255, *HUGE)]
    liberation += [(w, k) for w in (3, 5, 7) for k in (0, 1, w + 1, w + 2, 2**32 + 2, 2**64 - 1)]
    liberation += [(4, 4), (11, 11), (2**32 + 5, 5)]
    by_prime = [(p, 0) for p in (0, 1, 2, 4, 6, 8, 9, 11, 13, 255, 2**32 + 3, *HUGE)]
    for which, parameters in enumerate([parity, liberation, by_prime, by_prime]):
        for turn, (first, other) in enumerate(parameters):
            vectors.family("family refused", which, first, other, (518, 600, 0)[turn % 3])


# Code sheets


def raw_sheet(disks: int, height: int, data_symbols: int, rows: Optional[int] = None) -> bytes:
    """A sheet whose head may be wrong: n × r random rows or as many as said, up to 70, and no stray bit."""
    count = min(disks * height if rows is None else rows, 70)
    section = b"".join(random_row(min(data_symbols, 64)).to_bytes(8, "little") for _ in range(count))
    return bytes([4, 1, disks, height, data_symbols, disks * height % 256]) + section


def add_sheet_limits(vectors: Vectors) -> None:
    kind = "sheet at a limit"
    for disks in (0, 1, 2, 3, 63, 64, 65, 128, 255):
        vectors.read(kind, raw_sheet(disks, 1, 5))
    for height in (0, 1, 2, 31, 32, 33, 64, 128, 255):
        vectors.read(kind, raw_sheet(2, height, 9))
    products = [(8, 8), (13, 5), (5, 13), (16, 4), (33, 2), (21, 3), (22, 3), (64, 2), (64, 4), (16, 16), (64, 32)]
    for disks, height in products + [(255, 255)]:
        vectors.read(kind, raw_sheet(disks, height, 64))
    for data_symbols in (0, 1, 2, 63, 64, 65, 66, 128, 255):
        vectors.read(kind, raw_sheet(3, 2, data_symbols))
    for disks, height in [(2, 1), (4, 2), (8, 8), (2, 32), (64, 1)]:
        symbols = disks * height
        for wrong in (0, symbols - 1, symbols + 1, 255):
            vectors.read(kind, changed(raw_sheet(disks, height, 4), 5, wrong))
            vectors.read(kind, changed(raw_sheet(disks, height, 4, rows=wrong), 5, wrong))
    square = second.sheet_of(second.SQUARE)
    for count in (0, 3, 5, 6, 132, 255):
        vectors.read(kind, changed(square, 0, count))
    for edition in (0, 2, 3, 129, 255):
        vectors.read(kind, changed(square, 1, edition))


def add_sheet_lengths(vectors: Vectors) -> None:
    kind = "sheet cut or longer"
    square = second.sheet_of(second.SQUARE)
    smallest = second.sheet_of(SMALLEST)
    largest = second.sheet_of(random_code(8, 8, 64))
    for sheet in (smallest, square):
        for length in range(len(sheet)):
            vectors.read(kind, sheet[:length])
    for length in (5, 6, 7, 13, 14, 22, 509, 510, 511, 516, 517):
        vectors.read(kind, largest[:length])
    for sheet in (smallest, square, largest):
        for more in (1, 7, 8, 9, 600 - len(sheet)):
            vectors.read(kind, sheet + random_bytes(more))
        vectors.read(kind, sheet + bytes(8))
    vectors.read(kind, bytes([5]) + random_bytes(599))
    vectors.read(kind, bytes([5]) + square[1:] + bytes(530))
    vectors.read(kind, bytes(600))
    vectors.read(kind, bytes([4]) * 600)


def with_bits(code: Code, places: Iterable[tuple[int, int]]) -> bytes:
    """The sheet of a code with more bits set, each a row and a bit."""
    rows = list(code.rows)
    for row, bit in places:
        rows[row] |= 1 << bit
    return second.sheet_of(code._replace(rows=tuple(rows)))


def add_stray_bits(vectors: Vectors) -> None:
    kind = "stray bits"
    shapes = [(8, 8, 40), (3, 2, 32), (5, 3, 1), (7, 1, 56)]
    for code in [second.SQUARE, Code(2, 1, 63, (2**63 - 1, 0))] + [random_code(*shape) for shape in shapes]:
        last, middle, k = code.symbols - 1, code.symbols // 2, code.data_symbols
        for row, bit in product((0, middle, last), sorted({k, (k + 63) // 2, 63})):
            vectors.read(kind, with_bits(code, [(row, bit)]))
        vectors.read(kind, with_bits(code, [(0, 63), (last, k)]))
        vectors.read(kind, with_bits(code, [(middle, 63), (middle, k), (last, k)]))
        vectors.read(kind, with_bits(code, [(row, bit) for row in range(code.symbols) for bit in range(k, 64)]))
        vectors.read(kind, with_bits(code, [(0, k - 1), (last, k - 1)]))
    for row in range(second.SQUARE.symbols):
        vectors.read(kind, with_bits(second.SQUARE, [(row, 4 + below(60)), (row, 4 + below(60)), (7, 63)]))


def add_sheet_pairs(vectors: Vectors) -> None:
    """Two faults at once, for the order of the refusals. Those of the length come last: a cut leaves less to change."""
    bytes_changed = [(0, 5), (1, 2), (2, 1), (3, 33), (4, 0), (4, 65), (5, 9), (13, 128)]
    changes: list[Callable[[bytes], bytes]] = [partial(changed, at=at, value=value) for at, value in bytes_changed]
    changes.append(lambda sheet: sheet + b"\1")
    changes += [lambda sheet: sheet[:69], lambda sheet: sheet[:21], lambda sheet: sheet[:5]]
    for one, other in combinations(changes, 2):
        vectors.read("sheet with two faults", other(one(second.sheet_of(second.SQUARE))))


def add_random_sheets(vectors: Vectors) -> None:
    kind = "random sheet"
    for turn in range(40):
        start = (b"", b"\4", b"\4\1", b"\4\1\2\1\1\2")[turn % 4]
        vectors.read(kind, start + random_bytes(below(120)))
    for _ in range(30):
        disks = 2 + below(63)
        height = 1 + below(min(32, 64 // disks))
        vectors.read(kind, raw_sheet(disks, height, 1 + below(64)))


# Encoding

LENGTHS_REFUSED = (0, 65537, 2**16 + 2**8, 2**32 + 1, 2**61, 2**62, 2**63, 2**64 - 1)


def as_held(length: int) -> int:
    """A length, or what is left of it in 64 bits where it is beyond the room: 0 for many products."""
    return length if length <= ROOM else length % 2**64 % ROOM


def fitting(code: Code, sizes: Iterable[int]) -> list[int]:
    """The symbol lengths at which data and stripe have room."""
    return [size for size in sizes if max(code.symbols, code.data_symbols) * size <= ROOM]


def lengths_for(code: Code, size: int) -> tuple[int, int]:
    return code.data_symbols * size, code.symbols * size


def add_encodings(vectors: Vectors) -> None:
    kind = "encoding"
    square = second.sheet_of(second.SQUARE)
    vectors.encode(kind, square, 1, (4, 8), bytes.fromhex("11224488"))
    vectors.encode(kind, square, 2, (8, 16), bytes(8))
    for at in range(4):
        vectors.encode(kind, square, 1, (4, 8), bytes(at) + b"\xff" + bytes(3 - at))
    sizes = (1, 2, 3, 7, 8, 64, 100)
    for turn, code in enumerate(SPECIAL_CODES + random_codes()):
        sheet = second.sheet_of(code)
        chosen = fitting(code, [1, sizes[turn % 7], sizes[(turn + 3) % 7], sizes[(turn + 5) % 7]])
        for size in sorted(set(chosen)):
            vectors.encode(kind, sheet, size, lengths_for(code, size))
    for code in SPECIAL_CODES + [random_code(8, 8, 64), random_code(5, 3, 9)]:
        for size in fitting(code, [4095, 4096, 65535, 65536]):
            vectors.encode("encoding, long symbols", second.sheet_of(code), size, lengths_for(code, size))
    parity = [(second.SINGLE_PARITY, k, r) for k, r in [(1, 1), (1, 32), (63, 1), (7, 8)]]
    liberation = [(second.LIBERATION, w, k) for w, k in [(3, 2), (5, 5), (7, 7)]]
    by_prime = [(which, p, 0) for which in (second.ROW_DIAGONAL, second.EVENODD) for p in (3, 5, 7)]
    for which, first, other in parity + liberation + by_prime:
        code = second.family(which, first, other)
        for size in (1, 5, 33):
            vectors.encode("encoding, families", second.sheet_of(code), size, lengths_for(code, size))


def add_encodings_refused(vectors: Vectors) -> None:
    kind = "encoding refused"
    square = second.sheet_of(second.SQUARE)
    for code in (SMALLEST, second.SQUARE):
        for size in LENGTHS_REFUSED:
            data, stripe = lengths_for(code, size)
            vectors.encode(kind, second.sheet_of(code), size, (as_held(data), as_held(stripe)))
    sizes = [(second.SQUARE, 1), (second.SQUARE, 3), (Code(2, 1, 1, (1, 1)), 65536)]
    sizes += [(random_code(5, 3, 9), 8), (random_code(8, 8, 64), 2)]
    for code, size in sizes:
        sheet = second.sheet_of(code)
        data, stripe = lengths_for(code, size)
        wrong_data = (data - 1, data + 1, 0, stripe, 2 * data)
        wrong_stripe = (stripe - 1, stripe + 1, 0, data, 2 * stripe)
        for length in wrong_data:
            vectors.encode(kind, sheet, size, (length, stripe))
        for length in wrong_stripe:
            vectors.encode(kind, sheet, size, (data, length))
        for pair in zip(wrong_data, wrong_stripe):
            vectors.encode(kind, sheet, size, pair)
    for size in (1, 2, 4, 8, 16):
        vectors.encode(kind, square, size, (32, 64))
    for sheet, size, data, stripe in product((square, square[:69]), (3, 0), (12, 13), (24, 23)):
        vectors.encode("encoding, order", sheet, size, (data, stripe))
    for sheet in (b"", b"\5" + square[1:], square + b"\0", with_bits(second.SQUARE, [(3, 9)])):
        vectors.encode(kind, sheet, 1, (4, 8))


# One strip and look up

VIEWED = [(second.SQUARE, 1), (second.SQUARE, 5), (Code(3, 1, 2, (1, 2, 3)), 2), (Code(2, 3, 1, (1,) * 6), 4)]


def add_views(vectors: Vectors) -> None:
    for code, size in VIEWED:
        sheet = second.sheet_of(code)
        stripe, spare = code.symbols * size, code.height * size
        for disk in range(code.disks):
            vectors.strip("strip", sheet, disk, size, stripe)
            for symbol in range(code.symbols):
                vectors.look_up("look up", sheet, disk, size, (stripe, spare), symbol)
    larger = [(random_code(64, 1, 64), 3), (random_code(2, 32, 5), 7), (random_code(8, 8, 12), 4096)]
    larger += [(random_code(2, 2, 2), 65536), (SMALLEST, 65536)]
    for code, size in larger:
        sheet = second.sheet_of(code)
        stripe, spare = code.symbols * size, code.height * size
        for disk in sorted({0, 1, code.disks // 2, code.disks - 1}):
            vectors.strip("strip", sheet, disk, size, stripe)
            first, behind = disk * code.height, (disk + 1) * code.height
            edges = {0, first - 1, first, behind - 1, behind, code.symbols - 1}
            for symbol in sorted(edges & set(range(code.symbols))):
                vectors.look_up("look up", sheet, disk, size, (stripe, spare), symbol)


def add_views_refused(vectors: Vectors) -> None:
    for code, size in [VIEWED[1], VIEWED[3], (random_code(64, 1, 9), 2)]:
        sheet = second.sheet_of(code)
        stripe, spare = code.symbols * size, code.height * size
        for disk in (code.disks, code.disks + 1, 256, 2**61, 2**32, 2**63, 2**64 - 1):
            vectors.strip("strip refused", sheet, disk, size, stripe)
            vectors.look_up("look up refused", sheet, disk, size, (stripe, spare), 0)
        for symbol in (code.symbols, code.symbols + 1, 256, 2**32, 2**63, 2**64 - 1):
            vectors.look_up("look up refused", sheet, 1, size, (stripe, spare), symbol)
        for length in (0, stripe - 1, stripe + 1, spare):
            vectors.strip("strip refused", sheet, 1, size, length)
            vectors.look_up("look up refused", sheet, 1, size, (length, spare), 0)
        for length in (0, spare - 1, spare + 1, stripe):
            vectors.look_up("look up refused", sheet, 1, size, (stripe, length), 0)
    for code in (SMALLEST, second.SQUARE):
        sheet = second.sheet_of(code)
        for size in LENGTHS_REFUSED:
            stripe, spare = as_held(code.symbols * size), as_held(code.height * size)
            vectors.strip("strip refused", sheet, 1, size, stripe)
            vectors.look_up("look up refused", sheet, 1, size, (stripe, spare), 1)


def add_views_order(vectors: Vectors) -> None:
    """Every set of faults at once."""
    square = second.sheet_of(second.SQUARE)
    strips = product((square, square[:69]), (3, 4), (5, 0), (40, 41))
    for sheet, disk, size, stripe in strips:
        vectors.strip("strip, order", sheet, disk, size, stripe)
    look_ups = product((square, square + b"\0"), (2, 4), (5, 65537), (40, 39), (10, 11), (7, 8))
    for sheet, disk, size, stripe, spare, symbol in look_ups:
        vectors.look_up("look up, order", sheet, disk, size, (stripe, spare), symbol)


# Sheets from before row-diagonal was corrected


def add_old_row_diagonal(vectors: Vectors, questions: Questions) -> None:
    """They are read, encoded, planned, checked and rebuilt like any code; a plan for one of the two rules is no plan for the other's."""
    kind = "row-diagonal as before"
    for p in (3, 5, 7):
        before, after = second.row_diagonal_before(p), second.row_diagonal(p)
        sheet = second.sheet_of(before)
        vectors.read(kind, sheet)
        vectors.encode(kind, sheet, 5, lengths_for(before, 5))
        questions.add_code(kind, before)
        for disk in range(before.disks):
            plan = direct_plan(before, disk)
            vectors.check(kind, sheet, [disk], plan.sheet())
            vectors.rebuild(kind, sheet, [disk], plan.sheet(), 3, valid=True)
            vectors.rebuild(kind, second.sheet_of(after), [disk], plan.sheet(), 3, valid=True)
            vectors.rebuild(kind, sheet, [disk], direct_plan(after, disk).sheet(), 3, valid=True)


def all_vectors() -> tuple[Vectors, Questions]:
    vectors = Vectors()
    vectors.read("square code", second.sheet_of(second.SQUARE))
    add_families(vectors)
    add_families_refused(vectors)
    add_sheet_limits(vectors)
    add_sheet_lengths(vectors)
    add_stray_bits(vectors)
    add_sheet_pairs(vectors)
    add_random_sheets(vectors)
    add_encodings(vectors)
    add_encodings_refused(vectors)
    add_views(vectors)
    add_views_refused(vectors)
    add_views_order(vectors)
    add_plan_vectors(vectors)
    add_desk_vectors(vectors)
    add_rebuild_vectors(vectors)
    questions = Questions()
    add_planning_questions(questions)
    # The records of a later edition come after those of all before it, so that none of these depends on them.
    add_edition_2_vectors(vectors)
    add_list_questions(questions)
    add_old_row_diagonal(vectors, questions)
    add_edition_3_vectors(vectors)
    add_set_questions(questions)
    add_gone_questions(questions)
    add_soundness_vectors(vectors)
    add_fewest_questions(questions)
    add_priced_questions(questions)
    return vectors, questions


def write(folder: Path, vectors: Vectors, questions: Questions) -> None:
    for crate in ("vectors", "planvectors"):
        (folder / crate).mkdir(parents=True, exist_ok=True)
    (folder / "vectors" / "stdin").write_bytes(b"".join(vectors.records))
    (folder / "vectors" / "stdout").write_text("".join(line + "\n" for line in vectors.lines))
    (folder / "planvectors" / "stdin").write_bytes(b"".join(asked.record() for asked in questions.records))


def main() -> None:
    vectors, questions = all_vectors()
    write(Path(sys.argv[1]) if len(sys.argv) > 1 else CRATES, vectors, questions)
    for kind, count in vectors.kinds.items():
        print(f"{count:5} {kind}")
    print(f"{len(vectors.records):5} records")
    for kind, count in questions.kinds.items():
        print(f"{count:5} planning, {kind}")
    print(f"{len(questions.records):5} records of planning, about {questions.kinds.total()} disks")


if __name__ == "__main__":
    main()
