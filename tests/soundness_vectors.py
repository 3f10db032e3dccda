"""The records of the test of survivors: valid stripes with no, one or two damaged bytes, stripes of any bytes, and every refusal."""
from itertools import combinations, product

from arrays import SMALLEST, SPECIAL_CODES, below, chosen, random_code, random_codes
from edition3_vectors import ZEROS, all_sets, any_set, stands_two_losses
from plan_vectors import SQUARE_SHEET, family_codes, some_disks
from records import ROOM, Vectors
from second import SQUARE, Code, changed, liberation, sheet_of
from second_checker import Disks, lost_places
from second_soundness import survivors

SIZES = (1, 2, 3, 7, 8, 16, 31, 64, 100, 512)


def columns(size: int) -> list[int]:
    """The first, the middle and the last."""
    return sorted({0, size // 2, size - 1})


def damage_at(code: Code, disks: Disks, size: int, column: int) -> list[tuple[int, int]]:
    """A byte of a survivor, or none where nothing survives."""
    known = survivors(code, disks)
    return [(chosen(known) * size + column, 1 << below(8))] if known else []


def add_damaged(vectors: Vectors, code: Code, disks: Disks, size: int) -> None:
    """A valid stripe, whole, damaged in one byte, in two, and in the lost strip."""
    sheet = sheet_of(code)
    first, last = columns(size)[0], columns(size)[-1]
    vectors.test_survivors("survivors, valid stripe", sheet, disks, size, valid=True)
    one = damage_at(code, disks, size, chosen(columns(size)))
    vectors.test_survivors("survivors, one byte", sheet, disks, size, valid=True, damage=one)
    two = damage_at(code, disks, size, last) + damage_at(code, disks, size, chosen((first, size // 2)))
    if len({place for place, _ in two}) == 2:
        vectors.test_survivors("survivors, two bytes", sheet, disks, size, valid=True, damage=two)
    lost = [(chosen(lost_places(code, disks)) * size + chosen(columns(size)), 255)]
    vectors.test_survivors("survivors, lost byte", sheet, disks, size, valid=True, damage=lost)


def add_families(vectors: Vectors) -> None:
    """Every disk of the families, and some two of those with two parities."""
    for code in family_codes():
        for disk in range(code.disks) if stands_two_losses(code) else some_disks(code):
            add_damaged(vectors, code, [disk], chosen(SIZES))
        if stands_two_losses(code):
            for pair in [(0, 1), (0, code.disks - 1), (code.disks - 2, code.disks - 1)]:
                add_damaged(vectors, code, pair, chosen(SIZES))


def add_every_byte(vectors: Vectors) -> None:
    """Every byte of a stripe of the square code, with each disk lost."""
    for disk, at in product(range(4), range(16)):
        vectors.test_survivors("survivors, every byte", SQUARE_SHEET, [disk], 2, valid=True, damage=[(at, 1 << at % 8)])
    code = liberation(3, 2)
    for one, other in combinations(range(3 * 3, 36, 4), 2):
        vectors.test_survivors("survivors, every two bytes", sheet_of(code), [0], 3, valid=True, damage=[(one, 1), (other, 2)])


def add_other_codes(vectors: Vectors) -> None:
    """Codes of any rows, zero rows among them, with sets of disks up to all of them."""
    for code in SPECIAL_CODES + random_codes():
        for disks in ([0], any_set(code), list(range(code.disks))):
            size = chosen([size for size in SIZES if size * max(code.symbols, code.data_symbols) <= ROOM])
            add_damaged(vectors, code, disks, size)
            vectors.test_survivors("survivors, any bytes", sheet_of(code), disks, size)


def add_every_set(vectors: Vectors) -> None:
    for code in (SQUARE, Code(3, 2, 5, (0, 31, 0, 31, 16, 0)), SMALLEST, Code(2, 1, 1, (0, 0)), random_code(4, 1, 3)):
        for disks in all_sets(code):
            vectors.test_survivors("survivors, every set", sheet_of(code), disks, 2)
            vectors.test_survivors("survivors, every set", sheet_of(code), disks, 2, valid=True)
            for column in (0, 1):
                damage = damage_at(code, disks, 2, column)
                vectors.test_survivors("survivors, every set", sheet_of(code), disks, 2, valid=True, damage=damage)


def add_long_symbols(vectors: Vectors) -> None:
    """The longest symbols, and those around the length from which more room is made for sums."""
    kind = "survivors, long symbols"
    for code in (SMALLEST, Code(2, 1, 1, (1, 0)), Code(4, 1, 2, (1, 2, 3, 0)), Code(2, 2, 1, (1, 1, 0, 1))):
        for size in (4095, 4096, 4097, 65535, 65536):
            disks = [below(code.disks)]
            vectors.test_survivors(kind, sheet_of(code), disks, size, valid=True)
            for column in columns(size):
                vectors.test_survivors(kind, sheet_of(code), disks, size, valid=True, damage=damage_at(code, disks, size, column))


def add_refused(vectors: Vectors) -> None:
    kind = "survivors refused"
    for size in (0, 65537, 2**16 + 2**8, 2**32 + 1, 2**61, 2**63, 2**64 - 1):
        for length in (0, 8):
            vectors.test_survivors(kind, SQUARE_SHEET, [0], size, length=length)
    for size in (1, 3, 64):
        for length in (0, 8 * size - 1, 8 * size + 1, 4 * size, 16 * size):
            vectors.test_survivors(kind, SQUARE_SHEET, [0], size, length=length)
    lists = [[], [4], [255], [0, 0], [1, 0], [0, 2, 1], [0, 1, 2, 3, 3], [0, 1, 2, 2, 3], [0, 1, 2, 3, 4], [1, 1, 4], [4, 4], [0] * 300]
    for disks in lists + [[0] * 299 + [4]]:
        vectors.test_survivors(kind, SQUARE_SHEET, disks, 2, length=16)
    vectors.test_survivors(kind, sheet_of(ZEROS), list(range(64)) + [63], 1, length=64)
    for sheet in (b"", SQUARE_SHEET[:69], SQUARE_SHEET + b"\0", changed(SQUARE_SHEET, 13, 128)):
        vectors.test_survivors(kind, sheet, [0], 2, length=16)


def add_order(vectors: Vectors) -> None:
    """Every set of faults at once: code sheet, 7, 24, 31, 32."""
    good_disks, not_there, not_rising, both = [0, 2], [0, 4], [2, 0], [2, 0, 9]
    for sheet, disks, size, length in product(
        (SQUARE_SHEET, SQUARE_SHEET[:69]), (good_disks, not_there, not_rising, both, []), (3, 0, 65537), (24, 23)
    ):
        vectors.test_survivors("survivors, order", sheet, disks, size, length=length)


def add_soundness_vectors(vectors: Vectors) -> None:
    add_families(vectors)
    add_every_byte(vectors)
    add_other_codes(vectors)
    add_every_set(vectors)
    add_long_symbols(vectors)
    add_refused(vectors)
    add_order(vectors)
