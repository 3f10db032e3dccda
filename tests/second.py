"""The second program: what document 01's calls answer, worked out anew.

It shares no code and no method with the crates. The rows of a code sheet are one long number, a family
is a set of places, and a data symbol is spread over the whole stripe by one multiplication.

    python3 tests/second.py     runs its own test, on the worked cases and limits of document 01
"""
from functools import reduce
from itertools import combinations
from operator import xor
from typing import NamedTuple, Optional, Union


class Refusal(NamedTuple):
    """A refusal of document 01's table."""

    number: int
    place: int = 0


class Code(NamedTuple):
    """n disks of r symbols, K data symbols, and a row of K bits for each symbol."""

    disks: int
    height: int
    data_symbols: int
    rows: tuple[int, ...]

    @property
    def symbols(self) -> int:
        return self.disks * self.height


Place = tuple[int, int]
"""A place among the data: data disk and row."""


# The code sheet


def read_code(sheet: bytes) -> Union[Code, Refusal]:
    """The code of a sheet, or the first refusal.

    The order: under 6 bytes (1), first count (3), 4, 5, second count (3), 1, 2, 6.
    """
    if len(sheet) < 6:
        return Refusal(1)
    count, edition, disks, height, data_symbols, symbols = sheet[:6]
    faults = [
        (count != 4, 3),
        (edition != 1, 4),
        (disks not in range(2, 65), 5),
        (height not in range(1, 33), 5),
        (disks * height > 64, 5),
        (data_symbols not in range(1, 65), 5),
        (symbols != disks * height, 3),
        (len(sheet) < 6 + 8 * symbols, 1),
        (len(sheet) > 6 + 8 * symbols, 2),
    ]
    for holds, number in faults:
        if holds:
            return Refusal(number)
    stray = first_stray(sheet[6:], data_symbols)
    if stray is not None:
        return Refusal(6, stray)
    rows = tuple(int.from_bytes(sheet[at : at + 8], "little") for at in range(6, len(sheet), 8))
    return Code(disks, height, data_symbols, rows)


def first_stray(section: bytes, data_symbols: int) -> Optional[int]:
    """The first bit at K or above. In the rows as one number, low byte first, its place is row times 64 plus bit."""
    allowed = (2**data_symbols - 1).to_bytes(8, "little") * (len(section) // 8)
    strays = int.from_bytes(section, "little") & ~int.from_bytes(allowed, "little")
    return (strays & -strays).bit_length() - 1 if strays else None


def sheet_of(code: Code) -> bytes:
    """The code sheet of a code, also of one beyond the limits as far as bytes hold it."""
    head = bytes([4, 1, code.disks, code.height, code.data_symbols, code.symbols])
    return head + b"".join(row.to_bytes(8, "little") for row in code.rows)


def changed(sheet: bytes, at: int, value: int) -> bytes:
    """A sheet with another byte at a place."""
    return sheet[:at] + bytes([value]) + sheet[at + 1 :]


# Families


def code_of(data_disks: int, height: int, parities: list[list[set[Place]]]) -> Code:
    """Data disks with identity rows, then parity disks, each a list of the sets of places that its rows take."""

    def bits(places: set[Place]) -> int:
        return sum(2 ** (disk * height + row) for disk, row in places)

    identity = [{(disk, row)} for disk in range(data_disks) for row in range(height)]
    parity = [places for disk in parities for places in disk]
    rows = tuple(bits(places) for places in identity + parity)
    return Code(data_disks + len(parities), height, data_disks * height, rows)


def row_parity(data_disks: int, height: int) -> list[set[Place]]:
    """Row i of every data disk."""
    return [{(disk, i) for disk in range(data_disks)} for i in range(height)]


def single_parity(k: int, r: int) -> Union[Code, Refusal]:
    if k < 1 or r < 1 or k + 1 > 64 or r > 32 or (k + 1) * r > 64:
        return Refusal(36)
    return code_of(k, r, [row_parity(k, r)])


def liberation(w: int, k: int) -> Union[Code, Refusal]:
    """Q by searching all places for those of a diagonal; y is the row with 2 y = c (w - 1) mod w, since w is odd."""
    if w not in (3, 5, 7) or not 2 <= k <= w:
        return Refusal(36)
    everywhere = {(c, j) for c in range(k) for j in range(w)}
    on_diagonal = [{(c, j) for c, j in everywhere if (j - c - i) % w == 0} for i in range(w)]
    besides: list[set[Place]] = [set() for _ in range(w)]
    for c in range(1, k):
        (y,) = [row for row in range(w) if (2 * row - c * (w - 1)) % w == 0]
        besides[y].add((c, (y + c - 1) % w))
    return code_of(k, w, [row_parity(k, w), [on_diagonal[i] ^ besides[i] for i in range(w)]])


def diagonals(disks: int, p: int) -> list[set[Place]]:
    """The diagonals 0 to p - 1 of so many disks of p - 1 rows: on diagonal i disk and row sum to i mod p."""
    everywhere = {(c, j) for c in range(disks) for j in range(p - 1)}
    return [{(c, j) for c, j in everywhere if (j + c - i) % p == 0} for i in range(p)]


def row_diagonal(p: int) -> Union[Code, Refusal]:
    """Q is the diagonals over the data disks and the row parity disk, which is disk p - 1: its places stand for what they take."""
    if p not in (3, 5, 7):
        return Refusal(36)
    parity = row_parity(p - 1, p - 1)

    def taken(place: Place) -> set[Place]:
        return parity[place[1]] if place[0] == p - 1 else {place}

    q = [reduce(set.symmetric_difference, map(taken, diagonal), set()) for diagonal in diagonals(p, p)[: p - 1]]
    return code_of(p - 1, p - 1, [parity, q])


def row_diagonal_before(p: int) -> Code:
    """Row-diagonal as document 01 had it: diagonals over the data disks alone. Such sheets stay legal codes."""
    return code_of(p - 1, p - 1, [row_parity(p - 1, p - 1), diagonals(p - 1, p)[: p - 1]])


def evenodd(p: int) -> Union[Code, Refusal]:
    """Q row i is diagonal i and the diagonal that no row of Q is named for, p - 1, which is S."""
    if p not in (3, 5, 7):
        return Refusal(36)
    *named, s = diagonals(p, p)
    return code_of(p, p - 1, [row_parity(p, p - 1), [diagonal ^ s for diagonal in named]])


SINGLE_PARITY, LIBERATION, ROW_DIAGONAL, EVENODD = 0, 1, 2, 3


def family(which: int, first: int, second: int) -> Union[Code, Refusal]:
    """A family by its number in the test records; row-diagonal and EVENODD have no second parameter."""
    if which == SINGLE_PARITY:
        return single_parity(first, second)
    if which == LIBERATION:
        return liberation(first, second)
    return row_diagonal(first) if which == ROW_DIAGONAL else evenodd(first)


def write_family(which: int, first: int, second: int, buffer: bytes) -> tuple[Union[int, Refusal], bytes]:
    """The sheet's length or a refusal (36, 37), and the buffer after the call."""
    code = family(which, first, second)
    if isinstance(code, Refusal):
        return code, buffer
    sheet = sheet_of(code)
    if len(buffer) < len(sheet):
        return Refusal(37), buffer
    return len(sheet), sheet + buffer[len(sheet) :]


# Encoding


def encode(sheet: bytes, size: int, data: bytes, stripe: bytes) -> tuple[Optional[Refusal], bytes]:
    """A refusal (code sheet, 31, 33, 32) or none, and the stripe after the call."""
    code = read_code(sheet)
    if isinstance(code, Refusal):
        return code, stripe
    if not 1 <= size <= 65536:
        return Refusal(31), stripe
    if len(data) != code.data_symbols * size:
        return Refusal(33), stripe
    if len(stripe) != code.symbols * size:
        return Refusal(32), stripe
    return None, encoding(code, size, data)


def encoding(code: Code, size: int, data: bytes) -> bytes:
    """The stripe as one number, low byte first: the XOR of what each data symbol adds to it.

    Data symbol t is multiplied by the number that has a one at the start of each symbol whose row has bit t.
    """
    shares = []
    for t in range(code.data_symbols):
        symbol = int.from_bytes(data[t * size : (t + 1) * size], "little")
        starts = sum(1 << 8 * size * s for s, row in enumerate(code.rows) if row >> t & 1)
        shares.append(symbol * starts)
    return reduce(xor, shares).to_bytes(code.symbols * size, "little")


# One strip and look up


def strip(sheet: bytes, disk: int, size: int, stripe: bytes) -> Union[bytes, Refusal]:
    """The strip of a disk, or a refusal: code sheet, 7, 31, 32."""
    code = read_code(sheet)
    if isinstance(code, Refusal):
        return code
    refusal = stripe_refusal(code, disk, size, stripe)
    return refusal or strips(code, size, stripe)[disk]


def look_up(sheet: bytes, disk: int, size: int, stripe: bytes, spare: bytes, symbol: int) -> Union[bytes, Refusal]:
    """A symbol, lost ones from the spare strip, or a refusal: code sheet, 7, 31, 32, 35, 38."""
    code = read_code(sheet)
    if isinstance(code, Refusal):
        return code
    refusal = stripe_refusal(code, disk, size, stripe)
    if refusal:
        return refusal
    if len(spare) != code.height * size:
        return Refusal(35)
    if symbol >= code.symbols:
        return Refusal(38)
    repaired = strips(code, size, stripe)
    repaired[disk] = spare
    whole = b"".join(repaired)
    return whole[symbol * size : (symbol + 1) * size]


def stripe_refusal(code: Code, disk: int, size: int, stripe: bytes) -> Optional[Refusal]:
    """The order 7, 31, 32."""
    if disk >= code.disks:
        return Refusal(7)
    if not 1 <= size <= 65536:
        return Refusal(31)
    if len(stripe) != code.symbols * size:
        return Refusal(32)
    return None


def strips(code: Code, size: int, stripe: bytes) -> list[bytes]:
    """The stripe cut into the strips of its disks."""
    length = code.height * size
    return [stripe[at : at + length] for at in range(0, len(stripe), length)]


# The program's own test


def plank_rows(w: int, k: int) -> list[int]:
    """The rows of Q by Plank's matrices, as source document 002, section 2.1, gives them.

    X_0 is the identity. X_i is the identity with its columns looped right by i, and one more one at row y and
    column y + i - 1, where y is (w - i) / 2 for odd i and w - i / 2 for even i.
    """
    rows = [0] * w
    for i in range(k):
        matrix = [[int(column == (row + i) % w) for column in range(w)] for row in range(w)]
        if i > 0:
            y = (w - i) // 2 if i % 2 else w - i // 2
            matrix[y % w][(y + i - 1) % w] += 1
        for row in range(w):
            rows[row] += sum(2 ** (i * w + column) * one for column, one in enumerate(matrix[row]))
    return rows


PRINTED_Q = ["00 11 22 33 44", "10 21 32 33 43 04", "20 21 31 42 03 14", "30 41 02 13 14 24", "40 01 02 12 34"]
"""Source document 002's equations of Q for w 5 and k 5, each term as row and disk. The last lacks row 2 of disk 3."""


def rank(rows: list[int]) -> int:
    """The number of independent rows."""
    basis: list[int] = []
    for row in rows:
        for known in basis:
            row = min(row, row ^ known)
        if row:
            basis.append(row)
    return len(basis)


def bits_of(row: int) -> list[int]:
    return [bit for bit in range(64) if row >> bit & 1]


SQUARE = Code(4, 2, 4, (1, 2, 4, 8, 5, 10, 9, 6))


def test_sheets() -> None:
    sheet = sheet_of(SQUARE)
    assert len(sheet) == 70 and sheet[:6] == bytes.fromhex("040104020408")
    assert read_code(sheet) == SQUARE
    assert read_code(b"") == Refusal(1)
    assert read_code(bytes([5]) + bytes(599)) == Refusal(3)
    assert read_code(sheet[:69]) == Refusal(1) and read_code(sheet + b"\0") == Refusal(2)
    assert read_code(sheet_of(Code(8, 8, 1, (0,) * 64))) == Code(8, 8, 1, (0,) * 64)
    assert read_code(sheet_of(Code(13, 5, 1, (0,) * 65))) == Refusal(5)
    assert read_code(sheet_of(Code(2, 1, 0, (0, 0)))) == Refusal(5)
    assert read_code(sheet_of(Code(2, 1, 64, (2**64 - 1, 0)))) == Code(2, 1, 64, (2**64 - 1, 0))
    assert read_code(sheet_of(Code(2, 1, 65, (0, 0)))) == Refusal(5)
    assert read_code(sheet_of(Code(2, 1, 63, (0, 2**63)))) == Refusal(6, 127)
    assert read_code(sheet_of(SQUARE._replace(rows=(1, 2, 48, 8, 16, 10, 9, 6)))) == Refusal(6, 2 * 64 + 4)


def test_families() -> None:
    assert row_diagonal(3) == Code(4, 2, 4, (1, 2, 4, 8, 5, 10, 11, 6))
    assert row_diagonal_before(3) == Code(4, 2, 4, (1, 2, 4, 8, 5, 10, 1, 6))
    for p in (3, 5, 7):
        code, before = row_diagonal(p), row_diagonal_before(p)
        assert all(rank(rows) == code.data_symbols for rows in after_two_losses(code))
        assert not all(rank(rows) == before.data_symbols for rows in after_two_losses(before))
        assert read_code(sheet_of(before)) == before
        assert all(rank(rows) == evenodd(p).data_symbols for rows in after_two_losses(evenodd(p)))
    # Diagonal 0 is 1 + 32, diagonal 1 is 2 + 4, and S, which both rows of Q take besides, is 8 + 16.
    assert evenodd(3) == Code(5, 2, 6, (1, 2, 4, 8, 16, 32, 21, 42, 1 + 32 + 24, 2 + 4 + 24))
    code = liberation(5, 5)
    assert bits_of(code.rows[31]) == [1, 7, 13, 18, 19, 20]
    assert bits_of(code.rows[34]) == [4, 5, 10, 11, 17, 23]
    printed = [sum(2 ** (int(term[1]) * 5 + int(term[0])) for term in terms.split()) for terms in PRINTED_Q]
    assert [row ^ other for row, other in zip(code.rows[30:], printed)] == [0, 0, 0, 0, 2**17]
    for w in (3, 5, 7):
        for k in range(2, w + 1):
            code = liberation(w, k)
            assert list(code.rows[-w:]) == plank_rows(w, k)
            assert sum(len(bits_of(row)) for row in code.rows[-w:]) == k * w + k - 1
            assert all(rank(rows) == k * w for rows in after_two_losses(code))
    assert single_parity(1, 32) == Code(2, 32, 32, tuple(2**i for i in range(32)) * 2)
    assert single_parity(63, 1).rows[63] == 2**63 - 1
    for k, r in [(0, 1), (1, 0), (1, 33), (64, 1), (4, 13), (2**63, 2)]:
        assert single_parity(k, r) == Refusal(36)
    assert liberation(4, 3) == liberation(5, 6) == liberation(5, 1) == row_diagonal(4) == evenodd(4) == Refusal(36)
    assert write_family(1, 5, 6, b"") == (Refusal(36), b"")
    assert write_family(2, 3, 0, bytes(69)) == (Refusal(37), bytes(69))
    assert write_family(2, 3, 0, b"\7" * 71) == (70, sheet_of(row_diagonal(3)) + b"\7")


def after_two_losses(code: Code) -> list[list[int]]:
    """For each two disks, the rows of all others."""
    pairs = combinations(range(code.disks), 2)
    return [[row for s, row in enumerate(code.rows) if s // code.height not in pair] for pair in pairs]


def test_calls() -> None:
    sheet = sheet_of(SQUARE)
    stripe = bytes.fromhex("1122448855AA9966")
    assert encode(sheet, 1, bytes.fromhex("11224488"), bytes(8)) == (None, stripe)
    code, data = liberation(3, 2), bytes(range(7, 7 + 6 * 5))
    by_bytes = bytes(reduce(xor, (data[t * 5 + b] for t in bits_of(row)), 0) for row in code.rows for b in range(5))
    assert encoding(code, 5, data) == by_bytes
    two = sheet_of(Code(2, 1, 1, (1, 0)))
    assert encode(two, 65536, b"\1" * 65536, bytes(131072)) == (None, b"\1" * 65536 + bytes(65536))
    assert encode(two, 65537, b"", b"") == (Refusal(31), b"")
    assert encode(sheet, 1, bytes(3), bytes(7)) == (Refusal(33), bytes(7))
    assert encode(sheet, 1, bytes(4), bytes(7)) == (Refusal(32), bytes(7))
    assert strip(sheet, 2, 1, stripe) == bytes.fromhex("55AA")
    assert strip(sheet, 4, 0, b"") == Refusal(7) and strip(sheet, 3, 0, b"") == Refusal(31)
    assert look_up(sheet, 1, 1, stripe, b"ab", 3) == b"b"
    assert look_up(sheet, 1, 1, stripe, b"ab", 4) == b"\x55"
    assert look_up(sheet, 1, 1, stripe, b"a", 8) == Refusal(35)
    assert look_up(sheet, 1, 1, stripe, b"ab", 8) == Refusal(38)


if __name__ == "__main__":
    test_sheets()
    test_families()
    test_calls()
    print("second program: ok")
