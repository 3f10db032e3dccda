"""The second program's tester for survivors: whether they can be sound, worked out anew, and what a list of equations among them must be.

It has no equations. Each surviving symbol is its row with its bytes appended, one long number, and the rows are reduced. What has no row left
must have no byte left: a byte there raises the rank of its column, so that no data give it. Small codes are tried with all data besides.

    python3 tests/second_soundness.py     runs its own test, on worked cases, on all data of small codes, on every single byte of stripes of
                                          every family, and on answers and lists that are wrong
"""
from functools import reduce
from itertools import combinations, product
from operator import or_, xor
from random import Random
from typing import Callable, Iterator, NamedTuple, Optional, Sequence, Union

from second import SQUARE, Code, Refusal, bits_of, encoding, evenodd, liberation, rank, read_code, row_diagonal, sheet_of, single_parity
from second_checker import Disks, disks_refusal, lost_places

RANDOM = Random(8)


class Unsound(NamedTuple):
    """No valid stripe agrees on every surviving byte. The lowest byte column within a symbol for which none does."""

    column: int


SOUND = "sound"
Tested = Union[str, Unsound, Refusal]
Tester = Callable[[bytes, Disks, int, bytes], Tested]


# The calls


def equations_refusal(sheet: bytes, disks: Disks) -> Optional[Refusal]:
    """The order: code sheet, 7, 24."""
    code = read_code(sheet)
    return code if isinstance(code, Refusal) else disks_refusal(code, disks)


def test_survivors(sheet: bytes, disks: Disks, size: int, stripe: bytes) -> Tested:
    """Sound, or the lowest column that shows that it isn't, or the first refusal: code sheet, 7, 24, 31, 32."""
    refusal = equations_refusal(sheet, disks)
    if refusal:
        return refusal
    if not 1 <= size <= 65536:
        return Refusal(31)
    code = read_code(sheet)
    if len(stripe) != code.symbols * size:
        return Refusal(32)
    column = lowest_unsound(code, disks, size, stripe)
    return SOUND if column is None else Unsound(column)


def survivors(code: Code, disks: Disks) -> list[int]:
    lost = lost_places(code, disks)
    return [symbol for symbol in range(code.symbols) if symbol not in lost]


def symbol_bytes(size: int, stripe: bytes, symbol: int) -> bytes:
    return stripe[symbol * size : (symbol + 1) * size]


def lowest_unsound(code: Code, disks: Disks, size: int, stripe: bytes) -> Optional[int]:
    """The rows are reduced from the highest bit on, with the bytes after it. The first byte has the lowest place among these."""
    width = code.data_symbols
    left = [int.from_bytes(symbol_bytes(size, stripe, s), "little") << width | code.rows[s] for s in survivors(code, disks)]
    for bit in reversed(range(width)):
        leading = next((row for row in left if row >> bit & 1), None)
        if leading is not None:
            left.remove(leading)
            left = [row ^ leading if row >> bit & 1 else row for row in left]
    differing = reduce(or_, left, 0) >> width
    return ((differing & -differing).bit_length() - 1) // 8 if differing else None


# A list of equations

Fault = Optional[str]
"""What is wrong, in words, or nothing."""


def judge_equations(code: Code, disks: Disks, equations: Sequence[int]) -> Fault:
    """Whether a list, each a set of symbols as bits, is among the survivors, right and enough."""
    known = survivors(code, disks)
    for equation in equations:
        if not set(bits_of(equation)) <= set(known) or equation >= 2**code.symbols:
            return f"equation {equation} names a symbol that doesn't survive"
        if reduce(xor, (code.rows[symbol] for symbol in bits_of(equation)), 0) != 0:
            return f"the rows of equation {equation} don't sum to zero"
    needed = len(known) - rank([code.rows[symbol] for symbol in known])
    if rank(list(equations)) < needed:
        return f"equations of rank {rank(list(equations))}, and {needed} are needed"
    return None


def equations_of(code: Code, disks: Disks) -> list[int]:
    """Such a list: the sums of surviving rows that are found to be zero. Each row goes with the set of symbols that it is the sum of."""
    found, basis = [], []
    for symbol in survivors(code, disks):
        row, of = code.rows[symbol], 1 << symbol
        for other, its in basis:
            if row ^ other < row:
                row, of = row ^ other, of ^ its
        if row:
            basis.append((row, of))
        else:
            found.append(of)
    return found


def sums(size: int, stripe: bytes, equation: int) -> int:
    """The XOR of an equation's symbols, as a number whose low byte is column 0."""
    return reduce(xor, (int.from_bytes(symbol_bytes(size, stripe, symbol), "little") for symbol in bits_of(equation)), 0)


# The program's own test


def random_bytes(length: int) -> bytes:
    return bytes(RANDOM.randrange(256) for _ in range(length))


def damaged(stripe: bytes, at: int, by: int = 1) -> bytes:
    """A stripe with a byte changed."""
    return stripe[:at] + bytes([stripe[at] ^ by]) + stripe[at + 1 :]


def sets_of(code: Code) -> Iterator[tuple[int, ...]]:
    """Every set of disks that can be lost."""
    for count in range(1, code.disks + 1):
        yield from combinations(range(code.disks), count)


def lowest_by_trying(code: Code, disks: Disks, size: int, stripe: bytes) -> Optional[int]:
    """The lowest column in which some bit of the survivors is that of no data, all data tried."""
    known = survivors(code, disks)
    stripes = (encoding(code, 1, bytes(data)) for data in product((0, 1), repeat=code.data_symbols))
    possible = {tuple(bits[symbol] for symbol in known) for bits in stripes}
    for column in range(size):
        bytes_there = [stripe[symbol * size + column] for symbol in known]
        if any(tuple(byte >> bit & 1 for byte in bytes_there) not in possible for bit in range(8)):
            return column
    return None


SMALL = [
    SQUARE,
    single_parity(2, 1),
    Code(2, 1, 1, (0, 1)),
    Code(2, 1, 1, (0, 0)),
    Code(3, 1, 2, (1, 1, 2)),
    Code(4, 1, 3, (5, 5, 5, 5)),
    Code(3, 2, 5, (0, 31, 0, 31, 16, 0)),
    Code(3, 2, 3, (1, 2, 4, 7, 3, 5)),
]
FAMILIES = [single_parity(4, 3), liberation(3, 3), liberation(5, 4), row_diagonal(3), row_diagonal(5), evenodd(3), evenodd(5)]


def test_worked_cases() -> None:
    """P1's stripe with disk 0 lost is sound; with byte 4 changed it isn't, column 0."""
    sheet, p1 = sheet_of(SQUARE), bytes.fromhex("1122448855AA9966")
    assert test_survivors(sheet, [0], 1, p1) == SOUND
    assert test_survivors(sheet, [0], 1, damaged(p1, 4)) == Unsound(0)
    assert test_survivors(sheet, [0], 1, damaged(p1, 0)) == test_survivors(sheet, [0], 1, damaged(p1, 1)) == SOUND
    zero = sheet_of(Code(2, 1, 1, (0, 1)))
    assert test_survivors(zero, [1], 2, b"\0\0ab") == test_survivors(zero, [0], 2, b"abcd") == SOUND
    assert test_survivors(zero, [1], 2, b"\0\1ab") == Unsound(1)
    assert test_survivors(sheet, [0, 1, 2, 3], 1, random_bytes(8)) == SOUND


def test_refusals() -> None:
    sheet = sheet_of(SQUARE)
    assert test_survivors(sheet[:69], [9], 0, b"") == Refusal(1)
    assert test_survivors(sheet, [1, 1, 4], 0, b"") == Refusal(7)
    assert test_survivors(sheet, [1, 1], 0, b"") == Refusal(24, 1)
    assert test_survivors(sheet, [], 0, b"") == Refusal(24)
    assert test_survivors(sheet, [1], 0, b"") == test_survivors(sheet, [1], 65537, b"") == Refusal(31)
    assert test_survivors(sheet, [1], 1, bytes(7)) == test_survivors(sheet, [1], 2, bytes(8)) == Refusal(32)


def small_cases() -> Iterator[tuple[Code, Disks, int, bytes]]:
    """Valid stripes, damaged ones and others, of all sets of disks of small codes."""
    for code in SMALL:
        for disks in sets_of(code):
            for size in (1, 3):
                stripe = encoding(code, size, random_bytes(code.data_symbols * size))
                once = damaged(stripe, RANDOM.randrange(len(stripe)), RANDOM.randrange(1, 256))
                twice = damaged(once, RANDOM.randrange(len(stripe)), 128)
                for given in (stripe, once, twice, random_bytes(len(stripe)), bytes(len(stripe))):
                    yield code, disks, size, given


def test_all_data() -> None:
    """By ranks, by equations and by trying all data the answer is the same."""
    for code, disks, size, stripe in small_cases():
        lowest = lowest_by_trying(code, disks, size, stripe)
        assert lowest_unsound(code, disks, size, stripe) == lowest
        assert by_equations(equations_of(code, disks), size, stripe) == lowest


def by_equations(equations: Sequence[int], size: int, stripe: bytes) -> Optional[int]:
    """The lowest column in which an equation fails."""
    failing = [sum_ for sum_ in (sums(size, stripe, equation) for equation in equations) if sum_]
    return min((((sum_ & -sum_).bit_length() - 1) // 8 for sum_ in failing), default=None)


def test_single_bytes() -> None:
    """Every single byte of a stripe of each family, with every disk lost: it is found where an equation sees it, in its own column, and
    in the lost strip nowhere."""
    size = 3
    for code in FAMILIES:
        stripe = encoding(code, size, random_bytes(code.data_symbols * size))
        for disk in range(code.disks):
            equations = equations_of(code, [disk])
            assert judge_equations(code, [disk], equations) is None
            seen = reduce(or_, equations, 0)
            assert lowest_unsound(code, [disk], size, stripe) is None
            for at in range(len(stripe)):
                expected = at % size if seen >> at // size & 1 else None
                assert lowest_unsound(code, [disk], size, damaged(stripe, at)) == expected
                assert at // size // code.height != disk or expected is None
    # the lost strip apart, equations see every symbol of a code that stands two losses
    for code in FAMILIES[1:]:
        for disk in range(code.disks):
            assert bits_of(reduce(or_, equations_of(code, [disk]), 0)) == survivors(code, [disk])


def test_lowest_column() -> None:
    """Two bytes of different columns damaged: the lower of the two, whichever symbol is the lower one."""
    code, size = liberation(3, 3), 4
    stripe = encoding(code, size, random_bytes(code.data_symbols * size))
    for one, other in product(range(3 * size, len(stripe)), repeat=2):
        if one % size != other % size:
            given = damaged(damaged(stripe, one), other)
            assert lowest_unsound(code, [0], size, given) == min(one % size, other % size)


def test_lists() -> None:
    """Lists for every set of disks, and each way to be wrong."""
    for code in SMALL + [single_parity(4, 3), liberation(3, 3), evenodd(3)]:
        for disks in sets_of(code):
            equations = equations_of(code, disks)
            assert judge_equations(code, disks, equations) is None
            assert judge_equations(code, disks, equations + [reduce(xor, equations, 0)]) is None
            for left_out in range(len(equations)):
                assert "are needed" in judge_equations(code, disks, equations[:left_out] + equations[left_out + 1 :])
            for lost in lost_places(code, disks):
                assert "doesn't survive" in judge_equations(code, disks, equations + [1 << lost])
            for symbol in survivors(code, disks):
                if code.rows[symbol]:
                    assert "sum to zero" in judge_equations(code, disks, equations + [1 << symbol])
    assert "doesn't survive" in judge_equations(SQUARE, [0], equations_of(SQUARE, [1]) + [1 << 8])


# Wrong testers


def tester(lowest: Callable[[Code, Disks, int, bytes], Optional[int]], order: Sequence[int] = (7, 24, 31, 32)) -> Tester:
    """A tester with another way to the column, or another order of refusals."""

    def test(sheet: bytes, disks: Disks, size: int, stripe: bytes) -> Tested:
        code = read_code(sheet)
        if isinstance(code, Refusal):
            return code
        faults = {
            7: Refusal(7) if any(disk >= code.disks for disk in disks) else None,
            24: refusal_24(code, disks),
            31: None if 1 <= size <= 65536 else Refusal(31),
            32: None if len(stripe) == code.symbols * size else Refusal(32),
        }
        refusal = next((faults[number] for number in order if faults[number]), None)
        if refusal:
            return refusal
        column = lowest(code, disks, size, stripe)
        return SOUND if column is None else Unsound(column)

    return test


def refusal_24(code: Code, disks: Disks) -> Optional[Refusal]:
    if not 1 <= len(disks) <= code.disks:
        return Refusal(24)
    return next((Refusal(24, at) for at in range(1, len(disks)) if disks[at] <= disks[at - 1]), None)


def columns_that_fail(code: Code, disks: Disks, size: int, stripe: bytes) -> list[Optional[int]]:
    """For each equation the lowest column in which it fails, or none."""
    return [by_equations([equation], size, stripe) for equation in equations_of(code, disks)]


def naming_a_lost_symbol(code: Code, disks: Disks, size: int, stripe: bytes) -> Optional[int]:
    return by_equations(equations_of(code, []), size, stripe)


def leaving_one_out(code: Code, disks: Disks, size: int, stripe: bytes) -> Optional[int]:
    return by_equations(equations_of(code, disks)[1:], size, stripe)


def first_failing_equation(code: Code, disks: Disks, size: int, stripe: bytes) -> Optional[int]:
    columns = columns_that_fail(code, disks, size, stripe)
    return next((column for column in columns if column is not None), None)


def counted_in_the_stripe(code: Code, disks: Disks, size: int, stripe: bytes) -> Optional[int]:
    column = lowest_unsound(code, disks, size, stripe)
    return None if column is None else survivors(code, disks)[0] * size + column


def sound_if_one_holds(code: Code, disks: Disks, size: int, stripe: bytes) -> Optional[int]:
    columns = columns_that_fail(code, disks, size, stripe)
    return None if None in columns else min(columns, default=None)


WRONG = {
    "an equation names a lost symbol": tester(naming_a_lost_symbol),
    "an equation is left out": tester(leaving_one_out),
    "the first failing equation's column": tester(first_failing_equation),
    "columns counted in the stripe": tester(counted_in_the_stripe),
    "sound when one equation holds": tester(sound_if_one_holds),
    "24 before 7": tester(lowest_unsound, (24, 7, 31, 32)),
    "31 after 32": tester(lowest_unsound, (7, 24, 32, 31)),
}
REFUSED = [([1, 1, 4], 1, 8), ([4, 0], 1, 8), ([0], 0, 8), ([0], 65537, 8), ([1, 0], 0, 8), ([0], 1, 7), ([0], 0, 0)]
"""Disks, L and the stripe's length, for the square code."""


def agrees(test: Tester) -> bool:
    """Whether a tester answers as the second program in all cases here."""
    given = [(sheet_of(code), disks, size, stripe) for code, disks, size, stripe in small_cases()]
    given += [(sheet_of(SQUARE), disks, size, bytes(length)) for disks, size, length in REFUSED]
    return all(test(*case) == test_survivors(*case) for case in given)


def test_wrong_testers() -> None:
    """Each wrong tester answers otherwise somewhere, and one that is right never does."""
    assert agrees(tester(lowest_by_trying))
    for name, wrong in WRONG.items():
        assert not agrees(wrong), name


if __name__ == "__main__":
    test_worked_cases()
    test_refusals()
    test_all_data()
    test_single_bytes()
    test_lowest_column()
    test_lists()
    test_wrong_testers()
    print("second program's tester for survivors: ok")
