"""Codes for the vectors, and numbers that look random and are the same in every run."""
from random import Random
from typing import Sequence, TypeVar

import second
from second import Code

Item = TypeVar("Item")
RANDOM = Random(20)


def below(limit: int) -> int:
    """A random number below a limit, by the one method that Python keeps the same in every version."""
    return int(RANDOM.random() * limit)


def chosen(items: Sequence[Item]) -> Item:
    return items[below(len(items))]


def shuffled(items: Sequence[Item]) -> list[Item]:
    return sorted(items, key=lambda _: RANDOM.random())


def random_bytes(length: int) -> bytes:
    return bytes(below(256) for _ in range(length))


def random_row(data_symbols: int) -> int:
    return int.from_bytes(random_bytes(8), "little") % 2**data_symbols


# Codes


def random_code(disks: int, height: int, data_symbols: int) -> Code:
    rows = tuple(random_row(data_symbols) for _ in range(disks * height))
    return Code(disks, height, data_symbols, rows)


def low_rank_code(disks: int, height: int, data_symbols: int) -> Code:
    """Rows that are all sums of two."""
    one, other = random_row(data_symbols), random_row(data_symbols)
    rows = tuple((0, one, other, one ^ other)[below(4)] for _ in range(disks * height))
    return Code(disks, height, data_symbols, rows)


SMALLEST = Code(2, 1, 1, (0, 1))
SPECIAL_CODES = [
    second.SQUARE,
    SMALLEST,
    Code(2, 1, 2, (1, 2)),
    Code(2, 1, 1, (0, 0)),
    Code(3, 2, 5, (0, 31, 0, 31, 16, 0)),
    Code(4, 1, 3, (5, 5, 5, 5)),
    Code(2, 1, 64, (2**64 - 1, 2**63)),
    Code(2, 2, 64, (1, 2**63, 2**32, 2**31)),
    Code(64, 1, 64, tuple(2**bit for bit in range(64))),
    Code(64, 1, 1, (1, 0) * 32),
    Code(2, 32, 64, tuple(2**64 - 1 - 2**bit for bit in range(64))),
    Code(8, 8, 7, (127,) * 64),
]


def random_codes() -> list[Code]:
    shapes = [(2, 1, 3), (3, 1, 2), (2, 2, 3), (4, 1, 4), (5, 3, 9), (7, 2, 10), (2, 32, 40), (64, 1, 33)]
    shapes += [(8, 8, 64), (21, 3, 63), (3, 21, 8), (4, 16, 16), (6, 5, 57), (9, 7, 49)]
    low_rank_shapes = [(4, 3, 6), (5, 4, 30), (16, 4, 64)]
    return [random_code(*shape) for shape in shapes] + [low_rank_code(*shape) for shape in low_rank_shapes]
