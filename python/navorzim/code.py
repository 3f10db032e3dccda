"""A code, and all that is asked of it."""
from array import array
from itertools import count, islice, takewhile
from operator import index
from typing import Any, Iterable, Union

from .library import Readable, Writable, ask, numbers
from .plans import Plan
from .prices import AWAY, PricedPlan, State, as_told
from .refusals import NoPlan, Refused, Unsound, members

SHEET_BYTES, PLAN_BYTES = 518, 3210
"""Buffers that every code sheet and every plan sheet fits into."""

SIZES = range(1, 65537)
"""The symbol lengths that there are."""

Disks = Union[int, Iterable[int]]
"""A lost disk, or a rising list of them."""

Sheet = Union[Plan, Readable]
"""A plan, or the bytes of a plan sheet."""


def as_list(disks: Disks) -> bytes:
    """The list of a lost disk, or of several, a byte each."""
    try:
        disk = index(disks)  # type: ignore[arg-type]
    except TypeError:
        return numbers(disks)  # type: ignore[arg-type]
    return numbers([disk])


def accepted(answer: Any) -> Any:
    """An answer that refuses nothing."""
    if answer.number != 0:
        raise Refused(answer.number, answer.place)
    return answer


class Code:
    """A code: n disks of r symbols, and which data symbols each of them is the XOR of. It is read from a code sheet.

    >>> square = bytes([4, 1, 4, 2, 4, 8]) + b"".join(row.to_bytes(8, "little") for row in (1, 2, 4, 8, 5, 10, 9, 6))
    >>> code = Code(square)
    >>> code.disks, code.rows, code.symbols, code.data_symbols
    (4, 2, 8, 4)
    >>> Code(square[:-1])
    Traceback (most recent call last):
    ...
    navorzim.refusals.Refused: refused 1 at 0: the code sheet is too short
    """

    __slots__ = ("_sheet", "_read")

    def __init__(self, sheet: Readable) -> None:
        """Reads a code sheet. Refused: 1 to 6."""
        self._sheet = memoryview(sheet).tobytes()
        self._read = accepted(ask("read_code", self._sheet))

    @property
    def sheet(self) -> bytes:
        """The code sheet."""
        return self._sheet

    @property
    def disks(self) -> int:
        """n, the disks of the array."""
        return int(self._read.disks)

    @property
    def rows(self) -> int:
        """r, the symbols on each disk."""
        return int(self._read.rows)

    @property
    def symbols(self) -> int:
        """N, the symbols of the array."""
        return int(self._read.symbols)

    @property
    def data_symbols(self) -> int:
        """K, the data symbols."""
        return int(self._read.data_symbols)

    # Families

    @classmethod
    def single_parity(cls, data_disks: int, rows: int) -> "Code":
        """One parity disk, the XOR of the data disks. Refused: 36.

        >>> Code.single_parity(4, 3)
        Code(5 disks of 3 rows, 12 data symbols)
        """
        return cls._family("single_parity", data_disks, rows)

    @classmethod
    def liberation(cls, w: int, data_disks: int) -> "Code":
        """Liberation: w is 3, 5 or 7, and there are 2 to w data disks of w rows and two parity disks. Refused: 36.

        >>> Code.liberation(7, 4)
        Code(6 disks of 7 rows, 28 data symbols)
        """
        return cls._family("liberation", w, data_disks)

    @classmethod
    def row_diagonal(cls, p: int) -> "Code":
        """Row-diagonal parity: p is 3, 5 or 7, and there are p - 1 data disks of p - 1 rows and two parity disks. Refused: 36.

        >>> Code.row_diagonal(5)
        Code(6 disks of 4 rows, 16 data symbols)
        """
        return cls._family("row_diagonal", p)

    @classmethod
    def evenodd(cls, p: int) -> "Code":
        """EVENODD: p is 3, 5 or 7, and there are p data disks of p - 1 rows and two parity disks. Refused: 36.

        >>> Code.evenodd(5)
        Code(7 disks of 4 rows, 20 data symbols)
        """
        return cls._family("evenodd", p)

    @classmethod
    def _family(cls, name: str, *parameters: int) -> "Code":
        buffer = bytearray(SHEET_BYTES)
        written = accepted(ask(name, *parameters, buffer))
        return cls(buffer[: written.length])

    # Encoding

    def encode(self, size: int, data: Readable) -> bytearray:
        """The stripe of K data symbols: N symbols of `size` bytes, one after the other, disk by disk. Refused: 31, 33.

        >>> Code.single_parity(2, 1).encode(2, b"\\x01\\x02\\x04\\x08").hex(" ", 2)
        '0102 0408 050a'
        """
        size = index(size)
        # what has no such size is refused, and needs no stripe
        stripe = bytearray(self.symbols * size if size in SIZES else 0)
        self.encode_into(size, data, stripe)
        return stripe

    def encode_into(self, size: int, data: Readable, stripe: Writable) -> None:
        """Writes the stripe of K data symbols to the caller's own bytes, which must not overlap the data. Refused: 31, 33, 32.

        >>> stripe = bytearray(6)
        >>> Code.single_parity(2, 1).encode_into(2, b"\\x01\\x02\\x04\\x08", stripe)
        >>> stripe.hex(" ", 2)
        '0102 0408 050a'
        """
        accepted(ask("encode", self.sheet, size, data, stripe))

    # Planning

    def plan(self, disk: int) -> Plan:
        """How the disk can be rebuilt from the others. Raises NoPlan where it can't. Refused: 7.

        >>> Code.row_diagonal(3).plan(0)
        Plan(disk 0, 4 steps, reads 4 symbols)
        """
        return self._planned("plan", (disk,), [disk])

    def plan_wanted(self, disk: int, wanted: Iterable[int]) -> Plan:
        """How these symbols of the disk, and no others, can be rebuilt: a rising list of their numbers, disk * rows + row. That may read
        less, and may be possible where the whole disk is beyond help. Raises NoPlan where it isn't. Refused: 7, 23.

        >>> Code.row_diagonal(3).plan_wanted(0, [1])
        Plan(disk 0, symbols 1, 2 steps, reads 2 symbols)
        """
        listed = numbers(wanted)
        return self._planned("plan_wanted", (disk, listed), [disk], listed)

    def plan_disks(self, disks: Iterable[int], wanted: Iterable[int] = ()) -> Plan:
        """How these disks can be rebuilt from the others, or only the wanted symbols of them: rising lists both. Raises NoPlan where they
        can't. Refused: 7, 24, 23.

        >>> Code.row_diagonal(3).plan_disks([0, 2]).disks
        (0, 2)
        """
        lost, listed = numbers(disks), numbers(wanted)
        return self._planned("plan_disks", (lost, listed), lost, listed)

    def plan_fewest(self, disks: Iterable[int], wanted: Iterable[int] = ()) -> Plan:
        """As plan_disks, with a plan that reads the fewest symbols: no plan of any length and edition for the same disks and wanted symbols
        would be accepted and reads fewer. For small arrays: more than 16 surviving symbols are refused, whether or not there is a plan.
        Raises NoPlan where there is none. Refused: 7, 24, 23, 41.

        >>> code = Code.row_diagonal(3)
        >>> code.plan_disks([0]).reads, code.plan_fewest([0]).reads
        (4, 3)
        >>> Code.liberation(7, 7).plan_fewest([0])
        Traceback (most recent call last):
        ...
        navorzim.refusals.Refused: refused 41 at 56: more than 16 symbols survive, too many to look for the fewest reads (56 symbols survive)
        """
        lost, listed = numbers(disks), numbers(wanted)
        return self._planned("plan_fewest", (lost, listed), lost, listed)

    def plan_priced(self, disks: Iterable[int], states: Iterable[State], wanted: Iterable[int] = ()) -> PricedPlan:
        """As plan_disks, where disks cost more to read or less. `states` has one for each disk, the lost ones too: Away(), Idle(price) or
        Busy(price, factor). What comes after the last disk isn't looked at. A disk that is away counts as lost, and is among the plan's
        disks; what is wanted stays what was asked for, and the plan lists it symbol by symbol.

        The plan of plan_disks for these lost disks is made cheaper by swaps. A swap makes one wanted symbol of other survivors, by one of the
        `equations` for these disks, and is made only if it lowers the sum. That may not find the cheapest plan, and is never dearer than the
        one of plan_disks. Raises NoPlan where no plan avoids the disks that are away. Refused: 7, 24, 23, 42.

        >>> from navorzim import Away, Busy, Idle
        >>> code = Code.liberation(5, 5)
        >>> code.plan_disks([0]).reads, code.plan_priced([0], [Idle(1)] * 7).sum
        (25, 19.0)
        >>> plan = code.plan_priced([0], [Idle(1)] * 5 + [Busy(1, 10), Idle(1)])  # disk 5 has symbols 25 to 29
        >>> plan.sum, [step for step in plan.steps if 25 <= step.source < 30]
        (25.0, [])
        >>> code.plan_priced([0], [Idle(1)] * 5 + [Away(), Idle(1)]).disks
        (0, 5)
        >>> code.plan_priced([0], [Idle(1)] * 5 + [Idle(-1), Idle(1)])  # doctest: +ELLIPSIS
        Traceback (most recent call last):
        ...
        navorzim.refusals.Refused: refused 42 at 5: a disk is neither away, nor idle at a price of 0 to 1,000,000, nor busy ... (disk 5)
        """
        lost, listed, told = numbers(disks), numbers(wanted), [as_told(state) for state in islice(states, self.disks)]
        kinds = bytes(kind for kind, _, _ in told)
        prices, factors = array("d", (price for _, price, _ in told)), array("d", (factor for _, _, factor in told))
        buffer = bytearray(PLAN_BYTES)
        priced = accepted(ask("plan_priced", self.sheet, lost, listed, kinds, prices, factors, buffer))
        if priced.patterns != 0:
            away = (disk for disk, kind in enumerate(kinds) if kind == AWAY)
            symbols = listed or [disk * self.rows + row for disk in lost for row in range(self.rows)]
            raise NoPlan(*self.lost_patterns(sorted({*lost, *away}), symbols))
        return PricedPlan(bytes(buffer[: priced.length]), int(priced.reads), float(priced.sum), bool(priced.settled))

    def _planned(self, call: str, asked: "tuple[Any, ...]", disks: Iterable[int], wanted: Iterable[int] = ()) -> Plan:
        buffer = bytearray(PLAN_BYTES)
        planned = accepted(ask(call, self.sheet, *asked, buffer))
        if planned.patterns != 0:
            raise NoPlan(*self.lost_patterns(disks, wanted))
        return Plan(bytes(buffer[: planned.length]), int(planned.reads))

    # What is gone

    def lost_patterns(self, disks: Iterable[int], wanted: Iterable[int] = ()) -> "tuple[int, ...]":
        """How much is gone of these disks, or of the wanted symbols of them: the patterns that NoPlan has, and none where there is a plan.
        Refused: 7, 24, 23.

        >>> code = Code.single_parity(2, 2)
        >>> len(code.lost_patterns([0, 1])), len(code.lost_patterns([0, 1], [0, 2])), len(code.lost_patterns([0]))
        (2, 1, 0)
        """
        asked = self.sheet, numbers(disks), numbers(wanted)
        answers = (accepted(ask("lost_pattern", *asked, number)) for number in count())
        # after the last comes 0, which no pattern is
        return tuple(takewhile(bool, (int(answer.high << 64 | answer.low) for answer in answers)))

    def shows_on(self, pattern: int) -> "tuple[int, ...]":
        """The symbols in which a pattern's stripe isn't 0. Bit t of a pattern is data symbol t.

        >>> Code.single_parity(2, 2).shows_on(0b0001)
        (0, 4)
        >>> Code.single_parity(2, 2).shows_on(0b0101)
        (0, 2)
        """
        stripe = self.encode(1, bytes(index(pattern) >> symbol & 1 for symbol in range(self.data_symbols)))
        return tuple(symbol for symbol, byte in enumerate(stripe) if byte)

    # Checking and rebuilding

    def check(self, disks: Disks, plan: Sheet) -> int:
        """Whether the plan is right for this code and these lost disks, the very ones it was made for; answers how many surviving symbols
        it reads. Refused: 7, 24, and the plan sheet's 11 to 25.

        >>> code = Code.row_diagonal(3)
        >>> code.check(0, code.plan(0))
        4
        >>> code.check([0, 2], code.plan(0))
        Traceback (most recent call last):
        ...
        navorzim.refusals.Refused: refused 16 at 0: the plan was made for another disk, or for other disks
        """
        return int(self._asked("check", disks, plan).reads)

    def rebuild(self, disks: Disks, plan: Sheet, size: int, stripe: Writable) -> None:
        """Checks the plan, and then runs it on the stripe: the wanted symbols are written, and all other bytes stay. What the lost disks'
        places hold doesn't matter. Refused: as for check, then 31, 32.

        >>> code = Code.single_parity(2, 1)
        >>> stripe = bytearray.fromhex("ffff 0408 050a")
        >>> code.rebuild(0, code.plan(0), 2, stripe)
        >>> stripe.hex(" ", 2)
        '0102 0408 050a'
        """
        self._asked("rebuild", disks, plan, size, stripe)

    def _asked(self, call: str, disks: Disks, plan: Sheet, *more: Any) -> Any:
        sheet = plan.sheet if isinstance(plan, Plan) else plan
        try:
            disk = index(disks)  # type: ignore[arg-type]
        except TypeError:
            answer = ask(f"{call}_disks", self.sheet, numbers(disks), sheet, *more)  # type: ignore[arg-type]
        else:
            answer = ask(call, self.sheet, disk, sheet, *more)
        if answer.number in (20, 21):
            raise Refused(answer.number, answer.place, memoryview(sheet).cast("B")[1])
        return accepted(answer)

    # Testing the survivors

    def test_survivors(self, disks: Disks, size: int, stripe: Readable) -> None:
        """Whether the survivors of these lost disks can be sound: some valid stripe agrees with this one on every byte of the other disks.
        Raises Unsound, with the lowest byte column that shows it, where none does. What the lost disks' places hold doesn't matter, and
        nothing is written. Refused: 7, 24, 31, 32.

        >>> code = Code.row_diagonal(3)
        >>> stripe = code.encode(2, b"abcdefgh")
        >>> code.test_survivors(0, 2, stripe)
        >>> stripe[5] ^= 1  # byte 1 of symbol 2, which is on disk 1
        >>> code.test_survivors(0, 2, stripe)
        Traceback (most recent call last):
        ...
        navorzim.refusals.Unsound: the survivors aren't sound: no valid stripe agrees with them in byte 1 of every symbol
        >>> code.test_survivors(1, 2, stripe)
        """
        tested = accepted(ask("test_survivors", self.sheet, as_list(disks), size, stripe))
        if not tested.sound:
            raise Unsound(int(tested.column))

    def equations(self, disks: Disks) -> "tuple[tuple[int, ...], ...]":
        """A list of equations among the survivors of these lost disks: the numbers of surviving symbols whose XOR is 0 in every valid stripe.
        They are enough: survivors are sound exactly if they meet all of them. There may be none. Refused: 7, 24.

        >>> Code.single_parity(2, 2).equations(0)
        ()
        >>> code = Code.row_diagonal(3)
        >>> len(code.equations(0)), len(code.equations([0, 2]))
        (2, 0)
        """
        asked = self.sheet, as_list(disks)
        answers = (accepted(ask("equation", *asked, number)) for number in range(accepted(ask("equations", *asked)).count))
        return tuple(members(answer.high << 64 | answer.low) for answer in answers)

    # Parts of a stripe

    def strip(self, disk: int, size: int, stripe: Readable) -> memoryview:
        """The disk's part of the stripe, the very bytes: writing to it, where the stripe can be written, writes to the stripe.
        Refused: 7, 31, 32.

        >>> bytes(Code.single_parity(2, 1).strip(2, 2, b"\\x01\\x02\\x04\\x08\\x05\\x0a"))
        b'\\x05\\n'
        """
        return self._part("strip", (stripe,), disk, size, stripe)

    def look_up(self, disk: int, size: int, stripe: Readable, spare: Readable, symbol: int) -> memoryview:
        """The symbol's bytes while `disk` is away and its strip is on a spare: the very bytes of the stripe, or of the spare strip.
        Refused: 7, 31, 32, 35, 38.

        >>> bytes(Code.single_parity(2, 1).look_up(0, 2, b"??efgh", b"ab", 0))
        b'ab'
        """
        return self._part("look_up", (stripe, spare), disk, size, stripe, spare, symbol)

    def _part(self, call: str, slices: "tuple[Readable, ...]", *given: Any) -> memoryview:
        part = ask(call, self.sheet, *given)
        if part.length == 0:
            accepted(ask(f"{call}_verdict", self.sheet, *given))
        return memoryview(slices[part.slice]).cast("B")[part.start : part.start + part.length]

    # As a value

    def __eq__(self, other: object) -> bool:
        if not isinstance(other, Code):
            return NotImplemented
        return self.sheet == other.sheet

    def __hash__(self) -> int:
        return hash(self.sheet)

    def __reduce__(self) -> "tuple[Any, ...]":
        return Code, (self.sheet,)

    def __bytes__(self) -> bytes:
        return self.sheet

    def __repr__(self) -> str:
        return f"Code({self.disks} disks of {self.rows} rows, {self.data_symbols} data symbols)"
