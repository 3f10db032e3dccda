"""Why a call said no."""

REASONS = {
    1: "the code sheet is too short",
    2: "the code sheet is too long",
    3: "a count of the code sheet is wrong: the first byte must be 4, byte 5 must be n * r",
    4: "the code sheet's edition isn't 1",
    5: "the code is beyond a limit: n is 2 to 64, r 1 to 32, n * r at most 64, K 1 to 64",
    6: "a row of the code has a bit set that is not below K",
    7: "the array has no such disk",
    11: "the plan sheet is too short",
    12: "the plan sheet is too long",
    13: "a count of the plan sheet is wrong: the first byte must be 6 or 5, and there are at most 1,024 steps",
    14: "the plan sheet's edition isn't 1 or 2 with first byte 6, or 3 with first byte 5",
    15: "the plan was made for another layout: its n, r or K isn't the code's",
    16: "the plan was made for another disk, or for other disks",
    17: "a step is malformed",
    18: "the target of a step isn't a wanted symbol",
    19: "a step uses a lost place that no earlier step has filled",
    20: "a wanted symbol is never filled",
    21: "a wanted symbol ends wrong",
    22: "the plan's read count is wrong",
    23: "the list of wanted symbols is empty or too long, or an entry doesn't rise or isn't on a failed disk",
    24: "the list of failed disks is empty or too long, or an entry doesn't rise",
    25: "a step copies or adds a symbol onto itself",
    31: "a symbol is 1 to 65,536 bytes long",
    32: "the stripe isn't N symbols long",
    33: "the data isn't K symbols long",
    34: "a plan needs a buffer of 3,081 bytes or more, 3,114 with wanted symbols, 3,210 for a list of disks",
    35: "the spare strip isn't r symbols long",
    36: "the family has no code with these parameters",
    37: "the buffer is shorter than the code sheet",
    38: "the array has no such symbol",
    41: "more than 16 symbols survive, too many to look for the fewest reads",
    42: "a disk is neither away, nor idle at a price of 0 to 1,000,000, nor busy at such a price and a factor of 1 to 64",
}
"""The sentences of navorzim.h's navorzim_reason."""

PLACES = {
    6: "row {row}, bit {low}",
    17: "step {place}",
    18: "step {place}",
    19: "step {place}",
    20: "{wanted} {place}",
    21: "{wanted} {row}; data symbol {low} is off",
    22: "it reads {place} symbols",
    23: "entry {place}",
    24: "entry {place}",
    25: "step {place}",
    41: "{place} symbols survive",
    42: "disk {place}",
}
"""What a place says, for those numbers that have one."""


class Refused(ValueError):
    """A call refused its input, and changed no byte of what it was lent.

    >>> from navorzim import Code
    >>> try:
    ...     Code.liberation(4, 4)
    ... except Refused as refused:
    ...     print(refused.number, refused.place, refused.reason)
    36 0 the family has no code with these parameters
    >>> print(Refused(6, 2 * 64 + 5))
    refused 6 at 133: a row of the code has a bit set that is not below K (row 2, bit 5)
    """

    def __init__(self, number: int, place: int = 0, edition: int = 0) -> None:
        """`edition` is the plan sheet's, where 20 or 21 is given: it says whether the place has a row of the disk or a symbol's number."""
        super().__init__(number, place, edition)
        self.number = number
        self.place = place
        self.edition = edition

    @property
    def reason(self) -> str:
        """The sentence of its number."""
        return REASONS.get(self.number, "a refusal that has no sentence here")

    def __str__(self) -> str:
        wanted = {1: "row", 2: "row", 3: "symbol"}.get(self.edition, "row or, in edition 3, symbol")
        place = PLACES.get(self.number, "").format(place=self.place, row=self.place // 64, low=self.place % 64, wanted=wanted)
        return f"refused {self.number} at {self.place}: {self.reason}" + (f" ({place})" if place else "")


def members(bits: int) -> "tuple[int, ...]":
    """The numbers of the set bits, rising."""
    return tuple(number for number in range(bits.bit_length()) if bits >> number & 1)


class Unsound(Exception):
    """The survivors aren't sound: no valid stripe agrees with them on every byte. `column` is the lowest byte column within a symbol for which
    none does. Some surviving symbol is wrong there; which one isn't known.

    >>> print(Unsound(300))
    the survivors aren't sound: no valid stripe agrees with them in byte 300 of every symbol
    """

    def __init__(self, column: int) -> None:
        super().__init__(column)
        self.column = column

    def __str__(self) -> str:
        return f"the survivors aren't sound: no valid stripe agrees with them in byte {self.column} of every symbol"


class NoPlan(Exception):
    """No plan of any length can rebuild what was asked for, and `patterns` say how much is gone: at least one, and at most as many as there
    are wanted symbols.

    A pattern has K bits; bit t is data symbol t. Its stripe, that of the data in which the symbols of the set bits are 01 bytes and the others
    0, is 0 on every surviving disk: nobody can tell it from the stripe of zeros by what survives. Look at one bit of each symbol, the same
    one in all of them: with d patterns the survivors leave 2**d possibilities for these bits of the wanted symbols, and any two of those
    differ by the XOR of the patterns' stripes for exactly one choice among the patterns. A wanted symbol that no pattern shows on
    (`Code.shows_on`) is known all the same, and has a plan by itself.

    >>> from navorzim import Code
    >>> try:
    ...     Code.single_parity(2, 1).plan_disks([0, 1])
    ... except NoPlan as why:
    ...     print(why.patterns, why.data_symbols, why)
    (3,) ((0, 1),) no plan can be: data symbols 0 and 1 could be other ones
    """

    def __init__(self, *patterns: int) -> None:
        super().__init__(*patterns)
        self.patterns = patterns

    @property
    def data_symbols(self) -> "tuple[tuple[int, ...], ...]":
        """The data symbols of each pattern."""
        return tuple(map(members, self.patterns))

    def __str__(self) -> str:
        *others, last = map(str, self.data_symbols[0])
        one = f"data symbols {', '.join(others)} and {last} could be other ones" if others else f"data symbol {last} could be another one"
        count = len(self.patterns)
        return f"no plan can be: {one}" + (f", which is one pattern of {count}" if count > 1 else "")
