"""The second program's checker: what document 01's check answers, worked out anew, with document 02's editions 2 and 3 of the plan sheet.

It judges a plan by what the steps do to bytes, and never looks at a row of bits. The columns of bits in the data carry
every pattern, or every pattern of one bit where there are too many. The plan runs on their stripe with the wanted symbols
ruined in several ways, and what it leaves is compared with the encoding. A sheet without a list wants all lost symbols.

    python3 tests/second_checker.py     runs its own test, on the worked cases and limits of documents 01 and 02
"""
from typing import Iterator, NamedTuple, Optional, Sequence, Union

from second import SQUARE, Code, Refusal, bits_of, changed, encoding, liberation, read_code, row_diagonal
from second import sheet_of, single_parity

CLEAR, COPY, ADD = 0, 1, 2
STEP_LIMIT = 1024
EDITIONS = {6: (1, 2), 5: (3,)}
"""The editions of a plan sheet that go with each first count."""


class Step(NamedTuple):
    """A step as the sheet has it: three bytes."""

    kind: int
    target: int
    source: int


Disks = Sequence[int]
"""The lost disks. Asked about one disk, a call is asked about the set of it."""

Listed = Optional[Sequence[int]]
"""A list of wanted symbols, or none, as in edition 1. An empty one of edition 3 wants all lost symbols too."""


# The plan sheet


def check(sheet: bytes, disks: Disks, plan: bytes) -> Union[int, Refusal]:
    """The read count, or the first refusal: code sheet, 7 and 24 of the asked disks, plan."""
    code = read_code(sheet)
    if isinstance(code, Refusal):
        return code
    refusal = disks_refusal(code, disks) or next(head_refusals(code, disks, plan), None)
    if refusal:
        return refusal
    wanted, steps = wanted_symbols(code, disks, listed_in(plan)), steps_of(plan)
    refusal = step_refusal(code, disks, wanted, steps) or end_refusal(code, edition_of(plan), wanted, steps)
    if refusal:
        return refusal
    reads = read_count(code, disks, steps)
    return reads if reads_in(plan) == reads else Refusal(22, reads)


def edition_of(plan: bytes) -> int:
    return plan[1]


def sections(plan: bytes) -> list[slice]:
    """Where the sections before the steps lie, each after its count; there are as many as the edition says. They go by their counts,
    not by what there is of the sheet; a count that the sheet doesn't reach is taken as 0."""
    found: list[slice] = []
    at = 0
    for _ in range(edition_of(plan)):
        count = plan[at] if at < len(plan) else 0
        found.append(slice(at + 1, at + 1 + count))
        at += 1 + count
    return found


def reads_in(plan: bytes) -> int:
    """The read count, which ends the first section."""
    return plan[sections(plan)[0]][-1]


def disks_in(plan: bytes) -> bytes:
    """The lost disks: a section of edition 3, a number of the first section before it."""
    return plan[sections(plan)[1]] if edition_of(plan) == 3 else plan[5:6]


def listed_in(plan: bytes) -> Listed:
    """The list of wanted symbols that a sheet holds, or what there is of it."""
    return None if edition_of(plan) == 1 else plan[sections(plan)[-1]]


def head_length(plan: bytes) -> int:
    """The bytes up to the first step: two with their number come after the sections."""
    return sections(plan)[-1].stop + 2


def step_count(plan: bytes) -> int:
    return int.from_bytes(plan[head_length(plan) - 2 : head_length(plan)], "little")


def steps_of(plan: bytes) -> list[Step]:
    return [Step(*plan[at : at + 3]) for at in range(head_length(plan), len(plan), 3)]


def counted(section: Sequence[int]) -> bytes:
    """A section after its count."""
    return bytes([len(section), *section])


def steps_section(steps: list[Step]) -> bytes:
    return len(steps).to_bytes(2, "little") + b"".join(bytes(step) for step in steps)


def plan_sheet(code: Code, disk: int, steps: list[Step], reads: Optional[int] = None, listed: Listed = None) -> bytes:
    """The sheet of a plan for one disk, of edition 2 if it has a list; its read count is the true one if none is said."""
    stated = read_count(code, [disk], steps) if reads is None else reads
    head = counted([1 if listed is None else 2, code.disks, code.height, code.data_symbols, disk, stated])
    return head + (b"" if listed is None else counted(listed)) + steps_section(steps)


def set_sheet(code: Code, disks: Disks, steps: list[Step], reads: Optional[int] = None, listed: Sequence[int] = ()) -> bytes:
    """The sheet of a plan for a set of disks, of edition 3; its read count is the true one if none is said."""
    stated = read_count(code, disks, steps) if reads is None else reads
    head = counted([3, code.disks, code.height, code.data_symbols, stated])
    return head + counted(disks) + counted(listed) + steps_section(steps)


def head_refusals(code: Code, disks: Disks, plan: bytes) -> Iterator[Refusal]:
    """The refusals of a sheet up to its steps. Only the first is asked for: each test may rely on those before it.

    The order: under 9 bytes (11), first count (13), 14, 15; in editions 1 and 2 16; 11 if the sheet ends before the step count
    does, step limit (13); in edition 3 7 for a listed disk, 24, 16; then 23, 11, 12. A sheet of edition 1 has its step count in its
    9 bytes, and no list.
    """
    if len(plan) < 9:
        yield Refusal(11)
    if plan[0] not in EDITIONS:
        yield Refusal(13)
    if edition_of(plan) not in EDITIONS[plan[0]]:
        yield Refusal(14)
    if tuple(plan[2:5]) != (code.disks, code.height, code.data_symbols):
        yield Refusal(15)
    of_others = list(disks_in(plan)) != list(disks)
    if of_others and edition_of(plan) < 3:
        yield Refusal(16)
    if len(plan) < head_length(plan):
        yield Refusal(11)
    if step_count(plan) > STEP_LIMIT:
        yield Refusal(13)
    bad_disks = disks_refusal(code, disks_in(plan))
    if bad_disks:
        yield bad_disks
    if of_others:
        yield Refusal(16)
    bad_list = wanted_refusal(code, disks, edition_of(plan), listed_in(plan))
    if bad_list:
        yield bad_list
    length = head_length(plan) + 3 * step_count(plan)
    if len(plan) != length:
        yield Refusal(11 if len(plan) < length else 12)


# Lists


def list_refusal(number: int, listed: Sequence[int], least: int, allowed: Sequence[int]) -> Optional[Refusal]:
    """23 and 24: a count below the least or above that of all allowed entries, at 0; then the end of the shortest front that isn't a
    choice of the allowed ones in their order."""
    if not least <= len(listed) <= len(allowed):
        return Refusal(number)
    for position in range(len(listed)):
        front = listed[: position + 1]
        if [entry for entry in allowed if entry in front] != list(front):
            return Refusal(number, position)
    return None


def disks_refusal(code: Code, disks: Disks) -> Optional[Refusal]:
    """7 for any of the disks, then 24: none, more than n, or not rising."""
    if any(disk >= code.disks for disk in disks):
        return Refusal(7)
    return list_refusal(24, disks, 1, range(code.disks))


def wanted_refusal(code: Code, disks: Disks, edition: int, listed: Listed) -> Optional[Refusal]:
    """23, over the symbols of all lost disks. Only in edition 3 a list may be empty."""
    if listed is None:
        return None
    return list_refusal(23, listed, 0 if edition == 3 else 1, lost_places(code, disks))


def wanted_symbols(code: Code, disks: Disks, listed: Listed) -> Sequence[int]:
    """The symbols of a list, or without one all lost symbols."""
    return listed or lost_places(code, disks)


# Steps


def lost_places(code: Code, disks: Disks) -> list[int]:
    """The symbols of the disks, disk by disk."""
    return [disk * code.height + row for disk in disks for row in range(code.height)]


def read_count(code: Code, disks: Disks, steps: list[Step]) -> int:
    """The number of distinct surviving symbols named as a source by any copy or add."""
    return len({step.source for step in steps if step.kind != CLEAR} - set(lost_places(code, disks)))


def step_refusal(code: Code, disks: Disks, wanted: Sequence[int], steps: list[Step]) -> Optional[Refusal]:
    """The first faulty step's refusal, in each step 17, 18, 25, 19. A lost place that isn't wanted stays unfilled."""
    unfilled = set(lost_places(code, disks))
    for number, (kind, target, source) in enumerate(steps):
        if kind > ADD or max(target, source) >= code.symbols or (kind == CLEAR and source != 0):
            return Refusal(17, number)
        if target not in wanted:
            return Refusal(18, number)
        if (kind, target) in ((COPY, source), (ADD, source)):
            return Refusal(25, number)
        used = {CLEAR: set(), COPY: {source}, ADD: {target, source}}[kind]
        if used & unfilled:
            return Refusal(19, number)
        unfilled.discard(target)
    return None


def end_refusal(code: Code, edition: int, wanted: Sequence[int], steps: list[Step]) -> Optional[Refusal]:
    """20 over all wanted symbols, then 21 over all of them. The place names a symbol, for 21 times 64 plus a data symbol."""
    unfilled = set(wanted) - {step.target for step in steps}
    if unfilled:
        return Refusal(20, name_of(code, edition, min(unfilled)))
    wrong = wrong_symbols(code, wanted, steps)
    if not wrong:
        return None
    return Refusal(21, name_of(code, edition, min(wrong)) * 64 + first_off(code, min(wrong), steps))


def name_of(code: Code, edition: int, symbol: int) -> int:
    """How 20 and 21 name a symbol: by its row of the disk, in edition 3 by its number."""
    return symbol if edition == 3 else symbol % code.height


def first_off(code: Code, symbol: int, steps: list[Step]) -> int:
    """The lowest data symbol whose own stripe, FF bytes there and zero elsewhere, comes out wrong in a symbol that ends wrong."""
    for data_symbol in range(code.data_symbols):
        stripe = encoding(code, 1, bytes(data_symbol) + b"\xff" + bytes(code.data_symbols - 1 - data_symbol))
        if run(code, 1, steps, with_symbols(1, [symbol], b"\x5a", stripe))[symbol] != stripe[symbol]:
            return data_symbol
    raise AssertionError("a symbol that ends wrong does so for a single data symbol")


# Trying a plan


def patterns(data_symbols: int) -> list[int]:
    """Patterns of data bits that settle whether a plan is right: all, or those of one bit, of which others are sums."""
    if data_symbols <= 10:
        return list(range(2**data_symbols))
    return [2**bit for bit in range(data_symbols)]


def trial_data(data_symbols: int) -> tuple[int, bytes]:
    """A symbol length, and data with a column of bits for each pattern: bit i of symbol t is bit t of pattern i."""
    columns = list(enumerate(patterns(data_symbols)))
    size = (len(columns) + 7) // 8
    symbols = [sum(1 << i for i, pattern in columns if pattern >> t & 1) for t in range(data_symbols)]
    return size, b"".join(symbol.to_bytes(size, "little") for symbol in symbols)


def run(code: Code, size: int, steps: list[Step], stripe: bytes) -> bytes:
    """The stripe after the steps."""
    symbols = [int.from_bytes(stripe[s * size : (s + 1) * size], "little") for s in range(code.symbols)]
    for kind, target, source in steps:
        if kind == CLEAR:
            symbols[target] = 0
        elif kind == COPY:
            symbols[target] = symbols[source]
        else:
            symbols[target] ^= symbols[source]
    return b"".join(symbol.to_bytes(size, "little") for symbol in symbols)


def with_symbols(size: int, symbols: Sequence[int], contents: bytes, stripe: bytes) -> bytes:
    """The stripe with other contents in some symbols, one after the other."""
    after = bytearray(stripe)
    for turn, symbol in enumerate(symbols):
        after[symbol * size : (symbol + 1) * size] = contents[turn * size : (turn + 1) * size]
    return bytes(after)


def ruined(size: int, wanted: Sequence[int], stripe: bytes) -> list[bytes]:
    """The stripe with its wanted symbols zero, all ones, and mixed."""
    length = len(wanted) * size
    contents = [bytes(length), b"\xff" * length, bytes((i * i + 91 * i + 7) % 251 for i in range(length))]
    return [with_symbols(size, wanted, content, stripe) for content in contents]


def wrong_symbols(code: Code, wanted: Sequence[int], steps: list[Step]) -> set[int]:
    """The wanted symbols that differ from the encoding for some pattern and some ruin."""
    size, data = trial_data(code.data_symbols)
    stripe = encoding(code, size, data)
    wrong = set()
    for start in ruined(size, wanted, stripe):
        after = run(code, size, steps, start)
        for symbol in wanted:
            if after[symbol * size : (symbol + 1) * size] != stripe[symbol * size : (symbol + 1) * size]:
                wrong.add(symbol)
    return wrong


# The program's own test

P2 = bytes.fromhex("06010402040003 0400 010002 020004 010102 020107")
ROW_1 = bytes.fromhex("06020402040002 0101 0200 010102 020107")
"""Edition 2 of the second half of P2: row 1 is wanted alone."""

TWO_DISKS = bytes.fromhex("050304020404 020002 00 0800 010006 020003 010107 020102 010400 020402 010501 020503")
"""Edition 3 for the square code without disks 0 and 2, whose symbols are 0, 1, 4 and 5. All of them are wanted."""


def through(code: Code, lost: int, parity: int) -> list[Step]:
    """A lost data symbol of a family from all else that a parity symbol takes, and the parity symbol itself."""
    sources = [bit for bit in bits_of(code.rows[parity]) if bit != lost] + [parity]
    return [Step(COPY if source == sources[0] else ADD, lost, source) for source in sources]


def test_worked_cases() -> None:
    sheet = sheet_of(SQUARE)
    stripe = bytes.fromhex("1122448855AA9966")
    assert check(sheet, [0], P2) == 3
    assert run(SQUARE, 1, steps_of(P2), b"\xff\xff" + stripe[2:]) == stripe
    assert check(sheet, [0], changed(P2, 6, 4)) == Refusal(22, 3)
    assert check(sheet, [0], changed(P2, 20, 6)) == Refusal(21, 64)
    assert check(sheet, [0], changed(P2, 9, 2)) == Refusal(19, 0)
    assert check(sheet, [0], changed(P2, 10, 2)) == Refusal(18, 0)
    assert all(check(sheet, [0], plan_sheet(SQUARE, 0, [], reads)) == Refusal(20, 0) for reads in (0, 3))
    zero = Code(2, 1, 1, (0, 1))
    assert check(sheet_of(zero), [0], plan_sheet(zero, 0, [Step(CLEAR, 0, 0)])) == 0
    assert check(b"", [0], P2) == Refusal(1)
    assert check(sheet, [4], P2) == Refusal(7) and check(sheet, [1], P2) == Refusal(16)


def test_liberation() -> None:
    """P is symbols 25 to 29, Q is symbols 30 to 34."""
    code = liberation(5, 5)
    from_p = [step for row in range(5) for step in through(code, row, 25 + row)]
    from_both = [step for row in range(5) for step in through(code, row, (25 if row < 2 else 30) + row)]
    assert check(sheet_of(code), [0], plan_sheet(code, 0, from_p)) == 25
    assert check(sheet_of(code), [0], plan_sheet(code, 0, from_both)) == 20
    assert check(sheet_of(code), [0], plan_sheet(code, 0, from_both, 25)) == Refusal(22, 20)
    assert check(sheet_of(code), [0], plan_sheet(code, 0, from_p[:-1])) == Refusal(21, 4 * 64 + 4)
    assert check(sheet_of(code), [0], plan_sheet(code, 0, from_p[:-5])) == Refusal(20, 4)


def test_limits() -> None:
    sheet = sheet_of(SQUARE)
    again = [Step(CLEAR, 1, 0)] * 1020 + steps_of(P2)
    assert check(sheet, [0], plan_sheet(SQUARE, 0, again)) == 3
    assert check(sheet, [0], plan_sheet(SQUARE, 0, again + [Step(COPY, 1, 1)])) == Refusal(13)
    assert check(sheet, [0], P2[:8]) == check(sheet, [0], P2[:20]) == Refusal(11)
    assert check(sheet, [0], P2 + b"\0") == Refusal(12)


def test_steps_onto_themselves() -> None:
    """25 is for copies and adds of wanted places: after 17 and 18, before 19. A clear of symbol 0 is none."""
    sheet, steps = sheet_of(SQUARE), steps_of(P2)
    for kind, place in [(COPY, 0), (COPY, 1), (ADD, 0), (ADD, 1)]:
        assert check(sheet, [0], plan_sheet(SQUARE, 0, [Step(kind, place, place)] + steps)) == Refusal(25, 0)
        assert check(sheet, [0], plan_sheet(SQUARE, 0, steps + [Step(kind, place, place)])) == Refusal(25, 4)
        assert check(sheet, [1], plan_sheet(SQUARE, 1, [Step(kind, place, place)])) == Refusal(18, 0)
        assert check(sheet, [0], plan_sheet(SQUARE, 0, [Step(kind, 1, 1)], listed=[0])) == Refusal(18, 0)
    assert check(sheet, [0], plan_sheet(SQUARE, 0, [Step(3, 0, 0)])) == check(sheet, [0], plan_sheet(SQUARE, 0, [Step(COPY, 8, 8)])) == Refusal(17, 0)
    assert check(sheet, [0], plan_sheet(SQUARE, 0, [Step(CLEAR, 0, 0)] + steps)) == 3
    assert check(sheet, [0], plan_sheet(SQUARE, 0, [Step(ADD, 0, 1), Step(COPY, 0, 0)] + steps)) == Refusal(19, 0)


def test_trials() -> None:
    """A plan that was right under one code is wrong under another of its shape, and bit 63 counts as any."""
    steps = steps_of(P2)
    cached = plan_sheet(SQUARE, 0, [Step(COPY, 0, 6), Step(ADD, 0, 3)] + steps[2:])
    assert check(sheet_of(SQUARE), [0], cached) == 4
    assert check(sheet_of(row_diagonal(3)), [0], cached) == Refusal(21, 1)
    wide = Code(4, 2, 64, tuple(row << 60 for row in SQUARE.rows))
    assert wrong_symbols(wide, [0, 1], steps) == set()
    assert wrong_symbols(wide, [0, 1], steps[:3]) == {1} and wrong_symbols(wide, [0, 1], steps[1:]) == {0}
    assert wrong_symbols(wide, [1], steps[:2]) == {1} and wrong_symbols(wide, [0], steps[:2]) == set()


def test_lists() -> None:
    """Single parity of three rows: disk 1 is symbols 3 to 5, disk 2 is the parity."""
    code = single_parity(2, 3)
    sheet, rows = sheet_of(code), [through(code, 3 + row, 6 + row) for row in range(3)]
    for listed in ([3], [5], [3, 5], [3, 4, 5]):
        steps = [step for symbol in listed for step in rows[symbol - 3]]
        assert check(sheet, [1], plan_sheet(code, 1, steps, listed=listed)) == 2 * len(listed)
    bad = {(): 0, (3, 4, 5, 3): 0, (2,): 0, (6,): 0, (9,): 0, (255,): 0, (3, 3): 1, (4, 3): 1, (3, 6): 1, (3, 5, 4): 2, (5, 4, 2): 1}
    for listed, place in bad.items():
        assert check(sheet, [1], plan_sheet(code, 1, [], listed=listed)) == Refusal(23, place)
    outer = rows[0] + rows[2]
    assert check(sheet, [1], plan_sheet(code, 1, outer, listed=[3])) == Refusal(18, 2)
    assert check(sheet, [1], plan_sheet(code, 1, [Step(COPY, 3, 4)], listed=[3])) == Refusal(19, 0)
    assert check(sheet, [1], plan_sheet(code, 1, outer + [Step(ADD, 5, 3), Step(ADD, 5, 3)], listed=[3, 5])) == 4
    assert check(sheet, [1], plan_sheet(code, 1, rows[0], listed=[3, 5])) == Refusal(20, 2)
    assert check(sheet, [1], plan_sheet(code, 1, outer[:3], listed=[3, 5])) == Refusal(21, 2 * 64 + 2)
    assert check(sheet, [1], plan_sheet(code, 1, outer, 3, [3, 5])) == Refusal(22, 4)
    half = Code(2, 2, 2, (1, 2, 0, 2))
    assert check(sheet_of(half), [0], plan_sheet(half, 0, [Step(COPY, 1, 3)], listed=[1])) == 1


def test_edition_2() -> None:
    sheet, step = sheet_of(SQUARE), bytes([COPY, 1, 2])
    assert check(sheet, [0], ROW_1) == 2
    assert all(check(sheet, [0], ROW_1[:length]) == Refusal(11) for length in range(len(ROW_1)))
    assert check(sheet, [0], ROW_1 + b"\0") == Refusal(12)
    assert all(check(sheet, [0], changed(ROW_1, 1, edition)) == Refusal(14) for edition in (0, 3, 255))
    assert check(sheet, [0], changed(ROW_1, 7, 255)) == Refusal(11)
    assert check(sheet, [0], ROW_1[:8] + b"\1\1\4" + step * 1025) == Refusal(13)
    assert check(sheet, [0], ROW_1[:8] + b"\2\1\4" + step * 1025) == Refusal(13)
    assert check(sheet, [0], ROW_1[:8] + b"\2\0\4" + step) == Refusal(23, 0)
    assert check(sheet, [0], changed(ROW_1, 5, 1)) == check(sheet, [1], ROW_1) == Refusal(16)
    assert check(sheet, [0], ROW_1[:9] + b"\0\4" + bytes([CLEAR, 1, 0]) * 1022 + ROW_1[11:]) == 2


def test_asked_disks() -> None:
    """7 for any of the set, then 24, before anything of the plan; a set that isn't the sheet's is 16."""
    sheet, part = sheet_of(SQUARE), TWO_DISKS[:8]
    for disks in ([4], [0, 4], [4, 0], [255], [0, 2, 2**64 - 1], [0] * 300 + [4], [3, 2, 1, 4, 0]):
        assert all(check(sheet, disks, plan) == Refusal(7) for plan in (TWO_DISKS, P2, ROW_1, part))
    places = {(): 0, (0, 0): 1, (2, 0): 1, (0, 2, 2): 2, (0, 1, 3, 2): 3, (0, 1, 2, 3, 3): 0, (0,) * 255: 0, (0,) * 300: 0}
    for asked, place in places.items():
        assert all(check(sheet, asked, plan) == Refusal(24, place) for plan in (TWO_DISKS, P2, ROW_1, part))
    for disks in ([0], [2], [0, 1], [1, 2], [0, 2, 3], [0, 1, 2, 3]):
        assert check(sheet, disks, TWO_DISKS) == Refusal(16)
    for disks in ([0, 1], [0, 2], [1, 3], [0, 1, 2, 3]):
        assert check(sheet, disks, P2) == check(sheet, disks, ROW_1) == Refusal(16)
        assert check(sheet, disks, changed(P2, 2, 5)) == check(sheet, disks, changed(ROW_1, 4, 5)) == Refusal(15)
        assert check(sheet, disks, P2[:7] + b"\1\4") == check(sheet, disks, ROW_1[:9]) == Refusal(16)


def test_edition_3() -> None:
    """The head: first count and edition, then the order up to the lists."""
    sheet, step = sheet_of(SQUARE), bytes([CLEAR, 0, 0])
    assert TWO_DISKS == set_sheet(SQUARE, [0, 2], steps_of(TWO_DISKS))
    assert check(sheet, [0, 2], TWO_DISKS) == 4
    assert all(check(sheet, [0, 2], TWO_DISKS[:length]) == Refusal(11) for length in range(len(TWO_DISKS)))
    assert check(sheet, [0, 2], TWO_DISKS + b"\0") == Refusal(12)
    for plan in (P2, ROW_1, TWO_DISKS):
        for count, edition in [(0, 1), (4, 3), (5, 0), (5, 1), (5, 2), (5, 4), (6, 0), (6, 3), (6, 255), (7, 1), (7, 3)]:
            refusal = Refusal(14 if count in (5, 6) else 13)
            assert check(sheet, disks_in(plan), bytes([count, edition]) + plan[2:]) == refusal
    assert all(check(sheet, [0, 2], changed(TWO_DISKS, at, 5)) == Refusal(15) for at in (2, 3, 4))
    assert check(sheet, [0, 2], changed(TWO_DISKS, 5, 5)) == Refusal(22, 4)
    assert check(sheet, [0, 2], changed(TWO_DISKS, 6, 255)) == check(sheet, [0, 2], changed(TWO_DISKS, 9, 255)) == Refusal(11)
    head = TWO_DISKS[:6]
    assert check(sheet, [0, 2], head + b"\5\0\0\0\0\4") == Refusal(11)
    assert check(sheet, [0, 2], head + b"\5\0\0\0\0\4\377\1\4") == Refusal(11)
    for disks in (b"\0", b"\1\4", b"\2\0\0", b"\1\0"):
        assert check(sheet, [0, 2], head + disks + b"\0\1\4" + step * 1025) == Refusal(13)
    for disks, refusal in [
        (b"\5\0\0\0\0\4", Refusal(7)),
        (b"\2\4\0", Refusal(7)),
        (b"\0", Refusal(24)),
        (b"\5\0\1\2\3\3", Refusal(24)),
        (b"\2\0\0", Refusal(24, 1)),
        (b"\2\2\0", Refusal(24, 1)),
        (b"\3\0\2\1", Refusal(24, 2)),
        (b"\1\0", Refusal(16)),
        (b"\2\0\1", Refusal(16)),
        (b"\2\0\2", Refusal(23, 1)),
    ]:
        assert check(sheet, [0, 2], head + disks + b"\2\0\0" + b"\0\4") == refusal
    assert check(sheet, [0], head + b"\2\0\0" + b"\0\0\0") == Refusal(24, 1)
    assert check(sheet, [0, 2], head + b"\2\0\2" + b"\0\0\4" + step) == Refusal(11)
    assert check(sheet, [0, 2], head + b"\2\0\2" + b"\0\0\4" + step * 1024) == Refusal(20, 1)


def test_wanted_of_disks() -> None:
    """Symbols 0, 1, 4 and 5 are lost, 2 and 3 survive between them."""
    sheet, steps = sheet_of(SQUARE), steps_of(TWO_DISKS)

    def answer(listed: Sequence[int], some: list[Step], reads: Optional[int] = None) -> Union[int, Refusal]:
        return check(sheet, [0, 2], set_sheet(SQUARE, [0, 2], some, reads, listed))

    assert answer([], steps) == answer([0, 1, 4, 5], steps) == 4
    assert answer([0], steps[:2]) == 2 and answer([0, 4], steps[:2] + steps[4:6]) == 3
    assert answer([1, 5], steps[2:4] + steps[6:]) == 3 and answer([5], [Step(COPY, 5, 7), Step(ADD, 5, 2), Step(ADD, 5, 3)]) == 3
    bad = {(0, 1, 4, 5, 5): 0, (0,) * 255: 0, (2,): 0, (8,): 0, (255,): 0, (0, 2): 1, (4, 1): 1, (4, 4): 1, (0, 1, 5, 4): 3, (0, 1, 4, 6): 3}
    for listed, place in bad.items():
        assert answer(listed, steps) == Refusal(23, place)
    # A target that survives or isn't wanted; a source on the other lost disk that isn't filled yet, or never can be.
    assert answer([], [Step(CLEAR, 2, 0)]) == answer([0, 1, 5], [Step(CLEAR, 4, 0)]) == Refusal(18, 0)
    assert answer([], [Step(COPY, 4, 0)]) == answer([], [Step(COPY, 0, 4)]) == answer([4, 5], [Step(COPY, 4, 0)]) == Refusal(19, 0)
    assert answer([], steps[4:] + steps[:4]) == Refusal(19, 0)
    assert answer([], steps + [Step(ADD, 4, 4)]) == Refusal(25, 8)
    # Symbol numbers, not rows or positions.
    assert answer([], steps[:4]) == answer([4], []) == answer([0, 4], steps[:2]) == Refusal(20, 4)
    assert answer([], steps[:6] + [Step(COPY, 5, 3)]) == answer([5], [Step(COPY, 5, 3)]) == Refusal(21, 5 * 64 + 1)
    assert answer([], [Step(COPY, 0, 2)] + steps[2:4] + steps[6:]) == Refusal(20, 4)
    assert answer([], steps, 8) == Refusal(22, 4)


def test_one_disk_of_edition_3() -> None:
    """Places are symbol numbers here too: P2's steps moved to disk 1, whose symbols are 2 and 3."""
    sheet, steps = sheet_of(SQUARE), [Step(COPY, 2, 0), Step(ADD, 2, 4), Step(COPY, 3, 1), Step(ADD, 3, 5)]
    assert check(sheet, [1], set_sheet(SQUARE, [1], steps)) == check(sheet, [1], plan_sheet(SQUARE, 1, steps)) == 4
    assert check(sheet, [1], set_sheet(SQUARE, [1], steps[:2])) == Refusal(20, 3)
    assert check(sheet, [1], plan_sheet(SQUARE, 1, steps[:2])) == Refusal(20, 1)
    assert check(sheet, [1], set_sheet(SQUARE, [1], steps[:3])) == Refusal(21, 3 * 64 + 1)
    assert check(sheet, [1], plan_sheet(SQUARE, 1, steps[:3])) == Refusal(21, 64 + 1)
    assert check(sheet, [1], set_sheet(SQUARE, [1], steps[2:], listed=[3])) == 2
    assert check(sheet, [0, 1], set_sheet(SQUARE, [1], steps)) == Refusal(16)


def test_many_disks() -> None:
    """All disks lost: only zero rows can be right, by clears. And the longest sheet, of 3,210 bytes."""
    zeros = Code(64, 1, 1, (0,) * 64)
    every, clears = list(range(64)), [Step(CLEAR, place, 0) for place in range(64)]
    assert check(sheet_of(zeros), every, set_sheet(zeros, every, clears)) == 0
    assert check(sheet_of(zeros), every, set_sheet(zeros, every, clears[:63])) == Refusal(20, 63)
    longest = set_sheet(zeros, every, clears * 16, listed=every)
    assert len(longest) == 3210 and check(sheet_of(zeros), every, longest) == 0
    assert check(sheet_of(zeros), every, longest + b"\0") == Refusal(12)
    assert check(sheet_of(zeros), every, set_sheet(zeros, every, clears * 16 + clears[:1], listed=every)) == Refusal(13)
    half = Code(2, 1, 1, (1, 0))
    assert check(sheet_of(half), [0, 1], set_sheet(half, [0, 1], clears[:2])) == Refusal(21, 0)
    assert check(sheet_of(half), [0, 1], set_sheet(half, [0, 1], clears[1:2], listed=[1])) == 0
    assert check(sheet_of(half), [0, 1], set_sheet(half, [0, 1], [Step(COPY, 1, 0)], listed=[1])) == Refusal(19, 0)
    four = Code(4, 1, 1, (1, 1, 1, 1))
    handed_on = [Step(COPY, 0, 2), Step(COPY, 1, 0), Step(COPY, 3, 1)]
    assert check(sheet_of(four), [0, 1, 3], set_sheet(four, [0, 1, 3], handed_on)) == 1


if __name__ == "__main__":
    test_worked_cases()
    test_liberation()
    test_limits()
    test_steps_onto_themselves()
    test_trials()
    test_lists()
    test_edition_2()
    test_asked_disks()
    test_edition_3()
    test_wanted_of_disks()
    test_one_disk_of_edition_3()
    test_many_disks()
    print("second program's checker: ok")
