"""The second program's planner: what planning may answer, for one disk or a set of disks, with a list of wanted symbols or without one,
worked out anew.

Which plan or which patterns are given is free, so it makes neither. It says how much of the wanted symbols is gone, by the echelon form of
the surviving rows, and judges what was given: a plan by running it on stripes, patterns by encoding their bytes.

    python3 tests/second_planner.py     runs its own test, on the worked cases of document 01 and on answers that are wrong; then it
                                        judges crates/planvectors/stdout, line by line, against the records of crates/planvectors/stdin.
                                        Lines of the fewest reads are left to second_fewest.py, and those of plans at prices to
                                        second_priced.py
"""
import sys
from collections import Counter
from functools import reduce
from itertools import chain, combinations, combinations_with_replacement
from operator import xor
from pathlib import Path
from random import Random
from typing import Callable, Iterable, NamedTuple, Optional, Sequence

from second import SQUARE, Code, Refusal, changed, encoding, evenodd, liberation, rank, read_code, row_diagonal, sheet_of, single_parity
from second_checker import ADD, CLEAR, COPY, P2, ROW_1, TWO_DISKS, Disks, Listed, Step, check, disks_in, disks_refusal, edition_of, listed_in
from second_checker import lost_places, plan_sheet, ruined, run, set_sheet, step_count, steps_of, wanted_refusal, wanted_symbols

CRATE = Path(__file__).resolve().parent.parent / "crates" / "planvectors"
BUFFER, LIST_BUFFER, SET_BUFFER = 3081, 3114, 3210
"""The bytes that a plan buffer has at least, for each edition."""

RANDOM = Random(3)


class Wish(NamedTuple):
    """What planning is asked for: a sheet of an edition, the lost disks, and the list of wanted symbols that it is given."""

    edition: int
    disks: Disks
    listed: Listed

    @property
    def buffer(self) -> int:
        return (BUFFER, LIST_BUFFER, SET_BUFFER)[self.edition - 1]

    @property
    def head(self) -> int:
        """The bytes of a sheet up to its first step."""
        disks = len(self.disks) if self.edition == 3 else 0
        return 9 if self.listed is None else 10 + disks + len(self.listed)

    def wanted(self, code: Code) -> Sequence[int]:
        return wanted_symbols(code, self.disks, self.listed)

    def lost(self, code: Code) -> list[int]:
        return lost_places(code, self.disks)


def for_disk(disk: int, listed: Listed = None) -> Wish:
    """Planning for one disk, with a list or without one."""
    return Wish(1 if listed is None else 2, [disk], listed)


def for_disks(disks: Disks, listed: Sequence[int] = b"") -> Wish:
    """Planning for a set of disks. The empty list wants all lost symbols."""
    return Wish(3, disks, listed)


def planning_refusal(sheet: bytes, wish: Wish, buffer_length: int) -> Optional[Refusal]:
    """The order: code sheet, 7, 24, 23, 34. One disk is never 24."""
    code = read_code(sheet)
    if isinstance(code, Refusal):
        return code
    refusal = disks_refusal(code, wish.disks) or wanted_refusal(code, wish.disks, wish.edition, wish.listed)
    if refusal:
        return refusal
    return Refusal(34) if buffer_length < wish.buffer else None


# Whether there is a plan, and if not how much is gone


def echelon_form(rows: Iterable[int], data_symbols: int) -> list[int]:
    """The rows reduced, column by column from the highest bit: each row left begins where every other has a zero."""
    rest, form = list(rows), []
    for column in reversed(range(data_symbols)):
        leading = next((row for row in rest if row >> column & 1), None)
        if leading is not None:
            rest.remove(leading)
            rest = [row ^ leading if row >> column & 1 else row for row in rest]
            form = [row ^ leading if row >> column & 1 else row for row in form] + [leading]
    return form


def surviving_rows(code: Code, wish: Wish) -> list[int]:
    lost = wish.lost(code)
    return [row for symbol, row in enumerate(code.rows) if symbol not in lost]


def wanted_rows(code: Code, wish: Wish) -> list[int]:
    return [code.rows[symbol] for symbol in wish.wanted(code)]


def how_much_is_gone(code: Code, wish: Wish) -> int:
    """By how much the wanted rows raise the rank of the surviving rows."""
    form = echelon_form(surviving_rows(code, wish), code.data_symbols)
    return len(echelon_form(form + wanted_rows(code, wish), code.data_symbols)) - len(form)


def can_be_rebuilt(code: Code, wish: Wish) -> bool:
    return how_much_is_gone(code, wish) == 0


# What was given

Fault = Optional[str]
"""What is wrong, in words, or nothing."""


def most_steps(code: Code, wish: Wish) -> int:
    """One for each lost symbol and survivor; if nothing survives, one for each wanted symbol."""
    lost = len(wish.lost(code))
    return lost * (code.symbols - lost) or len(wish.wanted(code))


def judge_plan(sheet: bytes, wish: Wish, plan: bytes, reads: int) -> Fault:
    """Whether planning may give a plan with this read count: it is accepted, has the edition, the disks and the list that were asked
    for, is short enough, and restores stripes of any length. If nothing survives it only clears."""
    accepted = check(sheet, wish.disks, plan)
    if accepted != reads:
        return f"a check answers {accepted}, not {reads} reads"
    if (edition_of(plan), disks_in(plan)) != (wish.edition, bytes(wish.disks)):
        return "another edition or other disks than asked for"
    if listed_in(plan) != (None if wish.listed is None else bytes(wish.listed)):
        return "another list than the one that was given"
    code = read_code(sheet)
    if step_count(plan) > most_steps(code, wish):
        return f"{step_count(plan)} steps, above {most_steps(code, wish)}"
    if len(wish.disks) == code.disks and any(step.kind != CLEAR for step in steps_of(plan)):
        return "nothing survives, and a step doesn't clear"
    for size in (1, 2, 5, 16, 33):
        stripe = encoding(code, size, random_bytes(code.data_symbols * size))
        for start in ruined(size, wish.wanted(code), stripe):
            if run(code, size, steps_of(plan), start) != stripe:
                return f"a stripe of symbols of {size} bytes is not restored"
    return None


def pattern_stripe(code: Code, size: int, pattern: int) -> bytes:
    """The stripe of the data in which symbol t is 01 bytes where bit t is set, and zero elsewhere."""
    return encoding(code, size, b"".join(bytes([pattern >> t & 1]) * size for t in range(code.data_symbols)))


def judge_pattern(sheet: bytes, wish: Wish, pattern: int) -> Fault:
    """Whether a pattern is a good one: its stripe is zero on all survivors and not in all wanted symbols, at any symbol length."""
    code = read_code(sheet)
    if not 0 < pattern < 2**code.data_symbols:
        return f"pattern {pattern} is 0 or has a bit at K or above"
    for size in (1, 3, 8):
        stripe = pattern_stripe(code, size, pattern)
        symbols = [any(stripe[at : at + size]) for at in range(0, len(stripe), size)]
        lost = wish.lost(code)
        if any(symbol for number, symbol in enumerate(symbols) if number not in lost):
            return f"the stripe of pattern {pattern} is not zero on a survivor"
        if not any(symbols[number] for number in wish.wanted(code)):
            return f"the stripe of pattern {pattern} is zero in the wanted symbols"
    return None


def image(code: Code, wish: Wish, pattern: int) -> int:
    """What a pattern's stripe, for symbols of one bit, shows on the wanted symbols."""
    stripe = pattern_stripe(code, 1, pattern)
    return int.from_bytes(bytes(stripe[symbol] for symbol in wish.wanted(code)), "little")


def judge_patterns(sheet: bytes, wish: Wish, patterns: Sequence[int]) -> Fault:
    """Whether patterns say what is gone: as many as are gone, each a good one, and their images independent."""
    code = read_code(sheet)
    gone = how_much_is_gone(code, wish)
    if len(patterns) != gone:
        return f"{len(patterns)} patterns, and {gone} is gone"
    fault = next(filter(None, (judge_pattern(sheet, wish, pattern) for pattern in patterns)), None)
    if fault is None and rank([image(code, wish, pattern) for pattern in patterns]) < gone:
        return "the images of the patterns on the wanted symbols are not independent"
    return fault


def random_bytes(length: int) -> bytes:
    return bytes(RANDOM.randrange(256) for _ in range(length))


# Records


class Asked(NamedTuple):
    """A record: a code sheet, a buffer, some disks, one after the other, and perhaps a list of wanted symbols; or a set of disks, asked about
    at once, and a list that may be empty, for planning, for the fewest reads, or, with the bytes that tell the disks' states, for planning at
    prices. crates/planvectors/src/main.rt describes its bytes."""

    sheet: bytes
    disk: int
    count: int = 1
    buffer_length: int = BUFFER
    seed: int = 0
    shown: bool = False
    listed: Optional[bytes] = None
    disks: Optional[bytes] = None
    fewest: bool = False
    told: Optional[bytes] = None

    @property
    def wish(self) -> Wish:
        return for_disk(self.disk, self.listed) if self.disks is None else for_disks(self.disks, self.listed or b"")

    @property
    def kind(self) -> int:
        return 4 if self.told is not None else 3 if self.fewest else self.wish.edition - 1

    def record(self) -> bytes:
        numbers = bytes([self.shown, self.seed]) + self.buffer_length.to_bytes(2, "little") + bytes([self.count])
        first = self.disk if self.disks is None else len(self.disks)
        listed = self.listed or b""
        section = bytes([self.kind]) + len(listed).to_bytes(2, "little") + listed
        body = numbers + first.to_bytes(8, "little") + section + (self.disks or b"") + (self.told or b"") + self.sheet
        return len(body).to_bytes(2, "little") + body

    def each(self) -> list["Asked"]:
        """A question for each disk, or the one about a set."""
        if self.disks is not None:
            return [self]
        return [self._replace(disk=self.disk + turn, count=1) for turn in range(self.count)]


def records_in(given: bytes) -> list[Asked]:
    found = []
    while given:
        length = int.from_bytes(given[:2], "little")
        body, given = given[2 : 2 + length], given[2 + length :]
        first, buffer_length = int.from_bytes(body[5:13], "little"), int.from_bytes(body[2:4], "little")
        behind = 16 + int.from_bytes(body[14:16], "little")
        listed, rest = body[16:behind] if body[13] > 0 else None, body[behind:]
        asked = Asked(rest, first, body[4], buffer_length, body[1], body[0] == 1, listed)
        of_set = asked._replace(sheet=rest[first:], disk=0, disks=rest[:first], fewest=body[13] == 3)
        if body[13] == 4:
            told = rest[first : first + 1 + 17 * rest[first]]
            of_set = of_set._replace(sheet=of_set.sheet[len(told) :], told=told)
        found.append(of_set if body[13] >= 2 else asked)
    return found


# Lines


def judge_line(asked: Asked, line: str) -> Fault:
    """Whether a line may stand for a question."""
    words = line.split(" ")
    refusal = planning_refusal(asked.sheet, asked.wish, asked.buffer_length)
    if refusal is not None:
        expected = f"refused {refusal.number} at {refusal.place} same"
        return None if line == expected else f"not '{expected}'"
    if words[0] == "plan":
        return judge_plan_line(asked, words)
    if words[0] == "patterns":
        return judge_patterns_line(asked, words)
    return "neither a plan nor patterns"


def judge_plan_line(asked: Asked, words: list[str]) -> Fault:
    code, wish = read_code(asked.sheet), asked.wish
    if not can_be_rebuilt(code, wish):
        return "a plan, though a wanted symbol can't be rebuilt"
    if len(words) != 6 + asked.shown or words[3:6] != ["accepted", "behind-same", "restored"]:
        return "not a plan that is accepted and restores"
    length, reads = int(words[1]), int(words[2])
    steps, rest = divmod(length - wish.head, 3)
    rows = wanted_rows(code, wish)
    if rest or not len(rows) <= steps <= most_steps(code, wish):
        return f"a sheet of {length} bytes"
    if not rank(rows) <= reads <= min(steps, len(surviving_rows(code, wish))):
        return f"{reads} reads in {steps} steps"
    if not asked.shown:
        return None
    plan = bytes.fromhex(words[6])
    if len(plan) != length:
        return f"{len(plan)} bytes shown, not {length}"
    return judge_plan(asked.sheet, wish, plan, reads)


def judge_patterns_line(asked: Asked, words: list[str]) -> Fault:
    if can_be_rebuilt(read_code(asked.sheet), asked.wish):
        return "patterns, though all wanted symbols can be rebuilt"
    numbers = [int(word) for word in words[1:-2]]
    if numbers[:1] != [len(numbers) - 1] or words[-2:] != ["same", "good"]:
        return "not so many good patterns and nothing written"
    return judge_patterns(asked.sheet, asked.wish, numbers[1:])


def judge_lines(questions: list[Asked], lines: list[str], judge: Callable[[Asked, str], Fault] = judge_line) -> list[str]:
    """What is wrong, a sentence for each line."""
    faults = [] if len(questions) == len(lines) else [f"{len(lines)} lines for {len(questions)} questions"]
    for number, (asked, line) in enumerate(zip(questions, lines), start=1):
        fault = judge(asked, line)
        if fault is not None:
            faults.append(f"line {number}: {line}: {fault}")
    return faults


def printed() -> tuple[list[Asked], list[str]]:
    """The questions of crates/planvectors, and the lines that the program printed."""
    questions = [one for asked in records_in((CRATE / "stdin").read_bytes()) for one in asked.each()]
    return questions, (CRATE / "stdout").read_text().splitlines()


def let_stand(questions: list[Asked], lines: list[str], judge: Callable[[Asked, str], Fault]) -> None:
    """Ends the program where a line may not stand."""
    faults = judge_lines(questions, lines, judge)
    for fault in faults[:20]:
        print(fault)
    if faults:
        sys.exit(f"crates/planvectors/stdout may not stand: {len(faults)} faults")


# The program's own test

SQUARE_SHEET = sheet_of(SQUARE)
P8, P9 = Code(2, 1, 2, (1, 2)), Code(2, 1, 1, (0, 1))
HALF = Code(2, 2, 2, (1, 2, 0, 2))
"""Of disk 0, row 1 can be rebuilt and row 0 can't."""

LOST = Code(2, 2, 2, (1, 2, 0, 0))
"""Of disk 0, no row can be rebuilt."""


def test_refusals() -> None:
    assert planning_refusal(SQUARE_SHEET, for_disk(3), 3081) is None
    assert planning_refusal(SQUARE_SHEET, for_disk(3), 3080) == planning_refusal(sheet_of(P8), for_disk(0), 0) == Refusal(34)
    assert planning_refusal(SQUARE_SHEET, for_disk(4), 0) == planning_refusal(SQUARE_SHEET, for_disk(2**64 - 1), 3081) == Refusal(7)
    assert planning_refusal(SQUARE_SHEET[:69], for_disk(4), 0) == Refusal(1)
    assert planning_refusal(changed(SQUARE_SHEET, 22, 16), for_disk(4), 0) == Refusal(6, 2 * 64 + 4)
    assert planning_refusal(SQUARE_SHEET, for_disk(3, b"\6\7"), 3114) is None
    assert planning_refusal(SQUARE_SHEET, for_disk(3, b"\7"), 3113) == Refusal(34)
    for listed, place in [(b"", 0), (b"\6\7\7", 0), (bytes(256), 0), (b"\5", 0), (b"\10", 0), (b"\7\7", 1), (b"\7\6", 1)]:
        assert planning_refusal(SQUARE_SHEET, for_disk(3, listed), 0) == Refusal(23, place)
    assert planning_refusal(SQUARE_SHEET, for_disk(4, b""), 0) == Refusal(7) and planning_refusal(b"", for_disk(4, b""), 0) == Refusal(1)


def test_refusals_of_sets() -> None:
    """7 before 24, 24 before 23, 23 before 34; lists of any length, and one buffer for every plan."""
    good, square = for_disks([0, 2]), SQUARE_SHEET
    assert planning_refusal(square, good, 3210) is None and planning_refusal(square, good, 3209) == Refusal(34)
    assert planning_refusal(sheet_of(P9), for_disks([0, 1], [0]), 3209) == Refusal(34)
    assert planning_refusal(square[:69], for_disks([4], [2]), 0) == Refusal(1)
    for disks in ([4], [0, 4], [4, 0], [0] * 256 + [255]):
        assert planning_refusal(square, for_disks(disks, [2]), 0) == Refusal(7)
    for asked, place in [([], 0), ([0] * 5, 0), ([0] * 256, 0), ([0, 0], 1), ([2, 0], 1), ([0, 2, 1], 2)]:
        assert planning_refusal(square, for_disks(asked, [2]), 0) == Refusal(24, place)
    for listed, place in [([2], 0), ([8], 0), ([0, 1, 4, 5, 5], 0), ([0] * 300, 0), ([0, 3], 1), ([4, 4], 1), ([0, 4, 1], 2)]:
        assert planning_refusal(square, for_disks([0, 2], listed), 0) == Refusal(23, place)
    for listed in ([], [0], [5], [1, 4], [0, 1, 4, 5]):
        assert planning_refusal(square, for_disks([0, 2], listed), 3210) is None


def has_good_pattern(code: Code, wish: Wish) -> bool:
    """By trying every pattern."""
    sheet = sheet_of(code)
    return any(judge_pattern(sheet, wish, pattern) is None for pattern in range(2**code.data_symbols))


def good_patterns(code: Code, wish: Wish) -> list[int]:
    """By trying every pattern: each that shows what none before it does."""
    sheet, found = sheet_of(code), []
    for pattern in range(2**code.data_symbols):
        images = [image(code, wish, known) for known in found + [pattern]]
        if judge_pattern(sheet, wish, pattern) is None and rank(images) > len(found):
            found.append(pattern)
    return found


def tell_by_trying(code: Code, wish: Wish, patterns: Sequence[int]) -> bool:
    """The law word for word, for symbols of one bit: the stripes of the patterns are zero on every survivor, and every two valid stripes that
    agree on the survivors differ on the wanted symbols by the XOR of the images of exactly one subset of the patterns."""
    everything = range(2**code.data_symbols)
    stripes = [int.from_bytes(pattern_stripe(code, 1, data), "little") for data in everything]
    survivors = sum(255 << 8 * symbol for symbol in range(code.symbols) if symbol not in wish.lost(code))
    wanted = sum(255 << 8 * symbol for symbol in wish.wanted(code))
    if any(pattern not in everything or stripes[pattern] & survivors for pattern in patterns):
        return False
    subsets = chain.from_iterable(combinations(patterns, size) for size in range(len(patterns) + 1))
    sums = Counter(reduce(xor, (stripes[pattern] for pattern in subset), 0) & wanted for subset in subsets)
    differences = (one ^ other for one, other in combinations_with_replacement(stripes, 2))
    return all(sums[difference & wanted] == 1 for difference in differences if not difference & survivors)


def test_how_much_is_gone() -> None:
    """Cases that can be told by hand; then small codes, by ranks and by trying all data."""
    by_hand = [(P8, for_disk(0), 1), (P9, for_disk(0), 0), (P9, for_disk(1), 1), (P9, for_disks([0, 1]), 1), (P9, for_disks([0, 1], [0]), 0)]
    by_hand += [(HALF, for_disk(0, listed), gone) for listed, gone in (([0], 1), ([1], 0), ([0, 1], 1), (None, 1))]
    by_hand += [(LOST, for_disk(0, listed), gone) for listed, gone in (([0], 1), ([1], 1), ([0, 1], 2), (None, 2))]
    by_hand += [(SQUARE, for_disks(disks), gone) for disks, gone in (([0, 2], 0), ([0, 1], 1), ([0, 1, 2], 2), ([0, 1, 2, 3], 4))]
    by_hand += [(SQUARE, for_disks([0, 1], listed), 1) for listed in ([0], [3], [1, 3], [0, 1, 2])]
    by_hand += [(liberation(3, 3), for_disks([0, 1, 2]), 3), (liberation(3, 3), for_disks(range(5)), 9), (evenodd(5), for_disks([0, 1, 2]), 4)]
    for code, wish, gone in by_hand:
        assert how_much_is_gone(code, wish) == gone, (code, wish)
    found: Counter[int] = Counter()
    for _ in range(150):
        disks, height, data_symbols = RANDOM.randrange(2, 5), RANDOM.randrange(1, 3), RANDOM.randrange(1, 6)
        code = Code(disks, height, data_symbols, tuple(RANDOM.randrange(2**data_symbols) for _ in range(disks * height)))
        wish = for_disks(sorted(RANDOM.sample(range(disks), RANDOM.randrange(1, disks + 1))))
        some = sorted(RANDOM.sample(wish.lost(code), RANDOM.randrange(1, len(wish.lost(code)) + 1)))
        for asked in (wish, wish._replace(listed=some)):
            patterns = good_patterns(code, asked)
            assert len(patterns) == how_much_is_gone(code, asked) <= len(asked.wanted(code))
            assert judge_patterns(sheet_of(code), asked, patterns) is None and tell_by_trying(code, asked, patterns)
            assert judge_patterns(sheet_of(code), asked, patterns[1:]) is not None or not patterns
            found[len(patterns)] += 1
    assert all(found[gone] > 5 for gone in range(5))


def test_wrong_patterns() -> None:
    """Two lost data disks of single parity, symbols 0 to 3: data symbols 0 and 2 could be others, and 1 and 3. Each answer behind the right
    ones has one thing wrong, and trying all data finds it too."""
    code, row_0, row_1 = single_parity(3, 2), 0b0101, 0b1010
    every, both, alone = for_disks([0, 1]), for_disks([0, 1], [0, 2]), for_disks([0, 1], [0])
    right = [(every, [row_0, row_1]), (every, [row_0 ^ row_1, row_1]), (both, [row_0]), (both, [row_0 ^ row_1]), (alone, [row_0])]
    right += [(for_disks([0]), []), (for_disks([0], [1]), [])]
    wrong = [
        ("one short", every, [row_0]),
        ("none, though there is no plan", every, []),
        ("one, though there is a plan", for_disks([0]), [row_0]),
        ("one too many", every, [row_0, row_1, row_0 ^ row_1]),
        ("a pattern twice", every, [row_0, row_0]),
        ("independent on the lost symbols, not on the wanted ones", both, [row_0, row_0 ^ row_1]),
        ("shows on a survivor", every, [row_0, row_1 ^ 0b10000]),
        ("the first shows on a survivor", every, [row_0 ^ 0b10000, row_1]),
        ("the first shows on no wanted symbol", both, [row_1]),
        ("the first shows on no wanted symbol, and there is one too many", both, [row_1, row_0]),
        ("empty", every, [0, row_1]),
        ("a bit at K", every, [row_0, row_1 | 1 << code.data_symbols]),
    ]
    for wish, patterns in right:
        assert judge_patterns(sheet_of(code), wish, patterns) is None and tell_by_trying(code, wish, patterns), patterns
    for why, wish, patterns in wrong:
        assert judge_patterns(sheet_of(code), wish, patterns) is not None, why
        assert not tell_by_trying(code, wish, patterns), why
    # of the right number each, so that it is the images that are looked at
    same_images = Code(2, 2, 4, (1, 2, 4, 4))
    assert judge_patterns(sheet_of(same_images), for_disk(0), [1, 2 | 8]) is None
    assert judge_patterns(sheet_of(same_images), for_disk(0), [1, 1 | 8]) == "the images of the patterns on the wanted symbols are not independent"


def test_echelon_form() -> None:
    assert echelon_form([5, 3, 6, 0, 5], 3) == [5, 3]
    assert not can_be_rebuilt(P8, for_disk(0)) and can_be_rebuilt(P9, for_disk(0)) and not can_be_rebuilt(P9, for_disk(1))
    for code in (SQUARE, liberation(5, 5), liberation(7, 4), row_diagonal(7)):
        assert all(can_be_rebuilt(code, for_disk(disk)) for disk in range(code.disks))
    unequal = liberation(5, 5)._replace(rows=liberation(5, 5).rows[:25] + (0,) * 5 + liberation(5, 5).rows[30:])
    assert [can_be_rebuilt(unequal, for_disk(disk)) for disk in range(7)] == [True] * 7
    answers = Counter()
    for _ in range(150):
        disks, height, data_symbols = RANDOM.randrange(2, 5), RANDOM.randrange(1, 3), RANDOM.randrange(1, 6)
        rows = tuple(RANDOM.randrange(2**data_symbols) for _ in range(disks * height))
        code, disk = Code(disks, height, data_symbols, rows), RANDOM.randrange(disks)
        form = echelon_form(rows, data_symbols)
        assert len(form) == rank(list(rows)) and rank(list(rows) + form) == len(form)
        answers[can_be_rebuilt(code, for_disk(disk))] += 1
        assert can_be_rebuilt(code, for_disk(disk)) != has_good_pattern(code, for_disk(disk))
        some = sorted(RANDOM.sample(range(disks), RANDOM.randrange(1, disks + 1)))
        for wish in (for_disk(disk), for_disks(some)):
            parts = [wish._replace(listed=[place]) for place in wish.lost(code)]
            assert [can_be_rebuilt(code, part) for part in parts] == [not has_good_pattern(code, part) for part in parts]
            assert can_be_rebuilt(code, wish) == all(can_be_rebuilt(code, part) for part in parts) != has_good_pattern(code, wish)
    assert min(answers.values()) > 30
    assert [can_be_rebuilt(HALF, for_disk(0, listed)) for listed in ([0], [1], [0, 1], None)] == [False, True, False, False]


def test_two_losses() -> None:
    """The square code stands every two losses but that of both data disks; the families of two parities stand every two."""
    pairs = [pair for pair in combinations(range(4), 2) if not can_be_rebuilt(SQUARE, for_disks(pair))]
    assert pairs == [(0, 1)] and not can_be_rebuilt(SQUARE, for_disks([0, 2, 3]))
    assert not can_be_rebuilt(P9, for_disks([0, 1])) and can_be_rebuilt(P9, for_disks([0, 1], [0]))
    by_prime = [family(p) for family in (row_diagonal, evenodd) for p in (3, 5, 7)]
    for code in [liberation(w, k) for w in (3, 5, 7) for k in range(2, w + 1)] + by_prime:
        assert all(can_be_rebuilt(code, for_disks(pair)) for pair in combinations(range(code.disks), 2))
        assert not can_be_rebuilt(code, for_disks([0, 1, code.disks - 1]))


def test_plans() -> None:
    """P2 is right as it stands. Each plan behind it has one thing wrong."""
    steps = steps_of(P2)
    assert judge_plan(SQUARE_SHEET, for_disk(0), P2, 3) is None
    assert judge_plan(sheet_of(P9), for_disk(0), plan_sheet(P9, 0, [Step(CLEAR, 0, 0)]), 0) is None
    longest = [Step(CLEAR, 0, 0)] * 8 + steps
    assert judge_plan(SQUARE_SHEET, for_disk(0), plan_sheet(SQUARE, 0, longest), 3) is None
    wrong = [
        ("wrong source", changed(P2, 20, 6), 3),
        ("read count of the answer", P2, 4),
        ("read count of the sheet", changed(P2, 6, 4), 4),
        ("too many steps", plan_sheet(SQUARE, 0, [Step(CLEAR, 0, 0)] + longest), 3),
        ("a step onto itself", plan_sheet(SQUARE, 0, steps + [Step(COPY, 0, 0)]), 3),
        ("no steps", plan_sheet(SQUARE, 0, []), 0),
        ("another disk", changed(P2, 5, 1), 3),
        ("a place taken as zero", plan_sheet(SQUARE, 0, [step._replace(kind=ADD) for step in steps]), 3),
        ("a byte short", P2[:-1], 3),
        ("a byte more", P2 + b"\0", 3),
    ]
    for why, plan, reads in wrong:
        assert judge_plan(SQUARE_SHEET, for_disk(0), plan, reads) is not None, why
    cached = plan_sheet(SQUARE, 0, [Step(COPY, 0, 6), Step(ADD, 0, 3)] + steps[2:])
    assert judge_plan(sheet_of(row_diagonal(3)), for_disk(0), cached, 4) is not None, "right for another code"


def test_plans_with_lists() -> None:
    """Row 1 of the square code's disk 0, and the whole disk as a list."""
    steps = steps_of(P2)
    assert judge_plan(SQUARE_SHEET, for_disk(0, [1]), ROW_1, 2) is None
    assert judge_plan(SQUARE_SHEET, for_disk(0, b"\0\1"), plan_sheet(SQUARE, 0, steps, listed=[0, 1]), 3) is None
    assert judge_plan(sheet_of(HALF), for_disk(0, [1]), plan_sheet(HALF, 0, [Step(COPY, 1, 3)], listed=[1]), 1) is None
    wrong = [
        ("a list, though none was given", plan_sheet(SQUARE, 0, steps, listed=[0, 1]), 3, None),
        ("no list, though one was given", P2, 3, [0, 1]),
        ("more than the list", plan_sheet(SQUARE, 0, steps, listed=[0, 1]), 3, [1]),
        ("less than the list", ROW_1, 2, [0, 1]),
        ("another list", ROW_1, 2, [0]),
        ("too many steps", plan_sheet(SQUARE, 0, [Step(CLEAR, 1, 0)] * 11 + steps[2:], listed=[1]), 2, [1]),
    ]
    for why, plan, reads, listed in wrong:
        assert judge_plan(SQUARE_SHEET, for_disk(0, listed), plan, reads) is not None, why


def test_plans_of_sets() -> None:
    """The square code without disks 0 and 2, and an array that is lost whole."""
    steps = steps_of(TWO_DISKS)
    part = set_sheet(SQUARE, [0, 2], steps[:2] + steps[4:6], listed=[0, 4])
    full = set_sheet(SQUARE, [0, 2], steps, listed=[0, 1, 4, 5])
    one = set_sheet(SQUARE, [0], steps_of(P2))
    longest = set_sheet(SQUARE, [0, 2], [Step(CLEAR, 0, 0)] * 8 + steps)
    right = [([0, 2], [], TWO_DISKS, 4), ([0, 2], [0, 4], part, 3), ([0, 2], [0, 1, 4, 5], full, 4), ([0], [], one, 3), ([0, 2], [], longest, 4)]
    for disks, listed, plan, reads in right:
        assert judge_plan(SQUARE_SHEET, for_disks(disks, listed), plan, reads) is None
    wrong = [
        ("all listed, though no list was given", [0, 2], [], full, 4),
        ("no list, though one was given", [0, 2], [0, 1, 4, 5], TWO_DISKS, 4),
        ("another list", [0, 2], [0, 5], part, 3),
        ("another set", [0, 3], [], TWO_DISKS, 4),
        ("edition 1", [0], [], P2, 3),
        ("edition 2", [0], [1], ROW_1, 2),
        ("read count of the answer", [0, 2], [], TWO_DISKS, 5),
        ("a wrong source", [0, 2], [], changed(TWO_DISKS, 14, 7), 4),
        ("too many steps", [0, 2], [], set_sheet(SQUARE, [0, 2], [Step(CLEAR, 0, 0)] * 9 + steps), 4),
    ]
    for why, disks, listed, plan, reads in wrong:
        assert judge_plan(SQUARE_SHEET, for_disks(disks, listed), plan, reads) is not None, why
    assert judge_plan(SQUARE_SHEET, for_disk(0), one, 3) is not None, "edition 3, though one disk was asked about"
    nothing = Code(2, 1, 1, (0, 0))
    clears = [Step(CLEAR, 0, 0), Step(CLEAR, 1, 0)]
    for tried, fine in [(clears, True), (clears[::-1], True), ([clears[0], Step(COPY, 1, 0)], False), (clears + clears[:1], False)]:
        fault = judge_plan(sheet_of(nothing), for_disks([0, 1]), set_sheet(nothing, [0, 1], tried), 0)
        assert (fault is None) == fine, tried


def test_patterns() -> None:
    sheet = sheet_of(P8)
    assert judge_pattern(sheet, for_disk(0), 1) is None and judge_pattern(sheet, for_disk(1), 2) is None
    wide = Code(3, 1, 64, (2**63, 2**62 + 1, 2**62))
    assert judge_pattern(sheet_of(wide), for_disk(0), 2**63) is None and judge_pattern(sheet_of(wide), for_disk(1), 1) is None
    wrong = [
        ("0", sheet, 0, 0),
        ("a bit at K", sheet, 0, 5),
        ("a bit at K alone", sheet, 0, 4),
        ("odd on a survivor", sheet, 0, 3),
        ("zero on the lost disk", sheet_of(wide), 0, 2),
    ]
    for why, code_sheet, disk, pattern in wrong:
        assert judge_pattern(code_sheet, for_disk(disk), pattern) is not None, why
    assert all(judge_pattern(SQUARE_SHEET, for_disk(0), pattern) is not None for pattern in range(17)), "a disk that can be rebuilt"
    assert judge_pattern(sheet_of(LOST), for_disk(0, [0]), 1) is None and judge_pattern(sheet_of(LOST), for_disk(0, [0]), 2) is not None
    assert all(judge_pattern(sheet_of(LOST), for_disk(0, listed), pattern) is None for pattern in (1, 2, 3) for listed in ([0, 1], None))


def test_lines() -> None:
    square = Asked(SQUARE_SHEET, 0, shown=True)
    unsolvable = Asked(sheet_of(P8), 0)
    right = f"plan 21 3 accepted behind-same restored {P2.hex()}"
    assert judge_line(square, right) is None
    assert judge_line(square._replace(shown=False), right[: -len(P2.hex()) - 1]) is None
    assert judge_line(unsolvable, "patterns 1 1 same good") is None
    assert judge_line(unsolvable._replace(buffer_length=3080), "refused 34 at 0 same") is None
    wrong = [
        (square, right.replace("21 3", "21 4")),
        (square, right.replace("21 3", "24 3")),
        (square, right.replace("restored", "not-restored")),
        (square, right.replace("behind-same", "behind-changed")),
        (square, right.replace("accepted", "not-accepted")),
        (square, right[: -len(P2.hex()) - 1]),
        (square, right[:-1] + "6"),
        (square._replace(shown=False), "plan 22 3 accepted behind-same restored"),
        (square._replace(shown=False), "plan 48 3 accepted behind-same restored"),
        (square._replace(shown=False), "plan 21 1 accepted behind-same restored"),
        (square._replace(shown=False), "plan 21 5 accepted behind-same restored"),
        (square, "patterns 1 1 same good"),
        (square, "refused 34 at 0 same"),
        (square._replace(buffer_length=0), right),
        (square._replace(disk=4), "refused 34 at 0 same"),
        (square._replace(disk=4), "refused 7 at 0 changed"),
        (unsolvable, "plan 12 1 accepted behind-same restored"),
        (unsolvable, "patterns 1 2 same good"),
        (unsolvable, "patterns 1 1 not-same good"),
        (unsolvable, "patterns 1 1 same not-good"),
        (unsolvable, "patterns 0 same good"),
        (unsolvable, "patterns 1 same good"),
        (unsolvable, "patterns 2 1 same good"),
        (unsolvable, "patterns 1 1 1 same good"),
        (unsolvable, "patterns 2 1 1 same good"),
        (unsolvable, "pattern 1 same good"),
        (square, "patterns 0 same good"),
        (unsolvable, "patterns"),
        (unsolvable, ""),
    ]
    for asked, line in wrong:
        assert judge_line(asked, line) is not None, line
    assert judge_lines([unsolvable], []) and not judge_lines([unsolvable], ["patterns 1 1 same good"])
    assert judge_lines([unsolvable] * 2, ["patterns 1 1 same good", ""]) == ["line 2: : neither a plan nor patterns"]


def test_lines_with_lists() -> None:
    row_1 = Asked(SQUARE_SHEET, 0, buffer_length=LIST_BUFFER, shown=True, listed=b"\1")
    half = Asked(sheet_of(HALF), 0, buffer_length=LIST_BUFFER, listed=b"\1")
    right = f"plan 17 2 accepted behind-same restored {ROW_1.hex()}"
    assert judge_line(row_1, right) is None
    assert judge_line(row_1._replace(buffer_length=LIST_BUFFER - 1), "refused 34 at 0 same") is None
    assert judge_line(row_1._replace(listed=b"\1\0", buffer_length=0), "refused 23 at 1 same") is None
    assert judge_line(half, "plan 14 1 accepted behind-same restored") is None
    assert judge_line(half._replace(listed=None), "patterns 1 1 same good") is None
    assert judge_line(half._replace(listed=b"\0\1"), "patterns 1 1 same good") is None
    wrong = [
        (row_1._replace(listed=None), right),
        (row_1._replace(listed=b"\0"), right),
        (row_1._replace(shown=False), "plan 15 2 accepted behind-same restored"),
        (row_1._replace(shown=False), "plan 13 1 accepted behind-same restored"),
        (row_1._replace(buffer_length=BUFFER), right),
        (row_1._replace(listed=b""), right),
        (row_1._replace(listed=b"\1\0"), "refused 23 at 0 same"),
        (half._replace(listed=b"\0\1"), "plan 21 2 accepted behind-same restored"),
        (half._replace(listed=b"\0\1"), "patterns 1 2 same good"),
        (half, "patterns 1 1 same good"),
    ]
    for asked, line in wrong:
        assert judge_line(asked, line) is not None, line


def test_patterns_of_sets() -> None:
    """The square code's rows 5, 10, 9 and 6 have an even overlap with 15 alone; a pattern may be odd on every lost disk."""
    both = for_disks([0, 1])
    assert [pattern for pattern in range(16) if judge_pattern(SQUARE_SHEET, both, pattern) is None] == [15]
    assert all(judge_pattern(SQUARE_SHEET, for_disks([0, 2]), pattern) is not None for pattern in range(16))
    every = for_disks([0, 1, 2, 3])
    assert [pattern for pattern in range(18) if judge_pattern(SQUARE_SHEET, every, pattern) is None] == list(range(1, 16))
    assert judge_pattern(sheet_of(P9), for_disks([0, 1]), 1) is None
    assert judge_pattern(sheet_of(P9), for_disks([0, 1], [0]), 1) is not None, "zero in the wanted symbol"
    assert judge_pattern(SQUARE_SHEET, for_disk(0), 15) is not None, "odd on a survivor"


def test_lines_of_sets() -> None:
    pair = Asked(SQUARE_SHEET, 0, buffer_length=SET_BUFFER, shown=True, listed=b"", disks=b"\0\2")
    right = f"plan 36 4 accepted behind-same restored {TWO_DISKS.hex()}"
    assert judge_line(pair, right) is None
    assert judge_line(pair._replace(shown=False, listed=b"\0\4"), "plan 26 3 accepted behind-same restored") is None
    assert judge_line(pair._replace(disks=b"\0\1"), "patterns 1 15 same good") is None
    every = pair._replace(disks=bytes(range(4)))
    assert judge_line(every, "patterns 4 1 2 4 8 same good") is None and judge_line(every, "patterns 4 15 7 3 1 same good") is None
    assert judge_line(every._replace(listed=b"\0\1\4"), "patterns 3 1 2 4 same good") is None
    assert judge_line(pair._replace(disks=b"\2\0", buffer_length=0), "refused 24 at 1 same") is None
    assert judge_line(pair._replace(buffer_length=SET_BUFFER - 1), "refused 34 at 0 same") is None
    wrong = [
        (pair._replace(disks=b"\0\3"), right),
        (pair._replace(disks=None, listed=None), right),
        (pair._replace(listed=b"\0\1\4\5"), right),
        (pair._replace(disks=b"\0\1"), right),
        (pair._replace(disks=b"\0\4"), "refused 24 at 0 same"),
        (pair._replace(disks=b""), "refused 7 at 0 same"),
        (pair._replace(buffer_length=LIST_BUFFER), right),
        (pair._replace(shown=False), "plan 36 5 accepted behind-same restored"),
        (pair._replace(shown=False), "plan 63 4 accepted behind-same restored"),
        (pair._replace(shown=False), "plan 35 4 accepted behind-same restored"),
        (pair, "patterns 1 15 same good"),
        (pair._replace(disks=b"\0\1"), "patterns 1 7 same good"),
        (every, "patterns 3 1 2 4 same good"),
        (every, "patterns 4 1 2 4 4 same good"),
        (every, "patterns 4 1 2 4 7 same good"),
        (every, "patterns 5 1 2 4 8 15 same good"),
        (every._replace(listed=b"\0\1\4"), "patterns 3 1 2 8 same good"),
    ]
    for asked, line in wrong:
        assert judge_line(asked, line) is not None, line


def test_records() -> None:
    large = Asked(SQUARE_SHEET, 2**64 - 1, 1, 258, 255, True)
    asked = [large, Asked(sheet_of(P8), 0, 2), large._replace(listed=b""), large._replace(listed=bytes(300))]
    of_sets = [Asked(SQUARE_SHEET, 0, listed=listed, disks=disks) for listed in (b"", b"\1", bytes(300)) for disks in (b"", b"\0\2", bytes(300))]
    of_sets += [one._replace(fewest=True) for one in of_sets] + [one._replace(told=told) for told in (b"\0", b"\2" + bytes(34)) for one in of_sets]
    assert records_in(b"".join(one.record() for one in asked + of_sets)) == asked + of_sets
    assert [one.disk for one in asked[1].each()] == [0, 1]
    assert all(one.each() == [one] for one in of_sets)
    assert of_sets[4].record()[6:22] == bytes([1, 2, 0, 0, 0, 0, 0, 0, 0, 2, 1, 0, 1, 0, 2, 4])
    assert of_sets[13].record()[6:22] == bytes([1, 2, 0, 0, 0, 0, 0, 0, 0, 3, 1, 0, 1, 0, 2, 4])
    assert of_sets[31].record()[15:59] == bytes([4, 1, 0, 1, 0, 2, 2]) + bytes(34) + SQUARE_SHEET[:3]


def judge_program() -> None:
    """What the program crates/planvectors printed of planning."""
    every, all_lines = printed()
    let_stand(every, all_lines, lambda asked, line: None if asked.kind > 2 else judge_line(asked, line))
    questions = [asked for asked in every if asked.kind <= 2]
    lines = [line for asked, line in zip(every, all_lines) if asked.kind <= 2]
    kinds = Counter(line.split(" ")[0] for line in lines)
    shown = sum(asked.shown and line.startswith("plan") for asked, line in zip(questions, lines))
    counts = ", ".join(f"{kinds[kind]} {kind}" for kind in ("plan", "patterns", "refused"))
    gone = sorted({int(line.split(" ")[1]) for line in lines if line.startswith("patterns")})
    listed, sets = (sum(asked.wish.edition == edition for asked in questions) for edition in (2, 3))
    print(f"planning, as printed by crates/planvectors: {counts}, {listed} with a list, {sets} for sets, {shown} plans with their bytes,")
    print(f"where there is none {len(gone)} different numbers of patterns, {gone[0]} to {gone[-1]}: ok")


if __name__ == "__main__":
    test_refusals()
    test_refusals_of_sets()
    test_echelon_form()
    test_two_losses()
    test_plans()
    test_plans_with_lists()
    test_plans_of_sets()
    test_patterns()
    test_patterns_of_sets()
    test_how_much_is_gone()
    test_wrong_patterns()
    test_lines()
    test_lines_with_lists()
    test_lines_of_sets()
    test_records()
    print("second program's planner: ok")
    judge_program()
