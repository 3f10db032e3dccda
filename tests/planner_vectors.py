"""The records of planning: every family, codes of every shape that can and can't be rebuilt, lists of wanted symbols, sets of disks, every
refusal, codes of which more and more is gone, small arrays for the fewest reads, and disks at prices, away or in no state at all."""
import math
import struct
from collections import Counter
from itertools import combinations, permutations, product
from typing import Iterable, Optional

from arrays import SMALLEST, SPECIAL_CODES, below, chosen, low_rank_code, random_bytes, random_code, random_codes, random_row, shuffled
from plan_vectors import family_codes, planted_codes, some_disks
from edition3_vectors import ASKED_SETS, COPIES, EVERY, LONGER_SETS, ZEROS, all_sets, any_set
from plans import all_lists, planted_code, restorable, some_lists, torn_codes
from second import SQUARE, Code, changed, evenodd, liberation, row_diagonal, row_diagonal_before, sheet_of, single_parity
from second_checker import Disks, lost_places
from second_fewest import LISTED, NOTHING, families, sets_in_range, units
from second_planner import BUFFER, HALF, LIST_BUFFER, P8, P9, SET_BUFFER, Asked, for_disk, for_disks, most_steps
from second_priced import FACTORS, HIGHEST_FACTOR, HIGHEST_PRICE, INFINITY, NAN, NO_FACTORS, NO_PRICES, PRICES, State, States
from second_priced import SMALLEST as SMALLEST_PRICE
from second_priced import any_states, bits, counting, states_of, told_bytes

SHOWN_STEPS = 16
"""Plans are shown where no plan has more steps."""

HUGE_DISKS = (255, 256, 2**32, 2**61, 2**63, 2**64 - 1)


class Questions:
    """The records, with the number of questions of each kind."""

    def __init__(self) -> None:
        self.records: list[Asked] = []
        self.kinds: Counter[str] = Counter()

    def add(self, kind: str, sheet: bytes, disk: int, **more: int) -> None:
        asked = Asked(sheet, disk, **{"seed": 37 * len(self.records) % 256, **more})
        self.records.append(asked)
        self.kinds[kind] += asked.count

    def add_code(self, kind: str, code: Code, disks: Optional[list[int]] = None, **more: int) -> None:
        """About some disks one by one, or about each in one record."""
        more = {"shown": most_steps(code, for_disk(0)) <= SHOWN_STEPS, **more}
        if disks is None:
            self.add(kind, sheet_of(code), 0, count=code.disks, **more)
        for disk in disks or []:
            self.add(kind, sheet_of(code), disk, **more)

    def add_list(self, kind: str, sheet: bytes, disk: int, listed: Iterable[int], **more: int) -> None:
        self.add(kind, sheet, disk, **{"buffer_length": LIST_BUFFER, "listed": bytes(listed), **more})

    def add_lists(self, kind: str, code: Code, disk: int, lists: Iterable[Iterable[int]], **more: int) -> None:
        for listed in lists:
            shown = most_steps(code, for_disk(disk, listed)) <= SHOWN_STEPS
            self.add_list(kind, sheet_of(code), disk, listed, **{"shown": shown, **more})

    def add_set(self, kind: str, sheet: bytes, disks: Disks, listed: Iterable[int] = (), **more: int) -> None:
        self.add(kind, sheet, 0, **{"buffer_length": SET_BUFFER, "listed": bytes(listed), "disks": bytes(disks), **more})

    def add_sets(self, kind: str, code: Code, sets: Iterable[Disks], listed: Iterable[int] = (), **more: int) -> None:
        for disks in sets:
            shown = most_steps(code, for_disks(disks)) <= SHOWN_STEPS
            self.add_set(kind, sheet_of(code), disks, listed, **{"shown": shown, **more})

    def add_fewest(self, kind: str, sheet: bytes, disks: Disks, listed: Iterable[int] = (), **more: int) -> None:
        self.add_set(f"fewest, {kind}", sheet, disks, listed, fewest=True, **more)

    def add_priced(self, kind: str, sheet: bytes, disks: Disks, states: States, listed: Iterable[int] = (), **more: int) -> None:
        """Plans are shown, whatever their length: their sum is that of what they read. A record has the first 64 states."""
        told = told_bytes(States(*(numbers[:64] for numbers in states)))
        self.add_set(f"prices, {kind}", sheet, disks, listed, shown=True, told=told, **more)


# Codes that can be rebuilt


def add_families(questions: Questions) -> None:
    """Every family at every parameter, with every disk. Of single parity with many low disks the first two or the last two do, but
    for the one that fills the array."""
    for k, r in [(k, r) for r in range(1, 33) for k in range(1, 64) if (k + 1) * r <= 64]:
        sheet, shown = sheet_of(single_parity(k, r)), r * r * k <= 6
        length = chosen([BUFFER, BUFFER, BUFFER + 1, 4096])
        some = r <= 2 and 12 < k and (k + 1) * r < 64
        disk, count = ((0, k - 1)[k % 2], 2) if some else (0, k + 1)
        questions.add("single parity", sheet, disk, count=count, buffer_length=length, shown=shown)
    for w in (3, 5, 7):
        for k in range(2, w + 1):
            questions.add_code("Liberation", liberation(w, k), shown=w == 3)
    for p in (3, 5, 7):
        questions.add_code("row-diagonal", row_diagonal(p))
        questions.add_code("EVENODD", evenodd(p))


def add_worked_cases(questions: Questions) -> None:
    for code in (SQUARE, P8, P9):
        for length in (BUFFER, BUFFER + 1, 4096):
            questions.add_code("worked cases", code, buffer_length=length)


def without(code: Code, places: list[int]) -> Code:
    """The code with some rows zero."""
    return code._replace(rows=tuple(0 if place in places else row for place, row in enumerate(code.rows)))


def add_second_parity(questions: Questions) -> None:
    """P is gone, whole or in part, or a copy of Q: Q can still do it for every data disk."""
    by_prime = [family(p) for family in (row_diagonal, evenodd) for p in (3, 5, 7)]
    for code in [liberation(3, 3), liberation(5, 4), liberation(7, 7)] + by_prime:
        first = code.symbols - 2 * code.height
        parity = list(range(first, first + code.height))
        questions.add_code("row parity can't", without(code, parity))
        questions.add_code("row parity can't", without(code, parity[: code.height // 2]))
        questions.add_code("row parity can't", without(code, parity[1::2] + [first + code.height]))
        questions.add_code("row parity can't", code._replace(rows=code.rows[:first] + 2 * code.rows[first + code.height :]))


# Codes that can or can't


def add_other_codes(questions: Questions) -> None:
    for code in SPECIAL_CODES + random_codes():
        questions.add_code("other codes", code, None if code.disks <= 9 else some_disks(code))
    for code, disk in planted_codes():
        questions.add_code("planted codes", code, [disk], buffer_length=chosen([BUFFER, 4000]))


def add_large_shown(questions: Questions) -> None:
    """Long plans whose bytes are judged too."""
    asked = [(liberation(5, 5), 0), (liberation(5, 5), 6), (liberation(7, 7), 3), (row_diagonal(7), 7)]
    asked += [(random_code(8, 8, 48), 3), (random_code(2, 32, 20), 1), (random_code(64, 1, 50), 40)]
    for code, disk in asked:
        questions.add("large codes, shown", sheet_of(code), disk, shown=True)


def add_longest(questions: Questions) -> None:
    """Every lost row is the sum of all 32 survivors: 1,024 steps, which fill a buffer of 3,081 bytes."""
    survivors, lost = tuple(2**bit for bit in range(32)), (2**32 - 1,) * 32
    questions.add("longest plan", sheet_of(Code(2, 32, 32, lost + survivors)), 0, shown=True)
    questions.add("longest plan", sheet_of(Code(2, 32, 32, survivors + lost)), 1)
    wide = Code(2, 32, 64, (2**64 - 1,) * 32 + tuple(row << 32 | row for row in survivors))
    questions.add("longest plan", sheet_of(wide), 0, buffer_length=4096)


def add_small_codes(questions: Questions) -> None:
    """Small codes of any rank, K above N among them, with all disks and the plans shown."""
    for _ in range(110):
        disks, height = 2 + below(4), 1 + below(3)
        data_symbols = 1 + below(min(12, disks * height + 1))
        if disks * height > 9:
            height = 1
        questions.add_code("small codes", random_code(disks, height, data_symbols), shown=True)
    for _ in range(25):
        questions.add_code("small codes of low rank", low_rank_code(2 + below(4), 1 + below(2), 1 + below(64)), shown=True)


def add_nearly(questions: Questions) -> None:
    """K is as large as the number of survivors, or one more, where one pattern alone may show that there is no plan."""
    for disks, height in [(3, 2), (5, 3), (4, 8), (8, 8), (2, 32), (64, 1), (13, 4), (3, 21)]:
        for more in (0, 1):
            data_symbols = disks * height - height + more
            code = random_code(disks, height, data_symbols)
            questions.add_code("one pattern or none", code, sorted({0, disks - 1}))


def add_low_rank(questions: Questions) -> None:
    """Zero rows, equal rows, rows of one disk again on another, and a family with one bit turned over."""
    for disks, height, data_symbols in [(4, 3, 6), (5, 4, 30), (16, 4, 64), (2, 32, 64), (3, 21, 1), (64, 1, 64)]:
        code = low_rank_code(disks, height, data_symbols)
        questions.add_code("low rank", code, some_disks(code))
    for code in (SQUARE, random_code(4, 3, 12), random_code(2, 8, 16), random_code(6, 2, 64)):
        half = code.symbols // 2
        questions.add_code("zero rows", without(code, list(range(half))))
        questions.add_code("zero rows", without(code, list(range(0, code.symbols, 2))))
        questions.add_code("zero rows", without(code, list(range(code.symbols))))
        questions.add_code("equal rows", code._replace(rows=code.rows[:1] * code.symbols))
        questions.add_code("equal rows", code._replace(rows=code.rows[:half] * 2))
    for code in (single_parity(3, 2), liberation(3, 3), liberation(5, 5), row_diagonal(5), row_diagonal(7), evenodd(5)):
        for _ in range(3):
            place, bit = below(code.symbols), below(code.data_symbols)
            rows = code.rows[:place] + (code.rows[place] ^ 2**bit,) + code.rows[place + 1 :]
            questions.add_code("a bit turned over", code._replace(rows=rows))


# Refusals


def refused_sheets() -> list[bytes]:
    """A sheet for every refusal of a code sheet, and for every place in the order of them."""
    square, smallest = sheet_of(SQUARE), sheet_of(SMALLEST)
    wrong = [(0, 5), (0, 0), (1, 2), (1, 0), (2, 1), (2, 65), (3, 0), (3, 33), (2, 33), (4, 0), (4, 65), (5, 7), (5, 9), (13, 128)]
    sheets = [changed(square, at, value) for at, value in wrong]
    sheets += [smallest[:length] for length in range(len(smallest))]
    sheets += [square[:69], square + b"\0", square + bytes(448), square + bytes(449), bytes([5]) * 600, b"\4" * 600]
    for place, bit in [(0, 4), (0, 63), (3, 9), (7, 4), (7, 63)]:
        sheets.append(sheet_of(SQUARE._replace(rows=tuple(row | 2**bit * (s == place) for s, row in enumerate(SQUARE.rows)))))
    pairs = [((0, 5), (1, 2)), ((1, 2), (2, 1)), ((3, 33), (5, 9)), ((5, 9), (13, 128)), ((2, 1), (13, 128))]
    sheets += [changed(changed(square, *one), *other) for one, other in pairs]
    sheets += [sheet_of(Code(13, 5, 1, (0,) * 65)), sheet_of(Code(2, 1, 63, (0, 2**63))), random_bytes(70)]
    return sheets


def add_refused(questions: Questions) -> None:
    for sheet in refused_sheets():
        questions.add("code sheet refused", sheet, 0)
    for code in (SQUARE, P8, SMALLEST, random_code(64, 1, 64)):
        sheet = sheet_of(code)
        for disk in (code.disks - 1, code.disks, code.disks + 1, *HUGE_DISKS):
            questions.add("disk at a limit", sheet, disk)
    for code in (SQUARE, P8, random_code(2, 32, 64), Code(2, 1, 1, (0, 0))):
        for length in (0, 1, 9, 518, 3079, 3080, 3081):
            questions.add("buffer at a limit", sheet_of(code), 1, buffer_length=length)
    square = sheet_of(SQUARE)
    for sheet, disk, length in product((square, square[:69], changed(square, 13, 128)), (3, 4, 2**64 - 1), (3080, 0, 3081)):
        questions.add("several faults", sheet, disk, buffer_length=length)


def add_planning_questions(questions: Questions) -> None:
    add_worked_cases(questions)
    add_families(questions)
    add_second_parity(questions)
    add_other_codes(questions)
    add_large_shown(questions)
    add_longest(questions)
    add_small_codes(questions)
    add_nearly(questions)
    add_low_rank(questions)
    add_refused(questions)


# Lists of wanted symbols


def add_lists_of_families(questions: Questions) -> None:
    for code in (SQUARE, P8, P9):
        for disk in range(code.disks):
            questions.add_lists("list, worked cases", code, disk, all_lists(code, [disk]))
    for code in family_codes():
        for disk in sorted({0, code.disks - 1}):
            length = chosen([LIST_BUFFER, LIST_BUFFER + 1, 4096])
            questions.add_lists("list, families", code, disk, [chosen(some_lists(code, [disk]))], buffer_length=length)


def add_torn_disks(questions: Questions) -> None:
    """Disks that can be rebuilt in part: every row alone, all that can be, those and one more, the whole disk with a list and without."""
    for code, disk in torn_codes(20):
        can, lost = restorable(code, [disk]), lost_places(code, [disk])
        more = sorted(can + [chosen([place for place in lost if place not in can])])
        questions.add_lists("list, torn disk", code, disk, [[place] for place in lost] + [can, more, lost], shown=True)
        questions.add("list, torn disk, none given", sheet_of(code), disk)


def add_lists_of_small_codes(questions: Questions) -> None:
    """Every list of a disk, for small codes of any rank."""
    for _ in range(16):
        code = random_code(2 + below(3), 1 + below(3), 1 + below(7))
        disk = below(code.disks)
        questions.add_lists("list, small codes", code, disk, all_lists(code, [disk]), shown=True)
    for _ in range(12):
        code = low_rank_code(2 + below(3), 2 + below(2), 1 + below(64))
        disk = below(code.disks)
        questions.add_lists("list, small codes of low rank", code, disk, all_lists(code, [disk]), shown=True)


def add_lists_of_large_codes(questions: Questions) -> None:
    for code in [low_rank_code(16, 4, 64), low_rank_code(2, 32, 40), random_code(2, 32, 33), random_code(3, 21, 42)]:
        questions.add_lists("list, large codes", code, 0, some_lists(code, [0]))
        questions.add_lists("list, large codes", code, code.disks - 1, some_lists(code, [code.disks - 1])[:1])
    for code, disk in planted_codes()[::2]:
        questions.add_lists("list, planted codes", code, disk, some_lists(code, [disk])[:1])
    survivors, lost = tuple(2**bit for bit in range(32)), (2**32 - 1,) * 32
    questions.add_lists("list, longest plan", Code(2, 32, 32, lost + survivors), 0, [range(32), range(31)], shown=True)
    questions.add_lists("list, longest plan", Code(2, 32, 32, survivors + lost), 1, [range(32, 64), range(33, 64, 2)])


def add_bad_lists(questions: Questions) -> None:
    """Each position of 23: an entry that doesn't rise, or isn't on the disk. Then counts at their limits, and beyond those of a byte."""
    code, disk = single_parity(3, 5), 2
    good, sheet = lost_places(code, [disk]), sheet_of(code)
    for position in range(5):
        for entry in sorted({0, good[0] - 1, good[-1] + 1, good[position - 1], good[0], code.symbols, 255} - {good[position]}):
            questions.add_list("list, bad entry", sheet, disk, good[:position] + [entry] + good[position + 1 :])
        questions.add_list("list, bad entry", sheet, disk, good[:position] + [255] + good[position:4])
    for bad in [good[::-1], [good[1]] + good[:4], good[:2] + good[:3], [255] * 5, [0] * 5]:
        questions.add_list("list, bad entry", sheet, disk, bad)
    for code, disk in [(SQUARE, 1), (single_parity(1, 32), 1), (P8, 0), (HALF, 1)]:
        lost = lost_places(code, [disk])
        for listed in ([], lost + lost[-1:], lost + [lost[-1] + 1], [0] + lost):
            questions.add_list("list, count at a limit", sheet_of(code), disk, listed)
    for count in (33, 64, 255, 256, 257, 258, 300, 513):
        questions.add_list("list, count beyond limits", sheet_of(SQUARE), 1, (2 + at % 254 for at in range(count)))
        questions.add_list("list, count beyond limits", sheet_of(SQUARE), 1, bytes([2]) * count)
    questions.add_list("list, other disks", sheet_of(SQUARE), 0, [2, 3], count=4)
    questions.add_list("list, other disks", sheet_of(single_parity(1, 32)), 0, range(32), count=2)


def add_list_refusals(questions: Questions) -> None:
    for code, disk in [(SQUARE, 1), (P8, 0), (random_code(2, 32, 20), 1)]:
        lost = lost_places(code, [disk])
        for length in (0, 3080, 3081, 3113, 3114, 3115, 4096):
            questions.add_list("list, buffer at a limit", sheet_of(code), disk, lost[-1:], buffer_length=length)
    square = sheet_of(SQUARE)
    lists = ([6], [], [7, 6])
    for sheet, disk, listed, length in product((square, square[:69], changed(square, 13, 128)), (3, 4, 2**64 - 1), lists, (3114, 3113)):
        questions.add_list("list, several faults", sheet, disk, listed, buffer_length=length)


def add_list_questions(questions: Questions) -> None:
    add_lists_of_families(questions)
    add_torn_disks(questions)
    add_lists_of_small_codes(questions)
    add_lists_of_large_codes(questions)
    add_bad_lists(questions)
    add_list_refusals(questions)


# Sets of disks


def pairs(code: Code) -> list[Disks]:
    return list(combinations(range(code.disks), 2))


def add_two_losses(questions: Questions) -> None:
    """Any two disks of every family with two parities, at every parameter. Of the row-diagonal rule as it was before, not all."""
    for w, k in [(w, k) for w in (3, 5, 7) for k in range(2, w + 1)]:
        questions.add_sets("set, any two of Liberation", liberation(w, k), pairs(liberation(w, k)))
    for p in (3, 5, 7):
        questions.add_sets("set, any two of row-diagonal", row_diagonal(p), pairs(row_diagonal(p)))
        questions.add_sets("set, any two of EVENODD", evenodd(p), pairs(evenodd(p)))
    for p in (3, 5):
        questions.add_sets("set, row-diagonal as before", row_diagonal_before(p), pairs(row_diagonal_before(p)))


def add_sets_of_families(questions: Questions) -> None:
    """Every set of small arrays; of families one disk, three disks, and lists over several disks."""
    for code in (SQUARE, P8, P9, COPIES, row_diagonal(3)):
        questions.add_sets("set, worked cases", code, all_sets(code), shown=True)
    for listed in all_lists(SQUARE, [0, 2]):
        questions.add_set("set, worked cases", sheet_of(SQUARE), [0, 2], listed, shown=True)
    for listed, disks in product(([], [0], [1], [0, 1]), ([0], [1], [0, 1])):
        questions.add_set("set, worked cases", sheet_of(P9), disks, listed, shown=True)
    for code in family_codes():
        for disks in ([code.disks - 1], sorted({0, code.disks // 2, code.disks - 1}), sorted({below(code.disks), below(code.disks)})):
            length = chosen([SET_BUFFER, SET_BUFFER + 1, 4096])
            listed = chosen([[]] + some_lists(code, disks))
            questions.add_set("set, families", sheet_of(code), disks, listed, buffer_length=length)
    for code, disks in [(liberation(5, 5), [0, 6]), (liberation(7, 7), [2, 3]), (evenodd(7), [0, 7]), (row_diagonal(7), [1, 6])]:
        questions.add_set("set, large codes, shown", sheet_of(code), disks, chosen([[]] + some_lists(code, disks)), shown=True)


def add_torn_sets(questions: Questions) -> None:
    """Sets that can be rebuilt in part: what can be, that and one more, everything with a list and without."""
    for turn in range(30):
        disks, height = 3 + below(3), 1 + below(3)
        code = chosen([random_code, low_rank_code])(disks, height, 1 + below(disks * height - 1))
        lost_disks = any_set(code)
        can, lost = restorable(code, lost_disks), lost_places(code, lost_disks)
        more = sorted(set(can + [chosen(lost)]))
        for listed in [[], lost] + ([can] if can else []) + [more, [chosen(lost)]]:
            questions.add_set("set, torn", sheet_of(code), lost_disks, listed, shown=turn % 2 == 0)


def add_sets_of_large_codes(questions: Questions) -> None:
    for disks, height, data_symbols, lost in [
        (64, 1, 64, range(1, 64, 2)),
        (64, 1, 40, [0, 31, 63]),
        (16, 4, 33, [3, 4, 5, 12]),
        (8, 8, 64, [0, 7]),
        (31, 2, 48, range(12)),
    ]:
        code = planted_code(disks, height, data_symbols, lost)
        for listed in [[]] + some_lists(code, lost)[1:]:
            questions.add_set("set, planted codes", sheet_of(code), lost, listed)
    for code in (random_code(64, 1, 33), random_code(8, 8, 40), low_rank_code(16, 4, 64), random_code(4, 16, 32)):
        for disks in (any_set(code), range(code.disks // 2), range(1, code.disks), range(code.disks)):
            questions.add_set("set, large codes", sheet_of(code), disks)
    survivors, lost = tuple(2**bit for bit in range(32)), (2**32 - 1,) * 32
    questions.add_set("set, longest plan", sheet_of(Code(4, 16, 32, lost + survivors)), [0, 1], shown=True)
    questions.add_set("set, longest plan", sheet_of(Code(4, 16, 32, survivors + lost)), [2, 3], range(32, 64))
    questions.add_set("set, longest plan", sheet_of(Code(64, 1, 32, survivors + lost)), range(32, 64), range(32, 64))


def add_all_lost(questions: Questions) -> None:
    """Nothing survives: a plan exists exactly if every wanted row is zero, and it only clears."""
    kind = "set, nothing survives"
    nearly = ZEROS._replace(rows=(0,) * 40 + (1,) + (0,) * 23)
    for code, listed in [(ZEROS, []), (ZEROS, EVERY), (ZEROS, [63]), (nearly, []), (nearly, EVERY), (nearly, EVERY[:40]), (nearly, EVERY[40:])]:
        questions.add_set(kind, sheet_of(code), EVERY, listed, shown=True)
    for code in (SQUARE, P8, P9, HALF, Code(2, 1, 1, (0, 0)), Code(3, 2, 5, (0, 31, 0, 31, 16, 0)), Code(2, 32, 64, (0,) * 63 + (2**63,))):
        zero = [place for place, row in enumerate(code.rows) if row == 0]
        for listed in [[], list(range(code.symbols)), zero, zero[:1], [code.symbols - 1]]:
            questions.add_set(kind, sheet_of(code), range(code.disks), listed, shown=True)
    questions.add_set(kind, sheet_of(Code(64, 1, 1, (1,) * 64)), EVERY[1:], shown=True)


def add_bad_sets(questions: Questions) -> None:
    """7, 24, 23 and 34 of sets, at both sides of each limit, and each with each."""
    square = sheet_of(SQUARE)
    for disks in ASKED_SETS + LONGER_SETS:
        questions.add_set("set, asked", square, disks)
    for disks in (EVERY, EVERY[::-1], EVERY + [63], EVERY + [64], EVERY[:63] + [62], EVERY[:63] + [64]):
        questions.add_set("set, asked", sheet_of(ZEROS), disks)
    good = lost_places(SQUARE, [0, 2])
    for position in range(4):
        for entry in sorted({0, 1, 2, 3, 4, 5, 6, 7, 8, 255} - {good[position]}):
            questions.add_set("set, bad entry", square, [0, 2], good[:position] + [entry] + good[position + 1 :])
    for listed in (good + [5], good + [6], good[::-1], [0] * 64, [0] * 65, [0] * 255, [0] * 256, [0] * 300, range(256), [1] * 512):
        questions.add_set("set, count of a list", square, [0, 2], listed)
    for code, disks in [(SQUARE, [0, 2]), (SQUARE, [0, 1]), (P8, [0, 1]), (ZEROS, EVERY), (COPIES, [3])]:
        for length in (0, 3081, 3114, 3209, 3210, 3211, 4096):
            questions.add_set("set, buffer at a limit", sheet_of(code), disks, buffer_length=length)
    sheets = (square, square[:69], changed(square, 13, 128))
    for sheet, disks, listed, length in product(sheets, ([0, 2], [0, 4], [2, 0], []), ([], [4, 0], [2]), (3210, 3209)):
        questions.add_set("set, several faults", sheet, disks, listed, buffer_length=length)
    for sheet in refused_sheets()[::4]:
        questions.add_set("set, code sheet refused", sheet, [0, 0])


def add_set_questions(questions: Questions) -> None:
    add_sets_of_families(questions)
    add_two_losses(questions)
    add_torn_sets(questions)
    add_sets_of_large_codes(questions)
    add_all_lost(questions)
    add_bad_sets(questions)


# How much is gone


def partly_gone(gone: int, height: int) -> Code:
    """Three disks. Of disk 0 so many rows have a data symbol that no other row has, and the others are sums of survivors."""
    surviving = [random_row(height) for _ in range(2 * height)]
    own = [2 ** (height + row) if row < gone else 0 for row in range(height)]
    lost = [row ^ chosen(surviving) ^ chosen(surviving) for row in shuffled(own)]
    return Code(3, height, 2 * height, (*lost, *surviving))


def add_partly_gone(questions: Questions) -> None:
    """From nothing of a disk to all of it. Lists of what is left, of what is gone, and of some of both, by which less is gone."""
    for height in (1, 3, 8):
        for gone in range(height + 1):
            code = partly_gone(gone, height)
            lost, can = lost_places(code, [0]), restorable(code, [0])
            lists = [can, [place for place in lost if place not in can], sorted(shuffled(lost)[: 1 + height // 2]), lost]
            questions.add_code("gone, part of a disk", code, [0])
            questions.add_lists("gone, part of a disk", code, 0, filter(None, lists))
            for disks, listed in [([0], []), ([0], lists[2]), ([0, 1], []), ([0, 1], lists[2]), ([0, 1, 2], [])]:
                questions.add_set("gone, part of a disk", sheet_of(code), disks, listed)


def add_every_list(questions: Questions) -> None:
    """Small codes, with each list of two lost disks: from nothing to all of them."""
    for data_symbols in (1, 2, 4, 6, 9):
        code = random_code(3, 2, data_symbols)
        for listed in all_lists(code, [0, 2]):
            questions.add_set("gone, every list", sheet_of(code), [0, 2], listed)


def add_less_than_lost(questions: Questions) -> None:
    """Symbols that are lost together: all the same, in pairs of which the sum survives, or more than the code has data symbols."""
    same, pairs = Code(2, 8, 2, (1,) * 8 + (2,) * 8), Code(2, 8, 8, (1, 2, 4, 8, 16, 32, 64, 128, 3, 12, 48, 192, 0, 0, 0, 0))
    for code in (same, pairs, Code(2, 8, 3, pairs.rows[:3] * 2 + (0,) * 10)):
        questions.add_code("gone, less than is lost", code, [0])
        questions.add_lists("gone, less than is lost", code, 0, [[0], [0, 1], [0, 2], [0, 1, 2, 3], [5, 6, 7]])
        questions.add_set("gone, less than is lost", sheet_of(code), [0, 1])
    for disks, listed in [([0, 1], []), ([0, 1], [1, 3]), ([0, 1], [0, 1, 2]), ([0, 1, 2], [4, 5]), ([0, 1, 2, 3], [])]:
        questions.add_set("gone, less than is lost", sheet_of(SQUARE), disks, listed)


def add_all_gone(questions: Questions) -> None:
    """As many patterns as there are wanted symbols, up to 64; and wanted symbols that are zero, of which nothing is ever gone."""
    units = tuple(2**bit for bit in range(64))
    for code in (Code(64, 1, 64, units), Code(2, 32, 64, units), Code(8, 8, 64, units[::-1])):
        every = list(range(code.disks))
        questions.add_code("gone, all of it", code, [0, code.disks - 1])
        for disks, listed in [(every, []), (every, EVERY), (every, EVERY[::2]), (every, EVERY[:1]), (every[1:], []), (every[:1], [])]:
            questions.add_set("gone, all of it", sheet_of(code), disks, listed)
    half = Code(4, 16, 32, units[:32] + (0,) * 32)
    for disks, listed in [([0, 1, 2, 3], []), ([0, 3], []), ([0, 3], EVERY[48:]), ([2, 3], []), ([1, 2], EVERY[24:40]), ([3], EVERY[48:50])]:
        questions.add_set("gone, zero rows wanted", sheet_of(half), disks, listed)
    questions.add_lists("gone, zero rows wanted", HALF, 1, [[2], [3], [2, 3]])
    questions.add_lists("gone, zero rows wanted", half, 2, [EVERY[32:48]])


def add_gone_questions(questions: Questions) -> None:
    add_partly_gone(questions)
    add_every_list(questions)
    add_less_than_lost(questions)
    add_all_gone(questions)


# The fewest reads


def add_fewest_of_small_codes(questions: Questions) -> None:
    """Every set of disks of small arrays, and lists: of one disk all, of several some."""
    for code in (SQUARE, P8, P9, HALF, COPIES, NOTHING, row_diagonal(3)):
        for disks in all_sets(code):
            lists = all_lists(code, disks) if len(disks) == 1 else some_lists(code, disks)
            for listed in [[]] + lists:
                questions.add_fewest("worked cases", sheet_of(code), disks, listed, shown=True)
    for listed in [[]] + all_lists(LISTED, [0]):
        questions.add_fewest("worked cases", sheet_of(LISTED), [0], listed, shown=True)


def add_fewest_of_families(questions: Questions) -> None:
    """Every family within range: of single parity the first and the last disk; of the others each disk and each two, with a list and without,
    and of larger sets, which have no plan, every sixth, for what is left of them."""
    for name, code in families():
        sets = sets_in_range(code)
        if name.startswith("single parity"):
            for disks in [disks for disks in sets if disks in ((0,), (code.disks - 1,))]:
                questions.add_fewest("single parity", sheet_of(code), disks, shown=code.symbols <= 8)
            continue
        for disks in [disks for disks in sets if len(disks) <= 2]:
            for listed in [[], chosen(some_lists(code, disks))]:
                length = chosen([SET_BUFFER, SET_BUFFER + 1, 4096])
                questions.add_fewest("families", sheet_of(code), disks, listed, buffer_length=length, shown=len(disks) == 1)
        for disks in [disks for disks in sets if len(disks) > 2][::6]:
            questions.add_fewest("families, torn", sheet_of(code), disks, chosen([[], restorable(code, disks)]))


def add_few_survivors(questions: Questions) -> None:
    """0 survivors, 1, 16, 17 and more, with a plan and without: a data symbol for each symbol, one for all, and none."""
    kind = "few survivors and more"
    shapes = [(64, 1, (0, 1, 16, 17, 63)), (32, 2, (0, 8, 9)), (16, 4, (4, 5)), (21, 3, (5, 6)), (3, 16, (0, 1, 2)), (2, 17, (0, 1))]
    for disks, height, lefts in shapes:
        symbols = disks * height
        for left, rows in product(lefts, (tuple(2**bit for bit in range(symbols)), (1,) * symbols, (0,) * symbols)):
            lost = sorted(shuffled(range(disks))[: disks - left])
            questions.add_fewest(kind, sheet_of(Code(disks, height, symbols, rows)), lost)
    for k, r in [(15, 1), (16, 1), (17, 1), (8, 2), (9, 2), (4, 4), (5, 4), (1, 16), (1, 17), (1, 32), (63, 1)]:
        questions.add_fewest(kind, sheet_of(single_parity(k, r)), [below(k + 1)])
    for code in (units(17), units(18), row_diagonal(5), row_diagonal(7), evenodd(5), liberation(5, 3)):
        questions.add_fewest(kind, sheet_of(code), [1])


def add_fewest_of_random_codes(questions: Questions) -> None:
    """Codes of any rank, rows that are sums of a few others or of many, with lists; up to 16 survivors."""
    for turn in range(60):
        code = chosen([random_code, low_rank_code])(2 + below(4), 1 + below(3), 1 + below(8))
        disks = any_set(code)
        for listed in [[], chosen(some_lists(code, disks))]:
            questions.add_fewest("random codes", sheet_of(code), disks, listed, shown=turn % 2 == 0)
    shapes = [(17, 1, 1), (9, 2, 1), (5, 4, 1), (3, 8, 1), (2, 16, 1), (6, 3, 1), (8, 2, 2), (20, 1, 4), (64, 1, 48), (16, 4, 12), (8, 8, 6)]
    for disks, height, lost_count in shapes:
        for data_symbols in (3, 8, 12, 16, 64):
            lost = sorted(shuffled(range(disks))[:lost_count])
            code = planted_code(disks, height, data_symbols, lost)
            listed = chosen([[]] + some_lists(code, lost))
            questions.add_fewest("planted codes", sheet_of(code), lost, listed, shown=height == 1 and disks <= 20)


def add_fewest_refused(questions: Questions) -> None:
    """Each refusal, and each with each: an array of few survivors and one of many, whose 41 comes after everything else."""
    large = sheet_of(single_parity(20, 1))
    for sheet in refused_sheets()[::3]:
        questions.add_fewest("code sheet refused", sheet, [0, 0])
    for disks in ASKED_SETS + LONGER_SETS[::2]:
        questions.add_fewest("asked", sheet_of(SQUARE), disks)
    for sheet in (sheet_of(SQUARE), large):
        for listed in ([0, 0], [1, 0], [0, 2], [64], [255], [0] * 3, [0] * 64, [0] * 300, range(256)):
            questions.add_fewest("bad list", sheet, [0], listed)
        for length in (0, 3081, 3114, 3209, 3210, 3211):
            questions.add_fewest("buffer at a limit", sheet, [1], buffer_length=length)
    sheets = (large, large[:-1], changed(large, 0, 5))
    for sheet, disks, listed, length in product(sheets, ([2], [2, 21], [2, 2], []), ([], [2], [3]), (3210, 3209)):
        questions.add_fewest("several faults", sheet, disks, listed, buffer_length=length)


def add_fewest_questions(questions: Questions) -> None:
    add_fewest_of_small_codes(questions)
    add_fewest_of_families(questions)
    add_few_survivors(questions)
    add_fewest_of_random_codes(questions)
    add_fewest_refused(questions)


# Plans at prices

EDGE_BITS = (0x7FF0_0000_0000_0000, 0x7FF0_0000_0000_0001, 0x7FF8_0000_0000_0000, 0x7FFF_FFFF_FFFF_FFFF)
"""Infinity, and the first, the usual and the last NaN, by their bits."""


def float_of(number: int) -> float:
    return struct.unpack("<d", number.to_bytes(8, "little"))[0]


def add_prices_at_limits(questions: Questions) -> None:
    """Each price and each factor at a limit and next to it, at the first, a middle and the last disk; NaN and infinity of both signs."""
    finite = {bits(number): number for number in (*PRICES, *NO_PRICES, math.nextafter(HIGHEST_PRICE, 0.0)) if math.isfinite(number)}
    for number in finite.values():
        for at, factor in ((1, None), (2, 1.5), (3, None)):
            given: list[State] = [1.0] * 4
            given[at] = number if factor is None else (number, factor)
            questions.add_priced("a price at a limit", sheet_of(SQUARE), [0], states_of(given))
    for number in filter(math.isfinite, FACTORS + NO_FACTORS):
        for given in ([1.0, 0.3, 1.0, (0.7, number)], [(1.0, number), 1.0, 1.0, 1.0]):
            questions.add_priced("a factor at a limit", sheet_of(SQUARE), [0], states_of(given))
    for number in [float_of(number | sign) for number in EDGE_BITS for sign in (0, 2**63)]:
        for given in ([1.0, number, 1.0, 1.0], [1.0, 1.0, (1.0, number), 1.0], [(number, 1.0), 1.0, 1.0, number]):
            questions.add_priced("NaN and infinity", sheet_of(SQUARE), [0], states_of(given))


def add_lists_of_states(questions: Questions) -> None:
    """Lists that end too early, at each disk; entries from n on, which may be anything; kinds that there aren't; what a kind doesn't use."""
    for count, kind in product(range(5), (0, 1, 2)):
        questions.add_priced("lists end", sheet_of(SQUARE), [0], States([kind] * count, [1.0] * count, [2.0] * count))
    for more in (1, 2, 59, 60):
        for kind, number in ((255, NAN), (0, -1.0), (2, INFINITY), (1, 7.0)):
            longer = States([1, 2, 1, 1] + [kind] * more, [1.0, 0.1, 0.2, 0.3] + [number] * more, [NAN, 3.0, 0.0, -1.0] + [number] * more)
            questions.add_priced("entries from n on", sheet_of(SQUARE), [chosen((0, 2))], longer)
    for kind, disk in product((3, 4, 128, 255), range(4)):
        kinds = [1] * 4
        kinds[disk] = kind
        questions.add_priced("other kinds", sheet_of(SQUARE), [1], States(kinds, [1.0] * 4, [1.0] * 4))
    for disks, height in ((64, 1), (2, 32)):
        code = random_code(disks, height, 20)
        for count in (disks - 1, disks, 64):
            questions.add_priced("lists end", sheet_of(code), [disks - 1], States([1] * count, [1.0] * count, [1.0] * count))


def add_away(questions: Questions) -> None:
    """Each set of away disks, with asked ones among them and without, up to all; lists over the asked disks alone."""
    for away, disks in product(product((False, True), repeat=4), ([0], [3], [0, 2])):
        given: list[State] = [None if gone else chosen(PRICES) for gone in away]
        questions.add_priced("away", sheet_of(SQUARE), disks, states_of(given), chosen([[]] + some_lists(SQUARE, disks)))
    for code in (P8, P9, HALF, COPIES, NOTHING, ZEROS, row_diagonal(5), liberation(5, 4), evenodd(5)):
        for away in (2, 3, 8):
            questions.add_priced("away", sheet_of(code), any_set(code)[:2], any_states(code.disks, away))
        questions.add_priced("all away", sheet_of(code), [0], states_of([None] * code.disks))
        questions.add_priced("all asked, some away", sheet_of(code), range(code.disks), any_states(code.disks, 2))
    for listed in ([2], [4], [0, 2], [3]):
        questions.add_priced("an away disk's symbol listed", sheet_of(SQUARE), [0], states_of([1.0, None, 1.0, 1.0]), listed)


def add_orders_of_sums(questions: Questions) -> None:
    """Sums of the same charges in another order, and products in another one, which differ in the last bit; sums of tiny and of huge prices."""
    for prices in permutations((0.1, 0.2, 0.3)):
        questions.add_priced("order of a sum", sheet_of(single_parity(3, 1)), [3], states_of([*prices, 0.0]))
        questions.add_priced("order of a sum", sheet_of(single_parity(3, 3)), [3], states_of([*((price, 1.1) for price in prices), 0.0]))
    for price, factor in ((0.1, 3.0), (0.7, 1.1), (0.3, 1.3), (SMALLEST_PRICE, 1.5), (HIGHEST_PRICE, HIGHEST_FACTOR), (-0.0, 64.0)):
        for r in (3, 5, 7):
            questions.add_priced("order of a product", sheet_of(single_parity(2, r)), [0], states_of([0.0, (price, factor), price]))
    for number in (5, 1023, 1024, 1025, 2047):
        code, states = counting(number)
        questions.add_priced("many swaps", sheet_of(code), [0], states)


def add_priced_codes(questions: Questions) -> None:
    """Families, with one disk lost and two; random codes, which can be rebuilt or not, with lists."""
    codes = [single_parity(4, 4), single_parity(9, 2), single_parity(63, 1), single_parity(1, 32)]
    codes += [liberation(w, k) for w, k in ((3, 2), (3, 3), (5, 3), (5, 5), (7, 4))]
    codes += [family(p) for family in (row_diagonal, evenodd) for p in (3, 5, 7)]
    for code in codes:
        for disks in ([0], [code.disks - 1], sorted({0, code.disks // 2})):
            listed, length = chosen([[], []] + some_lists(code, disks)), chosen((SET_BUFFER, 3211, 4096))
            questions.add_priced("families", sheet_of(code), disks, any_states(code.disks, 40), listed, buffer_length=length)
    for _ in range(50):
        code = chosen([random_code, low_rank_code])(2 + below(5), 1 + below(3), 1 + below(8))
        disks = any_set(code)
        questions.add_priced("random codes", sheet_of(code), disks, any_states(code.disks, 10), chosen([[]] + some_lists(code, disks)))
    for disks, height, data_symbols, lost in [(64, 1, 40, [0, 63]), (16, 4, 12, [3]), (8, 8, 16, [7]), (31, 2, 24, [0, 9]), (5, 3, 6, [1])]:
        code = planted_code(disks, height, data_symbols, lost)
        for away in (4, 40):
            questions.add_priced("planted codes", sheet_of(code), lost, any_states(disks, away))


def add_priced_refused(questions: Questions) -> None:
    """Each refusal, and 42 with each: it comes last, at its lowest disk."""
    square, bad = sheet_of(SQUARE), states_of([1.0, -1.0, NAN])
    for sheet in refused_sheets()[::5]:
        questions.add_priced("code sheet refused", sheet, [0, 0], bad)
    for disks in ASKED_SETS[::2]:
        questions.add_priced("asked", square, disks, states_of([1.0] * 4))
    for listed in ([0, 0], [1, 0], [0, 2], [8], [255], [0] * 3, [0] * 300):
        questions.add_priced("bad list", square, [0], states_of([1.0] * 4), listed)
    for length in (0, 3081, 3209, 3210, 3211):
        questions.add_priced("buffer at a limit", square, [0], states_of([1.0] * 4), buffer_length=length)
    for sheet, disks, listed, length in product((square, changed(square, 13, 128)), ([0], [4], [1, 0]), ([], [2], [0, 0]), (3210, 3209)):
        questions.add_priced("several faults", sheet, disks, bad, listed, buffer_length=length)
    for one, other in combinations(range(4), 2):
        given: list[State] = [1.0] * 4
        given[one], given[other] = chosen((-1.0, (1.0, 65.0), INFINITY)), chosen((NAN, (-1.0, 0.0), 1e300))
        questions.add_priced("two bad states", square, [one], states_of(given))


def add_priced_questions(questions: Questions) -> None:
    add_prices_at_limits(questions)
    add_lists_of_states(questions)
    add_away(questions)
    add_orders_of_sums(questions)
    add_priced_codes(questions)
    add_priced_refused(questions)
