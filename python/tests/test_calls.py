"""Every call of the package against the second program, on many arrays, with good input and with one fault.

    sh shared.sh target/libnavorzim.so
    NAVORZIM_LIBRARY=target/libnavorzim.so PYTHONPATH=python python3 -m unittest discover -s python/tests

What a call is lent lies between guard bytes, at an odd place, and those must stay. At the end every call of the library must have been asked.
"""
import sys
import unittest
import unittest.mock
from array import array
from itertools import combinations
from pathlib import Path
from typing import Any, Callable, Optional, Sequence, Union

sys.path.insert(0, str(Path(__file__).resolve().parents[2] / "tests"))

import second
from arrays import SPECIAL_CODES, below, chosen, random_bytes, random_code, shuffled
from second_checker import check, plan_sheet, set_sheet
from second_fewest import Given, Gone, families, judge, sets_in_range, units
from second_planner import SET_BUFFER, Wish, for_disk, for_disks, how_much_is_gone, image, judge_patterns, judge_plan, planning_refusal
from second_priced import FACTORS, NO_FACTORS, NO_PRICES, PRICES, Known, Priced, State, any_state, bits, counting, judge_priced, states_of, with_away
from second_rebuild import rebuild
from second_soundness import SOUND, equations_refusal, judge_equations, test_survivors

import navorzim.code
from navorzim import Away, Busy, Code, Idle, NoPlan, Plan, PricedPlan, Refused, Unsound, library

ASKED: "set[str]" = set()
"""The calls of the library that were asked."""


def ask(call: str, *given: Any) -> Any:
    ASKED.add(call)
    return library.ask(call, *given)


def setUpModule() -> None:
    patch = unittest.mock.patch.object(navorzim.code, "ask", ask)
    patch.start()
    unittest.addModuleCleanup(patch.stop)


def tearDownModule() -> None:
    forgotten = sorted(set(library.CALLS) - ASKED)
    assert not forgotten, f"no method of Code that is tested here asks {forgotten}"


KINDS = (bytes, bytearray, memoryview)
FAR = (-1, 255, 256, 2**32, 2**63, 2**64 - 1, 2**64, 2**64 + 1, 2**70)
"""Numbers that are beyond every limit, some of which look small in their low bits."""


class Guarded:
    """Bytes between others that must stay, as a view that a call may write."""

    def __init__(self, content: bytes) -> None:
        self.before, self.after = random_bytes(13), random_bytes(17)
        self.whole = bytearray(self.before + content + self.after)
        self.view = memoryview(self.whole)[13 : 13 + len(content)]

    def content(self) -> bytes:
        """What is there now, once the guards have been looked at."""
        assert self.whole[:13] == self.before and self.whole[13 + len(self.view) :] == self.after, "a guard byte has changed"
        return bytes(self.view)


class GuardedDoubles:
    """Doubles between others that must stay, as a view; these would be good prices and factors."""

    def __init__(self, content: Sequence[float]) -> None:
        self.whole = array("d", [1.0, *content, 1.0])
        self.view = memoryview(self.whole)[1:-1]
        self.before = self.whole.tobytes()

    def unchanged(self) -> bool:
        return self.whole.tobytes() == self.before


def answer(call: Callable[[], Any]) -> Any:
    """What a call answers, or its refusal as the second program has it."""
    try:
        return call()
    except Refused as refused:
        return second.Refusal(refused.number, refused.place)


def some(content: bytes) -> Any:
    """The bytes as one of the types that are taken."""
    return chosen(KINDS)(content)


def as_state(state: State) -> Any:
    """A state of the second program as the package has it."""
    return Away() if state is None else Busy(*state) if isinstance(state, tuple) else Idle(state)


def any_codes() -> "list[second.Code]":
    families = [second.liberation(5, 5), second.row_diagonal(5), second.evenodd(3), second.single_parity(4, 3)]
    return SPECIAL_CODES + families + [random_code(2 + below(4), 1 + below(4), 1 + below(8)) for _ in range(30)]


class Families(unittest.TestCase):
    def hold(self, made: Any, expected: Union[second.Code, second.Refusal]) -> None:
        self.assertEqual(made.sheet if isinstance(made, Code) else made, expected if isinstance(expected, second.Refusal) else second.sheet_of(expected))

    def test_every_parameter(self) -> None:
        numbers = (*range(10), 31, 32, 33, 63, 64, 65, *FAR)
        for first in numbers:
            self.hold(answer(lambda: Code.row_diagonal(first)), second.row_diagonal(first))
            self.hold(answer(lambda: Code.evenodd(first)), second.evenodd(first))
            for other in numbers:
                self.hold(answer(lambda: Code.single_parity(first, other)), second.single_parity(first, other))
                self.hold(answer(lambda: Code.liberation(first, other)), second.liberation(first, other))


class Sheets(unittest.TestCase):
    def test_a_sheet_is_read_or_refused(self) -> None:
        for code in any_codes():
            good = second.sheet_of(code)
            for sheet in (good, second.changed(good, below(len(good)), below(256)), good[:-1], good + b"\0", b"", bytes(600)):
                expected = second.read_code(sheet)
                made = answer(lambda: Code(some(sheet)))
                if isinstance(made, Code):
                    self.assertEqual(made.sheet, sheet)
                    made = (made.disks, made.rows, made.data_symbols, made.symbols)
                    expected = (expected.disks, expected.height, expected.data_symbols, expected.symbols)
                self.assertEqual(made, expected)

    def test_a_code_keeps_its_sheet(self) -> None:
        sheet = bytearray(second.sheet_of(second.SQUARE))
        code = Code(sheet)
        sheet[:] = bytes(len(sheet))
        self.assertEqual(code.sheet, second.sheet_of(second.SQUARE))


class Calls(unittest.TestCase):
    def test_encode(self) -> None:
        for code in any_codes():
            mine, sheet = Code(second.sheet_of(code)), second.sheet_of(code)
            for size, data_off, stripe_off in ((1, 0, 0), (3, 0, 0), (7, 0, 0), (2, 1, 0), (2, 0, 1), (2, -1, 1), (0, 0, 0), (65537, 0, 0)):
                length = size if size in (1, 2, 3, 7) else 1
                data = random_bytes(code.data_symbols * length + data_off)
                stripe = Guarded(random_bytes(code.symbols * length + stripe_off))
                refusal, after = second.encode(sheet, size, data, stripe.content())
                self.assertEqual(answer(lambda: mine.encode_into(size, some(data), stripe.view)), refusal)
                self.assertEqual(stripe.content(), after)
                if stripe_off == 0:
                    self.assertEqual(answer(lambda: mine.encode(size, some(data))), refusal or after)
            for size in FAR:
                if size not in (255, 256):
                    self.assertEqual(answer(lambda: mine.encode(size, b"")), second.Refusal(31))

    def plan(self, code: second.Code, wish: Wish, ask: Callable[[], Plan]) -> "Optional[Plan]":
        """Which plan or which patterns are given is free: they are held to what must be true of them."""
        sheet = second.sheet_of(code)
        refusal = planning_refusal(sheet, wish, SET_BUFFER)
        try:
            plan = ask()
        except NoPlan as why:
            self.assertIsNone(refusal)
            self.assertTrue(why.patterns)
            self.assertIsNone(judge_patterns(sheet, wish, why.patterns))
            self.assertEqual(tuple(sum(1 << symbol for symbol in symbols) for symbols in why.data_symbols), why.patterns)
            self.assertTrue(str(why).startswith("no plan can be: data symbol"))
            return None
        except Refused as refused:
            self.assertEqual((refused.number, refused.place), refusal)
            return None
        self.assertIsNone(refusal)
        self.assertIsNone(judge_plan(sheet, wish, plan.sheet, plan.reads))
        self.assertEqual((plan.edition, plan.disks, plan.wanted), (wish.edition, tuple(wish.disks), tuple(wish.listed or ())))
        head = wish.head
        self.assertEqual(b"".join(map(bytes, plan.steps)), plan.sheet[head:])
        self.assertEqual(len(plan.steps), int.from_bytes(plan.sheet[head - 2 : head], "little"))
        return plan

    def hold_fewest(self, code: second.Code, mine: Code, disks: bytes, listed: bytes) -> None:
        """Which plan with the fewest reads is given is free. The same is asked of the library with guard bytes around all that it is lent."""
        sheet, wish = second.sheet_of(code), for_disks(disks, listed)
        given: Any
        try:
            plan = answer(lambda: mine.plan_fewest(chosen((list, tuple, bytes))(disks), listed))
            given = Given(plan.sheet, plan.reads) if isinstance(plan, Plan) else plan
        except NoPlan as why:
            given = Gone(why.patterns)
            self.assertEqual(why.patterns, mine.lost_patterns(disks, listed))
        self.assertIsNone(judge(sheet, wish, SET_BUFFER, given))
        read, buffer = [Guarded(sheet), Guarded(disks), Guarded(listed)], Guarded(random_bytes(33) * 98)
        before = buffer.content()
        planned = ask("plan_fewest", *(lent.view for lent in read), buffer.view)
        self.assertEqual([lent.content() for lent in read], [sheet, disks, listed])
        written = given.plan if isinstance(given, Given) else b""
        self.assertEqual(buffer.content(), written + before[len(written) :])
        self.assertEqual((planned.length, planned.reads), (len(written), given.reads if written else 0))
        self.assertEqual((planned.number, planned.place), given if isinstance(given, second.Refusal) else (0, 0))

    def hold_priced(self, code: second.Code, mine: Code, disks: bytes, listed: bytes, told: "list[State]") -> Any:
        """Which swaps are made is free: a plan is held to start and equations of the package. The same is asked of the library with guards around
        all that it is lent."""
        sheet, wish, states = second.sheet_of(code), for_disks(disks, listed), states_of(told)
        given: Any
        try:
            plan = answer(lambda: mine.plan_priced(chosen((list, tuple, bytes))(disks), chosen((list, tuple, iter))([*map(as_state, told)]), listed))
            given = Priced(plan.sheet, plan.reads, plan.settled, plan.sum) if isinstance(plan, PricedPlan) else plan
        except NoPlan as why:
            lost = with_away(code, wish, states)
            given = Gone(why.patterns)
            self.assertEqual(why.patterns, mine.lost_patterns(lost.disks, lost.listed or b""))

        def known(lost: Wish) -> Known:
            equations = [sum(1 << symbol for symbol in equation) for equation in mine.equations(lost.disks)]
            return Known(mine.plan_disks(lost.disks, lost.listed or b"").sheet, equations)

        self.assertIsNone(judge_priced(sheet, wish, states, SET_BUFFER, given, known))
        read, buffer = [Guarded(lent) for lent in (sheet, disks, listed, bytes(states.kinds))], Guarded(random_bytes(33) * 98)
        numbers, before = [GuardedDoubles(states.prices), GuardedDoubles(states.factors)], buffer.content()
        priced = ask("plan_priced", *(lent.view for lent in (*read, *numbers, buffer)))
        self.assertEqual([lent.content() for lent in read], [sheet, disks, listed, bytes(states.kinds)])
        self.assertTrue(all(lent.unchanged() for lent in numbers))
        written = given.plan if isinstance(given, Priced) else b""
        self.assertEqual(buffer.content(), written + before[len(written) :])
        expected = (len(written), given.reads, given.settled, bits(given.sum)) if isinstance(given, Priced) else (0, 0, 0, bits(0.0))
        self.assertEqual((priced.length, priced.reads, priced.settled, bits(priced.sum)), expected)
        self.assertEqual((priced.number, priced.place), given if isinstance(given, second.Refusal) else (0, 0))
        self.assertEqual((priced.pattern, priced.patterns), (given.patterns[0], len(given.patterns)) if isinstance(given, Gone) else (0, 0))
        return given

    def hold_patterns(self, code: second.Code, mine: Code, disks: bytes, listed: bytes) -> None:
        """Which patterns is free; that there are as many as are gone, none where there is a plan, is not."""
        sheet, wish = second.sheet_of(code), for_disks(disks, listed)
        patterns = answer(lambda: mine.lost_patterns(chosen((list, tuple, bytes))(disks), listed))
        refusal = planning_refusal(sheet, wish, SET_BUFFER)
        if refusal:
            self.assertEqual(patterns, refusal)
            return
        self.assertIsNone(judge_patterns(sheet, wish, patterns))
        wanted = wish.wanted(code)
        for pattern in patterns:
            shown = [wanted.index(symbol) for symbol in mine.shows_on(pattern) if symbol in wanted]
            self.assertEqual(sum(1 << 8 * position for position in shown), image(code, wish, pattern))
            self.assertLessEqual(set(mine.shows_on(pattern)), set(wish.lost(code)))

    def hold(self, code: second.Code, mine: Code, disks: Any, plan: bytes, size: int, stripe: bytes) -> None:
        """Check and rebuild, with a plan that may be anything."""
        sheet, asked = second.sheet_of(code), [disks] if isinstance(disks, int) else disks
        self.assertEqual(answer(lambda: mine.check(disks, some(plan))), check(sheet, asked, plan))
        lent = Guarded(stripe)
        refusal, after = rebuild(sheet, asked, plan, size, stripe)
        self.assertEqual(answer(lambda: mine.rebuild(disks, some(plan), size, lent.view)), refusal)
        self.assertEqual(lent.content(), after)

    def test_one_disk(self) -> None:
        for code in any_codes():
            mine, size = Code(second.sheet_of(code)), chosen((1, 2, 7))
            for _ in range(4):
                disk = below(code.disks)
                asked = chosen((disk, disk, disk, code.disks, *FAR[1:6]))
                lost = range(disk * code.height, (disk + 1) * code.height)
                listed = sorted(shuffled(lost)[: 1 + below(len(lost))])
                listed = chosen((listed, listed, listed[::-1], listed * 2, [], listed[:-1] + [below(256)]))
                whole = self.plan(code, for_disk(asked), lambda: mine.plan(asked))
                part = self.plan(code, for_disk(asked, listed), lambda: mine.plan_wanted(asked, chosen((list, tuple, bytes))(listed)))
                stripe = random_bytes(code.symbols * size + chosen((0, 0, 0, 1)))
                for plan in filter(None, (whole, part)):
                    mine.check(asked, plan)
                    for sheet in (plan.sheet, second.changed(plan.sheet, below(len(plan.sheet)), below(10)), plan.sheet[:-1]):
                        self.hold(code, mine, asked, sheet, chosen((size, size, size, 0, 65537)), stripe)
                self.hold(code, mine, asked, plan_sheet(code, disk, []), size, stripe)

    def test_several_disks(self) -> None:
        for code in any_codes():
            mine, size = Code(second.sheet_of(code)), chosen((1, 2, 7))
            for _ in range(4):
                every = range(code.disks)
                good = sorted(shuffled(every)[: 1 + below(min(4, len(every)))])
                disks = chosen((good, good, good, good[::-1], good * 2, [], [0] * 300, good[:-1] + [below(256)]))
                lost = [symbol for symbol in range(code.symbols) if symbol // code.height in disks] or [0]
                listed = chosen(([], sorted(shuffled(lost)[: 1 + below(len(lost))]), lost[::-1]))
                plan = self.plan(code, for_disks(bytes(disks), bytes(listed)), lambda: mine.plan_disks(chosen((list, tuple, bytes))(disks), listed))
                self.hold_patterns(code, mine, bytes(disks), bytes(listed))
                self.hold_fewest(code, mine, bytes(disks), bytes(listed))
                self.hold_priced(code, mine, bytes(disks), bytes(listed), [any_state(6) for _ in range(code.disks + chosen((0, 0, 1)))])
                stripe = random_bytes(code.symbols * size)
                if plan:
                    self.hold(code, mine, disks, plan.sheet, size, stripe)
                    self.hold(code, mine, disks, second.changed(plan.sheet, below(len(plan.sheet)), below(10)), size, stripe)
                    self.hold(code, mine, disks[:1], plan.sheet, size, stripe)
                    self.hold(code, mine, disks[0], plan.sheet, size, stripe)
                self.hold(code, mine, disks, set_sheet(code, good, []), size, stripe)

    def test_fewest_reads(self) -> None:
        """Families within range, both sides of 16 survivors, with a plan and without, and each refusal before 41."""
        for name, code in families():
            if not name.startswith("single parity") and code.symbols <= 20:
                for disks in sets_in_range(code):
                    lost = [symbol for symbol in range(code.symbols) if symbol // code.height in disks]
                    listed = chosen((b"", bytes(sorted(shuffled(lost)[: 1 + below(len(lost))]))))
                    self.hold_fewest(code, Code(second.sheet_of(code)), bytes(disks), listed)
        self.assertEqual([Code(second.sheet_of(second.SQUARE)).plan_fewest([disk]).reads for disk in range(4)], [3, 3, 4, 4])
        parities = [second.single_parity(k, r) for k, r in ((16, 1), (17, 1), (1, 16), (1, 17))]
        for code in [units(17), units(18)] + parities:
            for disks in (b"\0", bytes([code.disks - 1]), bytes(range(code.disks)), b"\1\0", b"", b"\0\0", b"\377"):
                for listed in (b"", disks[:1], b"\0\0", b"\377"):
                    self.hold_fewest(code, Code(second.sheet_of(code)), disks, listed)
        for left in (0, 1, 16, 17, 63):
            lost = sorted(shuffled(range(64))[: 64 - left])
            self.hold_fewest(units(64), Code(second.sheet_of(units(64))), bytes(lost), b"")

    def test_prices(self) -> None:
        """Prices and factors at the limits and beyond, disks away, too few states, sums whose last bit goes by the order, many swaps."""
        code = second.SQUARE
        mine = Code(second.sheet_of(code))
        for disk in range(4):
            for price in PRICES + NO_PRICES:
                for state in (price, (price, 1.5)):
                    self.hold_priced(code, mine, b"\0", b"", [state if at == disk else 1.0 for at in range(4)])
            for factor in FACTORS + NO_FACTORS:
                self.hold_priced(code, mine, b"\0", b"", [(0.1, factor) if at == disk else 1.0 for at in range(4)])
            for far in (10**400, -(10**400), 2**64, 2**1024, 1_000_001):
                states = [Idle(far if at == disk else 1) for at in range(4)]
                self.assertEqual(answer(lambda: mine.plan_priced([0], states)), second.Refusal(42, disk))
                states[disk] = Busy(1, far)
                self.assertEqual(answer(lambda: mine.plan_priced([0], states)), second.Refusal(42, disk))
            self.hold_priced(code, mine, b"\0", b"", [1.0] * disk)
        for away in range(16):
            states_away: "list[State]" = [None if away >> at & 1 else 0.3 for at in range(4)]
            for disks, listed in ((b"\0", b""), (b"\0", b"\1"), (b"\1\3", b""), (b"\1\3", b"\2\6")):
                self.hold_priced(code, mine, disks, listed, states_away)
        for prices, total in (((0.1, 0.2, 0.3), 0.6000000000000001), ((0.3, 0.2, 0.1), 0.6)):
            parity = second.single_parity(3, 1)
            self.assertEqual(self.hold_priced(parity, Code.single_parity(3, 1), b"\3", b"", [*prices, 1.0]).sum, total)
        # what comes after the last disk isn't looked at, whatever it is
        self.assertEqual(mine.plan_priced([0], [Idle(1)] * 4 + [None]).sum, 3.0)
        settled = set()
        for number in (1023, 1024, 1025, 2047):
            array_, states = counting(number)
            told: "list[State]" = list(states.prices)
            settled.add(self.hold_priced(array_, Code(second.sheet_of(array_)), b"\0", b"", told).settled)
        self.assertEqual(settled, {False, True})

    def test_a_priced_plan_is_run(self) -> None:
        """With a disk lost and another away: what is wanted comes back, and the away disk's bytes stay."""
        code = Code.liberation(5, 4)
        for lost, away in combinations(range(code.disks), 2):
            states = [Away() if disk == away else Idle(1 + disk) for disk in range(code.disks)]
            plan = code.plan_priced([lost], states)
            stripe = code.encode(3, random_bytes(code.data_symbols * 3))
            whole = bytes(stripe)
            ruin = random_bytes(code.rows * 3)
            for disk in (lost, away):
                code.strip(disk, 3, stripe)[:] = ruin
            code.rebuild(plan.disks, plan, 3, stripe)
            self.assertEqual(bytes(code.strip(away, 3, stripe)), ruin)
            code.strip(away, 3, stripe)[:] = code.strip(away, 3, whole)
            self.assertEqual(stripe, whole)

    def hold_survivors(self, code: second.Code, mine: Code, disks: Any, size: int, stripe: bytes) -> None:
        """Equations and test. Which list of equations is free."""
        sheet, asked = second.sheet_of(code), [disks] if isinstance(disks, int) else disks
        equations = answer(lambda: mine.equations(disks))
        refusal = equations_refusal(sheet, asked)
        if refusal:
            self.assertEqual(equations, refusal)
        else:
            self.assertIsNone(judge_equations(code, asked, [sum(1 << symbol for symbol in equation) for equation in equations]))
            self.assertTrue(all(list(equation) == sorted(set(equation)) for equation in equations))
        lent = Guarded(stripe)
        try:
            tested: Any = answer(lambda: mine.test_survivors(disks, size, chosen((lent.view, some(stripe))))) or SOUND
        except Unsound as why:
            tested = (why.column,)
        self.assertEqual(tested, test_survivors(sheet, asked, size, stripe))
        self.assertEqual(lent.content(), stripe)

    def test_survivors_of_disks(self) -> None:
        for code in any_codes():
            mine, size = Code(second.sheet_of(code)), chosen((1, 2, 7))
            every = range(code.disks)
            for _ in range(6):
                good = sorted(shuffled(every)[: 1 + below(min(4, len(every)))])
                disks = chosen((good, good, good, good[0], list(every), good[::-1], good * 2, [], [0] * 300, good[:-1] + [below(256)], 2**32 + good[0]))
                stripe = second.encoding(code, size, random_bytes(code.data_symbols * size))
                damaged = second.changed(stripe, below(len(stripe)), below(256))
                for given in (stripe, damaged, random_bytes(len(stripe))):
                    self.hold_survivors(code, mine, disks, size, given)
                self.hold_survivors(code, mine, disks, chosen((0, 65537, size + 1, 2**64 + size)), stripe)

    def test_entries_beyond_a_byte(self) -> None:
        """An entry that doesn't fit into a byte is no disk and no symbol, also where its low byte is one."""
        code = Code.row_diagonal(5)
        for entry in FAR:
            self.assertEqual(answer(lambda: code.plan_disks([entry])), second.Refusal(7))
            self.assertEqual(answer(lambda: code.plan_disks([0, entry])), second.Refusal(7))
            self.assertEqual(answer(lambda: code.plan_disks([0, 1], [0, 1, entry])), second.Refusal(23, 2))
            self.assertEqual(answer(lambda: code.plan_wanted(0, [1, entry])), second.Refusal(23, 1))
            self.assertEqual(answer(lambda: code.plan_fewest([0, entry])), second.Refusal(7))
            self.assertEqual(answer(lambda: code.plan_fewest([0, 1], [0, 1, entry])), second.Refusal(23, 2))
            self.assertEqual(answer(lambda: code.plan_priced([0, entry], [Idle(1)] * 6)), second.Refusal(7))
            self.assertEqual(answer(lambda: code.plan_priced([0, 1], [Idle(1)] * 6, [0, 1, entry])), second.Refusal(23, 2))
            self.assertEqual(answer(lambda: code.check([entry], code.plan(0))), second.Refusal(7))
            self.assertEqual(answer(lambda: code.test_survivors([0, entry], 1, bytes(24))), second.Refusal(7))
            self.assertEqual(answer(lambda: code.equations([entry, 0])), second.Refusal(7))
            for ask in (lambda: code.plan(entry), lambda: code.check(entry, code.plan(0)), lambda: code.strip(entry, 1, bytes(24))):
                self.assertEqual(answer(ask), second.Refusal(7))
            self.assertEqual(answer(lambda: code.look_up(0, 1, bytes(24), bytes(4), entry)), second.Refusal(38))

    def test_any_two_disks_come_back(self) -> None:
        for code in (Code.liberation(5, 4), Code.row_diagonal(5), Code.evenodd(3)):
            data = random_bytes(code.data_symbols * 3)
            for pair in combinations(range(code.disks), 2):
                stripe = code.encode(3, data)
                whole = bytes(stripe)
                for disk in pair:
                    code.strip(disk, 3, stripe)[:] = random_bytes(code.rows * 3)
                self.assertNotEqual(stripe, whole)
                code.rebuild(pair, code.plan_disks(pair), 3, stripe)
                self.assertEqual(stripe, whole)

    def test_strip_and_look_up(self) -> None:
        for code in any_codes():
            mine, sheet, size = Code(second.sheet_of(code)), second.sheet_of(code), chosen((1, 2, 7))
            for off, length in ((0, size), (0, size), (1, size), (0, 0), (0, 65537)):
                stripe, spare = random_bytes(code.symbols * size + off), random_bytes(code.height * size + chosen((0, 0, 1)))
                for disk in (0, code.disks - 1, code.disks, 2**64 - 1):
                    expected = second.strip(sheet, disk, length, stripe)
                    self.assertEqual(answer(lambda: mine.strip(disk, length, some(stripe))), expected)
                    for symbol in (0, below(code.symbols), code.symbols):
                        expected = second.look_up(sheet, disk, length, stripe, spare, symbol)
                        self.assertEqual(answer(lambda: mine.look_up(disk, length, some(stripe), some(spare), symbol)), expected)


if __name__ == "__main__":
    unittest.main()
