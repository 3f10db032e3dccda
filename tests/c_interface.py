"""The C interface against the second program: every call, on many arrays, with good input and with one fault.

    python3 tests/c_interface.py target/libnavorzim.so
"""
import os
import sys
from ctypes import CDLL, Structure, byref, c_double, c_size_t, c_uint64, create_string_buffer
from itertools import combinations, product
from typing import Any, NamedTuple, Sequence, Union

import second
from arrays import SPECIAL_CODES, below, chosen, random_bytes, random_code, shuffled
from second import Code, Refusal, changed, read_code, sheet_of
from second_checker import P2, ROW_1, TWO_DISKS, Disks, check, plan_sheet, set_sheet, steps_of
from second_fewest import Given, Gone, families, judge, sets_in_range, units
from second_planner import BUFFER, LIST_BUFFER, SET_BUFFER, Wish, for_disk, for_disks, how_much_is_gone, judge_patterns, judge_plan
from second_planner import planning_refusal
from second_priced import FACTORS, NAN, NO_FACTORS, NO_PRICES, PRICES, Answer, Known, Priced, State, States, any_states, bits, counting
from second_priced import judge_priced, priced_refusal, read_by, sets_made, states_of, with_away
from second_rebuild import rebuild
from second_soundness import Tested, Unsound, damaged, equations_refusal, judge_equations, test_survivors

FIELDS = {
    "verdict": ("number", "place"),
    "code": ("number", "place", "disks", "rows", "data_symbols", "symbols"),
    "sheet": ("number", "place", "length"),
    "checked": ("number", "place", "reads"),
    "planned": ("number", "place", "length", "reads", "pattern", "pattern_high", "patterns"),
    "priced": ("number", "place", "length", "reads", "settled", "sum", "pattern", "pattern_high", "patterns"),
    "set": ("number", "place", "low", "high"),
    "count": ("number", "place", "count"),
    "tested": ("number", "place", "sound", "column"),
    "part": ("slice", "start", "length"),
}
ANSWERS = {
    "read_code": "code",
    "single_parity": "sheet",
    "liberation": "sheet",
    "row_diagonal": "sheet",
    "evenodd": "sheet",
    "encode": "verdict",
    "check": "checked",
    "check_disks": "checked",
    "plan": "planned",
    "plan_wanted": "planned",
    "plan_disks": "planned",
    "plan_fewest": "planned",
    "plan_priced": "priced",
    "lost_pattern": "set",
    "rebuild": "verdict",
    "rebuild_disks": "verdict",
    "equations": "count",
    "equation": "set",
    "test_survivors": "tested",
    "strip": "part",
    "strip_verdict": "verdict",
    "look_up": "part",
    "look_up_verdict": "verdict",
}
calls = 0


def load(path: str) -> CDLL:
    library = CDLL(os.path.abspath(path))
    for call, kind in ANSWERS.items():
        struct = type(kind, (Structure,), {"_fields_": [(name, c_double if name == "sum" else c_uint64) for name in FIELDS[kind]]})
        getattr(library, "navorzim_" + call).restype = struct
    return library


class Part(NamedTuple):
    """So many entries of an array, from one on. A call may not look at the others."""

    array: Any
    first: int
    count: int


def crossing(given: Any) -> tuple[Any, ...]:
    """Bytes and parts go as pointer and length, nothing as NULL and 0, numbers as they are."""
    if isinstance(given, int):
        return (c_uint64(given),)
    if isinstance(given, Part):
        return byref(given.array, given.first * (8 if given.array._type_ is c_double else 1)), c_size_t(given.count)
    return given, c_size_t(len(given or b""))


def ask(call: str, *given: Any) -> tuple[Any, ...]:
    """A call's answer as a tuple."""
    global calls
    calls += 1
    answer = getattr(LIBRARY, "navorzim_" + call)(*(crossed for one in given for crossed in crossing(one)))
    return tuple(getattr(answer, name) for name in FIELDS[ANSWERS[call]])


def lent(content: bytes) -> Any:
    """A buffer that a call may write."""
    return create_string_buffer(content, len(content))


def doubles(numbers: Sequence[float]) -> Part:
    """Between doubles that would be good prices and factors."""
    return Part((c_double * (len(numbers) + 2))(1.0, *numbers, 1.0), 1, len(numbers))


def told(answer: Union[int, Refusal, None]) -> tuple[int, ...]:
    """Number and place, and the value where there is one."""
    return (answer.number, answer.place, 0) if isinstance(answer, Refusal) else (0, 0, answer or 0)


def test_family(which: int, first: int, other: int, length: int) -> None:
    buffer = lent(random_bytes(length))
    answer, after = second.write_family(which, first, other, buffer.raw)
    name = ("single_parity", "liberation", "row_diagonal", "evenodd")[which]
    numbers = (first, other) if which in (second.SINGLE_PARITY, second.LIBERATION) else (first,)
    assert ask(name, *numbers, buffer) == told(answer)
    assert buffer.raw == after


def test_read_code(sheet: bytes) -> None:
    code = read_code(sheet)
    shape = (*code, 0, 0, 0, 0) if isinstance(code, Refusal) else (0, 0, code.disks, code.height, code.data_symbols, code.symbols)
    assert ask("read_code", sheet) == shape


def test_encode(sheet: bytes, size: int, data: bytes, stripe: bytes) -> None:
    buffer = lent(stripe)
    refusal, after = second.encode(sheet, size, data, stripe)
    assert ask("encode", sheet, size, data, buffer) == told(refusal)[:2]
    assert buffer.raw == after


def ask_plan(sheet: bytes, wish: Wish, buffer: Any) -> tuple[int, ...]:
    """By the call that writes the edition."""
    if wish.edition == 1:
        return ask("plan", sheet, wish.disks[0], buffer)
    if wish.edition == 2:
        return ask("plan_wanted", sheet, wish.disks[0], wish.listed, buffer)
    return ask("plan_disks", sheet, wish.disks, wish.listed, buffer)


def test_plan(sheet: bytes, wish: Wish, length: int) -> bytes:
    """Planning's answer is free, so it is held to what must be true of it. Answers the plan, or no bytes."""
    before = (random_bytes(97) * (length // 97 + 1))[:length]
    buffer = lent(before)
    number, place, size, reads, *first, gone = ask_plan(sheet, wish, buffer)
    plan = buffer.raw[:size]
    refusal = planning_refusal(sheet, wish, length)
    assert buffer.raw[size:] == before[size:]
    if refusal:
        assert (number, place, size, reads, *first, gone) == (*refusal, 0, 0, 0, 0, 0)
    elif how_much_is_gone(read_code(sheet), wish) == 0:
        assert (number, place, *first, gone) == (0, 0, 0, 0, 0) and judge_plan(sheet, wish, plan, reads) is None
    else:
        patterns = test_lost_patterns(sheet, bytes(wish.disks), bytes(wish.listed or b""))
        assert (number, place, size, reads, gone) == (0, 0, 0, 0, len(patterns))
        assert first == [patterns[0], 0] and judge_patterns(sheet, wish, patterns) is None
    return plan


def test_lost_patterns(sheet: bytes, disks: bytes, listed: bytes) -> list[int]:
    """Every pattern of these lists, one after the other; from their number on there is none. A refusal is planning's."""
    wish = for_disks(disks, listed)
    refusal = planning_refusal(sheet, wish, SET_BUFFER)
    gone = 0 if refusal else how_much_is_gone(read_code(sheet), wish)
    found = [ask("lost_pattern", sheet, disks, listed, index) for index in range(gone)]
    assert all((number, place, high) == (0, 0, 0) and low != 0 for number, place, low, high in found)
    for beyond in (gone, gone + 1, 63 + gone, 64, 65, 2**32, 2**63, 2**64 - 1):
        if beyond >= gone:
            assert ask("lost_pattern", sheet, disks, listed, beyond) == (*(refusal or (0, 0)), 0, 0)
    return [low for _, _, low, _ in found]


def test_fewest(sheet: bytes, disks: bytes, listed: bytes, length: int = SET_BUFFER) -> int:
    """Which plan with the fewest reads is given is free; where there is none, the patterns are those of planning. Answers the read count."""
    before = (random_bytes(97) * (length // 97 + 1))[:length]
    buffer = lent(before)
    number, place, size, reads, *first, gone = ask("plan_fewest", sheet, disks, listed, buffer)
    assert buffer.raw[size:] == before[size:]
    if number:
        assert (size, reads, *first, gone) == (0, 0, 0, 0, 0)
        answer = Refusal(number, place)
    elif size:
        assert (place, *first, gone) == (0, 0, 0, 0)
        answer = Given(buffer.raw[:size], reads)
        test_check_disks(sheet, disks, buffer.raw[:size])
    else:
        answer = Gone(test_lost_patterns(sheet, disks, listed))
        assert (place, reads, *first, gone) == (0, 0, *answer.patterns[:1], 0, len(answer.patterns))
    fault = judge(sheet, for_disks(disks, listed), length, answer)
    assert fault is None, fault
    return reads


def test_priced(sheet: bytes, disks: bytes, listed: bytes, states: States, length: int = SET_BUFFER) -> Answer:
    """Which swaps are made is free: a plan is held to the library's own start and equations, and where there is none, the patterns are those of
    planning for the same lost disks. Nothing around the buffer, the prices and the factors is looked at, and no double changes."""
    before = (random_bytes(97) * (length // 97 + 2))[: length + 32]
    buffer, prices, factors = Part(lent(before), 16, length), doubles(states.prices), doubles(states.factors)
    answered = ask("plan_priced", sheet, disks, listed, bytes(states.kinds), prices, factors, buffer)
    number, place, size, reads, settled, total, *first, gone = answered
    assert buffer.array.raw[:16] == before[:16] and buffer.array.raw[16 + size :] == before[16 + size :]
    assert bytes(prices.array) == bytes(doubles(states.prices).array) and bytes(factors.array) == bytes(doubles(states.factors).array)
    answer: Answer
    if number:
        assert (size, reads, settled, bits(total), *first, gone) == (0, 0, 0, bits(0.0), 0, 0, 0)
        answer = Refusal(number, place)
    else:
        assert priced_refusal(sheet, for_disks(disks, listed), states, length) is None
        lost = with_away(read_code(sheet), for_disks(disks, listed), states)
        if size:
            assert (place, *first, gone) == (0, 0, 0, 0) and settled in (0, 1)
            answer = Priced(buffer.array.raw[16 : 16 + size], reads, settled == 1, total)
            test_check_disks(sheet, lost.disks, answer.plan)
            test_check_disks(sheet, disks, answer.plan)
        else:
            answer = Gone(test_lost_patterns(sheet, lost.disks, lost.listed))
            assert (place, reads, settled, bits(total), *first, gone) == (0, 0, 0, bits(0.0), *answer.patterns[:1], 0, len(answer.patterns))
    fault = judge_priced(sheet, for_disks(disks, listed), states, length, answer, lambda lost: known(sheet, lost))
    assert fault is None, fault
    return answer


def known(sheet: bytes, lost: Wish) -> Known:
    return Known(test_plan(sheet, lost, SET_BUFFER), test_equations(sheet, bytes(lost.disks)))


def test_check(sheet: bytes, disk: int, plan: bytes) -> None:
    assert ask("check", sheet, disk, plan) == told(check(sheet, [disk], plan))


def test_check_disks(sheet: bytes, disks: bytes, plan: bytes) -> None:
    assert ask("check_disks", sheet, disks, plan) == told(check(sheet, disks, plan))


def test_rebuild(sheet: bytes, disk: int, plan: bytes, size: int, stripe: bytes) -> None:
    buffer = lent(stripe)
    refusal, after = rebuild(sheet, [disk], plan, size, stripe)
    assert ask("rebuild", sheet, disk, plan, size, buffer) == told(refusal)[:2]
    assert buffer.raw == after


def test_rebuild_disks(sheet: bytes, disks: bytes, plan: bytes, size: int, stripe: bytes) -> None:
    buffer = lent(stripe)
    refusal, after = rebuild(sheet, disks, plan, size, stripe)
    assert ask("rebuild_disks", sheet, disks, plan, size, buffer) == told(refusal)[:2]
    assert buffer.raw == after


def test_equations(sheet: bytes, disks: bytes) -> list[int]:
    """Which list is free: it is among the survivors, right and enough, and from its end on there is nothing. Answers the list."""
    refusal = equations_refusal(sheet, disks)
    number, place, count = ask("equations", sheet, disks)
    if refusal:
        assert (number, place, count) == (*refusal, 0)
    found = [ask("equation", sheet, disks, index) for index in range(count)]
    assert all((number, place, high) == (0, 0, 0) for number, place, _, high in found)
    assert refusal or (number, place, judge_equations(read_code(sheet), disks, [low for _, _, low, _ in found])) == (0, 0, None)
    for beyond in (count, count + 1, 64 + count, 2**32, 2**63, 2**64 - 1):
        assert ask("equation", sheet, disks, beyond) == (*(refusal or (0, 0)), 0, 0)
    return [low for _, _, low, _ in found]


def told_test(answer: Tested) -> tuple[int, ...]:
    """Number, place, sound and column."""
    if isinstance(answer, Refusal):
        return (*answer, 0, 0)
    return (0, 0, 0, answer.column) if isinstance(answer, Unsound) else (0, 0, 1, 0)


def test_soundness(sheet: bytes, disks: bytes, size: int, stripe: bytes) -> None:
    assert ask("test_survivors", sheet, disks, size, stripe) == told_test(test_survivors(sheet, disks, size, stripe))


def test_views(sheet: bytes, disk: int, size: int, stripe: bytes, spare: bytes, symbol: int) -> None:
    expected = {
        "strip": second.strip(sheet, disk, size, stripe),
        "look_up": second.look_up(sheet, disk, size, stripe, spare, symbol),
    }
    for call, shown in expected.items():
        given = (sheet, disk, size, stripe) + ((spare, symbol) if call == "look_up" else ())
        which, start, length = ask(call, *given)
        refusal = shown if isinstance(shown, Refusal) else None
        assert (stripe, spare)[which][start : start + length] == (b"" if refusal else shown)
        assert ask(call + "_verdict", *given) == told(refusal)[:2]


def any_disks(code: Code) -> bytes:
    """A good list of disks in three of four cases, else one with another entry, order or count."""
    every = list(range(code.disks))
    good = sorted(shuffled(every)[: 1 + below(min(4, len(every)))] if below(4) else every)
    bad = [good[:-1] + [below(256)], good[::-1], good + good[-1:], [], every + [below(code.disks)], [0] * chosen((255, 256, 300)), [0] * 300 + [255]]
    return bytes(good if below(4) else chosen(bad))


def any_list(code: Code, disks: Disks) -> bytes:
    """A good list of the disks' symbols in two of three cases, else one with another entry, order or count."""
    lost = [symbol for symbol in range(code.symbols) if symbol // code.height in disks] or [0]
    good = sorted(shuffled(lost)[: 1 + below(len(lost))])
    bad = [good[:-1] + [below(256)], good[::-1], good + good[-1:], [], lost + [lost[-1] + 1], good[:1] * chosen((255, 256, 300))]
    return bytes(good if below(3) else chosen(bad))


def with_fault(states: States) -> States:
    """Another kind, price or factor of some disk, or shorter lists."""
    lists, which = [list(listed) for listed in states], below(4)
    if which == 3:
        return States(*(listed[: below(len(listed) + 1)] for listed in lists))
    lists[which][below(len(lists[which]))] = chosen(((0, 1, 2, 3, 255), NO_PRICES, NO_FACTORS)[which])
    return States(*lists)


def with_faults(plan: bytes) -> list[bytes]:
    """A plan, with one byte changed, and one byte short; or no bytes, where there is none."""
    return [plan, changed(plan, below(len(plan)), below(10)), plan[:-1]] if plan else [b""]


def test_array(code: Code) -> None:
    good, size = sheet_of(code), chosen((1, 2, 7))
    for sheet in (*[good] * 6, changed(good, below(len(good)), below(256)), good[:-1], good + b"\0", b""):
        test_read_code(sheet)
        for fault in range(4):
            own = below(code.disks)
            disk = chosen((code.disks, 256 + own, 2**32 + own, 2**64 - 1)) if fault == 1 else own
            length = chosen((0, 65537)) if fault == 2 else size
            stripe = random_bytes(code.symbols * size + (fault == 3))
            test_encode(sheet, length, random_bytes(code.data_symbols * size), stripe)
            test_encode(sheet, length, random_bytes(code.data_symbols * size + 1), stripe)
            spare = random_bytes(code.height * size + chosen((0, 0, 1)))
            test_views(sheet, disk, length, stripe, spare, below(code.symbols + 1))
            listed = any_list(code, [own])
            plan = test_plan(sheet, for_disk(disk), BUFFER - chosen((0, 0, 0, 1)) + chosen((0, 0, 9)))
            part = test_plan(sheet, for_disk(disk, listed), LIST_BUFFER - chosen((0, 0, 0, 1, 33)) + chosen((0, 0, 9)))
            stated = [plan_sheet(code, own, []), plan_sheet(code, own, [], listed=listed[:255])]
            for tried in with_faults(plan) + with_faults(part) + stated:
                test_check(sheet, disk, tried)
                test_rebuild(sheet, disk, tried, length, stripe)
        test_sets(code, sheet, chosen((size, size, 0)), random_bytes(code.symbols * size + chosen((0, 0, 1))))


def test_sets(code: Code, sheet: bytes, size: int, stripe: bytes) -> None:
    """The calls for sets of disks, and each kind of call with sheets of the other editions."""
    disks = any_disks(code)
    listed = chosen((b"", any_list(code, disks)))
    plan = test_plan(sheet, for_disks(disks, listed), SET_BUFFER - chosen((0, 0, 0, 1, 96)) + chosen((0, 0, 9)))
    one = test_plan(sheet, for_disks(disks[:1]), SET_BUFFER)
    test_lost_patterns(sheet, disks, listed)
    test_fewest(sheet, disks, listed, SET_BUFFER - chosen((0, 0, 0, 1, 96)) + chosen((0, 0, 9)))
    test_priced(sheet, disks, listed, any_states(code.disks), SET_BUFFER - chosen((0, 0, 0, 1, 96)) + chosen((0, 0, 9)))
    test_priced(sheet, disks, listed, with_fault(any_states(code.disks)), SET_BUFFER)
    stated = [set_sheet(code, disks[:255], []), set_sheet(code, disks[:255], [], listed=listed[:255]), plan_sheet(code, (disks or b"\0")[0], [])]
    for tried in with_faults(plan) + with_faults(one) + stated:
        for asked in (disks, disks[:1]):
            test_check_disks(sheet, asked, tried)
            test_rebuild_disks(sheet, asked, tried, size, stripe)
        test_check(sheet, sum(disks[:1]), tried)
    test_equations(sheet, disks)
    data = random_bytes(code.data_symbols * size)
    for given in (stripe, second.encoding(code, size, data) if size else b""):
        test_soundness(sheet, disks, size, given)
        for _ in range(3):
            given = damaged(given, below(len(given)), 1 + below(255)) if given else given
            test_soundness(sheet, disks, size, given)
    test_soundness(sheet, disks, chosen((0, 65537, 2**32 + size, 2**64 - 1)), stripe)


def test_large_disks() -> None:
    """A disk of 256 or more, which in its low byte looks like the plan's own."""
    sheet, alone = sheet_of(second.SQUARE), set_sheet(second.SQUARE, [0], [])
    for plan in (P2, ROW_1, alone, TWO_DISKS, b""):
        for disk in (0, 3, 4, 255, 256, 257, 2**32, 2**61, 2**63, 2**64 - 1):
            test_check(sheet, disk, plan)
            test_rebuild(sheet, disk, plan, 2, random_bytes(16))
            test_plan(sheet, for_disk(disk), BUFFER)
            test_plan(sheet, for_disk(disk, b"\1"), LIST_BUFFER)


def test_two_losses() -> None:
    """Every two disks of the families that stand it have a plan, and it is accepted and run."""
    for code in (second.liberation(3, 3), second.liberation(5, 4), second.row_diagonal(5), second.evenodd(3)):
        sheet, stripe = sheet_of(code), second.encoding(code, 3, random_bytes(3 * code.data_symbols))
        for pair in combinations(range(code.disks), 2):
            plan = test_plan(sheet, for_disks(bytes(pair)), SET_BUFFER)
            assert plan
            test_check_disks(sheet, bytes(pair), plan)
            test_rebuild_disks(sheet, bytes(pair), plan, 3, stripe)


def test_how_much_is_gone() -> None:
    """From one pattern to 64, for one disk and for all of them; and what a worked case has."""
    units = tuple(2**bit for bit in range(64))
    for code in (Code(64, 1, 64, units), Code(2, 32, 64, units), Code(2, 32, 64, (0,) * 20 + units[:44]), Code(2, 32, 3, units[:3] * 20 + (0,) * 4)):
        sheet, every = sheet_of(code), bytes(range(code.disks))
        for disk in (0, code.disks - 1):
            test_plan(sheet, for_disk(disk), BUFFER)
            test_plan(sheet, for_disk(disk, bytes([disk * code.height])), LIST_BUFFER)
        for disks, listed in [(every, b""), (every, bytes(range(0, 64, 2))), (every[1:], b""), (every[:1], b"")]:
            test_plan(sheet, for_disks(disks, listed), SET_BUFFER)
    assert ask("plan", sheet_of(Code(2, 1, 2, (1, 2))), 0, lent(bytes(BUFFER))) == (0, 0, 0, 0, 1, 0, 1)
    assert test_lost_patterns(sheet_of(second.SQUARE), b"\0\1", b"") == [15]
    assert len(test_lost_patterns(sheet_of(second.SQUARE), bytes(range(4)), b"")) == 4


def test_fewest_reads() -> None:
    """The square code, every family within range, and both sides of 16 survivors, with a plan and without."""
    assert [test_fewest(sheet_of(second.SQUARE), bytes([disk]), b"") for disk in range(4)] == [3, 3, 4, 4]
    for name, code in families():
        stood = 1 if name.startswith("single parity") else 2
        for disks in [disks for disks in sets_in_range(code) if len(disks) <= stood]:
            test_fewest(sheet_of(code), bytes(disks), b"")
            test_fewest(sheet_of(code), bytes(disks), any_list(code, disks))
    every, ones = range(64), Code(64, 1, 1, (1,) * 64)
    for code in (units(64), ones, ones._replace(rows=(0,) * 64)):
        for left in (0, 1, 15, 16, 17, 18, 63):
            test_fewest(sheet_of(code), bytes(sorted(shuffled(every)[: 64 - left])), b"")
    for k, r in [(16, 1), (17, 1), (8, 2), (9, 2), (4, 4), (5, 4), (1, 16), (1, 17)]:
        test_fewest(sheet_of(second.single_parity(k, r)), bytes([below(k + 1)]), b"")
    for code in (units(17), units(18)):
        test_fewest(sheet_of(code), bytes([below(code.disks)]), b"")


def test_fewest_refused() -> None:
    """Each refusal, each with each, and NULL with length 0, of an array that is small enough and of one that isn't."""
    for code in (second.SQUARE, second.row_diagonal(5), second.liberation(7, 7), units(18)):
        good = sheet_of(code)
        sheets = [good, b"", good[:5], changed(good, 0, 5), changed(good, 1, 2), changed(good, 4, 0), changed(good, 13, 128), good[:-1], good + b"\0"]
        lists = [b"", b"\0", b"\0\0", bytes([code.height]), b"\0\377", bytes(code.height + 1), bytes(300)]
        for sheet in sheets:
            for disks in (b"\0", b"", b"\0\0", bytes([0, code.disks]), bytes([1, 0]), bytes(code.disks + 1), bytes(300), b"\377"):
                for listed in lists:
                    for length in (0, 3209, 3210):
                        test_fewest(sheet, disks, listed, length)
    sheet, disks, buffer = sheet_of(second.SQUARE), b"\0", lent(bytes(SET_BUFFER))
    for given, number in [((None, disks, b"", buffer), 1), ((sheet, None, b"", buffer), 24), ((sheet, disks, b"", None), 34), ((None,) * 4, 1)]:
        assert ask("plan_fewest", *given) == (number, 0, 0, 0, 0, 0, 0)
    assert ask("plan_fewest", sheet, disks, None, buffer)[:4:3] == (0, 3)


def test_prices() -> None:
    """Sums whose last bit goes by the order; each price and factor at the limits and beyond, at each disk; a busy disk is left alone."""
    for code, given, expected in [
        (second.single_parity(3, 1), [0.1, 0.2, 0.3, 1.0], "3FE3333333333334"),
        (second.single_parity(3, 1), [0.3, 0.2, 0.1, 1.0], "3FE3333333333333"),
        (second.single_parity(1, 5), [(0.1, 3.0), 1.0], "3FF8000000000000"),
        (second.single_parity(1, 3), [(0.1, 3.0), 1.0], "3FECCCCCCCCCCCCE"),
        (second.single_parity(3, 1), [-0.0, (-0.0, 64.0), -0.0, -0.0], "0000000000000000"),
        (second.single_parity(3, 1), [5e-324, (5e-324, 1.5), 5e-324, 1.0], "0000000000000004"),
        (second.single_parity(1, 32), [(1e6, 64.0), 1.0], "41DE848000000000"),
    ]:
        answer = test_priced(sheet_of(code), bytes([code.disks - 1]), b"", states_of(given))
        assert isinstance(answer, Priced) and answer.settled and bits(answer.sum) == bytes.fromhex(expected)
    sheet = sheet_of(second.SQUARE)
    for disk, price, asked in product(range(4), PRICES + NO_PRICES, (b"\0", b"\0\2")):
        for state in (price, *((price, factor) for factor in FACTORS[::3])):
            test_priced(sheet, asked, b"", states_of([state if at == disk else 1.0 for at in range(4)], chosen((0, 1, 60))))
    for disk, factor, price in product(range(4), FACTORS + NO_FACTORS, (0.0, 0.1, 1e6)):
        test_priced(sheet, b"\0", b"", states_of([(price, factor) if at == disk else (0.7, 1.1) for at in range(4)]))
    for state, read in [(1.0, {3, 5, 6}), ((1.0, 10.0), {2, 3, 6, 7}), (None, {2, 3, 6, 7})]:
        answer = test_priced(sheet, b"\0", b"", states_of([1.0, 1.0, state, 1.0]))
        assert isinstance(answer, Priced) and (answer.sum, read_by(sets_made(steps_of(answer.plan)))) == (len(read), read)
    assert test_priced(sheet, b"\0", b"", states_of([1.0, None, 1.0, 1.0])) == Gone([15])


def test_away() -> None:
    """Disks away, asked about and not, one, several and all of them, with a list and without."""
    small = (Code(3, 2, 1, (0,) * 6), Code(4, 1, 1, (1, 0, 1, 1)))
    for code in (second.SQUARE, second.row_diagonal(3), second.evenodd(3), second.liberation(3, 3), *small):
        every = range(code.disks)
        for count in range(code.disks + 1):
            for away in combinations(every, count):
                states: list[State] = [None if disk in away else chosen((1.0, 0.3, (0.7, 2.0))) for disk in every]
                disks = bytes(sorted(shuffled(every)[: 1 + below(2)]))
                test_priced(sheet_of(code), disks, chosen((b"", any_list(code, disks))), states_of(states, chosen((0, 7))))
                test_priced(sheet_of(code), bytes([below(code.disks)]), b"", states_of(states))


def test_short_lists() -> None:
    """Lists that end before a disk's entry is needed, at it and after it, and kinds that are none."""
    for sheet, lengths in [(sheet_of(second.SQUARE), range(6)), (sheet_of(units(64)), (0, 1, 62, 63, 64, 65))]:
        for kind in (0, 1, 2, 3):
            for kinds, prices, factors in product(lengths, repeat=3):
                test_priced(sheet, b"\0", b"", States([kind] * kinds, [0.5] * prices, [2.0] * factors))
                test_priced(sheet, b"\1", b"", States([0] * (kinds // 2) + [kind] * (kinds - kinds // 2), [0.5] * prices, [2.0] * factors))
    for kind in range(256):
        test_priced(sheet_of(second.SQUARE), b"\0", b"", States([1, kind, 1, 1], [1.0] * 4, [1.0] * 4))


def test_many_swaps() -> None:
    """Arrays that swaps can count down with, on both sides of 1,024. Which swaps are made is free; those that the library makes count by one."""
    found = set()
    for number, falling in product((0, 1, 511, 1022, 1023, 1024, 1025, 1026, 2046, 2047), (False, True)):
        code, states = counting(number, falling=falling)
        answer = test_priced(sheet_of(code), b"\0", b"", states)
        assert isinstance(answer, Priced)
        found.add((number, answer.settled, answer.sum))
    assert {(1024, True, 0.0), (1025, False, 1.0), (2047, False, 1023.0)} <= found, "no array takes 1,024 swaps any more: find others"


def test_priced_families() -> None:
    """Every family but the smaller single parities, with one disk lost and with two, at prices by chance; and the largest codes."""
    for name, code in families():
        if not name.startswith("single parity") or code.symbols >= 60:
            sheet = sheet_of(code)
            for count in (1, 1, 2, 2):
                disks = bytes(sorted(shuffled(range(code.disks))[:count]))
                test_priced(sheet, disks, chosen((b"", any_list(code, disks))), any_states(code.disks, chosen((6, 1000))))
                test_priced(sheet, disks, b"", states_of([1.0] * code.disks))
    for code in (random_code(64, 1, 20), random_code(2, 32, 30), random_code(8, 8, 24), random_code(32, 2, 40), random_code(16, 4, 16)):
        for _ in range(4):
            test_priced(sheet_of(code), bytes([below(code.disks)]), b"", any_states(code.disks, 40))


def test_priced_refused() -> None:
    """Each refusal, each with each, and NULL with length 0."""
    for code in (second.SQUARE, units(18)):
        good = sheet_of(code)
        sheets = [good, b"", good[:5], changed(good, 0, 5), changed(good, 1, 2), changed(good, 4, 0), good[:-1], good + b"\0"]
        lists = [b"", b"\0", b"\0\0", bytes([code.height]), bytes(code.height + 1), bytes(300)]
        for sheet, listed, length in product(sheets, lists, (0, 3209, 3210)):
            for disks in (b"\0", b"", b"\0\0", bytes([0, code.disks]), bytes([1, 0]), bytes(code.disks + 1), bytes(300), b"\377"):
                for state in (1.0, NAN):
                    test_priced(sheet, disks, listed, states_of([1.0] * (code.disks - 1) + [state]), length)
    sheet, disks, kinds, one, buffer = sheet_of(second.SQUARE), b"\0", b"\1" * 4, doubles([1.0] * 4), lent(bytes(SET_BUFFER))
    for given, number in [
        ((None, disks, b"", kinds, one, one, buffer), 1),
        ((sheet, None, b"", kinds, one, one, buffer), 24),
        ((sheet, disks, b"", kinds, one, one, None), 34),
        ((sheet, disks, b"", None, one, one, buffer), 42),
        ((sheet, disks, b"", kinds, None, one, buffer), 42),
        ((sheet, disks, b"", b"\2" * 4, one, None, buffer), 42),
        ((None,) * 7, 1),
    ]:
        assert ask("plan_priced", *given) == (number, 0, 0, 0, 0, 0.0, 0, 0, 0)
    assert ask("plan_priced", sheet, disks, None, kinds, one, None, buffer)[3:6] == (3, 1, 3.0)
    assert ask("plan_priced", sheet, disks, None, bytes(4), None, None, buffer)[-1] == 2


def test_every_survivor() -> None:
    """Every single byte of a stripe of each family, with every disk lost; and the longest symbols, first, last and middle column."""
    for code in (second.liberation(3, 3), second.liberation(5, 5), second.row_diagonal(5), second.evenodd(3), second.single_parity(4, 3)):
        sheet, stripe = sheet_of(code), second.encoding(code, 3, random_bytes(3 * code.data_symbols))
        for disk in range(code.disks):
            test_equations(sheet, bytes([disk]))
            test_soundness(sheet, bytes([disk]), 3, stripe)
            for at in range(len(stripe)):
                test_soundness(sheet, bytes([disk]), 3, damaged(stripe, at, 1 + below(255)))
    for code in (Code(2, 1, 1, (0, 1)), second.row_diagonal(3)):
        for size in (4095, 4096, 4097, 65535, 65536):
            stripe = second.encoding(code, size, (random_bytes(97) * 676)[:size] * code.data_symbols)
            for disk in range(code.disks):
                test_soundness(sheet_of(code), bytes([disk]), size, stripe)
                for column in (0, size // 2, size - 1):
                    test_soundness(sheet_of(code), bytes([disk]), size, damaged(stripe, below(code.symbols) * size + column))
    every = bytes(range(64))
    for code in (Code(64, 1, 1, (0,) * 64), Code(64, 1, 64, tuple(2**bit for bit in range(64))), Code(2, 32, 5, (31,) * 64)):
        sheet = sheet_of(code)
        for disks in (every[: code.disks], every[:1], every[code.disks - 1 : code.disks], every[1 : code.disks]):
            test_equations(sheet, disks)
            test_soundness(sheet, disks, 2, random_bytes(128))
            test_soundness(sheet, disks, 2, bytes(128))


def main() -> None:
    for which in (second.SINGLE_PARITY, second.LIBERATION, second.ROW_DIAGONAL, second.EVENODD):
        for first in range(10):
            for other in range(10):
                for length in (0, 518, chosen((69, 70, 285, 286, 300))):
                    test_family(which, first, other, length)
    for code in SPECIAL_CODES + [second.liberation(5, 5), second.row_diagonal(5), second.evenodd(5), second.single_parity(4, 3)]:
        test_array(code)
    for _ in range(60):
        test_array(random_code(2 + below(4), 1 + below(4), 1 + below(8)))
    test_large_disks()
    test_two_losses()
    test_how_much_is_gone()
    test_fewest_reads()
    test_fewest_refused()
    test_prices()
    test_away()
    test_short_lists()
    test_many_swaps()
    test_priced_families()
    test_priced_refused()
    test_every_survivor()
    print(f"the C interface: {calls} calls answer as the second program")


LIBRARY = load(sys.argv[1])
main()
