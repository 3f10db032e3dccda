"""The second program's judge of plans where disks cost more to read: what such planning may answer, worked out anew.

Which swaps are made is free, so that it makes none: it judges what was given. The sets of survivors are what the steps of a plan make, and
whether a single swap lowers their sum is seen by how many sets hold each symbol. The sums are Python's floats, which are the same doubles;
that each operation is rounded once is tried with exact fractions.

    python3 tests/second_priced.py     runs its own test, on worked cases, on sums by fractions, on swaps by unions of sets, on arrays that
                                       take 1,024 swaps and more, and on planners that are wrong; then it judges the lines of
                                       crates/planvectors/stdout that were asked for at prices
"""
import math
import struct
from collections import Counter
from fractions import Fraction
from functools import cache, reduce
from operator import add, gt, le, lt
from random import Random
from typing import Callable, Iterable, Iterator, NamedTuple, Optional, Sequence, Union

import second_planner
from arrays import below, chosen
from plans import fill, sources_of, survivors
from second import SQUARE, Code, Refusal, bits_of, changed, evenodd, liberation, read_code, row_diagonal, sheet_of, single_parity
from second_checker import ADD, CLEAR, COPY, Step, check, lost_places, read_count, set_sheet, steps_of
from second_fewest import NOTHING, SAME, Gone, any_question, patterns_of, sets_of
from second_planner import HALF, P8, P9, SET_BUFFER, Asked, Fault, Wish, for_disks, judge_patterns, judge_plan, let_stand, planning_refusal, printed
from second_soundness import equations_of

AWAY, IDLE, BUSY = 0, 1, 2
HIGHEST_PRICE, HIGHEST_FACTOR = 1_000_000.0, 64.0
MOST_SWAPS = 1024
SMALLEST = 5e-324
"""The smallest double above 0."""

NAN, INFINITY = math.nan, math.inf
RANDOM = Random(14)


class States(NamedTuple):
    """What a call is told of the disks: for each its kind, its price and its factor, as far as the lists go."""

    kinds: Sequence[int]
    prices: Sequence[float] = ()
    factors: Sequence[float] = ()


State = Union[None, float, tuple[float, float]]
"""Away, idle at a price, or busy at a price and a factor."""


def states_of(given: Sequence[State], more: int = 0) -> States:
    """As a call is told. What a kind doesn't use is no number, and so is what the entries after these have, as many as are asked for."""
    kinds, prices, factors = [], [], []
    for state in given:
        pair = state if isinstance(state, tuple) else (NAN if state is None else state, NAN)
        kinds.append(AWAY if state is None else BUSY if isinstance(state, tuple) else IDLE)
        prices.append(pair[0])
        factors.append(pair[1])
    return States(kinds + [255] * more, prices + [NAN] * more, factors + [NAN] * more)


def told_bytes(states: States) -> bytes:
    """The states of a record: the number of entries, at most 64, then kinds, prices and factors, as many of each."""
    count = len(states.kinds)
    assert count == len(states.prices) == len(states.factors) <= 64
    return bytes([count, *states.kinds]) + struct.pack(f"<{2 * count}d", *states.prices, *states.factors)


def states_in(told: bytes) -> States:
    numbers = struct.unpack(f"<{2 * told[0]}d", told[1 + told[0] :])
    return States(told[1 : 1 + told[0]], numbers[: told[0]], numbers[told[0] :])


# What is refused


def has_within(listed: Sequence[float], disk: int, least: float, most: float) -> bool:
    """Whether a list has a number for the disk, and it is within the limits. NaN is neither above nor below anything."""
    return disk < len(listed) and least <= listed[disk] <= most


def is_state(states: States, disk: int) -> bool:
    kind = states.kinds[disk] if disk < len(states.kinds) else None
    if kind in (IDLE, BUSY) and not has_within(states.prices, disk, 0, HIGHEST_PRICE):
        return False
    if kind == BUSY and not has_within(states.factors, disk, 1, HIGHEST_FACTOR):
        return False
    return kind in (AWAY, IDLE, BUSY)


def priced_refusal(sheet: bytes, wish: Wish, states: States, buffer_length: int) -> Optional[Refusal]:
    """The order: code sheet, 7, 24, 23, 34, 42. States from n on are of no account."""
    refusal = planning_refusal(sheet, wish, buffer_length)
    if refusal:
        return refusal
    bad = (disk for disk in range(read_code(sheet).disks) if not is_state(states, disk))
    return next((Refusal(42, disk) for disk in bad), None)


# What is lost, and what it costs to read


def with_away(code: Code, wish: Wish, states: States) -> Wish:
    """The away disks are lost too; what is wanted stays what it was, and is listed one by one."""
    away = {disk for disk in range(code.disks) if states.kinds[disk] == AWAY}
    return for_disks(bytes(sorted({*wish.disks, *away})), bytes(wish.wanted(code)))


def charge(states: States, disk: int, reads: int) -> float:
    """Nothing is read of a disk that is away."""
    if states.kinds[disk] == AWAY:
        return 0.0
    priced = float(reads) * states.prices[disk]
    return priced * states.factors[disk] if states.kinds[disk] == BUSY else priced


def sum_of_counts(states: States, counts: Sequence[int]) -> float:
    """For so many symbols that are read of each disk."""
    total = 0.0
    for disk, reads in enumerate(counts):
        total = total + charge(states, disk, reads)
    return total


def sum_of(code: Code, states: States, read: Iterable[int]) -> float:
    """For the symbols that are read, each once."""
    counts = Counter(symbol // code.height for symbol in set(read))
    return sum_of_counts(states, [counts[disk] for disk in range(code.disks)])


def bits(number: float) -> bytes:
    return struct.pack(">d", number)


# Sets of survivors

Sets = dict[int, frozenset[int]]
"""For each wanted symbol the survivors that XOR to it."""


def sets_made(steps: Sequence[Step]) -> Sets:
    """What the steps of an accepted plan make of each wanted symbol. A source that no step has filled is a survivor."""
    made: Sets = {}
    for kind, target, source in steps:
        taken = made.get(source, frozenset([source])) if kind != CLEAR else frozenset()
        made[target] = made[target] ^ taken if kind == ADD else taken
    return made


def read_by(sets: Sets) -> set[int]:
    return {symbol for own in sets.values() for symbol in own}


def sums_after_swaps(code: Code, states: States, sets: Sets, equations: Sequence[int]) -> Iterator[tuple[int, int, float]]:
    """For each wanted symbol and each equation the sum once they are XORed. A symbol of the equation is read anew where no set held it, and no
    more where this set alone did; all others stay."""
    held = Counter(symbol for own in sets.values() for symbol in own)
    reads = Counter(symbol // code.height for symbol in held)
    charges = [[charge(states, disk, count) for count in range(code.height + 1)] for disk in range(code.disks)]
    symbols = {equation: bits_of(equation) for equation in equations}
    for wanted, own in sets.items():
        for equation in equations:
            counts = [reads[disk] for disk in range(code.disks)]
            for symbol in symbols[equation]:
                if held[symbol] == (symbol in own):
                    counts[symbol // code.height] += -1 if symbol in own else 1
            total = 0.0
            for own_charges, count in zip(charges, counts):
                total = total + own_charges[count]
            yield wanted, equation, total


# What was given


class Priced(NamedTuple):
    """A plan sheet; and of the answer the read count, whether it is settled, and the sum."""

    plan: bytes
    reads: int
    settled: bool
    sum: float


Answer = Union[Priced, Gone, Refusal]


class Known(NamedTuple):
    """What an answer is held to, both for the lost disks with the away ones: the plan of ordinary planning, for the wanted symbols one by one, or no
    bytes where there is none; and the list of equations. Which ones these are is free, so that they are asked for where the answer comes from."""

    start: bytes
    equations: Sequence[int]


def judge_priced(sheet: bytes, wish: Wish, states: States, buffer_length: int, answer: Answer, known: Callable[[Wish], Known]) -> Fault:
    """Whether this may be answered: the right refusal; a plan that planning for edition 3 may give for the lost disks with the away ones, made of
    the start by swaps; or, where no plan avoids the away disks, patterns that planning may give."""
    refusal = priced_refusal(sheet, wish, states, buffer_length)
    if refusal or isinstance(answer, Refusal):
        return None if answer == refusal else f"{answer}, not {refusal}"
    code = read_code(sheet)
    lost = with_away(code, wish, states)
    if isinstance(answer, Gone):
        return judge_patterns(sheet, lost, answer.patterns) if answer.patterns else "neither a plan nor patterns"
    return judge_plan(sheet, lost, answer.plan, answer.reads) or judge_swaps(code, lost, states, answer, known(lost))


def judge_reads(code: Code, lost: Wish, states: States, answer: Priced) -> Fault:
    """Whether the sum is that of what an accepted plan reads, and it reads what its sets have and nothing besides."""
    sets = sets_made(steps_of(answer.plan))
    read = {step.source for step in steps_of(answer.plan) if step.kind != CLEAR} - set(lost_places(code, lost.disks))
    total = sum_of(code, states, read)
    if bits(answer.sum) != bits(total):
        return f"the sum {answer.sum.hex()}, and what is read costs {total.hex()}"
    if read != read_by(sets):
        return f"symbols {sorted(read - read_by(sets))} are read, and no set has them"
    return None


def judge_swaps(code: Code, lost: Wish, states: States, answer: Priced, known: Known) -> Fault:
    """Whether swaps can have led from the start to this plan, which is accepted, and whether it is rightly called settled or stopped."""
    fault = judge_reads(code, lost, states, answer)
    if fault:
        return fault
    sets, start = sets_made(steps_of(answer.plan)), sets_made(steps_of(known.start))
    total, first = sum_of(code, states, read_by(sets)), sum_of(code, states, read_by(start))
    if first < total:
        return f"the sum {total}, above {first}, the start's"
    if first == total and sets != start:
        return "other sets than the start's, at the same sum: a swap that doesn't lower it"
    lower = next((swap for swap in sums_after_swaps(code, states, sets, known.equations) if swap[2] < total), None)
    if answer.settled and lower:
        return f"settled, and symbol {lower[0]} with equation {lower[1]} lowers the sum to {lower[2]}"
    if not answer.settled and not lower:
        return "stopped, and no swap lowers the sum"
    if not answer.settled and swaps_between(code, lost, states, first, total) < MOST_SWAPS:
        return f"stopped, and there is no room for {MOST_SWAPS} swaps"
    return None


def swaps_between(code: Code, lost: Wish, states: States, start: float, final: float) -> int:
    """At most so many swaps lead from a sum to another. Each lowers it, to what some other counts of symbols read cost; where all charges are whole
    numbers, by 1 or more."""
    present = [disk for disk in range(code.disks) if disk not in lost.disks]
    most = (code.height + 1) ** len(present) - 1
    used = [states.prices[disk] for disk in present] + [states.factors[disk] for disk in present if states.kinds[disk] == BUSY]
    return min(most, int(start - final)) if all(number.is_integer() for number in used) else most


# Lines


def judge_line(asked: Asked, line: str) -> Fault:
    """Whether a line of the vectors may stand: as one of planning for the lost disks with the away ones and the wanted symbols one by one, but for
    42, the sum and what it is called. Lines have neither the start nor the equations, so that what needs these isn't judged: whether the start
    is cheaper, and whether a swap would lower the sum of a plan that is called settled."""
    states = states_in(asked.told)
    refusal = priced_refusal(asked.sheet, asked.wish, states, asked.buffer_length)
    if refusal:
        expected = f"refused {refusal.number} at {refusal.place} same"
        return None if line == expected else f"not '{expected}'"
    code, words = read_code(asked.sheet), line.split(" ")
    lost = with_away(code, asked.wish, states)
    planned = Asked(asked.sheet, 0, shown=asked.shown, listed=lost.listed, disks=lost.disks, buffer_length=asked.buffer_length)
    if words[0] == "patterns":
        return second_planner.judge_line(planned, line)
    if words[0] != "priced" or len(words) != 9 or words[4] not in ("settled", "stopped"):
        return "neither a plan at prices with its bytes nor patterns"
    fault = second_planner.judge_line(planned, " ".join(["plan", *words[1:3], *words[5:]]))
    answer = Priced(bytes.fromhex(words[8]), int(words[2]), words[4] == "settled", struct.unpack("<d", int(words[3]).to_bytes(8, "little"))[0])
    return fault or judge_reads(code, lost, states, answer) or judge_stopped(code, lost, states, answer)


def judge_stopped(code: Code, lost: Wish, states: States, answer: Priced) -> Fault:
    """A plan is stopped only if 1,024 swaps can have been made, from any start, and its sum can still be lowered. None costs more than to read all
    survivors."""
    most = sum_of(code, states, survivors(code, lost.disks))
    if not answer.settled and (answer.sum == 0 or swaps_between(code, lost, states, most, answer.sum) < MOST_SWAPS):
        return f"stopped, and there is no room for {MOST_SWAPS} swaps and another"
    return None


# States to ask with

PRICES = (0.0, -0.0, SMALLEST, 2.0**-1022, 0.1, 0.2, 0.3, 0.7, 1.0, 1.0, 1.0, 3.0, 10.0, 999999.9, HIGHEST_PRICE)
FACTORS = (1.0, math.nextafter(1.0, 2.0), 1.1, 1.5, 3.0, 10.0, math.nextafter(64.0, 0.0), HIGHEST_FACTOR)
NO_PRICES = (-SMALLEST, -1.0, math.nextafter(HIGHEST_PRICE, INFINITY), 1e300, INFINITY, -INFINITY, NAN, -NAN)
NO_FACTORS = (0.0, -0.0, math.nextafter(1.0, 0.0), math.nextafter(64.0, 65.0), 65.0, -1.0, INFINITY, -INFINITY, NAN)


def any_number(at_limits: Sequence[float], least: int, most: int) -> float:
    """One of some, a whole number, or one with a random fraction."""
    return chosen((chosen(at_limits), float(least + below(most - least)), least + (most - least - 1) * RANDOM.random(), least + RANDOM.random()))


def any_state(away: int) -> State:
    """Of so many, one is away."""
    if below(away) == 0:
        return None
    price = any_number(PRICES, 0, 100)
    return (price, any_number(FACTORS, 1, 64)) if below(3) == 0 else price


def any_states(disks: int, away: int = 6) -> States:
    """Random states of so many disks, and more."""
    return states_of([any_state(away) for _ in range(disks)], chosen((0, 1, 64 - disks)))


# Arrays that take many swaps


def counting(number: int, width: int = 11, falling: bool = False) -> tuple[Code, States]:
    """An array that swaps can count down with. Disk 0 is lost, and is the XOR of the disks of the number's bits; of these `width` disks the
    first costs 1, the next 2, and so on by powers of 2. Each of as many disks that cost nothing is the XOR of the first ones. The sum is a
    number, and a swap with one of them flips its lowest bits: with the shortest that lowers it, it becomes one less."""
    sums = [2 ** (bit + 1) - 1 for bit in range(width)]
    code = Code(1 + 2 * width, 1, width, (number, *(2**bit for bit in range(width)), *(sums[::-1] if falling else sums)))
    return code, states_of([0.0] + [2.0**bit for bit in range(width)] + [0.0] * width)


# The program's own test

SQUARE_SHEET = sheet_of(SQUARE)
ONES = states_of([1.0] * 4)
TWICE = Code(3, 2, 1, (1, 1, 1, 0, 1, 0))
"""Both symbols of disk 0 are symbol 2, and symbol 4 too."""


def start_sets(code: Code, lost: Wish) -> Optional[Sets]:
    """Each wanted symbol from the first survivors that make it, as ordinary planning may have it."""
    known = survivors(code, lost.disks)
    sums = {place: sources_of(code, place, known) for place in lost.wanted(code)}
    return None if None in sums.values() else {place: frozenset(sources) for place, sources in sums.items()}


def steps_from(sets: Sets) -> list[Step]:
    return [step for place, own in sets.items() for step in fill(place, sorted(own))]


def own_known(code: Code) -> Callable[[Wish], Known]:
    """Start and equations as the second program makes them."""

    def known(lost: Wish) -> Known:
        steps = steps_from(start_sets(code, lost) or {})
        return Known(set_sheet(code, lost.disks, steps, listed=lost.listed or ()), equations_of(code, lost.disks))

    return known


def exact_sum(code: Code, states: States, read: Iterable[int]) -> float:
    """The sum by fractions: each operation is exact, and then rounded once, since Python makes the nearest double of a fraction, or the even one."""
    total = 0.0
    for disk in range(code.disks):
        if states.kinds[disk] != AWAY:
            own = float(len({symbol for symbol in read if symbol // code.height == disk}) * Fraction(states.prices[disk]))
            if states.kinds[disk] == BUSY:
                own = float(Fraction(own) * Fraction(states.factors[disk]))
            total = float(Fraction(total) + Fraction(own))
    return total


def test_sums() -> None:
    """The order of the additions and of the products shows in the last bit; and sums of any prices, by fractions."""
    three = single_parity(3, 1)
    assert bits(sum_of(three, states_of([0.1, 0.2, 0.3, 0.0]), [0, 1, 2])) == bytes.fromhex("3FE3333333333334")
    assert bits(sum_of(three, states_of([0.3, 0.2, 0.1, 0.0]), [0, 1, 2])) == bytes.fromhex("3FE3333333333333")
    assert sum_of(single_parity(1, 5), states_of([(0.1, 3.0), None]), range(5)) == 1.5 != 5 * (0.1 * 3)
    assert bits(sum_of(three, states_of([-0.0, (-0.0, 64.0), -0.0, -0.0]), [0, 1])) == bits(0.0)
    assert sum_of(SQUARE, ONES, [2, 4, 7]) == 3 and sum_of(SQUARE, states_of([0.0, 1.0, (1.0, 10.0), 1.0]), [2, 4, 7]) == 12
    found = set()
    for _ in range(4000):
        code = Code(2 + below(9), 1 + below(6), 1, ())
        states = any_states(code.disks)
        read = [symbol for symbol in range(code.symbols) if states.kinds[symbol // code.height] != AWAY and below(2)]
        assert bits(sum_of(code, states, read)) == bits(exact_sum(code, states, read))
        found.add(sum_of(code, states, read))
    assert len(found) > 3000 and 0.0 in found
    tiny = states_of([SMALLEST, (SMALLEST, 1.5), (3 * SMALLEST, 1.5), 2.0**-1022])
    for read in ([0, 2], [2, 3], [4], [4, 5], list(range(8))):
        assert bits(sum_of(SQUARE, tiny, read)) == bits(exact_sum(SQUARE, tiny, read)) != bits(0.0)


def test_refusals() -> None:
    """42 comes last, plan or no plan, at the lowest disk that can't be in its state."""
    whole = for_disks([0])

    def refusal(*given: State, more: int = 0) -> Optional[Refusal]:
        return priced_refusal(SQUARE_SHEET, whole, states_of(given, more), SET_BUFFER)

    for price in PRICES:
        assert refusal(None, price, (price, 1.0), price, more=60) is None
        assert all(refusal(1.0, 1.0, (price, factor), 1.0) is None for factor in FACTORS)
    for price in NO_PRICES:
        for disk in range(4):
            ones: list[State] = [1.0] * 4
            ones[disk] = price
            assert refusal(*ones) == Refusal(42, disk)
            ones[disk:] = [(price, 1.0)] * (4 - disk)
            assert refusal(*ones, more=60) == Refusal(42, disk)
    for factor in NO_FACTORS:
        assert refusal(None, None, (1.0, factor), (1.0, factor)) == Refusal(42, 2)
    assert refusal() == refusal(more=4) == Refusal(42) and refusal(1.0, 1.0, None) == Refusal(42, 3)
    for states, disk in [
        (States([1, 1, 1, 3], [1.0] * 4), 3),
        (States([1, 255, 3, 3], [1.0] * 4), 1),
        (States([1, 1, 1, 1], [1.0] * 3), 3),
        (States([1, 2, 1, 1], [1.0] * 4), 1),
        (States([1, 1, 1, 2], [1.0] * 4, [1.0] * 3), 3),
        (States([0, 0, 0, 1]), 3),
    ]:
        assert priced_refusal(SQUARE_SHEET, whole, states, SET_BUFFER) == Refusal(42, disk), states
    for states in (States([0] * 4), States([1] * 4, [0.0] * 4), States([1, 0, 0, 0], [1.0]), States([2, 1, 0, 0], [1.0] * 2, [1.0])):
        assert priced_refusal(SQUARE_SHEET, whole, states, SET_BUFFER) is None, states
        assert priced_refusal(SQUARE_SHEET, whole, states, SET_BUFFER - 1) == Refusal(34)
    for sheet, disks, listed, expected in [
        (SQUARE_SHEET[:-1], [4], [9], Refusal(1)),
        (SQUARE_SHEET, [1, 1, 4], [9], Refusal(7)),
        (SQUARE_SHEET, [1, 1], [9], Refusal(24, 1)),
        (SQUARE_SHEET, [1], [2, 2], Refusal(23, 1)),
    ]:
        assert all(priced_refusal(sheet, for_disks(disks, listed), States(()), length) == expected for length in (0, SET_BUFFER))
    assert priced_refusal(sheet_of(P8), whole, states_of([1.0, NAN]), SET_BUFFER) == Refusal(42, 1)


def test_lost() -> None:
    """All symbols of the asked disks, before the away ones join; asked disks that are away are lost once."""
    for disks, listed, states, lost, wanted in [
        ([0], [], ONES, [0], [0, 1]),
        ([0], [], states_of([1.0, None, 1.0, None]), [0, 1, 3], [0, 1]),
        ([1, 2], [], states_of([None, None, 1.0, 1.0]), [0, 1, 2], [2, 3, 4, 5]),
        ([2], [5], states_of([1.0, 1.0, 1.0, None]), [2, 3], [5]),
        ([0], [], states_of([None] * 4), [0, 1, 2, 3], [0, 1]),
    ]:
        assert with_away(SQUARE, for_disks(disks, listed), states) == for_disks(bytes(lost), bytes(wanted))


def test_sets() -> None:
    """Steps that hand places on, clear them and cancel; and sums after swaps, by unions of sets and fractions."""
    steps = [Step(CLEAR, 0, 0), Step(ADD, 0, 2), Step(COPY, 1, 0), Step(ADD, 1, 4), Step(ADD, 0, 3), Step(ADD, 0, 2)]
    assert sets_made(steps) == {0: {3}, 1: {2, 4}}
    tried = 0
    for _ in range(120):
        code, disks = any_question(6, 3, 8)
        sets, states = start_sets(code, for_disks(disks)), states_of([any_state(10**6) for _ in range(code.disks)])
        for wanted, equation, total in sums_after_swaps(code, states, sets or {}, equations_of(code, disks)):
            union = read_by({**sets, wanted: sets[wanted] ^ frozenset(bits_of(equation))})
            assert bits(total) == bits(exact_sum(code, states, union))
            tried += 1
    assert tried > 300


# Planners

Planner = Callable[[bytes, Wish, States, int], Answer]
Tester = Callable[[bytes, Wish, States, int], Optional[Refusal]]
Losing = Callable[[Code, Wish, States], Wish]
Cost = Callable[[Code, States, Sets], float]
Swapper = Callable[[Code, States, Sets, Sequence[int]], tuple[Sets, bool]]
Stepper = Callable[[Code, Wish, States, Sets], list[Step]]


def cost_of(code: Code, states: States, sets: Sets) -> float:
    return sum_of(code, states, read_by(sets))


def swapping(
    cost: Cost = cost_of,
    lowers: Callable[[float, float], bool] = lt,
    most: int = MOST_SWAPS,
    symbols: slice = slice(None),
    equations: slice = slice(None),
    again: bool = True,
    called: Callable[[bool], bool] = bool,
) -> Swapper:
    """Swaps, the first that lowers the sum each time. Perhaps by another sum, another comparison, up to another number, with some symbols or
    equations left untried, not tested once more after the last, or called by another name."""

    def swap(code: Code, states: States, start: Sets, listed: Sequence[int]) -> tuple[Sets, bool]:
        sets, made = dict(start), 0
        while again or made < most:
            pairs = ((place, frozenset(bits_of(equation))) for place in list(sets)[symbols] for equation in listed[equations])
            after = ({**sets, place: sets[place] ^ equation} for place, equation in pairs)
            now = cost(code, states, sets)
            lower = next((tried for tried in after if lowers(cost(code, states, tried), now)), None)
            if lower is None:
                return sets, called(True)
            if made == most:
                break
            sets, made = lower, made + 1
        return sets, called(False)

    return swap


def padded(states: States) -> States:
    """With something in place of what isn't there, for tests that don't notice: away, 0 and 1."""
    return States(*([*listed, *[missing] * (64 - len(listed))] for listed, missing in zip(states, (AWAY, 0.0, 1.0))))


def planner(
    test: Tester = priced_refusal,
    lose: Losing = with_away,
    swap: Swapper = swapping(),
    listing: Losing = with_away,
    cost: Cost = cost_of,
    steps: Stepper = lambda code, lost, states, sets: steps_from(sets),
    gone: Callable[[Wish], Wish] = lambda lost: lost,
    of_start: Sequence[str] = (),
) -> Planner:
    """One that swaps as it should; perhaps with other tests, other lost or wanted symbols, in the work or in the sheet, other swaps, another
    sum, other steps, patterns for something else, or with the start's plan or sum answered."""

    def plan(sheet: bytes, wish: Wish, states: States, buffer_length: int) -> Answer:
        refusal = test(sheet, wish, states, buffer_length)
        if refusal:
            return refusal
        code, states = read_code(sheet), padded(states)
        lost, named = lose(code, wish, states), listing(code, wish, states)
        start = start_sets(code, lost)
        if start is None:
            return Gone(patterns_of(code, gone(lost)))
        sets, settled = swap(code, states, start, equations_of(code, lost.disks))
        made = steps(code, lost, states, start if "plan" in of_start else sets)
        reads = read_count(code, named.disks, made)
        sheet = set_sheet(code, named.disks, made, reads, named.listed or ())
        return Priced(sheet, reads, settled, cost(code, states, start if "sum" in of_start else sets))

    return plan


# Wrong tests


def testing(
    needs: Callable[[States, int], bool] = is_state,
    before: int = 0,
    place: Callable[[list[int]], int] = min,
    tested: Callable[[Code, Wish, States], Sequence[int]] = lambda code, wish, states: range(code.disks),
) -> Tester:
    """Another test for 42: of other states, before another refusal, with another place, or of other disks."""

    def test(sheet: bytes, wish: Wish, states: States, buffer_length: int) -> Optional[Refusal]:
        refusal = planning_refusal(sheet, wish, buffer_length)
        if refusal and refusal.number != before:
            return refusal
        bad = [disk for disk in tested(read_code(sheet), wish, states) if not needs(states, disk)]
        return Refusal(42, place(bad)) if bad else refusal

    return test


def other_limits(price: Callable[[float], bool], factor: Callable[[float], bool] = lambda factor: 1 <= factor <= 64) -> Callable[[States, int], bool]:
    def needs(states: States, disk: int) -> bool:
        entries = [listed[disk] if disk < len(listed) else None for listed in states]
        if entries[0] is None or entries[0] > BUSY:
            return False
        priced = entries[0] == AWAY or (entries[1] is not None and price(entries[1]))
        return priced and (entries[0] != BUSY or (entries[2] is not None and factor(entries[2])))

    return needs


def is_price(price: float) -> bool:
    return 0 <= price <= HIGHEST_PRICE


def everything_looked_at(states: States, disk: int) -> bool:
    """Price and factor of every disk, whatever its kind."""
    return is_state(states, disk) and is_state(states._replace(kinds=[BUSY] * (disk + 1)), disk)


def with_missing(kind: int = 3, price: float = -1.0, factor: float = -1.0) -> Callable[[States, int], bool]:
    """With something in place of what isn't there."""

    def needs(states: States, disk: int) -> bool:
        return is_state(States(*([*listed, *[missing] * 64] for listed, missing in zip(states, (kind, price, factor)))), disk)

    return needs


def other_kinds_are_away(states: States, disk: int) -> bool:
    return is_state(states, disk) or has_within(states.kinds, disk, 3, 255)


def disks_by_price_first(code: Code, wish: Wish, states: States) -> Sequence[int]:
    """The disks without a price first, then the others."""
    unpriced = [disk for disk in range(code.disks) if not is_state(states, disk) and not other_limits(is_price, lambda factor: True)(states, disk)]
    return unpriced + [disk for disk in range(code.disks) if disk not in unpriced]


# Wrong sums


def from_zero(charges: list[float]) -> float:
    """One after the other. Python's own sum may carry what rounding leaves over."""
    return reduce(add, charges, 0.0)


def by_charges(charge_of: Callable[[int, float, Optional[float]], float], adding: Callable[[list[float]], float] = from_zero) -> Cost:
    """Another charge, of the symbols read, the price and perhaps a factor, or another way to add."""

    def cost(code: Code, states: States, sets: Sets) -> float:
        counts = Counter(symbol // code.height for symbol in read_by(sets))
        factors = [states.factors[disk] if states.kinds[disk] == BUSY else None for disk in range(code.disks)]
        present = [disk for disk in range(code.disks) if states.kinds[disk] != AWAY]
        return float(adding([charge_of(counts[disk], states.prices[disk], factors[disk]) for disk in present]))

    return cost


def right_charge(reads: int, price: float, factor: Optional[float]) -> float:
    return reads * price if factor is None else reads * price * factor


def factor_first(reads: int, price: float, factor: Optional[float]) -> float:
    return reads * price if factor is None else reads * (price * factor)


def rounded_once(reads: int, price: float, factor: Optional[float]) -> float:
    return float(reads * Fraction(price) * Fraction(1 if factor is None else factor))


def single(number: float) -> float:
    """As 32 bits have it."""
    return float(struct.unpack("f", struct.pack("f", number))[0])


def by_mentions(code: Code, states: States, sets: Sets) -> float:
    """A symbol counts in each set that has it."""
    counts = Counter(symbol // code.height for own in sets.values() for symbol in own)
    return sum_of_counts(states, [counts[disk] for disk in range(code.disks)])


def by_symbols(code: Code, states: States, sets: Sets) -> float:
    """A charge for each symbol by itself."""
    return from_zero([charge(states, symbol // code.height, 1) for symbol in sorted(read_by(sets))])


# Wrong lists and steps


def asked_alone(code: Code, wish: Wish, states: States) -> Wish:
    return for_disks(bytes(wish.disks), bytes(wish.wanted(code)))


def away_wanted(code: Code, wish: Wish, states: States) -> Wish:
    """Without a list everything that is lost, away disks too."""
    lost = with_away(code, wish, states)
    return lost if wish.listed else for_disks(lost.disks, bytes(lost_places(code, lost.disks)))


def list_as_given(code: Code, wish: Wish, states: States) -> Wish:
    return for_disks(with_away(code, wish, states).disks, bytes(wish.listed or b""))


def all_lost_if_away(code: Code, wish: Wish, states: States) -> Wish:
    """No plan is looked for where a disk is away: it is as if every disk were lost."""
    lost = with_away(code, wish, states)
    return lost if lost.disks == bytes(wish.disks) else for_disks(bytes(range(code.disks)), lost.listed or b"")


def one_read_besides(price: float = INFINITY) -> Stepper:
    """A survivor that no set has, and that costs no more than this, is added twice."""

    def steps(code: Code, lost: Wish, states: States, sets: Sets) -> list[Step]:
        others = [symbol for symbol in survivors(code, lost.disks) if symbol not in read_by(sets) and states.prices[symbol // code.height] <= price]
        return steps_from(sets) + [Step(ADD, next(iter(sets)), symbol) for symbol in others[:1]] * 2

    return steps


def never(code: Code, states: States, start: Sets, equations: Sequence[int]) -> tuple[Sets, bool]:
    return dict(start), True


def one_at_the_same_sum(code: Code, states: States, start: Sets, equations: Sequence[int]) -> tuple[Sets, bool]:
    """Swaps, and where none lowers the sum one that keeps it."""
    sets, settled = swapping()(code, states, start, equations)
    if settled:
        sets = swapping(lowers=le, most=1, again=False)(code, states, sets, equations)[0]
    return sets, settled


def dearer_at_once(code: Code, states: States, start: Sets, equations: Sequence[int]) -> tuple[Sets, bool]:
    """All sets swapped together, where that is dearer and no single swap lowers it then."""
    for symbols in map(frozenset, map(bits_of, equations)):
        after = {place: own ^ symbols for place, own in start.items()}
        if cost_of(code, states, after) > cost_of(code, states, start) and swapping()(code, states, after, equations) == (after, True):
            return after, True
    return swapping()(code, states, start, equations)


WRONG = {
    "42 before 34": planner(testing(before=34)),
    "42 before 23": planner(testing(before=23)),
    "the place is 0": planner(testing(place=lambda bad: 0)),
    "the highest such disk": planner(testing(place=max)),
    "all prices before the factors": planner(testing(place=lambda bad: bad[0], tested=disks_by_price_first)),
    "never 42": planner(testing(needs=lambda states, disk: True)),
    "states from n on are looked at": planner(testing(tested=lambda code, wish, states: range(len(states.kinds) or 1))),
    "disk n is looked at": planner(testing(tested=lambda code, wish, states: range(code.disks + 1))),
    "the last disk isn't": planner(testing(tested=lambda code, wish, states: range(code.disks - 1))),
    "asked disks aren't": planner(testing(tested=lambda code, wish, states: [disk for disk in range(code.disks) if disk not in wish.disks])),
    "a price that is no number is taken": planner(testing(other_limits(lambda price: not (price < 0 or price > HIGHEST_PRICE)))),
    "a factor that is no number is taken": planner(testing(other_limits(is_price, lambda factor: not (factor < 1 or factor > 64)))),
    "any price from 0 on": planner(testing(other_limits(lambda price: price >= 0))),
    "negative prices": planner(testing(other_limits(lambda price: price <= HIGHEST_PRICE))),
    "a price a little above 1,000,000": planner(testing(other_limits(lambda price: 0 <= price < HIGHEST_PRICE + 1))),
    "0 is no price": planner(testing(other_limits(lambda price: 0 < price <= HIGHEST_PRICE))),
    "-0.0 is no price": planner(testing(other_limits(lambda price: is_price(price) and math.copysign(1, price) > 0))),
    "1,000,000 is no price": planner(testing(other_limits(lambda price: 0 <= price < HIGHEST_PRICE))),
    "tiny prices are none": planner(testing(other_limits(lambda price: price == 0 or 2.0**-1022 <= price <= HIGHEST_PRICE))),
    "factors below 1": planner(testing(other_limits(is_price, lambda factor: 0 <= factor <= 64))),
    "any factor from 1 on": planner(testing(other_limits(is_price, lambda factor: factor >= 1))),
    "1 is no factor": planner(testing(other_limits(is_price, lambda factor: 1 < factor <= 64))),
    "64 is no factor": planner(testing(other_limits(is_price, lambda factor: 1 <= factor < 64))),
    "what a kind doesn't use is looked at": planner(testing(everything_looked_at)),
    "kinds above 2 are away": planner(testing(other_kinds_are_away)),
    "a kind that isn't there is away": planner(testing(with_missing(kind=AWAY))),
    "a price that isn't there is 0": planner(testing(with_missing(price=0.0))),
    "a factor that isn't there is 1": planner(testing(with_missing(factor=1.0))),
    "the factor multiplied first": planner(swap=swapping(by_charges(factor_first)), cost=by_charges(factor_first)),
    "products rounded once": planner(cost=by_charges(rounded_once)),
    "charges from the last disk on": planner(cost=by_charges(right_charge, lambda charges: from_zero(charges[::-1]))),
    "the smallest charges first": planner(cost=by_charges(right_charge, lambda charges: from_zero(sorted(charges)))),
    "a sum that is rounded at its end": planner(cost=by_charges(right_charge, math.fsum)),
    "sums of 32 bits": planner(cost=lambda code, states, sets: single(cost_of(code, states, sets))),
    "the factor left out": planner(cost=by_charges(lambda reads, price, factor: reads * price)),
    "mentions charged, not symbols": planner(swap=swapping(by_mentions), cost=by_mentions),
    "symbols charged one by one": planner(cost=by_symbols),
    "symbols counted, not charged": planner(swap=swapping(lambda code, states, sets: len(read_by(sets)))),
    "a sum from -0.0": planner(cost=lambda code, states, sets: cost_of(code, states, sets) or -0.0),
    "away disks aren't lost": planner(lose=asked_alone, listing=asked_alone),
    "away disks are listed and read": planner(lose=asked_alone),
    "away disks aren't listed": planner(listing=asked_alone),
    "all symbols of the away disks wanted": planner(lose=away_wanted, listing=away_wanted),
    "the wanted symbols aren't listed one by one": planner(listing=list_as_given),
    "patterns wherever a disk is away": planner(lose=all_lost_if_away, listing=all_lost_if_away),
    "patterns for all that is lost": planner(gone=lambda lost: for_disks(lost.disks)),
    "no swap, and called settled": planner(swap=never),
    "the first symbol isn't tried": planner(swap=swapping(symbols=slice(1, None))),
    "the last symbol isn't tried": planner(swap=swapping(symbols=slice(None, -1))),
    "the last equation isn't tried": planner(swap=swapping(equations=slice(None, -1))),
    "the first equation alone": planner(swap=swapping(equations=slice(0, 1))),
    "one swap, and called settled": planner(swap=swapping(most=1, called=lambda settled: True)),
    "one swap": planner(swap=swapping(most=1)),
    "1,023 swaps": planner(swap=swapping(most=MOST_SWAPS - 1)),
    "not tested again after the last swap": planner(swap=swapping(again=False)),
    "stopped called settled": planner(swap=swapping(called=lambda settled: True)),
    "settled called stopped": planner(swap=swapping(called=lambda settled: False)),
    "a swap at the same sum": planner(swap=one_at_the_same_sum),
    "a dearer swap": planner(swap=swapping(lowers=gt, most=1, called=lambda settled: True)),
    "dearer than the start, and settled": planner(swap=dearer_at_once),
    "a symbol read besides": planner(steps=one_read_besides()),
    "a symbol that costs nothing read besides": planner(steps=one_read_besides(0.0)),
    "the start's plan": planner(of_start=["plan"]),
    "the start's sum": planner(of_start=["sum"]),
    "the start's plan and sum": planner(of_start=["plan", "sum"]),
}


@cache
def cases() -> list[tuple[bytes, Wish, States, int]]:
    """Small codes with all sets of disks, at prices by chance, with disks away; prices at the limits and beyond; several faults at once; arrays
    that count."""
    small = (SQUARE, P8, P9, HALF, SAME, NOTHING, TWICE, row_diagonal(3))
    asked = [(SQUARE, for_disks([0]), states) for states in bad_and_good()]
    for code, disks in [(code, disks) for code in small for disks in sets_of(code)]:
        asked += [(code, for_disks(disks, listed), any_states(code.disks)) for listed in ([], lost_places(code, disks)[-1:])]
    for code in (evenodd(3), liberation(3, 2), row_diagonal(5), single_parity(3, 2)):
        asked += [(code, for_disks(disks), any_states(code.disks, away)) for disks in ([0], [1], [code.disks - 1]) for away in (3, 20)]
    asked += [(code, for_disks(disks), any_states(code.disks, 20)) for code, disks in (any_question(6, 3, 8) for _ in range(60))]
    asked += [(code, for_disks([0]), states) for code, states in map(counting, (5, 1023, 1024, 1025))]
    asked += [(single_parity(2, 5), for_disks([0]), states_of([0.0, (0.1, 3.0), state])) for state in (0.0, 0.7, (0.1, 3.0), (0.7, 1.1), (0.3, 1.3))]
    asked += [(TWICE, for_disks([0]), states_of([0.0, *prices])) for prices in ((6.0, 10.0), (10.0, 6.0), (6.0, 6.0))]
    given = [(sheet_of(code), wish, states, SET_BUFFER) for code, wish, states in asked]
    faults = [(disks, listed, length) for disks in ([0], [4], []) for listed in ([], [2], [0, 0]) for length in (0, 3209, 3210)]
    return given + [(SQUARE_SHEET, for_disks(disks, listed), states_of([1.0, NAN]), length) for disks, listed, length in faults]


def bad_and_good() -> list[States]:
    """States of the square code's disks."""
    prices = [states_of([1.0, price, (price, 2.0), None], more) for price in PRICES + NO_PRICES for more in (0, 1, 60)]
    factors = [states_of([1.0, None, 1.0, (1.0, factor)]) for factor in FACTORS + NO_FACTORS]
    short = [States([1] * 4, [1.0] * count, ()) for count in range(4)] + [States([1] * count, [1.0] * 4, ()) for count in range(4)]
    short += [States([0, 2, 2, 2], [1.0] * 4, [1.0] * count) for count in range(4)]
    asked = [states_of([state, 1.0, 1.0, 1.0]) for state in (-1.0, NAN, (1.0, 0.0), None)] + [States([3, 1, 1, 1], [1.0] * 4)]
    others: list[list[State]] = [
        [0.0, 0.1, 0.2, 0.3],
        [0.0, 0.1, 0.1, (0.1, 3.0)],
        [1.0, (0.3, 1.1), (0.7, 1.1), (0.1, 9.0)],
        [1.0, 0.0, -0.0, 0.0],
        [0.0, 1.0, (1.0, 10.0), 1.0],
        [1.0, (1.0, 65.0), -1.0, 1.0],
        [1.0, 1.0, 1.0, -1.0],
        [1.0, 1.0, NAN, NAN],
    ]
    return prices + factors + short + asked + [states_of([1.0] * 4, 1)] + [states_of(given) for given in others]


def first_fault(plan: Planner) -> Fault:
    found = (judge_priced(*given, plan(*given), own_known(read_code(given[0]))) for given in cases())
    return next(filter(None, found), None)


def test_planners() -> None:
    """One that swaps is right, whichever swaps it makes, and each wrong one is found."""
    largest = planner(swap=lambda code, states, start, equations: swapping()(code, states, start, equations[::-1]))
    for right in (planner(), largest):
        assert first_fault(right) is None, first_fault(right)
    for name, wrong in WRONG.items():
        assert first_fault(wrong) is not None, name


def test_counting() -> None:
    """Numbers that are counted down by one: 1,024 swaps are made and tested once more, and the next is not made."""
    for number, settled, left in [(0, True, 0), (1, True, 0), (1023, True, 0), (1024, True, 0), (1025, False, 1), (2047, False, 1023)]:
        code, states = counting(number)
        answer = planner()(sheet_of(code), for_disks([0]), states, SET_BUFFER)
        assert isinstance(answer, Priced) and (answer.settled, answer.sum) == (settled, left)
        assert judge_priced(sheet_of(code), for_disks([0]), states, SET_BUFFER, answer, own_known(code)) is None
    code, states = counting(1025)
    wish, given = for_disks([0]), (sheet_of(code), for_disks([0]), states, SET_BUFFER)
    for most in (0, 1, 1000, 1023):
        assert "no room" in judge_priced(*given, planner(swap=swapping(most=most))(*given), own_known(code))
    # the longest first is settled at once, and may be
    code, states = counting(1025, falling=True)
    quick = planner()(sheet_of(code), wish, states, SET_BUFFER)
    assert quick.settled and quick.sum == 0 and judge_priced(sheet_of(code), wish, states, SET_BUFFER, quick, own_known(code)) is None
    # few sums, which aren't whole
    assert swaps_between(SQUARE, for_disks([0]), states_of([0.1] * 4), 9.0, 0.0) == 26
    assert swaps_between(SQUARE, for_disks([0, 1, 2, 3]), ONES, 0.0, 0.0) == 0


def test_answers() -> None:
    """The square code's disk 0: at equal prices 3, as few as there can be; with disk 2 busy 4, without it; and answers that are wrong in one
    thing. Settled isn't cheapest: two swaps at once would lower the sum."""
    wish, known = for_disks([0]), own_known(SQUARE)

    def fault(states: States, answer: Answer) -> Fault:
        return judge_priced(SQUARE_SHEET, wish, states, SET_BUFFER, answer, known)

    busy = states_of([0.0, 1.0, (1.0, 10.0), 1.0])
    for states, read in [(ONES, {3, 5, 6}), (busy, {2, 3, 6, 7}), (states_of([1.0, 1.0, None, 1.0]), {2, 3, 6, 7})]:
        answer = planner()(SQUARE_SHEET, wish, states, SET_BUFFER)
        assert isinstance(answer, Priced) and fault(states, answer) is None
        assert (answer.settled, answer.sum, read_by(sets_made(steps_of(answer.plan)))) == (True, len(read), read)
    other = steps_from({0: frozenset([2, 4]), 1: frozenset([2, 7])})
    assert fault(ONES, Priced(set_sheet(SQUARE, [0], other, listed=[0, 1]), 3, True, 3.0)) is None
    right = planner()(SQUARE_SHEET, wish, ONES, SET_BUFFER)
    steps, by_rows = steps_of(right.plan), steps_from({0: frozenset([2, 4]), 1: frozenset([3, 5])})
    wrong = [
        ("a bit more", right._replace(sum=math.nextafter(3.0, 4.0))),
        ("a bit less", right._replace(sum=math.nextafter(3.0, 0.0))),
        ("no number", right._replace(sum=NAN)),
        ("stopped", right._replace(settled=False)),
        ("the answer's count", right._replace(reads=4)),
        ("the sheet's count", right._replace(plan=changed(right.plan, 5, 4))),
        ("no list", right._replace(plan=set_sheet(SQUARE, [0], steps))),
        ("the start", Priced(set_sheet(SQUARE, [0], by_rows, listed=[0, 1]), 4, True, 4.0)),
        ("a step left out", right._replace(plan=set_sheet(SQUARE, [0], steps[:-1], 3, [0, 1]))),
        ("more lost disks", right._replace(plan=set_sheet(SQUARE, [0, 3], by_rows, listed=[0, 1]))),
        ("no plan", Gone([])),
        ("a pattern", Gone([1])),
        ("a refusal", Refusal(42, 1)),
    ]
    for why, answer in wrong:
        assert fault(ONES, answer) is not None, why
    away = states_of([1.0, None, 1.0, 1.0])
    assert fault(away, Gone([15])) is None
    for answer in (Gone([]), Gone([7]), Gone([15, 1]), right, Refusal(42, 1)):
        assert fault(away, answer) is not None, answer
    twice = states_of([0.0, 10.0, 6.0])
    answer = planner()(sheet_of(TWICE), wish, twice, SET_BUFFER)
    cheapest = answer._replace(plan=set_sheet(TWICE, [0], [Step(COPY, 0, 4), Step(COPY, 1, 4)], listed=[0, 1]), sum=6.0)
    assert (answer.settled, answer.sum) == (True, 10.0)
    assert all(judge_priced(sheet_of(TWICE), wish, twice, SET_BUFFER, given, own_known(TWICE)) is None for given in (answer, cheapest))
    assert check(sheet_of(TWICE), [0], cheapest.plan) == 1


def test_told() -> None:
    """Each bit of each float, a NaN's too, comes back from the bytes."""
    for states in (states_of([]), states_of([1.0, None, (0.1, 64.0), -0.0], 60), States([0, 3, 255], NO_PRICES[-3:], NO_FACTORS[-3:])):
        told = told_bytes(states)
        assert len(told) == 1 + 17 * len(states.kinds) and told_bytes(states_in(told)) == told
    assert told_bytes(States([2], [1.0], [-0.0])) == bytes([1, 2, 0, 0, 0, 0, 0, 0, 240, 63, 0, 0, 0, 0, 0, 0, 0, 128])


def line_of(answer: Priced) -> str:
    number, word = int.from_bytes(bits(answer.sum), "big"), "settled" if answer.settled else "stopped"
    return f"priced {len(answer.plan)} {answer.reads} {number} {word} accepted behind-same restored {answer.plan.hex()}"


def test_lines() -> None:
    """Lines that may stand, and what is wrong with others. An away disk is lost in the sheet, and what is on it isn't wanted."""

    def asked_at(states: States, **more: object) -> Asked:
        given = {"sheet": SQUARE_SHEET, "buffer_length": SET_BUFFER, "shown": True, "listed": b"", "disks": b"\0", "told": told_bytes(states)}
        return Asked(disk=0, **{**given, **more})

    def right(states: States) -> Priced:
        return planner()(SQUARE_SHEET, for_disks([0]), states, SET_BUFFER)

    tenths, away, gone = states_of([1.0, 0.1, 0.2, 0.3]), states_of([1.0, 1.0, None, 1.0]), states_of([1.0, None, 1.0, 1.0])
    for states in (ONES, tenths, away, states_of([None, 0.7, 0.1, 0.2], 60)):
        assert judge_line(asked_at(states), line_of(right(states))) is None
    assert judge_line(asked_at(gone), "patterns 1 15 same good") is None
    assert judge_line(asked_at(states_of([1.0, 1.0, NAN])), "refused 42 at 2 same") is None
    one, line = right(tenths), line_of(right(tenths))
    words = line.split(" ")
    wrong = [
        (tenths, line_of(one._replace(sum=math.nextafter(one.sum, 1)))),
        (tenths, line_of(one._replace(sum=math.nextafter(one.sum, 0)))),
        (tenths, line.replace(words[3], str(2**64 - 1))),
        (tenths, line_of(one._replace(settled=False))),
        (tenths, line_of(one._replace(reads=one.reads + 1))),
        (tenths, line.replace("settled", "setled")),
        (tenths, line.replace(" accepted", " not-accepted")),
        (tenths, line.replace("behind-same", "not-behind-same")),
        (tenths, line.replace(" restored", " not-restored")),
        (tenths, " ".join(words[:-1])),
        (tenths, "refused 42 at 0 same"),
        (tenths, "patterns 1 15 same good"),
        (states_of([1.0, 0.3, 0.2, 0.1]), line),
        (states_of([1.0, 0.1, 0.2, None]), line),
        (away, line_of(right(ONES))),
        (gone, "patterns 1 15 not-same good"),
        (gone, "patterns 1 7 same good"),
        (gone, line_of(right(ONES))),
        (states_of([1.0, 1.0, NAN]), "refused 42 at 3 same"),
        (states_of([1.0, 1.0, NAN]), line_of(right(ONES))),
    ]
    for states, said in wrong:
        assert judge_line(asked_at(states), said) is not None, said
    steps = steps_of(right(ONES).plan)
    more = one_read_besides()(SQUARE, for_disks([0]), ONES, sets_made(steps))
    unlisted, besides = set_sheet(SQUARE, [0], steps), set_sheet(SQUARE, [0], more, listed=[0, 1])
    assert check(SQUARE_SHEET, [0], unlisted) == 3 and check(SQUARE_SHEET, [0], besides) == 4
    assert judge_line(asked_at(ONES), line_of(right(ONES)._replace(plan=unlisted))) is not None
    assert judge_line(asked_at(ONES), line_of(Priced(besides, 4, True, 4.0))) is not None
    for number, called in ((1024, True), (1025, False)):
        code, states = counting(number)
        counted, asked = planner()(sheet_of(code), for_disks([0]), states, SET_BUFFER), asked_at(states, sheet=sheet_of(code))
        assert counted.settled == called and judge_line(asked, line_of(counted)) is None
        # a sum of 0 can't be stopped; whether one of 1 is settled is not to be seen in a line
        assert (judge_line(asked, line_of(counted._replace(settled=not called))) is None) == (number == 1025)
    assert judge_line(asked_at(tenths, buffer_length=3209), "refused 34 at 0 same") is None
    assert judge_line(asked_at(states_of([NAN]), buffer_length=3209), "refused 42 at 0 same") is not None


def judge_program() -> None:
    """What the program crates/planvectors printed of plans at prices."""
    questions, every = printed()
    let_stand(questions, every, lambda asked, line: None if asked.told is None else judge_line(asked, line))
    lines = [line.split(" ") for asked, line in zip(questions, every) if asked.told is not None]
    kinds = Counter(words[0] for words in lines)
    counts = ", ".join(f"{kinds[kind]} {kind}" for kind in ("priced", "patterns", "refused"))
    stopped, sums = sum(words[4:5] == ["stopped"] for words in lines), len({words[3] for words in lines if words[0] == "priced"})
    refused = sum(words[:2] == ["refused", "42"] for words in lines)
    print(f"plans at prices, as printed by crates/planvectors: {counts}, 42 {refused} times, {sums} different sums, {stopped} stopped: ok")


if __name__ == "__main__":
    test_sums()
    test_refusals()
    test_lost()
    test_sets()
    test_counting()
    test_answers()
    test_told()
    test_lines()
    test_planners()
    print(f"second program's prices: {len(cases())} questions, {len(WRONG)} wrong planners noticed: ok")
    judge_program()
