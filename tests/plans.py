"""Plans for the vectors: lost rows as sums of surviving rows, and longer ways to the same end."""
from itertools import combinations
from typing import Iterable, NamedTuple, Optional, Sequence

from arrays import below, chosen, random_code, shuffled
from second import Code, sheet_of
from second_checker import ADD, CLEAR, COPY, STEP_LIMIT, Disks, Listed, Step, lost_places, plan_sheet, set_sheet, wanted_symbols


class Plan(NamedTuple):
    """Steps for lost disks of a code, or for the symbols of a list. A sheet of edition 3 says that it is for a set, be it of one disk."""

    code: Code
    disks: Disks
    steps: list[Step]
    listed: Listed = None
    for_set: bool = False

    @property
    def disk(self) -> int:
        """The one disk of editions 1 and 2."""
        return self.disks[0]

    @property
    def lost(self) -> list[int]:
        return lost_places(self.code, self.disks)

    @property
    def wanted(self) -> Sequence[int]:
        return wanted_symbols(self.code, self.disks, self.listed)

    @property
    def survivors(self) -> list[int]:
        return survivors(self.code, self.disks)

    @property
    def code_sheet(self) -> bytes:
        return sheet_of(self.code)

    def sheet(self, reads: Optional[int] = None) -> bytes:
        """The plan sheet; its read count is the true one if none is said."""
        if self.for_set:
            return set_sheet(self.code, self.disks, self.steps, reads, self.listed or ())
        return plan_sheet(self.code, self.disk, self.steps, reads, self.listed)

    def with_steps(self, steps: Iterable[Step]) -> "Plan":
        return self._replace(steps=list(steps))


def survivors(code: Code, disks: Disks) -> list[int]:
    return [symbol for symbol in range(code.symbols) if symbol // code.height not in disks]


# Elimination

Sum = tuple[int, frozenset[int]]
"""A row, and the symbols whose rows sum to it."""


def reduced(start: Sum, basis: list[Sum]) -> Sum:
    row, symbols = start
    for known, known_symbols in basis:
        if row ^ known < row:
            row, symbols = row ^ known, symbols ^ known_symbols
    return row, symbols


def sources_of(code: Code, wanted: int, symbols: Iterable[int]) -> Optional[list[int]]:
    """Those of the symbols whose rows sum to the wanted symbol's, or nothing if none do; earlier ones are preferred."""
    basis: list[Sum] = []
    for symbol in symbols:
        row, parts = reduced((code.rows[symbol], frozenset([symbol])), basis)
        if row:
            basis.append((row, parts))
    rest, sources = reduced((code.rows[wanted], frozenset()), basis)
    return None if rest else sorted(sources)


def fill(target: int, sources: list[int], clear_first: bool = False) -> list[Step]:
    """A place filled with a sum of symbols."""
    if clear_first or not sources:
        return [Step(CLEAR, target, 0)] + [Step(ADD, target, source) for source in sources]
    return [Step(COPY, target, sources[0])] + [Step(ADD, target, source) for source in sources[1:]]


def direct(asked: Plan) -> Optional[Plan]:
    """Each wanted row from survivors alone, in order; nothing if there is no plan."""
    sums = [sources_of(asked.code, place, asked.survivors) for place in asked.wanted]
    if None in sums:
        return None
    steps = [fill(place, sources) for place, sources in zip(asked.wanted, sums)]
    return asked.with_steps(sum(steps, []))


def chained(asked: Plan) -> Optional[Plan]:
    """Wanted rows in any order, each from those before it as far as they serve, and from survivors in any order."""
    steps: list[Step] = []
    filled: list[int] = []
    for place in shuffled(asked.wanted):
        sources = sources_of(asked.code, place, filled + shuffled(asked.survivors))
        if sources is None:
            return None
        steps += fill(place, shuffled(sources), clear_first=below(3) == 0)
        filled.append(place)
    return asked.with_steps(steps)


def direct_plan(code: Code, disk: int, listed: Listed = None) -> Optional[Plan]:
    return direct(Plan(code, [disk], [], listed))


def chained_plan(code: Code, disk: int, listed: Listed = None) -> Optional[Plan]:
    return chained(Plan(code, [disk], [], listed))


def of_set(code: Code, disks: Disks, listed: Sequence[int] = (), steps: Sequence[Step] = ()) -> Plan:
    """A plan of edition 3; without steps it is what direct and chained are asked for."""
    return Plan(code, disks, list(steps), listed, for_set=True)


def planted_code(disks: int, height: int, data_symbols: int, lost_disks: Disks) -> Code:
    """A random code in which the rows of some disks are sums of a few others, so that they can be rebuilt at any K."""
    code = random_code(disks, height, data_symbols)
    rows = list(code.rows)
    for place in lost_places(code, lost_disks):
        rows[place] = 0
        for symbol in shuffled(survivors(code, lost_disks))[: below(5)]:
            rows[place] ^= rows[symbol]
    return code._replace(rows=tuple(rows))


def some_lists(code: Code, disks: Disks) -> list[list[int]]:
    """One lost symbol, some and all, each list once."""
    lost = lost_places(code, disks)
    lists = [[chosen(lost)], sorted(shuffled(lost)[: 1 + below(len(lost))]), lost]
    return [listed for number, listed in enumerate(lists) if listed not in lists[:number]]


def all_lists(code: Code, disks: Disks) -> list[list[int]]:
    """Every good list of lost symbols but the empty one."""
    lost = lost_places(code, disks)
    return [list(listed) for count in range(1, len(lost) + 1) for listed in combinations(lost, count)]


def restorable(code: Code, disks: Disks) -> list[int]:
    """The lost symbols that survivors sum to."""
    return [place for place in lost_places(code, disks) if sources_of(code, place, survivors(code, disks)) is not None]


def torn_codes(count: int) -> list[tuple[Code, int]]:
    """Small random codes with a disk that can be rebuilt in some rows and not in all."""
    found: list[tuple[Code, int]] = []
    while len(found) < count:
        disks, height = 2 + below(3), 2 + below(3)
        code = random_code(disks, height, disks * height - height + below(2))
        disk = below(disks)
        if 0 < len(restorable(code, [disk])) < height:
            found.append((code, disk))
    return found


# Longer ways


def idle_starts(plan: Plan) -> list[list[Step]]:
    """Steps that fill places in vain: what comes behind them fills every place again."""
    wanted, others = plan.wanted, plan.survivors
    copies = [Step(COPY, place, chosen(others)) for place in wanted]
    filled_and_cleared = [step for place in wanted for step in fill(place, [chosen(others)]) + [Step(CLEAR, place, 0)]]
    handed_on = [Step(COPY, wanted[0], chosen(others))] + [Step(COPY, place, last) for last, place in zip(wanted, wanted[1:])]
    cleared = [Step(CLEAR, place, 0) for place in shuffled(wanted)]
    return [cleared, copies, filled_and_cleared, handed_on, copies + cleared + copies]


def idle_ends(plan: Plan) -> list[list[Step]]:
    """Steps that leave every filled place as it is."""
    wanted, others = plan.wanted, plan.survivors
    one, other = wanted[0], wanted[-1]
    ends = [[Step(ADD, place, source) for place, source in zip(wanted, others)] * 2]
    if one != other:
        swap = [Step(ADD, one, other), Step(ADD, other, one), Step(ADD, one, other)]
        ends += [swap + swap, [Step(ADD, other, one)] * 2]
    return ends


def interleaved(plan: Plan) -> Plan:
    """The steps of all places mixed, those of a place in their order; for plans that read survivors alone."""
    queues = {place: [step for step in plan.steps if step.target == place] for place in plan.wanted}
    turns = shuffled([step.target for step in plan.steps])
    return plan.with_steps(queues[turn].pop(0) for turn in turns)


def lengthened(plan: Plan, count: int = STEP_LIMIT) -> Plan:
    """The plan with as many steps as said, by pairs of adds that cancel and at most one clear of a place that is then filled."""
    steps = [Step(CLEAR, plan.wanted[0], 0)] * ((count - len(plan.steps)) % 2) + list(plan.steps)
    while len(steps) < count:
        steps += [Step(ADD, chosen(plan.wanted), chosen(plan.survivors))] * 2
    return plan.with_steps(steps)
