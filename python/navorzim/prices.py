"""Disks that cost more to read: the state of a disk, and a plan with the sum of what it reads."""
from dataclasses import dataclass
from typing import Union

from .library import double
from .plans import Plan

AWAY, IDLE, BUSY = 0, 1, 2
"""How the library names the states."""


@dataclass(frozen=True)
class Away:
    """The disk isn't there to be read: nothing of it is read, and it counts as lost."""


@dataclass(frozen=True)
class Idle:
    """Each symbol that is read of the disk costs its price, which is 0 to 1,000,000."""

    price: float


@dataclass(frozen=True)
class Busy:
    """As Idle, and what is read of the disk costs so many times more: the factor is 1 to 64."""

    price: float
    factor: float


State = Union[Away, Idle, Busy]
"""The state of a disk."""


def as_told(state: State) -> "tuple[int, float, float]":
    """A state as the library takes it: kind, price and factor. What the kind doesn't use isn't looked at."""
    if isinstance(state, Away):
        return AWAY, 0.0, 0.0
    if isinstance(state, Idle):
        return IDLE, double(state.price), 0.0
    if isinstance(state, Busy):
        return BUSY, double(state.price), double(state.factor)
    raise TypeError(f"a disk is Away(), Idle(price) or Busy(price, factor), not {state!r}")


@dataclass(frozen=True, repr=False)
class PricedPlan(Plan):
    """A plan where disks cost more to read. Its lost disks have those that are away among them: `check` and `rebuild` are asked about `disks`.

    >>> from navorzim import Code, Idle
    >>> Code.single_parity(3, 1).plan_priced([3], [Idle(0.1), Idle(0.2), Idle(0.3), Idle(1)])
    PricedPlan(disk 3, symbols 3, 3 steps, reads 3 symbols, sum 0.6000000000000001)
    """

    sum: float
    """What it reads costs so much. A disk's charge is the number of its symbols that are read times the price, then times the factor if it is
    busy; the charges are added in the order of the disks, from 0 on. Each operation is rounded once, so that the sum is fixed to the bit."""
    settled: bool
    """Whether no single swap would lower the sum. Where it isn't so, 1,024 swaps have lowered it, and another one would."""

    def __repr__(self) -> str:
        return f"PricedPlan({self._shown()}, sum {self.sum!r}{'' if self.settled else ', stopped'})"
