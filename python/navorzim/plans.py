"""A plan, and its steps."""
from dataclasses import dataclass
from typing import NamedTuple


class Step(NamedTuple):
    """A step of a plan. Kind 0 clears the target, 1 copies the source to it, 2 adds the source to it."""

    kind: int
    target: int
    source: int

    def __str__(self) -> str:
        return (f"{self.target} = 0", f"{self.target} = {self.source}", f"{self.target} ^= {self.source}")[self.kind]


@dataclass(frozen=True)
class Plan:
    """A plan as the planner wrote it: the steps that rebuild lost disks, or some of their symbols.

    Only `sheet` crosses to the library, which checks it anew on every call; sheets that came from elsewhere are given to `Code.check` and
    `Code.rebuild` as bytes.

    >>> from navorzim import Code
    >>> plan = Code.single_parity(2, 1).plan(0)
    >>> plan.disks, plan.wanted, plan.reads
    ((0,), (), 2)
    >>> [str(step) for step in plan.steps]
    ['0 = 1', '0 ^= 2']
    """

    sheet: bytes
    """The plan sheet."""
    reads: int
    """How many surviving symbols it reads."""

    @property
    def edition(self) -> int:
        """1: the whole of one disk. 2: listed symbols of one disk. 3: listed disks, and their symbols or some of them."""
        return self.sheet[1]

    @property
    def disks(self) -> "tuple[int, ...]":
        """The lost disks that it is for."""
        return tuple(self.sheet[7 : 7 + self.sheet[6]]) if self.edition == 3 else (self.sheet[5],)

    @property
    def wanted(self) -> "tuple[int, ...]":
        """The symbols that it lists; none where it rebuilds whole disks."""
        if self.edition == 1:
            return ()
        count = 7 if self.edition == 2 else 7 + len(self.disks)
        return tuple(self.sheet[count + 1 : count + 1 + self.sheet[count]])

    @property
    def steps(self) -> "tuple[Step, ...]":
        """Its steps, in order."""
        lists = (0, 0, 1, 1 + len(self.disks))[self.edition] + len(self.wanted)
        first = 9 + lists
        return tuple(Step(*self.sheet[at : at + 3]) for at in range(first, len(self.sheet), 3))

    def __bytes__(self) -> bytes:
        return self.sheet

    def __repr__(self) -> str:
        return f"Plan({self._shown()})"

    def _shown(self) -> str:
        disks = "disk " + str(self.disks[0]) if len(self.disks) == 1 else "disks " + ", ".join(map(str, self.disks))
        wanted = ", symbols " + ", ".join(map(str, self.wanted)) if self.wanted else ""
        return f"{disks}{wanted}, {len(self.steps)} steps, reads {self.reads} symbols"
