"""The records that the program crates/vectors reads, and the line that it must print for each.

crates/vectors/src/main.rt describes the records. What a call answers comes from the second program.
"""
from collections import Counter
from functools import lru_cache
from typing import Optional, Sequence, Union

import second
import second_checker
import second_desk
import second_rebuild
import second_soundness
from second import Code, Refusal
from second_checker import Disks, disks_refusal, listed_in, lost_places, wanted_symbols, with_symbols
from second_soundness import Tested, Unsound

ROOM = 262144
"""The most bytes that a long input of a record has."""


@lru_cache(maxsize=16)
def filled(length: int, seed: int) -> bytes:
    """A buffer filled from a seed."""
    state = seed % 2**31
    content = bytearray(length)
    for i in range(length):
        state = (state * 1103515245 + 12345) % 2**31
        content[i] = state // 65536 % 256
    return bytes(content)


def digest(content: bytes) -> int:
    total = 0
    for byte in content:
        total = (total * 257 + byte + 1) % 4294967291
    return total


def refused(refusal: Refusal) -> str:
    return f"refused {refusal.number} at {refusal.place}"


class Vectors:
    """The records and the line that each must print, with the number of records of each kind."""

    def __init__(self) -> None:
        self.records: list[bytes] = []
        self.lines: list[str] = []
        self.kinds: Counter[str] = Counter()

    def seed(self) -> int:
        """A seed for the next record's buffers."""
        return 7919 * (len(self.records) + 1)

    def add(self, kind: str, call: int, numbers: list[int], rest: bytes, line: str) -> None:
        body = bytes([call]) + b"".join(number.to_bytes(8, "little") for number in numbers) + rest
        self.records.append(len(body).to_bytes(2, "little") + body)
        self.lines.append(line)
        self.kinds[kind] += 1

    def read(self, kind: str, sheet: bytes) -> None:
        code = second.read_code(sheet)
        if isinstance(code, Refusal):
            line = refused(code)
        else:
            rows = " ".join(str(row) for row in code.rows)
            line = f"code {code.disks} {code.height} {code.data_symbols} rows {rows}"
        self.add(kind, 0, [], sheet, line)

    def family(self, kind: str, which: int, first: int, other: int, length: int) -> None:
        seed = self.seed()
        answer, after = second.write_family(which, first, other, filled(length, seed))
        words = refused(answer) if isinstance(answer, Refusal) else f"sheet {answer}"
        self.add(kind, 1, [which, first, other, length, seed], b"", f"{words} digest {digest(after)}")

    def encode(self, kind: str, sheet: bytes, size: int, lengths: tuple[int, int], given: bytes = b"") -> None:
        """Lengths are those of the data and the stripe; the given bytes take the place of the data's first."""
        length, stripe_length = lengths
        seed = self.seed()
        data = given + filled(length, seed)[len(given) :]
        refusal, after = second.encode(sheet, size, data, filled(stripe_length, seed + 1))
        line = refused(refusal) if refusal else "fine"
        if stripe_length <= 16:
            line += "".join([" bytes"] + [f" {byte:02x}" for byte in after])
        numbers = [size, length, seed, stripe_length, seed + 1, len(sheet)]
        self.add(kind, 2, numbers, sheet + given, f"{line} digest {digest(after)}")

    def strip(self, kind: str, sheet: bytes, disk: int, size: int, length: int) -> None:
        seed = self.seed()
        answer = second.strip(sheet, disk, size, filled(length, seed))
        self.add(kind, 3, [disk, size, length, seed], sheet, shown(answer))

    def look_up(self, kind: str, sheet: bytes, disk: int, size: int, lengths: tuple[int, int], symbol: int) -> None:
        """Lengths are those of the stripe and the spare strip."""
        length, spare_length = lengths
        seed = self.seed()
        answer = second.look_up(sheet, disk, size, filled(length, seed), filled(spare_length, seed + 1), symbol)
        numbers = [disk, size, length, seed, spare_length, seed + 1, symbol]
        self.add(kind, 4, numbers, sheet, shown(answer))

    def check(self, kind: str, sheet: bytes, disks: Disks, plan: bytes) -> None:
        answer = second_checker.check(sheet, disks, plan)
        line = refused(answer) if isinstance(answer, Refusal) else f"accepted reads {answer}"
        self.add(kind, 5, [len(disks), len(sheet)], bytes(disks) + sheet + plan, line)

    def rebuild(
        self,
        kind: str,
        sheet: bytes,
        disks: Disks,
        plan: bytes,
        size: int,
        *,
        valid: bool = False,
        length: Optional[int] = None,
        ruin: Optional[int] = None,
        ruined_disks: Optional[Disks] = None,
    ) -> None:
        """On a stripe of the length that the sheet asks for, or another one. A valid stripe is encoded from data first;
        then strips of lost disks, or what of them there is, are ruined: with one byte throughout, or from a seed. They are
        those of some adjacent disks, the first adjacent ones of all if none are said."""
        seed = self.seed()
        code = second.read_code(sheet)
        known = not isinstance(code, Refusal) and disks_refusal(code, disks) is None and size <= ROOM
        stripe_length = code.symbols * size if length is None else length
        data_length = code.data_symbols * size if valid else 0
        stripe = filled(stripe_length, seed)
        if valid:
            stripe = second.encoding(code, size, filled(data_length, seed + 1))
        places = lost_places(code, ruined_disks or adjacent(disks)[0]) if known else []
        start = min(places[0] * size, stripe_length) if known else 0
        end = min((places[-1] + 1) * size, stripe_length) if known else 0
        ruined = filled(end - start, seed + 2) if ruin is None else bytes([ruin]) * (end - start)
        before = stripe[:start] + ruined + stripe[end:]
        refusal, after = second_rebuild.rebuild(sheet, disks, plan, size, before)
        line = refused(refusal) if refusal else "fine"
        if valid and not refusal:
            assert after == given_back(code, disks, plan, size, before, stripe), kind
        numbers = [len(disks), size, stripe_length, seed, data_length, seed + 1, start, end, seed + 2 if ruin is None else ruin, len(sheet)]
        self.add(kind, 7, numbers, bytes(disks) + sheet + plan, f"{line} digest {digest(after)}")

    def test_survivors(
        self,
        kind: str,
        sheet: bytes,
        disks: Disks,
        size: int,
        *,
        valid: bool = False,
        length: Optional[int] = None,
        damage: Sequence[tuple[int, int]] = (),
    ) -> None:
        """On a stripe of the length that the sheet asks for, or another one. A valid stripe is encoded from data first. Then up to two of
        its bytes are damaged, each a place and what is added to the byte there by XOR."""
        seed = self.seed()
        code = second.read_code(sheet)
        stripe_length = code.symbols * size if length is None else length
        data_length = code.data_symbols * size if valid else 0
        stripe = bytearray(second.encoding(code, size, filled(data_length, seed + 1)) if valid else filled(stripe_length, seed))
        parts = []
        for at, by in damage:
            stripe[at] ^= by
            parts += [at, at + 1, stripe[at]]
        parts += [0] * (6 - len(parts))
        answer = second_soundness.test_survivors(sheet, disks, size, bytes(stripe))
        numbers = [len(disks), size, stripe_length, seed, data_length, seed + 1, *parts, len(sheet)]
        self.add(kind, 8, numbers, bytes(disks) + sheet, tested(answer))

    def desk(self, kind: str, given: bytes) -> None:
        """The desk's lines stand in one line of the output, each newline shown as a bar."""
        self.add(kind, 6, [], given, second_desk.desk(given).replace("\n", "|"))


def adjacent(disks: Disks) -> list[Disks]:
    """A rising list of disks as runs of adjacent ones."""
    runs: list[list[int]] = []
    for disk in disks:
        if runs and disk == runs[-1][-1] + 1:
            runs[-1].append(disk)
        else:
            runs.append([disk])
    return runs


def given_back(code: Code, disks: Disks, plan: bytes, size: int, before: bytes, stripe: bytes) -> bytes:
    """What was lent, with the wanted symbols of the valid stripe."""
    wanted = wanted_symbols(code, disks, listed_in(plan))
    return with_symbols(size, wanted, b"".join(stripe[s * size : (s + 1) * size] for s in wanted), before)


def tested(answer: Tested) -> str:
    if isinstance(answer, Refusal):
        return refused(answer)
    return f"unsound {answer.column}" if isinstance(answer, Unsound) else "sound"


def shown(answer: Union[bytes, Refusal]) -> str:
    """The verdict, then the part, which is empty exactly on a refusal."""
    if isinstance(answer, Refusal):
        return f"{refused(answer)} part 0 digest 0"
    return f"fine part {len(answer)} digest {digest(answer)}"
