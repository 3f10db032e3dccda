"""The second program's rebuild: the stripe after a rebuild, worked out anew.

    python3 tests/second_rebuild.py     runs its own test, on the worked cases of document 01, on a list of wanted symbols and on two disks
"""
from typing import Optional

from second import SQUARE, Refusal, changed, read_code, sheet_of
from second_checker import P2, ROW_1, TWO_DISKS, Disks, Step, check, run, set_sheet, steps_of


def rebuild(sheet: bytes, disks: Disks, plan: bytes, size: int, stripe: bytes) -> tuple[Optional[Refusal], bytes]:
    """A refusal (as for checking, then 31, 32) or none, and the stripe after the call."""
    answer = check(sheet, disks, plan)
    if isinstance(answer, Refusal):
        return answer, stripe
    code = read_code(sheet)
    if not 1 <= size <= 65536:
        return Refusal(31), stripe
    if len(stripe) != code.symbols * size:
        return Refusal(32), stripe
    return None, run(code, size, steps_of(plan), stripe)


def test_worked_cases() -> None:
    sheet = sheet_of(SQUARE)
    stripe = bytes.fromhex("1122448855AA9966")
    ruined = b"\xff\xff" + stripe[2:]
    assert rebuild(sheet, [0], P2, 1, ruined) == (None, stripe)
    assert rebuild(sheet, [0], P2, 0, ruined) == (Refusal(31), ruined)
    assert rebuild(sheet, [0], P2, 2, ruined) == (Refusal(32), ruined)
    assert rebuild(sheet, [0], P2[:20], 0, ruined) == (Refusal(11), ruined)


def test_edition_2() -> None:
    """Row 1 alone is wanted: row 0 keeps its byte, on a valid stripe and on any other."""
    sheet = sheet_of(SQUARE)
    assert rebuild(sheet, [0], ROW_1, 1, bytes.fromhex("FFFF448855AA9966")) == (None, bytes.fromhex("FF22448855AA9966"))
    assert rebuild(sheet, [0], ROW_1, 1, bytes.fromhex("0102030405060708")) == (None, bytes.fromhex("010B030405060708"))
    assert rebuild(sheet, [0], changed(ROW_1, 8, 2), 0, bytes(8)) == (Refusal(23), bytes(8))


def test_edition_3() -> None:
    """Disks 0 and 2, bytes 0, 1, 4 and 5, whole and with a list over both; what isn't wanted keeps its byte."""
    sheet, steps = sheet_of(SQUARE), steps_of(TWO_DISKS)
    stripe, ruined = bytes.fromhex("1122448855AA9966"), bytes.fromhex("FFEE4488DDCC9966")
    assert rebuild(sheet, [0, 2], TWO_DISKS, 1, ruined) == (None, stripe)
    assert rebuild(sheet, [0, 2], TWO_DISKS, 1, bytes.fromhex("0102030405060708")) == (None, bytes.fromhex("030B0304000F0708"))
    part = set_sheet(SQUARE, [0, 2], steps[:2] + steps[4:6], listed=[0, 4])
    assert rebuild(sheet, [0, 2], part, 1, ruined) == (None, bytes.fromhex("11EE448855CC9966"))
    assert rebuild(sheet, [0, 2], set_sheet(SQUARE, [0, 2], [Step(1, 0, 4)]), 0, ruined) == (Refusal(19), ruined)
    assert rebuild(sheet, [0, 2], TWO_DISKS, 0, ruined) == (Refusal(31), ruined)
    assert rebuild(sheet, [0, 2], TWO_DISKS, 2, ruined) == (Refusal(32), ruined)
    assert rebuild(sheet, [2, 0], TWO_DISKS, 0, ruined) == (Refusal(24, 1), ruined)
    assert rebuild(sheet, [0, 2], P2, 1, ruined) == (Refusal(16), ruined)


if __name__ == "__main__":
    test_worked_cases()
    test_edition_2()
    test_edition_3()
    print("second program's rebuild: ok")
