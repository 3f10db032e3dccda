"""The second program's desk: what the desk prints for an input.

    python3 tests/second_desk.py     runs its own test, on the worked cases of document 01 and on plan sheets of every edition
"""
from second import SQUARE, Refusal, read_code, sheet_of
from second_checker import P2, ROW_1, TWO_DISKS, check, set_sheet, steps_of


def desk(given: bytes) -> str:
    """The lines for an input: one disk byte, two bytes with the code sheet's length, that sheet, and a plan sheet."""
    if len(given) < 3:
        given = bytes(3)
    disk, length = given[0], given[1] + (given[2] << 8)
    behind = given[3:]
    sheet, plan = behind[:length], behind[length:]
    code = read_code(sheet)
    if isinstance(code, Refusal):
        return f"refused {code.number} at {code.place}\n"
    lines = [f"code {code.disks} {code.height} {code.data_symbols}", f"disk {disk}"]
    answer = check(sheet, [disk], plan)
    if isinstance(answer, Refusal):
        lines.append(f"refused {answer.number} at {answer.place}")
    else:
        lines += ["accepted", f"reads {answer}"]
    return "".join(line + "\n" for line in lines)


def desk_input(disk: int, sheet: bytes, plan: bytes) -> bytes:
    return bytes([disk]) + len(sheet).to_bytes(2, "little") + sheet + plan


def test_worked_cases() -> None:
    sheet = sheet_of(SQUARE)
    assert desk(desk_input(0, sheet, P2)) == "code 4 2 4\ndisk 0\naccepted\nreads 3\n"
    assert desk(desk_input(0, sheet, P2[:6] + b"\4" + P2[7:])) == "code 4 2 4\ndisk 0\nrefused 22 at 3\n"
    assert desk(desk_input(4, sheet, P2)) == "code 4 2 4\ndisk 4\nrefused 7 at 0\n"
    assert desk(b"") == desk(b"\0\0") == desk(desk_input(0, b"", P2)) == "refused 1 at 0\n"
    past_the_end = b"\0\xff\xff" + sheet
    assert desk(past_the_end) == "code 4 2 4\ndisk 0\nrefused 11 at 0\n"


def test_edition_2() -> None:
    sheet = sheet_of(SQUARE)
    assert desk(desk_input(0, sheet, ROW_1)) == "code 4 2 4\ndisk 0\naccepted\nreads 2\n"
    assert desk(desk_input(0, sheet, ROW_1[:7] + b"\2\1\1" + ROW_1[9:])) == "code 4 2 4\ndisk 0\nrefused 23 at 1\n"


def test_edition_3() -> None:
    """The desk is asked about one disk: a sheet that lists it alone is judged, one that lists more is 16."""
    sheet, steps = sheet_of(SQUARE), steps_of(P2)
    assert desk(desk_input(0, sheet, set_sheet(SQUARE, [0], steps))) == "code 4 2 4\ndisk 0\naccepted\nreads 3\n"
    assert desk(desk_input(0, sheet, set_sheet(SQUARE, [0], steps[:3]))) == "code 4 2 4\ndisk 0\nrefused 21 at 65\n"
    assert desk(desk_input(0, sheet, set_sheet(SQUARE, [0, 0], steps))) == "code 4 2 4\ndisk 0\nrefused 24 at 1\n"
    assert desk(desk_input(0, sheet, TWO_DISKS)) == desk(desk_input(0, sheet, P2[:5] + b"\1" + P2[6:])) == "code 4 2 4\ndisk 0\nrefused 16 at 0\n"
    assert desk(desk_input(4, sheet, TWO_DISKS)) == "code 4 2 4\ndisk 4\nrefused 7 at 0\n"


if __name__ == "__main__":
    test_worked_cases()
    test_edition_2()
    test_edition_3()
    print("second program's desk: ok")
