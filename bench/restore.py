"""`restore` of a disk against `rebuild` of the same stripes in one file, on an array of 1 GB in memory. Prints a table of docs/PERFORMANCE.md.

    python3 bench/restore.py [TOOL]
    python3 bench/restore.py --against OTHER [TOOL]

Without TOOL it is built: cargo build --offline --release. The two run in turn, and medians are printed. With --against, `split`, `restore` and
`join` of TOOL are held against those of OTHER, a build of another version, each on an array of its own. Needs 5 GB of room in /dev/shm.
"""
import argparse
import os
import shutil
import statistics
import subprocess
import tempfile
import time

ROOT = os.path.dirname(os.path.dirname(os.path.abspath(__file__)))
BYTES = 1 << 30
ROUNDS = 9
SIZES = (64, 4096, 65536)
# Liberation, w 5, k 5: n, r, K and N.
DISKS, ROWS, DATA, SYMBOLS = 7, 5, 25, 35


def tool(given: str | None) -> str:
    if given:
        return os.path.abspath(given)
    subprocess.run(["cargo", "build", "--offline", "--release", "--quiet"], cwd=os.path.join(ROOT, "rust"), check=True)
    return os.path.join(ROOT, "rust/target/release/navorzim")


def run(*words: str, program: str = "") -> tuple[float, float]:
    """Runs the tool, or another program; answers seconds by the clock and seconds of processor time."""
    began = time.perf_counter()
    child = subprocess.Popen([program or TOOL, *words], stdout=subprocess.DEVNULL)
    _, status, used = os.wait4(child.pid, 0)
    child.returncode = os.waitstatus_to_exitcode(status)
    assert child.returncode == 0, words
    return time.perf_counter() - began, used.ru_utime + used.ru_stime


def memory(*words: str) -> float:
    """Runs the tool; answers the most memory that it was seen to have, in MB."""
    child, most = subprocess.Popen([TOOL, *words], stdout=subprocess.DEVNULL), 0.0
    while child.poll() is None:
        with open(f"/proc/{child.pid}/status") as lines:
            most = max([most] + [int(line.split()[1]) / 1024 for line in lines if line.startswith("VmHWM")])
        time.sleep(0.001)
    assert child.returncode == 0, words
    return most


def twenty_reads(sheet: bytes) -> bytes:
    """A plan for disk 0 that reads 20 symbols: rows 0 and 1 by way of P, rows 2 to 4 by way of Q."""
    rows = [int.from_bytes(sheet[6 + 8 * s : 14 + 8 * s], "little") for s in range(SYMBOLS)]
    steps = []
    for row in range(ROWS):
        parity = DATA + row if row < 2 else next(s for s in range(DATA + ROWS, SYMBOLS) if rows[s] >> row & 1)
        sources = [t for t in range(DATA) if rows[parity] >> t & 1 and t != row] + [parity]
        steps += [(2 if nth else 1, row, source) for nth, source in enumerate(sources)]
    head = [6, 1, DISKS, ROWS, DATA, 0, 20, len(steps), 0]
    return bytes(head) + bytes(byte for step in steps for byte in step)


def without(*names: str) -> None:
    for name in names:
        if os.path.exists(name):
            os.remove(name)


def measure(size: int) -> None:
    """The lines of the table for symbols of a length."""
    stripes = BYTES // (SYMBOLS * size)
    with open("data", "wb") as file:
        subprocess.run(["head", "-c", str(stripes * DATA * size), "/dev/urandom"], stdout=file, check=True)
    run("encode", "code", "--symbol", str(size), "data", "-o", "stripes")
    run("split", "code", "--symbol", str(size), "data", "-o", "array")
    for plan, reads in (("planned", 25), ("twenty", 20)):
        rebuilt, restored = [], []
        for _ in range(ROUNDS):
            without("out", "array/disk-0")
            rebuilt.append(run("rebuild", "code", "0", plan, "--symbol", str(size), "stripes", "-o", "out"))
            restored.append(run("restore", "array", "--plan", plan))
        without("array/disk-0")
        most = memory("restore", "array", "--plan", plan)
        times = [[statistics.median(part) for part in zip(*runs)] for runs in (rebuilt, restored)]
        both = " | ".join(f"{clock:.2f} s, {processor:.2f} s" for clock, processor in times)
        ratio = times[1][0] / times[0][0]
        print(f"| {size} | {reads} | {reads * size * stripes / 1e6:.0f} MB | {both} | {ratio:.2f} | {most:.0f} MB |", flush=True)
    shutil.rmtree("array")
    without("out", "stripes", "data")


def compare(size: int, other: str) -> None:
    """The lines of the table of two builds for symbols of a length."""
    stripes = BYTES // (SYMBOLS * size)
    with open("data", "wb") as file:
        subprocess.run(["head", "-c", str(stripes * DATA * size), "/dev/urandom"], stdout=file, check=True)
    sides = ((other, "before"), (TOOL, "now"))
    times = {}
    for turn in range(ROUNDS):
        # Whoever comes first finds other memory free.
        for program, array in sides if turn % 2 else sides[::-1]:
            shutil.rmtree(array, ignore_errors=True)
            without("out")
            lines = {"split": ("split", "code", "--symbol", str(size), "data", "-o", array), "join": ("join", array, "-o", "out"), "restore": ("restore", array)}
            for command, line in lines.items():
                without(*[f"{array}/disk-0"] * (command == "restore"))
                times.setdefault((command, array), []).append(run(*line, program=program))
    for command in ("split", "restore", "join"):
        # The least too: beside other work a median says how much of that there was.
        before, now = ([f(part) for part in zip(*times[command, array]) for f in (statistics.median, min)] for _, array in sides)
        both = " | ".join(", ".join(f"{seconds:.2f}" for seconds in side) for side in (before, now))
        print(f"| `{command}` | {size} | {both} | {', '.join(f'{b / a:.2f}' for a, b in zip(before, now))} |", flush=True)
    for _, array in sides:
        shutil.rmtree(array)
    without("out", "data")


def compare_with_rebuild() -> None:
    run("plan", "code", "0", "-o", "planned")
    with open("code", "rb") as file:
        plan = twenty_reads(file.read())
    with open("twenty", "wb") as file:
        file.write(plan)
    print("| L | symbols read | bytes read | `rebuild`: by the clock, processor | `restore`: by the clock, processor | ratio by the clock | memory of `restore` |")
    print("|---|---|---|---|---|---|---|")
    for size in SIZES:
        measure(size)


def compare_builds(other: str) -> None:
    print("| command | L | before, s: by the clock (median, least), processor (median, least) | now, s | ratios |")
    print("|---|---|---|---|---|")
    for size in SIZES:
        compare(size, other)


parser = argparse.ArgumentParser()
parser.add_argument("--against", metavar="OTHER")
parser.add_argument("tool", nargs="?")
given = parser.parse_args()
TOOL, OTHER = tool(given.tool), given.against and os.path.abspath(given.against)
room = tempfile.mkdtemp(prefix="navorzim-", dir="/dev/shm")
try:
    os.chdir(room)
    run("family", "liberation", "5", "5", "-o", "code")
    if OTHER:
        compare_builds(OTHER)
    else:
        compare_with_rebuild()
finally:
    os.chdir("/")
    shutil.rmtree(room)
