"""demo.sh: what it says while the library is proved, at a terminal and elsewhere, and how it ends where something goes wrong. rt and cargo
are stand-ins; rt works on until the test has read the line that it waits for.

    python3 tests/demo.py
"""
import fcntl
import os
import pty
import re
import shutil
import signal
import struct
import subprocess
import tempfile
import termios
import time
from pathlib import Path
from typing import Callable, Iterator

ROOT = Path(__file__).resolve().parent.parent
RT = """#!/bin/sh
mktemp -d >/dev/null
wait_for() { until [ -e "../../$1" ]; do sleep 0.1; done; }
crate=${PWD##*/}
case $1-$crate in
version-*) echo stand-in ;;
lib-capi) wait_for capi-goes; mkdir -p out; echo archive >out/libcapi.a ;;
lib-*) wait_for crates-go; if [ "$crate" = "${REFUSED:-}" ]; then echo "logic=not-proved"; exit 1; fi ;;
esac
"""
CARGO = """#!/bin/sh
case $1 in
build) if [ -n "${SLOW:-}" ]; then : >../building && sleep 60; fi ;;
*) echo "cargo $*, in ${PWD##*/}" ;;
esac
"""
SHOWN = "cargo run --offline --quiet --bin navorzim -- demo, in rust\n"
AT_WORK = r"0 of 4 crates are proved, \d:\d\d, now first, second and 1 more"
AT_LAST = r"3 of 4 crates are proved, \d:\d\d, now capi"
PROVED = r"The library is proved: 4 crates, in \d:\d\d\.\n"


class Repository:
    """One of five crates, three of them below capi, and stand-ins for rt and cargo."""

    def __init__(self, folder: str) -> None:
        self.root = Path(folder)
        for name in ("bin", "rust", "target/log", *(f"crates/{crate}" for crate in ("first", "second", "third", "other", "capi"))):
            (self.root / name).mkdir(parents=True)
        for name in ("demo.sh", "progress.sh", "library.sh"):
            shutil.copy(ROOT / name, self.root)
        (self.root / "crates.txt").write_text("# floors\nfirst:\nsecond:\nthird:\nother: first\ncapi staticlib: first second third\n")
        (self.root / "crates/capi/text").write_text("")
        # what an earlier run has left doesn't count
        (self.root / "target/log/second.out").write_text("rt: second proved (1 s)\n")
        for name, text in (("rt", RT), ("cargo", CARGO)):
            (self.root / "bin" / name).write_text(text)
            (self.root / "bin" / name).chmod(0o755)
        self.script = ["/bin/sh", str(self.root / "demo.sh")]
        self.environment = {**os.environ, "PATH": f"{self.root / 'bin'}:{os.environ['PATH']}", "TMPDIR": str(self.root)}

    def goes(self, name: str) -> Callable[[int], object]:
        """Lets the stand-in go on."""
        return lambda _: (self.root / name).touch()

    def steps(self) -> "list[tuple[str, Callable[[int], object]]]":
        """What is waited for, and what then happens."""
        return [(AT_WORK, self.goes("crates-go")), (AT_LAST, self.goes("capi-goes"))]

    def elsewhere(self, **variables: str) -> "tuple[int, str, str]":
        """The status, what it says and what it says aside."""
        child = self.begun(**variables)
        aside = watched(child.stderr.fileno(), self.steps())
        out, rest = child.communicate()
        return child.returncode, out.decode(), aside + rest.decode()

    def begun(self, **variables: str) -> "subprocess.Popen[bytes]":
        """The script, at no terminal."""
        environment = {**self.environment, **variables}
        return subprocess.Popen(self.script, env=environment, cwd="/", stdout=subprocess.PIPE, stderr=subprocess.PIPE)

    def at_terminal(self, steps: "list[tuple[str, Callable[[int], object]]]", columns: int = 0) -> "tuple[int, str]":
        """The status and all that the terminal was sent, which may not say how wide it is."""
        child, terminal = pty.fork()
        if child == 0:
            os.execve(self.script[0], self.script, self.environment)
        fcntl.ioctl(terminal, termios.TIOCSWINSZ, struct.pack("4H", 24, columns, 0, 0))
        sent = watched(terminal, steps)
        _, status = os.waitpid(child, 0)
        os.close(terminal)
        return os.waitstatus_to_exitcode(status), sent

    def processes(self) -> int:
        """How many processes of the script are still there, once those that were told to end had the time."""
        for _ in range(200):
            count = sum(f"TMPDIR={self.root}".encode() in variables for variables in environments())
            if count == 0:
                break
            time.sleep(0.1)
        return count

    def left(self) -> "list[str]":
        """The temporary folders that are left."""
        return [path.name for path in self.root.iterdir() if path.name.startswith("tmp.")]


def environments() -> "Iterator[bytes]":
    """The environments of all processes that can be looked at."""
    for path in Path("/proc").glob("[0-9]*/environ"):
        try:
            yield path.read_bytes()
        except OSError:  # it has ended
            pass


def watched(file: int, steps: "list[tuple[str, Callable[[int], object]]]") -> str:
    """All that comes from a file. Each step is taken when its text has come."""
    came, steps = b"", list(steps)
    while True:
        try:
            piece = os.read(file, 4096)
        except OSError:  # a terminal that nobody writes to any more
            piece = b""
        if not piece:
            return came.decode()
        came += piece
        while steps and re.search(steps[0][0], came.decode("utf-8", "ignore")):
            steps.pop(0)[1](file)


def test_elsewhere(repository: Repository) -> None:
    names = subprocess.run(["sh", "library.sh", "--crates"], cwd=repository.root, capture_output=True, text=True, check=True).stdout
    assert names.split() == ["first", "second", "third", "capi"], names
    status, out, aside = repository.elsewhere()
    lines = aside.splitlines()
    assert status == 0 and re.fullmatch(PROVED + re.escape(SHOWN), out), (status, out, aside)
    assert all(re.fullmatch(r"\d of 4 crates are proved, \d:\d\d(, now [a-z, 1]*)?", line) for line in lines), aside
    assert [line for line in lines if re.fullmatch(AT_WORK, line)] and re.fullmatch(AT_LAST, lines[-1]), aside
    again = "The library is proved: 4 crates, and nothing has changed since.\n" + SHOWN
    assert repository.elsewhere() == (0, again, ""), repository.elsewhere()


def test_refused(repository: Repository) -> None:
    repository.goes("crates-go")(0)
    status, out, aside = repository.elsewhere(REFUSED="second")
    assert (status, out) == (1, ""), (status, out, aside)
    assert aside.endswith("demo.sh: the library isn't proved\n") and "rt: second NOT PROVED\n" in aside, aside


def test_terminal(repository: Repository) -> None:
    status, sent = repository.at_terminal(repository.steps())
    before, said, after = re.split(f"({PROVED})", sent.replace("\r\n", "\n"))
    # on the terminal all of that is one line, which is gone in the end
    assert status == 0 and "\n" not in before and before.endswith("\r\x1b[K") and after.endswith(SHOWN), sent
    lines = re.findall(r"\r([^\r\n\x1b]*)\x1b\[K", before)
    assert any(re.fullmatch(AT_WORK, line) for line in lines) and re.fullmatch(AT_LAST, lines[-2]), sent


def test_interrupted(repository: Repository) -> None:
    status, sent = repository.at_terminal([(AT_WORK, lambda terminal: os.write(terminal, b"\x03"))])
    assert status == 130 and "cargo" not in sent and sent.endswith("\r\x1b[K"), (status, sent)
    assert repository.processes() == 0


def test_narrow(repository: Repository) -> None:
    """A line that is wider than the terminal would go on in the next, and stay."""
    begun, ended = r"0 of 4 crates are proved, \d:\d\d, now\x1b", r"3 of 4 crates are proved, \d:\d\d, now\x1b"
    steps = [(begun, repository.goes("crates-go")), (ended, repository.goes("capi-goes"))]
    status, sent = repository.at_terminal(steps, columns=len("0 of 4 crates are proved, 0:00, now") + 1)
    assert status == 0 and re.search(PROVED, sent.replace("\r\n", "\n")), sent


def test_ended(repository: Repository) -> None:
    for number, expected in ((signal.SIGTERM, 143), (signal.SIGHUP, 129), (signal.SIGQUIT, 131)):
        child = repository.begun()
        watched(child.stderr.fileno(), [(AT_WORK, lambda _: child.send_signal(number))])
        child.communicate()
        assert child.returncode == expected and repository.processes() == 0, (number, child.returncode)


def test_ended_while_building(repository: Repository) -> None:
    for name in ("crates-go", "capi-goes"):
        repository.goes(name)(0)
    child = repository.begun(SLOW="yes")
    while not (repository.root / "building").exists():
        time.sleep(0.1)
    child.terminate()
    child.communicate()
    assert child.returncode == 143 and repository.processes() == 0, child.returncode


def heed_signals() -> None:
    """What a shell runs in the background ignores an interrupt, and so does all that it starts: here each signal ends what it is sent to."""
    for number in (signal.SIGHUP, signal.SIGINT, signal.SIGQUIT, signal.SIGTERM):
        signal.signal(number, signal.SIG_DFL)


def main() -> None:
    heed_signals()
    tests = (test_elsewhere, test_refused, test_terminal, test_narrow, test_interrupted, test_ended, test_ended_while_building)
    for test in tests:
        with tempfile.TemporaryDirectory() as folder:
            repository = Repository(folder)
            test(repository)
            assert repository.left() == [], repository.left()
    print("demo.sh: says how far it is, at a terminal and elsewhere, and ends with all that it started")


if __name__ == "__main__":
    main()
