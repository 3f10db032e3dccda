"""The header for C: it compiles without a warning as C and as C++ of every year, an answer that is thrown away is warned of, every number
of its table has a sentence of its own, its version is the crate's, and its calls are those that Rust and the tests from C know.

    python3 tests/header.py
"""
import re
import shutil
import subprocess
import tempfile
from pathlib import Path

ROOT = Path(__file__).resolve().parent.parent
HEADER = (ROOT / "include" / "navorzim.h").read_text()
WARNINGS = ["-Wall", "-Wextra", "-Wpedantic", "-Wshadow", "-Werror", f"-I{ROOT / 'include'}"]
COMPILERS = {
    ("gcc", "clang"): ("c", ["c89", "c99", "c11", "c17", "c2x", "gnu89", "gnu99"]),
    ("g++", "clang++"): ("c++", ["c++98", "c++11", "c++14", "c++17", "c++20"]),
}
SHOW = """
#include <navorzim.h>
#include <stdio.h>
int main(void) {
    for (int number = 0; number < 1000; number++) printf("%d %s\\n", number, navorzim_reason((uint64_t)number));
    printf("%s\\n%s\\n", navorzim_reason(UINT64_C(1) << 32 | 1), navorzim_reason(UINT64_MAX));
    printf("%d.%d.%d\\n%s\\n", NAVORZIM_VERSION_MAJOR, NAVORZIM_VERSION_MINOR, NAVORZIM_VERSION_PATCH, NAVORZIM_VERSION);
    return 0;
}
"""
KNOWING = ("rust/src/ffi.rs", "examples/c/nulls.c", "tests/c_interface.py")
"""Files that have every call."""
CALLS = re.findall(r"^navorzim_\w+ (navorzim_\w+)\(([^)]*)\);", HEADER, re.M)


def compiled(compiler: str, kind: str, year: str, text: str, *more: str) -> subprocess.CompletedProcess:
    words = [compiler, f"-std={year}", *WARNINGS, "-x", kind, "-", *(more or ("-c", "-o", "/dev/null"))]
    return subprocess.run(words, input=text, capture_output=True, text=True)


def throwing_away(call: str, parameters: str) -> str:
    """A program that doesn't look at a call's answer."""
    given = ", ".join("NULL" if "*" in parameter else "0" for parameter in parameters.split(","))
    return f"#include <navorzim.h>\nint main(void) {{ {call}({given}); return 0; }}\n"


def test_compilers() -> list[str]:
    """Answers those that were tried."""
    tried = []
    for names, (kind, years) in COMPILERS.items():
        for compiler in names:
            if not shutil.which(compiler):
                print(f"not tried, since there is no {compiler}: the header in {compiler}")
                continue
            tried.append(compiler)
            for year in years:
                once = compiled(compiler, kind, year, "#include <navorzim.h>\n#include <navorzim.h>\nint main(void) { return 0; }\n")
                assert once.returncode == 0, f"{compiler} {year}: {once.stderr}"
                call, parameters = CALLS[0]
                warned = compiled(compiler, kind, year, throwing_away(call, parameters))
                assert warned.returncode != 0 and re.search("unused-result|nodiscard", warned.stderr), f"{compiler} {year}: {warned.stderr}"
    return tried


def test_answers() -> None:
    """Each call's answer must be looked at."""
    assert CALLS and len(CALLS) == HEADER.count("\nNAVORZIM_ANSWER\n")
    for call, parameters in CALLS:
        warned = compiled("gcc", "c", "c99", throwing_away(call, parameters))
        assert warned.returncode != 0 and "unused-result" in warned.stderr, f"{call}: {warned.stderr}"


def test_calls() -> None:
    """Nobody has forgotten a call, or kept one that is gone."""
    calls = {call.removeprefix("navorzim_") for call, _ in CALLS}
    for name in KNOWING:
        text = (ROOT / name).read_text()
        known = {word.removeprefix("navorzim_") for word in re.findall(r"\w+", text)}
        assert calls <= known, f"{name} doesn't have {sorted(calls - known)}"
        gone = set(re.findall(r"\bnavorzim_(\w+)\(", text)) - calls
        assert not gone, f"{name} has {sorted(gone)}, which the header doesn't"


def table() -> list[int]:
    """The numbers of the header's table."""
    rows = HEADER.split(" *   number  given when")[1].split("\n *\n")[0].splitlines()[1:]
    return [int(number) for row in rows for number in re.findall(r"\d+", row[3:11])]


def test_sentences_and_version() -> int:
    """Answers how many numbers there are."""
    with tempfile.TemporaryDirectory() as folder:
        program = f"{folder}/show"
        made = compiled("gcc", "c", "c99", SHOW, "-o", program)
        assert made.returncode == 0, made.stderr
        *lines, wide, widest, numbers, version = subprocess.run([program], capture_output=True, text=True, check=True).stdout.splitlines()
    said = dict(line.split(" ", 1) for line in lines)
    listed = table()
    other = said["999"]
    assert wide == widest == other and len(other) > 10
    assert listed and listed == sorted(listed)
    for number in range(1000):
        assert (said[str(number)] == other) == (number not in [0, *listed]), f"{number}: {said[str(number)]}"
    assert len({said[str(number)] for number in listed}) == len(listed)
    assert numbers == version == re.search(r'^version = "(.*)"$', (ROOT / "rust/Cargo.toml").read_text(), re.M)[1]
    return len(listed)


if __name__ == "__main__":
    tried = test_compilers()
    test_answers()
    test_calls()
    print(f"the header: silent in {', '.join(tried)}, and {test_sentences_and_version()} refusals have a sentence")
