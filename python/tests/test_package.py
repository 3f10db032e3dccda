"""The package around the calls: types, bytes that are lent and not copied, the examples of its documentation, the header's calls, sentences
and version, how the library is found, and the installation by pip."""
import array
import doctest
import mmap
import os
import pickle
import re
import shutil
import subprocess
import sys
import tempfile
import threading
import tracemalloc
import unittest
from ctypes import CDLL
from ctypes.util import find_library
from pathlib import Path
from typing import Any, Callable, Optional

import navorzim
from navorzim import Away, Busy, Code, Idle, NoPlan, Plan, PricedPlan, Refused, Unsound, library, refusals

PYTHON = Path(__file__).resolve().parents[1]
HEADER = (PYTHON.parent / "include" / "navorzim.h").read_text("utf-8")
BUILT = library.LIBRARY._name


def load_tests(_loader: unittest.TestLoader, tests: unittest.TestSuite, _pattern: Optional[str]) -> unittest.TestSuite:
    """The examples of the documentation are tests too."""
    for module in ("navorzim", "navorzim.code", "navorzim.plans", "navorzim.prices", "navorzim.refusals"):
        tests.addTests(doctest.DocTestSuite(module))
    return tests


USE = "from navorzim import Code, library; print(Code.evenodd(3).plan(0).reads, library.LIBRARY._name)"


def run(*words: str, **environment: Optional[str]) -> "tuple[int, str]":
    """Runs a program outside of the repository, with only these variables changed."""
    kept = {name: value for name, value in os.environ.items() if not name.startswith(("NAVORZIM", "PYTHON", "LD_", "PIP"))}
    kept.update({name: value for name, value in environment.items() if value is not None})
    ran = subprocess.run(words, env=kept, cwd="/", stdout=subprocess.PIPE, stderr=subprocess.STDOUT, text=True)
    return ran.returncode, ran.stdout


class Types(unittest.TestCase):
    code = Code.row_diagonal(3)

    def test_wrong_types_are_refused(self) -> None:
        code, plan, stripe, data, idle = self.code, self.code.plan(0), bytearray(8), bytes(4), [Idle(1)] * 4
        scattered = memoryview(bytearray(16))[::2]
        for wrong in (
            lambda: Code("sheet"),
            lambda: Code(70),
            lambda: Code(None),
            lambda: Code([4, 1, 4, 2, 4, 8]),
            lambda: Code.liberation("5", 5),
            lambda: Code.liberation(5.0, 5),
            lambda: Code.row_diagonal(None),
            lambda: code.encode("1", data),
            lambda: code.encode(1.0, data),
            lambda: code.encode(1, "data"),
            lambda: code.encode(1, [0, 0, 0, 0]),
            lambda: code.encode_into(1, data, bytes(8)),
            lambda: code.encode_into(1, data, memoryview(bytes(8))),
            lambda: code.encode_into(1, data, scattered),
            lambda: code.encode_into(1, scattered[:4], stripe),
            lambda: code.encode_into(1, data, None),
            lambda: code.plan("0"),
            lambda: code.plan([0]),
            lambda: code.plan_wanted(0, 1),
            lambda: code.plan_wanted(0, ["1"]),
            lambda: code.plan_wanted(0, "1"),
            lambda: code.plan_disks(0),
            lambda: code.plan_disks([0.0]),
            lambda: code.plan_disks([0], None),
            lambda: code.plan_fewest(0),
            lambda: code.plan_fewest(["0"]),
            lambda: code.plan_fewest([0], 1.0),
            lambda: code.plan_priced(0, idle),
            lambda: code.plan_priced([0], None),
            lambda: code.plan_priced([0], Idle(1)),
            lambda: code.plan_priced([0], [1.0] * 4),
            lambda: code.plan_priced([0], [Away] * 4),
            lambda: code.plan_priced([0], {disk: Idle(1) for disk in range(4)}),
            lambda: code.plan_priced([0], [Idle("1")] * 4),
            lambda: code.plan_priced([0], [Idle(None)] * 4),
            lambda: code.plan_priced([0], [Idle(1j)] * 4),
            lambda: code.plan_priced([0], [Busy(1, [2])] * 4),
            lambda: code.plan_priced([0], idle, 1),
            lambda: code.plan_priced([0], idle, ["1"]),
            lambda: code.lost_patterns(0),
            lambda: code.lost_patterns(["0"]),
            lambda: code.lost_patterns([0], 1),
            lambda: code.shows_on("1"),
            lambda: code.shows_on(1.0),
            lambda: code.shows_on(None),
            lambda: code.check(0, "plan"),
            lambda: code.check("0", plan),
            lambda: code.check(None, plan),
            lambda: code.check(0.0, plan),
            lambda: code.check(0, None),
            lambda: code.rebuild(0, plan, 1, bytes(8)),
            lambda: code.rebuild([0], plan, 1, memoryview(bytes(8))),
            lambda: code.rebuild(0, plan, "1", stripe),
            lambda: code.rebuild(0, 5, 1, stripe),
            lambda: code.test_survivors("0", 1, stripe),
            lambda: code.test_survivors([0.0], 1, stripe),
            lambda: code.test_survivors(0, "1", stripe),
            lambda: code.test_survivors(0, 1, scattered),
            lambda: code.test_survivors(0, 1, None),
            lambda: code.equations(None),
            lambda: code.equations(["0"]),
            lambda: code.strip(0, 1, "12345678"),
            lambda: code.strip(0, 1, scattered),
            lambda: code.strip(None, 1, stripe),
            lambda: code.look_up(0, 1, stripe, None, 0),
            lambda: code.look_up(0, 1, stripe, bytes(2), "0"),
        ):
            self.assertRaises(TypeError, wrong)
        self.assertEqual(stripe, bytes(8))

    def test_bytes_that_are_given_back_are_refused(self) -> None:
        released, closed = memoryview(bytearray(8)), mmap.mmap(-1, 8)
        released.release()
        closed.close()
        for lent in (released, closed):
            self.assertRaises(ValueError, self.code.rebuild, 0, self.code.plan(0), 1, lent)
            self.assertRaises(ValueError, self.code.strip, 0, 1, lent)

    def test_bytes_are_lent_for_a_call_only(self) -> None:
        stripe = bytearray(8)
        self.code.rebuild(0, self.code.plan(0), 1, stripe)
        self.assertRaises(Refused, self.code.rebuild, 0, b"", 1, stripe)
        self.assertRaises(TypeError, self.code.rebuild, 0, None, 1, stripe)
        stripe.append(0)  # a BufferError while somebody holds them

    def test_overlapping_bytes_are_refused(self) -> None:
        room = memoryview(bytearray(range(12)))
        for data, stripe in ((room[:4], room[3:11]), (room[4:8], room[4:12]), (room[5:9], room[1:9]), (room[7:11], room[:8])):
            self.assertRaises(ValueError, self.code.encode_into, 1, data, stripe)
            self.assertEqual(bytes(room), bytes(range(12)))
        # side by side is not over one another, and no bytes overlap nothing
        self.code.encode_into(1, room[8:], room[:8])
        self.assertEqual(bytes(room[:8]), bytes(self.code.encode(1, room[8:])))
        self.assertEqual(Refused(33).args, self.refusal(lambda: self.code.encode_into(1, room[3:3], room[:8])))
        self.code.rebuild(0, self.code.plan(0), 1, room[:8])
        sheet = bytearray(self.code.plan(0).sheet + bytes(8))
        self.assertRaises(ValueError, self.code.rebuild, 0, memoryview(sheet)[:21], 1, memoryview(sheet)[20:28])

    def refusal(self, call: Callable[[], Any]) -> "tuple[Any, ...]":
        with self.assertRaises(Refused) as caught:
            call()
        return caught.exception.args

    def test_other_bytes_are_taken_as_they_lie(self) -> None:
        stripe = self.code.encode(8, bytes(range(32)))
        numbers = array.array("Q", bytes(stripe))
        with mmap.mmap(-1, len(stripe)) as mapped:
            mapped[:] = bytes(stripe)
            for lent in (numbers, mapped):
                with self.code.strip(0, 8, lent) as strip:
                    strip[:] = bytes(16)
                self.assertNotEqual(bytes(lent), bytes(stripe))
                self.code.rebuild(0, self.code.plan(0), 8, lent)
                self.assertEqual(bytes(lent), bytes(stripe))

    def test_parts_are_the_very_bytes(self) -> None:
        stripe, spare = bytearray(8), bytearray(2)
        self.code.strip(1, 1, stripe)[:] = b"ab"
        self.code.look_up(0, 1, stripe, spare, 1)[:] = b"c"
        self.code.look_up(0, 1, stripe, spare, 7)[:] = b"d"
        self.assertEqual((bytes(stripe), bytes(spare)), (b"\0\0ab\0\0\0d", b"\0c"))
        self.assertTrue(self.code.strip(1, 1, bytes(stripe)).readonly)

    def test_no_stripe_is_copied(self) -> None:
        code, size = Code.liberation(7, 7), 65536
        data, plan = bytes(code.data_symbols * size), code.plan(0)
        stripe, spare = bytearray(code.symbols * size), bytes(code.rows * size)
        kept = bytes(stripe)
        tracemalloc.start()
        try:
            code.encode_into(size, data, stripe)
            code.encode_into(size, memoryview(data), memoryview(stripe))
            code.rebuild(0, plan, size, stripe)
            for lent in (stripe, kept, memoryview(kept)):
                code.strip(0, size, lent)
                code.look_up(0, size, lent, spare, 5)
                code.test_survivors(0, size, lent)
            _, most = tracemalloc.get_traced_memory()
        finally:
            tracemalloc.stop()
        self.assertLess(most, size)

    def test_threads_work_at_once(self) -> None:
        code = Code.evenodd(5)
        data = bytes(range(20)) * 512
        whole, wrong = code.encode(512, data), []

        def work() -> None:
            for disk in range(code.disks):
                stripe = bytearray(whole)
                code.strip(disk, 512, stripe)[:] = bytes(4 * 512)
                code.rebuild(disk, code.plan(disk), 512, stripe)
                if stripe != whole:
                    wrong.append(disk)

        threads = [threading.Thread(target=work) for _ in range(4)]
        for thread in threads:
            thread.start()
        for thread in threads:
            thread.join()
        self.assertEqual(wrong, [])

    def test_values(self) -> None:
        code, plan = self.code, self.code.plan_disks([0, 2])
        refused, why, more = Refused(22, 7), NoPlan(4), NoPlan(5, 2**100, 2)
        priced = code.plan_priced([0], [Idle(1), Idle(0.5), Away(), Busy(1, 2)])
        for value in (code, plan, priced, Away(), Idle(1.5), Busy(1.5, 2.5)):
            self.assertEqual(pickle.loads(pickle.dumps(value)), value)
            self.assertEqual(hash(pickle.loads(pickle.dumps(value))), hash(value))
        stopped = PricedPlan(priced.sheet, priced.reads, priced.sum, False)
        self.assertEqual(repr(priced), f"PricedPlan(disks 0, 2, symbols 0, 1, {len(priced.steps)} steps, reads 4 symbols, sum 5.0)")
        self.assertEqual(repr(stopped), repr(priced)[:-1] + ", stopped)")
        self.assertEqual(len({priced, stopped, Plan(priced.sheet, priced.reads), Idle(1.5), Idle(2.5), Busy(1.5, 1.0)}), 6)
        self.assertNotEqual(code, Code.row_diagonal(5))
        self.assertNotEqual(code, code.sheet)
        self.assertEqual((bytes(code), bytes(plan)), (code.sheet, plan.sheet))
        self.assertEqual(str(pickle.loads(pickle.dumps(refused))), str(refused))
        self.assertEqual(pickle.loads(pickle.dumps(Unsound(65535))).column, 65535)
        self.assertEqual((pickle.loads(pickle.dumps(why)).patterns, pickle.loads(pickle.dumps(more)).patterns), ((4,), (5, 2**100, 2)))
        self.assertEqual(str(why), "no plan can be: data symbol 2 could be another one")
        self.assertEqual(str(more), "no plan can be: data symbols 0 and 2 could be other ones, which is one pattern of 3")
        self.assertEqual(more.data_symbols, ((0, 2), (100,), (1,)))
        self.assertRaises(AttributeError, setattr, code, "disks", 3)
        for value, name in ((plan, "reads"), (priced, "sum"), (priced, "sheet"), (Idle(1), "price"), (Busy(1, 2), "factor")):
            self.assertRaises(AttributeError, setattr, value, name, 3)
        self.assertEqual(code.check([0, 2], Plan(plan.sheet, 0)), plan.reads)
        self.assertEqual(code.check(priced.disks, priced), priced.reads)


class Header(unittest.TestCase):
    def test_sentences(self) -> None:
        said = {int(number): sentence for number, sentence in re.findall(r'case (\d+): return "(.*)";', HEADER)}
        self.assertEqual(said.pop(0), "nothing was refused")
        self.assertEqual(refusals.REASONS, said)
        for number in said:
            self.assertTrue(str(Refused(number, 65)).startswith(f"refused {number} at 65: {said[number]}"))
        self.assertEqual(str(Refused(99, 3)), "refused 99 at 3: a refusal that has no sentence here")

    def test_places(self) -> None:
        """Each number for which the header's table names a place, as the title's last word has it, says here what that is."""
        title, *rows = HEADER[HEADER.index(" *   number  given when") :].split("\n *\n")[0].splitlines()
        number, named = 0, set()
        for row in rows:
            number = int((re.findall(r"\d+", row[3:11]) or [number])[-1])
            if row[title.index("place") :].strip():
                named.add(number)
        self.assertEqual(set(refusals.PLACES), named)
        for number in named:
            self.assertNotEqual(str(Refused(number, 64)).replace("at 64", ""), str(Refused(number, 129)).replace("at 129", ""))

    def test_a_wanted_symbol_is_named_by_the_edition(self) -> None:
        code = Code.row_diagonal(3)
        for plan, disks, said in (
            (code.plan(1), 1, "refused 21 at 64: a wanted symbol ends wrong (row 1; data symbol 0 is off)"),
            (code.plan_disks([1]), [1], "refused 21 at 192: a wanted symbol ends wrong (symbol 3; data symbol 0 is off)"),
        ):
            # the last step copies symbol 4 to symbol 3, which is the XOR of data symbols 0 and 2
            with self.assertRaises(Refused) as caught:
                code.check(disks, plan.sheet[:-3] + bytes([1, 3, 4]))
            self.assertEqual(str(caught.exception), said)

    def test_version(self) -> None:
        self.assertEqual(re.search('^#define NAVORZIM_VERSION "(.*)"$', HEADER, re.M)[1], navorzim.__version__)
        self.assertEqual(run("sh", str(PYTHON.parent / "shared.sh"), "--soname"), (0, library.LOADED_AS + "\n"))
        self.assertIn(library.LOADED_AS.encode() + b"\0", Path(BUILT).read_bytes())

    def test_calls(self) -> None:
        """Each call of the header with its answer and its parameters."""
        kinds = {
            "uint64_t": library.NUMBER,
            "const uint8_t *": library.READ,
            "const double *": library.DOUBLES,
            "uint8_t *": library.WRITTEN,
        }
        found = {}
        for answer, call, parameters in re.findall(r"^navorzim_(\w+) navorzim_(\w+)\(([^)]*)\);", HEADER, re.M):
            types = [re.match(r"\s*(const \w+ \*|uint8_t \*|\w+)", parameter)[1] for parameter in parameters.split(",")]
            found[call] = (answer, tuple(kinds[kind] for kind in types if kind != "size_t"))
        self.assertEqual(library.CALLS, found)

    def test_answers(self) -> None:
        found, floats = {}, set()
        for lines, name in re.findall(r"typedef struct \{([^}]*)\} navorzim_(\w+);", HEADER):
            declared = re.findall(r"(uint64_t|double) ([\w, ]+);", lines)
            found[name] = tuple(field for _, fields in declared for field in fields.split(", "))
            floats |= {field for kind, fields in declared for field in fields.split(", ") if kind == "double"}
        self.assertEqual((library.FIELDS, set(library.FLOATS)), (found, floats))


class Finding(unittest.TestCase):
    def setUp(self) -> None:
        folder: Any = tempfile.TemporaryDirectory()
        self.addCleanup(folder.cleanup)
        self.folder = Path(folder.name)
        shutil.copytree(PYTHON / "navorzim", self.folder / "navorzim", ignore=shutil.ignore_patterns("*.so", "__pycache__"))

    def use(self, **environment: str) -> "tuple[int, str]":
        return run(sys.executable, "-B", "-c", USE, PYTHONPATH=str(self.folder), **environment)

    def test_by_name(self) -> None:
        self.assertEqual(self.use(NAVORZIM_LIBRARY=BUILT), (0, f"6 {BUILT}\n"))

    def test_beside_the_package(self) -> None:
        beside = self.folder / "navorzim" / "libnavorzim.so"
        shutil.copy(BUILT, beside)
        self.assertEqual(self.use(), (0, f"6 {beside}\n"))
        self.assertEqual(self.use(NAVORZIM_LIBRARY=BUILT), (0, f"6 {BUILT}\n"))

    def test_by_the_loader(self) -> None:
        (self.folder / "lib").mkdir()
        shutil.copy(BUILT, self.folder / "lib" / library.LOADED_AS)
        self.assertEqual(self.use(LD_LIBRARY_PATH=str(self.folder / "lib")), (0, f"6 {library.LOADED_AS}\n"))

    def test_none(self) -> None:
        status, said = self.use()
        self.assertTrue(status == 1 and "ImportError" in said and library.LOADED_AS in said and "NAVORZIM_LIBRARY" in said, said)

    def test_another(self) -> None:
        (self.folder / "text").write_text("no library")
        for named in ("missing", "text"):
            status, said = self.use(NAVORZIM_LIBRARY=str(self.folder / named))
            self.assertTrue(status == 1 and "ImportError" in said and f"NAVORZIM_LIBRARY names it: {self.folder / named}" in said, said)
        # a library that has none of the calls
        status, said = self.use(NAVORZIM_LIBRARY=shared_object("libm"))
        self.assertTrue(status == 1 and "ImportError" in said and "navorzim_" in said, said)


def shared_object(name: str) -> str:
    """The file of a library that every program here can load."""
    CDLL(find_library(name.removeprefix("lib")))
    return next(line.split()[-1] for line in Path("/proc/self/maps").read_text().splitlines() if f"/{name}" in line)


class Typing(unittest.TestCase):
    def test_types(self) -> None:
        if not shutil.which("mypy"):
            self.skipTest("there is no mypy")
        with tempfile.TemporaryDirectory() as folder:
            words = ("mypy", "--strict", "--no-error-summary", f"--cache-dir={folder}", str(PYTHON / "navorzim"), str(PYTHON / "backend.py"))
            self.assertEqual(run(*words), (0, ""))


class Installing(unittest.TestCase):
    """By pip, in a new environment, with nothing fetched."""

    @classmethod
    def setUpClass(cls) -> None:
        folder: Any = tempfile.TemporaryDirectory()
        cls.addClassCleanup(folder.cleanup)
        cls.python = f"{folder.name}/bin/python"
        if run(sys.executable, "-m", "venv", folder.name)[0] != 0:
            raise unittest.SkipTest("there is no venv with pip")

    def pip(self, *words: str) -> "tuple[int, str]":
        return run(self.python, "-m", "pip", *words, PIP_NO_INDEX="1", PIP_DISABLE_PIP_VERSION_CHECK="1")

    def install(self, *words: str) -> None:
        self.assertEqual(self.pip("install", "--quiet", *words, str(PYTHON)), (0, ""))
        self.addCleanup(self.pip, "uninstall", "--yes", "navorzim")

    def installed(self) -> Path:
        """The package's folder."""
        status, said = run(self.python, "-c", "from importlib.util import find_spec; print(find_spec('navorzim').origin)")
        self.assertEqual(status, 0, said)
        return Path(said.strip()).parent

    def test_with_the_library_inside(self) -> None:
        self.install()
        package = self.installed()
        self.assertEqual(run(self.python, "-c", USE), (0, f"6 {package}/libnavorzim.so\n"))
        self.assertTrue((package / "py.typed").exists())
        said = run(self.python, "-c", "from importlib.metadata import version; print(version('navorzim'))")
        self.assertEqual(said, (0, f"{navorzim.__version__}\n"))
        self.assertEqual(self.pip("uninstall", "--quiet", "--yes", "navorzim"), (0, ""))
        self.assertFalse(package.exists())

    def test_with_the_systems_library(self) -> None:
        self.install("--config-settings", "library=system")
        self.assertFalse((self.installed() / "libnavorzim.so").exists())
        self.assertEqual(run(self.python, "-c", USE, NAVORZIM_LIBRARY=BUILT), (0, f"6 {BUILT}\n"))

    def test_away_from_the_repository(self) -> None:
        with tempfile.TemporaryDirectory() as folder:
            shutil.copytree(PYTHON, f"{folder}/python", ignore=shutil.ignore_patterns("__pycache__"))
            status, said = self.pip("install", f"{folder}/python")
        self.assertTrue(status == 1 and "is built in the repository" in said, said)


if __name__ == "__main__":
    unittest.main()
