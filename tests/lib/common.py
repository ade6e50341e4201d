"""What the scripts of tests/ share: the repository's folder, the program under test, and a last line for ./test."""

import contextlib
import functools
import importlib.machinery
import importlib.util
import os
import pathlib
import pty
import re
import shutil
import subprocess
import sys
import tempfile
import time
import unittest
import xml.etree.ElementTree

sys.dont_write_bytecode = True
ROOT = pathlib.Path(__file__).resolve().parents[2]
# (a script may import another one)
sys.path += sorted(str(it) for it in ROOT.glob("tests/*"))
# in the gate no test may be skipped
IS_GATE = bool(os.environ.get("PGBOARD_GATE"))
# the tree in which rt proves and builds the C library: in the gate build_library.py has done so in a copy
PROVED = pathlib.Path(os.environ.get("PGBOARD_PROVED") or ROOT)
# a game and its solution, as they are written, and answers of the program: status, output and error
GAME, SOLUTION = b"parity 1;\n0 2 0 0,1;\n1 1 1 1;\n", b"paritysol 1;\n0 0 0;\n1 1 1;\n"
READ_FAULT, NO_MEMORY = (4, b"", b"pgboard: read fault\n"), (5, b"", b"pgboard: no memory\n")
# what `rt ci` and `rt run` build
BUILT = ROOT / "crates" / "pgboard_program" / "out" / "pgboard_program"


def library(kind, tree=ROOT):
    return tree / "out" / kind / "libpgboard_c.a"


def is_new(built):
    """Whether a program or a library is there, and no source of it is newer."""
    other = r"_tests/|_support/|pgboard_c/" if "lib" not in built.name else r"_tests/|_support/|pgboard(_program)?/"
    sources = [ROOT / "crates.txt", *(it for it in ROOT.glob("crates/*/src/**/*.rt") if not re.search(other, str(it)))]
    return built.exists() and built.stat().st_mtime >= max(it.stat().st_mtime for it in sources)


def unproved(*what):
    """The program, or the `library`, without proofs, which is built unless it is new."""
    built = library("unproved") if what else ROOT / "out" / "unproved" / "pgboard"
    if not is_new(built):
        how = {"stdin": subprocess.DEVNULL, "stdout": subprocess.DEVNULL, "check": True}
        subprocess.run([ROOT / "tools" / "build", "unproved", *what], **how)
    return built


def last_built():
    """A new proved program, else the one without proofs."""
    proved = [it for it in (BUILT, ROOT / "out" / "proved" / "pgboard") if is_new(it)]
    return max(proved, key=lambda it: it.stat().st_mtime) if proved else unproved()


# the first word of a script may be the path of another one, which the environment has for the scripts that it runs
IS_NAMED = bool(sys.argv[1:]) and not sys.argv[1].startswith("-")
NAMED = sys.argv.pop(1) if IS_NAMED else os.environ.get("PGBOARD_TESTED")
PROGRAM = pathlib.Path(os.path.abspath(NAMED)) if NAMED else last_built()


def text_of(*path):
    return ROOT.joinpath(*path).read_text()


def make_folder(case):
    """A folder that is removed after a test, or after a class of tests."""
    folder = tempfile.TemporaryDirectory(prefix="pgboard-test-")
    (case.addClassCleanup if isinstance(case, type) else case.addCleanup)(folder.cleanup)
    return pathlib.Path(folder.name)


def write_program(path, text):
    path.parent.mkdir(parents=True, exist_ok=True)
    path.write_text(text)
    path.chmod(0o755)
    return path


def copy_crates(folder, top=ROOT):
    left_out = shutil.ignore_patterns("out", "must-fail", "wrong_bodies")
    shutil.copytree(top / "crates", folder / "crates", ignore=left_out)
    for name in ("crates.txt", "HANDLES"):
        shutil.copy(top / name, folder)


def make_clone(folder, kind="proved"):
    """A folder like a clone, in which the script `pgboard` runs the program under test; returns the script's path."""
    for name in ("pgboard", "packaging/help.txt", "tools/build"):
        write_program(folder / name, text_of(name))
    for name in ("crates.txt", "HANDLES"):
        (folder / name).touch()
    (folder / "bindings").mkdir()
    (folder / "bindings/python").symlink_to(ROOT / "bindings/python")
    (folder / "out" / kind).mkdir(parents=True)
    shutil.copy(PROGRAM, folder / "out" / kind / "pgboard")
    return folder / "pgboard"


def load(path):
    loader = importlib.machinery.SourceFileLoader(f"{path.parent.name}_{path.stem}", str(path))
    script = importlib.util.module_from_spec(importlib.util.spec_from_loader(loader.name, loader))
    loader.exec_module(script)
    return script


def wait_until(is_so, seconds=60):
    ends = time.monotonic() + seconds
    while not is_so():
        assert time.monotonic() < ends, "it takes too long"
        time.sleep(0.02)


def run(words, given=b"", timeout=60, **how):
    ran = subprocess.run(words, input=given, capture_output=True, timeout=timeout, **how)
    return ran.returncode, ran.stdout, ran.stderr


def program(*words, given=b"", **how):
    return run([PROGRAM, *words], given, **how)


def at_terminal(words, typed=b"", **how):
    """A run whose standard error is a terminal, as its standard input where something is typed; and what it says."""
    ours, theirs = pty.openpty()
    os.write(ours, typed)
    how.update(stdin=theirs if typed else subprocess.DEVNULL, stdout=subprocess.PIPE, stderr=theirs)
    ran = subprocess.run(words, timeout=60, **how)
    os.write(theirs, b"end")
    text = b""
    while not text.endswith(b"end"):
        text += os.read(ours, 65536)
    return ran, text[: -len(b"end")]


def drawn(text):
    """What Graphviz has drawn, in whatever layout: the kind, name, texts and looks of each vertex and edge."""
    tag = "{http://www.w3.org/2000/svg}%s"
    for group in xml.etree.ElementTree.fromstring(text.encode()).iter(tag % "g"):
        if group.get("class") in ("node", "edge"):
            texts = ["".join(it.itertext()) for it in group.iter(tag % "text")]
            shapes = [it for it in group if it.tag not in (tag % "title", tag % "text")]
            names = "fill", "stroke-width", "stroke-dasharray"
            looks = [tuple(it.get(name, "") for name in names) for it in shapes]
            yield group.get("class"), group.find(tag % "title").text, texts, looks


def is_alive(pid):
    with contextlib.suppress(OSError), open(f"/proc/{pid}/stat", errors="replace") as file:
        return file.read().rsplit(")", 1)[1].split()[0] != "Z"
    return False


@functools.lru_cache(maxsize=None)
def is_checked():
    """Whether the program under test has the checks of `rt try`: it is some 200 times slower."""
    return b"\nbuild: unproved (asan), " in program("--version")[1]


def needs_speed(test):
    """Leaves out a test, or a class of tests, that takes too much of a program with the checks of `rt try`."""
    return unittest.skipIf(is_checked(), "the program checks each access to memory")(test)


def needs(*tools):
    lacking = [it for it in tools if not shutil.which(it)]
    return unittest.skipIf(lacking, f"not installed: {' '.join(lacking)}")


def installed(*tools):
    """Those of some tools that are installed; in the gate all of them."""
    found = [it for it in tools if IS_GATE or shutil.which(it)]
    if not found:
        raise unittest.SkipTest(f"not installed: {' '.join(tools)}")
    return found


def kit():
    """The kit that is installed, without the letter of its release: those of one logic prove the same."""
    return re.sub(r"^(rattle-kit-\d+)[a-z]* ", r"\1 ", run(["rt", "version"])[1].decode().strip())


def load_tests_of_table(case, rows, judge):
    for name, row in rows.items():
        setattr(case, f"test_{name}", lambda self, row=row: judge(self, row))


class Result(unittest.TextTestResult):
    """Counts the rows of a table, each a subTest, in place of the test that has them; says what takes a second."""

    passed = rows = 0

    def startTest(self, test):
        super().startTest(test)
        self.rows, self.began = 0, time.monotonic()

    def stopTest(self, test):
        super().stopTest(test)
        took = time.monotonic() - self.began
        if took >= 1:
            print(f"took {took:.1f} s: {test.id().partition('.')[2]}")

    def addSubTest(self, test, subtest, err):
        super().addSubTest(test, subtest, err)
        self.rows += 1
        self.passed += err is None

    def addSuccess(self, test):
        super().addSuccess(test)
        self.passed += not self.rows


def main():
    """Runs the tests of the script, with flags of unittest as -k WORD; the last line is 'N passed, M failed'.

    A script of which no test ran has failed, unless all were skipped. In the gate a skipped test has failed.
    """
    runner = unittest.TextTestRunner(resultclass=Result)
    result = unittest.main(testRunner=runner, exit=False).result
    skipped = result.skipped if IS_GATE else []
    failed = sum(map(len, (result.failures, result.errors, result.unexpectedSuccesses, skipped)))
    failed = failed or int(not result.passed and not result.skipped)
    for test, why in result.skipped:
        print(f"skipped: {test}: {why}")
    print(f"{result.passed} passed, {failed} failed", flush=True)
    sys.exit(1 if failed else 0)
