#!/usr/bin/env python3
r"""Compares what a built program prints, byte by byte, and its status.

tests/README.md says what a file of tests/program/cli is. Its text before the first section is a note; `stdout` more than once is one of
them, and `stderr` one for each run. Texts are ASCII with the escapes of Python's bytes, as \xff.
"""

import functools
import os
import pathlib
import re
import shlex
import subprocess
import sys
import unittest

sys.path.append(str(pathlib.Path(__file__).resolve().parents[1] / "lib"))
import common
import plain
from common import GAME as TIDY
from common import NO_MEMORY, READ_FAULT

CASES = common.ROOT / "tests" / "program" / "cli"
SECTION = re.compile(r"(?m)^-- (args|file \S.*|stdin|stdout|stderr|status)\n")


class Case:
    def __init__(self, name):
        note, *parts = SECTION.split((CASES / name).read_text())
        if any(re.search(r"(?m)^-- ", it) for it in (note, *parts[1::2])):
            raise ValueError(f"{name} has a section of another name")
        sections = list(zip(parts[::2], parts[1::2]))
        self.runs = [shlex.split(line) for head, text in sections if head == "args" for line in text.splitlines()] or [[]]
        self.texts = [(head, text.encode().decode("unicode_escape").encode("latin-1")) for head, text in sections if head != "args"]
        self.stdin, self.status = self.one("stdin"), int(self.one("status") or 0)

    def every(self, head):
        return [text for it, text in self.texts if it == head]

    def one(self, head):
        return (self.every(head) or [b""])[0]

    def put_files(self, folder):
        for head, text in self.texts:
            if head.startswith("file "):
                path = pathlib.Path(folder, head.removeprefix("file "))
                path.parent.mkdir(parents=True, exist_ok=True)
                path.write_bytes(text)


class Cases(unittest.TestCase):
    def judge(self, name):
        case = Case(name)
        errors = case.every("stderr") or [b""]
        self.assertIn(len(errors), (1, len(case.runs)))
        for i, words in enumerate(case.runs):
            with self.subTest(words=words):
                folder = common.make_folder(self)
                case.put_files(folder)
                status, out, err = common.program(*words, given=case.stdin, cwd=folder)
                self.assertEqual((status, err), (case.status, errors[i % len(errors)]))
                self.assertIn(out, case.every("stdout") or [b""])


common.load_tests_of_table(Cases, {it.name: it.name for it in sorted(CASES.iterdir())}, Cases.judge)

# what a build says of itself: rt alone records nothing, and ./package the commit; ./pgboard also says whether
# files differ from the commit, and knows none outside of git
BUILD = (
    rb"build: (?:not recorded: whether this program was proved, and of which commit it is"
    rb"|(?:un)?proved, commit (?:[0-9a-f]{40}(?:-dirty)?|unknown))"
)


class Version(unittest.TestCase):
    def test_it_is_printed(self):
        for word in ("--version", "-V"):
            with self.subTest(word):
                status, out, err = common.program(word)
                self.assertEqual((status, err), (0, b""))
                self.assertRegex(out, rb"\Apgboard \d+\.\d+\.\d+\nkit: rattle-kit-\d+ logic [0-9a-f]+\n" + BUILD + rb"\n\Z")


# --- devices ---

LONGEST = 268_435_456
GAME = b"0 2 0 0,1; 1 1 1 1;"
HOLDS = b"0 0 0; 1 1 1;"
JOINED = GAME + b"%" + HOLDS
LARGE = b"".join(b"%d %d %d %d,%d;\n" % (v, v % 4000, v % 2, *sorted((v, (v + 1) % 60_000))) for v in range(60_000))
LARGE_TIDY = b"parity 59999;\n" + LARGE
OK = (0, b"ok\n", b"")
# None is any output
WRITE_FAULT = (4, None, b"pgboard: write fault\n")
BAD_OWNER = plain.refused("game", "byte 4: owner is not 0 or 1")
TOO_LONG = 3, b"", b"pgboard: text too long\n"
# what bash runs in a folder with game.pg and game.sol, where "$@" is the program with its words; the words, the input and the answer
DEVICES = {
    "a_reader_that_stops_early_is_a_write_fault": ('"$@" | head -c 5 >/dev/null; exit ${PIPESTATUS[0]}', ["tidy"], LARGE, WRITE_FAULT),
    "a_slow_reader_gets_the_whole_output": ('"$@" | (sleep 0.2; dd bs=777 status=none)', ["tidy"], LARGE, (0, LARGE_TIDY, b"")),
    "a_game_that_comes_slowly_is_read_whole": ('(head -c 9; sleep 0.1; head -c 9; sleep 0.1; cat) | "$@"', [], JOINED, OK),
    "a_pipe_is_read_as_a_file_is": ('cat | "$@"', ["verify", "game.pg", "/dev/stdin"], HOLDS, OK),
    "a_named_pipe_is_read_as_a_file_is": ('mkfifo pipe; cat <&0 >pipe & "$@"', ["tidy", "pipe"], LARGE, (0, LARGE_TIDY, b"")),
    "a_file_that_was_read_in_part_is_read_from_there": ('(head -c 2 >/dev/null; exec "$@") <odd.pg', ["tidy"], b"", (0, TIDY, b"")),
    "a_folder_as_standard_input_is_a_read_fault": ('exec "$@" <.', ["tidy"], b"", READ_FAULT),
    "a_folder_as_both_texts_is_a_read_fault": ('exec "$@" <.', [], b"", READ_FAULT),
    # (its first bytes belong to no memory)
    "a_file_whose_reading_fails_is_a_read_fault": ('exec "$@"', ["tidy", "/proc/self/mem"], b"", READ_FAULT),
    "a_closed_standard_error_leaves_the_status": ('exec "$@" 2>&-', ["tidy"], b"0 0 2 0;", (3, b"", b"")),
    "a_full_standard_error_leaves_the_status": ('exec "$@" 2>/dev/full', ["tidy"], b"0 0 2 0;", (3, b"", b"")),
    "no_environment_is_needed": ('exec env -i "$@"', ["tidy"], GAME, (0, TIDY, b"")),
    # the kernel tells no length of what it makes when it is read
    "a_file_that_says_it_is_empty_is_read_to_its_end": (
        """exec env -i "$(printf '%70001s' x)=" "$@" """,
        ["tidy", "/proc/self/environ"],
        b"",
        plain.refused("game", "byte 70001: no token"),
    ),
    # (the pipe has a writer that writes nothing: a program that read it first would never end)
    "a_bad_game_is_named_before_a_solution_that_waits": (
        'mkfifo pipe; exec "$@" <>pipe',
        ["verify", "bad.pg", "/dev/stdin"],
        b"",
        BAD_OWNER,
    ),
    "refused_memory_is_status_5_and_nothing_is_written": ('ulimit -v 60000; exec "$@" <long', ["tidy"], b"", NO_MEMORY),
    "a_text_of_the_greatest_length_is_read_to_its_end": (
        f"""head -c {LONGEST} /dev/zero | tr '\\0' ' ' | "$@" """,
        ["tidy"],
        b"",
        plain.refused("game", f"byte {LONGEST}: not expected"),
    ),
    "a_text_with_one_byte_more_is_too_long": (f"""head -c {LONGEST + 1} /dev/zero | tr '\\0' ' ' | "$@" """, [], b"", TOO_LONG),
    # (files of zeros, which take no memory)
    "a_file_of_the_greatest_length_is_read": (
        'exec "$@"',
        ["tidy", "longest"],
        b"",
        plain.refused("game", "byte 0: no token"),
    ),
    "a_file_with_one_byte_more_is_too_long": ('exec "$@"', ["tidy", "longer"], b"", TOO_LONG),
    "a_file_of_a_terabyte_is_too_long": ('exec "$@"', ["tidy", "terabyte"], b"", TOO_LONG),
}
SIZES = {"long": 100_000_000, "longest": LONGEST, "longer": LONGEST + 1, "terabyte": 1 << 40}
# those that have no time or no memory with run-time checks
NEEDS_SPEED = [
    name
    for name, (script, words, given, _) in DEVICES.items()
    if given is LARGE or re.search("<long|head -c 2684|longe|terabyte", " ".join([script, *words]))
]
# runs whose output is refused
WRITING = [
    ([], JOINED),
    ([], GAME + b"%0 0; 1 1 1;"),
    (["verify", "game.pg", "game.sol"], b""),
    (["tidy"], GAME),
    (["tidy", "game.pg"], b""),
    (["solve"], GAME),
    (["solve", "--winners"], GAME),
    (["trace", "--workers", "1"], GAME),
    (["--help"], b""),
    (["tidy", "--help"], b""),
    (["--version"], b""),
]


class Answers(unittest.TestCase):
    def check(self, got, wanted):
        self.assertEqual((got[0], got[2][:200]), (wanted[0], wanted[2]))
        self.assertTrue(wanted[1] in (None, got[1]), f"{len(got[1])} bytes, {got[1][:200]}, that are not those wanted")


class Devices(Answers):
    def setUp(self):
        self.folder = common.make_folder(self)
        files = {"game.pg": GAME, "game.sol": HOLDS, "odd.pg": b"?!" + GAME, "bad.pg": b"0 0 2 0;"}
        for name, text in files.items():
            (self.folder / name).write_bytes(text)
        for name, size in SIZES.items():
            (self.folder / name).touch()
            os.truncate(self.folder / name, size)

    def bash(self, script, words, given, **how):
        return common.run(["bash", "-c", script, "", common.PROGRAM, *words], given, cwd=self.folder, **how)

    def judge(self, row):
        script, words, given, wanted = row
        self.check(self.bash(script, words, given, timeout=300), wanted)

    def test_a_device_that_takes_nothing_is_a_write_fault_and_no_death_by_signal(self):
        reader, writer = os.pipe()
        os.close(reader)
        with open(writer, "wb"):
            for device in ("/dev/full", "&-", f"&{writer}"):
                for words, given in WRITING:
                    with self.subTest(words=words, device=device):
                        self.check(self.bash(f'exec "$@" >{device}', words, given, pass_fds=[writer]), WRITE_FAULT)

    def test_a_file_that_grows_or_shrinks_before_it_is_read_is_read_to_its_end(self):
        # both files are opened before the game is read, which is a pipe
        pipe, solution = self.folder / "pipe", self.folder / "game.sol"
        os.mkfifo(pipe)
        long = HOLDS + b" " * 100_000
        for before, then in ((b"", long), (HOLDS, long), (long, HOLDS)):
            solution.write_bytes(before)
            words = [common.PROGRAM, "verify", "pipe", "game.sol"]
            with self.subTest(before=len(before)), subprocess.Popen(words, cwd=self.folder, stdout=subprocess.PIPE) as ran:
                with open(pipe, "wb", buffering=0) as file:
                    # (opening it has waited for the program)
                    opened = pathlib.Path(f"/proc/{ran.pid}/fd")
                    common.wait_until(lambda opened=opened: str(solution) in map(os.path.realpath, opened.iterdir()))
                    solution.write_bytes(then)
                    file.write(GAME)
                self.assertEqual((ran.communicate(timeout=60)[0], ran.returncode), (b"ok\n", 0))

    def test_an_argument_that_is_no_text_is_a_refused_command_line(self):
        self.assertEqual(common.program(b"tidy", b"\xff\xfe"), (2, b"", b"error: an argument is not text\n"))


common.load_tests_of_table(Devices, DEVICES, Devices.judge)
for name in NEEDS_SPEED:
    setattr(Devices, f"test_{name}", common.needs_speed(getattr(Devices, f"test_{name}")))

# --- limits ---

VERTICES, EDGES = 1_048_576, 16_777_216
# each vertex with so many successors is as many edges as may be
WIDTH = 4_096
DEGREE = EDGES // VERTICES
# of a ladder of as many vertices as fit
LEVELS = (VERTICES - 1) // 3
# the first identifier and the first priority of the greatest game, whose every number has ten digits
FIRST, LEAST = 1_100_000_000, 1_000_000_000
LONGEST_GAME, LONGEST_SOLUTION = 210_763_795, 26_214_422


def own_loops(count):
    return b"".join(b"%d 0 0 %d;\n" % (v, v) for v in range(count))


def rows_of(numbers, successors):
    row = b",".join(b"%d" % w for w in successors)
    return b"".join(b"%d 0 0 %s;\n" % (v, row) for v in numbers)


def chain(count, end=b"1 0 0 1;\n", priority=0):
    """Odd's vertex leads to all others, which Even attracts one after another to his loop, or another end."""
    rest = b"".join(b"%d %d 0 %d;\n" % (v, priority, v - 1) for v in range(1 + end.count(b"\n"), count))
    return b"0 0 1 " + b",".join(b"%d" % v for v in range(1, count)) + b";\n" + end + rest


# six vertices of two successors each: no loop, and no player has single successors, so the recursion is left
CYCLE = b"".join(b"%d 2 0 %d,%d;\n" % (v, v % 6 + 1, (v + 1) % 6 + 1) for v in range(1, 7))


def all_to_even(count):
    return b"paritysol %d;\n" % (count - 1) + b"".join(b"%d 0;\n" % v for v in range(count))


def long_cycle(count):
    """One cycle, owned by player 1, that player 0 wins by its last vertex: each search for a bad walk from another goes far."""
    return b"".join(b"%d 1 1 %d;\n" % (v, v + 1) for v in range(count - 1)) + b"%d 2 1 0;\n" % (count - 1)


def ladder(levels):
    """A ring whose vertices, of player 1, have a vertex of each level to go by, which player 0 wins, with a lower bad one after it.

    From the bad vertex of a level a search goes through all levels below, and no closed walk is bad.
    """
    ring = [b"%d 0 1 %d,%d;\n" % (v, v + 1, levels + 1 + 2 * v) for v in range(levels)] + [b"%d 0 1 0;\n" % levels]
    for level in range(levels):
        good = levels + 1 + 2 * level
        ring.append(b"%d %d 1 %d,%d;\n" % (good, 2 * level + 2, level + 1, good + 1))
        ring.append(b"%d %d 1 %d;\n" % (good + 1, 2 * level + 1, good - 2 if level else 0))
    return b"".join(ring)


@functools.lru_cache(maxsize=1)
def greatest_game():
    """Even owns each vertex, which leads to itself and to those after it, in a ring: he wins by the even priorities."""
    ids = [b"%d" % (FIRST + v) for v in range(VERTICES)]
    ring = ids + ids[: DEGREE - 1]
    rows = (b"%s %d 0 %s;\n" % (ids[v], LEAST + v, b",".join(sorted(ring[v : v + DEGREE]))) for v in range(VERTICES))
    return b"parity %d;\n" % (FIRST + VERTICES - 1) + b"".join(rows)


TOO_MANY_VERTICES, TOO_MANY_EDGES = (plain.refused("game", f"too many {it}") for it in ("vertices", "edges"))
WINNERS = ["solve", "--winners"]
# the words, what makes the text, and the answer; in place of its output the greatest identifier of a game that is written
# as it is read, or what makes a solution
LIMITS = {
    "one_vertex_too_many": (["tidy"], lambda: own_loops(VERTICES + 1), TOO_MANY_VERTICES),
    "one_edge_too_many": (["tidy"], lambda: rows_of(range(WIDTH), range(WIDTH)) + b"%d 0 0 0;\n" % WIDTH, TOO_MANY_EDGES),
    "repeated_successors_are_one_edge_and_a_name_has_a_megabyte": (
        ["tidy"],
        lambda: b"0 0 0 0" + b",0" * (EDGES + 1) + b' "%b";' % (b"n" * 1_000_000),
        (0, b"parity 0;\n0 0 0 0;\n", b""),
    ),
    "tidy_the_greatest_game": (["tidy"], lambda: greatest_game().partition(b"\n")[2], FIRST + VERTICES - 1),
    "a_cycle_of_as_many_vertices_as_may_be": ([], lambda: long_cycle(VERTICES) + b"%" + all_to_even(VERTICES), OK),
    "a_ladder_of_a_million_vertices": ([], lambda: ladder(LEVELS) + b"%" + all_to_even(3 * LEVELS + 1), OK),
    # (a search that began again at the first successor each time would take minutes)
    "solve_a_chain_of_all_successors_of_a_vertex": (WINNERS, lambda: chain(VERTICES), lambda: all_to_even(VERTICES)),
    "solve_such_a_chain_by_the_recursion": (
        [*WINNERS, "--bound", "0"],
        lambda: chain(VERTICES, CYCLE, 1),
        lambda: all_to_even(VERTICES),
    ),
}


@common.needs_speed
class Limits(Answers):
    def judge(self, row):
        words, make, wanted = row
        text = make()
        if callable(wanted):
            wanted = 0, wanted(), b""
        elif isinstance(wanted, int):
            wanted = 0, b"parity %d;\n" % wanted + text, b""
        self.check(common.program(*words, given=text, timeout=300), wanted)

    def test_solve_the_greatest_game(self):
        game = greatest_game()
        status, out, err = common.program("solve", given=game, timeout=300)
        self.assertEqual((status, err, len(game), len(out)), (0, b"", LONGEST_GAME, LONGEST_SOLUTION))
        self.check(common.program(given=game + b"%" + out, timeout=300), OK)


common.load_tests_of_table(Limits, LIMITS, Limits.judge)

# --- texts ---

class Texts(Answers):
    def test_each_byte_and_the_smallest_game_cut_at_every_length(self):
        text, bytes_of = b"parity 0;\n0 0 0 0;\n", (b"0 0 0%c0;" % byte for byte in range(256))
        fault = lambda at: plain.refused("game", f"byte {at}: not expected")
        wanted = {text[:length]: fault(length if length > 5 else 0) for length in range(18)}
        wanted |= {it: (0, text, b"") for it in (text[:18], text)}
        wanted |= {it: plain.tidied(it) for it in bytes_of}
        for text, answer in wanted.items():
            with self.subTest(text):
                self.check(common.program("tidy", given=text), answer)


if __name__ == "__main__":
    common.main()
