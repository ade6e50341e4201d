"""What the tests of the Python package's command and of the scripts of examples/ share: how one is called,
and its pictures read back.
"""

import contextlib
import io
import math
import os
import random
import re
import shlex
import signal
import sys
import time
import unittest.mock

import common
import plain
import random_games

EXAMPLES = common.ROOT / "examples"
BINDINGS = common.ROOT / "bindings" / "python"
# after this folder, which has scripts of the same names
sys.path += [str(EXAMPLES), str(BINDINGS)]
from pgboard.command import words as WORDS

SIGNALS = [signal.SIGINT, signal.SIGTERM, signal.SIGHUP, signal.SIGQUIT]
WRITE = "--write" in sys.argv
# a small model for `modelcheck`, and the parts of a specification for `synthesise`
MODEL = 'des (0, 2, 2)\n(0, "a", 1)\n(1, "a", 0)\n'
HEAD = r'HOA: v1\nStart: 0\nAP: 2 "a" "b"\ncontrollable-AP: 1\nAcceptance: 1 Inf(0)\n'
BODY = r"--BODY--\nState: 0\n[t] 0\n--END--\n"
HOA_GAME = "HOA: v1\nStart: 0\nAP: 0\nAcceptance: 1 Inf(0)\nspot-state-player: 0\n--BODY--\n"
# the game of examples/synthesise/arbiter_2_at_once.hoa
ARENA = """parity 4;
start 0;
0 0 1 1,2 "0, the environment";
1 0 0 3 "0, the controller";
2 0 0 4 "0, the controller";
3 0 0 0 "to 0";
4 1 0 4 "no edge";
"""


def rows_of(name):
    """The rows of a file of tests/uses, whose columns ` | ` separates; a line that begins with # is a
    comment.
    """
    lines = common.text_of("tests", "uses", name).splitlines()
    split = lambda line: re.split(r" \|(?= |$)", line, maxsplit=4)
    return [[it.strip(" ") for it in split(line)] for line in lines if not line.startswith("#")]


def bytes_of(text):
    for word, meant in {"THE_HEAD": HEAD, "THE_BODY": BODY, "ZEROS": "0" * 4400}.items():
        text = text.replace(word, meant)
    return text.encode().decode("unicode_escape").encode("latin-1")


def command_of(name):
    script = EXAMPLES / f"{name}.py"
    return [sys.executable, "-B", *([script] if script.exists() else [BINDINGS / "pgboard", name])]


def called(script, words, given=b""):
    """The status, the output and the errors of a script's main, in this process: many calls take no time to
    start.
    """
    os.environ["PGBOARD"] = shlex.quote(str(common.PROGRAM))
    out, err = io.TextIOWrapper(io.BytesIO(), "utf-8", "surrogateescape", newline=""), io.StringIO()
    stdin = unittest.mock.patch("sys.stdin", io.TextIOWrapper(io.BytesIO(given)))
    with stdin, contextlib.redirect_stdout(out), contextlib.redirect_stderr(err):
        status = script.main([str(it) for it in words]) or 0
    out.flush()
    return status, out.buffer.getvalue().decode("utf-8", "replace"), err.getvalue()


def without_build(said):
    """What a command says but for what library runs."""
    return re.sub(r"(?m)^pgboard: (?:unproved|warning): .*\n", "", said)


class Use:
    """What the tests of a script of examples/, or of a word of the package's command, have beside
    `unittest.TestCase`.
    """

    # the script or word
    name = None

    def setUp(self):
        path = EXAMPLES / f"{self.name}.py"
        self.script = common.load(path) if path.exists() else WORDS
        self.first = [] if path.exists() else [self.name]
        self.folder = common.make_folder(self)

    def file(self, name, text):
        path = self.folder / name
        path.write_bytes(text if isinstance(text, bytes) else text.encode())
        return str(path)

    def call(self, *words, given=b""):
        return called(self.script, [*self.first, *words], given)[:2]

    def refuses(self, said):
        return self.assertRaisesRegex(self.script.Refused, said)

    def run_script(self, *words, given=b"", **env):
        env = {**os.environ, "PGBOARD": shlex.quote(str(common.PROGRAM)), **env}
        words = [*command_of(self.name), *words]
        status, out, err = common.run(words, given, timeout=600, cwd=common.ROOT, env=env)
        return status, out.decode(errors="replace"), without_build(err.decode())

    def check_growth(self, call, size, most=math.inf):
        """That a call takes less than ten times as long for four times as much, once it takes long enough, or for the most."""
        took = before = 0
        while (took < 0.3 or not before) and size <= most:
            before, begun = took, time.process_time()
            call(size)
            took, size = time.process_time() - begun, 4 * size
        self.assertLess(took, 10 * before)

    def check_damaged(self, call, text):
        refused = 0
        for seed in range(200):
            given = random_games.damaged(random.Random(seed), text.encode())
            with self.subTest(seed=seed, given=given):
                try:
                    self.assertIn(call(given)[0], (0, 1))
                except self.script.Refused as fault:
                    self.assertEqual((fault.status, str(fault).isprintable()), (3, True), fault)
                    refused += 1
        self.assertGreater(refused, 40)

    def check_benchmark(self, size):
        name = f"{self.name}_{size}"
        got = common.run(
            [sys.executable, "-B", common.ROOT / "bench" / "uses.py", self.folder, name], timeout=600
        )
        self.assertEqual((got[0], got[2]), (0, b""))
        status, winners, _ = common.program("solve", "--winners", self.folder / f"{name}.pg", timeout=600)
        lines = winners.decode().splitlines()[1:]
        self.assertEqual(status, 0)
        self.assertAlmostEqual(len(lines) / size, 1, delta=0.25)
        self.assertEqual({line.split()[1] for line in lines}, {"0;", "1;"})


def graph_of(text):
    """The vertices and edges of Graphviz text, with what stands between their brackets; vertices are what
    has no arrow.
    """
    rows = re.findall(r"(?ms)^    (\w+)(?: -> (\w+))?(?: \[(.*?)\])?;$", text)
    rows = [row for row in rows if row[0] not in ("graph", "node", "edge")]
    vertices = {row[0]: row[2] for row in rows if not row[1]}
    edges = {row[:2]: row[2] for row in rows if row[1]}
    assert len(vertices) + len(edges) == len(rows), "nothing is drawn twice"
    return vertices, edges


def check_kept(case, name, made):
    """That a picture is the one of docs/pictures; another version of Graphviz lays out the same vertices and
    edges in another way.
    """
    path = common.ROOT / "docs" / "pictures" / name
    if WRITE:
        path.write_text(made)
    kept = path.read_text()
    version = re.search("graphviz version [0-9.]+", made)
    if version:
        case.assertEqual(sorted(common.drawn(made)), sorted(common.drawn(kept)))
    if not version or version[0] in kept:
        case.assertEqual(made, kept)


def even_wins(game, least=False, odd=False):
    rows = {}
    for id, (priority, owner, successors) in game.items():
        priority = (1000 - priority if least else priority) + odd
        rows[id] = (priority, owner, successors) if successors else (1 - owner, owner, {id})
    return {id for id, winner in plain.winners(rows).items() if winner == 0}
