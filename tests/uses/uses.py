#!/usr/bin/env python3
"""Tests of the package's command over the program, and of how it and the scripts of examples/ end.

With --write the pictures of docs/pictures are made anew.
"""

import bz2
import collections
import contextlib
import gzip
import itertools
import json
import lzma
import os
import pathlib
import random
import re
import shlex
import shutil
import signal
import subprocess
import sys
import time
import tracemalloc
import types
import unittest
import unittest.mock

sys.path.append(str(pathlib.Path(__file__).resolve().parents[1] / "lib"))
import common
import plain
import random_games
import scripts
from pgboard import command as shared
from pgboard.command import diagrams, games, modelcheck
from pgboard.files import read_game
from scripts import BINDINGS, EXAMPLES, MODEL, SIGNALS, Use, command_of, even_wins, graph_of

# --- games in any form ---


def lines_of(rows):
    row = lambda id: " ".join(str(it) for it in (id, *rows[id]) if it is not None)
    return "".join(f"{row(id)};\n" for id in rows)


def spelled_game(chance, game, headers):
    """A text of the game with what other tools write: comments, names, dead ends, other blanks, a header."""
    one = chance.random() < 0.5
    blank = lambda: " " if one else chance.choice([" ", "\t", "  ", "\r\n"])
    comma = "," if one else chance.choice([",", ", ", " ,"])
    header = chance.choice(headers)
    lines = [chance.choice(["", "# made by hand; 0 0 0 0;\n", '// a "game\n']), f"{header} {max(game)};\n"]
    for id, (priority, owner, successors) in game.items():
        start = chance.choice(["start 01;\n"] + [""] * 9)
        name = chance.choice(["", ' "a"', '"# // ;"', ' "\\"b\\""'])
        note = chance.choice(["", "", " # a note", " // 1 2 3;", '# "a"'])
        to = comma.join(map(str, sorted(successors)))
        lines.append(f"{start}{id}{blank()}{priority}{blank()}{owner}{blank()}{to}{name};{note}\n")
    return chance.choice(["", "\ufeff"]) + "".join(lines)


# how a file may be packed
PACKED = [bytes, gzip.compress, bz2.compress, lzma.compress, lambda data: common.run(["zstd", "-c"], data)[1]]
ONE = "parity 0;\n0 8 0 0;\n"


class Convert(Use, unittest.TestCase):
    name = "convert"

    def converted(self, flags, text):
        return scripts.called(
            self.script, ["convert", *flags], text if isinstance(text, bytes) else text.encode()
        )

    def test_texts(self):
        rows = [[*it[:2], *map(scripts.bytes_of, it[2:])] for it in scripts.rows_of("converted.txt")]
        automaton = common.text_of("examples/synthesise/arbiter_2_at_once.hoa")
        rows += [
            ("an automaton", "", scripts.ARENA.encode(), automaton),
            ("a byte order mark in a packed file", "", ONE.encode(), gzip.compress("\ufeff0 8 0 0;".encode())),
            ("two packed parts", "", ONE.encode(), gzip.compress(b"0 8 ") + gzip.compress(b"0 0;\n")),
        ]
        for name, flags, wanted, text in rows:
            with self.subTest(name):
                self.assertEqual(self.converted(flags.split(), text), (0, wanted.decode(), ""))
        self.assertEqual(self.call("--odd", self.file("given", "0 7 0 0;")), (0, ONE))

    def test_the_most_vertices_and_edges(self):
        automaton = common.text_of("examples/synthesise/arbiter_2_at_once.hoa")
        game = scripts.HOA_GAME + "State: 0 [t] 0 {0} [t] 0\n--END--\n"
        for text, *sizes in (("0 8 0 0,1; 1 8 0 1;", 2, 3), (automaton, 5, 6), (game, 3, 4)):
            for few, most in ((0, 0), (1, 0), (0, 1)):
                vertices, edges = sizes[0] - few, sizes[1] - most
                with unittest.mock.patch.multiple(games, MOST_VERTICES=vertices, MOST_EDGES=edges):
                    if few or most:
                        with self.refuses(f"more than {vertices} vertices or {edges} edges"):
                            self.converted([], text)
                    else:
                        self.assertEqual(self.converted([], text)[0], 0)
        with unittest.mock.patch.object(games, "MOST_EDGES", 3), self.refuses("more than .* or 3 edges"):
            self.converted([], "0 8 0 0,0,0,0,0;")
        few = unittest.mock.patch.object(diagrams, "MOST_NODES", 6)
        with few, self.refuses("^standard input: the labels: .* more than 6 nodes"):
            self.converted([], automaton)
        with unittest.mock.patch.object(games, "MOST_VERTICES", 2):
            for text in ("0 0; 1 0; 2 0;", "won by odd: 0 1 2"):
                with self.refuses("more than 2 vertices"):
                    self.converted(["--solution"], text)

    def test_the_most_bytes(self):
        """They are counted as they are read, so that a short file can't fill the memory."""
        for pack, more in itertools.product(PACKED, (0, 1, 20_000_000)):
            packed = pack(b"0 8 0 0;" + b" " * (10_000 - 8 + more))
            with self.subTest(pack=pack, more=more), unittest.mock.patch.object(shared, "MOST_BYTES", 10_000):
                if not more:
                    self.assertEqual(self.converted([], packed), (0, ONE, ""))
                    continue
                tracemalloc.start()
                with self.refuses("^standard input: .* more than 10,000 b"):
                    self.converted([], packed)
                peak = tracemalloc.get_traced_memory()[1]
                tracemalloc.stop()
                self.assertLess(peak, len(packed) + 14_000_000)

    def test_memory(self):
        rules = types.SimpleNamespace(min=False, odd=False, dead_ends=True)
        readers = {
            "game": lambda *given: games.game_of_text(*given, rules), "solution": games.solution_of,
            "model": modelcheck.Model, "formula": modelcheck.Formula,
        }  # fmt: skip
        for reader, *parts in scripts.rows_of("memory.txt"):
            with self.subTest(reader, parts=parts):
                begin, piece, end = (scripts.bytes_of(it).decode() for it in parts)
                each = (piece.replace("N", str(v)) for v in range(150_000 // len(piece)))
                path = self.file("packed", gzip.compress(f"{begin} {''.join(each)}{end}".encode()))
                tracemalloc.start()
                with contextlib.suppress(self.script.Refused):
                    text = self.script.text_of(path)
                    made = readers[reader](path, text)  # noqa: F841
                peak = tracemalloc.get_traced_memory()[1]
                tracemalloc.stop()
                self.assertLess(peak, 30 * len(text) + 300_000)

    def test_what_takes_little_time(self):
        def unpack(count):
            row = lambda v: f'{v} 0 0 {v} "{random.Random(v).randbytes(300).hex()}";\n'.encode()
            parts = b"".join(gzip.compress(row(v), 1) for v in range(count))
            self.assertEqual(self.script.text_of(self.file("parts", parts)).count(";"), count)

        def convert(count):
            game = "".join(f"{v} {v % 9} {v % 2} {v * v % count},{v}{end}" for v in range(count))
            self.assertEqual(self.converted(flags, game)[1].count("\n"), count + 1)

        def sets(count):
            text = f"State: 0 {{{'0 ' * count}}} {'[t] 0 ' * count}\n--END--\n"
            self.assertEqual(self.converted([], scripts.HOA_GAME + text)[0], 0)

        self.check_growth(unpack, 1_000)
        self.check_growth(sets, 1_000)
        formula = modelcheck.Formula
        self.check_growth(lambda count: formula("", "&&".join(["(mu X.X)"] * count)), 1_600, 25_600)
        for flags, end in (([], ";\n"), (["--min"], ' "a state of it";\n')):
            self.check_growth(convert, 4_000)

    def test_a_text_of_one_byte(self):
        """Each reader takes it in little time, or refuses it, for each byte that its texts have."""

        late = unittest.mock.Mock(side_effect=AssertionError("it takes too long"))
        self.addCleanup(signal.signal, signal.SIGVTALRM, signal.signal(signal.SIGVTALRM, late))
        file = self.folder / "text"
        model = self.file("model", MODEL)
        for words, begins, alphabet in (
            (["convert"], ("", "0 0 0 0"), ' \n0;,"\\#/a-'),
            (["convert"], ("HOA: v1 ", "HOA: v1 AP: 1 "), ' \n0{[(&|!"\\/*a.@-:'),
            (["convert", "--solution"], ("", "won by odd: 1", "0 0"), " \n0;,\"#{[>a-"),
            (["draw", EXAMPLES / "requests.pg", "--trace"], ("", "journal "), " \n0;ae"),
            (["modelcheck", model], ("", "[a"), ' \n0a("%!.*|&<['),
            (["modelcheck", "-", "true"], ("", "des (0,1,1)\n(0,", 'des (0,1,1)\n(0,"'), ' \n0a(",'),
        ):
            for begin, byte in itertools.product(begins, alphabet):
                with self.subTest(words=words, begin=begin, byte=byte):
                    text = begin + byte * (1 << 16) + "x"
                    file.write_text(text)
                    signal.setitimer(signal.ITIMER_VIRTUAL, 5)
                    with contextlib.suppress(self.script.Refused, RecursionError):
                        scripts.called(self.script, [*words, *[file] * ("-" not in words)], text.encode())
                    signal.setitimer(signal.ITIMER_VIRTUAL, 0)

    def test_random_games_keep_their_winners(self):
        ways = itertools.product((0, 1), (0, 1), (0, 1), ("flag", "header", "both"))
        for seed, (least, odd, dead, by) in enumerate(ways):
            for chance in map(random.Random, range(seed, 1008, 24)):
                game = random_games.random_game(chance, 5)
                for id in chance.sample(list(game), dead):
                    game[id] = *game[id][:2], set()
                with self.subTest(least=least, odd=odd, dead=dead, by=by, game=game):
                    words = (
                        ["--min"] * (least and by != "header")
                        + ["--odd"] * odd
                        + ["--dead-ends"] * dead
                    )
                    headers = ["parity"] if least else ["parity", "max-parity"]
                    headers = ["minparity", "min-parity"] if least and by != "flag" else headers
                    text = spelled_game(chance, game, headers)
                    status, out, err = self.converted(words, chance.choice(PACKED)(text.encode()))
                    self.assertEqual(status, 0, err)
                    self.assertEqual("\nstart 1;\n" in out, "start 01;" in text)
                    edges = {id: (owner, to or {id}) for id, (_, owner, to) in game.items()}
                    found = plain.game_of(out.encode())
                    self.assertEqual({id: it[1:] for id, it in found.items()}, edges)
                    self.assertEqual(even_wins(found), even_wins(game, least, odd))

    def test_arrays_of_a_file(self):
        rules = {"least": True, "dead_ends": True}
        found = read_game(pathlib.Path(self.file("game", gzip.compress(b"7 0 1 ; 5 3 0 7;"))), **rules)
        wanted = [5, 7], [0, 1], [1, 0], [0, 1, 2], [1, 1], ["", ""]
        self.assertEqual((*map(list, found[:6]), *found[6:]), (*wanted, None, {}))
        self.assertEqual([it.typecode for it in found[1:5]], ["B", "I", "I", "I"])
        self.assertEqual(list(read_game(self.file("game", "0 3 0 0;"), odd=True).priorities), [4])
        # (a host may have threads)
        packed = self.file("game", common.run(["zstd", "-c"], b"0 3 0 0;")[1])
        with unittest.mock.patch("subprocess.Popen", wraps=subprocess.Popen) as begun:
            self.assertEqual((read_game(packed).ids, begun.call_count), ([0], 1))
            self.assertNotIn("preexec_fn", begun.call_args[1])
        with self.assertRaisesRegex(ValueError, "game:1:5: owner is not 0 or 1$"):
            read_game(self.file("game", "0 0 2 0;"))
        with self.assertRaises(OSError):
            read_game("/no/such file")


# --- draw ---


def drawn(text, game):
    """What is drawn of a game: of each vertex whose colours it has, and of each vertex and edge how it
    looks.
    """
    vertices, edges = graph_of(text)
    look = lambda style: [it for it in ("dashed", "bold", "red", "dotted") if re.search(rf"\b{it}\b", style)]
    looks = {}
    for id, style in vertices.items():
        priority, owner, _ = game[int(id)]
        shape = (
            f'shape={("diamond", "box")[owner]} label=<{priority}<br/><font point-size="9">id {id}</font>> '
        )
        winner = {"#fde68a": 0, "#2563a8": 1, "white": None}[re.search('fillcolor="([^"]*)"', style)[1]]
        assert style.startswith(shape) and ("peripheries=2" in style) == (winner == 1), style
        looks[int(id)] = winner, look(style)
    return looks, {(int(id), int(to)): look(style) for (id, to), style in edges.items()}


# the pictures; TRACE is the journal of one worker on examples/requests.pg
PICTURES = {
    "both_win": ["examples/both_win.pg", "examples/both_win.sol"],
    "five_continents": ["examples/five_continents.pg", "examples/five_continents.sol"],
    "requests": ["examples/requests.pg", "examples/requests.sol"],
    **{
        f"requests_after_{it}": ["--trace", "TRACE", "--entries", str(it), "examples/requests.pg"]
        for it in range(3)
    },
}


class Draw(Use, unittest.TestCase):
    name = "draw"

    @common.needs("dot")
    def test_the_pictures_of_the_pages(self):
        trace = self.file("trace", common.program("trace", "--workers", "1", EXAMPLES / "requests.pg")[1])
        for name, words in PICTURES.items():
            for flags, end in (([], "dot"), (["--svg"], "svg")):
                with self.subTest(f"{name}.{end}"):
                    status, out, err = self.run_script(
                        *flags, *(trace if it == "TRACE" else it for it in words)
                    )
                    self.assertEqual(status, 0, err)
                    scripts.check_kept(self, f"{name}.{end}", out)

    def test_a_game_of_standard_input_with_names(self):
        game = '0 1 0 0,1 "<a> & b"; 1 2 1 1 "' + "long" * 9 + '\t"; 2 0 0 2 "' + "x" * 30 + '";'
        for words in ([], ["-"], ["-", self.file("part.sol", "1 0;")]):
            with self.subTest(words):
                status, out = self.call(*words, given=game.encode())
                self.assertEqual((status, out.count("#fde68a")), (0, len(words) // 2))
                for label in (
                    "<1<br/>&lt;a&gt; &amp; b<br/>",
                    f'<2<br/>{("long" * 9)[:30]}...<br/>',
                    f'<0<br/>{"x" * 30}<br/>',
                ):
                    self.assertIn(f'label={label}<font point-size="9">id ', out)

    def check_drawn(self, text, game, solution):
        winner = lambda id: solution.get(id, (None,))[0]
        chosen = lambda id, to: winner(id) == game[id][1] and solution[id][1] == to
        looks = {id: (winner(id), ["dashed"] * (winner(id) is None)) for id in game}
        edges = {(id, to): ["bold"] * chosen(id, to) for id in game for to in game[id][2]}
        self.assertEqual(drawn(text, game), (looks, edges))

    def test_random_games_read_back(self):
        """Also games with a dead end, which has no edge."""
        for chance in map(random.Random, range(150)):
            game = random_games.random_game(chance)
            for id in chance.sample(list(game), chance.randrange(2)):
                game[id] = *game[id][:2], set()
            rows = lambda id: (chance.randrange(2), chance.choice([*sorted(game[id][2]), None]))
            solution = {id: rows(id) for id in game if chance.random() < 0.8}
            text = random_games.random_solution_text(chance, solution)
            with self.subTest(game=game, solution=solution):
                files = self.file("game.pg", plain.written_game(game)), self.file("game.sol", text)
                self.check_drawn(self.call("--dead-ends", *files)[1], game, solution)

    @common.needs("dot")
    def test_other_kinds_of_pictures(self):
        for flag, begins in (("--png", "PNG"), ("--pdf", "%PDF-"), ("--svg", "<?xml")):
            with self.subTest(flag):
                status, out, err = self.run_script("examples/both_win.pg", flag, "examples/both_win.sol")
                self.assertEqual((status, err, begins in out[:8]), (0, "", True))

    @common.needs("dot")
    def test_names_with_backslashes_and_long_ones_with_signs(self):
        """Graphviz would read some letters after a backslash as other text; and an entity is not cut."""
        game = self.file("game.pg", r'0 0 0 0 "C:\new\N\\G\\"; 1 0 0 1 "' + "a" * 28 + '&&&";')
        status, out, err = self.run_script("--svg", game)
        self.assertEqual((status, err), (0, ""))
        texts = [it[2] for it in common.drawn(out)]
        self.assertEqual(
            sorted(it[1] for it in texts if len(it) > 2), sorted([r"C:\new\N\\G\\", "a" * 28 + "&&..."])
        )


# --- explain ---

PLAYERS = ("Even", "Odd")


class Explain(Use, unittest.TestCase):
    name = "explain"

    def of_a_cycle(self, game, solution, lines, id):
        winner = solution[id][0]
        walk = [int(it.split(":")[0]) for it in lines[1:]]
        edges = list(zip(walk, [*walk[1:], walk[0]]))
        self.assertEqual((walk[0], len(set(walk))), (id, len(walk)), "a shortest walk sees no vertex twice")
        self.assertEqual((max(game[it][0] for it in walk), game[id][0] % 2), (game[id][0], 1 - winner))
        facts = [PLAYERS[winner]]
        for at, to in edges:
            self.assertEqual((solution[at][0], to in plain.kept(game, solution, at)), (winner, True))
            verb = "chooses" if game[at][1] == winner else "may move"
            facts += [at, game[at][0], PLAYERS[game[at][1]], verb, to]
            facts += ["greatest", PLAYERS[1 - winner]] * (at == id)
        return facts, edges

    def of_leaving(self, game, solution, _, id, to):
        (winner, _), owner, line = solution[id], game[id][1], list(solution).index
        inside = [it for it in sorted(game[id][2]) if solution[it][0] == winner]
        verb = "chooses" if owner == winner else "may move"
        self.assertEqual((to in plain.kept(game, solution, id), solution[to][0]), (True, 1 - winner))
        facts = [PLAYERS[winner], id, 1 + line(id), PLAYERS[1 - winner], to, 1 + line(to)]
        facts += [id, to, PLAYERS[owner], id, verb, to, id, PLAYERS[winner], *(inside or ["none"])]
        return facts, [(id, to)]

    def of_a_choice(self, game, solution, _, id):
        winner, choice = solution[id]
        self.assertEqual((winner, choice in game[id][2]), (game[id][1], False))
        names = ["no choice"] if choice is None else [choice, "no successor"]
        facts = [1 + list(solution).index(id), PLAYERS[winner], id, PLAYERS[winner], *names, id]
        facts += [fact for it in sorted(game[id][2]) for fact in (it, PLAYERS[solution[it][0]])]
        return facts, [(id, to) for to in sorted(game[id][2])]

    def check_drawn(self, text, game, solution, red):
        core = {it for edge in red for it in edge}
        near = core | {id for id in game if core & game[id][2]} | {to for id in core for to in game[id][2]}
        looks = {id: (solution[id][0], ["red"] * (id == red[0][0])) for id in near}
        kept = lambda id, to: to in plain.kept(game, solution, id)
        look = lambda *edge: ["red"] if edge in red else [] if kept(*edge) else ["dotted"]
        edges = {(id, to): look(id, to) for id in near for to in game[id][2] if to in near}
        self.assertEqual(drawn(text, game), (looks, edges))

    def test_wrong_solutions(self):
        explain = {"cycle": self.of_a_cycle, "leaves": self.of_leaving, "choice": self.of_a_choice}
        words = r"\d+|Even|Odd|chooses|may move|greatest|none|no choice|no successor"
        kinds, picture = collections.Counter(), self.folder / "picture.dot"
        for chance in map(random.Random, range(600)):
            game = random_games.random_game(chance)
            solution = random_games.random_solution(chance, game)
            texts = plain.written_game(game), lines_of(solution)
            files = [*map(self.file, ("game.pg", "game.sol"), texts)]
            with self.subTest(game=game, solution=solution):
                status, out = self.call(*files, "--picture", picture)
                first, *lines = out.rstrip("\n").split("\n")
                self.assertEqual((status, first + "\n"), (int(first != "ok"), plain.verdict(game, solution)))
                for kind in explain.keys() & first.split():
                    wanted, edges = explain[kind](game, solution, lines, *map(int, re.findall(r"\d+", first)))
                    self.assertEqual(re.findall(words, "\n".join(lines)), [*map(str, wanted)])
                    self.check_drawn(picture.read_text(), game, solution, edges)
                kinds[re.sub(r"[ \d]", "", first)] += 1
        self.assertEqual(len(kinds), 5, kinds)
        self.assertGreater(min(kinds.values()), 12, kinds)

    def said(self, game, solution, *words):
        status, out = self.call(*words, self.file("game.pg", game), self.file("game.sol", solution))
        self.assertEqual(status, 1)
        return out

    def test_a_cycle_of_100000_vertices(self):
        count = 100_000
        game = "".join(f"{id} {2 * (id % 9) + (id == 7) * 99} 1 {(id + 1) % count};\n" for id in range(count))
        out = self.said(game, "".join(f"{id} 0;\n" for id in range(count)))
        self.assertEqual(len(out.splitlines()), count + 2)
        self.assertIn("\n  7: priority 113, Odd may move to 8   <- the greatest, and Odd's\n", out)

    def test_a_picture_leaves_out_neighbours_above_200_vertices(self):
        loops, picture = range(1, 301), self.folder / "picture.dot"
        game = f"0 1 0 0,{','.join(map(str, loops))};\n" + "".join(f"{v} 0 0 {v};\n" for v in loops)
        self.said(game, "".join(f"{v} 0 {v};\n" for v in (0, *loops)), "--picture", picture)
        vertices, edges = graph_of(picture.read_text())
        self.assertEqual((len(vertices), "red" in edges["0", "0"]), (200, True))
        ring = [(v, (v + 1) % 201) for v in range(201)]
        with self.refuses("picture.dot: 201 vertices are too many"):
            texts = "".join(f"{v} 1 0 {to};" for v, to in ring), "".join(f"{v} 0 {to};" for v, to in ring)
            self.said(*texts, "--picture", picture)

    def test_the_shortest_walk(self):
        """Long ways round from 0, by 1 and by 6, have 0's priority as their greatest as well, and the shortest
        leads through a greater one.
        """
        game = "0 3 1 1,2,4,6; 1 0 1 2; 2 0 1 3; 3 1 1 0; 4 4 1 0; 5 0 0 5; 6 0 1 7; 7 0 1 8; 8 0 1 0;"
        out = self.said(game, "0 0; 1 0; 2 0; 3 0; 4 0; 5 0 5; 6 0; 7 0; 8 0;")
        self.assertEqual(re.findall(r"(?m)^  (\d+): ", out), ["0", "2", "3"])

    def test_a_dead_end(self):
        for choice in ("", " 1", " 0"):
            picture = self.folder / "picture.dot"
            words = "--dead-ends", "--picture", picture
            out = self.said('0 4 0 1;\n1 4 0 "stuck";', f"0 0 1;\n1 0{choice};", *words)
            said = 'Line 2 of the solution says that Even wins 1 "stuck", which Even owns. '
            self.assertEqual(out.splitlines()[1:], [f"{said}It has no successor, so Even loses there."])
            vertices, edges = graph_of(picture.read_text())
            self.assertEqual((set(vertices), set(edges)), ({"0", "1"}, {("0", "1")}))
            self.assertIn("color=red", vertices["1"])

    def test_a_game_in_the_HOA_format(self):
        for kind, first, least in (
            ("Inf(1) | Fin(0)", 0, False),
            ("Inf(0) | Fin(1)", 0, True),
            ("Fin(0) & Inf(1)", 1, True),
        ):
            game = scripts.HOA_GAME.replace("1 Inf(0)", f"2 {kind}").replace(": 0\n--B", ": 0 0 0\n--B")
            game += f"State: 0 [t] 1 {{{first}}} State: 1 [t] 2 State: 2 [t] 0 {{1}} [t] 2 {{0}}\n--END--\n"
            out = self.said(game, "0 0 1; 1 0 2; 2 0 3; 3 0 0; 4 0 2;")
            walk = re.findall(r"(?m)^  (\d+).*: priority (\w+), ", out)
            wanted = [("3", "1"), ("0", str(first)), ("1", "none"), ("2", "none")]
            self.assertEqual(walk, wanted[1:] + wanted[:1] if least else wanted)
            self.assertIn(f"<- the {'least' if least else 'greatest'}, and Odd's", out)

    def test_damaged_texts(self):
        game, solution = (EXAMPLES / f"five_continents.{it}" for it in ("pg", "wrong"))
        self.check_damaged(lambda it: self.call(self.file("damaged", it), solution), game.read_text())
        self.check_damaged(lambda it: self.call(game, self.file("damaged", it)), solution.read_text())


# --- winner ---


class Winner(Use, unittest.TestCase):
    name = "winner"

    def check_part(self, game, start, text, winner):
        """That a solution's text has the vertices that a play from there can reach, and the winner's
        choices; and gives the edges.
        """
        rows = plain.known_of(game, text.encode())
        edges = {id: {choice} if game[id][1] == winner else game[id][2] for id, (_, choice) in rows.items()}
        found = {start}
        for _ in game:
            found |= {to for id in found for to in edges[id]}
        self.assertEqual(
            (set(rows), {it[0] for it in rows.values()}, list(rows)), (found, {winner}, sorted(rows))
        )
        for id, (_, choice) in rows.items():
            self.assertLessEqual(edges[id], game[id][2])
            self.assertEqual(choice is not None, game[id][1] == winner)
        return edges

    def test_random_games(self):
        statuses, part, picture = [], self.folder / "part.pg", self.folder / "part.dot"
        for chance in map(random.Random, range(150)):
            game = random_games.random_game(chance, 6)
            start, other = chance.choice(list(game)), chance.choice(list(game))
            path = self.file("game.pg", plain.written_game(game).replace(";", f";\nstart {start};", 1))
            for words, vertex in (([], start), (["--vertex", other], other)):
                with self.subTest(game=game, vertex=vertex):
                    winner = int(vertex not in even_wins(game))
                    statuses.append(winner)
                    self.assertEqual(
                        self.call(path, *words), (winner, f"{PLAYERS[winner]} wins vertex {vertex}\n")
                    )
                    status, text = self.call(path, *words, "--reach", "--game", part, "--picture", picture)
                    self.assertEqual(status, winner)
                    edges = self.check_part(game, vertex, text, winner)
                    written = part.read_text()
                    self.assertEqual(re.findall("start (.*);", written), [str(vertex)])
                    wanted = {id: (*game[id][:2], to) for id, to in edges.items()}
                    self.assertEqual(plain.game_of(written.encode()), wanted)
                    self.assertEqual(even_wins(wanted), set() if winner else set(wanted))
                    looks = {id: (winner, []) for id in edges}
                    bold = {(id, to): ["bold"] * (game[id][1] == winner) for id in edges for to in edges[id]}
                    self.assertEqual(drawn(picture.read_text(), game), (looks, bold))
        self.assertGreater(min(statuses.count(0), statuses.count(1)), 80)


# --- solve, verify and stats ---


def text_of(numbers):
    row = lambda it: ", ".join(f"{name} {number}" for name, number in it.items())
    return "".join(f"{name}: {row(it) if isinstance(it, dict) else it}\n" for name, it in numbers.items())


class Solve(Use, unittest.TestCase):
    """Over the program, and in bindings/python/test_command.py over the library, which tells its entries."""

    name, has_entries = "solve", False

    def word(self, *words):
        return scripts.called(self.script, words)[:2]

    def test_random_games(self):
        kinds = set()
        for seed in range(200):
            chance = random.Random(seed)
            game = random_games.random_game(chance)
            # (a text with a comment is read by the command, and another by pgboard)
            text = plain.written_game(game) + "# all\n" * (seed % 2)
            path, id = self.file("game.pg", text), chance.choice(list(game))
            with self.subTest(game=game):
                self.check_components(game, path)
                status, out = self.call(path)
                self.assertEqual((status, plain.written_fault(game, out.encode())), (0, None))
                winner = plain.winners(game)[id]
                self.assertEqual(self.word("winner", "--vertex", id, path)[0], winner)
                rows = plain.solution_of(game, out.encode())
                wrong = {**rows, id: (chance.randrange(2), chance.choice([None, *game]))}
                said = plain.verdict(game, wrong)
                solution = self.file("game.sol", lines_of(wrong))
                self.assertEqual(self.word("verify", path, solution), (int(said != "ok\n"), said))
                known = {id: wrong[id] for id in chance.sample([*wrong], len(wrong)) if chance.random() < 0.7}
                kinds.add(self.takes_what_is_known(game, path, known))
        self.assertEqual(len(kinds), 5, kinds)

    def check_components(self, game, path):
        reach = {id: {id} for id in game}
        for _ in game:
            reach = {id: them.union(*(game[it][2] for it in them)) for id, them in reach.items()}
        sizes = [*map(len, {frozenset(to for to in reach[id] if id in reach[to]) for id in game})]
        wanted = {"number": len(sizes), "greatest": max(sizes), "least": min(sizes)}
        self.assertEqual(json.loads(self.word("stats", "--json", path)[1])["components"], wanted)

    def takes_what_is_known(self, game, path, known):
        part, why = self.file("part.sol", lines_of(known)), next(plain.known_faults(game, known), None)
        if why is None:
            found = plain.solution_of(game, self.call("--known", part, path)[1].encode())
            self.assertEqual([found[id][0] for id in known], [winner for winner, _ in known.values()])
            return None
        with self.assertRaises(self.script.Refused) as caught:
            self.call("--known", part, path)
        line = 1 + list(known).index(int(re.search(r"\d+", why)[0]))
        self.assertEqual(
            (str(caught.exception), caught.exception.status), (f"{part}:{line}:1: known: {why}", 1)
        )
        return re.sub(r"\d+", "", why)

    # what `stats` says of the game of these tests, as JSON and as text
    NUMBERS = {
        "vertices": 3,
        "edges": 4,
        "owners": {"Even": 1, "Odd": 2},
        "priorities": {"least": 1, "greatest": 4, "different": 3},
        "own loops": 2,
        "greatest degrees": {"out": 2, "in": 2},
        "components": {"number": 3, "greatest": 1, "least": 1},
    }
    STATS = text_of(NUMBERS)

    def test_json_and_statistics(self):
        path = self.file("game.pg", 'parity 2;\n5 2 0 5,9 "a";\n9 1 1 9;\n7 4 1 5;\n')
        self.assertEqual(json.loads(self.word("stats", "--json", path)[1]), self.NUMBERS)
        self.assertEqual(self.word("stats", path), (0, self.STATS))
        found = json.loads(self.call("--json", "--stats", "--keep-names", path)[1])
        rows = [
            {"vertex": 5, "winner": 0, "choice": 5, "name": "a"},
            {"vertex": 7, "winner": 0, "choice": None},
            {"vertex": 9, "winner": 1, "choice": 9},
        ]
        self.assertTrue(0 <= found["stats"].pop("seconds") < 99)
        self.assertEqual(found["stats"].pop("entries", 0) in (1, 2, 3), self.has_entries)
        stats = {**self.NUMBERS, "winners": {"Even": 2, "Odd": 1}}
        self.assertEqual(found, {"is_whole": True, "solution": rows, "stats": stats})
        status, out, err = scripts.called(self.script, ["solve", "--stats", path])
        self.assertEqual((status, out), (0, "paritysol 9;\n5 0 5;\n7 0;\n9 1 9;\n"))
        more = r"winners: Even 2, Odd 1\nseconds: [0-9.]+\n" + r"entries: [123]\n" * self.has_entries
        self.assertRegex(err, rf"\A{re.escape(self.STATS)}{more}\Z")


# --- all ---


class Program(unittest.TestCase):
    """Which program the command runs, in a folder like this clone where builds come and go."""

    def setUp(self):
        self.top = common.make_folder(self)
        no_library = shutil.ignore_patterns("__pycache__", "*.so")
        shutil.copytree(BINDINGS, self.top / "bindings" / "python", ignore=no_library)
        warns = 'case $1 in --unproved) shift; echo "pgboard: unproved: no proof was made" >&2;; esac'
        self.script("pgboard", warns)
        (self.top / "path").mkdir()

    def script(self, path, line=""):
        text = f'#!/bin/sh\necho "$0 $*" >> "{self.top}/log"\n{line}\nexec {common.PROGRAM} "$@"\n'
        common.write_program(self.top / path, text)

    def winner(self, **env):
        (self.top / "log").write_text("")
        words = ["bindings/python/pgboard", "winner", "--vertex", "0", EXAMPLES / "both_win.pg"]
        env = {"PATH": f"{self.top}/path:/bin", **env}
        status, out, err = common.run([sys.executable, "-B", *words], cwd=self.top, env=env)
        lines = (self.top / "log").read_text().replace(f"{self.top}/", "").splitlines()
        return status, out.decode(), err.decode(), [" ".join(it.split()[:2]) for it in lines]

    def test_each_place_in_turn(self):
        status, out, err, ran = self.winner()
        self.assertEqual((status, out, ran, err.count("\n")), (4, "", [], 1), "nothing is built unasked")
        self.assertTrue(err.startswith("pgboard: there is no pgboard: ./pgboard --unproved builds one"), err)
        even = "Even wins vertex 0\n"
        self.script("path/pgboard")
        self.assertEqual(self.winner(), (0, even, "", ["path/pgboard solve", "path/pgboard verify"]))
        self.script("out/unproved/pgboard")
        once = "pgboard: unproved: no proof was made\n"
        self.assertEqual(self.winner(), (0, even, once, ["pgboard --unproved"] * 2), "one warning, two runs")
        proved = 0, even, "", ["pgboard solve", "pgboard verify"]
        for build in ("out/proved/pgboard", "crates/pgboard_program/out/pgboard_program"):
            self.script(build)
            self.assertEqual(self.winner(), proved)
            (self.top / build).unlink()
        self.script("out/proved/pgboard")
        self.script("other place/pgboard")
        for named in ("'other place/pgboard' ", f"{self.top}/other place/pgboard"):
            self.assertEqual(self.winner(PGBOARD=named)[:3], (0, even, ""))
        two = ["./pgboard --unproved"] * 2
        self.assertEqual(self.winner(PGBOARD="./pgboard --unproved"), (0, even, once, two))
        self.assertEqual(self.winner(PGBOARD=""), proved)
        status, out, err, ran = self.winner(PGBOARD_LIBRARY="/nowhere.so")
        self.assertEqual((status, out, ran), (4, "", []), "a library that is named is not passed over")
        self.assertTrue(err.startswith("pgboard: its library can't be loaded (/nowhere.so: "), err)


class Refused(Use, unittest.TestCase):
    """What is refused, of a game's or a solution's text with the place: the whole of standard error, and the
    status.
    """

    def test_each_row(self):
        self.addCleanup(os.chdir, os.getcwd())
        os.chdir(common.ROOT)
        trace = common.program("trace", "--workers", "1", EXAMPLES / "requests.pg")[1]
        file = self.file("file", "")
        files = {"FILE": file, "MODEL": self.file("model.aut", MODEL), "TRACE": self.file("trace", trace)}
        for script, words, place, said, text in scripts.rows_of("refused.txt"):
            with self.subTest(script, words=words, text=text):
                given = scripts.bytes_of(text)
                text = given.decode("latin-1")
                pathlib.Path(file).write_bytes(given)
                words = [{**files, "TEXT": text}.get(it, it) for it in shlex.split(words)]
                self.name, self.first = script, [script]
                status, out, err = self.ended(words, given)
                lines = [it for it in err.splitlines() if "size of the game" not in it]
                place = place.replace("FILE", file).replace("TRACE", files["TRACE"])
                self.assertEqual(out, "")
                if re.search(":[0-9]+:[0-9]+$", place):
                    path, row, column = place.rsplit(":", 2)
                    is_given = path in (file, "standard input", "formula")
                    whole = given.decode("utf-8", "surrogateescape") if is_given else common.text_of(path)
                    marked = self.marked(int(row), int(column), whole)
                    self.assertEqual((status, lines), (3, [f"{place}: {said}", *marked]))
                elif lines[0].startswith("usage: "):
                    self.assertEqual(status, 2)
                    self.assertIn(said, lines[-1])
                else:
                    wanted = 4 if re.search("No such file|Input/output|Is a dir", said) else 3 if place else 2
                    self.assertEqual(
                        (status, lines), (wanted, [f"pgboard: {place}{': ' * bool(place)}{said}"])
                    )

    def ended(self, words, given):
        if self.first == ["why"]:
            status, _, said = common.program(*words, given=given)
            return status, *scripts.called(self.script, ["why", said.decode(), words[-1], ""])[1:]
        try:
            return scripts.called(self.script, [*self.first, *words], given)
        except self.script.Refused as fault:
            return fault.status, "", fault.said("pgboard")
        except (SystemExit, OSError):
            return self.run_script(*words, given=given)

    def marked(self, row, column, text):
        line = text.split("\n")[row - 1] if text.strip() else ""
        byte = lambda it: f"\\x{ord(it) - 0xDC00:02x}" if 0xDC80 <= ord(it) < 0xDD00 else ascii(it)[1:-1]
        spelled = lambda it: it if it.isprintable() else " " if it == "\t" else byte(it)
        before, after = (
            "".join(map(spelled, it)) for it in (line[: column - 1][-40:], line[column - 1 :][:60])
        )
        return [f"  {before}{after}".rstrip(), " " * (2 + len(before)) + "^"]


# --- how the command and the scripts end ---

FILES = ["both_win.pg", "both_win.sol", "both_win.wrong", "modelcheck/mutex.aut", "../tests/uses/at"]
FILES += ["synthesise/arbiter_2.hoa", "synthesise/arbiter_2_at_once.hoa"]
WINNER = [*command_of("winner"), "--vertex", "0", EXAMPLES / "both_win.pg"]
MODELCHECK = [*command_of("modelcheck"), EXAMPLES / "modelcheck" / "mutex.aut", "true"]
# signals come while something is begun
BEGINS = """
import os, signal, sys
from pgboard import command
command.undo = []
def begin(name):
    print("begin", name)
    os.kill(os.getpid(), int(sys.argv[2]) * (name == sys.argv[1]))
    print("begun", name, flush=True)
    return name
end = lambda name: print("end", name, flush=True)
with command.undone(lambda: begin("first"), end):
    with command.undone(lambda: begin("second"), end):
        pass
    with command.undone(lambda: begin("third"), end):
        pass
"""


class Ends(unittest.TestCase):
    """What ends a command stands once, so most rows are of one word."""

    def setUp(self):
        self.folder = common.make_folder(self)
        self.addCleanup(
            signal.pthread_sigmask, signal.SIG_SETMASK, signal.pthread_sigmask(signal.SIG_UNBLOCK, SIGNALS)
        )
        for number in SIGNALS:
            # (what is ignored, as by nohup, would be ignored in what is started, and what is caught is not)
            self.addCleanup(signal.signal, number, signal.signal(number, lambda *_: None))

    def ended(self, line):
        calls = common.text_of("tests/uses/calls.bash")
        env = {
            **os.environ,
            "PYTHON": sys.executable,
            "TOP": str(common.ROOT),
            "TESTED": str(common.PROGRAM),
            "PGBOARD": shlex.quote(str(common.PROGRAM)),
            "PYTHONPATH": str(BINDINGS),
            "LONG": "A" * 5000,
            # (a buffer that is lost is seen where there is one)
            "PYTHONUNBUFFERED": "",
        }
        env["PATH"] = f"{self.folder}:{env['PATH']}"
        status, out, err = common.run(["bash", "-c", calls + line], b"0 8 0 0;", cwd=self.folder, env=env)
        return (
            status,
            out.decode(),
            re.sub("^pgboard: (size|the model has).*\n", "", err.decode(), flags=re.M),
        )

    def test_each_row(self):
        for path in FILES:
            shutil.copy(EXAMPLES / path, self.folder)
        (self.folder / "named.pg").write_text('0 0 0 0,1 "\u03a9"; 1 1 1 1;')
        states = "--BODY-- State: 0 {0} [0] 0 [!0] 1 State: 1 [t] 1 --END--"
        head = 'HOA: v1 Start: 0 AP: 1 "a" controllable-AP: 0 Acceptance: 1 Inf(0) '
        (self.folder / "two.hoa").write_text(head + states)
        (self.folder / "away.pg").write_text("0 1 0 1; 1 2 0 1;")
        (self.folder / "full.dot").symlink_to("/dev/full")
        form = lambda text: re.escape(text.replace("\\n", "\n")).replace(r"\.\.\.", "(?s:.*)")
        is_answer = True
        for line, status, *said in scripts.rows_of("ends.txt"):
            is_answer = is_answer and "PGBOARD=" not in line
            with self.subTest(line):
                got = self.ended(line)
                self.assertEqual(got[0], int(status), got)
                for text, wanted in zip(got[1:], said):
                    self.assertRegex(text, rf"\A{form(wanted)}\Z")
                self.assertLess(len(got[2]), 500)
                if is_answer:
                    device = "pgboard: standard output: No space left on device\n"
                    self.assertEqual(self.ended(f"{line} >/dev/full"), (4, "", device))
                if "--help" in line:
                    self.assertLessEqual(max(map(len, got[1].splitlines()), default=0), 80)

    def start(self, command, waits="exec sleep 99", first=":"):
        """Starts a command that makes temporary files in a folder of its own, and runs a program that waits;
        and its number.
        """
        temporary, number = self.folder / "temporary", self.folder / "number"
        temporary.mkdir(exist_ok=True)
        text = f"#!/bin/sh\n{first}; echo $$ > {number}.new; mv {number}.new {number}; {waits}\n"
        program = str(common.write_program(self.folder / "program", text))
        env = {**os.environ, "PGBOARD": program, "TMPDIR": str(temporary)}
        process = subprocess.Popen(command, stdout=subprocess.PIPE, stderr=subprocess.PIPE, env=env)
        self.addCleanup(process.kill)
        common.wait_until(number.exists)
        return process, int(number.read_text())

    def check_ended(self, process, number, program):
        out, err = process.communicate(timeout=60)
        said = re.sub(b"^pgboard: size.*\n", b"", err)
        self.assertEqual((process.returncode, out, said), (-number, b"", b""))
        self.assertEqual(list((self.folder / "temporary").iterdir()), [])
        common.wait_until(lambda: not common.is_alive(program))
        (self.folder / "number").unlink()

    def test_signals(self):
        """The program gets SIGTERM first, and SIGKILL where it has not ended some seconds later."""
        ended = self.folder / "ended"
        ends = f"trap 'kill $!; sleep 0.5; touch {ended}; exit 1' TERM", "sleep 99 & wait"
        for command, number, first, waits in (
            *((WINNER, number, *ends) for number in SIGNALS),
            (WINNER, signal.SIGINT, "trap '' TERM", "exec sleep 99"),
            (MODELCHECK, signal.SIGTERM, ":", "exec sleep 99"),
            (WINNER, signal.SIGKILL, ":", "exec sleep 99"),
        ):
            with self.subTest(command[2], number=number):
                process, program = self.start(command, waits, first)
                process.send_signal(number)
                self.check_ended(process, number, program)
                self.assertEqual(ended.exists(), waits == ends[1])
                ended.unlink(missing_ok=True)

    def test_progress_on_a_terminal(self):
        waits = f"#!/bin/sh\ntest $1 != solve || sleep 2.4\nexec {shlex.quote(str(common.PROGRAM))} \"$@\"\n"
        env = {**os.environ, "PGBOARD": str(common.write_program(self.folder / "waits", waits))}
        ran, said = common.at_terminal(WINNER, env=env)
        first, *lines, last = said.decode().split("\r\x1b[K")
        # (on a slow machine other lines come too)
        self.assertEqual((ran.returncode, first, last), (0, "", ""))
        self.assertLessEqual({"pgboard: solve runs, 1 s", "pgboard: solve runs, 2 s"}, {*lines})

    def test_a_signal_that_is_ignored(self):
        process, program = self.start(["sh", "-c", 'trap "" HUP INT; exec "$@"', "", *WINNER])
        for number in (signal.SIGHUP, signal.SIGINT):
            process.send_signal(number)
        time.sleep(0.3)
        self.assertIsNone(process.poll())
        self.assertTrue(common.is_alive(program))
        process.terminate()
        self.check_ended(process, signal.SIGTERM, program)

    def test_a_signal_while_a_script_begins(self):
        here = self.folder / "here"
        waits = f"import time\nopen({str(here)!r}, 'w')\ntime.sleep(99)\n"
        (self.folder / "argparse.py").write_text(waits)
        pipes = {"stdout": subprocess.PIPE, "stderr": subprocess.PIPE}
        for script, number in itertools.product(
            ("winner", "modelcheck", "synthesise", "board/referee"), SIGNALS
        ):
            with self.subTest(script, number=number):
                env = {**os.environ, "PYTHONPATH": str(self.folder)}
                process = subprocess.Popen(command_of(script), env=env, **pipes)
                self.addCleanup(process.kill)
                common.wait_until(here.exists)
                process.send_signal(number)
                self.assertEqual((process.communicate(timeout=60), process.returncode), ((b"", b""), -number))
                here.unlink()

    def test_a_signal_while_something_is_begun(self):
        """It waits until that can be undone, and what is undone afterwards is not undone by a signal."""
        names = "first", "second", "third"
        first, second, third = ([f"{it} {name}" for it in ("begin", "begun", "end")] for name in names)
        whole = [*first[:2], *second, *third, first[2]]
        for name, number, wanted in (
            ("none", 0, whole),
            ("first", signal.SIGTERM, first),
            *(("second", it, [*first[:2], *second, first[2]]) for it in SIGNALS),
            ("third", signal.SIGTERM, whole),
        ):
            env = {**os.environ, "PYTHONPATH": str(BINDINGS)}
            got = common.run([sys.executable, "-B", "-c", BEGINS, name, str(int(number))], env=env)
            self.assertEqual(got, (-number, "".join(f"{it}\n" for it in wanted).encode(), b""), name)


if __name__ == "__main__":
    sys.argv = [it for it in sys.argv if it != "--write"]
    common.main()
