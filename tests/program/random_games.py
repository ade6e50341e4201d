#!/usr/bin/env python3
"""Compares a built program with plain definitions: tests/program/random_games.py [PROGRAM] [--count N] [--seed S]

The same seed gives the same games.
"""

import argparse
import concurrent.futures
import pathlib
import random
import re
import sys
import tempfile
import unittest

sys.path.append(str(pathlib.Path(__file__).resolve().parents[1] / "lib"))
import common
import plain

BLANKS = [b" ", b"\n", b"\t", b"\r\n", b"  ", b" \n "]
PIECES = [*b'0 1 9 00 , ; " - parity start paritysol x 2147483648 \xff %'.split(), b" ", b"\n"]
SOLVES = [
    "",
    "--workers 1 --bound 0",
    "--workers 1",
    "--workers 2",
    "--workers 7",
    "--workers 64",
    "--workers 3 --bound 2",
]

# --- random games and texts ---


def random_game(chance, most=8):
    n = chance.randint(most // 2 if most > 8 else 1, most)
    ids = chance.sample(range(n if chance.random() < 0.5 else 3 * n), n)
    priorities = chance.choice([2, 3, n + 1, 2 * n + 2])
    degree = chance.choice([1, 2, 3])
    successors = lambda: set(chance.choices(ids, k=chance.randint(1, degree)))
    return {id: (chance.randrange(priorities), chance.randrange(2), successors()) for id in ids}


def number(chance, value):
    return b"0" * chance.choice([0, 0, 0, 1, 3]) + b"%d" % value


def blank(chance, needed=False):
    return chance.choice(BLANKS) if needed or chance.random() < 0.3 else b""


def header(chance, word, likely):
    parts = [word, blank(chance), number(chance, chance.randrange(99)), b";", blank(chance)]
    return b"".join(parts) if chance.random() < likely else b""


def straight_game_text(chance, game):
    lines = [chance.choice([b"", b"parity %d;\n" % max(game)])]
    for id in sorted(game) if chance.random() < 0.5 else game:
        priority, owner, successors = game[id]
        row = sorted(successors)
        if chance.random() < 0.3:
            row = chance.sample(row, len(row)) + chance.choices(row, k=chance.choice([0, 1]))
        lines.append(b"%d %d %d %s;\n" % (id, priority, owner, b",".join(b"%d" % it for it in row)))
    return b"".join(lines)


def random_game_text(chance, game):
    if chance.random() < 0.5:
        return straight_game_text(chance, game)
    text = [header(chance, b"parity", 0.4), header(chance, b"start", 0.4)]
    for id in chance.sample(list(game), len(game)):
        priority, owner, successors = game[id]
        row = list(successors) + chance.choices(list(successors), k=chance.choice([0, 0, 1, 2]))
        for value in (id, priority, owner):
            text += [number(chance, value), blank(chance, True)]
        text.append(
            b",".join(
                blank(chance) + number(chance, it) + blank(chance) for it in chance.sample(row, len(row))
            )
        )
        text += [
            chance.choice([b"", b"", b'"a b"', b'""', b'"\xc3\xa4;,\xff\n"', b' "x" ']),
            b";",
            blank(chance),
        ]
    return b"".join(text)


def random_solution_text(chance, solution):
    text = [header(chance, b"paritysol", 0.5)]
    for id in chance.sample(list(solution), len(solution)):
        row = [it for it in (id, *solution[id]) if it is not None]
        text += [
            blank(chance, True).join(number(chance, it) for it in row),
            blank(chance),
            b";",
            blank(chance),
        ]
    return b"".join(text)


def damaged(chance, text):
    for _ in range(chance.randint(1, 2)):
        at = chance.randint(0, len(text))
        piece, count = chance.choice(
            [(b"", chance.randint(1, 3)), (chance.choice(PIECES), chance.randint(0, 1)), (b"", len(text))]
        )
        text = text[:at] + piece + text[at + count :]
    return text


def random_solution(chance, game):
    one, every = chance.random() < 0.4, chance.randrange(2)
    solution = {}
    for id in game:
        winner = every if one else chance.randrange(2)
        successors = list(game[id][2]) if chance.random() < 0.95 else list(game)
        has_choice = winner == game[id][1] and chance.random() < 0.97 or chance.random() < 0.2
        solution[id] = winner, chance.choice(successors) if has_choice else None
    return solution


def some_of(chance, solution):
    return {id: row for id, row in solution.items() if chance.random() < 0.6}


def with_a_fault(chance, game, known):
    if not known:
        return known
    id = chance.choice(list(known))
    winner, choice = known[id]
    choices = None, chance.choice(list(game[id][2])), chance.choice(list(game))
    return {**known, id: chance.choice([(1 - winner, choice), *((winner, it) for it in choices)])}


# --- the checks of a game: each returns what is wrong, or None ---


class Checks:
    def __init__(self, seed, folder):
        self.chance, self.folder = random.Random(seed), pathlib.Path(folder)
        self.game = random_game(self.chance)
        self.text = random_game_text(self.chance, self.game)

    def run(self, words, given):
        return common.program(*words, given=given, cwd=self.folder)

    def differs(self, words, given, wanted):
        got = self.run(words, given)
        return None if got == wanted else f"{' '.join(words)}: {got}, and not {wanted}"

    def verify(self, text, is_joined):
        wanted = plain.verified(self.text, text)
        if is_joined:
            return self.differs([], self.text + b"%" + text, wanted)
        (self.folder / "game.pg").write_bytes(self.text)
        (self.folder / "game.sol").write_bytes(text)
        return self.differs(["verify", "game.pg", "game.sol"], b"", wanted)

    def solve(self):
        words = ["solve", *self.chance.choice(SOLVES).split()]
        status, out, err = self.run(words, self.text)
        why = plain.written_fault(self.game, out) if (status, err) == (0, b"") else (status, err)
        if why:
            return f"{words} writes {out}: {why}"
        winners = plain.written_winners(self.game, plain.solution_of(self.game, out)).encode()
        return self.differs(["solve", "--winners"], self.text, (0, winners, b""))

    def solve_from(self, text):
        (self.folder / "part.sol").write_bytes(text)
        words = ["solve", "--known", "part.sol"]
        words += ["--workers", self.chance.choice("1234"), "--bound", self.chance.choice("048")]
        got = self.run(words, self.text)
        try:
            known = plain.known_of(self.game, text)
            why = next(plain.known_faults(self.game, known), None)
            wanted = 1, b"", f"pgboard: known: {why}\n".encode()
        except plain.Refused as refusal:
            why, wanted = refusal, plain.refused("solution", refusal)
        if why:
            return None if got == wanted else f"{text}: {got}, and not {wanted}"
        why = plain.written_fault(self.game, got[1]) if got[0] == 0 and not got[2] else "it is refused"
        if why:
            return f"from {text}: {got}, {why}"
        solution = plain.solution_of(self.game, got[1])
        owned = lambda id, winner, choice: (winner, choice if self.game[id][1] == winner else None)
        wanted = {id: owned(id, *row) for id, row in known.items()}
        return None if wanted.items() <= solution.items() else f"from {text} it has {solution}"

    def trace(self, game, text):
        workers = self.chance.choice([1, 2, 4, 64])
        status, out, err = self.run(["trace", "--workers", str(workers)], text)
        why = plain.trace_fault(game, workers, out) if (status, err) == (0, b"") else (status, err)
        return f"trace --workers {workers} writes {out}: {why}" if why else None

    def all(self):
        chance, game = self.chance, self.game
        right, other = plain.solved(game), random_solution(chance, game)
        part = some_of(chance, right)
        wrong = random_solution_text(chance, with_a_fault(chance, game, part))
        yield "the plain recursion", None if plain.verdict(game, right) == "ok\n" else f"{right} of {game}"
        for name, text in (("tidy", self.text), ("tidy of a damaged text", damaged(chance, self.text))):
            yield name, self.differs(["tidy"], text, plain.tidied(text))
        for solution in (right, other):
            yield "verify", self.verify(random_solution_text(chance, solution), chance.random() < 0.5)
        yield "verify of a damaged text", self.verify(
            damaged(chance, random_solution_text(chance, other)), False
        )
        yield "solve", self.solve()
        yield "solve from a part", self.solve_from(random_solution_text(chance, part))
        yield "solve from a part with a fault", self.solve_from(wrong)
        yield "solve from some of a random solution", self.solve_from(
            random_solution_text(chance, some_of(chance, other))
        )
        yield "solve from a damaged text", self.solve_from(damaged(chance, wrong))
        yield "trace", self.trace(game, self.text)
        if chance.random() < 0.02:
            # of more than one batch of vertices
            larger = random_game(chance, 140)
            yield "trace of a larger game", self.trace(larger, random_game_text(chance, larger))


def judged(number):
    with tempfile.TemporaryDirectory(prefix="pgboard-random-") as folder:
        return list(Checks(f"{GIVEN.seed} {number}", folder).all())


def small_dominions(count):
    """Blocks of four vertices with choices of both players; Even and Odd win them in turn: a long journal."""
    offsets = ((1, 2), (0, 3), (0,), (0, 2))
    rows = [(v, 0 if v % 4 else 2 + v // 4 % 2, (v % 4 in (1, 2)) ^ v // 4 % 2) for v in range(count)]
    return {v: (p, o, {v - v % 4 + it for it in offsets[v % 4]}) for v, p, o in rows}


class RandomGames(unittest.TestCase):
    def test_each_game(self):
        with concurrent.futures.ThreadPoolExecutor(4) as pool:
            for number, checks in enumerate(pool.map(judged, range(GIVEN.count))):
                for name, why in checks:
                    with self.subTest(name, seed=GIVEN.seed, game=number):
                        self.assertIsNone(why)

    def check_trace(self, game, workers):
        status, out, err = common.program(
            "trace", "--workers", str(workers), given=plain.written_game(game).encode(), timeout=300
        )
        self.assertEqual((status, err), (0, b""))
        self.assertIsNone(plain.trace_fault(game, workers, out))
        self.assertNotRegex(out, rb"(?m)^job .* 1$")
        return out

    @common.needs_speed
    def test_a_trace_of_4000_vertices(self):
        self.assertGreater(self.check_trace(small_dominions(4_000), 3).count(b"entry "), 100)

    def test_what_the_plain_definitions_refuse(self):
        game = {3: (2, 0, {3, 9}), 9: (1, 1, {9}), 12: (0, 1, {3})}
        text = b"paritysol 12;\n3 0 3;\n9 1 9;\n12 0;\n"
        wrong = {b"9 1 9": (b"9 0", "not a solution: bad cycle at 9\n")}
        wrong[b"12 0;"] = b"12 0 3;", plain.NOT_WRITTEN
        for old, (new, said) in {b"": (b"", None), **wrong}.items():
            self.assertEqual(plain.written_fault(game, text.replace(old, new)), said)
        given = b"0 2 0 0,1; 1 1 1 1;"
        game, text = plain.game_of(given), common.program("trace", "--workers", "1", given=given)[1]
        self.assertIsNone(plain.trace_fault(game, 1, text))
        for found in re.finditer(rb"[0-9]+", text):
            with self.subTest(at=found.start()):
                wrong = text[: found.start()] + b"%d" % (int(found[0]) + 5) + text[found.end() :]
                self.assertIsNotNone(plain.trace_fault(game, 1, wrong))
        wrong = text.replace(b"job 4 1 0 0 0", b"job 4 - 0 0 1").replace(b"total 2 2 0", b"total 2 2 1")
        self.assertEqual(plain.trace_fault(game, 1, wrong), "a job of no worker has done something")


if __name__ == "__main__":
    parser = argparse.ArgumentParser(add_help=False)
    parser.add_argument("--count", type=int, default=40 if common.is_checked() else 800)
    parser.add_argument("--seed", type=int, default=1)
    GIVEN, sys.argv[1:] = parser.parse_known_args()
    common.main()
