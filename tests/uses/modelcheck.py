#!/usr/bin/env python3
"""Tests of the word `modelcheck`."""

import dataclasses
import itertools
import os
import pathlib
import random
import re
import shlex
import sys
import unittest
import unittest.mock
import xml.etree.ElementTree
from typing import Callable

sys.path.append(str(pathlib.Path(__file__).resolve().parents[1] / "lib"))
import common
import scripts
from pgboard.command import formulas, modelcheck

MODELS = scripts.EXAMPLES / "modelcheck"
# mostly one, so that a state has several transitions of a label
LABELS = ["a", "a", "a", "b", "a b", "true", "c(1,true)", "c(1, true)", "a|b(2)"]
# how one action is spelled, and the labels that it is
ACTIONS = {
    "a": {"a"},
    '"a"': {"a"},
    "b": {"b"},
    '"a b"': {"a b"},
    '"true"': {"true"},
    "true": set(LABELS),
    "false": set(),
    "c(1, true)": {"c(1,true)", "c(1, true)"},
    "c( 1,true )": {"c(1,true)", "c(1, true)"},
    '"c(1,true)"': {"c(1,true)"},
    "a|b(2)": {"a|b(2)"},
    "b(2) | a": {"a|b(2)"},
}


@dataclasses.dataclass
class Model:
    first: int
    count: int
    transitions: list

    @property
    def states(self):
        return set(range(self.count))

    @property
    def text(self):
        rows = (f'({state}, "{label}", {to})\n' for state, label, to in self.transitions)
        return f"des ({self.first}, {len(self.transitions)}, {self.count})\n" + "".join(rows)

    def part(self, text):
        found = re.findall(r'(?m)^\((\d+), "([^"]*)", (\d+)\)$', text)
        return Model(self.first, self.count, [(int(state), label, int(to)) for state, label, to in found])


@dataclasses.dataclass
class Formula:
    """A text, and the states of a model in which it holds, by the sets of its variables."""

    text: str
    holds: Callable


def next_formula(chance, depth, names, kinds):
    """A random formula of these variables, with these kinds of fixed points inside each other."""
    if kinds and chance.random() < 0.6:
        return fixed_point(
            kinds[0], f"X{len(kinds)}", next_formula(chance, depth, [*names, f"X{len(kinds)}"], kinds[1:])
        )
    if depth == 0 and names and chance.random() < 0.8:
        name = chance.choice(names)
        return Formula(name, lambda model, sets: sets[name])
    if depth == 0:
        value = chance.random() < 0.5
        return Formula(str(value).lower(), lambda model, sets: model.states if value else set())
    if chance.random() < 0.5:
        inner = next_formula(chance, depth - 1, names, kinds)
        return modality(chance.random() < 0.5, next_regular(chance, chance.choice([0, 0, 1, 2])), inner)
    left, right = next_formula(chance, depth - 1, names, kinds), next_formula(chance, depth - 1, names, [])
    if chance.random() < 0.2:
        # (no variable is under a negation)
        return joined(next_formula(chance, depth - 1, [], []), "=>", left)
    return joined(left, chance.choice(["&&", "||"]), right)


def joined(left, sign, right):
    def holds(model, sets):
        some, others = left.holds(model, sets), right.holds(model, sets)
        return some & others if sign == "&&" else (model.states - some if sign == "=>" else some) | others

    return Formula(f"({left.text} {sign} {right.text})", holds)


@dataclasses.dataclass
class Regular:
    """A text that a modality may have in its brackets, how strongly it binds, and of a model the pairs of
    states that it joins.
    """

    text: str
    binds: int
    pairs: Callable
    labels: set = None

    def inside(self, binds, chance):
        return f"({self.text})" if self.binds < binds or chance.random() < 0.1 else self.text


# how strongly what is no action binds, and how an action's operators do
CHOICE, SEQUENCE, REPEATED, IMPLIES, OR, AND, NOT = range(7)


def labelled(text, binds, labels):
    return Regular(
        text,
        binds,
        lambda model: {(state, to) for state, it, to in model.transitions if it in labels},
        labels,
    )


def next_actions(chance, depth):
    if depth == 0 or chance.random() < 0.5:
        text = chance.choice([*ACTIONS, "a", "a"])
        return labelled(text, NOT, ACTIONS[text])
    if chance.random() < 0.4:
        part = next_actions(chance, depth - 1)
        return labelled(f"!{part.inside(NOT, chance)}", NOT, set(LABELS) - part.labels)
    left, right = next_actions(chance, depth - 1), next_actions(chance, depth - 1)
    binds, sign = chance.choice([(IMPLIES, "=>"), (OR, "||"), (AND, "&&")])
    # an implication binds to the right, and the others associate
    text = f"{left.inside(binds + (binds == IMPLIES), chance)} {sign} {right.inside(binds, chance)}"
    kinds = {
        "=>": (set(LABELS) - left.labels) | right.labels,
        "||": left.labels | right.labels,
        "&&": left.labels & right.labels,
    }
    return labelled(text, binds, kinds[sign])


def next_regular(chance, depth):
    if depth == 0 or chance.random() < 0.2:
        return next_actions(chance, 2)
    left = next_regular(chance, depth - 1)
    if chance.random() < 0.5:
        is_star = chance.random() < 0.5
        same = lambda model: {(state, state) for state in model.states} if is_star else set()
        return Regular(
            left.inside(REPEATED, chance) + "+*"[is_star],
            REPEATED,
            lambda model: closed(left.pairs(model)) | same(model),
        )
    right = next_regular(chance, depth - 1)
    if chance.random() < 0.5:
        text = f"{left.inside(CHOICE, chance)} + {right.inside(SEQUENCE, chance)}"
        return Regular(text, CHOICE, lambda model: left.pairs(model) | right.pairs(model))
    text = f"{left.inside(REPEATED, chance)}{chance.choice(['.', ' . '])}{right.inside(SEQUENCE, chance)}"
    return Regular(text, SEQUENCE, lambda model: after(left.pairs(model), right.pairs(model)))


def after(left, right):
    return {(state, to) for state, middle in left for at, to in right if middle == at}


def closed(pairs):
    while True:
        more = pairs | after(pairs, pairs)
        if more == pairs:
            return pairs
        pairs = more


def modality(is_some, regular, inner):
    """Some way that the regular formula goes, or each, leads to where a formula holds."""
    known = {}

    def holds(model, sets):
        target = inner.holds(model, sets)
        if id(model) not in known:
            known[id(model)] = model, regular.pairs(model)
        moves = known[id(model)][1]
        if is_some:
            return {state for state, to in moves if to in target}
        return model.states - {state for state, to in moves if to not in target}

    return Formula((f"<{regular.text}> " if is_some else f"[{regular.text}] ") + inner.text, holds)


def fixed_point(kind, name, inner):
    def holds(model, sets):
        found, before = set() if kind == "mu" else model.states, None
        while found != before:
            before, found = found, inner.holds(model, {**sets, name: found})
        return found

    return Formula(f"({kind} {name}. {inner.text})", holds)


def drawn(seed):
    chance = random.Random(seed)
    count = chance.randint(2, 9)
    rows = {
        (chance.randrange(count), chance.choice(LABELS), chance.randrange(count))
        for _ in range(chance.randint(count, 4 * count))
    }
    model = Model(chance.randrange(count), count, sorted(rows))
    for _ in range(20):
        formula = next_formula(
            chance, chance.randint(2, 5), [], [("mu", "nu")[(at + seed) % 2] for at in range(seed % 5)]
        )
        if 0 < len(formula.holds(model, {})) < count:
            break
    return model, formula


# how a formula's operators bind, from what binds least. (Those inside a modality are in the random formulas.)
OPERATORS = ["=>", "||", "&&"]
# a formula, and the same with brackets
BRACKETS = {
    "!X && Y": "(!X) && Y",
    "<a> X || Y": "(<a> X) || Y",
    "![a] X => Y": "(!([a] X)) => Y",
    "mu X. X && Y": "mu X. (X && Y)",
    "X && nu Y. Y || Z": "X && (nu Y. (Y || Z))",
    "not X and Y or Z": "((!X) && Y) || Z",
    "<a (1)> X": "<a(1)> X",
}


def without_places(tree):
    sides = lambda it: [*map(without_places, it)] if isinstance(it, list) else it
    return (tree[0], *(without_places(it) if isinstance(it, tuple) else sides(it) for it in tree[2:]))


# what is said of a game before it is solved
SIZE = "pgboard: size of the game: vertices {}, edges {}\n"
# one who asks is let in, which is false for a single reason
WAITING = "[ask_1] mu X. (<true> true && [!enter_1] X)"


class ModelCheck(scripts.Use, unittest.TestCase):
    name = "modelcheck"

    def setUp(self):
        super().setUp()
        self.model, self.evidence, self.game = (
            self.folder / it for it in ("model.aut", "evidence.aut", "game.pg")
        )
        self.model.write_text(scripts.MODEL)
        # (the size is looked at on the way)
        many = unittest.mock.patch.object(modelcheck, "MANY", 2)
        many.start()
        self.addCleanup(many.stop)

    def check(self, path, formula, expected, *words):
        self.assertEqual(
            self.call(path, formula, *words), (int(not expected), f"{str(expected).lower()}\n"), formula
        )

    def test_random_models(self):
        answers = []
        for seed in range(500):
            with self.subTest(seed=seed):
                model, formula = drawn(seed)
                self.model.write_text(model.text)
                answers.append(model.first in formula.holds(model, {}))
                self.check(self.model, formula.text, answers[-1], "--evidence", self.evidence)
                # the evidence is a part of the model, from its first state on, in which the answer is the
                # same
                text = self.evidence.read_text()
                part = model.part(text)
                self.assertEqual(text, part.text)
                self.assertLessEqual(set(part.transitions), set(model.transitions))
                reached = [model.first]
                for at in reached:
                    reached += {to for state, _, to in part.transitions if state == at and to not in reached}
                self.assertLessEqual({state for state, _, _ in part.transitions}, set(reached))
                self.assertEqual(model.first in formula.holds(part, {}), answers[-1])
                self.check(self.model, f"!{formula.text}", not answers[-1])
        self.assertGreater(min(answers.count(True), answers.count(False)), 150)

    def test_how_operators_bind(self):
        read = lambda text: without_places(formulas.Parser("formula", text).whole())
        for first, second in itertools.product(OPERATORS, repeat=2):
            goes_left = OPERATORS.index(first) > OPERATORS.index(second) or first == second != "=>"
            brackets = f"(a {first} b) {second} c" if goes_left else f"a {first} (b {second} c)"
            text = f"a {first} b {second} c"
            self.assertEqual(read(text), read(brackets), text)
        for text, brackets in BRACKETS.items():
            self.assertEqual(read(text), read(brackets), text)
        names = ("variable", "nu_"), ("variable", "andy'")
        self.assertEqual(read("nu_ and andy'"), ("&&", [*names]))

    def test_a_comment_in_an_action(self):
        self.model.write_text('des (0, 2, 2)\n(0, "a", 1)\n(1, "c(1)|b", 0)\n')
        for formula, expected in {
            "[true*.(a % the request\n)] false": False,
            "<a % one ] two\n> true": True,
            "<a.b % one\n | % two )\n c( % three )\n 1 )> true": True,
            '<"a"> % "\n true % "': True,
            '<"100%"> true || <a> true': True,
            "<a.b> true": False,
        }.items():
            self.check(self.model, formula, expected)

    def test_labels(self):
        labels = [
            "a",
            "a b",
            "ab",
            "c(1,f(x|y))|b|a",
            "a|b|c(1, f(x | y))",
            "b|c(1,f(y|x))|a",
            "d(x mod y)",
            "d(x  mod y)",
            "d(xmody)",
            "a'",
            "0",
            "c(x|y)|b(z|w)",
        ]
        for formula, taken in {
            "ab": ["ab"],
            '"a b"': ["a b"],
            "c(1,f(x|y)) | a | b": labels[3:5],
            "b|a|c(1,f(y|x))": labels[5:6],
            "d( x mod y )": labels[6:8],
            "a|b": [],
            "!(a || ab)": [labels[1], *labels[3:]],
            "a => ab": labels[1:],
            "a'": ["a'"],
            "0": ["0"],
            "b(z|w) | c(x|y)": labels[-1:],
            "b(z|y) | c(x|w)": [],
            "true && !false": labels,
        }.items():
            for at, label in enumerate(labels):
                self.model.write_text(f'des (0, 1, 1)\n(0, "{label}", 0)\n')
                with self.subTest(formula, label=label):
                    self.check(self.model, f"<{formula}> true", label in taken)

    def test_many_labels_and_actions(self):
        count, actions, module = 4_000, 60, formulas
        self.model.write_text(Model(0, 1, [(0, f"a({at})", 0) for at in range(count)]).text)
        formula = " || ".join(f"<a({at}) && a({at + 1})> true" for at in range(actions // 2))
        calls, spelled = [], module.spelled
        with unittest.mock.patch.object(module, "spelled", lambda text: calls.append(text) or spelled(text)):
            self.check(self.model, formula, False)
        self.assertEqual(len(calls), count + actions)

    def test_actions_that_no_label_is(self):
        """A line says so, but not of tau, nor where the action stands under a negation alone. The answer is
        the same.
        """
        for formula, expected, unknown in (
            ("[true*.entre] false", True, ["entre"]),
            ("<!entre> true", True, []),
            ("<a && !(entre || !other)> true", False, ["other"]),
            ("<entre => a> true", True, []),
            ("<a => entre> true", False, ["entre"]),
            ("<(entre => b) => a> true", True, ["entre"]),
            ("!<entre> true", True, ["entre"]),
            ("[tau] false && [true] true && [false] true", True, []),
            ("[i] false && <!tau> true", True, ["i"]),
            ('<!entre> true && [entre+.entre.x|y] ["b c"] false', True, ["entre", "x|y", '"b c"']),
            ('<a."a"> true && <"a".a> true', True, []),
        ):
            with self.subTest(formula):
                status, out, err = scripts.called(self.script, [self.name, self.model, formula])
                self.assertEqual((status, out), (int(not expected), f"{str(expected).lower()}\n"))
                self.assertEqual(
                    err.splitlines()[1:], [f"pgboard: the model has no label {it}" for it in unknown]
                )

    def test_tau_where_the_model_has_i(self):
        warning = "pgboard: the model has no label tau: its label i may be meant"
        for labels, formula, is_warned in (
            ("i", "<tau> true", True),
            ("ia", "[a] true && [!tau] false", False),
            ("a", "<tau> true", False),
        ):
            self.model.write_text(Model(0, 1, [(0, it, 0) for it in labels]).text)
            err = scripts.called(self.script, [self.name, self.model, formula])[2]
            self.assertEqual(err.splitlines()[1:], [warning] * is_warned)
        self.model.write_text(Model(0, 1, [(0, "i", 0), (0, "tau", 0)]).text)
        self.assertEqual(self.run_script(self.model, "<tau> true")[1:], ("true\n", SIZE.format(2, 2)))

    def test_known_models(self):
        rows = scripts.rows_of("known_models.txt")
        self.assertGreater(len(rows), 20)
        for name, says, expected, formula in rows:
            with self.subTest(f"{name}: {says}"):
                formula = re.sub(r"^ALWAYS\((.*)\)$", r"nu A. ([true] A && \1)", formula)
                self.check(MODELS / f"{name}.aut", formula, expected == "true", "--evidence", self.evidence)
                # what is true there is true of the evidence, and what is false is false
                self.check(self.evidence, formula, expected == "true")

    def test_a_large_model_takes_little_time(self):
        formula = modelcheck.Formula("formula", "nu X. [a] X")

        def made(count):
            moves = [(state, "a", (state + 1) % count) for state in range(count)]
            product = modelcheck.Product(modelcheck.Model("model", Model(0, count, moves).text), formula)
            self.assertEqual(len(product.moves), 2 * count)

        self.check_growth(made, 5_000)

    def test_priorities_by_alternation(self):
        for formula, greatest in {
            "nu X. <a> X": 0,
            "mu X. <a> X": 1,
            "nu X. mu Y. (<a> X || <a> Y)": 2,
            "mu X. nu Y. mu Z. (<a> X || <a> Y || <a> Z)": 3,
            "nu X. (<a> X && mu Y. <a> Y)": 1,
            "mu X. mu Y. <a> X || <a> Y": 1,
            "nu V. mu X. nu Y. mu Z. <a> (V && X && Y && Z)": 4,
            "<true*> true": 1,
            "nu X. <a*.b> X": 2,
            "nu X. [a*.b] X": 0,
            "[true*] <(a + b)+> true": 1,
            "nu X. [a*] <b*> X": 2,
        }.items():
            with self.subTest(formula):
                self.call(self.model, formula, "--game", self.game)
                lines = self.game.read_text().splitlines()[2:]
                self.assertEqual(max(int(line.split()[1]) for line in lines), greatest)

    def test_game_of_the_benchmarks(self):
        self.check_benchmark(10_000)

    def test_names_of_the_game(self):
        self.check(self.model, 'mu X. (<"a"> X || [!a] false)', True, "--game", self.game)
        rows = [
            "0 1 0 1 \"0: mu X. (<'a'> X || [!a] false)\"",
            "1 0 0 2,3 \"0: (<'a'> X || [!a] false)\"",
            "2 0 0 4 \"0: <'a'> X\"",
            '3 0 1 3 "0: [!a] false"',
            "4 1 0 5 \"1: mu X. (<'a'> X || [!a] false)\"",
            "5 0 0 6,7 \"1: (<'a'> X || [!a] false)\"",
            "6 0 0 0 \"1: <'a'> X\"",
            '7 0 1 7 "1: [!a] false"',
        ]
        self.assertEqual(self.game.read_text(), "parity 7;\nstart 0;\n" + "".join(f"{it};\n" for it in rows))

    def test_forms_of_a_model(self):
        for text in (
            b'des (1,2,2)\r\n\r\n( 1 , g , 0 )\r\n(0,"b c",0)\r\n',
            b"  des(1,2,2)\n(1,g,0)\n(0,b c,0)",
            b'des (1, 2, 2)\n(1, "g", 0)\n(0, "b c", 0)\n',
        ):
            with self.subTest(text):
                self.model.write_bytes(text)
                self.check(self.model, '<g> nu X. <"b c"> X', True)

    def test_a_formula_of_a_file(self):
        formula = self.file("always.mcf", "% always\nnu X.\n <a> X\n")
        self.assertEqual(self.run_script(self.model, formula), (0, "true\n", SIZE.format(4, 4)))
        said = SIZE.format(1, 1) + "pgboard: the model has no label b\n"
        self.assertEqual(self.run_script(self.model, "-", given=b"<b> true % none\n"), (1, "false\n", said))
        formula = self.file("always.mcf", "nu X.\n (<a> X\n")
        status, out, err = self.run_script(self.model, formula)
        self.assertEqual((status, out), (3, ""))
        self.assertTrue(err.startswith(f"{formula}:2:8: expected ), found the end of the text"), err)

    def test_bytes_of_other_encodings(self):
        self.model.write_bytes(b'des (0, 1, 1)\n(0, "\xe9\xff", 0)\n')
        self.assertEqual(
            self.run_script(self.model, "nu X. <true> X", "--evidence", self.evidence)[:2], (0, "true\n")
        )
        self.assertEqual(self.evidence.read_bytes(), self.model.read_bytes())

    def test_damaged_texts(self):
        self.check_damaged(
            lambda it: self.call(self.model, it),
            'nu X. (mu Y. <a> Y || ["b c"] !X => <!a> X) && [true] false',
        )
        mutex = common.text_of(MODELS, "mutex.aut")
        self.check_damaged(
            lambda it: self.call(self.file("model.aut", it), "mu X. (<true> true && [a] X)"), mutex
        )

    def test_progress_on_a_terminal(self):
        command = [*scripts.command_of(self.name), self.model, "[true*] <a> true"]
        ran, said = common.at_terminal(
            command, env={**os.environ, "PGBOARD": shlex.quote(str(common.PROGRAM))}
        )
        shown = said.decode()
        self.assertEqual((ran.returncode, ran.stdout), (0, b"true\n"))
        lines = [line.rpartition("\r\x1b[K")[2].rstrip("\r") for line in shown.split("\n")]
        self.assertRegex(lines[0], r"^pgboard: size of the game: vertices \d+, edges \d+$")
        self.assertEqual(lines[1:], [""])

    def test_a_picture_spells_what_does_not_print(self):
        self.model.write_bytes(b'des (0, 1, 1)\n(0, "a\x01b", 0)\n')
        picture = self.folder / "picture.svg"
        self.assertEqual(self.call(self.model, '<"a\x01b"> true', "--picture", picture)[0], 0)
        self.assertIn(r"a\x01b", "".join(xml.etree.ElementTree.parse(picture).getroot().itertext()))

    def test_what_is_too_large(self):
        # (a chain is no nesting: a test has a tenth of the script's frames)
        for operator in ("&&", "||"):
            self.assertEqual(
                len(modelcheck.Formula("formula", f" {operator} ".join(["true"] * 1500)).parts), 2999
            )
        self.model.write_text(Model(0, 9, [(state, "a", state + 1) for state in range(8)]).text)
        patch = unittest.mock.patch.object
        with patch(modelcheck, "MOST_VERTICES", 18), patch(modelcheck, "working") as working:
            self.check(self.model, "nu X. [a] X", True)
        self.assertGreater(working().__enter__().__setitem__.call_count, 9)
        working().__enter__().__setitem__.assert_called_with(0, "makes the game: 18 vertices")
        with patch(modelcheck, "MOST_VERTICES", 17):
            with self.refuses("the game has more than 17 vertices"):
                self.call(self.model, "nu X. [a] X")
        with patch(modelcheck.pictures, "MOST_DRAWN", 8):
            with self.refuses("9 vertices are too many"):
                self.call(self.model, "nu X. [a] X", "--picture", self.folder / "p.dot")

    def test_what_is_nested(self):
        """Chains are not, and what is nested too deeply has the same place under each Python."""
        for sign, parts in (".", 5_001), ("+", 10_000), ("||", 2), ("&&", 2):
            regular = sign.join(["a"] * 5_000)
            self.assertEqual(len(modelcheck.Formula("formula", f"[{regular}] true").parts), parts)
        for text, column in {
            "(" * 3_000: 1_144,
            "<a>" * 5_000: 12_004,
            "!" * 5_000: 4_002,
            "<" + "(" * 3_000: 730,
            "mu X." * 3_000: 5_716,
        }.items():
            with self.refuses(f"^formula:1:{column}: nested too deeply$"):
                modelcheck.Formula("formula", text)

    def test_evidence_of_one_move(self):
        model = Model(0, 2, [(0, "a", 1), (0, "b", 1)])
        self.model.write_text(model.text)
        for formula, labels in (
            ("<true> true", "a"),
            ("<b> true", "b"),
            ("[true] true", "ab"),
            ("[b] true", "b"),
        ):
            self.check(self.model, formula, True, "--evidence", self.evidence)
            found = model.part(self.evidence.read_text()).transitions
            self.assertEqual(sorted(found), [(0, label, 1) for label in labels])

    @common.needs("dot")
    def test_evidence_and_pictures_of_waiting(self):
        """The other is let in again and again, which is the only way to wait for ever; the pages show the
        picture.
        """
        words = [MODELS / "mutex.aut", WAITING]
        self.check(*words, False, "--evidence", self.evidence)
        cycle = [(0, "ask_1", 1), (1, "ask_2", 3), (3, "enter_2", 7), (7, "leave_2", 1)]
        self.assertEqual(self.evidence.read_text(), Model(0, 8, cycle).text)
        for end in ("dot", "svg"):
            picture = self.folder / f"waiting.{end}"
            self.call(*words, "--picture", picture)
            scripts.check_kept(self, picture.name, picture.read_text())


if __name__ == "__main__":
    common.main()
