#!/usr/bin/env python3
"""Holds docs/THEOREM.md, PROVED.md, CONTRACTS.md and ARCHITECTURE.md to the sources."""

import collections
import graphlib
import itertools
import pathlib
import re
import sys
import unittest

sys.path.append(str(pathlib.Path(__file__).resolve().parents[1] / "lib"))
import common

theorem = common.load(common.ROOT / "tools" / "theorem")
THEOREM = common.text_of("docs/THEOREM.md")


def rows_of(page, columns):
    """The cells of each row of a page's tables of so many columns, without the heads."""
    rows = [it.strip("| ").split(" | ") for it in page.replace("|---", "").splitlines() if it.startswith("| ")]
    return [it for it in rows if len(it) == columns and it[0] not in ("Promise", "Sentence", "Crate")]


class Theorem(unittest.TestCase):
    def test_the_pages_are_what_the_sources_make(self):
        for path, made in theorem.made().items():
            with self.subTest(path):
                self.assertEqual(common.text_of(path).splitlines(), made.splitlines(), "run tools/theorem")
        # what is no piece shows no text of the sources
        for sentence, said in rows_of(THEOREM, 2):
            self.assertNotRegex(theorem.Pieces.LINE.sub("", said), "`[^`]* [^`]*`", sentence)

    def test_the_headline(self):
        (said,) = re.findall(r"(?m)^\*\*(Whenever .*)\*\*$", THEOREM)
        self.assertIn(f"**{said}**", common.text_of("README.md"))
        board = THEOREM.split("\n## Board\n")[1].split("\n## ")[0]
        parts = [first for first, _ in rows_of(board, 2)]
        self.assertRegex(said, rf"\A{'(?:, |; |; and )'.join(map(re.escape, parts))}\.\Z")

    def test_what_no_public_contract_reaches_is_private(self):
        texts = [(path, call.contract) for path, _, call in theorem.public_calls()]
        for path, names in theorem.exported():
            texts += [(path, line) for owner, line in theorem.views(path) if names is None or owner in names]
        named = {name for it in texts for name in theorem.names_in(*it)}
        # nor what another crate imports
        for crate, kind in itertools.product(theorem.CRATES, ("src", "specs", "proofs")):
            found = {it for path in theorem.files(f"{crate}/{kind}/**/*.*t") for it in theorem.imports(path).values()}
            named |= {it for it in found if not it.startswith(f"{crate}.")}
        definitions = theorem.Definitions()
        reached, _ = definitions.reached(named)
        for key in definitions.items:
            with self.subTest(key):
                self.assertEqual(".private." in key, key not in reached)


class Proved(unittest.TestCase):
    """A row of docs/PROVED.md: a promise, and calls. `read_game` `fault` is one clause, `read_game` has all of its."""

    # (the first call of a row is a link, which tools/theorem makes)
    ROWS = rows_of(re.sub(r"\[(`[\w:]+`)\]\(CONTRACTS\.md#\w+\)", r"\1", common.text_of("docs/PROVED.md")), 2)
    # of those that promise something; the rest of a trait's implementation has the trait's contract
    CALLS = {name: (path, it) for path, name, it in theorem.public_calls() if "ensures" in it.contract}

    def test_each_row_names_calls_and_their_clauses(self):
        self.assertGreater(len(self.ROWS), 40)
        self.assertEqual(len(self.CALLS), sum("ensures" in it.contract for *_, it in theorem.public_calls()))
        shown = set()
        for promise, calls in self.ROWS:
            with self.subTest(promise):
                self.assertRegex(calls, r"\A`[\w:]+`(?:,? `[\w:]+`)*\Z")
                for name, *clauses in (re.findall(r"[\w:]+", it) for it in calls.split(", ")):
                    shown.add(name)
                    self.assertLessEqual(set(clauses), set(self.CALLS[name][1].clauses("ensures")))
        self.assertEqual(shown, set(self.CALLS))

    def test_each_row_has_a_wrong_body(self):
        """Or it is a statement without a body. Each edit of the libraries is on the page of contracts."""
        turned = {name.strip("`"): bodies for name, *_, bodies in rows_of(common.text_of("docs/CONTRACTS.md"), 4)}
        for promise, calls in self.ROWS:
            with self.subTest(promise):
                names = [it.split("`")[1] for it in calls.split(", ")]
                laws = all(self.CALLS[it][0].endswith("laws.rt") for it in names)
                self.assertTrue(laws or any(turned[it] != "-" for it in names))
        every = {it.split("/")[-1] for crate in theorem.CRATES for it in theorem.files(f"{crate}/*/*.edit")}
        self.assertEqual({*re.findall(r"`(\w+\.edit)`", " ".join(turned.values()))}, every)

    def test_the_edits_that_are_tried_one_by_one_are_listed(self):
        page = common.text_of("tests/README.md").split("\n## Wrong bodies\n")[1]
        said = {crate.strip("`"): re.findall(r"`(\w+)`", edits) for crate, edits in rows_of(page, 2)}
        found = {it: [pathlib.Path(edit).stem for edit in theorem.files(f"{it}/must-fail/*")] for it in said}
        self.assertEqual(said, found)
        self.assertEqual(sum(map(len, found.values())), len(theorem.files("*/must-fail/*.edit")))

    def test_the_answers_to_a_caller_in_c_are_those_of_the_header(self):
        named = re.findall(r"`(PGBOARD_\w+)(\.\.)?`", common.text_of("docs/TRUST.md"))
        self.assertGreater(len(named), 20)
        for name, more in named:
            self.assertRegex(common.text_of("include/pgboard.h"), rf"(?m)^#define {name}{'' if more else ' '}")


class Architecture(unittest.TestCase):
    PAGE = common.text_of("docs/ARCHITECTURE.md")

    def test_each_layer_takes_the_functions_of_its_row(self):
        layers = [*theorem.CRATES, "pgboard_program"]
        rows = {re.search(r"\w+", crate)[0]: taken for crate, _, taken in rows_of(self.PAGE, 3)}
        for crate in layers:
            with self.subTest(crate):
                code = "\n".join(map(theorem.read, theorem.files(f"{crate}/src/**/*.rt")))
                lists = re.findall(rf"(?m)^use (?:{'|'.join(layers)})::\{{?([^;}}]+)\}}?;", code)
                taken = set(re.findall(r"\w+", " ".join(lists)))
                named = set(re.findall(r"`([^`]+)`", rows[crate])) - set(layers)
                functions = {it for it in named if it[0].islower()}
                self.assertEqual({it for it in taken if it[0].islower()}, functions)
                self.assertLessEqual({it.split("::")[0] for it in named - functions}, taken)
                for method in (it.split("::")[1] for it in named if "::" in it):
                    self.assertRegex(code, rf"(?:\.|::){method}\(")

    def test_each_file_of_the_sources_is_on_the_way(self):
        shown = set(re.findall(r"`(pg\w+/[\w/]+)`", self.PAGE))
        every = {it for crate in [*theorem.CRATES, "pgboard_program"] for it in theorem.files(f"{crate}/src/**/*.rt")}
        names = {it.replace("/src/", "/").removesuffix(".rt") for it in every}
        self.assertEqual(shown, {it for it in names if not it.endswith("/lib")})

    def test_no_ring_of_modules(self):
        """The modules of a crate import one another in an order, so that each can be read after those it names."""
        for crate in sorted(it.name for it in (common.ROOT / "crates").iterdir()):
            imports = collections.defaultdict(set)
            for path in theorem.files(f"{crate}/src/**/*.rt"):
                # a folder is part of the module of its name
                module = re.split(r"[/.]", path.partition("/src/")[2])[0]
                code = re.sub(r"//.*", "", theorem.read(path))
                imports[module].update(re.findall(r"\bcrate::(\w+)", code))
                imports[module].discard(module)
            with self.subTest(crate):
                graphlib.TopologicalSorter(imports).prepare()

    def test_each_box_of_the_picture_is_a_function_of_its_file(self):
        source = common.text_of("docs/pictures/architecture.dot")
        boxes = [it.split("\\n") for it in re.findall(r'label="([^"]*)"', source) if "\\n" in it]
        self.assertGreater(len(boxes), 5)
        for name, path in boxes:
            self.assertRegex(theorem.read(path), rf"\bfn {name}\b")


if __name__ == "__main__":
    common.main()
