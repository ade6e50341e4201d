#!/usr/bin/env python3
"""Tests what repeats tools/faults.txt, the table of the library's answers."""

import pathlib
import re
import runpy
import sys
import unittest

sys.path.append(str(pathlib.Path(__file__).resolve().parents[1] / "lib"))
import common

tool = common.load(common.ROOT / "tools/faults")
ANSWERS = tool.ANSWERS
NUMBERS = common.text_of("crates/pgboard_c/specs/Numbers.antt")
# the names of faults by the enumeration that has them, and the one that C has another name for
GROUPS = {it: f"{it.upper()}_" for it in ("solution", "known", "board", "post", "array")}
GROUPS |= {"text": "GAME_", "structure": "STRUCT_"}
OTHER_NAMES = {"NO_CHOICE": "NO_CHOICE_AT", "KNOWN_OPEN": "KNOWN_LEAVES"}
# the other numbers of the header
OTHERS = {"NO_CHOICE": 4294967295, "NO_WINNER": 255}
LIMITS = "max_vertices", "max_edges", "max_number", "max_text"


def name_of(group, name):
    name = GROUPS.get(group, "") + re.sub(r"(?<!^)([A-Z])", r"_\1", name).upper()
    return OTHER_NAMES.get(name, name)


def defined_others():
    for group, name, number in re.findall(r"(?m)^(array|structure)_number \w+\.(\w+) = (\d+)$", NUMBERS):
        yield name_of(group, name), int(number)
    for path in common.ROOT.glob("crates/*/specs/*.antt"):
        found = re.findall(rf"(?m)^({'|'.join(LIMITS)}) = (\d+)$", path.read_text())
        yield from ((name.upper(), int(number)) for name, number in found)


class Faults(unittest.TestCase):
    def test_each_file_is_as_it_is_made(self):
        for path, text in tool.made():
            with self.subTest(path):
                self.assertEqual(common.text_of(path), text, "run tools/faults")

    def test_an_exception_has_no_field_and_no_limit_that_its_answer_does_not_have(self):
        exceptions = runpy.run_path(str(common.ROOT / tool.PYTHON))
        for it in ANSWERS:
            if it.exception != "-":
                with self.subTest(it.name):
                    words = exceptions[it.exception].words
                    named = set(re.findall(r"\{(\w+)\}", words))
                    has = [set(), {"at", "vertex", "array"}, {"at", "vertex", "to"}][it.fields()]
                    self.assertLessEqual(named, has)
                    self.assertEqual("array" in named, "PGBOARD_ARRAY_" in it.says)
                    # (a field may take the place of a limit)
                    limits, of_answer = (set(re.findall(r"\d\d+", text)) for text in (words, it.text))
                    self.assertIn(limits, [of_answer, set()] if it.fields() else [of_answer])

    def test_a_row_has_the_name_and_the_fields_of_its_fault(self):
        for it in ANSWERS:
            with self.subTest(it.name):
                kind, name, fields = re.fullmatch(r"(\w+)::(\w+)(.*)|-", it.fault).groups("")
                count = len(re.findall(r": \w+", fields)) + ("Structure" in fields)
                named = name_of(tool.KINDS[kind], name) if kind else "OK"
                self.assertEqual((named, count), (it.name, it.fields()))

    def test_the_definitions_have_the_other_numbers_of_the_header(self):
        found = re.findall(r"(?m)^#define PGBOARD_(\w+) (\d+)u", common.text_of(tool.HEADER))
        wanted = [*((it.name, it.number) for it in ANSWERS), *defined_others(), *OTHERS.items()]
        self.assertEqual(sorted((name, int(number)) for name, number in found), sorted(wanted))
        # the tests in C see each of them come from the library
        seen = common.text_of("tests/library/embed/test.c") + common.text_of("tests/library/embed/board.c")
        self.assertEqual([name for name, _ in found if not re.search(rf"\bPGBOARD_{name}\b", seen)], [])


if __name__ == "__main__":
    common.main()
