#!/usr/bin/env python3
"""Plants edits in a small crate, and asks that tests/lib/planted.py says of each what it is."""

import pathlib
import sys
import unittest
import unittest.mock

sys.path.append(str(pathlib.Path(__file__).resolve().parents[1] / "lib"))
import common
import planted

SOURCE = """//! Sums of small numbers.
#![tactic(auto)]

ghost use Rattle.std.specs.Prelude.{◌+◌, ◌≡◌, ◌≤◌};

/// The next number.
pub fn next(n: u32) -> u32
    requires { n ≤ 100 }
    ensures { result ≡ n + 1 }
{
    n + 1
}

/// The number after the next one.
pub fn after(n: u32) -> u32
    requires { n ≤ 50 }
    ensures { result ≡ n + 2 }
{
    next(next(n))
}

/// Twice the number.
pub fn twice(n: u32) -> u32
    requires { n ≤ 100 }
    ensures { result ≡ n + n }
{
    n + n
}

/// Three more.
pub fn third(n: u32) -> u32
    requires { n ≤ 100 }
    ensures { result ≡ n + 3 }
{
    3 + n
}
"""
# what each edit does to a line of the source, and what is said of it
ROWS = {
    "a_next_number_is_two_more": ("    n + 1", "    n + 2", "src/lib.rt:7:1: it is not proved"),
    "a_caller_of_a_wrong_one_means_the_same": ("    next(next(n))", "    next(n + 1)", "NOT REFUSED: "),
    "a_sum_means_the_same": ("    n + n", "    2 * n", "NOT REFUSED: "),
    "three_more_cannot_be_read": ("    3 + n", "    3 + + ;", "BAD EDIT: the prover gives no verdict: "),
    "a_line_becomes_itself": ("    3 + n", "    3 + n", "BAD EDIT: it changes nothing"),
    "a_line_is_not_there": ("    4 + n", "    5 + n", "BAD EDIT: its text occurs 0 times: "),
}


class Counted(planted.Checks):
    """Checks that are counted."""

    made = 0

    def check(self, edits):
        type(self).made += 1
        return super().check(edits)


@common.needs("rt")
class Edits(unittest.TestCase):
    def setUp(self):
        self.top, kept = common.make_folder(self), common.make_folder(self)
        folder = self.top / "crates" / "toy"
        common.write_program(folder / "src" / "lib.rt", SOURCE)
        (self.top / "crates.txt").write_text("toy:\n")
        (self.top / "HANDLES").write_text("Handles allowed: none.\n")
        for name, (old, new, _) in ROWS.items():
            path = folder / "wrong_bodies" / f"{name}.edit"
            common.write_program(path, f"file: src/lib.rt\nold: {old}\nnew: {new}\n")
        self.enterContext(unittest.mock.patch.object(planted, "KEPT", kept))

    def test_each_is_judged_by_itself(self):
        found = planted.run(self.top, "toy", Counted)
        for name, (_, _, said) in ROWS.items():
            with self.subTest(name):
                self.assertIn(said, str(found[f"{name}.edit"]))
                is_refused = said.startswith("src/")
                self.assertEqual(isinstance(found[f"{name}.edit"], planted.Unrefused), not is_refused)
        # what was refused is not tried again, until a source changes
        for change, more in (("", 0), ("\n", 1)):
            common.write_program(self.top / "crates" / "toy" / "src" / "lib.rt", SOURCE + change)
            made = Counted.made
            for name in ROWS if not change else ():
                if not ROWS[name][2].startswith("src/"):
                    (self.top / "crates" / "toy" / "wrong_bodies" / f"{name}.edit").unlink()
            again = planted.run(self.top, "toy", Counted)
            self.assertEqual([*again], ["a_next_number_is_two_more.edit"])
            self.assertEqual(Counted.made - made, more)


if __name__ == "__main__":
    common.main()
