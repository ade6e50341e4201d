#!/usr/bin/env python3
"""Tests what repeats the program's help."""

import os
import pathlib
import re
import sys
import unittest

sys.path.append(str(pathlib.Path(__file__).resolve().parents[1] / "lib"))
import common

# how a shell runs a script, and its completions
SHELLS = {
    "bash": (["bash"], "pgboard.bash"),
    "zsh": (["zsh", "-f"], "_pgboard"),
    "fish": (["fish", "--no-config"], "pgboard.fish"),
}


FLAGS = r"(?m)^ +(?:-\w(?: [A-Z]+)?, )?(--[a-z-]+)"


def offers(script):
    """What is offered after some words: what the script's help lists, else files."""
    help_of = lambda *words: common.run([script, *words, "-h"])[1].decode()
    commands = set(re.findall(r"(?m)^  ([a-z]+) ", help_of()))
    yield "", commands
    yield "help ", commands
    yield "--unproved --strict ", commands
    yield "--unproved trace --", set(re.findall(FLAGS, help_of("trace")))
    # (each start of Python takes long)
    for name in ["", "solve", "trace", "verify", "tidy", "random"]:
        said = help_of(*name.split())
        yield f"{name} --".strip(), set(re.findall(FLAGS, said))
        for flag, value, low, high in re.findall(r"(?m)^ +(--[a-z]+) <(\w+)> (?:.*?(\d+) to (\d+))?", said):
            numbers = {str(it) for it in range(int(low), int(high) + 1)} if low else {"game.pg"}
            yield f"{name} {flag} ", numbers
        if name:
            yield f"{name} ", {"game.pg"}


class Help(unittest.TestCase):
    MAKER = common.load(common.ROOT / "tools/help")

    def test_the_man_pages_are_as_they_are_made(self):
        pages = {"man/pgboard.1": self.MAKER.made(common.PROGRAM), "man/pgboard.3": self.MAKER.made_of_header()}
        pages["help.txt"] = self.MAKER.more(self.MAKER.helps_of(common.PROGRAM))
        for name, made in pages.items():
            self.assertEqual(common.text_of(f"packaging/{name}"), made, "run tools/help PROGRAM")
        # (a line that begins with a dot or a quote would be taken for a command)
        self.assertEqual(self.MAKER.plain("./pgboard\n'quoted"), "\\&./pgboard\n\\&'quoted")

    def test_the_man_page_of_the_calls_has_all_that_the_header_declares(self):
        header, page = common.text_of("include/pgboard.h"), common.text_of("packaging/man/pgboard.3")
        named = re.findall(r"(?m)^(?!\s|[#/]).*?\b(pgboard_\w+)\(", header)
        self.assertEqual(re.findall(r"\bpgboard_\w+", page.split(".SH LIBRARY")[0]), named)
        self.assertEqual(re.findall(r"\bpgboard_\w+(?=\()", page.split(".SH DESC")[0]), named)
        entries = re.findall(r"(?m)^\.TP\n\.B (.*)$", page)
        listed = {name for it in entries for name in re.findall(r"\b(?:struct )?pgboard_\w+|\bPGBOARD_\w+\b", it)}
        macros = {*re.findall(r"(?m)^ *#define (PGBOARD_\w+)", header)} - {"PGBOARD_H", "PGBOARD_CALL", "PGBOARD_INLINE"}
        self.assertEqual(listed, {*named, *macros, *re.findall(r"(?m)^(struct \w+) \{", header)})
        self.assertLessEqual({*named}, {*re.findall(r"`(pgboard_\w+)`", common.text_of("docs/C.md"))})

    def test_the_man_page_has_each_flag(self):
        page = common.text_of("packaging/man/pgboard.1").replace("\\-", "-").split(".SH OPTIONS\n")[1]
        flags = {it for _, offered in offers(self.script) for it in offered if it.startswith("--")}
        for word in self.MAKER.of_python(self.MAKER.helps_of(common.PROGRAM))[0]:
            flags |= {f"--{name}" for name, *_ in word.flags}
        self.assertEqual(flags, {*re.findall(r"(?m)^\.B\w? (?:-\w, )?(--[a-z-]+)", page.split(".SH ")[0])})

    def setUp(self):
        self.folder, home = common.make_folder(self), common.make_folder(self)
        (self.folder / "game.pg").touch()
        self.script = common.make_clone(home)
        self.env = {"HOME": str(home), "PATH": f"{home}:{os.environ['PATH']}"}

    def check_offers(self, typed, wanted):
        for shell in common.installed(*SHELLS):
            with self.subTest(shell, typed=typed):
                call, name = SHELLS[shell]
                paths = f"tests/package/completions/offers.{shell}", f"packaging/completions/{name}"
                words = [*call, *map(common.ROOT.joinpath, paths), "pgboard", *typed.split(" ")]
                status, out, err = common.run(words, cwd=self.folder, env=self.env)
                said = {line.partition("\t")[0] for line in out.decode().split("\n")}
                self.assertEqual((status, err, said - {""}), (0, b"", wanted))

    def test_each_shell_offers_what_the_help_lists(self):
        for typed, wanted in offers(self.script):
            self.check_offers(typed, wanted)

    def test_the_word_before_is_no_script_and_no_pattern(self):
        for word in ("--x/y/;e\ttouch\tmade\ns/z", "--worker.", "--w[a-z]*"):
            self.check_offers(f"solve {word} ", {"game.pg"})

    def test_the_help_of_each_word_is_that_of_all(self):
        run = lambda *words: common.run([self.script, *words])
        whole, commands = run("--help"), dict(offers(self.script))[""] - {"help"}
        self.assertEqual((whole, whole[1][: len(common.program("--help")[1])]), (run("help"), common.program("--help")[1]))
        _, *parts = re.split(r"(?m)^= (\w+)\n", common.text_of("packaging/help.txt"))
        added = dict(zip(parts[::2], parts[1::2]))
        for name in commands:
            said = run("help", name)
            self.assertEqual((said, said[0]), (run(name, "--help"), 0), name)
            self.assertTrue(said[1].decode().endswith(added.get(name, "")), name)
        self.assertEqual((len(commands), run("--strict", "--help")), (12, common.program("--help")))

    def test_zsh_reads_its_file_for_this_command(self):
        self.assertEqual(common.text_of("packaging/completions/_pgboard").splitlines()[0], "#compdef pgboard")


if __name__ == "__main__":
    common.main()
