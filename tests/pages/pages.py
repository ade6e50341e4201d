#!/usr/bin/env python3
"""Compares the pages with the program and the sources."""

import os
import pathlib
import re
import shlex
import shutil
import sys
import unittest

sys.path.append(str(pathlib.Path(__file__).resolve().parents[1] / "lib"))
import common
import cli
import plain

BLOCK = re.compile(r"(?ms)^```(\w*)\n(.*?)^```$")
# lines of commands, and what they print
PAIR = re.compile(r"(?m)((?:^(?!# ).*\n)+)((?:^# .*\n)+)")
# the page that has whole C programs
C_PAGE = "docs/C.md"
LINK = re.compile(r"\[[^\]]*\]\(([^)\s]+)\)")


def pages(*patterns):
    every = {it.relative_to(common.ROOT) for pattern in patterns for it in common.ROOT.glob(pattern)}
    return [str(it) for it in sorted(every) if not {".git", "out"} & set(it.parts)]


def prose(text):
    return BLOCK.sub("", text)


# --- examples and links ---


def examples(text):
    """The commands that a page shows with what they print, each with the heading above.

    In a block `sh` these are lines of commands before lines that begin with `# `, or the whole block before a
    block `text`.
    """
    blocks = list(BLOCK.finditer(text))
    for block, after in zip(blocks, [*blocks[1:], None]):
        head = (["", *re.findall(r"(?m)^#+ +(.*)$", BLOCK.sub("", text[: block.start()]))])[-1]
        pairs = PAIR.findall(block[2])
        if block[1] == "sh" and pairs:
            yield from ((head, commands, re.sub(r"(?m)^# ", "", printed)) for commands, printed in pairs)
        elif block[1] == "sh" and after and after[1] == "text":
            if not re.search(r"(?m)^#", text[block.end() : after.start()]):
                yield head, block[2], after[2]


def c_programs(text, language="c"):
    programs = re.findall(rf"(?ms)^```{language}\n(.*?)^```$.*?^```text\n(.*?)^```$", text)
    return programs, next(it[2] for it in BLOCK.finditer(text) if it[1] == "sh" and f" embed.{language} " in it[2])


def anchors(text):
    heads = re.findall(r"(?m)^#+ +(.*)$", prose(text))
    return {re.sub(r"[^\w\- ]", "", it.lower()).replace(" ", "-") for it in heads}


def links(folder):
    """Each link of the pages of a folder that leads to no other site, with its page, and whether it leads somewhere."""
    for page in sorted(it for it in folder.glob("**/*.md") if not {".git", "out"} & {*it.relative_to(folder).parts}):
        for link in LINK.findall(prose(page.read_text())):
            path, _, anchor = link.partition("#")
            to = page.parent / path if path else page
            if not re.match(r"[a-z]+:", link):
                is_there = to.exists() and to.resolve().is_relative_to(folder.resolve())
                at = not anchor or to.suffix != ".md"
                yield f"{page.relative_to(folder)}: {link}", is_there and (at or anchor in anchors(to.read_text()))


def ran(case, commands):
    """Runs commands by bash in a folder like the top: output and error in one text, and the last status.

    They need nothing of the commands before them on the page, not even a variable, and leave no file behind.
    """
    folder, others = common.make_folder(case), common.make_folder(case)
    common.make_clone(folder)
    shutil.copytree(common.ROOT / "examples", folder / "examples", ignore=shutil.ignore_patterns("__pycache__"))
    env = {**os.environ, "PGBOARD": shlex.quote(str(common.PROGRAM)), "TMPDIR": str(others)}
    env["PYTHONDONTWRITEBYTECODE"] = "1"
    before = sorted(folder.rglob("*"))
    status, out, _ = common.run(["bash", "-uc", f"exec 2>&1\n{commands}"], timeout=300, cwd=folder, env=env)
    case.assertEqual(sorted(folder.rglob("*")), before, commands)
    case.assertEqual(list(others.iterdir()), [], commands)
    return out.decode("utf-8", "backslashreplace"), status


class Examples(unittest.TestCase):
    def test_each_example_prints_what_the_page_shows(self):
        for page in pages("README.md", "examples/README.md", "docs/*.md"):
            for head, commands, wanted in examples(common.text_of(page)):
                with self.subTest(page, head=head):
                    if common.is_checked() and head.strip("`") in NEED_SPEED:
                        self.skipTest("the program has run-time checks")
                    self.assertEqual(ran(self, commands)[0], wanted, commands)

    def test_each_link_leads_somewhere(self):
        for link, leads in links(common.ROOT):
            with self.subTest(link):
                self.assertTrue(leads)

    def test_each_link_of_a_package_leads_somewhere(self):
        """In a folder with the pages that ./package copies; package.py shows that it has them."""
        script, folder = common.load(common.ROOT / "package"), common.make_folder(self)
        for path in (it for pattern in script.PAGES for it in common.ROOT.glob(pattern)):
            script.copy(path, folder / path.relative_to(common.ROOT))
        every = dict(links(folder))
        self.assertGreater(len(every), 200)
        self.assertEqual([it for it, leads in every.items() if not leads], [])


# --- faults ---

PLACES = ["no token", "not expected", "number too large"]
FAULTS = [
    *(f"game: byte AT: {it}" for it in (*PLACES, "owner is not 0 or 1")),
    *(f"game: {it}" for it in ("too many vertices", "too many edges")),
    *(f"game: vertex V: {it}" for it in ("specified twice", "successor W is not specified")),
    *(f"solution: byte AT: {it}" for it in (*PLACES, "winner is not 0 or 1")),
    *(f"solution: vertex V: {it}" for it in ("not in the game", "written twice", "not written")),
    *(f"known: {it}" for it in ("bad choice or none at V", "bad cycle at V", "V is lost", "V leaves to W")),
    *("text too long", "read fault", "write fault", "no memory"),
    *(f"not a solution: {it} at V" for it in ("no choice", "bad choice", "bad cycle")),
    "not a solution: V leaves to W",
]
REFUSED_WORDS = "A refused command line (status 2)"
# those whose examples take minutes, or more memory than they allow, in a program with run-time checks
NEED_SPEED = ["game: too many vertices", "game: too many edges", "text too long", "no memory"]


def expected_of(path, name):
    """The status that a test expects, and its lines: a file of tests/program/cli, or a row of a table of cli.py."""
    if path == "cli.py":
        status, out, err = {**cli.DEVICES, **cli.LIMITS}[name][-1]
        return status, (out or b"").decode() + err.decode()
    case = cli.Case(path.removeprefix("cli/"))
    return case.status, (case.one("stdout") + case.one("stderr")).decode()


class Faults(unittest.TestCase):
    """The heading of a part of docs/FAULTS.md says the status that its examples have, as (status 3).

    A heading below it has one or more lines of faults. After 'Test:' are tests that have to expect this status and
    one of these lines; each line has an example and a test.
    """

    def test_each_fault_has_an_example_and_a_test(self):
        found = []
        for part in re.split(r"(?m)^(?=## )", common.text_of("docs/FAULTS.md")):
            status = re.search(r"\(status ([0-9])\)", part.split("\n")[0])
            for under in re.split(r"(?m)^(?=##+ )", part):
                head = under.split("\n")[0].strip("# ")
                lines = re.findall("`([^`]+)`", head) if under.startswith("### ") else []
                found += lines
                if lines and not (common.is_checked() and lines[0] in NEED_SPEED) or head == REFUSED_WORDS:
                    with self.subTest(head):
                        self.judge(lines, under, int(status[1]))
        self.assertEqual(sorted(found), sorted(FAULTS))

    def judge(self, lines, under, status):
        # (the script names a file that cannot be read, and the system's cause, before the program's line)
        cause = re.compile(r"\Apgboard: \S+: [A-Z].*\n(?=pgboard: read fault\n)")
        runs = [ran(self, commands) for _, commands, _ in examples(under)]
        runs = [(cause.sub("", out), ended) for out, ended in runs]
        self.assertTrue(runs)
        (named,) = re.findall(r"(?m)(?<= )Test: (`.*`)\.$", under)
        tests = [expected_of(*it) for it in re.findall(r"`([\w./]+)`(?: `(\w+)`)?", named)]
        self.assertEqual({tested for tested, _ in tests}, {status})
        kinds = []
        for line in lines:
            line = re.escape(line if line.startswith("not a solution") else f"pgboard: {line}")
            kinds.append(re.compile(re.sub(r"\b(AT|V|W)\b", "[0-9]+", line) + r"\n"))
            self.assertTrue(any(kinds[-1].fullmatch(out) for out, _ in runs), line)
            self.assertTrue(any(kinds[-1].search(said) for _, said in tests), line)
        for out, ended in runs if kinds else []:
            self.assertTrue(ended == status and any(it.fullmatch(out) for it in kinds), out)


# --- help ---

# (tools/help makes the man page, and tests/package/help.py compares it)
PAGE, MAN = "docs/CLI.md", "packaging/man/pgboard.1"
# of the script ./pgboard
OF_SCRIPT = {"--strict", "--unproved", "--checked", "--rebuild", "--library", "--install"}
FLAG = r"(?<![\w-])--[a-z][a-z-]*"


def help_of(*words):
    return common.program(*words)[1].decode()


def flags_of(text):
    listed = re.findall(r"(?m)^ +(?:-\w, )?--([a-z][a-z-]*)(?: <(\w+)>)?", text)
    return [f"--{flag} {value}".strip() for flag, value in listed if flag not in ("help", "version")]


def statuses_of(text):
    return re.findall(r"(?m)^ *([0-9]) {2,}(\S.*?) *$", text[text.find("Exit status") :])


def line_of(command, text):
    files = re.findall(r"<[A-Z]+>|\[[A-Z]+\]", re.search(r"(?m)^Usage: pgboard(.*)$", text)[1])
    files = [it.strip("<>") for it in files if it not in ("[OPTIONS]", "[COMMAND]")]
    return " ".join(filter(None, ["pgboard", command, *(f"[{it}]" for it in flags_of(text)), *files]))


def synopsis():
    # (the first block of the page)
    lines = re.sub(r"\n {2,}\b", "  ", BLOCK.search(common.text_of(PAGE))[2]).splitlines()
    return {re.split(r" {2,}", line)[0] for line in lines}


def said_by(page):
    # flags of scripts, of the tests, of ./pgboard and of Python's part are none of the program's
    others = r"\.py\b|bindings/python/|bench/|tests/|\brt\b|\bsed\b|\bcurl\b|\bgit\b"
    words = re.findall(r"(?m)^  ([a-z]+) ", common.text_of("packaging/help.txt").split("= commands")[1])
    others += rf"|pgboard (?:{'|'.join(words)})\b"
    text = re.sub(r"(?ms)^## What Python reads\n.*?(?=^## )", "", common.text_of(page))
    text = "\n".join(it for it in text.splitlines() if not re.search(others, it))
    commands = re.findall(r"(?m)(?<!-)\bpgboard (?!\d)([a-z]+)\b(?= [\[A-Z<.`]|`|$)", text)
    statuses = re.findall(r"(?m)^\| ([0-9]) \| (.*) \|$", text)
    return set(commands), set(re.findall(FLAG, text)) - OF_SCRIPT, statuses


class HelpAgrees(unittest.TestCase):
    @classmethod
    def setUpClass(cls):
        listed = re.search(r"(?ms)^Commands:\n(.*?)\n\n", help_of("--help"))[1]
        cls.commands = set(re.findall(r"(?m)^ {2}([a-z]+)\b", listed)) - {"help"}
        cls.helps = {name: help_of(*name.split(), "--help") for name in ["", *sorted(cls.commands)]}
        cls.flags = set(re.findall(FLAG, "".join(cls.helps.values())))
        cls.statuses = statuses_of(cls.helps[""])

    def test_the_numbers_of_the_flags_and_of_a_trace(self):
        of_page = r"(?m)^\| `(--\w+ N)` \| (\d+) to (\d+) \| (\d+) \|"
        table = re.findall(of_page, common.text_of("docs/CLI.md"))
        self.assertEqual([flag for flag, *_ in table], ["--workers N", "--bound N"])
        for name in self.helps:
            with self.subTest(name):
                short = help_of(*name.split(), "-h")
                said = re.findall(r"(?m)^ +(--\w+) <N> .*?(\d+) to (\d+)\b.* \[default: (\d+)\]$", short)
                wanted = [it for it in table if it[0] in flags_of(short)]
                self.assertEqual([(f"{flag} N", *numbers) for flag, *numbers in said], wanted)
        text = self.helps["trace"] + common.text_of("docs/TRACE.md")
        self.assertEqual(re.findall(r"dominions? \w+ at most (\d+) vertices", text), ["4", "4"])

    def test_the_page_of_the_command_line(self):
        self.assertEqual(synopsis(), {line_of(name, text) for name, text in self.helps.items()})
        self.assertEqual(said_by(PAGE), (self.commands, self.flags, self.statuses))
        commands, flags, _ = said_by("README.md")
        self.assertEqual(commands, self.commands)
        self.assertLessEqual(flags, self.flags | {*re.findall(FLAG, common.text_of("packaging/help.txt"))})

    def test_the_lines_of_a_trace(self):
        table = re.findall(r"(?m)^\| `((?:[a-z]+|ID) [A-Z][A-Z ]*;?)` \|", common.text_of("docs/TRACE.md"))
        self.assertEqual(len(table), 6)
        part = common.text_of(MAN).partition('.SH "TRACE FORMAT"')[2].partition(".SH ")[0]
        lines = re.findall(r"(?m)^\.TP\n\.[BI]{2} (.*)$", part)
        # (a macro of two letters writes its words without blanks between)
        self.assertEqual({"".join(shlex.split(it)) for it in lines}, {*table})

    def test_the_version(self):
        ((printed, kit),) = re.findall(r"^pgboard (\S+)\nkit: (.*)\n", help_of("--version"))
        for path, said in (
            ("CHANGELOG.md", r"^## ([0-9][0-9.]*)"),
            (MAN, r'"pgboard ([0-9.]+)"'),
            ("CITATION.cff", r"^version: (.*)$"),
            ("bindings/python/pgboard/version.py", r'^__version__ = "(.*)"$'),
            ("bindings/rust/Cargo.toml", r'^version = "(.*)"$'),
        ):
            self.assertEqual(re.findall(f"(?m){said}", common.text_of(path))[:1], [printed], path)
        header = common.text_of("include/pgboard.h")
        of_header = re.findall(r"(?m)^#define PGBOARD_VERSION_(?:MAJOR|MINOR|PATCH) (\d+)$", header)
        self.assertEqual(".".join(of_header), printed)
        self.assertEqual(kit, common.kit())
        self.assertEqual([kit], re.findall(r"the kit's line `([^`]*)`", common.text_of("docs/INSTALL.md")))


# --- code on the pages of crates ---


def lines_of(text):
    return [it.strip() for it in text.splitlines() if it.strip()]


def is_in(code, file):
    lines, there = lines_of(code), "\n".join(["", *lines_of(file), ""])
    uses = [it for it in lines if re.match(r"(?:ghost )?use ", it)]
    wanted = [it for it in lines if it not in uses]
    return all(f"\n{it}\n" in there for it in uses) and bool(wanted) and "\n".join(["", *wanted, ""]) in there


def tests_of(crate):
    return [common.text_of(it) for it in sorted(common.ROOT.glob(f"crates/{crate}_tests/src/**/*.rt"))]


def is_run(page, code):
    whole = [text for _, *texts in examples(common.text_of(page)) for text in texts]
    return code in whole or not PAIR.sub("", code)


def is_tested(page, block):
    language, code = block.groups()
    if language == "rust":
        return any(is_in(code, it) for it in tests_of((common.ROOT / page).parent.name))
    if language == "c":
        return any(is_in(code, program) for program, _ in c_programs(common.text_of(C_PAGE))[0])
    if page != "README.md":
        return False
    # (launcher.py runs the blocks `console`)
    return language == "console" or language in ("sh", "text") and is_run(page, code)


class Code(unittest.TestCase):
    def test_each_block_is_tested(self):
        for page in pages("README.md", "crates/*/README.md"):
            text = common.text_of(page)
            blocks = list(BLOCK.finditer(text))
            with self.subTest(page):
                # a fence that is indented, of another kind or left open would hide what comes after it
                self.assertEqual(len(re.findall(r"(?m)^ *(?:```|~~~)", text)), 2 * len(blocks))
            for at, block in enumerate(blocks, 1):
                with self.subTest(page, block=at):
                    self.assertTrue(is_tested(page, block))


class Refusals(unittest.TestCase):
    def test_each_test_of_the_table_is_there(self):
        named = {*re.findall(r"`(pg\w+)::(\w+)`", common.text_of("tests/README.md"))}
        crates = sorted({crate for crate, _ in named})
        there = {(it, test) for it in crates for test in re.findall(r"#\[test\]\nfn (\w+)", "".join(tests_of(it)))}
        self.assertEqual(named - there, set())
        self.assertEqual({it for it in there if it[1].endswith("_after_a_refusal")} - named, set())


# --- going back, on the page of pg_finders ---

STATES = {"white": "Active", "#d0d0d0": "Set aside", "#bfdbfe": "Odd's", "#fde68a": "Even's"}


def drawn_game(nodes, edges):
    """The game of a part of the picture, and the state of each vertex by its colour."""
    game, states = {}, {}
    for title, texts, looks in nodes:
        id, priority = map(int, texts)
        owner = 0 if title in edges["diamond"] else 1
        game[id] = priority, owner, {int(to[1:]) for it, to in edges["pairs"] if it == title}
        states[id] = STATES[looks[0][0]]
    return game, states


def going_back(game):
    """The table of the page, by the definitions."""
    every, top = {*game}, max(priority for priority, _, _ in game.values())
    player, greatest = top % 2, {id for id in game if game[id][0] == top}
    aside = plain.attracted(game, greatest, player)
    rows = plain.solved(game, every - aside)
    won, lost = ({id for id in rows if rows[id][0] == it} for it in (player, 1 - player))
    owned = lambda his, other: (his, other) if player else (other, his)
    yield "the rest is won", set(), aside, *owned(won, lost)
    taken = plain.attracted(game, lost, 1 - player)
    active = aside - taken
    yield "B", active, set(), *owned(won - taken, taken)
    again = plain.attracted(game, greatest - taken, player, every - taken)
    active, kept = active - again, won - taken
    yield "A'", active, again, *owned(kept, taken)
    rests_on = lambda id: {rows[id][1]} if game[id][1] == player else game[id][2]
    while opened := {id for id in kept if rests_on(id) & (active | taken - lost)}:
        active, kept = active | opened, kept - opened
    yield "what rests on a change", active, again, *owned(kept, taken)
    more = plain.attracted(game, kept, player, active | kept)
    yield "p attracts", active - more, again, *owned(more, taken)


class Pictures(unittest.TestCase):
    def drawing(self, name):
        """What is drawn, which is what its source says, its edges, and the source."""
        source = common.text_of(f"docs/pictures/{name}.dot")
        picture = list(common.drawn(common.text_of(f"docs/pictures/{name}.svg")))
        labels = dict(re.findall(r'(?m)^\s*(\w+) \[(?:shape=note, )?label="([^"]*)"', source))
        chains = (it.split(" -> ") for it in re.findall(r"\b(\w+(?: -> \w+)+)", source))
        self.assertEqual({it: "\\n".join(texts) for kind, it, texts, _ in picture if kind == "node"}, labels)
        pairs = {tuple(it.split("->")) for kind, it, *_ in picture if kind == "edge"}
        self.assertEqual({pair for chain in chains for pair in zip(chain, chain[1:])}, pairs)
        return picture, pairs, source

    def test_the_architecture(self):
        self.assertGreater(len(self.drawing("architecture")[1]), 5)

    def test_going_back_is_drawn_and_told_by_the_definitions(self):
        picture, pairs, source = self.drawing("going_back")
        edges = {"pairs": pairs, "diamond": {*re.findall(r"(?m)^ +(\w+) .*shape=diamond", source)}}
        page = common.text_of("crates/pg_finders/README.md")
        heads, *table = re.findall(r"(?m)^\| (.*) \|$", page[page.index("| After |") :].partition("\n\n")[0])
        heads = heads.split(" | ")
        shown = [[it.strip() for it in row.split("|")] for row in table]
        part = lambda name: [it[1:] for it in picture if it[0] == "node" and it[1][0] == name]
        for name, row in (("b", shown[0]), ("a", shown[-1])):
            game, states = drawn_game(part(name), edges)
            made = [(after, *(" ".join(map(str, sorted(it))) for it in sets)) for after, *sets in going_back(game)]
            self.assertEqual([*map(tuple, shown)], made)
            self.assertEqual({int(id): head for head, ids in zip(heads[1:], row[1:]) for id in ids.split()}, states)


# --- Python ---


def scripts():
    paths = [common.ROOT / it for it in pages("*", "tools/*", "bench/**/*")]
    named = [it for it in paths if it.is_file() and it.read_bytes().startswith(b"#!/usr/bin/env python3\n")]
    return sorted({*pages("**/*.py"), *(str(it.relative_to(common.ROOT)) for it in named)})


def is_excused(complaint):
    """Whether the line says `noqa`, as flake8 reads it: names of a package that others import from it."""
    path, number, _ = complaint.split(":", 2)
    return "# noqa" in common.text_of(path).splitlines()[int(number) - 1]


class Python(unittest.TestCase):
    @common.needs("pyflakes3")
    def test_pyflakes_finds_nothing(self):
        files = scripts()
        self.assertLessEqual({"package", "test", "tests/pages/pages.py", "tools/help"}, {*files})
        _, out, err = common.run(["pyflakes3", *files], cwd=common.ROOT)
        complaints = out.decode().splitlines()
        self.assertEqual(([it for it in complaints if not is_excused(it)], err), ([], b""))


if __name__ == "__main__":
    common.main()
