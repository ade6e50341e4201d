#!/usr/bin/env python3
"""Tests the crate of bindings/rust over the static library. With --write it makes src/ffi.rs of the header instead."""

import os
import pathlib
import random
import re
import shutil
import sys
import unittest

sys.path.append(str(pathlib.Path(__file__).resolve().parents[1] / "lib"))
import common
import embed
import plain
import random_games

CRATE = common.ROOT / "bindings/rust"
DECLARATIONS = CRATE / "src/ffi.rs"
BINDGEN = ["bindgen", "--allowlist-function=pgboard_.*", "--allowlist-var=PGBOARD_NO_(CHOICE|WINNER)"]
BINDGEN += ["--no-layout-tests", "--no-doc-comments", "--size_t-is-usize", common.ROOT / "include/pgboard.h"]
GAME = common.ROOT / "examples/both_win.pg"
SOLVED = common.text_of("examples/both_win.sol")
NOT_FOUND = r"(?s)pgboard: the C library was not found.* \./pgboard --unproved --library\n.* PKG_CONFIG_PATH .* PGBOARD_LIB_DIR "
LEAKS = "--leak-check=full --show-leak-kinds=definite,indirect --errors-for-leak-kinds=definite,indirect"
GAMES = 50


def tokens(text):
    """What a compiler sees of declarations, however they are laid out."""
    return re.sub(r"/\*.*?\*/|\s+|,(?=\s*\))", "", text)


@common.needs("cargo", "cc")
class Rust(unittest.TestCase):
    @classmethod
    def setUpClass(cls):
        cls.folder = common.make_folder(cls)
        embed.build_archive(cls.folder)
        cls.library = cls.put_library("library")
        # (a crate elsewhere, that no library is beside)
        cls.crate = cls.put_crate("elsewhere")
        own = {it: value for it, value in os.environ.items() if not re.match("PGBOARD_|PKG_|CARGO_TARGET", it)}
        cls.env = own | dict.fromkeys(("RUSTFLAGS", "RUSTDOCFLAGS"), "-D warnings")
        cls.found = {"PGBOARD_LIB_DIR": str(cls.library)}
        common.write_program(cls.folder / "none/pkg-config", "#!/bin/sh\nexit 1\n")
        cls.no_pkg_config = {"PATH": f"{cls.folder}/none:{os.environ['PATH']}"}

    @classmethod
    def put_library(cls, place):
        """Puts the library in a folder, under its name in a clone."""
        (cls.folder / place).mkdir(parents=True)
        return shutil.copy(embed.ARCHIVES[0], cls.folder / place / "libpgboard_c.a").parent

    @classmethod
    def put_crate(cls, place):
        ignored = shutil.ignore_patterns("target", "Cargo.lock")
        return shutil.copytree(CRATE, cls.folder / place / "bindings/rust", ignore=ignored)

    def cargo(self, *words, cwd=None, **env):
        how = {"timeout": 1200, "cwd": cwd or self.crate, "env": {**self.env, **env}}
        status, out, err = common.run(["cargo", *words], **how)
        return status, out.decode(), err.decode()

    def passed(self, *words, **env):
        """How many tests pass, which have to be all."""
        status, out, err = self.cargo("test", "--offline", *words, **self.found, **env)
        counts = re.findall(r"(?m)^test result: ok\. (\d+) passed; 0 failed; 0 ignored;", out)
        self.assertEqual((status, len(counts)), (0, out.count("test result: ")), out + err)
        return sum(map(int, counts))

    @common.needs("bindgen")
    def test_the_declarations_are_those_that_bindgen_makes_of_the_header(self):
        status, out, err = common.run(BINDGEN)
        self.assertEqual((status, tokens(out.decode())), (0, tokens(DECLARATIONS.read_text())), err)

    def test_the_tests_of_the_crate_pass_and_its_examples_run(self):
        text = "".join(it.read_text() for it in CRATE.glob("tests/*.rs"))
        self.assertEqual(self.passed("--tests"), text.count("#[test]"))
        text = "".join(it.read_text() for it in [CRATE / "README.md", *CRATE.glob("src/*.rs")])
        fences = re.findall(r"(?m)^ *(?://[/!])? *```(\w*)$", text)
        self.assertEqual(self.passed("--doc"), len(fences) // 2 - fences.count("toml"))
        status, _, err = self.cargo("doc", "--offline", **self.found)
        self.assertEqual(status, 0, err)

    @common.needs("valgrind")
    def test_the_crate_under_valgrind(self):
        runner = f"valgrind -q --error-exitcode=9 {LEAKS}"
        # (a test that has its own allocation functions would hide them from valgrind)
        tests = "--test", "games", "--test", "boards"
        self.passed(*tests, CARGO_TARGET_X86_64_UNKNOWN_LINUX_GNU_RUNNER=runner)

    def test_two_threads_that_share_a_board_solve_games(self):
        status, _, err = self.cargo("build", "--offline", "--example", "outside", **self.found)
        self.assertEqual(status, 0, err)
        chance, path, settled = random.Random(108), self.folder / "game.pg", 0
        for _ in range(GAMES):
            game = random_games.random_game(chance)
            path.write_text(plain.written_game(game))
            status, out, err = common.run([self.crate / "target/debug/examples/outside", path])
            self.assertEqual((status, plain.written_fault(game, out)), (0, None), err)
            said = re.fullmatch(rb"outside: posts \d+, settled (\d+) of (\d+)\n", err)
            self.assertEqual(int(said[2]), len(game))
            settled += int(said[1])
        self.assertGreater(settled, GAMES)

    def test_the_crate_is_packaged_without_a_network(self):
        status, _, err = self.cargo("package", "--offline", "--allow-dirty", **self.found)
        self.assertEqual(status, 0, err)
        listed = set(self.cargo("package", "--offline", "--allow-dirty", "--list")[1].split())
        files = {str(it.relative_to(CRATE)) for it in CRATE.rglob("*") if it.is_file()}
        files = {it for it in files if not re.match(r"target/|Cargo\.lock", it)}
        self.assertEqual(files - listed, {"rustfmt.toml"})

    # --- where the library is found ---

    def solves(self, crate, library, kind="static", warned=(), **env):
        """Whether a program is linked with the library of this folder, and what is warned of."""
        archive = pathlib.Path(embed.ARCHIVES[0]).read_bytes()
        if b"pgboard_proved" not in archive:
            warned = [*warned, "unproved: " if b"pgboard_unproved" in archive else "does not say whether"]
        words = "run", "-vv", "--offline", "--example", "outside", GAME
        status, out, err = self.cargo(*words, cwd=crate, **env)
        linked = re.findall(rf"link-search=native=(\S+)\n.*link-lib={kind}=pgboard(?:_c)?\n", out)
        self.assertEqual((status, out.endswith(SOLVED)), (0, True), err)
        self.assertEqual(linked, [str(library)])
        said = {it for it in ("unproved: ", "does not say whether", "sources have changed") if it in err}
        self.assertEqual(said, set(warned))

    def test_the_library_of_a_clone_a_proved_one_first(self):
        crate = self.put_crate("clone")
        unproved = self.put_library("clone/out/unproved")
        # (an empty variable is not set)
        self.solves(crate, unproved, PGBOARD_LIB_DIR="", PGBOARD_DYNAMIC="")
        proved = self.put_library("clone/out/proved")
        (self.folder / "clone/crates.txt").write_text("a: b\npgboard: a\n")
        (self.folder / "clone/crates/pgboard/src").mkdir(parents=True)
        self.solves(self.put_crate("clone/again"), proved)
        (self.folder / "clone/crates/a/src").mkdir(parents=True)
        self.solves(self.put_crate("clone/stale"), proved, warned=["sources have changed"])
        self.solves(self.put_crate("clone/named"), self.library, **self.found)

    def test_the_library_of_a_package(self):
        crate, lib = self.put_crate("prefix/share"), self.folder / "prefix/lib"
        lib.mkdir()
        shutil.copy(embed.ARCHIVES[0], lib / "libpgboard.a")
        self.solves(crate, lib, **self.no_pkg_config)
        common.load(common.ROOT / "package").fill(
            common.ROOT / "packaging/pgboard.pc", lib / "pkgconfig/pgboard.pc", version="0.1.0", up=".."
        )
        by_name = {"PKG_CONFIG_PATH": f"{lib}/pkgconfig"}
        self.solves(self.put_crate("by_name"), f"{lib}/pkgconfig/..", **by_name)
        embed.build_shared(self.folder).rename(lib / "libpgboard.so")
        shared = {"PGBOARD_DYNAMIC": "1", "LD_LIBRARY_PATH": str(lib)}
        self.solves(self.put_crate("shared"), f"{lib}/pkgconfig/..", "dylib", **by_name, **shared)

    def test_without_a_library_one_error_says_what_to_do(self):
        self.put_library("beside/out/unproved")
        rows = {"nowhere": self.no_pkg_config, "beside": {"PGBOARD_LIB_DIR": f"{self.folder}/none"}}
        for place, env in rows.items():
            status, _, err = self.cargo("build", "--offline", cwd=self.put_crate(place), **env)
            self.assertEqual(status, 101)
            self.assertRegex(err, NOT_FOUND)
        # (a folder is that of the user, not of the crate)
        words = "build", "--offline", "--manifest-path", self.put_crate("named") / "Cargo.toml"
        err = self.cargo(*words, cwd=self.folder, PGBOARD_LIB_DIR="none")[2]
        self.assertRegex(err, rf"(?s)PGBOARD_LIB_DIR: there is no library in {self.folder}/none\n.*{NOT_FOUND[4:]}")


def write():
    status, out, err = common.run(BINDGEN)
    assert status == 0, err
    DECLARATIONS.write_bytes(out)


if __name__ == "__main__":
    write() if sys.argv[1:] == ["--write"] else common.main()
