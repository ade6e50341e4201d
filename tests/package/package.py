#!/usr/bin/env python3
"""Shows that ./package makes what a machine without the kit can use."""

import errno
import gzip
import itertools
import os
import pathlib
import re
import shutil
import subprocess
import sys
import tarfile
import unittest
import unittest.mock
import zipfile

sys.path.append(str(pathlib.Path(__file__).resolve().parents[1] / "lib"))
import build_library
import common
import pages
from common import GAME, SOLUTION

HEADER = common.text_of("include/pgboard.h")
EXPORTS = set(re.findall(r"(?m)^(?!static)\w[^;{}()#]*\b(pgboard_\w+)\([^;{]*\);", HEADER))
WHO = ["-c", "user.name=tests", "-c", "user.email=tests@localhost"]
PRODUCT = re.findall(r"(?m)^(\w+).*:", common.text_of("crates.txt").split("\n\n")[0])
PROGRAM_CRATE = "crates/pgboard_program"
LIBRARIES = "usr/lib/x86_64-linux-gnu"
package = common.load(common.ROOT / "package")
ABI = package.ABI
SONAME = f"libpgboard.so.{ABI}"
# where the completions are, in the folder and below /usr
COMPLETIONS = {
    "pgboard.bash": ["share/bash-completion/completions/pgboard"] * 2,
    "_pgboard": ["share/zsh/site-functions/_pgboard", "share/zsh/vendor-completions/_pgboard"],
    "pgboard.fish": ["share/fish/vendor_completions.d/pgboard.fish"] * 2,
}
CMAKE = common.text_of("tests/package/CMakeLists.txt")
# what projects ask of CMake: versions and ranges, of which a file of CMake's own says whether 0.1.0 meets them
VERSIONS = "0.0 0.1 0.1.0 0.1.1 0.1.99 0.2 0.2.1 0.3 1 1.0".split()
RANGES = [f"{first}...{mark}{last}" for first, last in itertools.product(VERSIONS, VERSIONS) for mark in ("", "<")]
REFERENCE = """include(CMakePackageConfigHelpers)
write_basic_package_version_file(referenceConfigVersion.cmake VERSION 0.1.0 COMPATIBILITY SameMinorVersion ARCH_INDEPENDENT)
file(WRITE referenceConfig.cmake "")
"""
# what each package for Debian needs
NEEDS = {
    "pgboard": {"libc6"},
    f"libpgboard{ABI}": {"libc6"},
    "libpgboard-dev": {"libc6-dev", f"libpgboard{ABI}"},
    "python3-pgboard": {"python3", f"libpgboard{ABI}"},
}


def done(*words, **how):
    pipes = {"stdin": subprocess.DEVNULL, "stdout": subprocess.PIPE, "stderr": subprocess.STDOUT, "text": True}
    ran = subprocess.run(words, timeout=3000, check=False, **pipes, **how)
    if ran.returncode:
        raise AssertionError(f"{words}: status {ran.returncode}\n{ran.stdout}")
    return ran.stdout


class Checkout:
    def __init__(self, top, git):
        self.top, self.env = top, {**os.environ, "GIT_DIR": str(git), "GIT_WORK_TREE": str(top)}
        self.git("init", "--quiet")

    def git(self, *words):
        return done("git", *WHO, *words, cwd=self.top, env=self.env)

    def commit(self):
        self.git("add", "--all")
        self.git("commit", "--quiet", "--message", "the tree as it is")

    def unpack(self, folder):
        folder.mkdir(parents=True)
        self.git("archive", "--output", f"{folder}.tar", "HEAD")
        done("tar", "-xf", f"{folder}.tar", "-C", folder)

    def package(self, folder, proved=common.PROVED, **env):
        words = [self.top / "package", "--proved", proved, folder]
        status, out, err = common.run(words, timeout=7200, env={**self.env, **env})
        return status, (out + err).decode()


def names_in(file, *flags):
    lines = done("nm", "--defined-only", "--format=posix", *flags, file).splitlines()
    return {line.split()[0] for line in lines if re.search(r" [A-Z] ", line)}


def files_in(top):
    return [it for it in sorted(top.rglob("*")) if it.is_file() and not it.is_symlink()]


def contents(path):
    return gzip.decompress(path.read_bytes()) if path.suffix == ".gz" else path.read_bytes()


@common.needs("cmake")
class CMake(unittest.TestCase):
    """What CMake is told of a library, whose files are empty here."""

    def setUp(self):
        self.folder = common.make_folder(self)
        for path in (common.ROOT / "packaging").glob("*.cmake"):
            package.fill(path, self.folder / "lib/cmake/pgboard" / path.name, version="0.1.0", up="..")
        (self.folder / "lib/libpgboard.so").touch()
        (self.folder / "lib/libpgboard.a").touch()

    def configured(self, *lines):
        """What CMake says of a project with these lines."""
        (self.folder / "CMakeLists.txt").write_text("\n".join(["project(asking NONE)", *lines]))
        words = ["-S", self.folder, "-B", self.folder / "made", f"-DCMAKE_PREFIX_PATH={self.folder}"]
        return common.run(["cmake", "-Wno-dev", *words])

    def found(self, name, asked):
        """Whether a package is found by what is asked of it."""
        rows = enumerate(asked)
        forget = f"unset({name}_DIR CACHE)\nunset({name}_FOUND)\n"
        lines = (f"{forget}find_package({name} {it} QUIET)\nmessage(STATUS {at}=${{{name}_FOUND}}=)" for at, it in rows)
        said = self.configured(*lines)[1].decode()
        # (a range that is empty has no answer)
        return {asked[int(at)]: it == "1" for at, it in re.findall(r"(?m)^-- (\d+)=(\d)=$", said)}

    def test_versions_and_ranges_are_met_as_by_a_file_of_cmake(self):
        (self.folder / "reference.cmake").write_text(REFERENCE)
        (self.folder / "lib/cmake/reference").mkdir()
        done("cmake", "-P", self.folder / "reference.cmake", cwd=self.folder / "lib/cmake/reference")
        asked = ["", *VERSIONS, *(f"{it} EXACT" for it in VERSIONS), *RANGES]
        found = self.found("pgboard", asked)
        self.assertEqual(found, self.found("reference", asked))
        self.assertEqual((len(found), sum(found.values())), (121, 18))
        # (the file of CMake refuses 0, which here is any version below 1)
        self.assertEqual(self.found("pgboard", ["0"]), {"0": True})

    def test_a_component_that_is_asked_for_is_not_there(self):
        asked = ["COMPONENTS other", "0.1 REQUIRED COMPONENTS other", "OPTIONAL_COMPONENTS other"]
        self.assertEqual(list(self.found("pgboard", asked[:1] + asked[2:]).values()), [False, True])
        status, _, err = self.configured(f"find_package(pgboard {asked[1]})")
        self.assertNotEqual(status, 0)
        self.assertIn(b"pgboard has no component other", err)

    def test_a_target_has_its_file(self):
        rows = "if(TARGET pgboard::{0})\nmessage(STATUS ={0}=)\nendif()".format
        lines = ["find_package(pgboard REQUIRED)", rows("pgboard"), rows("pgboard_static")]
        self.assertEqual(re.findall(rb"=(\w+)=", self.configured(*lines)[1]), [b"pgboard", b"pgboard_static"])
        (self.folder / "lib/libpgboard.a").unlink()
        self.assertEqual(re.findall(rb"=(\w+)=", self.configured(*lines)[1]), [b"pgboard"])


class Replaced(unittest.TestCase):
    def test_what_was_there_stays_until_all_is_written(self):
        folder, rename = common.make_folder(self), pathlib.Path.rename
        dist, made = folder / "dist", folder / "made"
        (dist / "old").mkdir(parents=True)
        (made / "of this run").mkdir(parents=True)

        def full(*_, **__):
            raise OSError(errno.ENOSPC, os.strerror(errno.ENOSPC))

        def fails_once(path, to):
            return full() if path.name == "new" else rename(path, to)

        for place, name, fault in ((shutil, "copytree", full), (pathlib.Path, "rename", fails_once)):
            with self.subTest(name), unittest.mock.patch.object(place, name, fault):
                with self.assertRaisesRegex(SystemExit, "dist is not written: .*No space left"):
                    package.replace(dist, made, common.make_folder(self))
            self.assertEqual(os.listdir(dist), ["old"])
        package.replace(dist, made, common.make_folder(self))
        self.assertEqual(os.listdir(dist), ["of this run"])


@common.needs("cc", "pkg-config", "dpkg-buildpackage", "dh")
class Packaged(unittest.TestCase):
    @classmethod
    def setUpClass(cls):
        cls.folder = common.make_folder(cls)
        build_library.take_as_built(common.PROVED, "pgboard_program")
        cls.tree = Checkout(common.ROOT, cls.folder / "git")
        cls.tree.commit()
        # what git does not have is in no package
        (cls.folder / "git/info/exclude").write_text("stray.py\n")
        stray = common.ROOT / "bindings/python/pgboard/stray.py"
        stray.touch()
        cls.addClassCleanup(stray.unlink)
        cls.commit = cls.tree.git("rev-parse", "HEAD").strip()
        cls.dist = cls.folder / "dist"
        status, said = cls.tree.package(cls.dist)
        assert status == 0, said
        (archive,) = cls.dist.glob("*-linux-*.tar.gz")
        (cls.wheel,) = cls.dist.glob("*.whl")
        done("tar", "-xzf", archive, "-C", cls.folder)
        (cls.unpacked,) = cls.folder.glob("pgboard-*")
        cls.program, cls.command = cls.unpacked / "lib/pgboard/pgboard", cls.unpacked / "bin/pgboard"
        cls.version = cls.unpacked.name.split("-")[1]
        # (all of them, where nothing else is)
        cls.root = cls.folder / "debian"
        for name in NEEDS:
            done("dpkg-deb", "--extract", cls.package(name), cls.root)

    @classmethod
    def package(cls, name):
        return next(cls.dist.glob(f"{name}_*.deb"))

    # --- what is made, and what is refused ---

    def test_sums_and_origin_are_those_of_all_files(self):
        done("sha256sum", "--check", "--strict", "SHA256SUMS", cwd=self.dist)
        lines = (self.dist / "SHA256SUMS").read_text().splitlines()
        there = {str(it.relative_to(self.dist)) for it in files_in(self.dist)}
        self.assertEqual(there - {it.split("  ", 1)[1] for it in lines}, {"SHA256SUMS"})
        about = f"pgboard {self.version}\ncommit {self.commit}\nkit {done('rt', 'version')}"
        about += "proofs taken over by rt from a tree of the same sources\n"
        about += f"compiler {done('cc', '--version').splitlines()[0]}\n"
        about_libraries = self.unpacked / "share/doc/pgboard"
        for page, folder in ((self.dist, self.dist), (about_libraries, self.unpacked / "lib")):
            own = {page / "PROVENANCE", page / "SHA256SUMS"}
            paths = [it for it in files_in(folder) if it.parent == folder and it not in own]
            lines = [done("sha256sum", it.name, cwd=folder) for it in paths]
            wanted = about + "".join("sha256 {} {}\n".format(*it.split()) for it in lines)
            self.assertEqual((page / "PROVENANCE").read_text(), wanted)

    def test_the_same_again_gives_the_same_bytes(self):
        """Built again in another tree, with another folder for scratch work, for a user of other habits."""
        other, again = self.folder / "another path", self.folder / "again"
        other.mkdir()
        common.copy_crates(other)
        build_library.take_as_built(other, "pgboard_program")
        (self.folder / "scratch").mkdir()
        habits = {"TMPDIR": str(self.folder / "scratch"), "TZ": "Asia/Tokyo", "LC_ALL": "C.UTF-8"}
        habits.update(GIT_CONFIG_COUNT="1", GIT_CONFIG_KEY_0="core.autocrlf", GIT_CONFIG_VALUE_0="true")
        kept = os.umask(0o077)
        try:
            status, said = self.tree.package(again, other, **habits)
        finally:
            os.umask(kept)
        self.assertEqual(status, 0, said)
        done("sha256sum", "--check", "--strict", self.dist / "SHA256SUMS", cwd=again)
        listed = lambda it: sorted(done("find", ".", "-printf", "%P %m %l\\n", cwd=it).splitlines())
        self.assertEqual(listed(again), listed(self.dist))
        self.refuses_what_changes_meanwhile(other)

    def refuses_what_changes_meanwhile(self, other):
        """A program that is not what rt has linked, and a tree that is changed while rt is at work."""
        program = other / PROGRAM_CRATE / "out/pgboard_program"
        changed = other / "crates" / PRODUCT[0] / "src/lib.rt"
        rows = {
            "run": (program, r".*pgboard_program\.o is not the object of the proved program"),
            "lib": (changed, re.escape(f"{changed} is not that of the commit")),
        }
        for word, (path, why) in rows.items():
            edit = f'[ "$1" != {word} ] || echo >> "{path}"'
            text = f'#!/bin/sh\n"{shutil.which("rt")}" "$@"; status=$?\n{edit}\nexit $status\n'
            common.write_program(self.folder / "edits/rt", text)
            path_of_edits = f"{self.folder}/edits:{os.environ['PATH']}"
            status, said = self.tree.package(self.folder / "none", other, PATH=path_of_edits)
            self.assertEqual(status, 1)
            self.assertRegex(said, rf"\Apackage: {why}\n\Z")

    def test_a_tree_whose_crates_are_others_is_refused(self):
        copy = self.folder / "others"
        common.copy_crates(copy)
        crate = copy / "crates" / PRODUCT[0]
        paths = [next((crate / it).rglob("*.antt")) for it in ("specs", "proofs")]
        for path in [*paths, crate / "src/lib.rt", copy / "HANDLES", crate / "src/a_module_more.rt"]:
            kept = path.read_bytes() if path.exists() else None
            path.write_bytes((kept or b"") + b"\n")
            said = self.tree.package(self.folder / "none", copy)
            self.assertEqual(said, (1, f"package: {path} is not that of the commit\n"))
            path.write_bytes(kept) if kept else path.unlink()

    def test_changes_a_refused_proof_and_a_folder_that_is_there_are_refused(self):
        self.assertEqual(self.tree.package(self.dist), (1, f"package: {self.dist} is there already\n"))
        # (before anything is proved)
        nowhere = f"package: no folder can be made in {self.folder}/missing: No such file or directory\n"
        self.assertEqual(self.tree.package(self.folder / "missing/dist", self.folder / "no tree"), (1, nowhere))
        copy, none = self.folder / "copy", self.folder / "none"
        self.tree.unpack(copy)
        tree = Checkout(copy, self.folder / "git_of_copy")
        tree.commit()
        edit = common.text_of(PROGRAM_CRATE, "must-fail/each_fault_ends_with_status_4.edit")
        _, old, new = (it.partition(": ")[2] for it in edit.splitlines()[:3])
        main = copy / PROGRAM_CRATE / "src/main.rt"
        text = main.read_text()
        self.assertEqual(text.count(old), 1)
        main.write_text(text.replace(old, new))
        self.assertEqual(tree.package(none), (1, "package: the tree has changes that are not committed\n"))
        tree.commit()
        for crate in PRODUCT[:-1]:
            built = pathlib.Path("crates", crate, "out/rlib")
            if (common.PROVED / built).exists():
                shutil.copytree(common.PROVED / built, copy / built)
        status, said = tree.package(none, copy)
        self.assertEqual((status, none.exists()), (1, False), said)
        self.assertRegex(said, r"\Apackage: not proved: pgboard_program\n")

    def test_without_words_it_has_rt_prove_a_copy_and_replaces_dist_at_its_end(self):
        top, edits = self.folder / "top", self.folder / "no_proofs"
        self.tree.unpack(top)
        (top / "dist/old").mkdir(parents=True)
        # (what rt would prove again is that of the gate)
        takes = f'exec cp -r "{common.PROVED}/crates/${{PWD##*/}}/out" .'
        rt = f'case $1 in run | lib) {takes} ;; *) exec "{shutil.which("rt")}" "$@" ;; esac'
        common.write_program(edits / "rt", f"#!/bin/sh\n{rt}\n")
        env = {**self.tree.env, "GIT_WORK_TREE": str(top), "PATH": f"{edits}:{os.environ['PATH']}"}
        common.write_program(edits / "dpkg-buildpackage", "#!/bin/sh\nexit 1\n")
        status, out, err = common.run([top / "package"], timeout=3000, env=env)
        self.assertEqual((status, os.listdir(top / "dist")), (1, ["old"]), out + err)
        self.assertTrue(err.startswith(b"package: dpkg-buildpackage "), err)
        (edits / "dpkg-buildpackage").unlink()
        status, out, err = common.run([top / "package"], timeout=3000, env=env)
        self.assertEqual((status, err), (0, b""), out + err)
        self.assertEqual(sorted(os.listdir(top / "dist")), sorted(os.listdir(self.dist)))
        origin = (top / "dist/PROVENANCE").read_text()
        self.assertIn("\nproofs made by rt in this build\n", origin)
        # (a copy of the crates was proved)
        self.assertEqual([*top.glob("crates/*/out")], [])

    def test_no_path_of_this_machine_is_in_what_is_made(self):
        local = [str(it).encode() for it in (common.ROOT, common.PROVED, self.folder)] + [b"pgboard-package-"]
        with zipfile.ZipFile(self.wheel) as wheel:
            wheel.extractall(self.folder / "in_wheel")
        tops = self.unpacked, self.folder / "in_wheel", self.root / "usr"
        for path in (it for top in tops for it in files_in(top)):
            self.assertEqual([it for it in local if it in contents(path)], [], path)

    # --- the folder ---

    def test_modes_and_owners_of_the_folder(self):
        scripts = self.tree.git("ls-files", "--stage", "examples").splitlines()
        runs = {it.split()[3] for it in scripts if it.startswith("100755")}
        (archive,) = self.dist.glob("*-linux-*.tar.gz")
        with tarfile.open(archive) as members:
            for it in members:
                script = it.name.partition("/doc/pgboard/")[2]
                runs_it = it.isdir() or it.name.endswith(("bin/pgboard", "lib/pgboard/pgboard")) or script in runs
                mode = 0o755 if runs_it else 0o644
                if not it.issym() and ".so." not in it.name:
                    self.assertEqual((it.name, oct(it.mode)), (it.name, oct(mode)))
                self.assertEqual((it.uid, it.gid), (0, 0), it.name)

    def test_the_program_runs_in_an_empty_root(self):
        root = self.folder / "root"
        root.mkdir()
        shutil.copy(self.program, root)
        words = ["chroot", root, "/pgboard"]
        words = words if os.geteuid() == 0 else ["unshare", "--user", "--map-root-user", *words]
        self.assertEqual(common.run([*words, "solve", "--workers", "4"], GAME), (0, SOLUTION, b""))
        self.assertEqual(common.run([*words, "tidy", "no_such_file"]), (4, b"", b"pgboard: read fault\n"))
        made = f"pgboard {self.version}\nkit: {common.kit()}\nbuild: proved, commit {self.commit}\n"
        self.assertEqual(common.run([*words, "--version"]), (0, made.encode(), b""))

    def test_a_limit_on_a_files_size_is_a_write_fault(self):
        game = b"".join(b"%d 0 0 %d;\n" % (v, v) for v in range(1000))
        script = 'ulimit -f 1; "$0" tidy >limited; echo "$? $(wc -c <limited)"'
        got = common.run(["bash", "-c", script, self.program], game, cwd=self.folder)
        self.assertEqual(got, (0, b"4 1024\n", b"pgboard: write fault\n"))

    def test_each_file_of_the_folder_is_that_of_the_tree(self):
        places = {"share/doc/pgboard/": "", "include/": "include/", "share/pgboard/rust/": "bindings/rust/"}
        compared = 0
        for path in files_in(self.unpacked):
            name = str(path.relative_to(self.unpacked))
            place = next((it for it in places if name.startswith(it)), None)
            there = common.ROOT / (places[place] + name.removeprefix(place)) if place else None
            if there and there.exists():
                compared += 1
                self.assertEqual(path.read_bytes(), there.read_bytes(), name)
        names = common.load(common.ROOT / "package").PAGES
        every = names, ["include/*"], ["bindings/rust/**"]
        listed = [self.tree.git("ls-files", *map(":(glob){}".format, it)).split() for it in every]
        self.assertEqual(compared, sum(map(len, listed)))
        for name, paths in COMPLETIONS.items():
            wanted = (common.ROOT / "packaging/completions" / name).read_bytes()
            for path in (self.unpacked / paths[0], self.root / "usr" / paths[1]):
                self.assertEqual(path.read_bytes(), wanted, path)
        for name in ("pgboard.1", "pgboard.3"):
            page = self.unpacked / f"share/man/man{name[-1]}" / name
            self.assertEqual(page.read_bytes(), (common.ROOT / "packaging/man" / name).read_bytes())
        aliases = {it.stem: it.read_text() for it in (self.unpacked / "share/man/man3").iterdir()}
        self.assertLessEqual(dict.fromkeys(EXPORTS, ".so man3/pgboard.3\n").items(), aliases.items())

    def test_the_command_of_the_folder_runs_with_python_and_without(self):
        model = self.unpacked / "share/doc/pgboard/examples/modelcheck/mutex.aut"
        (self.folder / "game.gz").write_bytes(gzip.compress(GAME))
        tools = self.folder / "tools"
        tools.mkdir()
        for name in "cat sed setpriv sh".split():
            (tools / name).symlink_to(shutil.which(name))
        # (other tests compare the folder)
        env = {"PYTHONDONTWRITEBYTECODE": "1"}
        run = lambda path, *words: common.run([self.command, *words], cwd=self.folder, env={**env, "PATH": path})
        packed = b"this is a file that gzip has packed: Python reads the file without a proof"
        read = b"pgboard: game.gz: " + packed + b", and the answer has one\n"
        both = "/usr/bin:/bin"
        self.assertEqual(run(both, "modelcheck", model, "<ask_1> true")[:2], (0, b"true\n"))
        self.assertEqual(run(both, "solve", "game.gz"), (0, SOLUTION, read))
        self.assertEqual(run(both, "solve", "--stats", common.ROOT / "examples/both_win.pg")[:2], (0, SOLUTION))
        lacks = b"needs Python 3.8 or later, and no python3 is on the PATH\n"
        self.assertEqual(run(str(tools), "winner", "game.gz"), (127, b"", b"pgboard: this " + lacks))
        status, out, err = run(str(tools), "solve", "game.gz")
        self.assertEqual((status, out, b"HOA or comments, this " + lacks in err), (3, b"", True), err)
        self.assertEqual(run(str(tools), "solve", common.ROOT / "examples/both_win.pg"), (0, SOLUTION, b""))
        for path in (both, str(tools)):
            status, out, err = run(path, "--help")
            self.assertEqual((status, b"\n  --strict " in out, b"\n  --rebuild " in out, err), (0, True, False, b""))
        self.assertEqual(run(both, "--unproved", "solve")[0], 125)

    def test_licences_of_what_is_linked_in_are_named(self):
        folder = self.unpacked / "share/doc/pgboard"
        found = (folder / "NOTICES").read_text()
        kit = pathlib.Path(done("rt", "doc")).parent / "rattle"
        lines = common.text_of("crates.txt").split("\n\n")[0].splitlines()
        named = {it for line in lines for it in re.findall(r"\w+", line.partition(":")[2])} - set(PRODUCT)
        texts = {it: sorted(kit.glob(f"{it}/LICENSE*")) for it in named | {"strsim"}}
        for name, paths in texts.items():
            has_text = any(it.read_text().strip() in found for it in paths)
            self.assertTrue(has_text or not paths, name)
        self.assertIn(common.text_of("LICENSE").strip(), found)
        for package in NEEDS:
            copyright_of = self.root / "usr/share/doc" / package / "copyright"
            self.assertIn(found.strip(), copyright_of.read_text())

    def test_the_program_can_be_linked_with_another_glibc(self):
        said = (self.unpacked / "share/doc/pgboard/NOTICES.glibc").read_text()
        command = re.search(r"(?m)^(cc .*)$", said)[1]
        done("sh", "-ec", command.replace("-o lib/pgboard/pgboard", f"-o {self.folder}/linked"), cwd=self.unpacked)
        self.assertEqual(done(self.folder / "linked", "--version"), done(self.program, "--version"))

    def test_what_the_linker_was_asked_for(self):
        """Addresses become read-only, the stack cannot run, and no library is needed but C's."""
        shared = f"lib/libpgboard.so.{self.version}"
        debian = self.root / "usr/lib/pgboard/pgboard"
        files = {self.program: [], self.unpacked / shared: ["libc.so.6"], debian: ["libc.so.6"]}
        for path, needed in files.items():
            with self.subTest(path):
                said = done("readelf", "--wide", "--headers", "--dynamic", path)
                self.assertIn(" GNU_RELRO ", said)
                self.assertRegex(said, r"GNU_STACK .* RW +0x")
                self.assertRegex(said, r"Type: +DYN ")
                self.assertRegex(said, r"FLAGS.*\bNOW\b")
                self.assertEqual(re.findall(r"\(NEEDED\).*\[(.*)\]", said), needed)
                self.assertNotRegex(said, r"\(R(UN)?PATH\)|\.debug| \.symtab ")

    # --- the libraries ---

    def test_the_code_is_for_the_processors_that_the_names_say(self):
        self.assertTrue(self.unpacked.name.endswith("-linux-x86_64-v2"))
        # (the static program has glibc's code for each level)
        code = done("objdump", "--disassemble", "--no-show-raw-insn", self.unpacked / "lib/libpgboard.so")
        self.assertRegex(code, r"\t(popcnt|pshufb|ptest)\b")
        self.assertNotRegex(code, r"%[yz]mm")

    def test_the_libraries_have_the_names_of_the_header_alone(self):
        for folder in (self.unpacked / "lib", self.root / LIBRARIES):
            self.assertEqual(names_in(folder / "libpgboard.so", "--dynamic"), {*EXPORTS, "pgboard_proved"})
            self.assertEqual(names_in(folder / "libpgboard.a", "--extern-only"), {*EXPORTS, "pgboard_proved"})

    def test_the_librarys_name_has_the_number_of_its_interface(self):
        self.assertIn(f"`{SONAME}`", common.text_of("CHANGELOG.md"))
        for folder in (self.unpacked / "lib", self.root / LIBRARIES):
            said = done("objdump", "-p", folder / "libpgboard.so")
            self.assertEqual(re.findall(r"SONAME +(.*)", said), [SONAME])
            links = {it.name: os.readlink(it) for it in folder.iterdir() if it.is_symlink()}
            self.assertEqual(links, dict.fromkeys(["libpgboard.so", SONAME], f"libpgboard.so.{self.version}"))

    def test_c_programs_are_built_by_pkg_config_alone(self):
        programs, _ = pages.c_programs(common.text_of(pages.C_PAGE))
        for lib in (self.unpacked / "lib", self.root / LIBRARIES):
            env = {"PATH": "/usr/bin:/bin", "PKG_CONFIG_PATH": f"{lib}/pkgconfig"}
            env["LD_LIBRARY_PATH"] = str(lib)
            self.assertEqual(done("pkg-config", "--modversion", "pgboard", env=env).strip(), self.version)
            for (program, printed), flag in [(it, flag) for it in programs for flag in ("", "-static")]:
                (self.folder / "embed.c").write_text(program)
                command = f"cc -Wall -Werror embed.c $(pkg-config --cflags --libs pgboard) {flag} -o embed"
                done("sh", "-ec", command, cwd=self.folder, env=env)
                self.assertEqual(common.run([self.folder / "embed"], env=env), (0, printed.encode(), b""))

    def test_the_solver_that_posts_to_a_board_is_built_as_its_page_says(self):
        page = common.text_of("examples/README.md")
        words = r"`(c\+\+ [^`]* share/doc/pgboard/examples/board/outside\.cpp [^`]*) -o outside`"
        command = re.search(words, page)[1]
        lib = self.unpacked / "lib"
        env = {"PATH": "/usr/bin:/bin", "PKG_CONFIG_PATH": f"{lib}/pkgconfig", "LD_LIBRARY_PATH": str(lib)}
        done("sh", "-ec", f"{command} -o {self.folder}/outside", cwd=self.unpacked, env=env)
        status, out, err = common.run([self.folder / "outside"], GAME, env=env)
        self.assertEqual((status, out, err.splitlines()[1:]), (0, SOLUTION, []), err)

    @common.needs("cmake")
    def test_a_c_program_is_built_by_cmake_alone(self):
        """The last row is a system where /lib is a link to /usr/lib: CMake then finds the package by /lib."""
        (self.root / "lib").symlink_to("usr/lib")
        for prefix in (self.unpacked, self.root / "usr", self.root):
            lib = next(it for it in (prefix / "lib/x86_64-linux-gnu", prefix / "lib") if it.exists())
            self.build_by_cmake(prefix, lib)

    def build_by_cmake(self, prefix, lib):
        program, printed = pages.c_programs(common.text_of(pages.C_PAGE))[0][0]
        folder = common.make_folder(self)
        (folder / "embed.c").write_text(program)
        flags = [f"-DCMAKE_PREFIX_PATH={prefix}", "-DCMAKE_LIBRARY_ARCHITECTURE=x86_64-linux-gnu"]
        (folder / "CMakeLists.txt").write_text(CMAKE)
        done("cmake", "-S", folder, "-B", folder / "made", *flags)
        done("cmake", "--build", folder / "made")
        for name in ("by_pgboard", "by_pgboard_static"):
            made = folder / "made" / name
            self.assertEqual(common.run([made], env={"LD_LIBRARY_PATH": str(lib)}), (0, printed.encode(), b""))
            self.assertEqual(SONAME in done("ldd", made), name == "by_pgboard")

    @common.needs("cargo")
    def test_a_rust_program_is_built_with_the_crate_alone_and_the_crate_can_be_packaged(self):
        env = {name: value for name, value in os.environ.items() if not re.match("PGBOARD_|PKG_|CARGO_TARGET", name)}
        by_name = {"PKG_CONFIG_PATH": f"{self.root / LIBRARIES}/pkgconfig"}
        for prefix, found in ((self.unpacked, {}), (self.root / "usr", by_name)):
            folder, crate = common.make_folder(self), prefix / "share/pgboard/rust"
            program = re.search(r"(?ms)^```rust\n(.*?)^```$", (crate / "README.md").read_text())[1]
            common.write_program(folder / "src/main.rs", program)
            about = '[package]\nname = "user"\nversion = "0.1.0"\nedition = "2021"\n'
            (folder / "Cargo.toml").write_text(f'{about}[dependencies]\npgboard = {{ path = "{crate}" }}\n')
            done("cargo", "run", "--offline", cwd=folder, env={**env, **found})
            shutil.copytree(crate, folder / "crate")
            done("cargo", "package", "--offline", cwd=folder / "crate", env={**env, **by_name})

    # --- the wheel ---

    def test_the_wheel_has_what_git_has_and_the_library(self):
        with zipfile.ZipFile(self.wheel) as wheel:
            files = {it: wheel.read(it) for it in wheel.namelist()}
        about = {it.split("/", 1)[1]: data for it, data in files.items() if ".dist-info/" in it}
        names = self.tree.git("ls-files", "bindings/python/pgboard").split()
        wanted = {it.partition("bindings/python/")[2]: (common.ROOT / it).read_bytes() for it in names}
        wanted["pgboard/libpgboard.so"] = (self.unpacked / "lib/libpgboard.so").read_bytes()
        self.assertEqual({it: data for it, data in files.items() if ".dist-info/" not in it}, wanted)
        for name in ("LICENSE", "NOTICES", "PROVENANCE"):
            self.assertEqual(about[name], (self.unpacked / "share/doc/pgboard" / name).read_bytes())
        tag = r"(?m)^Root-Is-Purelib: false\nTag: py3-none-manylinux_2_17_x86_64$"
        self.assertRegex(about["WHEEL"].decode(), tag)
        # (an index has no pages beside this one)
        links = re.findall(r"\]\(([^)]*)\)", about["METADATA"].decode())
        self.assertEqual([it for it in links if not it.startswith(("https://", "#"))], [])

    @common.needs("twine")
    def test_the_wheel_is_installed_without_an_index(self):
        self.assertIn("PASSED", done("twine", "check", "--strict", self.wheel))
        done(sys.executable, "-m", "venv", self.folder / "venv")
        done(self.folder / "venv/bin/pip", "install", "--no-index", "--disable-pip-version-check", self.wheel)
        env = {name: value for name, value in os.environ.items() if not name.startswith("PGBOARD")}
        self.judge_python(self.folder / "venv/bin/python", env, r".*/pgboard/libpgboard\.so")
        command, game = self.folder / "venv/bin/pgboard", common.ROOT / "examples/both_win.pg"
        self.assertEqual(done(command, "solve", game, env=env), SOLUTION.decode())
        self.assertEqual(done(command, "tidy", game, env=env), GAME.decode())

    def test_a_wheel_of_the_sources_takes_the_systems_library(self):
        (sources,) = self.dist.glob(f"pgboard-{self.version}.tar.gz")
        top = self.folder / "sources"
        top.mkdir()
        done("tar", "-xzf", sources, "-C", top)
        (top,) = top.iterdir()
        names = {str(it.relative_to(top)) for it in files_in(top)}
        listed = {it.partition("bindings/python/")[2] for it in self.tree.git("ls-files", "bindings/python/pgboard").split()}
        self.assertEqual({it for it in names if it.startswith("pgboard/")}, listed)
        self.assertLessEqual({"LICENSE", "README.md", "pyproject.toml", "setup.py"}, names)
        code = "from setuptools.build_meta import build_wheel; print(build_wheel('made'))"
        self.assertIn("-py3-none-any.whl", done("/usr/bin/python3", "-c", code, cwd=top))
        done(sys.executable, "-m", "venv", self.folder / "of_sources")
        pip = [self.folder / "of_sources/bin/pip", "install", "--no-index", "--disable-pip-version-check"]
        done(*pip, *(top / "made").iterdir())
        env = {"PATH": "/usr/bin:/bin", "LD_LIBRARY_PATH": str(self.unpacked / "lib")}
        self.judge_python(self.folder / "of_sources/bin/python", env, re.escape(SONAME))

    def judge_python(self, python, env, path):
        solved = "pgboard.solve([0, 1], [2, 1], [[0, 1], [1]])"
        code = f"import pgboard.library; print(pgboard.library.LIBRARY._name, {solved})"
        self.assertRegex(done(python, "-c", code, env=env), rf"\A{path} \(\[0, 1\], \[0, 1\]\)\n\Z")
        said = done(python, "-m", "pgboard", "solve", "--stats", common.ROOT / "examples/both_win.pg", env=env)
        self.assertRegex(said, r"(?s)\Aparitysol 1;\n0 0 0;\n1 1 1;\n.*\nentries: 2\n\Z")

    # --- the Debian packages ---

    def test_each_debian_package_declares_what_it_needs(self):
        self.assertEqual({it.name.split("_")[0] for it in self.dist.glob("*.deb")}, set(NEEDS))
        files = []
        for name, needed in NEEDS.items():
            declared = done("dpkg-deb", "--field", self.package(name), "Depends")
            self.assertEqual(set(re.findall(r"(?:^|, )([a-z0-9-]+)", declared)), needed, declared)
            lines = done("dpkg-deb", "--contents", self.package(name)).splitlines()
            files += [it.split()[5] for it in lines if it[0] != "d"]
        self.assertEqual(len(files), len({*files}), "a file is in two packages")
        # (the module takes the library of its own version alone)
        for bound in (r">= \S+", r"<< \S+\.1~"):
            self.assertRegex(declared, rf"libpgboard{ABI} \({bound}\)")

    @common.needs("lintian")
    def test_debian_finds_no_error(self):
        done("lintian", "--fail-on", "error", "--allow-root", *sorted(self.dist.glob("*.deb")))

    def test_the_debian_packages_have_what_the_folder_has(self):
        """By name and contents: pages may be compressed, and the program is linked with Debian's C library."""
        others = {"pgboard", "pgboard.o", "pgboard.pc", "pgboardConfig.cmake", f"libpgboard.so.{self.version}"}
        others |= {"NOTICES", "NOTICES.glibc", "LGPL-2.1.txt"}
        # (a page of the manual that only names another one is a link there)
        manual = lambda top: {it.name.removesuffix(".gz") for it in top.glob("share/man/man?/*")}
        self.assertEqual(manual(self.root / "usr"), manual(self.unpacked))
        others |= manual(self.unpacked)
        wanted = {(it.name, contents(it)) for it in files_in(self.unpacked) if it.name not in others}
        found = {(it.name.removesuffix(".gz"), contents(it)) for it in files_in(self.root / "usr")}
        self.assertEqual({name for name, _ in wanted - found}, set())

    def test_the_debian_packages_work(self):
        program = self.root / "usr/bin/pgboard"
        self.assertEqual(common.run([program, "solve"], GAME), (0, SOLUTION, b""))
        self.assertEqual(done(program, "--version"), done(self.program, "--version"))
        modules = self.root / "usr/lib/python3/dist-packages"
        env = {"PATH": "/usr/bin:/bin", "PYTHONPATH": str(modules)}
        env["LD_LIBRARY_PATH"] = str(self.root / LIBRARIES)
        self.judge_python("python3", env, re.escape(SONAME))


if __name__ == "__main__":
    common.main()
