//! Finds the C library: in the folder that `PGBOARD_LIB_DIR` names, in the clone or the package that has this crate,
//! or by `pkg-config`. It is linked statically, unless `PGBOARD_DYNAMIC` is set. An empty variable is not set.

use std::ffi::OsString;
use std::os::unix::process::parent_id;
use std::path::{Path, PathBuf};
use std::process::{exit, Command};
use std::time::SystemTime;
use std::{env, fs, str};

const NOT_FOUND: &str = "pgboard: the C library was not found. Do one of these:
- in a clone of pgboard, build it by ./pgboard --unproved --library
- with a package of pgboard, set PKG_CONFIG_PATH to the folder that has pgboard.pc
- set PGBOARD_LIB_DIR to the folder that has libpgboard.a";

const UNPROVED: &str =
    "unproved: no proof was made of the library that is linked; its run-time checks are on";
const UNKNOWN: &str = "the library that is linked does not say whether it was proved";

fn main() {
    for name in ["PGBOARD_LIB_DIR", "PGBOARD_DYNAMIC", "PKG_CONFIG_PATH"] {
        println!("cargo:rerun-if-env-changed={name}");
    }
    let named = variable("PGBOARD_LIB_DIR").map(|it| of_user(Path::new(&it)));
    let found = match &named {
        Some(folder) => library_in(folder),
        None => above().or_else(by_pkg_config),
    };
    if found.is_none() {
        if let Some(folder) = named {
            eprintln!("pgboard: PGBOARD_LIB_DIR: there is no library in {}", folder.display());
        }
        eprintln!("{NOT_FOUND}");
        exit(1);
    }
}

fn variable(name: &str) -> Option<OsString> {
    env::var_os(name).filter(|it| !it.is_empty())
}

/// A path as the user of cargo means it. (This runs in the folder of the crate, and cargo in the user's.)
fn of_user(path: &Path) -> PathBuf {
    let folder = fs::read_link(format!("/proc/{}/cwd", parent_id())).unwrap_or_default();
    folder.join(path)
}

/// The library of the clone, a proved one first, or of the package.
fn above() -> Option<PathBuf> {
    let crate_folder = PathBuf::from(env::var_os("CARGO_MANIFEST_DIR")?);
    crate_folder.ancestors().find_map(|top| {
        ["out/proved", "out/unproved", "lib"].iter().find_map(|kind| {
            let library = library_in(&top.join(kind))?;
            warn_of_sources(top, kind, &library);
            Some(library)
        })
    })
}

/// The library of a folder of a package or of a clone.
fn library_in(folder: &Path) -> Option<PathBuf> {
    match variable("PGBOARD_DYNAMIC") {
        Some(_) => link(folder, "dylib", "libpgboard.so"),
        None => link(folder, "static", "libpgboard.a").or_else(|| link(folder, "static", "libpgboard_c.a")),
    }
}

fn link(folder: &Path, kind: &str, file: &str) -> Option<PathBuf> {
    let path = folder.join(file);
    let name = Path::new(file).file_stem()?.to_str()?.strip_prefix("lib")?;
    let bytes = fs::read(&path).ok()?;
    println!("cargo:rerun-if-changed={}", path.display());
    println!("cargo:rustc-link-search=native={}", folder.display());
    println!("cargo:rustc-link-lib={kind}={name}");
    let has = |symbol: &str| bytes.split(|it| *it == 0).any(|it| it == symbol.as_bytes());
    if has("pgboard_unproved") {
        println!("cargo:warning={UNPROVED}");
    } else if !has("pgboard_proved") {
        println!("cargo:warning={UNKNOWN}");
    }
    Some(path)
}

/// Warns where a source of the library is newer than the build in this clone. (A package has no sources.)
fn warn_of_sources(top: &Path, kind: &str, library: &Path) {
    let time =
        |path: &Path| fs::metadata(path).and_then(|it| it.modified()).unwrap_or(SystemTime::UNIX_EPOCH);
    let list = fs::read_to_string(top.join("crates.txt")).unwrap_or_default();
    let crates = list.lines().take_while(|it| !it.is_empty()).filter_map(|it| it.split([' ', ':']).next());
    let of_library = crates.filter(|it| !["pgboard", "pgboard_program"].contains(it));
    let mut sources: Vec<_> = of_library.map(|it| top.join("crates").join(it).join("src")).collect();
    let mut newest = SystemTime::UNIX_EPOCH;
    while let Some(path) = sources.pop() {
        newest = newest.max(time(&path));
        sources.extend(fs::read_dir(path).into_iter().flatten().flatten().map(|it| it.path()));
    }
    if time(library) < newest {
        let flag = if kind == "out/unproved" { "--unproved " } else { "" };
        println!(
            "cargo:warning=the sources have changed since this build; ./pgboard {flag}--library builds them"
        );
    }
}

fn by_pkg_config() -> Option<PathBuf> {
    let ran = Command::new("pkg-config").args(["--variable=libdir", "pgboard"]).output().ok()?;
    let folder = str::from_utf8(&ran.stdout).ok().filter(|_| ran.status.success())?;
    library_in(Path::new(folder.trim()))
}
