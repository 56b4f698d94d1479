//! Finds the proved static library, or has it made. In this order: libnotepage.a in the folder that NOTEPAGE_LIB_DIR
//! names; crates/exports/out/libexports.a of this repository, made anew by `rt` where it is missing or older than a
//! source.
use std::path::{Path, PathBuf};
use std::process::{exit, Command};
use std::time::SystemTime;
use std::{env, fs};

const EXPORTS: &str = "crates/exports";
const ARCHIVE: &str = "crates/exports/out/libexports.a";
/// The folders of a crate that hold its sources: what `rt` makes stands beside them.
const PARTS: [&str; 3] = ["src", "specs", "proofs"];
const HOW: &str =
    "put libnotepage.a into a folder and name it in NOTEPAGE_LIB_DIR, or install the Rattle toolchain and run \
                   `rt lib` in its folder crates/exports (an hour on four cores, once)";

fn main() {
    println!("cargo:rerun-if-changed=build.rs");
    println!("cargo:rerun-if-env-changed=NOTEPAGE_LIB_DIR");
    let target = format!("{}-{}", variable("CARGO_CFG_TARGET_ARCH"), variable("CARGO_CFG_TARGET_OS"));
    if target != "x86_64-linux" {
        fail(&format!("the proved library is compiled for x86-64 Linux, and this target is {target}"));
    }
    let archive = env::var_os("NOTEPAGE_LIB_DIR")
        .map_or_else(of_repository, |folder| PathBuf::from(folder).join("libnotepage.a"));
    println!("cargo:rerun-if-changed={}", archive.display());
    let own = PathBuf::from(variable("OUT_DIR"));
    if let Err(error) = fs::copy(&archive, own.join("libnotepage.a")) {
        fail(&format!("{}: {error}; {HOW}", archive.display()));
    }
    println!("cargo:rustc-link-search=native={}", own.display());
    println!("cargo:rustc-link-lib=static=notepage");
}

/// The archive of the repository that this package stands in, not older than what it is made of.
fn of_repository() -> PathBuf {
    let root = Path::new(&variable("CARGO_MANIFEST_DIR")).join("../..");
    let archive = root.join(ARCHIVE);
    let sources = sources(&root.join("crates"));
    for folder in &sources {
        println!("cargo:rerun-if-changed={}", folder.display());
    }
    let made = fs::metadata(&archive).and_then(|found| found.modified()).ok();
    if made.is_none() || made < sources.iter().filter_map(|folder| newest(folder)).max() {
        make(&root, made.is_some());
    }
    archive
}

/// The folders with the sources of all crates.
fn sources(crates: &Path) -> Vec<PathBuf> {
    let folders = fs::read_dir(crates).into_iter().flatten().flatten();
    let parts = folders.flat_map(|entry| PARTS.map(|part| entry.path().join(part)));
    parts.filter(|part| part.is_dir()).collect()
}

/// When the newest file below a folder was changed.
fn newest(folder: &Path) -> Option<SystemTime> {
    let entries = fs::read_dir(folder).ok()?.flatten();
    let times = entries.map(|entry| match entry.file_type() {
        Ok(kind) if kind.is_dir() => newest(&entry.path()),
        _ => entry.metadata().and_then(|found| found.modified()).ok(),
    });
    times.max().flatten()
}

fn make(root: &Path, old: bool) {
    println!("cargo:warning=notepage: proving the library by `rt lib`: up to an hour");
    match Command::new("rt").arg("lib").current_dir(root.join(EXPORTS)).output() {
        Ok(made) if made.status.success() => {}
        Ok(made) => {
            let said = String::from_utf8_lossy(&made.stdout).into_owned() + &String::from_utf8_lossy(&made.stderr);
            eprintln!("{said}");
            fail("`rt lib` in crates/exports did not prove the library; what it said stands above");
        }
        Err(_) if old => {
            fail(&format!("{ARCHIVE} is older than a source, and there is no `rt` to prove it again; {HOW}"))
        }
        Err(_) => fail(&format!("there is no {ARCHIVE} and no `rt` to make it; {HOW}")),
    }
}

fn variable(name: &str) -> String {
    env::var(name).unwrap_or_else(|_| fail(&format!("cargo does not say {name}")))
}

fn fail(why: &str) -> ! {
    eprintln!("notepage: {why}");
    exit(1)
}
