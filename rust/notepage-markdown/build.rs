//! Writes the crate's root again, each `mod` public and led to the crate's own file. No file of it is copied:
//! tools/oracle/fetch gets them from Debian's packages where they are missing. NOTEPAGE_MARKDOWN may name the folder
//! that holds markdown-1.0.0 and unicode-id-0.3.7 instead.
use std::path::{Path, PathBuf};
use std::process::{exit, Command};
use std::{env, fs};

const HOW: &str =
    "tools/oracle/fetch gets them from Debian's packages (apt, some seconds); or name the folder that holds \
                   markdown-1.0.0 and unicode-id-0.3.7 in NOTEPAGE_MARKDOWN";

fn main() {
    println!("cargo:rerun-if-changed=build.rs");
    println!("cargo:rerun-if-env-changed=NOTEPAGE_MARKDOWN");
    let sources = sources();
    let source = sources.join("markdown-1.0.0/src");
    println!("cargo:rerun-if-changed={}", source.display());
    let root = read(&source.join("lib.rs"));
    let identifiers = sources.join("unicode-id-0.3.7/src/lib.rs");
    let written = format!(
        "#[path = {identifiers:?}]\nmod identifiers;\npub use identifiers::UnicodeID;\n{}",
        modules(&root, &source)
    );
    let out = PathBuf::from(env::var("OUT_DIR").expect("cargo names OUT_DIR")).join("markdown.rs");
    fs::write(&out, written).unwrap_or_else(|error| fail(&format!("{}: {error}", out.display())));
}

/// The folder of the two packages.
fn sources() -> PathBuf {
    if let Some(given) = env::var_os("NOTEPAGE_MARKDOWN") {
        return PathBuf::from(given);
    }
    let repository = Path::new(&env::var("CARGO_MANIFEST_DIR").expect("cargo names the folder")).join("../..");
    let fetched = Command::new(repository.join("tools/oracle/fetch")).status();
    if !fetched.is_ok_and(|status| status.success()) {
        fail(&format!("the parser's files can't be had: {HOW}"));
    }
    let folder = repository.join("target/oracle/packages/usr/share/cargo/registry");
    folder.canonicalize().unwrap_or_else(|error| fail(&format!("{}: {error}", folder.display())))
}

fn read(file: &Path) -> String {
    fs::read_to_string(file).unwrap_or_else(|error| fail(&format!("{}: {error}: {HOW}", file.display())))
}

/// What the crate's root says behind its attributes, each `mod` public and led to its file.
fn modules(root: &str, source: &Path) -> String {
    let lines = root.lines().skip_while(|line| *line != "extern crate alloc;").skip(1);
    lines.filter(|line| !line.starts_with("///")).map(|line| led(line, source) + "\n").collect()
}

fn led(line: &str, source: &Path) -> String {
    let item = line.strip_prefix("pub ").unwrap_or(line);
    let Some(name) = item.strip_prefix("mod ").and_then(|rest| rest.split(';').next()) else {
        return line.to_string();
    };
    let files = [source.join(format!("{name}.rs")), source.join(name).join("mod.rs")];
    let Some(file) = files.iter().find(|file| file.exists()) else {
        fail(&format!("the crate markdown has no file for its module {name}"));
    };
    format!("#[path = {file:?}]\npub mod {name};")
}

fn fail(why: &str) -> ! {
    eprintln!("notepage-markdown: {why}");
    exit(1)
}
