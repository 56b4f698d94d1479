//! Pages, checks and bundles, note by note.
use crate::asked::{Asked, Call, To};
use crate::input::{self, Note};
use crate::output;
use crate::progress::Progress;
use crate::refused::Failure;
use crate::standard;
use notepage::{check, write_bundle, Builder, MOST_BUNDLE};
use std::collections::HashSet;
use std::ffi::OsString;
use std::fs;
use std::path::{Path, PathBuf};

pub fn version() -> String {
    let library = notepage::version();
    let parts = [library / 10_000, library / 100 % 100, library % 100];
    format!("notepage {} (library {}.{}.{})\n", env!("CARGO_PKG_VERSION"), parts[0], parts[1], parts[2])
}

/// Answers for each file; whether one failed. What is wrong with standard output ends the run.
pub fn run(asked: &Asked) -> bool {
    if let Some(why) = clash(asked) {
        output::tell(&format!("notepage: {why}"));
        return true;
    }
    let progress = Progress::new(asked.files.len());
    let mut builder = Builder::new(asked.options).with_most_room(asked.room);
    let mut failed = 0;
    for (done, file) in asked.files.iter().enumerate() {
        progress.at(done + 1, file);
        if let Err(told) = one(asked, file, &mut builder) {
            failed += 1;
            progress.clear();
            output::tell(&told);
        }
    }
    progress.clear();
    if asked.files.len() > 1 {
        let all = asked.files.len();
        output::tell(&format!("{all} notes: {} {}, {failed} not", all - failed, done_word(asked.call)));
    }
    failed > 0
}

fn done_word(call: Call) -> &'static str {
    match call {
        Call::Check => "pass",
        Call::Bundle => "packed",
        _ => "built",
    }
}

/// One file's answer, written where it goes; or the sentence to tell.
fn one(asked: &Asked, file: &Path, builder: &mut Builder) -> Result<(), String> {
    let named = |why: String| format!("{}: {why}", file.display());
    let note = input::note(file, asked.bundles).map_err(|failure| named(failure.told(None)))?;
    let made = answer(asked, file, &note, builder);
    let made = made.map_err(|refusal| named(Failure::Refused(refusal).told(Some(&note))))?;
    match target(asked, file) {
        None => standard::write(&made),
        Some(path) => output::replace(&path, &made),
    }
}

/// The bytes that are asked for.
fn answer(asked: &Asked, file: &Path, note: &Note, builder: &mut Builder) -> Result<Vec<u8>, notepage::Refusal> {
    match asked.call {
        Call::Check => {
            check(&note.text, &note.events)?;
            Ok(format!("{}: passes\n", file.display()).into_bytes())
        }
        Call::Bundle => {
            check(&note.text, &note.events)?;
            let mut out = vec![0; MOST_BUNDLE];
            write_bundle(&note.text, &note.events, asked.edition, &mut out).map(<[u8]>::to_vec)
        }
        _ => builder.build(&note.text, &note.events).map(|page| page.as_bytes().to_vec()),
    }
}

/// The file that the answer goes to; nothing for standard output.
fn target(asked: &Asked, file: &Path) -> Option<PathBuf> {
    match &asked.to {
        To::Standard => None,
        To::File(path) => Some(path.clone()),
        To::Folder(folder) => {
            let mut name = file.file_stem().map_or(OsString::from("page"), OsString::from);
            name.push(if asked.call == Call::Bundle { ".bundle" } else { ".html" });
            Some(folder.join(name))
        }
    }
}

/// A file that two notes would be written to, or one that is read here.
fn clash(asked: &Asked) -> Option<String> {
    let same = |path: &PathBuf| fs::canonicalize(path).unwrap_or_else(|_| path.clone());
    let read: HashSet<PathBuf> = asked.files.iter().map(same).collect();
    let mut written = HashSet::new();
    for path in asked.files.iter().filter_map(|file| target(asked, file)) {
        if read.contains(&same(&path)) {
            return Some(format!("{} is read here, and would be written over", path.display()));
        }
        if !written.insert(same(&path)) {
            return Some(format!("two notes would be {}", path.display()));
        }
    }
    None
}
