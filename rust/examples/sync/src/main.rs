//! Keeps a folder of bundles and pages in step with a folder of notes. A note that changed gets the next edition; a
//! note that is refused keeps its old page and bundle, and is reported.
//!
//! usage: sync NOTES SITE
use notepage::{read_bundle, write_bundle, Builder, Options, LEAST_READ, MOST_BUNDLE};
use std::error::Error;
use std::path::{Path, PathBuf};
use std::process::ExitCode;
use std::{env, fs, io};

fn main() -> ExitCode {
    let words: Vec<PathBuf> = env::args_os().skip(1).map(PathBuf::from).collect();
    let [notes, site] = &words[..] else {
        eprintln!("usage: sync NOTES SITE");
        return ExitCode::from(2);
    };
    match notes_of(notes) {
        Ok(found) if all(&found, site) => ExitCode::SUCCESS,
        Ok(_) => ExitCode::FAILURE,
        Err(error) => {
            eprintln!("{}: {error}", notes.display());
            ExitCode::FAILURE
        }
    }
}

/// The Markdown files of a folder, in order.
fn notes_of(folder: &Path) -> io::Result<Vec<PathBuf>> {
    let entries: io::Result<Vec<_>> = fs::read_dir(folder)?.collect();
    let mut notes: Vec<PathBuf> = entries?.iter().map(fs::DirEntry::path).collect();
    notes.retain(|path| path.extension().is_some_and(|end| end == "md"));
    notes.sort();
    Ok(notes)
}

/// Whether every note has its page.
fn all(notes: &[PathBuf], site: &Path) -> bool {
    let mut builder = Builder::new(Options::default());
    let mut refused = 0;
    for note in notes {
        match one(note, site, &mut builder) {
            Ok(Some(edition)) => println!("{}: edition {edition}", note.display()),
            Ok(None) => {}
            Err(why) => {
                refused += 1;
                eprintln!("{}: {why}; its old page stays", note.display());
            }
        }
    }
    println!("{} notes, {refused} refused", notes.len());
    refused == 0
}

/// The edition that a note gets, or nothing where it has not changed.
fn one(path: &Path, site: &Path, builder: &mut Builder) -> Result<Option<u32>, Box<dyn Error>> {
    let source = fs::read(path)?;
    let note = notepage_export::export(&source)?;
    let page = builder.build(note.text.as_bytes(), &note.events)?;

    let place = site.join(path.file_stem().ok_or("it has no name")?);
    let (mut text, mut events) = (vec![0; LEAST_READ], vec![0; LEAST_READ]);
    let old = fs::read(place.with_extension("bundle")).unwrap_or_default();
    let edition = match read_bundle(&old, &mut text, &mut events) {
        Ok(old) if old.text == source && old.events == note.events => return Ok(None),
        Ok(old) => old.edition.checked_add(1).ok_or("there is no edition after the last")?,
        Err(_) => 1,
    };
    let mut out = vec![0; MOST_BUNDLE];
    let bundle = write_bundle(&source, &note.events, edition, &mut out)?;
    // the bundle last: where only the page was swapped, the next run does both again
    swap(&place.with_extension("html"), page.as_bytes())?;
    swap(&place.with_extension("bundle"), bundle)?;
    Ok(Some(edition))
}

/// Writes a file beside and renames it: nobody ever sees half of it.
fn swap(path: &Path, data: &[u8]) -> io::Result<()> {
    let beside = path.with_extension("new");
    fs::write(&beside, data)?;
    fs::rename(beside, path)
}
