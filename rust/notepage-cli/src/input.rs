//! What is read: a note or a bundle.
use crate::output::plain;
use crate::refused::Failure;
use crate::standard;
use notepage::{read_bundle, BLOCK, LEAST_READ};
use notepage_export::{export, ExportError};
use std::fs::File;
use std::io::Read;
use std::path::Path;

/// More than any note or bundle has.
const MOST_INPUT: u64 = 1 << 20;

/// A note with its events.
pub struct Note {
    pub text: Vec<u8>,
    pub events: Vec<u8>,
}

/// The bytes of a file, or of standard input where it is named `-`.
pub fn bytes(path: &Path) -> Result<Vec<u8>, String> {
    if path == Path::new("-") {
        return standard::read(MOST_INPUT);
    }
    let mut found = Vec::new();
    let read = File::open(path).and_then(|file| file.take(MOST_INPUT).read_to_end(&mut found));
    read.map(|_| found).map_err(|error| plain(&error))
}

/// The note that a file has, or the note of a bundle.
pub fn note(path: &Path, bundle: bool) -> Result<Note, Failure> {
    let found = bytes(path).map_err(Failure::Said)?;
    if bundle {
        return unpacked(&found);
    }
    if is_bundle(&found) {
        return Err(Failure::Said("this is a bundle and no note: say --bundle".into()));
    }
    match export(&found) {
        Ok(note) => Ok(Note { text: note.text.into(), events: note.events }),
        Err(ExportError::TooLong { .. }) => {
            let bytes = path.metadata().map_or(0, |file| file.len() as usize).max(found.len());
            Err(Failure::Said(ExportError::TooLong { bytes }.to_string()))
        }
        Err(error) => Err(Failure::Said(error.to_string())),
    }
}

/// Whether it begins as a bundle does: whole blocks, and the first one a header with number 0.
pub fn is_bundle(data: &[u8]) -> bool {
    !data.is_empty() && data.len() % BLOCK == 0 && data[4..8] == [0, 0, 1, 0]
}

/// Whether it is a text, as a note is.
pub fn is_text(data: &[u8]) -> bool {
    !data.contains(&0) && std::str::from_utf8(data).is_ok()
}

fn unpacked(bundle: &[u8]) -> Result<Note, Failure> {
    let (mut text, mut events) = (vec![0; LEAST_READ], vec![0; LEAST_READ]);
    let read = read_bundle(bundle, &mut text, &mut events);
    match read.map(|note| (note.text.len(), note.events.len())) {
        Ok((text_length, events_length)) => {
            text.truncate(text_length);
            events.truncate(events_length);
            Ok(Note { text, events })
        }
        Err(refusal) if !bundle.is_empty() && is_text(bundle) => {
            let (number, place) = (refusal.number, refusal.place);
            Err(Failure::Said(format!("refused {number} at {place}: this is a text and no bundle: leave --bundle out")))
        }
        Err(refusal) => Err(Failure::Refused(refusal)),
    }
}
