//! The text and the event records of a note, as the parser of the crate markdown 1.0.0 has them: CommonMark, footnotes
//! and tables. What comes out is what `notepage::build` and `notepage::write_bundle` take. The parser is not proved;
//! whatever it makes is judged by the proved checker.
//!
//! ```
//! let note = notepage_export::export(b"# a\n").unwrap();
//! assert_eq!((note.text, note.events.len()), ("# a\n", 12 * notepage_export::RECORD));
//!
//! let wrong = notepage_export::export(b"caf\xe9").unwrap_err();
//! assert_eq!(wrong.to_string(), "not UTF-8 at byte 3: save the note as UTF-8");
//! ```
mod quiet;
// the exporter that the comparison with the crate judges: it also prints, and makes the crate's own pages
#[allow(dead_code, unused_imports, unused_macros)]
#[path = "../../../tools/oracle/src/export.rs"]
mod export;
#[allow(dead_code)]
#[path = "../../../tools/oracle/src/record.rs"]
mod record;

use std::error::Error;
use std::fmt;

/// The most bytes of a note that a page is built of.
pub const MOST_TEXT: usize = 64_000;
/// The most event records.
pub const MOST_EVENTS: usize = 3_200;
/// The bytes of a record.
pub const RECORD: usize = record::LENGTH;

/// A note: its text, and its event records, [`RECORD`] bytes each.
#[derive(Clone, Debug, PartialEq, Eq)]
pub struct Note<'a> {
    pub text: &'a str,
    pub events: Vec<u8>,
}

/// Why a note has no events.
#[derive(Clone, Debug, PartialEq, Eq)]
pub enum ExportError {
    /// The byte where the first wrong character begins.
    NotUtf8 { at: usize },
    TooLong { bytes: usize },
    ParserPanicked,
    TooManyEvents { events: usize },
}

impl fmt::Display for ExportError {
    fn fmt(&self, to: &mut fmt::Formatter) -> fmt::Result {
        match self {
            ExportError::NotUtf8 { at } => write!(to, "not UTF-8 at byte {}: save the note as UTF-8", grouped(*at)),
            ExportError::TooLong { bytes } => {
                write!(to, "{} bytes of at most {}: split the note", grouped(*bytes), grouped(MOST_TEXT))
            }
            ExportError::ParserPanicked => write!(to, "the parser panicked: write the note otherwise"),
            ExportError::TooManyEvents { events } => {
                write!(to, "{} events of at most {}: split the note", grouped(*events), grouped(MOST_EVENTS))
            }
        }
    }
}

impl Error for ExportError {}

/// The text and the events of a note.
pub fn export(note: &[u8]) -> Result<Note<'_>, ExportError> {
    if note.len() > MOST_TEXT {
        return Err(ExportError::TooLong { bytes: note.len() });
    }
    let text = std::str::from_utf8(note).map_err(|error| ExportError::NotUtf8 { at: error.valid_up_to() })?;
    let records = quiet::caught(|| export::parsed(text)).ok_or(ExportError::ParserPanicked)?;
    if records.len() > MOST_EVENTS {
        return Err(ExportError::TooManyEvents { events: records.len() });
    }
    Ok(Note { text, events: record::written(&records) })
}

/// A number with a comma before each three digits.
fn grouped(number: usize) -> String {
    let digits = number.to_string();
    let parts: Vec<&str> = (0..digits.len()).map(|k| &digits[k..=k]).collect();
    let groups: Vec<String> = parts.rchunks(3).rev().map(|group| group.concat()).collect();
    groups.join(",")
}
