//! Notes that have events, and notes that have none.
use notepage_export::{export, ExportError, MOST_TEXT, RECORD};
use std::fs;
use std::path::Path;

#[test]
fn the_sample_has_its_events() {
    let samples = Path::new(env!("CARGO_MANIFEST_DIR")).join("../../samples");
    let (note, events) = (fs::read(samples.join("note.md")).unwrap(), fs::read(samples.join("note.events")).unwrap());
    assert_eq!(export(&note).unwrap().events, events);
}

#[test]
fn what_is_wrong_is_said() {
    let said = |note: &[u8]| export(note).unwrap_err().to_string();
    assert_eq!(said(b"caf\xe9 au lait"), "not UTF-8 at byte 3: save the note as UTF-8");
    assert_eq!(said(&[b'a'; MOST_TEXT + 1]), "64,001 bytes of at most 64,000: split the note");
    assert_eq!(said("# a\n".repeat(333).as_bytes()), "3,996 events of at most 3,200: split the note");
}

#[test]
fn the_longest_note_is_taken() {
    assert_eq!(export(&[b'a'; MOST_TEXT]).unwrap().events.len(), 4 * RECORD);
}

/// A row of docs/DIFFERENCES.md.
#[test]
fn a_panic_of_the_parser_is_an_answer() {
    assert_eq!(export(b"[](b \"a \n\")"), Err(ExportError::ParserPanicked));
    assert_eq!(ExportError::ParserPanicked.to_string(), "the parser panicked: write the note otherwise");
}
