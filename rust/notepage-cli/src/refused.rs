//! What an operator is told.
use crate::input::Note;
use notepage::{position, Position, Refusal};

/// The most characters of a line that are shown.
const MOST_SHOWN: usize = 100;

/// Why there is no answer: a refusal, or a sentence.
pub enum Failure {
    Refused(Refusal),
    Said(String),
}

impl Failure {
    /// The sentence, with the place in the note where the refusal is at an event.
    pub fn told(&self, note: Option<&Note>) -> String {
        let refusal = match self {
            Failure::Said(sentence) => return sentence.clone(),
            Failure::Refused(refusal) => refusal,
        };
        let place = note.filter(|_| refusal.is_at_event());
        let place = place.and_then(|note| Some((note, position(&note.text, &note.events, refusal.place)?)));
        match place {
            Some((note, at)) => format!("{refusal} (line {}, column {}){}", at.line, at.column, shown(&note.text, at)),
            None => refusal.to_string(),
        }
    }
}

/// The line of the note, with a mark under the place.
fn shown(text: &[u8], at: Position) -> String {
    let text = String::from_utf8_lossy(text);
    let lines = text.replace("\r\n", "\n").replace('\r', "\n");
    let line = lines.split('\n').nth(at.line - 1).unwrap_or("");
    let from = (at.column - 1).saturating_sub(MOST_SHOWN / 2);
    let part: String = line.chars().skip(from).take(MOST_SHOWN).map(printable).collect();
    let number = at.line.to_string();
    let (margin, mark) = (" ".repeat(number.len()), " ".repeat(at.column - 1 - from));
    format!("\n  {number} | {part}\n  {margin} | {mark}^")
}

/// A character that is safe on a terminal.
fn printable(character: char) -> char {
    match character {
        '\t' => ' ',
        c if c.is_control() => '\u{FFFD}',
        c => c,
    }
}
