//! Where an event stands in its text, for people. Nothing here is proved: it only helps to find what was refused.
use crate::RECORD;

/// A place in a text: the line, and the character of that line, both counted from 1.
#[derive(Clone, Copy, Debug, PartialEq, Eq)]
#[allow(missing_docs)]
pub struct Position {
    pub line: usize,
    pub column: usize,
}

/// Where the element of an event begins; the end of the text where the place is the count of events. Nothing where the
/// list does not say it: an element that is never left, or one outside the text.
///
/// ```
/// use notepage::{position, Position};
/// // enter and exit of data, 2..3
/// let events = [[0, 5, 0, 0, 0, 0, 0, 0, 0, 0], [0; 10], [1, 5, 0, 0, 2, 0, 0, 0, 3, 0], [0; 10]].concat();
/// assert_eq!(position(b"a\nb", &events, 0), Some(Position { line: 2, column: 1 }));
/// ```
pub fn position(text: &[u8], events: &[u8], place: usize) -> Option<Position> {
    let count = events.len() / RECORD;
    let at = if place == count { text.len() } else { start(events, place)? };
    let before = text.get(..at)?;
    let line_start = before.iter().rposition(|&byte| byte == b'\n' || byte == b'\r').map_or(0, |found| found + 1);
    // CR LF is one ending
    let endings = before.iter().enumerate().filter(|&(k, &byte)| match byte {
        b'\n' => true,
        b'\r' => text.get(k + 1) != Some(&b'\n'),
        _ => false,
    });
    let continues = |byte: &&u8| **byte & 0xC0 != 0x80;
    Some(Position { line: 1 + endings.count(), column: 1 + before[line_start..].iter().filter(continues).count() })
}

/// The first byte of the element that an event enters or leaves: its exit has it.
fn start(events: &[u8], place: usize) -> Option<usize> {
    let mut open = 0usize;
    for record in events.chunks_exact(RECORD).skip(place) {
        match record[0] {
            0 => open += 1,
            _ => open = open.saturating_sub(1),
        }
        if open == 0 {
            let from: [u8; 4] = record[4..8].try_into().ok()?;
            return usize::try_from(u32::from_le_bytes(from)).ok();
        }
    }
    None
}
