//! Why there is no answer.
use crate::raw;
use core::error::Error;
use core::fmt;

/// A refusal: a number from 1 to 12, and where. The place is an event for 3 to 9 of a check or a build (counted from
/// 0; the count of events where the list ends too early or the footnote section has no room), a URL of a list of links
/// (counted from 0), a block for 10 to 12, else 0.
///
/// ```
/// let refusal = notepage::check(b"caf\xe9", &[]).unwrap_err();
/// assert_eq!(refusal.to_string(), "refused 2 at 0: the text is not UTF-8: save the note as UTF-8");
/// ```
#[derive(Clone, Copy, Debug, PartialEq, Eq)]
pub struct Refusal {
    /// 1 to 12
    pub number: u32,
    /// An event, a URL of a list, a block, or 0
    pub place: usize,
}

impl Refusal {
    /// What the number means, and what to do.
    pub fn meaning(&self) -> &'static str {
        match self.number {
            1 => "a length is wrong: a text has at most 64,000 bytes, a note at most 3,200 events, and a lent buffer its least length",
            2 => "the text is not UTF-8: save the note as UTF-8",
            3 => "an event does not belong to this text: export the note again, or take columns out of a table of over 24",
            4 => "an event stands where none may, or the list ends too early: write the note otherwise, or send the whole list",
            5 => "a slice breaks its rule, often an unknown &name;: write the character",
            6 => "the 129th definition or the 65th footnote: take out those that nothing uses, or split the note",
            7 => "a link, an image or a footnote call whose label nothing defines: define it, or mend its spelling",
            8 => "a label, cell, heading or footnote, or all definitions, are longer than 16,384 bytes: shorten them",
            9 => "the answer is longer than the output that was lent: lend more room, or split the note",
            10 => "the bundle is broken: fetch or pack it again",
            11 => "a block was damaged on its way: fetch the bundle again",
            12 => "blocks of two editions are mixed: fetch the whole bundle again",
            _ => "no number of this library",
        }
    }

    /// Whether the place is that of an event.
    pub fn is_at_event(&self) -> bool {
        (3..=9).contains(&self.number)
    }
}

impl fmt::Display for Refusal {
    fn fmt(&self, to: &mut fmt::Formatter) -> fmt::Result {
        write!(to, "refused {} at {}: {}", self.number, self.place, self.meaning())
    }
}

impl Error for Refusal {}

impl raw::Answer {
    /// The length, or the refusal.
    pub(crate) fn length(self) -> Result<usize, Refusal> {
        match self.number {
            0 => Ok(self.value),
            number => Err(Refusal { number, place: self.value }),
        }
    }
}
