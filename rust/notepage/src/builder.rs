//! A builder that owns its buffers.
use crate::{build, read_bundle, Options, Refusal, LEAST_READ, LEAST_WORK};
use alloc::vec;
use alloc::vec::Vec;

/// The room that a builder begins with.
const FIRST_ROOM: usize = 65_536;
/// The most room that a builder lends if nothing else is said.
const MOST_ROOM: usize = 16 << 20;

/// Builds pages in buffers of its own, one after another. Where a page is longer than the room, the room doubles and
/// the page is built again, up to a most: refusal 9 comes from there alone.
///
/// ```
/// use notepage::{Builder, Options};
/// let mut builder = Builder::new(Options::default()).with_most_room(1_000_000);
/// assert_eq!(builder.build(b"", &[])?, "");
/// assert_eq!(builder.build(b"", &[1]).unwrap_err().number, 1);
/// # Ok::<(), notepage::Refusal>(())
/// ```
pub struct Builder {
    options: Options,
    most_room: usize,
    out: Vec<u8>,
    work: Vec<u8>,
}

impl Builder {
    /// A builder with these options.
    pub fn new(options: Options) -> Self {
        Builder { options, most_room: MOST_ROOM, out: vec![0; FIRST_ROOM], work: vec![0; LEAST_WORK] }
    }

    /// The same, whose pages have at most so many bytes (if nothing is said, 16 MiB).
    pub fn with_most_room(mut self, most_room: usize) -> Self {
        self.most_room = most_room;
        self.out.truncate(most_room);
        self
    }

    /// The page of a text and its events. Refusals 1 to 9.
    pub fn build(&mut self, text: &[u8], events: &[u8]) -> Result<&str, Refusal> {
        loop {
            let length = build(text, events, self.options, &mut self.out, &mut self.work).map(str::len);
            match length {
                // SAFETY: `build` gave these bytes as a str.
                Ok(length) => return Ok(unsafe { core::str::from_utf8_unchecked(&self.out[..length]) }),
                Err(refusal) if refusal.number == 9 && self.out.len() < self.most_room => {
                    self.out.resize(self.most_room.min(self.out.len().max(1) * 2), 0);
                }
                Err(refusal) => return Err(refusal),
            }
        }
    }

    /// The page of a bundle's note. Refusals 1 to 12, the bundle's first.
    pub fn build_bundle(&mut self, bundle: &[u8]) -> Result<&str, Refusal> {
        let (mut text, mut events) = (vec![0; LEAST_READ], vec![0; LEAST_READ]);
        let note = read_bundle(bundle, &mut text, &mut events)?;
        self.build(note.text, note.events)
    }
}
