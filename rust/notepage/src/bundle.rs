//! The note bundle: read whole, read in parts, written.
use crate::{raw, Refusal};

/// What a bundle holds: a text, its event records, and the edition of its blocks.
#[derive(Clone, Copy, Debug, PartialEq, Eq)]
#[allow(missing_docs)]
pub struct Bundle<'a> {
    pub text: &'a [u8],
    pub events: &'a [u8],
    pub edition: u32,
}

/// Reads a bundle into two buffers of at least [`LEAST_READ`](crate::LEAST_READ) each. Refusals 1, 10, 11, 12. Neither
/// the text nor the events are judged.
///
/// ```
/// use notepage::{read_bundle, write_bundle, LEAST_READ};
/// let mut out = [0; 2048];
/// let written = write_bundle(b"a\n", &[], 7, &mut out)?;
/// let (mut text, mut events) = ([0; LEAST_READ], [0; LEAST_READ]);
/// let read = read_bundle(written, &mut text, &mut events)?;
/// assert_eq!((read.text, read.events, read.edition), (&b"a\n"[..], &b""[..], 7));
/// # Ok::<(), notepage::Refusal>(())
/// ```
pub fn read_bundle<'a>(bundle: &[u8], text: &'a mut [u8], events: &'a mut [u8]) -> Result<Bundle<'a>, Refusal> {
    // SAFETY: all three are slices, and no slice that is written overlaps another.
    let read = unsafe {
        raw::notepage_read_bundle(
            bundle.as_ptr(),
            bundle.len(),
            text.as_mut_ptr(),
            text.len(),
            events.as_mut_ptr(),
            events.len(),
        )
    };
    held(read, text, events)
}

fn held<'a>(read: raw::Read, text: &'a [u8], events: &'a [u8]) -> Result<Bundle<'a>, Refusal> {
    match read.number {
        0 => Ok(Bundle { text: &text[..read.value], events: &events[..read.events], edition: read.edition }),
        number => Err(Refusal { number, place: read.value }),
    }
}

/// Writes the bundle of a text, its events and an edition into `out`. Refusals 1, 9. Neither is judged but for its
/// length.
pub fn write_bundle<'a>(text: &[u8], events: &[u8], edition: u32, out: &'a mut [u8]) -> Result<&'a [u8], Refusal> {
    // SAFETY: all three are slices, and the one that is written overlaps no other.
    let answer = unsafe {
        raw::notepage_write_bundle(
            text.as_ptr(),
            text.len(),
            events.as_ptr(),
            events.len(),
            edition,
            out.as_mut_ptr(),
            out.len(),
        )
    };
    Ok(&out[..answer.length()?])
}

/// The number for a bundle of which more is wanted.
const MORE: u32 = 255;

/// Reads a bundle that comes in parts, cut anywhere. It holds both buffers, so nobody changes them between two parts.
///
/// ```
/// use notepage::{write_bundle, BundleReader, LEAST_READ};
/// let mut out = [0; 2048];
/// let written = write_bundle(b"a\n", &[], 7, &mut out)?;
/// let (mut text, mut events) = ([0; LEAST_READ], [0; LEAST_READ]);
/// let mut reader = BundleReader::new(&mut text, &mut events);
/// for part in written.chunks(300) {
///     reader.feed(part);
/// }
/// assert_eq!(reader.end()?.text, b"a\n");
/// # Ok::<(), notepage::Refusal>(())
/// ```
pub struct BundleReader<'a> {
    state: raw::Reader,
    text: &'a mut [u8],
    events: &'a mut [u8],
}

impl<'a> BundleReader<'a> {
    /// A reader before the first part. The buffers have at least [`LEAST_READ`](crate::LEAST_READ) bytes each; shorter
    /// ones give refusal 1.
    pub fn new(text: &'a mut [u8], events: &'a mut [u8]) -> Self {
        // SAFETY: it takes nothing.
        BundleReader { state: unsafe { raw::notepage_bundle_reader() }, text, events }
    }

    /// Takes the next part, of any length, and says the refusal that is known by now.
    pub fn feed(&mut self, part: &[u8]) -> Option<Refusal> {
        let (text, events) = (&mut *self.text, &mut *self.events);
        // SAFETY: all three are slices, no slice that is written overlaps another, and both are as the last call left
        // them.
        self.state = unsafe {
            raw::notepage_feed_bundle(
                self.state,
                part.as_ptr(),
                part.len(),
                text.as_mut_ptr(),
                text.len(),
                events.as_mut_ptr(),
                events.len(),
            )
        };
        // SAFETY: the state is what a call before gave.
        let so_far = unsafe { raw::notepage_bundle_so_far(self.state) };
        Some(Refusal { number: so_far.number, place: so_far.value }).filter(|found| !matches!(found.number, 0 | MORE))
    }

    /// No part follows: what the bundle holds. Refusals 1, 10, 11, 12, a fault of a block before a wrong length.
    pub fn end(self) -> Result<Bundle<'a>, Refusal> {
        let (text, events) = (self.text, self.events);
        // SAFETY: both are slices, do not overlap, and are as the last call left them; the state is what a call gave.
        let read = unsafe {
            let ended =
                raw::notepage_end_bundle(self.state, text.as_mut_ptr(), text.len(), events.as_mut_ptr(), events.len());
            raw::notepage_bundle_so_far(ended)
        };
        held(read, text, events)
    }
}
