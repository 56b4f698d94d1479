//! The pages of console notes, built by proved code.
//!
//! Each function is a call of the proved static library: on all inputs it ends with an answer or with a numbered
//! [`Refusal`], and says every byte of every buffer that is lent to it. Nothing is allocated (but by [`Builder`]), no
//! file is touched, and any number of threads may call at once. The crate `notepage-export` makes the events of a
//! note.
//!
//! ```
//! use notepage::{Builder, Options};
//!
//! // the text `a`, and the events of a paragraph that holds it: kind, name, before, after, from, to, extra
//! let mut events = Vec::new();
//! for (kind, name, to) in [(0u8, 12u8, 0u32), (0, 5, 0), (1, 5, 1), (1, 12, 1)] {
//!     events.extend([kind, name, 0, 0, 0, 0, 0, 0]);
//!     events.extend(to.to_le_bytes());
//!     events.extend(0u64.to_le_bytes());
//! }
//! let mut builder = Builder::new(Options::default());
//! assert_eq!(builder.build(b"a", &events)?, "<p>a</p>");
//! # Ok::<(), notepage::Refusal>(())
//! ```
#![no_std]
#![warn(missing_docs, clippy::undocumented_unsafe_blocks)]
#![deny(unsafe_op_in_unsafe_fn)]

#[cfg(feature = "alloc")]
extern crate alloc;

#[cfg(feature = "alloc")]
mod builder;
mod bundle;
mod options;
mod position;
mod raw;
mod refusal;

#[cfg(feature = "alloc")]
pub use builder::Builder;
pub use bundle::{read_bundle, write_bundle, Bundle, BundleReader};
pub use options::{Ending, Escaping, Names, Options};
pub use position::{position, Position};
pub use refusal::Refusal;

/// The most bytes of a text, a URL or a label.
pub const MOST_TEXT: usize = 64_000;
/// The bytes of an event record.
pub const RECORD: usize = 20;
/// The most event records of a note.
pub const MOST_EVENTS: usize = 3_200;
/// The fewest work bytes that a build is lent.
pub const LEAST_WORK: usize = 49_152;
/// The fewest bytes of each of a bundle reader's two buffers.
pub const LEAST_READ: usize = 64_000;
/// The bytes of a block of a bundle.
pub const BLOCK: usize = 512;
/// The bytes of the largest bundle: 257 blocks.
pub const MOST_BUNDLE: usize = 257 * BLOCK;
/// Room that [`escape`] never refuses, for each byte of the text; a text of `"` alone takes it.
pub const ESCAPE_ROOM: usize = 6;
/// Room that [`sanitize`], [`sanitize_link`] and [`sanitize_image`] never refuse, for each byte of the URL; one of `&`
/// alone takes it.
pub const SANITIZE_ROOM: usize = 5;
/// Room that [`normalize`] never refuses, for each byte of the URL; one of spaces alone takes it.
pub const NORMALIZE_ROOM: usize = 3;

/// The version of the library that is linked: 10,000 times the first number, 100 times the second, and the third.
pub fn version() -> u32 {
    // SAFETY: it takes nothing.
    unsafe { raw::notepage_version() }
}

/// Whether a text and its events meet the rules of a build. Refusals 1 to 7.
///
/// ```
/// assert!(notepage::check(b"no events: an empty page\n", &[]).is_ok());
/// ```
pub fn check(text: &[u8], events: &[u8]) -> Result<(), Refusal> {
    // SAFETY: both are slices, and only read.
    let answer = unsafe { raw::notepage_check(text.as_ptr(), text.len(), events.as_ptr(), events.len()) };
    answer.length().map(|_| ())
}

/// The page of a note, in `out`. `out` may have any length, `work` at least [`LEAST_WORK`]. Refusals 1 to 9; after one
/// every byte of `out` is zero, and behind a page the rest is. Every work byte is zero afterwards.
///
/// ```
/// let (mut out, mut work) = ([0; 100], [0; notepage::LEAST_WORK]);
/// assert_eq!(notepage::build(b"", &[], Default::default(), &mut out, &mut work), Ok(""));
///
/// let refusal = notepage::build(b"", &[], Default::default(), &mut out, &mut []).unwrap_err();
/// assert_eq!((refusal.number, refusal.place), (1, 0));
/// ```
pub fn build<'a>(
    text: &[u8],
    events: &[u8],
    options: Options,
    out: &'a mut [u8],
    work: &mut [u8],
) -> Result<&'a str, Refusal> {
    // SAFETY: all four are slices, and no slice that is written overlaps another.
    let answer = unsafe {
        raw::notepage_build(
            text.as_ptr(),
            text.len(),
            events.as_ptr(),
            events.len(),
            options.bits(),
            out.as_mut_ptr(),
            out.len(),
            work.as_mut_ptr(),
            work.len(),
        )
    };
    let page = &out[..answer.length()?];
    // SAFETY: `Builds`, the contract of a build, says that these bytes are a page that the definition's run gives, and
    // the theorem `run-utf8` (crates/machine_clean/proofs/Page.antt) that each such page is UTF-8, whatever the text and the
    // events.
    Ok(unsafe { core::str::from_utf8_unchecked(page) })
}

/// A text made safe for HTML; with escaping off NUL alone is replaced. Refusals 1, 2, 9; no 9 where `out` has
/// [`ESCAPE_ROOM`] bytes for each of the text's.
///
/// ```
/// use notepage::Escaping;
/// let mut out = [0; 5 * notepage::ESCAPE_ROOM];
/// assert_eq!(notepage::escape(b"a < b", Escaping::Html, &mut out), Ok("a &lt; b"));
/// assert_eq!(notepage::escape(b"it's", Escaping::HtmlAndApostrophes, &mut out), Ok("it&#39;s"));
/// ```
pub fn escape<'a>(text: &[u8], escaping: Escaping, out: &'a mut [u8]) -> Result<&'a str, Refusal> {
    // SAFETY: both are slices, and do not overlap.
    let answer =
        unsafe { raw::notepage_escape(text.as_ptr(), text.len(), escaping.bits(), out.as_mut_ptr(), out.len()) };
    let escaped = &out[..answer.length()?];
    // SAFETY: `Wrote` says that the text is UTF-8 where there is an answer, and that these bytes are `encode_of` of it:
    // the theorem `encoded` (crates/machine_clean/proofs/Encoded.antt) says that they are UTF-8 then.
    Ok(unsafe { core::str::from_utf8_unchecked(escaped) })
}

/// A call of the library that makes a URL safe.
type Sanitizes = unsafe extern "C" fn(*const u8, usize, u32, *mut u8, usize) -> raw::Answer;

/// The options of a URL.
fn quoting(apostrophes: bool) -> u32 {
    if apostrophes { options::APOSTROPHES } else { 0 }
}

fn sanitized<'a>(call: Sanitizes, url: &[u8], apostrophes: bool, out: &'a mut [u8]) -> Result<&'a str, Refusal> {
    let options = quoting(apostrophes);
    // SAFETY: both are slices, and do not overlap.
    let answer = unsafe { call(url.as_ptr(), url.len(), options, out.as_mut_ptr(), out.len()) };
    let made = &out[..answer.length()?];
    // SAFETY: `Wrote` says that the URL is UTF-8 where there is an answer, and what these bytes are of it: the theorem
    // `url-valid` (crates/machine_clean/proofs/Urls.antt) says that they are UTF-8 then, with protocols and without.
    Ok(unsafe { core::str::from_utf8_unchecked(made) })
}

/// A URL made safe for an attribute, with `'` escaped or not. Refusals 1, 2, 9; no 9 where `out` has
/// [`SANITIZE_ROOM`] bytes for each of the URL's.
///
/// ```
/// let mut out = [0; 5 * notepage::SANITIZE_ROOM];
/// assert_eq!(notepage::sanitize(b"a b&c", false, &mut out), Ok("a%20b&amp;c"));
/// ```
pub fn sanitize<'a>(url: &[u8], apostrophes: bool, out: &'a mut [u8]) -> Result<&'a str, Refusal> {
    sanitized(raw::notepage_sanitize, url, apostrophes, out)
}

/// The same for a link: empty for a scheme that is not http, https, irc, ircs, mailto or xmpp.
///
/// ```
/// let mut out = [0; 64];
/// assert_eq!(notepage::sanitize_link(b"javascript':x", true, &mut out), Ok(""));
/// ```
pub fn sanitize_link<'a>(url: &[u8], apostrophes: bool, out: &'a mut [u8]) -> Result<&'a str, Refusal> {
    sanitized(raw::notepage_sanitize_link, url, apostrophes, out)
}

/// The same for an image: empty for a scheme that is not http or https.
///
/// ```
/// let mut out = [0; 64];
/// assert_eq!(notepage::sanitize_image(b"mailto:x", false, &mut out), Ok(""));
/// ```
pub fn sanitize_image<'a>(url: &[u8], apostrophes: bool, out: &'a mut [u8]) -> Result<&'a str, Refusal> {
    sanitized(raw::notepage_sanitize_image, url, apostrophes, out)
}

/// A URL that was normalized.
#[derive(Clone, Copy, Debug, PartialEq, Eq)]
pub struct Normalized<'a> {
    /// The URL, percent-encoded.
    pub url: &'a str,
    /// How many characters were visited: a kept `%` triple counts as one. At most the bytes that were given.
    pub visits: usize,
}

/// A URL percent-encoded and no more: not safe for an attribute yet. Refusals 1, 2, 9; no 9 where `out` has
/// [`NORMALIZE_ROOM`] bytes for each of the URL's.
///
/// ```
/// let mut out = [0; 4 * notepage::NORMALIZE_ROOM];
/// let made = notepage::normalize(b"%%20", &mut out)?;
/// assert_eq!((made.url, made.visits), ("%25%20", 2));
/// # Ok::<(), notepage::Refusal>(())
/// ```
pub fn normalize<'a>(url: &[u8], out: &'a mut [u8]) -> Result<Normalized<'a>, Refusal> {
    // SAFETY: both are slices, and do not overlap.
    let answer = unsafe { raw::notepage_normalize(url.as_ptr(), url.len(), out.as_mut_ptr(), out.len()) };
    let raw::Normalized { number, value, visits } = answer;
    let made = &out[..raw::Answer { number, value }.length()?];
    // SAFETY: `HasNormalized` says that these bytes are `normalize_of` of the URL: the theorem `normalized`
    // (crates/machine_clean/proofs/Urls.antt) says that they are UTF-8, whatever its bytes.
    let url = unsafe { core::str::from_utf8_unchecked(made) };
    Ok(Normalized { url, visits })
}

/// A whole list of links in one call: a text, and the places where its URLs end; each begins where the one before ends.
/// What [`sanitize_link`] gives for each, with `'` escaped or not, one behind the other, and how long each is in
/// `lengths`, which has a place for each URL or more. Refusals 1, 2, 3, 9; the place of 3, of 9 and of 1 for a wrong end
/// is the URL's index.
///
/// ```
/// let (mut out, mut lengths) = ([0; 64], [0; 3]);
/// let made = notepage::sanitize_links(b"a&javascript:xb", &[2, 14, 15], false, &mut out, &mut lengths);
/// assert_eq!((made, lengths), (Ok("a&amp;b"), [6, 0, 1]));
/// ```
pub fn sanitize_links<'a>(
    text: &[u8],
    ends: &[u32],
    apostrophes: bool,
    out: &'a mut [u8],
    lengths: &mut [u32],
) -> Result<&'a str, Refusal> {
    let options = quoting(apostrophes);
    let (from, urls, to, places) = (text.as_ptr(), ends.as_ptr(), out.as_mut_ptr(), lengths.as_mut_ptr());
    let (room, count) = (out.len(), lengths.len());
    // SAFETY: all are slices, and those that are written overlap no other.
    let answer =
        unsafe { raw::notepage_sanitize_links(from, text.len(), urls, ends.len(), options, to, room, places, count) };
    let made = &out[..answer.length()?];
    // SAFETY: `Lists` says that the text is UTF-8 where there is an answer, and that no URL ends inside a character, so
    // that each is UTF-8 (`each-valid`, crates/call_links/proofs/Single.antt); with `url-valid`, as above, so are these bytes.
    Ok(unsafe { core::str::from_utf8_unchecked(made) })
}

/// What a label is compared by, as bytes: that they are UTF-8 is no theorem yet. Refusals 1, 2, 9.
///
/// ```
/// let mut out = [0; 64];
/// assert_eq!(notepage::identity(b" a\t\nb ", &mut out), Ok(&b"A B"[..]));
/// ```
pub fn identity<'a>(label: &[u8], out: &'a mut [u8]) -> Result<&'a [u8], Refusal> {
    // SAFETY: both are slices, and do not overlap.
    let answer = unsafe { raw::notepage_identity(label.as_ptr(), label.len(), out.as_mut_ptr(), out.len()) };
    Ok(&out[..answer.length()?])
}
