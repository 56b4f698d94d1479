//! The functions of the static library, as include/notepage.h declares them. Each is proved to read and write no byte
//! outside the buffers that are lent to it.

/// A length, or a refusal's number and place.
#[repr(C)]
#[derive(Clone, Copy)]
pub struct Answer {
    pub number: u32,
    pub value: usize,
}

/// A URL's length or a refusal's number and place, and the visits.
#[repr(C)]
#[derive(Clone, Copy)]
pub struct Normalized {
    pub number: u32,
    pub value: usize,
    pub visits: usize,
}

/// A text's length, the events' length in bytes and the edition, or a refusal's number and place.
#[repr(C)]
#[derive(Clone, Copy)]
pub struct Read {
    pub number: u32,
    pub edition: u32,
    pub value: usize,
    pub events: usize,
}

/// A bundle that comes in parts, between two calls.
#[repr(C)]
#[derive(Clone, Copy)]
pub struct Reader {
    begun: u32,
    edition: u32,
    text: u32,
    events: u32,
    text_came: u32,
    events_came: u32,
    over: u32,
    done: u32,
    held: usize,
    answer: Read,
    rest: [u8; 512],
}

extern "C" {
    pub fn notepage_check(text: *const u8, text_length: usize, events: *const u8, events_length: usize) -> Answer;
    pub fn notepage_build(
        text: *const u8,
        text_length: usize,
        events: *const u8,
        events_length: usize,
        options: u32,
        out: *mut u8,
        out_length: usize,
        work: *mut u8,
        work_length: usize,
    ) -> Answer;
    pub fn notepage_read_bundle(
        bundle: *const u8,
        bundle_length: usize,
        text: *mut u8,
        text_length: usize,
        events: *mut u8,
        events_length: usize,
    ) -> Read;
    pub fn notepage_write_bundle(
        text: *const u8,
        text_length: usize,
        events: *const u8,
        events_length: usize,
        edition: u32,
        out: *mut u8,
        out_length: usize,
    ) -> Answer;
    pub fn notepage_bundle_reader() -> Reader;
    pub fn notepage_feed_bundle(
        reader: Reader,
        part: *const u8,
        part_length: usize,
        text: *mut u8,
        text_length: usize,
        events: *mut u8,
        events_length: usize,
    ) -> Reader;
    pub fn notepage_end_bundle(
        reader: Reader,
        text: *mut u8,
        text_length: usize,
        events: *mut u8,
        events_length: usize,
    ) -> Reader;
    pub fn notepage_bundle_so_far(reader: Reader) -> Read;
    pub fn notepage_escape(text: *const u8, length: usize, options: u32, out: *mut u8, out_length: usize) -> Answer;
    pub fn notepage_sanitize(url: *const u8, length: usize, options: u32, out: *mut u8, out_length: usize) -> Answer;
    pub fn notepage_sanitize_link(
        url: *const u8,
        length: usize,
        options: u32,
        out: *mut u8,
        out_length: usize,
    ) -> Answer;
    pub fn notepage_sanitize_image(
        url: *const u8,
        length: usize,
        options: u32,
        out: *mut u8,
        out_length: usize,
    ) -> Answer;
    pub fn notepage_sanitize_links(
        text: *const u8,
        text_length: usize,
        ends: *const u32,
        ends_count: usize,
        options: u32,
        out: *mut u8,
        out_length: usize,
        lengths: *mut u32,
        lengths_count: usize,
    ) -> Answer;
    pub fn notepage_normalize(url: *const u8, length: usize, out: *mut u8, out_length: usize) -> Normalized;
    pub fn notepage_identity(label: *const u8, length: usize, out: *mut u8, out_length: usize) -> Answer;
    pub fn notepage_version() -> u32;
}
