// Times the proved library and the crate on the same inputs, by turns, and prints one table.
#[cfg(not(count))]
#[allow(dead_code)]
#[path = "../tools/oracle/src/bundle.rs"]
mod bundle;
#[cfg(not(count))]
#[allow(dead_code)]
#[path = "../tools/oracle/src/cases.rs"]
mod cases;
mod checker;
#[cfg(not(count))]
#[allow(dead_code)]
#[path = "../tools/oracle/src/drive.rs"]
mod drive;
#[allow(dead_code, unused_imports, unused_macros)]
#[path = "../tools/oracle/src/export.rs"]
mod export;
#[path = "../tools/oracle/src/random.rs"]
mod random;
#[allow(dead_code, unused_imports, unused_macros)]
#[path = "../tools/oracle/src/record.rs"]
mod record;

use markdown::util::encode::encode;
use markdown::util::sanitize_uri::sanitize;
use random::Random;
use std::hint::black_box;
use std::str::{from_utf8, from_utf8_unchecked};
use std::time::Instant;

const SEED: u64 = 1;
const ROUNDS: usize = 41;

/// What a public call answers: 0 and a length, or a refusal's number and place.
#[repr(C)]
struct Answer {
    number: u32,
    value: usize,
}

impl Answer {
    /// The length, or a number above every length.
    fn length(self) -> u64 {
        if self.number == 0 { self.value as u64 } else { u64::MAX }
    }
}

unsafe extern "C" fn page_escape(src: *const u8, n: usize, out: *mut u8, room: usize) -> u64 {
    notepage_escape(src, n, 1, out, room).length()
}

unsafe extern "C" fn page_sanitize(src: *const u8, n: usize, out: *mut u8, room: usize) -> u64 {
    notepage_sanitize(src, n, 0, out, room).length()
}

// Each answers a length; the public calls may refuse, by a number above every length.
type Ours = unsafe extern "C" fn(*const u8, usize, *mut u8, usize) -> u64;
extern "C" {
    fn leaf_encode(src: *const u8, n: usize, out: *mut u8, room: usize) -> u64;
    fn leaf_sanitize(src: *const u8, n: usize, out: *mut u8, room: usize) -> u64;
    fn notepage_escape(src: *const u8, n: usize, options: u32, out: *mut u8, room: usize) -> Answer;
    fn notepage_sanitize(src: *const u8, n: usize, options: u32, out: *mut u8, room: usize) -> Answer;
    fn notepage_sanitize_link(src: *const u8, n: usize, options: u32, out: *mut u8, room: usize) -> Answer;
    fn notepage_sanitize_links(
        text: *const u8,
        n: usize,
        ends: *const u32,
        count: usize,
        options: u32,
        out: *mut u8,
        room: usize,
        lengths: *mut u32,
        places: usize,
    ) -> Answer;
    fn leaf_read_bundle(
        bundle: *const u8,
        n: usize,
        text: *mut u8,
        text_room: usize,
        events: *mut u8,
        event_room: usize,
    ) -> u32;
    fn leaf_read_parts(
        bundle: *const u8,
        n: usize,
        size: usize,
        text: *mut u8,
        text_room: usize,
        events: *mut u8,
        event_room: usize,
    ) -> u32;
}

// The same jobs by the crate: a leaf is given text, a user has bytes and tests them first.
fn crate_encode(text: &[u8]) -> String {
    encode(unsafe { from_utf8_unchecked(text) }, true)
}
fn crate_sanitize(text: &[u8]) -> String {
    sanitize(unsafe { from_utf8_unchecked(text) })
}
fn crate_escape_bytes(text: &[u8]) -> String {
    encode(from_utf8(text).unwrap(), true)
}
fn crate_sanitize_bytes(text: &[u8]) -> String {
    sanitize(from_utf8(text).unwrap())
}

/// A job on an input of one or more texts, a call for each.
struct Row {
    call: &'static str,
    ours: Ours,
    theirs: fn(&[u8]) -> String,
    input: &'static str,
    texts: Vec<String>,
    /// how many times the answer's length is lent as room
    room: usize,
}

fn rows() -> Vec<Row> {
    let mut random = Random(SEED);
    let notes = [
        ("plain 16 KB", vec![note(&mut random, 16_384, usize::MAX)]),
        ("prose 16 KB", vec![note(&mut random, 16_384, 60)]),
        ("own source", vec![include_str!("harness.rs").to_string()]),
        ("dense 16 KB", vec![note(&mut random, 16_384, 8)]),
        ("40 bytes", vec![note(&mut random, 40, 20)]),
    ];
    let urls = [
        ("200 ASCII URLs", urls(&mut random, 200, 20, 80, &["a", "b", "Z", "9", "-", ".", "/", "?", "=", "&", "%20"])),
        ("ASCII URL 8 KB", urls(&mut random, 1, 8_192, 8_192, &["a", "b", "Z", "9", "-", ".", "/", "=", "%20"])),
        (
            "200 other URLs",
            urls(&mut random, 200, 20, 80, &["a", "b", "Z", "9", "/", "=", " ", "é", "\u{20AC}", "\u{1F44D}"]),
        ),
        ("200 kept URLs", urls(&mut random, 200, 20, 80, &["a", "b", "Z", "9", "-", ".", "/", "note", "_", "?", "="])),
        ("kept 64,000", links(&mut random, &LINK)),
        ("kept 64,000 ?=#", links(&mut random, &QUERY)),
    ];
    let mut rows = Vec::new();
    let mut add = |call, ours, theirs, inputs: &[(&'static str, Vec<String>)], room| {
        for (input, texts) in inputs {
            rows.push(Row { call, ours, theirs, input, texts: texts.clone(), room });
        }
    };
    add("leaf_encode", leaf_encode as Ours, crate_encode as fn(&[u8]) -> String, &notes, 1);
    add("leaf_sanitize", leaf_sanitize, crate_sanitize, &urls, 1);
    add("page_escape", page_escape, crate_escape_bytes, &notes, 1);
    add("page_sanitize", page_sanitize, crate_sanitize_bytes, &urls, 1);
    add("page_escape", page_escape, crate_escape_bytes, &notes[1..2], 4);
    add("page_sanitize", page_sanitize, crate_sanitize_bytes, &urls[..1], 4);
    rows
}

/// Words and spaces, with what needs an escape about every `gap` bytes, and a character outside ASCII as often.
fn note(random: &mut Random, length: usize, gap: usize) -> String {
    let mut text = String::new();
    while text.len() < length {
        match random.below(gap) {
            0 => text.push(random.pick(&['&', '<', '>', '"'])),
            1 if gap > 8 && gap < usize::MAX => text.push(random.pick(&['é', '\u{20AC}', '\u{1F44D}'])),
            _ => text.push(random.pick(b"abcdefghijklmnopqrstuvwxyz      ") as char),
        }
    }
    text
}

fn urls(random: &mut Random, count: usize, least: usize, most: usize, pieces: &[&str]) -> Vec<String> {
    let mut url = || {
        let length = least + random.below(most - least + 1);
        let mut url = "https://example.com/".to_string();
        while url.len() < length {
            url.push_str(random.pick(pieces));
        }
        url
    };
    (0..count).map(|_| url()).collect()
}

/// What a link table of kept bytes is made of: bytes that the cheap test lets pass, and some that it does not.
const LINK: [&str; 10] = ["a", "b", "Z", "9", "-", ".", "/", "packet", "note", "https://example.com/"];
const QUERY: [&str; 10] = ["a", "b", "Z", "9", "-", ".", "/", "?", "=", "#"];

/// 64,000 bytes that all stay, as one URL.
fn links(random: &mut Random, pieces: &[&str]) -> Vec<String> {
    let mut table = urls(random, 1, 64_000, 64_000, pieces);
    table[0].truncate(64_000);
    table
}

/// One side of a row, ready to be run. Both sides are first held to the same bytes.
type Side<'a> = Box<dyn FnMut() + 'a>;
fn sides(row: &Row) -> (Side<'_>, Side<'_>) {
    let mut lent: Vec<(&[u8], Vec<u8>)> = Vec::new();
    for text in row.texts.iter().map(|text| text.as_bytes()) {
        let wanted = (row.theirs)(text);
        let mut out = vec![0xA5; wanted.len() * row.room];
        let length = unsafe { (row.ours)(text.as_ptr(), text.len(), out.as_mut_ptr(), out.len()) } as usize;
        assert_eq!(length, wanted.len(), "{} gives another length on {:?}", row.call, from_utf8(text));
        assert_eq!(&out[..length], wanted.as_bytes(), "{} gives other bytes on {:?}", row.call, from_utf8(text));
        lent.push((text, out));
    }
    let ours = move || {
        for (text, out) in &mut lent {
            black_box(unsafe { (row.ours)(black_box(text.as_ptr()), text.len(), out.as_mut_ptr(), out.len()) });
        }
    };
    let theirs = || {
        for text in &row.texts {
            black_box((row.theirs)(black_box(text.as_bytes())));
        }
    };
    (Box::new(ours), Box::new(theirs))
}

/// Lists of 300 URLs, with how long they are at least and at most, as the release check has them.
fn link_lists() -> Vec<(&'static str, Vec<String>)> {
    let mut random = Random(SEED + 1);
    let ascii = ["a", "b", "Z", "9", "-", ".", "/", "?", "=", "&", "%20"];
    let other = ["a", "b", "Z", "9", "/", "=", " ", "é", "\u{20AC}", "\u{1F44D}"];
    vec![
        ("300 short URLs", urls(&mut random, 300, 20, 40, &ascii)),
        ("300 ASCII URLs", urls(&mut random, 300, 20, 80, &ascii)),
        ("300 other URLs", urls(&mut random, 300, 20, 80, &other)),
    ]
}

/// One call for the list, and a call for each of its URLs, each with as much room as its answer takes. Both are first held
/// to the same bytes.
fn list_sides(urls: &[String]) -> (Side<'_>, Side<'_>) {
    let text: Vec<u8> = urls.iter().flat_map(|url| url.bytes()).collect();
    let mut end = 0;
    let ends: Vec<u32> = urls
        .iter()
        .map(|url| {
            end += url.len() as u32;
            end
        })
        .collect();
    let mut singly: Vec<(&[u8], Vec<u8>)> = Vec::new();
    for url in urls.iter().map(|url| url.as_bytes()) {
        let mut out = vec![0xA5; 5 * url.len()];
        let length = unsafe { notepage_sanitize_link(url.as_ptr(), url.len(), 0, out.as_mut_ptr(), out.len()) }.length();
        out.truncate(length as usize);
        singly.push((url, out));
    }
    let wanted: Vec<u8> = singly.iter().flat_map(|(_, out)| out.iter().copied()).collect();
    let (mut out, mut lengths) = (vec![0xA5; wanted.len()], vec![u32::MAX; urls.len()]);
    let listed = move |out: &mut [u8], lengths: &mut [u32]| unsafe {
        let (to, places) = (out.as_mut_ptr(), lengths.as_mut_ptr());
        let (from, count) = (black_box(text.as_ptr()), ends.len());
        notepage_sanitize_links(from, text.len(), ends.as_ptr(), count, 0, to, out.len(), places, lengths.len())
    };
    assert_eq!(listed(&mut out, &mut lengths).length(), wanted.len() as u64);
    assert!(out == wanted && lengths.iter().zip(&singly).all(|(&length, (_, out))| length as usize == out.len()));
    let ours = move || {
        black_box(listed(&mut out, &mut lengths));
    };
    let theirs = move || {
        for (url, out) in &mut singly {
            black_box(unsafe { notepage_sanitize_link(black_box(url.as_ptr()), url.len(), 0, out.as_mut_ptr(), out.len()) });
        }
    };
    (Box::new(ours), Box::new(theirs))
}

/// How often a side is run in one measurement: for a millisecond or more.
fn repeats(side: &mut Side) -> u32 {
    let mut count = 1;
    while time(side, count) * (count as f64) < 1e6 {
        count *= 2;
    }
    count
}

/// Nanoseconds for one run, of `count`.
fn time(side: &mut Side, count: u32) -> f64 {
    let began = Instant::now();
    for _ in 0..count {
        side();
    }
    began.elapsed().as_nanos() as f64 / count as f64
}

/// The least time of each side, and the median of the rounds' ratios. The side that goes first changes each round.
fn measure(ours: &mut Side, theirs: &mut Side) -> (f64, f64, f64) {
    let (our_count, their_count) = (repeats(ours), repeats(theirs));
    let (mut our_least, mut their_least, mut ratios) = (f64::MAX, f64::MAX, Vec::new());
    for round in 0..ROUNDS {
        let early = (round % 2 == 0).then(|| time(ours, our_count));
        let their_time = time(theirs, their_count);
        let our_time = early.unwrap_or_else(|| time(ours, our_count));
        our_least = our_least.min(our_time);
        their_least = their_least.min(their_time);
        ratios.push(our_time / their_time);
    }
    ratios.sort_by(f64::total_cmp);
    (our_least, their_least, ratios[ROUNDS / 2])
}

// Valgrind's count is set to 0, and written to the next dump: run makes these two where it finds valgrind's header.
#[cfg(count)]
extern "C" {
    fn count_from_here();
    fn count_to_here();
}

#[cfg(count)]
fn counted(side: &mut Side) {
    unsafe { count_from_here() };
    side();
    unsafe { count_to_here() };
}

#[cfg(count)]
fn main() {
    for row in rows() {
        let (mut ours, mut theirs) = sides(&row);
        counted(&mut ours);
        counted(&mut theirs);
    }
    for (_, urls) in link_lists() {
        let (mut ours, mut theirs) = list_sides(&urls);
        counted(&mut ours);
        counted(&mut theirs);
    }
    checker::count_rows();
}

#[cfg(not(count))]
fn main() {
    let file = std::env::args().nth(1).expect("usage: harness INSTRUCTIONS");
    let lines = std::fs::read_to_string(file).expect("the file of instructions can be read");
    let counts: Vec<f64> = lines.lines().map(|line| line.parse().unwrap()).collect();
    print_table(&counts);
    print_links();
    print_reader();
    print_lists(counts.get(2 * rows().len()..).unwrap_or(&[]));
    checker::print_rows(counts.get(2 * (rows().len() + link_lists().len())..).unwrap_or(&[]));
}

/// Tables of 64,000 kept bytes through the leaf, beside a plain copy of the same bytes and one byte by byte.
#[cfg(not(count))]
fn print_links() {
    for (name, pieces) in [("links", LINK), ("links with ?=#", QUERY)] {
        let table = links(&mut Random(SEED), &pieces).remove(0).into_bytes();
        let room = table.len();
        let (mut to_ours, mut to_copy, mut to_bytes) = (vec![0; room], vec![0; room], vec![0u8; room]);
        let mut ours: Side = Box::new(|| {
            let length = unsafe { leaf_sanitize(black_box(table.as_ptr()), room, to_ours.as_mut_ptr(), room) };
            assert!(length == room as u64 && to_ours[room - 1] == table[room - 1]);
        });
        let mut copied: Side = Box::new(|| to_copy.copy_from_slice(black_box(&table)));
        let mut stepped: Side = Box::new(|| {
            for (to, from) in to_bytes.iter_mut().zip(&table) {
                unsafe { std::ptr::write_volatile(to, std::ptr::read_volatile(from)) };
            }
        });
        let (our_time, copy_time, _) = measure(&mut ours, &mut copied);
        let (_, step_time, _) = measure(&mut copied, &mut stepped);
        println!(
            "{name}, {room} kept bytes: {:.1} bytes/ns, {:.2} of a plain copy's time, {:.2} of a copy byte by byte",
            room as f64 / our_time,
            our_time / copy_time,
            our_time / step_time
        );
    }
}

/// How many bytes a part of the largest bundle has.
#[cfg(not(count))]
const PARTS: [usize; 5] = [1, 7, 512, 1_500, 65_536];

/// The largest bundle, read whole and in parts; and the same bytes copied and no more.
#[cfg(not(count))]
fn print_reader() {
    let mut random = Random(SEED);
    let mut noise = |length| (0..length).map(|_| random.below(256) as u8).collect::<Vec<u8>>();
    let (text, events) = (noise(64_000), noise(64_000));
    let bundle = bundle::pack(&text, &events, 7);
    let reader = |size: usize| -> Side {
        let (mut to_text, mut to_events) = (vec![0xA5; 64_000], vec![0xA5; 64_000]);
        let (from, text, events) = (bundle.clone(), text.clone(), events.clone());
        Box::new(move || {
            let (t, e) = (to_text.as_mut_ptr(), to_events.as_mut_ptr());
            let number = match size {
                0 => unsafe { leaf_read_bundle(from.as_ptr(), from.len(), t, 64_000, e, 64_000) },
                _ => unsafe { leaf_read_parts(from.as_ptr(), from.len(), size, t, 64_000, e, 64_000) },
            };
            assert!(number == 0 && to_text[63_999] == text[63_999] && to_events[63_999] == events[63_999]);
        })
    };
    let (again, mut copy) = (bundle.clone(), vec![0; bundle.len()]);
    let mut copied: Side = Box::new(move || copy.copy_from_slice(black_box(&again)));
    let (our_time, copy_time, _) = measure(&mut reader(0), &mut copied);
    let bytes = bundle.len() as f64;
    println!("bundle of {bytes} bytes: read {:.1} bytes/ns, a plain copy {:.1}", bytes / our_time, bytes / copy_time);
    for size in PARTS {
        let (parts_time, whole_time, _) = measure(&mut reader(size), &mut reader(0));
        let ratio = parts_time / whole_time;
        println!("  in parts of {size:>5} bytes: {:>6.2} bytes/ns, {ratio:.2} of the time of the whole", bytes / parts_time);
    }
}

/// A list of links in one call, beside a call for each URL.
#[cfg(not(count))]
fn print_lists(counts: &[f64]) {
    for (k, (name, urls)) in link_lists().iter().enumerate() {
        let (mut ours, mut theirs) = list_sides(urls);
        let (our_time, their_time, median) = measure(&mut ours, &mut theirs);
        let by_count = counts.get(2 * k..2 * k + 2).map_or("-".to_string(), |c| format!("{:.3}", c[0] / c[1]));
        let bytes = urls.iter().map(String::len).sum::<usize>() as f64;
        println!(
            "{name} in one call: {:.3} ns/B, singly {:.3}: least {:.3}, median {median:.3}, instructions {by_count}",
            our_time / bytes,
            their_time / bytes,
            our_time / their_time
        );
    }
}

/// `counts` begins with the instructions of each side of each row, in their order, or is empty.
#[cfg(not(count))]
fn print_table(counts: &[f64]) {
    println!("call           input           room  ours ns/B  crate ns/B  least  median  instructions");
    for (k, row) in rows().iter().enumerate() {
        let (mut ours, mut theirs) = sides(row);
        let (our_time, their_time, median) = measure(&mut ours, &mut theirs);
        let bytes = row.texts.iter().map(String::len).sum::<usize>() as f64;
        let by_count = counts.get(2 * k..2 * k + 2).map_or("-".to_string(), |c| format!("{:.3}", c[0] / c[1]));
        println!(
            "{:<13}  {:<14}  {:>4}  {:>9.3}  {:>10.3}  {:>5.3}  {median:>6.3}  {by_count:>12}",
            row.call,
            row.input,
            format!("{}x", row.room),
            our_time / bytes,
            their_time / bytes,
            our_time / their_time
        );
    }
}
