// The checker and the build beside the crate's `compile`, on the events of the same notes; and the worst case for refusal 7.
use crate::export::export;
use crate::record::{written, Record};
#[cfg(not(count))]
use crate::measure;
use crate::{Answer, Side};
use markdown::to_html::compile;
use markdown::{parser, CompileOptions, Constructs, ParseOptions};
use std::hint::black_box;
#[cfg(not(count))]
use std::time::Instant;

extern "C" {
    fn notepage_check(text: *const u8, n: usize, events: *const u8, m: usize) -> Answer;
    fn notepage_build(
        text: *const u8,
        n: usize,
        events: *const u8,
        m: usize,
        options: u32,
        out: *mut u8,
        room: usize,
        work: *mut u8,
        w: usize,
    ) -> Answer;
}

/// The number of RULES R7.1 for a list: 0 is yes.
fn check(text: &[u8], events: &[u8]) -> u32 {
    unsafe { notepage_check(text.as_ptr(), text.len(), events.as_ptr(), events.len()) }.number
}

/// The page's length in a buffer that is lent, or a number above every length.
fn build(text: &[u8], events: &[u8], out: &mut [u8], work: &mut [u8]) -> u64 {
    let (t, e) = (text.as_ptr(), events.as_ptr());
    let (o, w) = (out.as_mut_ptr(), work.as_mut_ptr());
    unsafe { notepage_build(t, text.len(), e, events.len(), 0, o, out.len(), w, work.len()) }.length()
}

/// A block of each kind of note, to be repeated.
const KINDS: [(&str, &str); 6] = [
    ("plain", "The offset of the packet is set by the ground and is read again on the next pass over the station.\n\n"),
    ("prose", "The *offset* of the `packet` is [set](https://example.com/a) by **the ground** & read &lt;again&gt;.\n\n"),
    ("code", "```c\nif (offset < 0 && packet > 3) {\n    return \"again\";\n}\n```\n\n"),
    ("lists", "1. set the offset\n2. read it\n   * again\n   * and *again*\n\ntext\n\n"),
    ("tables", "| field | unit |\n|:--|--:|\n| offset | m |\n| rate[^a] | m/s |\n\n[^a]: on the ground\n\n"),
    ("references", "&deg; &micro; &rarr; &Omega; &lang; &hellip; &nbsp; &times; &zwnj; &AElig;\n\n"),
];

fn options() -> ParseOptions {
    let constructs = Constructs {
        gfm_footnote_definition: true,
        gfm_label_start_footnote: true,
        gfm_table: true,
        ..Constructs::default()
    };
    ParseOptions { constructs, ..ParseOptions::default() }
}

/// Blocks up to a length, as many as the checker passes: each block has as many events as the next.
fn note(block: &str, length: usize) -> (String, Vec<Record>) {
    let events = |count: usize| export(&block.repeat(count)).expect("the crate's parser takes the note");
    let more = events(3).len() - events(2).len();
    let mut count = length.div_ceil(block.len()).min(3_200 / more + 1);
    loop {
        let (note, records) = (block.repeat(count), events(count));
        if check(note.as_bytes(), &written(&records)) == 0 {
            return (note, records);
        }
        count -= 1;
    }
}

/// The notes: of 2 KB, 16 KB and the largest that 3,200 events allow, but none twice.
fn notes() -> Vec<(&'static str, String, Vec<Record>)> {
    let mut all: Vec<(&str, String, Vec<Record>)> = Vec::new();
    for (kind, block) in KINDS {
        for length in [2_048, 16_384, 64_000] {
            let (note, records) = note(block, length);
            if all.last().is_none_or(|(_, last, _)| *last != note) {
                all.push((kind, note, records));
            }
        }
    }
    all
}

/// The checker, the public call (which checks too), and the crate's `compile`, after a look whether the pages are the same.
fn sides(kind: &str, note: &str, records: &[Record]) -> [Side<'static>; 3] {
    let events = written(records);
    let parsed = parser::parse(note, &options()).expect("only MDX has errors").0;
    let page = compile(&parsed, note.as_bytes(), &CompileOptions::default());
    let (mut out, mut work) = (vec![0; page.len()], vec![0; 49_152]);
    assert_eq!(build(note.as_bytes(), &events, &mut out, &mut work), page.len() as u64, "{kind}: the length");
    assert_eq!(out, page.as_bytes(), "{kind}: the page");
    let (bytes, list) = (note.as_bytes().to_vec(), events.clone());
    let checks: Side<'static> = Box::new(move || assert_eq!(check(black_box(&bytes), black_box(&list)), 0));
    let bytes = note.as_bytes().to_vec();
    let builds: Side<'static> = Box::new(move || {
        black_box(build(black_box(&bytes), black_box(&events), black_box(&mut out), black_box(&mut work)));
    });
    let bytes = note.as_bytes().to_vec();
    let theirs: Side = Box::new(move || {
        black_box(compile(black_box(&parsed), black_box(&bytes), &CompileOptions::default()));
    });
    [checks, builds, theirs]
}

/// For each note the checker, both, and `compile`: each is counted.
#[cfg(count)]
pub fn count_rows() {
    for (kind, note, records) in notes() {
        for side in &mut sides(kind, &note, &records) {
            crate::counted(side);
        }
    }
}

/// Least times in microseconds; and the ratios, by time and by instructions, of which there are three to a note.
#[cfg(not(count))]
pub fn print_rows(instructions: &[f64]) {
    println!("note        bytes  events  check us  build us   both us  compile us    check    build      both  instructions: build    both");
    for (k, (kind, note, records)) in notes().into_iter().enumerate() {
        let [mut checks, mut builds, mut theirs] = sides(kind, &note, &records);
        let (check_time, _, _) = measure(&mut checks, &mut theirs);
        let (both_time, their_time, _) = measure(&mut builds, &mut theirs);
        let build_time = both_time - check_time;
        let counts = instructions.get(3 * k..3 * k + 3);
        let by_count = counts.map_or("-".to_string(), |c| format!("{:>20.3}  {:>6.3}", (c[1] - c[0]) / c[2], c[1] / c[2]));
        println!(
            "{kind:<10} {:>6}  {:>6}  {:>8.1}  {:>8.1}  {:>8.1}  {:>10.1}  {:>7.3}  {:>7.3}  {:>8.3}  {by_count}",
            note.len(),
            records.len(),
            check_time / 1_000.0,
            build_time / 1_000.0,
            both_time / 1_000.0,
            their_time / 1_000.0,
            check_time / their_time,
            build_time / their_time,
            both_time / their_time
        );
    }
    print_worst();
}

/// 128 definitions, and links that all mean the last one: labels of some 60,000 bytes that differ at their end.
#[cfg(not(count))]
fn print_worst() {
    let text = vec![b'a'; 64_000];
    let mut records = Vec::new();
    for k in 0..128 {
        records.extend([Record::enter(53), Record::enter(54), Record::exit(54, k, 63_000), Record::exit(53, k, 63_000)]);
    }
    records.push(Record::enter(12));
    for _ in 0..447 {
        records.extend([45, 47, 48].map(Record::enter));
        records.extend([48, 47, 45].map(|name| Record::exit(name, 127, 63_000)));
    }
    records.push(Record::exit(12, 0, 64_000));
    let events = written(&records);
    let start = Instant::now();
    assert_eq!(check(&text, &events), 0);
    println!("refusal 7, {} events, labels of 63,000 bytes: {:.3} s", records.len(), start.elapsed().as_secs_f64());
    let (mut out, mut work) = (vec![0; 65_536], vec![0; 49_152]);
    let start = Instant::now();
    assert_eq!(build(&text, &events, &mut out, &mut work), 7 + 447 * 15, "the length of 447 links");
    println!("both, the same list: {:.3} s", start.elapsed().as_secs_f64());
}
