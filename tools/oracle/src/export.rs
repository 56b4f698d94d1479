// The exporter: a note in, its text and event records out, by the crate's own parser; and the crate's page of a note.
use crate::record::{self, names, Record, ENTER};
use markdown::event::{Event, Kind, Name, Point};
use markdown::mdast::AlignKind;
use markdown::util::constant::TAB_SIZE;
use markdown::util::infer::{gfm_table_align, list_loose};
use markdown::{parser, Constructs, Options, ParseOptions};
use std::panic;

const NAMES: [Name; 66] = names!(markdown);

/// CommonMark, footnotes and tables.
fn parse_options() -> ParseOptions {
    let constructs = Constructs {
        gfm_footnote_definition: true,
        gfm_label_start_footnote: true,
        gfm_table: true,
        ..Constructs::default()
    };
    ParseOptions { constructs, ..ParseOptions::default() }
}

/// The options of a page, as `calls` takes them: three bits, the default line ending's number, and 4 for the names of HTML 4.01.
#[derive(Clone, Copy, Default)]
pub struct PageOptions {
    pub bits: u8,
    pub ending: u8,
    pub names: u8,
}

/// These as one of the two libraries takes them.
macro_rules! compile_options {
    ($library:ident, $options:expr) => {
        $library::CompileOptions {
            allow_dangerous_html: $options.bits & 1 == 1,
            allow_dangerous_protocol: $options.bits & 2 == 2,
            allow_any_img_src: $options.bits & 4 == 4,
            default_line_ending: match $options.ending {
                0 => $library::LineEnding::LineFeed,
                1 => $library::LineEnding::CarriageReturn,
                _ => $library::LineEnding::CarriageReturnLineFeed,
            },
            ..Default::default()
        }
    };
}
pub(crate) use compile_options;

/// The records of a note, or nothing where the crate's parser panics.
pub fn export(note: &str) -> Option<Vec<Record>> {
    caught(|| parsed(note))
}

/// The records of a note. The crate's parser may panic.
pub fn parsed(note: &str) -> Vec<Record> {
    let options = parse_options();
    let (events, _) = parser::parse(note, &options).expect("only MDX has errors");
    records(&events)
}

/// The crate's page of a note, or nothing where the crate panics.
pub fn page(note: &str, options: PageOptions) -> Option<String> {
    let options = Options { parse: parse_options(), compile: compile_options!(markdown, options) };
    caught(|| markdown::to_html_with_options(note, &options).expect("only MDX has errors"))
}

/// What the crate gives, or nothing where it panics. It says nothing then.
pub fn caught<T>(work: impl FnOnce() -> T) -> Option<T> {
    let hook = panic::take_hook();
    panic::set_hook(Box::new(|_| {}));
    let result = panic::catch_unwind(panic::AssertUnwindSafe(work));
    panic::set_hook(hook);
    result.ok()
}

/// An exit is paired with the newest open enter of its name.
fn records(events: &[Event]) -> Vec<Record> {
    let mut open: Vec<usize> = Vec::new();
    let mut records = Vec::new();
    for (index, event) in events.iter().enumerate() {
        let name = number(&event.name);
        if event.kind == Kind::Enter {
            open.push(index);
            records.push(Record { kind: ENTER, name, extra: extra(events, index), ..Record::default() });
        } else {
            let newest = open.iter().rposition(|&enter| events[enter].name == event.name);
            let start = newest.map_or(&event.point, |place| &events[open.remove(place)].point);
            records.push(exit(name, start, &event.point));
        }
    }
    records
}

fn number(name: &Name) -> u8 {
    NAMES.iter().position(|listed| listed == name).unwrap_or(0) as u8
}

/// The looseness of a list, or a table's columns and alignments, both as the crate infers them. The true count of
/// columns is written, above 24 too; alignments that find no bits are lost.
fn extra(events: &[Event], index: usize) -> u64 {
    match events[index].name {
        Name::ListOrdered | Name::ListUnordered => u64::from(list_loose(events, index, true)),
        Name::GfmTable => {
            let columns = gfm_table_align(events, index);
            let count = columns.len().min(255) as u64;
            let places = columns.iter().zip((8..64).step_by(2));
            places.fold(count, |extra, (column, bit)| extra | alignment(column) << bit)
        }
        _ => 0,
    }
}

fn alignment(column: &AlignKind) -> u64 {
    match column {
        AlignKind::None => 0,
        AlignKind::Left => 1,
        AlignKind::Right => 2,
        AlignKind::Center => 3,
    }
}

/// The crate's points resolved, as its `Slice::from_position` does it. Only a code chunk keeps its virtual spaces. A piece
/// of a tab, whose end lies before its start, is empty.
fn exit(name: u8, start: &Point, end: &Point) -> Record {
    let (before, from) = if start.vs > 0 { (TAB_SIZE - start.vs, start.index + 1) } else { (0, start.index) };
    let (after, to) = if end.vs > 0 { (end.vs - 1, end.index + 1) } else { (0, end.index) };
    let mut record = Record::exit(name, from, to.max(from));
    if name == number(&Name::CodeFlowChunk) {
        (record.before, record.after) = (before as u8, after as u8);
    }
    record
}

/// For each line of standard input, a note in hexadecimal, one line of JSON: text, events and page, in hexadecimal, and
/// null where the crate panics.
pub fn print(options: PageOptions, page_of: fn(&[u8], &[Record], PageOptions) -> Option<String>) {
    for line in std::io::stdin().lines() {
        let bytes = from_hexadecimal(&line.expect("standard input can be read"));
        let note = String::from_utf8(bytes).expect("a note is UTF-8");
        let records = export(&note);
        let page = match &records {
            Some(records) if options.bits & 8 == 8 => page_of(note.as_bytes(), records, options),
            _ => page(&note, options),
        };
        let events = json(records.map(|records| record::written(&records)));
        let page = json(page.map(String::into_bytes));
        println!("{{\"text\": {}, \"events\": {events}, \"page\": {page}}}", json(Some(note.into_bytes())));
    }
}

pub fn json(bytes: Option<Vec<u8>>) -> String {
    bytes.map_or("null".to_string(), |bytes| format!("\"{}\"", hexadecimal(&bytes)))
}

fn hexadecimal(bytes: &[u8]) -> String {
    bytes.iter().map(|byte| format!("{byte:02x}")).collect()
}

pub fn from_hexadecimal(digits: &str) -> Vec<u8> {
    let digit = |byte: u8| char::from(byte).to_digit(16).expect("a hexadecimal digit") as u8;
    digits.as_bytes().chunks(2).map(|pair| digit(pair[0]) << 4 | digit(pair[1])).collect()
}
