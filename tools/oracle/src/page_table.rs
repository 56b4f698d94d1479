// Answers of the build read off the rules by hand, to which the judge is held: its examples, and 8 and 9 with their places.
use crate::edges::{element as with_slice, path};
use crate::export::PageOptions;
use crate::lists::List;
use crate::record::Record;

pub enum Wanted {
    Page(String),
    Length(usize),
    No(u32, usize),
}
use Wanted::{Length, No, Page};

/// The list, the options, the room, and what is wanted of the run. A list of these may be one that the checker refuses.
pub type Row = (List, PageOptions, usize, Wanted);

pub const OFF: PageOptions = PageOptions { bits: 0, ending: 0, names: 0 };
const WIDE: usize = 65_536;

/// A text of letters; its slices are told apart by their lengths alone.
fn letters(count: usize) -> String {
    "a".repeat(count)
}

fn row(text: &str, records: &[Record], room: usize, wanted: Wanted) -> Row {
    (List::new(text, records), OFF, room, wanted)
}

fn page(text: &str, records: &[Record], room: usize, page: &str) -> Row {
    row(text, records, room, Page(page.to_string()))
}

/// Each room with its refusal, then the page that fits.
fn rooms(text: &str, records: &[Record], refusals: &[(usize, u32, usize)], fits: (usize, &str)) -> Vec<Row> {
    let mut rows: Vec<Row> = refusals.iter().map(|&(room, no, at)| row(text, records, room, No(no, at))).collect();
    rows.push(page(text, records, fits.0, fits.1));
    rows
}

fn element(name: u8, inside: &[Record]) -> Vec<Record> {
    with_slice(name, 0, 1, inside)
}

fn parts(parts: &[Vec<Record>]) -> Vec<Record> {
    parts.concat()
}

pub fn data(length: usize) -> Vec<Record> {
    path(&[5], 0, length)
}

pub fn paragraph(length: usize) -> Vec<Record> {
    element(12, &data(length))
}

pub fn heading(length: usize) -> Vec<Record> {
    element(13, &parts(&[path(&[14], 0, 1), element(15, &data(length))]))
}

/// A link's label inside a heading's text.
fn linked(before: usize, label: usize) -> Vec<Record> {
    let link = element(45, &parts(&[element(47, &element(48, &data(label))), path(&[49], 0, 1)]));
    element(13, &parts(&[path(&[14], 0, 1), element(15, &parts(&[data(before), link]))]))
}

pub fn setext(length: usize) -> Vec<Record> {
    element(16, &parts(&[element(17, &data(length)), path(&[18], 0, 1)]))
}

/// Label, destination and title of a link.
pub fn link(label: usize, destination: usize, title: usize) -> Vec<Record> {
    let resource = element(49, &parts(&[element(50, &data(destination)), element(51, &data(title))]));
    element(12, &element(45, &parts(&[element(47, &element(48, &data(label))), resource])))
}

pub fn definition(destination: usize, title: usize) -> Vec<Record> {
    element(53, &parts(&[element(54, &data(1)), element(55, &data(destination)), element(56, &data(title))]))
}

pub fn footnote(inside: &[Record]) -> Vec<Record> {
    element(63, &parts(&[path(&[64, 65], 0, 1), inside.to_vec()]))
}

pub fn called() -> Vec<Record> {
    parts(&[element(12, &element(62, &element(47, &element(48, &data(1))))), footnote(&[])])
}

pub fn rows() -> Vec<Row> {
    let groups = [examples(), nines(), captures(), dropped(), held(), kept(), order()];
    groups.into_iter().flatten().collect()
}

/// The examples of RULES R19.2.
fn examples() -> Vec<Row> {
    let value = |to| element(21, &element(23, &element(24, &parts(&[path(&[26], 0, to), path(&[25], 0, 0)]))));
    let code = |to| element(12, &element(33, &path(&[34], 0, to)));
    let cell = |to| {
        let mut table = element(57, &element(58, &element(60, &element(61, &element(33, &path(&[34], 0, to))))));
        table[0].extra = 1;
        table
    };
    let open = row("a", &[Record::enter(12)], WIDE, Page("<p>".to_string()));
    vec![
        page("007", &value(3), WIDE, "<ol start=\"7\">\n<li></li>\n</ol>"),
        page("1", &value(1), WIDE, "<ol>\n<li></li>\n</ol>"),
        page(" a ", &code(3), WIDE, "<p><code>a</code></p>"),
        page("  ", &code(2), WIDE, "<p><code>  </code></p>"),
        page("   ", &code(3), WIDE, "<p><code>   </code></p>"),
        page("a\\|b", &cell(4), WIDE, "<table>\n<thead>\n<tr>\n<th><code>a|b</code></th>\n</tr>\n</thead>\n</table>"),
        page("", &[], 0, ""),
        // no checker here: the run of an open paragraph
        open,
    ]
}

/// 9: the page is longer than the output; what is captured is no part of it.
fn nines() -> Vec<Row> {
    let lines = parts(&[paragraph(1), path(&[3], 1, 2)]);
    let mut rows =
        rooms("a\n", &lines, &[(8, 9, 5), (7, 9, 3), (4, 9, 3), (3, 9, 2), (2, 9, 0), (0, 9, 0)], (9, "<p>a</p>\n"));
    rows.extend(rooms("a", &heading(1), &[(9, 9, 7), (4, 9, 6), (3, 9, 2)], (10, "<h1>a</h1>")));
    let long = letters(16_385);
    rows.push(page(&long, &paragraph(16_385), WIDE, &format!("<p>{long}</p>")));
    rows
}

fn captures() -> Vec<Row> {
    let (most, over, ten) = (letters(16_384), letters(16_385), letters(10_000));
    vec![
        page(&most, &heading(16_384), WIDE, &format!("<h1>{most}</h1>")),
        row(&over, &heading(16_385), WIDE, No(8, 5)),
        // as it is captured, encoded: 3,277 times five bytes
        row(&"&".repeat(3_277), &heading(3_277), WIDE, No(8, 5)),
        row(&ten, &linked(10_000, 6_385), WIDE, No(8, 10)),
        row(&ten, &linked(10_000, 6_384), WIDE, No(8, 15)),
        row(&ten, &linked(10_000, 6_370), WIDE, No(8, 15)),
        page(&ten, &linked(10_000, 6_369), WIDE, &format!("<h1>{ten}<a href=\"\">{}</a></h1>", letters(6_369))),
        page(&most, &setext(16_384), WIDE, &format!("<h1>{most}</h1>")),
        row(&over, &setext(16_385), WIDE, No(8, 3)),
    ]
}

/// What will be dropped counts while it is open.
fn dropped() -> Vec<Row> {
    let over = letters(16_385);
    let long = data(16_385);
    let mut cells = vec![Record { extra: 1, ..Record::enter(57) }, Record::enter(58), Record::enter(60)];
    cells.extend(parts(&[path(&[61], 0, 0), element(61, &long)]));
    let reference = element(12, &element(45, &parts(&[path(&[47], 0, 1), element(52, &long)])));
    vec![
        row(&over, &element(28, &element(29, &element(31, &long))), WIDE, No(8, 4)),
        row(&over, &reference, WIDE, No(8, 6)),
        row(&over, &element(53, &element(54, &long)), WIDE, No(8, 3)),
        row(&over, &element(63, &element(64, &element(65, &long))), WIDE, No(8, 4)),
        row(&over, &cells, WIDE, No(8, 7)),
    ]
}

fn held() -> Vec<Row> {
    let eight = letters(8_000);
    let fits = format!("<p><a href=\"{eight}\" title=\"{}\">{eight}</a></p>", letters(384));
    vec![
        page(&eight, &link(8_000, 8_000, 384), WIDE, &fits),
        row(&eight, &link(8_000, 8_000, 385), WIDE, No(8, 16)),
        row(&letters(8_385), &link(8_000, 8_385, 0), WIDE, No(8, 12)),
        page(&letters(8_192), &definition(8_192, 8_192), WIDE, ""),
        row(&letters(8_193), &definition(8_192, 8_193), WIDE, No(8, 12)),
    ]
}

fn kept() -> Vec<Row> {
    let text = letters(16_382);
    let two = |one: Vec<Record>, other: Vec<Record>| parts(&[one, other]);
    let full = definition(8_192, 8_192);
    let body = |length| footnote(&paragraph(length));
    let rule = footnote(&path(&[19], 0, 1));
    vec![
        page(&text, &two(full.clone(), definition(0, 0)), WIDE, ""),
        row(&text, &two(full.clone(), definition(1, 0)), WIDE, No(8, 27)),
        row(&text, &two(full.clone(), definition(0, 1)), WIDE, No(8, 27)),
        page(&text, &two(body(16_377), footnote(&[])), WIDE, ""),
        row(&text, &body(16_378), WIDE, No(8, 8)),
        row(&text, &body(16_382), WIDE, No(8, 7)),
        row(&text, &two(body(16_377), rule.clone()), WIDE, No(8, 17)),
        row(&text, &two(full, rule), WIDE, No(8, 21)),
    ]
}

/// The pass over definitions goes first; the footnote section has the number of events for its place.
fn order() -> Vec<Row> {
    let text = letters(16_385);
    let behind = |first: Vec<Record>, length| parts(&[first, definition(length, 0)]);
    vec![
        row(&text, &behind(paragraph(1), 16_385), 0, No(8, 11)),
        row(&text, &behind(heading(16_385), 16_385), WIDE, No(8, 15)),
        row(&text, &behind(paragraph(1), 16_384), 0, No(9, 0)),
        row("a", &called(), 132, No(9, 9)),
        row("a", &called(), 133, No(9, 16)),
        row("a", &called(), 413, No(9, 16)),
        row("a", &called(), 414, Length(414)),
    ]
}
