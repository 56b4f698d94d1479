// Builds about the limits of RULES R7 and R8: sizes, rooms, how deep, how many and how long; and the table by hand.
use crate::builds::{Ask, MOST_ROOM};
use crate::edges::{element, path, repeated};
use crate::export::{export, PageOptions};
use crate::lists::List;
use crate::page_table::{called, definition, footnote, heading, link, paragraph, rows, setext, Wanted, OFF};
use crate::pages::{answer_of_run, whole_page, Build, LEAST_WORK};
use crate::random::Random;
use crate::record::{self, Record};

/// The rows of the table, as builds: the checker's numbers come first there.
pub fn table(ask: Ask) {
    rows().into_iter().for_each(|(list, options, room, _)| ask(Build::new(list, options, room)));
}

/// How many rows of the table are not what the judge says of the run.
pub fn differences() -> usize {
    let mut wrong = 0;
    for (list, options, room, wanted) in rows() {
        let answer = answer_of_run(&list.text, &record::read(&list.events), options, room);
        let same = match (&answer, &wanted) {
            (Ok(page), Wanted::Page(wanted)) => page == wanted.as_bytes(),
            (Ok(page), Wanted::Length(wanted)) => page.len() == *wanted,
            (Err(refusal), Wanted::No(number, place)) => *refusal == (*number, *place),
            _ => false,
        };
        if !same {
            wrong += 1;
            println!(
                "the judge does not give what the table says: {}",
                Build::new(list, options, room).shown_with(&answer)
            );
        }
    }
    println!("build table: {} rows by hand, {wrong} on which the judge differs", rows().len());
    wrong
}

pub fn limits(ask: Ask) {
    sizes(ask);
    totals(ask);
    long_labels(ask);
    for note in notes() {
        let list = List::new(note.clone(), &export(&note).expect("the parser takes it"));
        all_rooms(&list, ask);
    }
    for list in lists() {
        all_rooms(&list, ask);
    }
}

/// Each kind of room, with options off and on and each ending.
fn all_rooms(list: &List, ask: Ask) {
    for (bits, ending) in [(0, 0), (7, 1), (2, 2)] {
        let options = PageOptions { bits, ending, names: 0 };
        let length = whole_page(list, options).map_or(100, |page| page.len());
        let rooms = [0, 1, length.saturating_sub(1), length, length + 1];
        let most = [MOST_ROOM].into_iter().filter(|_| bits == 0);
        for room in rooms.into_iter().filter(|&room| room < MOST_ROOM).chain(most) {
            ask(Build::new(list.clone(), options, room));
        }
    }
}

/// Lengths of text, events and work, at and about their limits, each with each.
fn sizes(ask: Ask) {
    let works = [0, 1, LEAST_WORK - 1, LEAST_WORK, LEAST_WORK + 1, 60_000, 131_072];
    let note = |note: &str| List::new(note, &export(note).expect("the parser takes it"));
    let mut lists = vec![note("*a*\n\n[b]: c\n"), List::new("a", &[Record::enter(12)]), List::new([0xFF], &[])];
    for length in [63_999, 64_000, 64_001, 100_000] {
        lists.push(List::new("a".repeat(length), &path(&[12, 5], 0, length.min(64_000))));
    }
    let paragraphs = record::written(&repeated(&path(&[12], 0, 1), 1_601));
    for length in [63_980, 63_999, 64_000, 64_001, 64_020, 64_040, 39, 41, 1] {
        lists.push(List { text: b"a".to_vec(), events: paragraphs[..length].to_vec() });
    }
    for list in lists {
        for work in works {
            for room in [0, 12, 65_536] {
                ask(Build { work, ..Build::new(list.clone(), OFF, room) });
            }
        }
    }
}

/// Each total at 16,384, one less and one more, from each of its sources; with room enough and with none.
fn totals(ask: Ask) {
    for length in [16_383, 16_384, 16_385] {
        let mut text = "a".repeat(20_000);
        text += "-";
        let mut underlined = setext(length);
        let place = underlined.len() - 2;
        (underlined[place].from, underlined[place].to) = (20_000, 20_001);
        let half = length / 2;
        let lists = [
            heading(length),
            underlined,
            link(length, 0, 0),
            link(0, length, 0),
            link(0, 0, length),
            link(half, half / 2, length - half - half / 2),
            definition(length, 0),
            definition(0, length),
            definition(half, length - half),
            [definition(half, 0), definition(0, length - half)].concat(),
            footnote(&paragraph(length - 7)),
            [definition(half, 0), footnote(&paragraph(length - half - 7))].concat(),
            [footnote(&paragraph(half - 7)), footnote(&heading(length - half - 9))].concat(),
            element(12, 0, 1, &element(46, 0, 1, &[path(&[47, 48, 5], 0, length), path(&[49], 0, 0)].concat())),
            element(12, 0, 1, &path(&[33, 34], 0, length)),
            path(&[28, 29, 30, 5], 0, length),
            path(&[28, 29, 31, 5], 0, length),
        ];
        for records in lists {
            let list = List::new(text.clone(), &records);
            for room in [65_536, 20_000, 100, 0] {
                ask(Build::new(list.clone(), OFF, room));
            }
        }
    }
}

/// Labels of up to 63,000 bytes that a link, an image and a call look for, and calls of such.
fn long_labels(ask: Ask) {
    for length in [1_000, 16_384, 16_385, 31_000] {
        let (lower, upper) = ("a%é".repeat(length / 4), "A%é".repeat(length / 4));
        let (middle, text) = (lower.len(), lower + &upper);
        let end = text.len();
        for (medium, definition) in [(45, &[53, 54][..]), (46, &[53, 54]), (62, &[63, 64, 65])] {
            let medium = path(&[12, medium, 47, 48], 0, middle);
            let list = List::new(text.clone(), &[medium, path(definition, middle, end)].concat());
            for room in [0, 100, 300_000] {
                ask(Build::new(list.clone(), OFF, room));
            }
        }
    }
}

/// Notes about the limits.
fn notes() -> Vec<String> {
    let mut notes = Vec::new();
    (59..=63).for_each(|depth| notes.push(">".repeat(depth) + "a"));
    (14..=17).for_each(|depth| notes.push("- ".repeat(depth) + "a"));
    (19..=22).for_each(|depth| notes.push("![".repeat(depth) + "a" + &"](b)".repeat(depth)));
    (23..=25).for_each(|count| notes.push("|a".repeat(count) + "\n" + &"|:-".repeat(count) + "\n|b|"));
    (798..=801).for_each(|lines| notes.push("a\n".repeat(lines)));
    (1_598..=1_601).for_each(|lines| notes.push("\n".repeat(lines)));
    let number = |count: usize, each: fn(usize) -> String| (0..count).map(each).collect::<String>();
    for count in [9, 10, 99, 100, 101, 200] {
        notes.push("[^a]".repeat(count.min(200)) + "\n\n[^a]: b\n");
    }
    notes.push(number(60, |k| format!("[^{k}]")) + "\n\n" + &number(60, |k| format!("[^{k}]: {k}\n")));
    notes.push(number(60, |k| format!("[^{k}]: {k}\n")) + "\n" + &number(60, |k| format!("[^{}]", 59 - k)));
    notes.push(number(100, |k| format!("[{k}]")) + "\n\n" + &number(100, |k| format!("[{k}]: {k}\n")));
    notes.push(number(120, |k| format!("[{k}]: {k}\n")));
    notes
}

/// Lists about the limits: 128 definitions, 64 footnote definitions, 64 open, 3,200 events, 64,000 bytes.
fn lists() -> Vec<List> {
    let mut lists = Vec::new();
    let digits: String = (0..150).map(|k| format!("{k:03}")).collect();
    let many =
        |count: usize, names: &[u8]| (0..count).flat_map(|k| path(names, 3 * k, 3 * k + 3)).collect::<Vec<Record>>();
    for (definitions, footnotes) in [(127, 63), (128, 64), (129, 64), (128, 65)] {
        let defined = [many(definitions, &[53, 54]), many(footnotes, &[63, 64, 65])].concat();
        let used = [many(60, &[12, 45, 47, 48]), many(60, &[12, 62, 47, 48]), many(60, &[12, 46, 47, 48])].concat();
        lists.push(List::new(digits.clone(), &defined));
        lists.push(List::new(digits.clone(), &[defined.clone(), used.clone()].concat()));
        lists.push(List::new(digits.clone(), &[used, defined].concat()));
    }
    for depth in 61..=65 {
        lists.push(List::new("a", &path(&vec![20; depth], 0, 1)));
        lists.push(List::new("a", &path(&[vec![12], vec![39; depth - 2], vec![5]].concat(), 0, 1)));
        lists.push(List::new("a", &images(20, &path(&vec![39; depth - 61], 0, 1))));
        lists.push(List::new("a", &images(depth / 3, &path(&[44], 0, 1))));
    }
    for count in [1_599, 1_600, 1_601] {
        lists.push(List::new("a", &repeated(&path(&[12], 0, 1), count)));
        lists.push(List::new("a", &repeated(&path(&[19], 0, 1), count)));
    }
    for piece in ["a", "é", "\"", "\0"] {
        let text = piece.repeat(64_000 / piece.len());
        lists.push(List::new(text.clone(), &path(&[12, 5], 0, text.len())));
        lists.push(List::new(text.clone(), &path(&[12, 44], 0, text.len())));
    }
    lists.extend(large_tables());
    lists.push(List::new("a", &called()));
    lists
}

/// Images in the label of images, in a paragraph, every other one a link.
fn images(count: usize, inside: &[Record]) -> Vec<Record> {
    let image = |inside: Vec<Record>, k: usize| {
        let label = element(47, 0, 1, &element(48, 0, 1, &inside));
        element(45 + (k % 2) as u8, 0, 1, &[label, path(&[49, 50, 5], 0, 1)].concat())
    };
    element(12, 0, 1, &(0..count).fold(inside.to_vec(), image))
}

/// A table of 24 columns with empty rows, and with more cells than columns.
fn large_tables() -> Vec<List> {
    let mut random = Random(1);
    let table = |columns: u64, cells: usize, rows: usize, extra: u64| {
        let row = element(60, 0, 1, &repeated(&path(&[61, 5], 0, 1), cells));
        let head = element(58, 0, 1, &row);
        let body = element(59, 0, 1, &repeated(&row, rows));
        let mut records = element(57, 0, 1, &[head, body].concat());
        records[0].extra = columns | (extra & ((1 << (2 * columns)) - 1)) << 8;
        List::new("a|", &records)
    };
    let mut lists = Vec::new();
    for (columns, cells, rows) in [(24, 0, 200), (24, 24, 20), (1, 30, 20), (23, 24, 20), (24, 2, 300)] {
        lists.push(table(columns, cells, rows, random.next()));
    }
    lists
}
