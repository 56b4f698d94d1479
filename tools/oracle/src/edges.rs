// Lists about each limit of RULES R7 and R8, about each rule of a slice, and lists that break several rules at once.
use crate::families;
use crate::grammar::random_list;
use crate::lists::{Ask, List};
use crate::random::Random;
use crate::record::{self, Record, EXIT};
use crate::references::near;
use crate::request::SANITIZE;

/// An element, with the same slice for all that is in it.
pub fn element(name: u8, from: usize, to: usize, inside: &[Record]) -> Vec<Record> {
    let mut records = vec![Record::enter(name)];
    records.extend(inside);
    records.push(Record::exit(name, from, to));
    records
}

/// Elements one inside the other, of one slice.
pub fn path(names: &[u8], from: usize, to: usize) -> Vec<Record> {
    names.iter().rev().fold(Vec::new(), |inside, &name| element(name, from, to, &inside))
}

pub fn repeated(records: &[Record], times: usize) -> Vec<Record> {
    records.iter().copied().cycle().take(records.len() * times).collect()
}

pub fn limits(ask: Ask) {
    lengths(ask);
    depths(ask);
    deep(ask);
    counts(ask);
    columns(ask);
}

/// The lengths of text and events about 64,000 bytes and 3,200 records, and events that are no whole records.
fn lengths(ask: Ask) {
    for length in [63_999, 64_000, 64_001, 100_000] {
        for last in ["a", "é", "\u{1F44D}"] {
            let mut text = "a".repeat(length - last.len());
            text += last;
            for (from, to) in [(0, 0), (0, length), (length, length), (length - 1, length), (0, length + 1)] {
                ask(List::new(text.clone(), &path(&[12, 5], from, to)));
            }
            let cut = text.as_bytes()[..length - 1].to_vec();
            ask(List::new(cut, &[]));
        }
    }
    for count in [3_198, 3_199, 3_200, 3_201, 3_202, 6_000] {
        let mut records = repeated(&path(&[12], 0, 1), 3_000);
        records.truncate(count);
        ask(List::new("a", &records));
        ask(List::new([0xFF], &records));
        for (cut, more) in [(1, 0), (10, 0), (19, 0), (0, 1), (0, 19)] {
            let mut events = record::written(&records);
            events.truncate(events.len() - cut);
            events.extend(vec![0; more]);
            ask(List { text: b"a".to_vec(), events });
        }
    }
    for length in 0..=100 {
        ask(List { text: Vec::new(), events: record::written(&repeated(&path(&[12], 0, 0), 3))[..length].to_vec() });
    }
}

/// About 64 open at once: quotes and others, with each name as the last, and with some paths inside.
fn depths(ask: Ask) {
    for open in 60..=64 {
        for outer in [20, 0, 1, 2] {
            let outer = vec![outer; open];
            for name in 0..=65 {
                let slice = if name == 3 || name == 4 { (1, 2) } else { (0, 1) };
                let inner = element(name, slice.0, slice.1, &[]);
                let records = outer.iter().fold(inner, |inside, &name| element(name, 0, 1, &inside));
                ask(List::new("a\n", &records));
            }
            for names in [&[12, 39, 39, 5][..], &[13, 14], &[22, 23, 24, 25], &[12, 7, 8], &[63, 64, 65], &[0, 1, 2, 3]]
            {
                let names: Vec<u8> = outer.iter().chain(names).copied().collect();
                ask(List::new("\n", &path(&names, 0, 1)));
            }
        }
    }
}

/// Lists from the grammar inside so many others that 63, 64 or 65 are open in the deepest.
fn deep(ask: Ask) {
    let mut random = Random(5);
    for _ in 0..1_000 {
        let list = random_list(&mut random, 30);
        let records = record::read(&list.events);
        let depth = deepest(&records);
        let outer = random.pick(&[20, 0, 1, 2]);
        for open in [63, 64, 65] {
            let wrapped = (depth..open).fold(records.clone(), |inside, _| element(outer, 0, 1, &inside));
            ask(List::new(list.text.clone(), &wrapped));
        }
    }
}

fn deepest(records: &[Record]) -> usize {
    let mut open = 0;
    let depths = records.iter().map(|record| {
        open = if record.kind == EXIT { open - 1 } else { open + 1 };
        open
    });
    depths.max().unwrap_or(0)
}

/// About 128 definitions and 64 footnote definitions, beside each other, mixed and nested, with equal and other labels.
fn counts(ask: Ask) {
    let text = "0123456789".repeat(20);
    let kind = |name| if name == 53 { &[53, 54][..] } else { &[63, 64, 65] };
    let mut random = Random(6);
    for definitions in [0, 1, 127, 128, 129, 130] {
        for footnotes in [0, 1, 63, 64, 65, 66] {
            let mut names = vec![53; definitions];
            names.extend(vec![63; footnotes]);
            for order in 0..4 {
                match order {
                    0 => (),
                    1 => names.reverse(),
                    _ => shuffle(&mut names, &mut random),
                }
                // the same label for all, or one of ten
                let place = |k| if order == 2 { k } else { 0 };
                let each = |(k, &name): (usize, &u8)| path(kind(name), place(k), place(k) + 1);
                let records: Vec<Record> = names.iter().enumerate().flat_map(each).collect();
                ask(List::new(text.clone(), &records));
                ask(List::new(text.clone(), &element(20, 0, 1, &records)));
                let mut inside = path(&[64, 65], 0, 1);
                inside.extend(records);
                ask(List::new(text.clone(), &element(63, 0, 1, &inside)));
            }
        }
    }
}

pub fn shuffle<T>(items: &mut [T], random: &mut Random) {
    for last in (1..items.len()).rev() {
        items.swap(last, random.below(last + 1));
    }
}

/// Each column count, and each bit of the extra field behind each count.
fn columns(ask: Ask) {
    let mut table = |extra: u64| {
        let mut records = element(57, 0, 1, &path(&[58, 60, 61], 0, 1));
        records[0].extra = extra;
        ask(List::new("a", &records));
    };
    for count in 0..=255 {
        table(count);
        table(count | 0xFF00);
    }
    for count in 1..=24 {
        table(count | ((1 << (2 * count)) - 1) << 8);
        (8..64).for_each(|bit| table(count | 1 << bit));
    }
}

/// Texts about the edges of UTF-8, without events; and slices between all places of texts of characters of each length.
pub fn characters(ask: Ask) {
    families::utf8(&mut |request| {
        if request.op == SANITIZE {
            ask(List::new(request.text, &[]));
        }
    });
    let each = ["a", "é", "\u{20AC}", "\u{1F44D}"];
    for one in each {
        for other in each {
            let text = format!("{one}{other}a");
            for from in 0..=text.len() + 1 {
                (0..=text.len() + 1).for_each(|to| ask(List::new(text.clone(), &path(&[12, 5], from, to))));
            }
        }
    }
}

/// Slices about each rule: for each name that has one, with each text below as its slice.
pub fn slices(ask: Ask) {
    for slice in slice_texts() {
        let (text, end) = (format!("#amp{slice}"), 4 + slice.len());
        let mut with = |before: &[Record], name: u8, parents: &[u8]| {
            let mut inside = before.to_vec();
            inside.extend(element(name, 4, end, &[]));
            if name == 26 {
                inside.extend(path(&[25], 0, 1));
            }
            let whole = parents.iter().rev().fold(inside, |inside, &name| element(name, 0, 1, &inside));
            ask(List::new(text.clone(), &whole));
        };
        let marks = |names: &[u8]| names.iter().flat_map(|&name| path(&[name], 0, 1)).collect::<Vec<_>>();
        with(&[], 3, &[]);
        with(&[], 4, &[12, 5]);
        with(&[], 26, &[21, 23, 24]);
        with(&[], 14, &[13]);
        with(&marks(&[14]), 14, &[13]);
        with(&marks(&[14, 15]), 14, &[13]);
        with(&marks(&[17]), 18, &[16]);
        with(&marks(&[8]), 11, &[12, 7]);
        with(&marks(&[8, 9]), 11, &[12, 39, 7]);
        with(&marks(&[8, 9, 10]), 11, &[28, 29, 30, 7]);
    }
}

fn slice_texts() -> Vec<String> {
    let mut texts: Vec<String> = (0..128u8).map(|byte| char::from(byte).to_string()).collect();
    texts.extend((0..128u8).map(|byte| format!("1{}", char::from(byte))));
    for digit in ["0", "9", "#", "a", "F", "g", "é", "\u{661}", "\u{FF11}"] {
        texts.extend((0..=12).map(|count| digit.repeat(count)));
    }
    for one in ["\n", "\r", "a"] {
        for other in ["\n", "\r", "a"] {
            texts.push(format!("{one}{other}"));
            texts.extend(["\n", "\r", "a"].map(|third| format!("{one}{other}{third}")));
        }
    }
    let others = "apos NotEqual ampx xamp amplt nbsp; &lt \u{2028} \u{85} -é =é é- -- 0x1F 1_0 +1 -1 10FFFF 110000";
    texts.extend(others.split(' ').map(str::to_string));
    texts.extend(near());
    texts
}

/// A link, an image and a call that look for each of these labels, where each is defined.
pub fn labels(ask: Ask) {
    let mut labels = vec![String::new()];
    for length in 0..2 {
        let shorter: Vec<String> = labels.iter().filter(|label| label.chars().count() == length).cloned().collect();
        labels
            .extend(shorter.iter().flat_map(|label| "aBb \t\n\réÉ".chars().map(move |next| format!("{label}{next}"))));
    }
    labels.extend(
        ["a b", "a  b", "A\tB", "ab ", "a\u{A0}b", " a b", "a b c", "ab c", "\0", "ß", "SS", "[", "{"]
            .map(String::from),
    );
    for sought in &labels {
        for defined in &labels {
            looked_for(sought, defined, ask);
        }
    }
}

fn looked_for(sought: &str, defined: &str, ask: Ask) {
    let (text, middle) = (format!("{sought}{defined}"), sought.len());
    let end = text.len();
    let definition = path(&[53, 54], middle, end);
    let footnote = path(&[63, 64, 65], middle, end);
    let labelled = path(&[47, 48], 0, middle);
    // the label of the text is another one where there is a reference string
    let referred: Vec<Record> = [path(&[47, 48], end, end), path(&[52], 0, middle)].concat();
    for (medium, inside, definition) in
        [(45, &labelled, &definition), (46, &referred, &definition), (62, &labelled, &footnote)]
    {
        let medium = element(12, 0, end, &element(medium, 0, end, inside));
        ask(List::new(text.clone(), &[medium.clone(), definition.clone()].concat()));
        ask(List::new(text.clone(), &[element(20, 0, 0, definition), medium].concat()));
    }
}

/// Every choice of rules broken at once, in several orders, and each rule broken twice.
pub fn together(ask: Ask) {
    let mut random = Random(7);
    for broken in 0..1 << 7 {
        for _ in 0..16 {
            let mut numbers: Vec<u32> = (1..=7).filter(|number| broken >> (number - 1) & 1 == 1).collect();
            shuffle(&mut numbers, &mut random);
            ask(breaking(&numbers, &mut random));
        }
    }
    for one in 3..=7 {
        for other in 3..=7 {
            (0..8).for_each(|_| ask(breaking(&[one, other, one, other], &mut random)));
        }
    }
}

/// A list that breaks these rules in this order.
pub fn breaking(numbers: &[u32], random: &mut Random) -> List {
    let mut text = b"a\n1&=".to_vec();
    let mut records = Vec::new();
    for number in numbers {
        if random.below(2) == 0 {
            records.extend(path(&[12, 5], 0, 1));
        }
        match number {
            1 => text.resize(64_001, b'a'),
            2 => text.push(0xC3),
            number => records.extend(fault(*number, random)),
        }
    }
    List::new(text, &records)
}

/// Records that break the rule of this number, from 3 to 7, each in one of several ways.
fn fault(number: u32, random: &mut Random) -> Vec<Record> {
    let mut plain = path(&[12, 5], 0, 1);
    match (number, random.below(4)) {
        (3, 0) => plain[0].extra = 1,
        (3, 1) => plain[1].from = 1,
        (3, 2) => plain[2].after = 1,
        (3, _) => plain[3] = Record { kind: EXIT, from: 2, to: 1, ..plain[3] },
        (4, 0) => plain = path(&[12, 12], 0, 1),
        (4, 1) => plain = path(&[13], 0, 1),
        (4, 2) => plain.swap(2, 3),
        (4, _) => drop(plain.pop()),
        (5, 0) => plain = path(&[3], 0, 1),
        (5, 1) => plain = element(16, 0, 1, &[path(&[17], 0, 1), path(&[18], 0, 1)].concat()),
        (5, 2) => plain = element(12, 0, 1, &path(&[1, 4], 0, 2)),
        (5, _) => plain = path(&[13, 14], 0, 0),
        (6, 0 | 1) => plain = repeated(&path(&[53, 54], 0, 1), 129),
        (6, _) => plain = repeated(&path(&[63, 64, 65], 0, 1), 65),
        (_, 0) => plain = path(&[12, 45, 47, 48], 2, 3),
        (_, 1) => plain = element(12, 0, 1, &element(46, 0, 1, &[path(&[47], 0, 1), path(&[52], 3, 4)].concat())),
        (_, _) => plain = path(&[12, 62, 47, 48], 2, 3),
    }
    plain
}
