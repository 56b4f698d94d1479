// The notes and lists of tools/machine_pages.txt, which were chosen to tell the handlers apart, as builds.
use crate::builds::{with_rooms, Ask};
use crate::export::{export, PageOptions};
use crate::lists::List;
use crate::pages::{whole_page, Build};
use crate::random::Random;
use crate::record::Record;

const FILE: &str = include_str!("../../machine_pages.txt");
const SEED: u64 = 20_251_125;

/// Each with each choice of options, apostrophes escaped or not, and of ending, and some with less room.
pub fn given(ask: Ask) {
    let mut random = Random(SEED);
    for (list, note) in lists() {
        for (bits, ending) in (0..16).flat_map(|bits| (0..3).map(move |ending| (bits, ending))) {
            with_rooms(list.clone(), PageOptions { bits, ending, names: 0 }, &mut random, note, ask);
        }
    }
}

/// Each with options off and LF, with each option or ending by which its page differs from that, and with all on where apostrophes
/// make a difference then.
pub fn few() -> Vec<Build> {
    let options = |(bits, ending)| PageOptions { bits, ending, names: 0 };
    let mut builds = Vec::new();
    for (list, _) in lists() {
        let plain = whole_page(&list, options((0, 0)));
        for other in [(0, 0), (1, 0), (2, 0), (4, 0), (7, 0), (0, 1), (0, 2), (8, 0), (15, 0)] {
            let page = whole_page(&list, options(other));
            let than = if other == (15, 0) { whole_page(&list, options((7, 0))) } else { plain.clone() };
            if other == (0, 0) || page != than {
                builds.push(Build::new(list.clone(), options(other), page.map_or(9, |page| page.len() + 1)));
            }
        }
    }
    builds
}

/// The lists, and whether each is a note's.
fn lists() -> Vec<(List, bool)> {
    FILE.lines().filter(|line| line.starts_with(['"', '['])).filter_map(list).collect()
}

/// A line of JSON: a note, or a text and its events. Nothing where the parser panics.
fn list(line: &str) -> Option<(List, bool)> {
    let strings = strings(line);
    match &strings[..] {
        [note] => Some((List::new(note.clone(), &export(note)?), true)),
        [text, events] => Some((
            List::new(text.clone(), &events.split(' ').filter(|word| !word.is_empty()).map(record).collect::<Vec<_>>()),
            false,
        )),
        _ => panic!("neither a note nor a list: {line}"),
    }
}

/// An enter with its extra field behind a colon, or an exit with from, to, before and after.
fn record(word: &str) -> Record {
    let numbers: Vec<u64> = word[1..].split(':').map(|number| number.parse().expect("a number")).collect();
    let field = |k: usize| numbers.get(k).copied().unwrap_or(0);
    let name = field(0) as u8;
    if word.starts_with('+') {
        return Record { extra: field(1), ..Record::enter(name) };
    }
    Record { before: field(3) as u8, after: field(4) as u8, ..Record::exit(name, field(1) as usize, field(2) as usize) }
}

/// The strings of a line of JSON.
fn strings(line: &str) -> Vec<String> {
    let mut units: Vec<Vec<u16>> = Vec::new();
    let mut characters = line.chars();
    let mut inside = false;
    while let Some(character) = characters.next() {
        match (inside, character) {
            (_, '"') => {
                inside = !inside;
                if inside {
                    units.push(Vec::new());
                }
            }
            (true, '\\') => units.last_mut().expect("it is inside").push(escape(&mut characters)),
            (true, _) => units.last_mut().expect("it is inside").extend(character.encode_utf16(&mut [0; 2]).iter()),
            (false, _) => (),
        }
    }
    units.iter().map(|units| String::from_utf16(units).expect("whole characters")).collect()
}

fn escape(characters: &mut std::str::Chars) -> u16 {
    match characters.next().expect("something is escaped") {
        'n' => 10,
        'r' => 13,
        't' => 9,
        'b' => 8,
        'f' => 12,
        'u' => {
            let digits: String = characters.take(4).collect();
            u16::from_str_radix(&digits, 16).expect("four digits")
        }
        other => other as u16,
    }
}
