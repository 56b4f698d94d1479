// Smaller notes and lists, to find a small input behind a difference.
use crate::record::{Record, ENTER};

/// A text without a run of characters: long runs first, each at many places.
pub fn texts(text: &str) -> Vec<String> {
    let characters: Vec<char> = text.chars().collect();
    let mut texts = Vec::new();
    let mut length = characters.len();
    while length > 0 {
        for at in (0..=characters.len() - length).step_by(length.div_ceil(2)) {
            texts.push(characters[..at].iter().chain(&characters[at + length..]).collect());
        }
        length /= 2;
    }
    texts
}

/// A list without an element, the largest first, or without an element's enter and exit.
pub fn lists(records: &[Record]) -> Vec<Vec<Record>> {
    let mut elements = elements(records);
    elements.sort_by_key(|&(enter, exit)| std::cmp::Reverse(exit - enter));
    let without = |&(enter, exit): &(usize, usize)| [&records[..enter], &records[exit + 1..]].concat();
    let opened =
        |&(enter, exit): &(usize, usize)| [&records[..enter], &records[enter + 1..exit], &records[exit + 1..]].concat();
    elements.iter().map(without).chain(elements.iter().map(opened)).collect()
}

/// The places of enter and exit, as far as they balance.
fn elements(records: &[Record]) -> Vec<(usize, usize)> {
    let mut open = Vec::new();
    let mut elements = Vec::new();
    for (place, record) in records.iter().enumerate() {
        if record.kind == ENTER {
            open.push(place);
        } else if let Some(enter) = open.pop() {
            elements.push((enter, place));
        }
    }
    elements
}
