// One damage to a list: to a field, an event, an element or the text.
use crate::lists::{Ask, List};
use crate::random::Random;
use crate::record::{self, Record, ENTER, EXIT};

type Records = Vec<Record>;

/// Where a list is damaged: two places among its records, and the length of its text.
#[derive(Clone, Copy)]
struct Spot {
    at: usize,
    other: usize,
    length: u32,
}

const DAMAGES: [fn(&mut Records, Spot, &mut Random); 20] = [
    |records, spot, random| records[spot.at].kind = small(random),
    |records, spot, random| records[spot.at].name = random.below(68) as u8,
    |records, spot, random| records[spot.at].before = small(random),
    |records, spot, random| records[spot.at].after = small(random),
    |records, spot, random| records[spot.at].from = place(records[spot.at].from, random, spot.length),
    |records, spot, random| records[spot.at].to = place(records[spot.at].to, random, spot.length),
    |records, spot, random| records[spot.at].extra = extra(records[spot.at].extra, random),
    |records, spot, _| records.swap(spot.at, spot.other),
    |records, spot, _| records.swap(spot.at, spot.at.saturating_sub(1)),
    |records, spot, _| drop(records.drain(spot.at..=spot.at)),
    |records, spot, _| records.insert(spot.at, records[spot.at]),
    |records, spot, _| records.truncate(spot.at),
    |records, spot, _| records.insert(spot.at, records[spot.other]),
    |records, spot, random| rename(records, spot.at, random),
    |records, spot, _| unwrap(records, spot.at),
    |records, spot, _| drop(records.drain(element(records, spot.at))),
    |records, spot, _| double(records, spot.at),
    |records, spot, random| move_away(records, spot.at, random),
    |records, _, random| undefine(records, random),
    |records, spot, random| relabel(records, spot.length, random),
];

/// The list with each damage once, and with a byte of the text changed.
pub fn each_damage(list: &List, random: &mut Random, ask: Ask) {
    let records = record::read(&list.events);
    if records.is_empty() || list.text.is_empty() {
        return;
    }
    for damage in DAMAGES {
        let (at, other) = (random.below(records.len()), random.below(records.len()));
        let mut damaged = records.clone();
        damage(&mut damaged, Spot { at, other, length: list.text.len() as u32 }, random);
        ask(List::new(list.text.clone(), &damaged));
    }
    let mut text = list.text.clone();
    let at = random.below(text.len());
    text[at] = random.pick(&[0, b'\n', b'\r', b' ', b'-', b'0', b'A', b'a', b'b', b'z', 0x80, 0xC3, 0xF0, 0xFF]);
    ask(List { text, events: list.events.clone() });
}

fn small(random: &mut Random) -> u8 {
    random.pick(&[0, 1, 2, 3, 4, 128, 255])
}

fn place(place: u32, random: &mut Random, length: u32) -> u32 {
    let any = random.below(length as usize + 2) as u32;
    random.pick(&[0, 1, place + 1, place.wrapping_sub(1), length, length + 1, any, any, u32::MAX])
}

fn extra(extra: u64, random: &mut Random) -> u64 {
    let (any, low) = (1 << random.below(64), 1 << random.below(12));
    random.pick(&[0, 1, 2, 24, 25, extra + 1, extra ^ any, extra ^ low])
}

/// The element that an event begins or ends, as far as enters and exits balance.
fn element(records: &[Record], at: usize) -> std::ops::Range<usize> {
    let mut balance = 0;
    let mut closes = |place: &usize| {
        balance += if records[*place].kind == records[at].kind { 1 } else { -1 };
        balance == 0
    };
    if records[at].kind == ENTER {
        at..(at..records.len()).find(&mut closes).unwrap_or(at) + 1
    } else {
        (0..=at).rev().find(&mut closes).unwrap_or(at)..at + 1
    }
}

/// Another name for an element.
fn rename(records: &mut Records, at: usize, random: &mut Random) {
    let element = element(records, at);
    let name = random.below(66) as u8;
    records[element.start].name = name;
    records[element.end - 1].name = name;
}

/// An element gone, and what it holds in its place.
fn unwrap(records: &mut Records, at: usize) {
    let element = element(records, at);
    records.remove(element.end - 1);
    if element.len() > 1 {
        records.remove(element.start);
    }
}

fn double(records: &mut Records, at: usize) {
    let element = element(records, at);
    let copy = records[element.clone()].to_vec();
    records.splice(element.start..element.start, copy);
}

fn move_away(records: &mut Records, at: usize, random: &mut Random) {
    let element: Vec<Record> = records.drain(element(records, at)).collect();
    let to = random.below(records.len() + 1);
    records.splice(to..to, element);
}

/// One definition or footnote definition gone.
fn undefine(records: &mut Records, random: &mut Random) {
    let defines = |&place: &usize| records[place].kind == ENTER && matches!(records[place].name, 53 | 63);
    let places: Vec<usize> = (0..records.len()).filter(defines).collect();
    if !places.is_empty() {
        records.drain(element(records, random.pick(&places)));
    }
}

/// Another place for one label.
fn relabel(records: &mut Records, length: u32, random: &mut Random) {
    let labels = records.iter_mut().filter(|record| record.kind == EXIT && matches!(record.name, 48 | 52 | 54 | 65));
    let mut labels: Vec<&mut Record> = labels.collect();
    if !labels.is_empty() {
        let chosen = random.below(labels.len());
        let places = [random.below(length as usize + 1), random.below(length as usize + 1)].map(|place| place as u32);
        (labels[chosen].from, labels[chosen].to) = (places[0].min(places[1]), places[0].max(places[1]));
    }
}
