// Builds in which data is so long that a total of RULES R8.3 is passed, or just not: lists from the grammar, some of
// whose slices are long, and for each of many the longest slice that passes no total and the next.
use crate::builds::{options, with_rooms, Ask};
use crate::export::PageOptions;
use crate::grammar::{random_list_of, ANY, PLAIN};
use crate::lists::List;
use crate::pages::Build;
use crate::random::Random;
use crate::record::{self, Record, EXIT};

const SEED: u64 = 20_251_123;
const LONG: usize = 12_000;
const EDGES: usize = 4_000;
/// As long as this is what slices are made of.
const FILLER: usize = 17_000;

pub fn totals(ask: Ask) {
    let mut random = Random(SEED);
    (0..LONG).for_each(|_| long(&mut random, ask));
    (0..EDGES).for_each(|_| edge(&mut random, ask));
}

/// A list with a filler behind its text, and the places of the exits that may have a long slice.
fn stretched(random: &mut Random) -> (List, Vec<usize>) {
    let words = if random.below(4) == 0 { &ANY } else { &PLAIN };
    loop {
        let enough = 10 + random.below(50);
        let mut list = random_list_of(words, random, enough);
        let data = |record: &Record| record.kind == EXIT && matches!(record.name, 5 | 6 | 32 | 34 | 36 | 38);
        let records = record::read(&list.events);
        let places: Vec<usize> = (0..records.len()).filter(|&place| data(&records[place])).collect();
        if !places.is_empty() {
            let filler = random.pick(&["a", "a", "a", "&", "é", "\0", " a", "\n"]);
            list.text.extend(filler.bytes().cycle().take(FILLER / filler.len() * filler.len()));
            return (list, places);
        }
    }
}

/// The list with a slice of about this length at the event's exit: whole characters of the filler.
fn with_slice(list: &List, place: usize, length: usize) -> List {
    let mut records = record::read(&list.events);
    let text = std::str::from_utf8(&list.text).expect("it is UTF-8");
    let end = text.len();
    let from = (0..=end - length).rev().find(|&place| text.is_char_boundary(place)).expect("0 is one");
    (records[place].from, records[place].to) = (from as u32, end as u32);
    List::new(list.text.clone(), &records)
}

/// One to three long slices, of which some pass a total.
fn long(random: &mut Random, ask: Ask) {
    let (mut list, places) = stretched(random);
    for _ in 0..1 + random.below(3) {
        let any = random.below(FILLER - 10);
        let length = random.pick(&[any, any, 5_461, 8_190, 16_300, 16_380, 16_384, 16_385]);
        list = with_slice(&list, random.pick(&places), length);
    }
    with_rooms(list, options(random), random, false, ask);
}

/// A slice, found by halving, with which a total is just not passed, and the next lengths.
fn edge(random: &mut Random, ask: Ask) {
    let (list, places) = stretched(random);
    let (place, options) = (random.pick(&places), options(random));
    let passes = |length| matches!(answer(&with_slice(&list, place, length), options), Err((8, _)));
    let (mut low, mut high) = (0, FILLER - 10);
    if passes(low) || !passes(high) {
        return;
    }
    while high - low > 1 {
        let middle = (low + high) / 2;
        *(if passes(middle) { &mut high } else { &mut low }) = middle;
    }
    for length in [low, high, high + 1] {
        with_rooms(with_slice(&list, place, length), options, random, false, ask);
    }
}

fn answer(list: &List, options: PageOptions) -> Result<Vec<u8>, (u32, usize)> {
    Build::new(list.clone(), options, usize::MAX).answer()
}
