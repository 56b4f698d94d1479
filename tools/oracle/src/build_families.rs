// The families of builds, op 7 of `calls`, and their comparison with the judges.
use crate::alone;
use crate::builds::{options, run, with_rooms, Ask};
use crate::corpus::{self, page_notes};
use crate::damage::each_damage;
use crate::edges;
use crate::every;
use crate::export::{export, page, PageOptions};
use crate::given;
use crate::grammar::{random_list_of, ANY, PLAIN};
use crate::lists::List;
use crate::page_limits;
use crate::pages::{whole_page, Build};
use crate::premises::{row, Row, ROWS};
use crate::random::Random;
use crate::record;
use crate::references::{self, near};
use crate::table;
use crate::totals;
use std::collections::BTreeMap;

pub const FAMILIES: [(&str, fn(Ask)); 12] = [
    ("table", page_limits::table),
    ("limits", page_limits::limits),
    ("given", given::given),
    ("checked", checked),
    ("rooms", rooms),
    ("totals", totals::totals),
    ("plain", |ask| grammar(&PLAIN, ask)),
    ("any", |ask| grammar(&ANY, ask)),
    ("damaged", damaged),
    ("references", references),
    ("notes", notes),
    ("quotes", quotes),
];

const DAMAGED_SEED: u64 = 20_251_121;
const ROOMS_SEED: u64 = 20_251_122;
const QUOTED_LISTS: usize = 40_000;
const QUOTED_NOTES: usize = 60_000;

fn grammar(words: &'static crate::grammar::Words, ask: Ask) {
    let mut random = Random(ROOMS_SEED);
    alone::grammar(words, alone::LISTS, &mut |list, options| with_rooms(list, options, &mut random, false, ask));
}

fn notes(ask: Ask) {
    let mut random = Random(ROOMS_SEED);
    page_notes(&mut |note, options| {
        if let Some(records) = export(&note) {
            with_rooms(List::new(note, &records), options, &mut random, true, ask);
        }
    });
}

/// Lists from the grammar and notes with apostrophes, which are escaped.
fn quotes(ask: Ask) {
    let mut random = Random(ROOMS_SEED);
    for words in [&PLAIN, &ANY] {
        alone::grammar(words, QUOTED_LISTS, &mut |list, options| {
            let text = list.text.iter().map(|&b| if b"*>?".contains(&b) { b'\'' } else { b }).collect();
            with_rooms(List { text, ..list }, quoted(options), &mut random, false, ask);
        });
    }
    let mut left = QUOTED_NOTES;
    let mut places = Random(DAMAGED_SEED);
    page_notes(&mut |note, options| {
        if left > 0 {
            left -= 1;
            let note = with_apostrophes(note, &mut places);
            if let Some(records) = export(&note) {
                with_rooms(List::new(note, &records), quoted(options), &mut random, true, ask);
            }
        }
    });
}

fn quoted(options: PageOptions) -> PageOptions {
    PageOptions { bits: options.bits | 8, ..options }
}

/// One to four apostrophes at places from the seed.
fn with_apostrophes(mut note: String, places: &mut Random) -> String {
    for _ in 0..1 + places.below(4) {
        let place = places.below(note.len() + 1);
        if note.is_char_boundary(place) {
            note.insert(place, '\'');
        }
    }
    note
}

/// Each name, and what is nearly one, in each place that takes a reference, with both names options; 0 says the same as 5.
fn references(ask: Ask) {
    let mut random = Random(ROOMS_SEED);
    let notes = near().into_iter().map(|name| references::note(&name));
    for note in notes.chain([references::all()]) {
        let records = export(&note).expect("the parser takes it");
        for names in [0, 4, 5] {
            let options = PageOptions { names, ..options(&mut random) };
            with_rooms(List::new(note.clone(), &records), options, &mut random, false, ask);
        }
    }
}

/// Every room from none to one more than the page, for short lists of each kind.
fn rooms(ask: Ask) {
    let mut random = Random(ROOMS_SEED);
    for k in 0..700 {
        let enough = random.below(30);
        let words = if k % 3 == 0 { &ANY } else { &PLAIN };
        let list =
            if k % 2 == 0 { corpus::some_list(&mut random, 60) } else { random_list_of(words, &mut random, enough) };
        let options = options(&mut random);
        let length = whole_page(&list, options).map_or(0, |page| page.len());
        (0..=(length + 1).min(700)).for_each(|room| ask(Build::new(list.clone(), options, room)));
    }
}

/// The checker's own families, as builds: the same numbers at the same places.
fn checked(ask: Ask) {
    let mut random = Random(ROOMS_SEED);
    for family in [table::table, edges::slices, edges::together, edges::labels, edges::limits, every::fields] {
        family(&mut |list| {
            let (options, room) = (options(&mut random), random.below(300));
            ask(Build::new(list, options, room));
        });
    }
}

/// One damage of each kind to lists of notes and to lists from the grammar.
fn damaged(ask: Ask) {
    let mut random = Random(DAMAGED_SEED);
    let mut rooms = Random(ROOMS_SEED);
    for k in 0..3_000 {
        let enough = random.below(40);
        let words = if k % 4 == 0 { &ANY } else { &PLAIN };
        for list in [corpus::some_list(&mut random, 150), random_list_of(words, &mut random, enough)] {
            each_damage(&list, &mut random, &mut |damaged| {
                let options = options(&mut rooms);
                with_rooms(damaged, options, &mut rooms, false, ask);
            });
        }
    }
}

/// Compares the families, or those that are named; gives the number of differences.
pub fn compare(program: &[&str], named: &[&str]) -> usize {
    let mut differences = page_limits::differences();
    for (name, family) in FAMILIES {
        if named.is_empty() || named.contains(&name) {
            differences += run(name, program, family);
        }
    }
    if named.is_empty() || named.contains(&"notes") {
        differences += note_cases();
    }
    println!(
        "{}",
        if differences == 0 {
            "builds: no unexplained difference".to_string()
        } else {
            format!("builds: {differences} differences")
        }
    );
    differences
}

/// The notes by the case under which the checker refuses them, or by the row under which their page may differ; and the
/// page of each list against the note's own. Gives the notes that nothing explains.
fn note_cases() -> usize {
    let mut cases = corpus::Cases::default();
    let mut rows: BTreeMap<Row, usize> = BTreeMap::new();
    let (mut pages, mut others) = (0, 0);
    page_notes(&mut |note, options| {
        if !cases.count(&note) {
            return;
        }
        let records = export(&note).expect("it was exported before");
        let list = List::new(note.clone(), &records);
        let which = row(&list.text, &record::read(&list.events));
        *rows.entry(which).or_default() += 1;
        if let Some(built) = whole_page(&list, options).filter(|_| which == Row::Same) {
            pages += 1;
            others += usize::from(page(&note, options).map(String::into_bytes) != Some(built));
        }
    });
    let unexplained = cases.show();
    for (row, told) in ROWS {
        println!("    {:>6}  of them {told}", rows.get(&row).unwrap_or(&0));
    }
    println!("    {pages} pages of notes against the pages of their lists, {others} unexplained");
    unexplained + others
}
