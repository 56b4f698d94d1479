// Notes through the crate's own parser: the lists that it exports, and why the rules refuse some of them.
use crate::check::labels_at;
use crate::compile::compile;
use crate::drive::escaped;
use crate::export::{export, page, PageOptions};
use crate::judge::identity_by_01;
use crate::lists::{Ask, List};
use crate::notes::{large, page_pairs, pairs, random_note, random_note_of, Words};
use crate::random::Random;
use crate::record::{Record, ENTER, EXIT};
use markdown::util::normalize_identifier::normalize_identifier;
use std::collections::BTreeMap;

const SEED: u64 = 20_251_116;
const RANDOM_NOTES: usize = 60_000;
pub const PAGE_SEED: u64 = 20_251_120;
const PAGE_NOTES: usize = 220_000;
/// Longer notes are not made shorter, which would take too long: the smallest one seen is shown.
const SHRUNK: usize = 200;

/// The notes, in an order that never changes.
fn notes(with: &mut dyn FnMut(String)) {
    pairs(with);
    large(with);
    let mut random = Random(SEED);
    (0..RANDOM_NOTES).for_each(|_| with(random_note(&mut random)));
}

/// The notes whose pages are compared, with options from the seed.
pub fn page_notes(with: &mut dyn FnMut(String, PageOptions)) {
    let mut random = Random(PAGE_SEED);
    let choose = |random: &mut Random| PageOptions { bits: random.below(8) as u8, ending: random.below(3) as u8, names: 0 };
    page_pairs(&mut |note| with(note, choose(&mut random)));
    for _ in 0..PAGE_NOTES {
        let note = random_note_of(Words::Pages, &mut random);
        with(note, choose(&mut random));
    }
}

/// The lists that the parser exports.
pub fn lists(ask: Ask) {
    notes(&mut |note| {
        if let Some(records) = export(&note) {
            ask(List::new(note, &records));
        }
    });
}

/// The list of a note at random, of at most so many events.
pub fn some_list(random: &mut Random, most: usize) -> List {
    loop {
        let note = random_note(random);
        match export(&note) {
            Some(records) if (1..=most).contains(&records.len()) => return List::new(note, &records),
            _ => (),
        }
    }
}

/// The same with what matters to a page.
pub fn some_page_list(random: &mut Random, most: usize) -> List {
    loop {
        let note = random_note_of(Words::Pages, random);
        match export(&note) {
            Some(records) if (1..=most).contains(&records.len()) => return List::new(note, &records),
            _ => (),
        }
    }
}

/// What came of a note.
#[derive(Clone, Copy, PartialEq, Eq, PartialOrd, Ord, Debug)]
pub enum Case {
    Yes,
    TextBehindSequences,
    ThirdSequence,
    CaretLabel,
    ListInList,
    Columns,
    OtherName,
    LetterOutsideAscii,
    LostGap,
    Crossing,
    EmptyReference,
    TooLong,
    TooDeep,
    TooManyDefinitions,
    ParserPanics,
    Unexplained,
}
use Case::*;

const CASES: [(Case, &str); 16] = [
    (Yes, "passed"),
    (TextBehindSequences, "13: 14 14 15, as `## #1 issue`"),
    (ThirdSequence, "13: a third 14, as `# # #`"),
    (CaretLabel, "47: 48, then 5, as `[^](b)`"),
    (ListInList, "a list directly in a list"),
    (Columns, "a table of 25 columns or more"),
    (OtherName, "11 outside the 252 names, as `&AMP;`"),
    (LetterOutsideAscii, "labels that differ in the case of a letter outside ASCII"),
    (LostGap, "labels that differ in an inner space which the crate loses"),
    (Crossing, "enters and exits that cross"),
    (EmptyReference, "an empty 11"),
    (TooLong, "more than 3,200 events"),
    (TooDeep, "a 65th open"),
    (TooManyDefinitions, "a 129th definition or a 65th footnote definition"),
    (ParserPanics, "the parser panics, nothing is exported"),
    (Unexplained, "anything else"),
];

fn case(note: &str) -> Case {
    let Some(records) = export(note) else { return ParserPanics };
    match List::new(note, &records).answer() {
        (0, _) => Yes,
        (1, _) => TooLong,
        (3, place) if records[place].name == 57 => Columns,
        (4, place) => nesting_case(&records, place),
        (5, place) => slice_case(note, &records[place]),
        (6, _) => TooManyDefinitions,
        (7, place) => label_case(note, &records, place),
        _ => Unexplained,
    }
}

fn nesting_case(records: &[Record], place: usize) -> Case {
    if open_at(records, records.len()).is_none() {
        return Crossing;
    }
    let open = open_at(records, place).expect("nothing crosses");
    let parent = open.iter().rev().find(|&&name| name > 2);
    match (parent, records.get(place).map(|record| record.name)) {
        _ if open.len() == 64 => TooDeep,
        (Some(13), Some(15)) => TextBehindSequences,
        (Some(13), Some(14)) => ThirdSequence,
        (Some(47), Some(5)) => CaretLabel,
        (Some(21 | 22), Some(21 | 22)) => ListInList,
        _ => Unexplained,
    }
}

/// The names open before this event, or nothing where enters and exits cross before it.
fn open_at(records: &[Record], place: usize) -> Option<Vec<u8>> {
    let mut open = Vec::new();
    for record in &records[..place] {
        if record.kind == ENTER {
            open.push(record.name);
        } else if open.pop() != Some(record.name) {
            return None;
        }
    }
    Some(open)
}

fn slice_case(note: &str, exit: &Record) -> Case {
    match exit.name {
        11 if exit.from == exit.to => EmptyReference,
        11 if note[..exit.from as usize].ends_with('&') => OtherName,
        _ => Unexplained,
    }
}

/// The crate takes two labels for one that RULES R6 keeps apart.
fn label_case(note: &str, records: &[Record], place: usize) -> Case {
    let (sought, defined) = labels_at(note, records, place).expect("a label is looked for");
    let same = |label: &&String| normalize_identifier(label) == normalize_identifier(&sought);
    let without_spaces = |label: &str| identity_by_01(label).replace(' ', "");
    match defined.iter().find(same) {
        None => Unexplained,
        Some(label) if without_spaces(label) == without_spaces(&sought) => LostGap,
        Some(label) if !label.is_ascii() || !sought.is_ascii() => LetterOutsideAscii,
        Some(_) => Unexplained,
    }
}

/// How many notes came under each case, and the smallest of each.
#[derive(Default)]
pub struct Cases(BTreeMap<Case, (usize, String)>);

impl Cases {
    /// Whether the note's list is passed.
    pub fn count(&mut self, note: &str) -> bool {
        self.put(case(note), note)
    }

    fn put(&mut self, which: Case, note: &str) -> bool {
        let (count, least) = self.0.entry(which).or_insert((0, note.to_string()));
        *count += 1;
        if note.len() < least.len() {
            *least = note.to_string();
        }
        which == Yes
    }

    /// Prints them; gives the number of notes that nothing explains.
    pub fn show(&self) -> usize {
        self.0.iter().for_each(|(case, (count, note))| show(*case, *count, note));
        self.0.get(&Unexplained).map_or(0, |(count, _)| *count)
    }
}

/// Counts the notes by case, with the smallest note of each, and compares the page of each exported list with the
/// note's: these must be the same, where the extra field can hold all columns. The crate may panic only where enters and
/// exits cross or 11 is empty. Gives the number of notes that nothing explains, and of pages that are not as they must be.
pub fn cases() -> usize {
    let mut cases = Cases::default();
    let (mut pages, mut others, mut panics) = (0, 0, 0);
    notes(&mut |note| {
        let which = case(&note);
        let records = export(&note).filter(|_| which != Columns && which != TooLong);
        if let Some(records) = records {
            let options = PageOptions { bits: (note.len() % 8) as u8, ending: (note.len() % 3) as u8, names: 0 };
            let wanted = page(&note, options);
            let panicked = wanted.is_none();
            pages += 1;
            panics += usize::from(panicked);
            others += usize::from(panicked && !may_panic(&records));
            others += usize::from(compile(note.as_bytes(), &records, options) != wanted);
        }
        cases.put(which, &note);
    });
    let unexplained = cases.show();
    println!("    pages: {pages} of notes and of their lists, {others} unexplained, {panics} panics");
    unexplained + others
}

/// Where enters and exits cross, or an 11 is empty.
fn may_panic(records: &[Record]) -> bool {
    let empty_value = |record: &Record| record.kind == EXIT && record.name == 11 && record.from == record.to;
    open_at(records, records.len()).is_none() || records.iter().any(empty_value)
}

fn show(which: Case, count: usize, note: &str) {
    let (_, told) = CASES.iter().find(|(case, _)| *case == which).expect("each case is told");
    let note = if note.len() < SHRUNK { shrunk(note, which) } else { note.to_string() };
    let answer = export(&note).map(|records| List::new(note.clone(), &records).answer());
    let answer = answer.map_or("nothing".to_string(), |(number, place)| format!("{number} at {place}"));
    println!("    {count:>6}  {told}: smallest {} gives {answer}", escaped(note.as_bytes()));
}

/// The note with all taken out of it that the case does not need.
fn shrunk(note: &str, which: Case) -> String {
    let mut characters: Vec<char> = note.chars().collect();
    let mut length = characters.len();
    while length > 0 {
        let mut at = 0;
        while at + length <= characters.len() {
            let mut fewer = characters.clone();
            fewer.drain(at..at + length);
            if case(&fewer.iter().collect::<String>()) == which {
                characters = fewer;
            } else {
                at += 1;
            }
        }
        length = length.min(characters.len() + 1) - 1;
    }
    characters.into_iter().collect()
}
