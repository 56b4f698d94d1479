// Every name as a child at every position that the grammar of RULES R3 has, and every field of every name.
use crate::check::{after, holds};
use crate::grammar::Maker;
use crate::lists::{Ask, List};
use crate::record::{self, Record};
use std::collections::BTreeSet;

/// One step to a position: an element that stays open, or one with the least that it holds.
#[derive(Clone, Copy)]
enum Step {
    Into(u8),
    Past(u8),
}

/// A place where a child may stand.
#[derive(Clone)]
struct Position {
    steps: Vec<Step>,
    parents: Vec<u8>,
    /// what the newest parent may still hold, and whether it holds nothing yet
    left: String,
    fresh: bool,
}

/// The positions, each once: two are the same if the newest parent and what it may still hold are the same.
fn positions() -> Vec<Position> {
    let whole = Position { steps: Vec::new(), parents: Vec::new(), left: "flow*".to_string(), fresh: true };
    let mut found = vec![whole];
    let mut seen = BTreeSet::new();
    let mut next = 0;
    while next < found.len() {
        let position = found[next].clone();
        next += 1;
        for further in (5..=65).flat_map(|name| behind(&position, name)) {
            if seen.insert((further.parents.last().copied(), further.left.clone(), further.fresh)) {
                found.push(further);
            }
        }
    }
    found
}

/// Behind this child, and inside it, where it can stand.
fn behind(position: &Position, name: u8) -> Vec<Position> {
    let Some(left) = after(&position.left, name) else { return Vec::new() };
    let past: Vec<Step> = position.steps.iter().copied().chain([Step::Past(name)]).collect();
    let into: Vec<Step> = position.steps.iter().copied().chain([Step::Into(name)]).collect();
    let parents: Vec<u8> = position.parents.iter().copied().chain([name]).collect();
    let siblings = position.steps.iter().rev().take_while(|step| matches!(step, Step::Past(_)));
    let nth = siblings.filter(|step| matches!(step, Step::Past(past) if *past == name)).count();
    let held = holds(name, &position.parents, nth).to_string();
    vec![
        Position { steps: past, parents: position.parents.clone(), left, fresh: false },
        Position { steps: into, parents, left: held, fresh: true },
    ]
}

fn maker_at(position: &Position) -> Maker {
    let mut maker = Maker::least();
    for step in &position.steps {
        match *step {
            Step::Into(name) => maker.enter(name),
            Step::Past(name) => maker.element(name),
        }
    }
    maker
}

/// At each position every child; where nothing stands yet every two children; and every child inside each of 0 to 4.
pub fn children(ask: Ask) {
    for position in positions() {
        for name in 0..=65 {
            ask(list(&position, &[], &[name]));
            for around in 0..=4 {
                ask(list(&position, &[around], &[name]));
            }
            for second in (0..=65).filter(|_| position.fresh) {
                ask(list(&position, &[], &[name, second]));
            }
        }
    }
}

fn list(position: &Position, around: &[u8], children: &[u8]) -> List {
    let mut maker = maker_at(position);
    around.iter().for_each(|&name| maker.enter(name));
    children.iter().for_each(|&name| maker.element(name));
    around.iter().for_each(|_| maker.exit());
    maker.finish()
}

/// Each field of the enter and of the exit of each name, with values about its rule.
pub fn fields(ask: Ask) {
    let positions = positions();
    for name in 0..=65 {
        let takes = |position: &&Position| name < 5 || after(&position.left, name).is_some();
        let position = positions.iter().find(takes).expect("every name has a place");
        let list = list(position, &[], &[name]);
        let records = record::read(&list.events);
        for kind in [0, 1] {
            let is_it = |record: &Record| record.kind == kind && record.name == name;
            let at = records.iter().position(is_it).expect("the element is there");
            for changed in changes(&records[at], list.text.len() as u32) {
                let mut other = records.clone();
                other[at] = changed;
                ask(List::new(list.text.clone(), &other));
            }
        }
    }
}

/// The record with one field changed, and with both places changed.
fn changes(record: &Record, length: u32) -> Vec<Record> {
    let same = *record;
    let mut changes: Vec<Record> = Vec::new();
    for value in [0, 1, 2, 3, 4, 5, 64, 65, 66, 128, 255] {
        changes.push(Record { kind: value, ..same });
        changes.push(Record { name: value, ..same });
        changes.push(Record { before: value, ..same });
        changes.push(Record { after: value, ..same });
        changes.push(Record { before: value, after: value, ..same });
    }
    let places = [0, 1, 2, 3, length - 1, length, length + 1, 64_000, 1 << 31, u32::MAX];
    for from in places {
        changes.extend(places.map(|to| Record { from, to, ..same }));
    }
    for bit in 0..64 {
        changes.push(Record { extra: 1 << bit, ..same });
        changes.push(Record { extra: same.extra ^ 1 << bit, ..same });
        changes.push(Record { extra: u64::MAX >> bit, ..same });
    }
    changes
}
