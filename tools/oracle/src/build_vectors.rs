// The builds that the gate replays, with the crate's answers: added behind what `vectors.rs` writes.
use crate::builds::options;
use crate::corpus::some_page_list;
use crate::damage::each_damage;
use crate::drive::Asked;
use crate::edges::{path, repeated};
use crate::export::{export, PageOptions};
use crate::given;
use crate::grammar::{random_list_of, ANY, PLAIN};
use crate::lists::List;
use crate::page_table::{definition, footnote, heading, link, paragraph, rows, OFF};
use crate::pages::{whole_page, Build, LEAST_WORK};
use crate::premises::{row, Row};
use crate::random::Random;
use crate::record::{self, Record, ENTER, LENGTH};
use crate::references;
use crate::vectors::some;
use std::collections::{BTreeMap, BTreeSet};

const SEED: u64 = 8;
/// The text, the events and the room of all but the limits together; the files should stay small.
const LONGEST: usize = 700;
/// So many for each cause: the number, and the event at the place; for a page the options and the ending.
const TAKEN: [(&str, usize); 4] = [("notes", 17), ("lists", 22), ("rooms", 6), ("damaged", 1)];

pub fn chosen() -> Vec<Build> {
    let small = |build: &Build| build.size().0 + build.room <= LONGEST;
    let table = rows().into_iter().map(|(list, options, room, _)| {
        let needed = whole_page(&list, options).map_or(0, |page| page.len());
        Build::new(list, options, room.min(needed + 3))
    });
    let mut chosen: Vec<Build> = table.filter(small).chain(given::few()).collect();
    let mut random = Random(SEED);
    for (name, count) in TAKEN {
        let builds = family(name).into_iter().filter(small);
        let mut groups: BTreeMap<_, Vec<Build>> = BTreeMap::new();
        let mut shown = BTreeSet::new();
        for build in builds {
            if shows_more(&build, &mut shown) {
                chosen.push(build.clone());
            }
            groups.entry(cause(&build)).or_default().push(build);
        }
        chosen.extend(groups.values().flat_map(|group| some(group, count, &mut random)));
    }
    chosen.extend(limits());
    chosen.extend(references());
    chosen.extend(quotes());
    complete(&chosen);
    chosen
}

/// Each number, and a page with each choice of options and ending.
fn complete(chosen: &[Build]) {
    let causes: BTreeSet<_> = chosen.iter().map(cause).collect();
    for number in 1..=9 {
        assert!(causes.iter().any(|cause| cause.0 == number), "no build gives {number}");
    }
    for (bits, ending) in (0..8).flat_map(|bits| (0..3).map(move |ending| (bits, ending))) {
        assert!(causes.contains(&(0, vec![bits, ending])), "no page with options {bits} and ending {ending}");
    }
}

/// The number, and the first two bytes of the event at its place: kind and name. For a page its options.
fn cause(build: &Build) -> (u32, Vec<u8>) {
    match build.answer() {
        Ok(_) => (0, vec![build.options.bits, build.options.ending]),
        Err((number, place)) => {
            let event = build.list.events.iter().skip(place * LENGTH).take(2).filter(|_| number > 2);
            (number, event.copied().collect())
        }
    }
}

/// Whether a page's list has a name inside another, or behind another, that no list before had.
fn shows_more(build: &Build, shown: &mut BTreeSet<(bool, u8, u8)>) -> bool {
    if build.answer().is_err() {
        return false;
    }
    let (mut open, mut more, mut last) = (vec![255], false, 255);
    for record in record::read(&build.list.events) {
        if record.kind == ENTER {
            more |= shown.insert((true, *open.last().expect("255 stays"), record.name));
            more |= shown.insert((false, last, record.name));
            open.push(record.name);
        } else {
            open.pop();
        }
        last = record.name;
    }
    more
}

/// Builds to choose from. All but some of the lists are such that the crate itself gives the page.
fn family(name: &str) -> Vec<Build> {
    let mut random = Random(SEED);
    let mut builds = Vec::new();
    let count = if name == "rooms" || name == "damaged" { 1_500 } else { 12_000 };
    for k in 0..count {
        let options = options(&mut random);
        let list = some_list(name, k, &mut random);
        match name {
            "rooms" => short_rooms(list, options, &mut random, &mut builds),
            "damaged" => each_damage(&list, &mut random, &mut |damaged| builds.push(Build::new(damaged, options, 40))),
            _ => builds.push(with_room(list, options, k % 4)),
        }
    }
    builds.retain(|build| build.answer().is_err() || name == "lists" || same(&build.list));
    builds
}

fn some_list(name: &str, k: usize, random: &mut Random) -> List {
    let enough = random.below(16);
    match name {
        "notes" => some_page_list(random, 40),
        "lists" if k % 16 == 0 => random_list_of(&ANY, random, enough),
        _ if k % 2 == 0 => some_page_list(random, 30),
        _ => random_list_of(&PLAIN, random, enough),
    }
}

fn same(list: &List) -> bool {
    row(&list.text, &record::read(&list.events)) == Row::Same
}

fn with_room(list: List, options: PageOptions, more: usize) -> Build {
    let length = whole_page(&list, options).map_or(20, |page| page.len());
    Build::new(list, options, length + more)
}

/// Lists with apostrophes, which are escaped, with each choice of the other options.
fn quotes() -> Vec<Build> {
    let mut random = Random(SEED);
    let lists = (0..400).map(|k| some_list("lists", k + 1, &mut random));
    let quoted = lists.map(|list| List { text: list.text.iter().map(|&b| if b"ab*>?".contains(&b) { b'\'' } else { b }).collect(), ..list });
    let builds = quoted.enumerate().map(|(k, list)| with_room(list, PageOptions { bits: 8 + (k % 8) as u8, ..OFF }, k % 3));
    builds.filter(|build| build.answer().is_ok() && build.size().0 + build.room <= LONGEST).take(60).collect()
}

/// All names together, and some in each place that takes a reference, with both names options.
fn references() -> Vec<Build> {
    let some = ["AElig", "amp", "lang", "lrm", "lt", "nbsp", "quot", "rang", "rlm", "thetasym", "zwj", "zwnj", "apos", "AMP", "lan"];
    let notes = some.into_iter().map(references::note).chain([references::all()]);
    let both = notes.flat_map(|note| [0, 4].map(|names| (note.clone(), PageOptions { names, ..OFF })));
    both.map(|(note, options)| {
        let records = export(&note).expect("the parser takes it");
        with_room(List::new(note, &records), options, 0)
    })
    .collect()
}

/// Three rooms that are too short.
fn short_rooms(list: List, options: PageOptions, random: &mut Random, builds: &mut Vec<Build>) {
    let Some(length) = whole_page(&list, options).map(|page| page.len()).filter(|&length| length > 0) else { return };
    for room in [length - 1, random.below(length), random.below(length)] {
        builds.push(Build::new(list.clone(), options, room));
    }
}

/// Few large ones: each total at its limit and one more, sizes, counts, and work of several lengths.
fn limits() -> Vec<Build> {
    let mut builds = Vec::new();
    let text = "a".repeat(16_385);
    for (full, over) in [
        (heading(16_384), heading(16_385)),
        (link(8_000, 8_000, 384), link(8_000, 8_000, 385)),
        (definition(8_192, 8_192), [definition(8_192, 8_192), definition(0, 1)].concat()),
        (footnote(&paragraph(16_377)), footnote(&paragraph(16_378))),
    ] {
        builds.push(with_room(List::new(text.clone(), &full), OFF, 0));
        builds.push(Build::new(List::new(text.clone(), &over), OFF, 64));
    }
    let paragraphs = record::written(&repeated(&path(&[19], 0, 1), 1_601));
    for length in [64_000, 64_020] {
        builds.push(with_room(List { text: b"a".to_vec(), events: paragraphs[..length].to_vec() }, OFF, 0));
    }
    for length in [64_000, 64_001] {
        builds.push(with_room(List::new("a".repeat(length), &path(&[12, 5], 0, 9)), OFF, 3));
    }
    builds.extend(counts());
    builds.extend(small_limits());
    builds
}

/// 64 open and one more, 128 definitions and 64 footnote definitions and one more, all looked for.
fn counts() -> Vec<Build> {
    let mut builds = Vec::new();
    for depth in [64, 65] {
        builds.push(with_room(List::new("a", &path(&vec![20; depth], 0, 1)), OFF, 0));
    }
    let digits: String = (0..130).map(|k| format!("{k:03}")).collect();
    let many =
        |count: usize, names: &[u8]| (0..count).flat_map(|k| path(names, 3 * k, 3 * k + 3)).collect::<Vec<Record>>();
    for (count, sides, uses) in [(128, &[53, 54][..], 45), (64, &[63, 64, 65], 62)] {
        let used = many(count, &[12, uses, 47, 48]);
        builds.push(with_room(List::new(digits.clone(), &[used, many(count, sides)].concat()), OFF, 0));
        builds.push(with_room(List::new(digits.clone(), &many(count + 1, sides)), OFF, 0));
    }
    builds
}

/// Work of each length, beside an answer and beside each kind of refusal; the ends of a footnote's body; and events that
/// are no whole records.
fn small_limits() -> Vec<Build> {
    let mut builds = Vec::new();
    let list = List::new("a\n", &[paragraph(1), path(&[3], 1, 2)].concat());
    let open = List::new("a", &[Record::enter(12)]);
    for work in [0, 49_151, LEAST_WORK, 49_153, 60_000, 131_072] {
        for (list, room) in [(&list, 9), (&list, 8), (&open, 5), (&List::new([0xFF], &[]), 3)] {
            builds.push(Build { work, ..Build::new(list.clone(), OFF, room) });
        }
    }
    for ending in ["\n", "\r", "\r\n"] {
        // a called footnote whose body ends in a line ending
        let body = [paragraph(1), path(&[3], 1, 1 + ending.len())].concat();
        let call = path(&[12, 62, 47, 48], 0, 1);
        builds.push(with_room(List::new(format!("a{ending}"), &[call, footnote(&body)].concat()), OFF, 0));
    }
    for length in [1, 19, 21, 79] {
        builds.push(Build::new(List { events: list.events[..length].to_vec(), ..list.clone() }, OFF, 9));
    }
    builds
}
