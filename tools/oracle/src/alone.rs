// The crate alone on lists that the rules pass: it must give a page, whatever list that is. Also for the crate with debug
// assertions, to which `build debug` links this program.
use crate::compile::{changed, compile};
use crate::corpus::page_notes;
use crate::drive::Asked;
use crate::export::{export, page, PageOptions};
use crate::grammar::{random_list_of, Words, ANY, PLAIN};
use crate::lists::List;
use crate::premises::{row, Row, ROWS};
use crate::random::Random;
use crate::record;
use crate::shrink;
use std::collections::BTreeMap;
use std::time::Instant;

pub const SEED: u64 = 20_251_119;
pub const LISTS: usize = 120_000;

/// Lists from the grammar of RULES R3 with what matters to a page: most are short, some have up to 2,500 events and more.
pub fn grammar(words: &'static Words, count: usize, ask: &mut dyn FnMut(List, PageOptions)) {
    let mut random = Random(SEED);
    for k in 0..count {
        let enough = if k % 200 == 0 { random.below(2_500) } else { random.below(60) };
        let list = random_list_of(words, &mut random, enough);
        ask(list, PageOptions { bits: random.below(8) as u8, ending: random.below(3) as u8, names: 0 });
    }
}

/// Of a row: the lists, panics of the crate, other pages than the changed copy's, panics of that; and the smallest list
/// on which the crate panics.
#[derive(Default)]
struct Count {
    lists: usize,
    panics: usize,
    others: usize,
    copy_panics: usize,
    smallest: Option<(List, PageOptions)>,
}

type Counts = BTreeMap<Row, Count>;

/// Counts the panics, and the pages that are not the changed copy's; gives how many of these no row explains.
pub fn compare() -> usize {
    println!("debug assertions: {}", cfg!(debug_assertions));
    lists("plain", &PLAIN) + lists("any", &ANY) + notes()
}

fn lists(name: &str, words: &'static Words) -> usize {
    let began = Instant::now();
    let mut counts = Counts::new();
    let mut refused = 0;
    grammar(words, LISTS, &mut |list, options| {
        refused += usize::from(list.answer().0 != 0);
        count(&list, options, &mut counts);
    });
    println!("grammar, {name} labels, seed {SEED}: {LISTS} lists, {refused} refused, {} s", began.elapsed().as_secs());
    refused + show(&counts)
}

/// The notes whose list the rules pass; and how often the parser panics, and the crate on the others.
fn notes() -> usize {
    let began = Instant::now();
    let mut counts = Counts::new();
    let (mut all, mut parser, mut others, mut refused) = (0, 0, 0, 0);
    page_notes(&mut |note, options| {
        all += 1;
        let Some(records) = export(&note) else {
            parser += 1;
            return;
        };
        let list = List::new(note.clone(), &records);
        if list.answer().0 == 0 {
            count(&list, options, &mut counts);
        } else {
            refused += 1;
            others += usize::from(page(&note, options).is_none());
        }
    });
    println!(
        "notes: {all}, {parser} on which the parser panics, {refused} refused ({others} of them panic), {} s",
        began.elapsed().as_secs()
    );
    show(&counts)
}

fn count(list: &List, options: PageOptions, counts: &mut Counts) {
    let records = record::read(&list.events);
    let by_crate = compile(&list.text, &records, options);
    let by_copy = changed::compile(&list.text, &records, options);
    changed::forget();
    let count = counts.entry(row(&list.text, &records)).or_default();
    count.lists += 1;
    count.panics += usize::from(by_crate.is_none());
    count.others += usize::from(by_crate.is_some() && by_crate != by_copy);
    count.copy_panics += usize::from(by_copy.is_none());
    let least = count.smallest.as_ref().map_or(usize::MAX, |(list, _)| list.events.len());
    if by_crate.is_none() && list.events.len() < least {
        count.smallest = Some((list.clone(), options));
    }
}

/// Prints the counts; gives what no row explains: any panic of the changed copy, and all where the crate is the judge.
fn show(counts: &Counts) -> usize {
    let mut unexplained = 0;
    for (row, count) in counts {
        let told = ROWS.iter().find(|(listed, _)| listed == row).expect("each row is told").1;
        let Count { lists, panics, others, copy_panics, smallest } = count;
        println!(
            "    {lists:>7}  {told}: {panics} panics, {others} other pages; {copy_panics} panics of the changed copy"
        );
        if let Some((list, options)) = smallest {
            println!("             it panics on {}", shrunk(list.clone(), *options, *row).shown());
        }
        unexplained += copy_panics + if *row == Row::Same { panics + others } else { 0 };
    }
    unexplained
}

/// The list without what is not needed for a panic of the crate under this row.
fn shrunk(mut list: List, options: PageOptions, which: Row) -> List {
    let stays = |list: &List| {
        let records = record::read(&list.events);
        list.answer().0 == 0 && row(&list.text, &records) == which && compile(&list.text, &records, options).is_none()
    };
    let smaller = |list: &List| {
        let fewer = shrink::lists(&record::read(&list.events)).into_iter();
        fewer.map(|records| List::new(list.text.clone(), &records)).find(|list| stays(list))
    };
    while let Some(fewer) = smaller(&list) {
        list = fewer;
    }
    list
}
