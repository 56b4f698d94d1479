// The families of lists for the checker, and their comparison with the judge.
use crate::corpus;
use crate::damage::each_damage;
use crate::drive::Drive;
use crate::edges;
use crate::every;
use crate::grammar::random_list;
use crate::lists::{Ask, List};
use crate::random::Random;
use crate::table;
use std::time::Instant;

pub const FAMILIES: [(&str, fn(Ask)); 11] = [
    ("table", table::table),
    ("fields", every::fields),
    ("limits", edges::limits),
    ("characters", edges::characters),
    ("slices", edges::slices),
    ("together", edges::together),
    ("every", every::children),
    ("labels", edges::labels),
    ("grammar", grammar),
    ("damaged", damaged),
    ("corpus", corpus::lists),
];

const GRAMMAR_SEED: u64 = 20_251_117;
const DAMAGED_SEED: u64 = 20_251_118;

/// Lists from the grammar of RULES R3, which must all be passed: most are short, some have up to 3,000 events.
fn grammar(ask: Ask) {
    let mut random = Random(GRAMMAR_SEED);
    for k in 0..60_000 {
        let enough = if k % 200 == 0 { random.below(2_500) } else { random.below(60) };
        ask(random_list(&mut random, enough));
    }
}

/// One damage of each kind to lists of notes and to lists from the grammar.
fn damaged(ask: Ask) {
    let mut random = Random(DAMAGED_SEED);
    for _ in 0..6_000 {
        let note = corpus::some_list(&mut random, 150);
        each_damage(&note, &mut random, ask);
        let enough = random.below(40);
        let list = random_list(&mut random, enough);
        each_damage(&list, &mut random, ask);
    }
}

/// Compares the program with the judge, a line for each family; gives the number of differences and of notes that
/// no known case explains.
pub fn compare(program: &[&str]) -> usize {
    let mut differences = table::differences();
    for (name, lists) in FAMILIES {
        let began = Instant::now();
        let mut drive = Drive::new(program);
        let mut answers = [0; 8];
        lists(&mut |list: List| {
            answers[list.answer().0 as usize] += 1;
            drive.ask(list);
        });
        drive.finish_batch();
        let seconds = began.elapsed().as_secs();
        println!(
            "check {name:<10} {:>6} lists  {:>3} differences  {seconds:>3} s  yes, then 1 to 7: {answers:?}",
            drive.asked, drive.differences
        );
        drive.show();
        differences += drive.differences;
        if name == "grammar" {
            differences += drive.asked - answers[0];
        }
    }
    differences + corpus::cases()
}
