// Markdown files, cut between lines into notes within the sizes of RULES R8.1, as builds.
use crate::builds::{options, run, with_rooms, Ask};
use crate::corpus::Cases;
use crate::export::export;
use crate::lists::List;
use crate::random::Random;
use std::fs;

const SEED: u64 = 20_251_124;
const LONGEST: usize = 64_000;
const MOST_EVENTS: usize = 3_200;

/// Compares the builds of the files whose paths standard input has, a line each; gives the number of differences.
pub fn compare(program: &[&str]) -> usize {
    let paths: Vec<String> = std::io::stdin().lines().map(|line| line.expect("a path")).collect();
    let texts: Vec<String> = paths.iter().filter_map(|path| fs::read(path).ok()).map(lossy).collect();
    let notes: Vec<String> = texts.iter().flat_map(|text| pieces(text)).collect();
    let bytes: usize = notes.iter().map(String::len).sum();
    println!("{} files, {} notes of {bytes} bytes", texts.len(), notes.len());
    let differences = run("files", program, |ask| builds(&notes, ask));
    let mut cases = Cases::default();
    for note in &notes {
        cases.count(note);
    }
    differences + cases.show()
}

/// What is not UTF-8 becomes U+FFFD.
fn lossy(bytes: Vec<u8>) -> String {
    String::from_utf8_lossy(&bytes).into_owned()
}

fn builds(notes: &[String], ask: Ask) {
    let mut random = Random(SEED);
    for note in notes {
        let Some(records) = export(note) else { continue };
        let list = List::new(note.clone(), &records);
        with_rooms(list.clone(), options(&mut random), &mut random, true, ask);
        with_rooms(list, options(&mut random), &mut random, true, ask);
    }
}

/// Whole lines, as many as the sizes take, then the next ones. A line that is too long by itself is left out.
fn pieces(text: &str) -> Vec<String> {
    let lines: Vec<&str> = text.split_inclusive('\n').collect();
    let mut pieces = Vec::new();
    let (mut at, mut most) = (0, LONGEST);
    while at < lines.len() {
        let mut bytes = 0;
        let short = |line: &&&str| {
            bytes += line.len();
            bytes <= most
        };
        let mut count = lines[at..].iter().take_while(short).count();
        while count > 0 && !fits(&lines[at..at + count].concat()) {
            count /= 2;
        }
        if count > 0 {
            let piece = lines[at..at + count].concat();
            // what comes next is about as dense
            most = (3 * piece.len()).clamp(4_000, LONGEST);
            pieces.push(piece);
        }
        at += count.max(1);
    }
    pieces
}

fn fits(note: &str) -> bool {
    export(note).is_none_or(|records| records.len() <= MOST_EVENTS)
}
