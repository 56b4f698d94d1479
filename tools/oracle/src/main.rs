// The crate markdown 1.0.0 as the judge: compares the proved program `calls` with it, and writes what the gate replays.
mod alone;
mod build_families;
mod build_vectors;
mod builds;
mod bundle;
mod cases;
mod check;
mod checks;
mod compile;
mod corpus;
mod damage;
mod drive;
mod edges;
mod every;
mod export;
mod families;
mod files;
mod given;
mod grammar;
mod growth;
mod judge;
mod links;
mod lists;
mod normalized;
mod notes;
mod page_limits;
mod page_table;
mod pages;
mod part_families;
mod part_vectors;
mod parts;
mod premises;
mod random;
mod record;
mod references;
mod request;
mod shrink;
mod table;
mod totals;
mod vectors;
mod writes;

use drive::Drive;
use export::PageOptions;
use families::LEAVES;
use std::process::exit;
use std::time::Instant;

const USAGE: &str = "usage: oracle leaves|bundles|parts|writes|normalize|links|checks PROGRAM WORDS... | \
    oracle builds all|FAMILY,.. PROGRAM WORDS... | oracle files PROGRAM WORDS... <PATHS | oracle alone | \
    oracle vectors|build-vectors|part-vectors|write-vectors|normalize-vectors|link-vectors DIR | oracle references <NAMES | \
    oracle growth | \
    oracle export|compile OPTIONS ENDING";

fn main() {
    let words: Vec<String> = std::env::args().skip(1).collect();
    let words: Vec<&str> = words.iter().map(String::as_str).collect();
    match words[..] {
        ["leaves", _, ..] => leaves(&words[1..]),
        ["bundles", _, ..] => exit(i32::from(cases::compare("bundle", &bundle::FAMILIES, &words[1..]) > 0)),
        ["parts", _, ..] => exit(i32::from(cases::compare("parts", &part_families::FAMILIES, &words[1..]) > 0)),
        ["writes", _, ..] => exit(i32::from(writes::compare(&words[1..]) > 0)),
        ["normalize", _, ..] => exit(i32::from(normalized::compare(&words[1..]) > 0)),
        ["links", _, ..] => exit(i32::from(cases::compare("links", &links::FAMILIES, &words[1..]) > 0)),
        ["checks", _, ..] => checks(&words[1..]),
        ["builds", families, _, ..] => builds(families, &words[2..]),
        ["files", _, ..] => exit(i32::from(files::compare(&words[1..]) > 0)),
        ["alone"] => exit(i32::from(alone::compare() > 0)),
        ["vectors", folder] => vectors::write(folder),
        ["build-vectors", folder] => vectors::append(folder, &build_vectors::chosen(), 3_000_000),
        ["part-vectors", folder] => vectors::append(folder, &part_vectors::fixed(), 3_500_000),
        ["write-vectors", folder] => vectors::append(folder, &writes::fixed(), 700_000),
        ["normalize-vectors", folder] => vectors::append(folder, &normalized::stored(), 400_000),
        ["growth"] => growth::print(),
        ["link-vectors", folder] => vectors::append(folder, &links::fixed(), 300_000),
        ["references"] => references::print(),
        ["export", bits, ending] => export::print(page_options(bits, ending), compile::page_of),
        ["compile", bits, ending] => compile::print(page_options(bits, ending)),
        _ => {
            eprintln!("{USAGE}");
            exit(2)
        }
    }
}

/// The two numbers as RULES R16.4 gives them: three bits, and 0 LF, 1 CR, 2 CR LF.
fn page_options(bits: &str, ending: &str) -> PageOptions {
    PageOptions { bits: bits.parse().expect("a number"), ending: ending.parse().expect("a number"), names: 0 }
}

/// Compares the build with the crate: all families, or those named with commas between.
fn builds(families: &str, program: &[&str]) {
    let named: Vec<&str> = families.split(',').filter(|&name| name != "all").collect();
    if build_families::compare(program, &named) > 0 {
        exit(1);
    }
}

/// Compares the checker with an independent reading of RULES R3 to R8.
fn checks(program: &[&str]) {
    if checks::compare(program) > 0 {
        exit(1);
    }
}

/// Compares the families one by one, a line for each.
fn leaves(program: &[&str]) {
    let mut differences = 0;
    let (mut labels, mut labels_by_crate) = (0, 0);
    for family in &LEAVES {
        let began = Instant::now();
        let mut drive = Drive::new(program);
        (family.requests)(&mut |request| {
            if let Some(by_crate) = judge::label_by_crate(&request) {
                labels += 1;
                labels_by_crate += usize::from(by_crate);
            }
            drive.ask(request);
        });
        drive.finish_batch();
        let seed = family.seed.map_or("none".to_string(), |seed| seed.to_string());
        println!(
            "{:<7}  seed {seed:<8}  {:>8} requests  {:>3} differences  {:>3} s",
            family.name,
            drive.asked,
            drive.differences,
            began.elapsed().as_secs()
        );
        drive.show();
        differences += drive.differences;
    }
    println!("identity: {labels} labels judged by RULES R6, {labels_by_crate} of them by the crate too");
    if differences > 0 {
        println!("{differences} differences");
        exit(1);
    }
    println!("no unexplained difference");
}
