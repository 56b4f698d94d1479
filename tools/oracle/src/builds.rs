// Builds, op 7 of `calls`, with rooms about the length of their page; and a family of them compared with the judges.
use crate::drive::Drive;
use crate::export::PageOptions;
use crate::lists::List;
use crate::pages::{whole_page, Build};
use crate::random::Random;
use std::time::Instant;

/// What a family hands its builds to.
pub type Ask<'a> = &'a mut dyn FnMut(Build);

/// The most that `calls` lends.
pub const MOST_ROOM: usize = 524_288;

pub fn options(random: &mut Random) -> PageOptions {
    PageOptions { bits: random.below(8) as u8, ending: random.below(3) as u8, names: 0 }
}

/// The list with room for its page, just enough or some more, and every third time with less.
pub fn with_rooms(list: List, options: PageOptions, random: &mut Random, note: bool, ask: Ask) {
    let page = whole_page(&list, options).map(|page| page.len());
    let room = (page.unwrap_or(random.below(200)) + random.pick(&[0, 0, 0, 1, 7, 40])).min(MOST_ROOM);
    let build = Build { note, ..Build::new(list, options, room) };
    if let Some(length) = page.filter(|&length| length > 0 && random.below(3) == 0) {
        let length = length.min(MOST_ROOM);
        let less = random.below(length);
        ask(Build { room: random.pick(&[0, length - 1, less, less, less]), ..build.clone() });
    }
    ask(build);
}

/// A line for a family: how many builds, differences, seconds, pages, and refusals 1 to 9.
pub fn run(name: &str, program: &[&str], family: impl FnOnce(Ask)) -> usize {
    let began = Instant::now();
    let mut drive = Drive::new(program);
    family(&mut |build: Build| drive.ask(build));
    drive.finish_batch();
    let answers = &drive.numbers[..10];
    println!(
        "build {name:<8} {:>6} builds  {:>3} differences  {:>3} s  pages, then 1 to 9: {answers:?}",
        drive.asked,
        drive.differences,
        began.elapsed().as_secs()
    );
    drive.show();
    drive.differences
}
