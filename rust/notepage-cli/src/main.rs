//! The command `notepage`: from a note to its page. docs/COMMAND.md is its manual.
mod asked;
mod input;
mod names;
mod output;
mod progress;
mod refused;
mod show;
mod standard;
mod work;

use asked::Call;
use std::process::ExitCode;

const FAILED: u8 = 1;
const WRONG_USAGE: u8 = 2;

fn main() -> ExitCode {
    let asked = match asked::read(std::env::args_os().skip(1)) {
        Ok(asked) => asked,
        Err(why) => {
            output::tell(&format!("notepage: {why}\n{}", asked::HINT));
            return ExitCode::from(WRONG_USAGE);
        }
    };
    let failed = match asked.call {
        Call::Help => said(asked::USAGE),
        Call::Version => said(&work::version()),
        Call::Show => show::run(&asked),
        Call::Page | Call::Check | Call::Bundle => work::run(&asked),
    };
    ExitCode::from(if failed { FAILED } else { 0 })
}

/// Writes a text on standard output; whether that failed.
fn said(text: &str) -> bool {
    let written = standard::write(text.as_bytes());
    written.map_err(|why| output::tell(&why)).is_err()
}

// the parser's package and the library have the same sizes
const _: () = assert!(notepage::MOST_TEXT == notepage_export::MOST_TEXT);
const _: () = assert!(notepage::MOST_EVENTS == notepage_export::MOST_EVENTS);
const _: () = assert!(notepage::RECORD == notepage_export::RECORD);
