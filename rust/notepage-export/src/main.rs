//! Writes the event records of the note on standard input to standard output.
use std::io::{stdin, stdout, Read, Write};
use std::process::ExitCode;

fn main() -> ExitCode {
    match run() {
        Ok(()) => ExitCode::SUCCESS,
        Err(why) => {
            let _ = writeln!(std::io::stderr(), "{why}");
            ExitCode::FAILURE
        }
    }
}

fn run() -> Result<(), String> {
    let mut note = Vec::new();
    stdin().read_to_end(&mut note).map_err(|error| format!("standard input: {error}"))?;
    let found = notepage_export::export(&note).map_err(|error| error.to_string())?;
    let mut out = stdout();
    out.write_all(&found.events).and_then(|()| out.flush()).map_err(|error| format!("standard output: {error}"))
}
