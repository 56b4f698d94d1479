//! A bundle or a list of events in readable form.
use crate::asked::Asked;
use crate::input::{bytes, is_bundle, is_text};
use crate::names::named;
use crate::output;
use crate::standard;
use notepage::{position, read_bundle, BLOCK, LEAST_READ, RECORD};
use std::fmt::Write;
use std::path::Path;

/// The most characters of a slice that are shown.
const MOST_SHOWN: usize = 60;
const PAYLOAD: usize = BLOCK - 12;
const CHECKED: usize = BLOCK - 4;

/// Shows a file; whether it failed.
pub fn run(asked: &Asked) -> bool {
    let file = &asked.files[0];
    let (shown, wrong) = match shown(file, asked.text.as_deref()) {
        Ok(shown) => shown,
        Err(why) => (String::new(), Some(why)),
    };
    let written = standard::write(shown.as_bytes());
    if let Err(why) = &written {
        output::tell(why);
    }
    if let Some(why) = &wrong {
        output::tell(&format!("{}: {why}", file.display()));
    }
    written.is_err() || wrong.is_some()
}

/// What is shown, and what is wrong with the rest.
fn shown(file: &Path, text: Option<&Path>) -> Result<(String, Option<String>), String> {
    let data = bytes(file)?;
    if is_bundle(&data) {
        return Ok(bundle(&data));
    }
    if is_text(&data) && !data.is_empty() {
        return Err("this is a text, neither a bundle nor a list of events; its page: notepage page".into());
    }
    if data.len() % RECORD != 0 {
        return Err(format!("{} bytes are no whole blocks of {BLOCK} and no whole records of {RECORD}", data.len()));
    }
    let text = text.map(|path| bytes(path).map_err(|why| format!("{}: {why}", path.display()))).transpose()?;
    Ok((list(&data, text.as_deref()), None))
}

/// The blocks; then the events, where the proved reader takes the bundle.
fn bundle(data: &[u8]) -> (String, Option<String>) {
    let mut lines: String =
        data.chunks_exact(BLOCK).enumerate().map(|(place, block)| block_line(place, block)).collect();
    let (mut text, mut events) = (vec![0; LEAST_READ], vec![0; LEAST_READ]);
    match read_bundle(data, &mut text, &mut events) {
        Ok(note) => {
            lines.push_str(&list(note.events, Some(note.text)));
            (lines, None)
        }
        Err(refusal) => (lines, Some(refusal.to_string())),
    }
}

fn u32_at(data: &[u8], at: usize) -> u32 {
    u32::from_le_bytes([data[at], data[at + 1], data[at + 2], data[at + 3]])
}

fn block_line(place: usize, block: &[u8]) -> String {
    let kind = match block[6] {
        1 => format!("header: text {} bytes, {} events", u32_at(block, 8), u32_at(block, 12)),
        2 => "text".to_string(),
        3 => format!("events, {} to a block", PAYLOAD / RECORD),
        other => format!("kind {other}"),
    };
    let number = u16::from_le_bytes([block[4], block[5]]);
    let numbered = if usize::from(number) == place { String::new() } else { format!(", says it is block {number}") };
    let sum = (1u32..).zip(&block[..CHECKED]).fold(0u32, |sum, (by, &byte)| sum.wrapping_add(by * u32::from(byte)));
    let check = if sum == u32_at(block, CHECKED) { "" } else { ", CHECK WRONG" };
    format!("block {place}  edition {}  {kind}{numbered}{check}\n", u32_at(block, 0))
}

/// A line for each event, set in by what is open.
fn list(events: &[u8], text: Option<&[u8]>) -> String {
    let (mut lines, mut open) = (String::new(), 0usize);
    for (place, record) in events.chunks_exact(RECORD).enumerate() {
        let enters = record[0] == 0;
        open = if enters { open } else { open.saturating_sub(1) };
        let word = if enters { "enter" } else { "exit " };
        let _ = write!(lines, "event {place:<5}{}{word} {}", "  ".repeat(open), named(record[1]));
        lines.push_str(&fields(record));
        if let (false, Some(text)) = (enters, text) {
            lines.push_str(&slice(text, events, place, record));
        }
        lines.push('\n');
        open += usize::from(enters);
    }
    lines
}

/// What a record says beside its kind and name.
fn fields(record: &[u8]) -> String {
    let mut words = String::new();
    if record[0] != 0 {
        let _ = write!(words, "  {}..{}", u32_at(record, 4), u32_at(record, 8));
    }
    if record[2] != 0 || record[3] != 0 {
        let _ = write!(words, "  spaces before {}, after {}", record[2], record[3]);
    }
    let extra = u64::from(u32_at(record, 12)) | u64::from(u32_at(record, 16)) << 32;
    if extra != 0 {
        let _ = write!(words, "  extra {extra:#x}");
    }
    words
}

/// The slice of an exit, and where it begins.
fn slice(text: &[u8], events: &[u8], place: usize, record: &[u8]) -> String {
    let (from, to) = (u32_at(record, 4) as usize, u32_at(record, 8) as usize);
    let Some(found) = text.get(from..to) else {
        return "  OUTSIDE THE TEXT".to_string();
    };
    let found = String::from_utf8_lossy(found);
    let cut: String = found.chars().take(MOST_SHOWN).collect();
    let more = if cut.len() < found.len() { ".." } else { "" };
    let at =
        position(text, events, place).map_or(String::new(), |at| format!("  line {}, column {}", at.line, at.column));
    format!("  {cut:?}{more}{at}")
}
