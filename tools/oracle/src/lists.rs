// A list for the checker, op 6 of `calls`: a text and its events.
use crate::check::check;
use crate::drive::{escaped, Asked};
use crate::record::{self, Record, ENTER};

/// What a family hands its lists to.
pub type Ask<'a> = &'a mut dyn FnMut(List);

#[derive(Clone)]
pub struct List {
    pub text: Vec<u8>,
    pub events: Vec<u8>,
}

impl List {
    pub fn new(text: impl Into<Vec<u8>>, records: &[Record]) -> Self {
        List { text: text.into(), events: record::written(records) }
    }

    /// The judge's number and place.
    pub fn answer(&self) -> (u32, usize) {
        check(&self.text, &self.events)
    }
}

impl Asked for List {
    /// Adds the header of 32 bytes, the text and the events. The checker takes no room and no work.
    fn write(&self, to: &mut Vec<u8>) {
        let mut header = [0; 32];
        header[0] = 6;
        header[4..8].copy_from_slice(&(self.text.len() as u32).to_le_bytes());
        header[8..12].copy_from_slice(&(self.events.len() as u32).to_le_bytes());
        to.extend(header);
        to.extend(&self.text);
        to.extend(&self.events);
    }

    fn expected(&self) -> Vec<u8> {
        let (number, place) = self.answer();
        [number, place as u32, 0, 0, 0, 0].iter().flat_map(|field| field.to_le_bytes()).collect()
    }

    fn size(&self) -> (usize, usize) {
        (self.events.len() + self.text.len(), 0)
    }

    /// The text, and the events as `+name` and `-name from..to`, other fields where they are not 0.
    fn shown(&self) -> String {
        let events: Vec<String> = record::read(&self.events).iter().take(60).map(told).collect();
        let more = self.events.len() - self.events.len().min(events.len() * record::LENGTH);
        format!("text {} events {} and {more} bytes more", escaped(&self.text), events.join(" "))
    }
}

fn told(record: &Record) -> String {
    let &Record { kind, name, before, after, from, to, extra } = record;
    let mut told = match kind {
        ENTER => format!("+{name}"),
        1 => format!("-{name} {from}..{to}"),
        _ => format!("kind {kind} name {name} {from}..{to}"),
    };
    if (before, after, extra) != (0, 0, 0) || kind == ENTER && (from, to) != (0, 0) {
        told += &format!(" (before {before} after {after} from {from} to {to} extra {extra:#x})");
    }
    told
}
