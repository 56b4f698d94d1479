// Records back into the crate's events, and through its `to_html::compile`: for lists that no parser makes.
use crate::export::{from_hexadecimal, json, PageOptions};
use crate::record::{self, Record};

/// `compile` and what it needs, for one of the libraries.
macro_rules! compiler {
    ($library:ident) => {
        use crate::export::{caught, compile_options, PageOptions};
        use crate::record::{names, Record, ENTER};
        use $library::event::{Event, Kind, Name, Point};
        use $library::to_html;
        use $library::util::constant::TAB_SIZE;

        const NAMES: [Name; 66] = names!($library);

        /// The crate's page of a list, or nothing where the crate panics. A byte stands before the text, so that a tab
        /// can stand before every slice.
        pub fn compile(text: &[u8], records: &[Record], options: PageOptions) -> Option<String> {
            let events = events(records);
            let text = [b"\t", text].concat();
            let options = compile_options!($library, options);
            caught(|| to_html::compile(&events, &text, &options))
        }

        /// An enter's point is the start of the slice that its exit holds.
        fn events(records: &[Record]) -> Vec<Event> {
            let mut open = Vec::new();
            let mut events: Vec<Event> = Vec::new();
            for (index, record) in records.iter().enumerate() {
                let name = NAMES[usize::from(record.name)].clone();
                if record.kind == ENTER {
                    open.push(index);
                    events.push(Event { kind: Kind::Enter, name, point: point(1, 0, record.extra), link: None });
                } else {
                    if let Some(enter) = open.pop() {
                        events[enter].point = start(record, records[enter].extra);
                    }
                    events.push(Event { kind: Kind::Exit, name, point: end(record), link: None });
                }
            }
            events
        }

        /// Virtual spaces before a slice are the rest of the tab that stands before it.
        fn start(exit: &Record, extra: u64) -> Point {
            let (from, before) = (exit.from as usize, usize::from(exit.before));
            if before > 0 {
                point(from, TAB_SIZE - before, extra)
            } else {
                point(from + 1, 0, extra)
            }
        }

        /// Virtual spaces after a slice follow the tab that it ends with.
        fn end(exit: &Record) -> Point {
            let (to, after) = (exit.to as usize, usize::from(exit.after));
            if after > 0 {
                point(to, after + 1, 0)
            } else {
                point(to + 1, 0, 0)
            }
        }

        /// The line holds the extra field, for `infer.rs`.
        fn point(index: usize, vs: usize, extra: u64) -> Point {
            Point { line: extra as usize, column: 1, index, vs }
        }
    };
}

mod records {
    compiler!(markdown_records);
}

/// The same by the changed copy of the crate, `markdown_changed`, and what it told.
pub mod changed {
    compiler!(markdown_changed);
    use markdown_changed::to_html::{Told, TOLD};
    use markdown_changed::util::encode::APOSTROPHES;

    /// The page, nothing where the crate panics, and the lengths behind each handled event up to there. Bit 3 of the
    /// options has apostrophes escaped.
    pub fn probe(text: &[u8], records: &[Record], options: PageOptions) -> (Option<String>, Vec<Told>) {
        forget();
        APOSTROPHES.with(|on| on.set(options.bits & 8 == 8));
        let page = compile(text, records, options);
        APOSTROPHES.with(|on| on.set(false));
        (page, TOLD.with(|told| told.take()))
    }

    /// What was told and not taken is dropped.
    pub fn forget() {
        TOLD.with(|told| told.borrow_mut().clear());
    }
}

pub fn compile(text: &[u8], list: &[Record], options: PageOptions) -> Option<String> {
    records::compile(text, list, options)
}

/// The crate's page, by the changed copy where apostrophes are escaped.
pub fn page_of(text: &[u8], list: &[Record], options: PageOptions) -> Option<String> {
    if options.bits & 8 == 8 {
        return changed::probe(text, list, options).0;
    }
    compile(text, list, options)
}

/// For each line of standard input, a text and events in hexadecimal with a space between, the page as a line of JSON,
/// null where the crate panics.
pub fn print(options: PageOptions) {
    for line in std::io::stdin().lines() {
        let line = line.expect("standard input can be read");
        let (text, events) = line.split_once(' ').expect("a text, a space, events");
        let page = page_of(&from_hexadecimal(text), &record::read(&from_hexadecimal(events)), options);
        println!("{{\"page\": {}}}", json(page.map(String::into_bytes)));
    }
}
