// A build, op 7 of `calls`, and the answer that is expected: 1 to 7 by the judge of the checker, 8 and 9 by what the
// changed copy of the crate tells, the page by the crate.
use crate::check::check;
use crate::compile::{changed, compile};
use crate::drive::{escaped, Asked};
use crate::export::{export, PageOptions};
use crate::lists::List;
use crate::premises::{row, Row};
use crate::record::{self, Record};
use crate::shrink;

pub const LEAST_WORK: usize = 49_152;
const MOST_TOTAL: usize = 16_384;

#[derive(Clone)]
pub struct Build {
    pub list: List,
    pub options: PageOptions,
    pub room: usize,
    pub work: usize,
    /// whether the events are the export of the text: then the text is what is made smaller
    pub note: bool,
}

/// The page, or a refusal's number and place.
pub type Answer = Result<Vec<u8>, (u32, usize)>;

impl Build {
    pub fn new(list: List, options: PageOptions, room: usize) -> Self {
        Build { list, options, room, work: LEAST_WORK, note: false }
    }

    /// The build as it is shown, with an answer.
    pub fn shown_with(&self, answer: &Answer) -> String {
        match answer {
            Ok(page) => format!("{} gives {}", self.shown(), escaped(page)),
            Err((number, place)) => format!("{} gives {number} at {place}", self.shown()),
        }
    }

    pub fn answer(&self) -> Answer {
        if self.work < LEAST_WORK {
            return Err((1, 0));
        }
        match check(&self.list.text, &self.list.events) {
            (0, _) => answer_of_run(&self.list.text, &record::read(&self.list.events), self.options, self.room),
            refusal => Err(refusal),
        }
    }
}

/// Running order: the first event behind which a total is passed, or the page is too long; 8 before 9.
pub fn answer_of_run(text: &[u8], records: &[Record], options: PageOptions, room: usize) -> Answer {
    let (page, told) = changed::probe(text, records, options);
    if row(text, records) == Row::Same {
        let by_crate = compile(text, records, options);
        let (by_crate, by_copy) = if options.bits & 8 == 8 { (plain(&by_crate), plain(&page)) } else { (by_crate, page.clone()) };
        assert_eq!(by_crate, by_copy, "the crate and its changed copy differ on {}", escaped(text));
    }
    for now in told {
        if now.captures > MOST_TOTAL || now.held > MOST_TOTAL || now.kept > MOST_TOTAL {
            return Err((8, now.place));
        }
        if now.page > room {
            return Err((9, now.place));
        }
    }
    let page = page.unwrap_or_else(|| panic!("the changed copy panics on {}", escaped(text)));
    Ok(if options.names == 4 { older(text, &page) } else { page }.into_bytes())
}

/// A page with each apostrophe as it is: the crate's and the changed copy's then are the same.
fn plain(page: &Option<String>) -> Option<String> {
    page.as_ref().map(|page| page.replace("&#39;", "'"))
}

/// The crate's page as the names of HTML 4.01 have it. Both brackets have three bytes in both, so no total and no room differs; the
/// text has to have them by their names alone.
fn older(text: &[u8], page: &str) -> String {
    let text = String::from_utf8_lossy(text).to_uppercase();
    let otherwise = ["\u{27E8}", "\u{27E9}", "27E8", "27E9", "10216", "10217", "%E2%9F%A"];
    assert!(!otherwise.iter().any(|source| text.contains(source)), "a bracket by another name in {text}");
    let pairs = [("\u{27E8}", "\u{2329}"), ("\u{27E9}", "\u{232A}"), ("%E2%9F%A8", "%E2%8C%A9"), ("%E2%9F%A9", "%E2%8C%AA")];
    pairs.into_iter().fold(page.to_string(), |page, (newer, older)| page.replace(newer, older))
}

/// The page that a list would have with room enough, where it has one.
pub fn whole_page(list: &List, options: PageOptions) -> Option<Vec<u8>> {
    Build::new(list.clone(), options, usize::MAX).answer().ok()
}

impl Asked for Build {
    fn write(&self, to: &mut Vec<u8>) {
        let mut header = [0; 32];
        header[..4].copy_from_slice(&[7, self.options.bits, self.options.ending, self.options.names]);
        let fields = [self.list.text.len(), self.list.events.len(), self.room, self.work];
        for (k, field) in fields.into_iter().enumerate() {
            header[4 + 4 * k..8 + 4 * k].copy_from_slice(&(field as u32).to_le_bytes());
        }
        to.extend(header);
        to.extend(&self.list.text);
        to.extend(&self.list.events);
    }

    /// The header, with 1 for work that is all zero, then the output: the page and zeros, or all zeros.
    fn expected(&self) -> Vec<u8> {
        let (number, value, page) = match self.answer() {
            Ok(page) => (0, page.len(), page),
            Err((number, place)) => (number, place, Vec::new()),
        };
        let fields = [number, value as u32, 0, 0, self.room as u32, 1];
        let mut bytes: Vec<u8> = fields.iter().flat_map(|field| field.to_le_bytes()).collect();
        bytes.extend(page);
        bytes.resize(24 + self.room, 0);
        bytes
    }

    fn size(&self) -> (usize, usize) {
        (self.list.events.len() + self.list.text.len(), self.room)
    }

    fn shown(&self) -> String {
        let PageOptions { bits, ending, names } = self.options;
        let note = if self.note { "note " } else { "" };
        format!("options {bits} ending {ending} names {names} room {} work {} {note}{}", self.room, self.work, self.list.shown())
    }

    /// One step smaller: a piece of the note less, or an element, or an element's sides; then less text, options off.
    fn smaller(&self) -> Vec<Self> {
        let mut builds = if self.note { self.shorter_notes() } else { self.fewer_events() };
        let plain = PageOptions { names: self.options.names, ..PageOptions::default() };
        if (self.options.bits, self.options.ending) != (0, 0) {
            builds.push(Build { options: plain, ..self.clone() });
        }
        builds
    }
}

impl Build {
    /// What is left of the room: as much more or less than the page as before.
    fn with(&self, list: List) -> Self {
        let length = |list: &List| whole_page(list, self.options).map_or(0, |page| page.len());
        let room = (self.room + length(&list)).saturating_sub(length(&self.list));
        Build { list, room, ..self.clone() }
    }

    fn shorter_notes(&self) -> Vec<Self> {
        let note = std::str::from_utf8(&self.list.text).expect("a note is UTF-8");
        let notes = shrink::texts(note).into_iter();
        notes.filter_map(|note| Some(self.with(List::new(note.clone(), &export(&note)?)))).collect()
    }

    fn fewer_events(&self) -> Vec<Self> {
        let lists = shrink::lists(&record::read(&self.list.events)).into_iter();
        lists.map(|records| self.with(List::new(self.list.text.clone(), &records))).collect()
    }
}
