// Lists made from the grammar of RULES R3, as the judge reads it: with the least that is required, or at random.
use crate::check::{self, after, first_part, holds, FLOW, INLINE};
use crate::lists::List;
use crate::random::Random;
use crate::record::Record;
use crate::references::names;

/// Labels of different identities, each with another label of the same identity.
const LABELS: [[&str; 2]; 8] = [
    ["a", "A"],
    ["b c", " B\r\n\tc "],
    ["é", "é\n"],
    ["É", " É"],
    ["", " \t"],
    ["x-9\0", "\nX-9\0"],
    ["z\u{1F44D}", "Z\u{1F44D}\r"],
    ["w w w", "w  W\nw"],
];
/// Labels that the crate takes as RULES R6 does: ASCII, and none with a gap inside.
const PLAIN_LABELS: [[&str; 2]; 8] = [
    ["a", "A"],
    ["b-c", " B-C\r\n"],
    ["", " \t"],
    ["x-9\0", "\nX-9\0"],
    ["&<\">", "&<\">\t"],
    ["%4a", "%4A"],
    ["[\\]", " [\\]"],
    ["longer_Label:1?#/", "LONGER_label:1?#/"],
];
const PIECES: [&str; 10] = ["a", " ", "b*c", "é", "\u{20AC}", "\u{1F44D}", "\0", "\n", "&<>\"", "\t x"];
/// What the handlers of a page tell apart, too.
const PAGE_PIECES: [&str; 36] = [
    "a",
    " ",
    "b*c",
    "é",
    "\u{20AC}",
    "\u{1F44D}",
    "\0",
    "\n",
    "&<>\"",
    "\t x",
    " a ",
    "  ",
    "   ",
    " \\| ",
    "\\|",
    "\\\\|",
    "|",
    "\\",
    "javascript:x",
    "http://a/b",
    "HTTPS:x",
    "mailto:a@b",
    "a?b:c",
    "a/b:c",
    ":x",
    "%zz",
    "%2",
    "%%20",
    "a b&c",
    "</p>",
    "</p>\n",
    "\r",
    "\r\n",
    "x\n",
    "x\r",
    "data:é",
];

/// Of what lists are made.
pub struct Words {
    labels: &'static [[&'static str; 2]; 8],
    pieces: &'static [&'static str],
    /// whether the definitions that end a list have a destination, a title, a body
    full: bool,
}
/// For the checker.
const CHECKED: Words = Words { labels: &LABELS, pieces: &PIECES, full: false };
/// For pages, with labels of which R6 and the crate think the same, and with others.
pub const PLAIN: Words = Words { labels: &PLAIN_LABELS, pieces: &PAGE_PIECES, full: true };
pub const ANY: Words = Words { labels: &LABELS, pieces: &PAGE_PIECES, full: true };

/// Only what is required is put into elements that are nested so deep.
const DEEP: usize = 54;

struct Open {
    name: u8,
    children: Vec<u8>,
    /// the text's length at the enter
    start: usize,
    /// which of the labels its 52 or its 48 has, where there is no 49
    label: Option<usize>,
}

/// A list that is being made. Without a seed the first choice is taken, and nothing that may be left out.
pub struct Maker {
    text: String,
    records: Vec<Record>,
    open: Vec<Open>,
    random: Option<Random>,
    words: &'static Words,
    /// no more than what is required, once there are so many events
    enough: usize,
    /// what links and images look for, and what calls look for
    sought: [[bool; LABELS.len()]; 2],
}

impl Maker {
    pub fn least() -> Self {
        Maker::new(None, 0, &CHECKED)
    }

    fn new(random: Option<Random>, enough: usize, words: &'static Words) -> Self {
        Maker {
            text: "aé".to_string(),
            records: Vec::new(),
            open: Vec::new(),
            random,
            words,
            enough,
            sought: Default::default(),
        }
    }

    /// A choice of so many, the first without a seed.
    fn below(&mut self, bound: usize) -> usize {
        self.random.as_mut().map_or(0, |random| random.below(bound))
    }

    fn pick<T: Copy>(&mut self, from: &[T]) -> T {
        from[self.below(from.len())]
    }

    /// Whether something is put in that may be left out: so many times in six, never without a seed.
    fn chance(&mut self, times: usize) -> bool {
        self.records.len() < self.enough && self.open.len() < DEEP && self.below(6) + times > 5
    }

    pub fn enter(&mut self, name: u8) {
        if let Some(parent) = self.parent() {
            parent.children.push(name);
        }
        self.open.push(Open { name, children: Vec::new(), start: self.text.len(), label: None });
        let extra = match name {
            21 | 22 => self.below(2) as u64,
            57 => self.columns(),
            _ => 0,
        };
        self.records.push(Record { extra, ..Record::enter(name) });
    }

    /// The newest open that is no 0, 1 or 2.
    fn parent(&mut self) -> Option<&mut Open> {
        self.open.iter_mut().rev().find(|open| open.name > 2)
    }

    fn columns(&mut self) -> u64 {
        let count = 1 + self.below(24) as u64;
        (0..count).fold(count, |extra, column| extra | (self.below(4) as u64) << (8 + 2 * column))
    }

    /// Closes the newest open, whose slice follows its rule.
    pub fn exit(&mut self) {
        let open = self.open.pop().expect("something is open");
        let (from, to) = self.slice(&open);
        let mut record = Record::exit(open.name, from, to);
        if open.name == 32 {
            (record.before, record.after) = (self.below(4) as u8, self.below(4) as u8);
        }
        self.records.push(record);
        match open.name {
            45 | 46 if !open.children.contains(&49) => open.label.map(|label| self.sought[0][label] = true),
            62 => open.label.map(|label| self.sought[1][label] = true),
            _ => None,
        };
    }

    /// An element with what it must hold, and what chance adds.
    pub fn element(&mut self, name: u8) {
        self.enter(name);
        if !matches!(name, 3 | 4) {
            self.contents();
        }
        self.exit();
    }

    fn contents(&mut self) {
        let depth = self.open.len();
        for name in self.children() {
            self.sprinkle(depth);
            self.element(name);
        }
        self.sprinkle(depth);
        while self.open.len() > depth {
            self.exit();
        }
    }

    /// What the newest open shall hold behind what it holds: nothing for 0 to 4.
    fn children(&mut self) -> Vec<u8> {
        let judged: Vec<&Open> = self.open.iter().filter(|open| open.name > 2).collect();
        let Some(&newest) = judged.last().filter(|_| self.open.last().is_some_and(|open| open.name > 4)) else {
            return Vec::new();
        };
        let parents: Vec<u8> = judged[..judged.len() - 1].iter().map(|open| open.name).collect();
        let nth = self.siblings(1).iter().filter(|&&sibling| sibling == newest.name).count().saturating_sub(1);
        let mut left = holds(newest.name, &parents, nth).to_string();
        for &child in &newest.children {
            left = after(&left, child).unwrap_or(left);
        }
        self.sequence(&left)
    }

    /// The children of a parent, of the nearest or, with 1, of the one above.
    fn siblings(&self, above: usize) -> &[u8] {
        self.open.iter().rev().filter(|open| open.name > 2).nth(above).map_or(&[], |open| &open.children)
    }

    /// Names that what an element holds allows.
    fn sequence(&mut self, holds: &str) -> Vec<u8> {
        let Some((first, rest)) = first_part(holds) else { return Vec::new() };
        let mut names = Vec::new();
        if let Some(inner) = first.strip_prefix('[').and_then(|part| part.strip_suffix(']')) {
            if self.chance(3) {
                names = self.sequence(inner);
            }
        } else if let Some(word) = first.strip_suffix('*') {
            while self.chance(4) && names.len() < 8 {
                names.push(self.one_of(word));
            }
        } else {
            names.push(self.one_of(first));
        }
        names.extend(self.sequence(rest));
        names
    }

    fn one_of(&mut self, word: &str) -> u8 {
        match word {
            "flow" => self.pick(FLOW),
            "inline" => self.pick(INLINE),
            "plain" => self.pick(check::PLAIN),
            _ => {
                let numbers: Vec<u8> = word.split('/').map(|number| number.parse().expect("a number")).collect();
                self.pick(&numbers)
            }
        }
    }

    /// Now and then one of 0 to 4; 0 to 2 also about the children that follow, up to a place inside the same parent.
    fn sprinkle(&mut self, depth: usize) {
        while self.open.len() > depth && self.below(2) == 1 {
            self.exit();
        }
        while self.chance(1) {
            match self.below(7) {
                name @ 0..=4 => self.element(name as u8),
                _ => {
                    let around = self.below(3) as u8;
                    self.enter(around);
                }
            }
        }
    }

    /// A slice for an element that has just been closed.
    fn slice(&mut self, open: &Open) -> (usize, usize) {
        let siblings = self.siblings(0).to_vec();
        let first = siblings.iter().filter(|&&name| name == open.name).count() < 2;
        let piece = match open.name {
            3 | 4 => self.pick(&["\n", "\r", "\r\n"]),
            26 => self.pick(&["1", "0", "007", "999999999", "123456789"]),
            14 if first => self.pick(&["#", "##", "######", "é", "\u{1F44D}ab", "\0"]),
            18 => self.pick(&["-", "=", "===", "-é", "= -"]),
            11 if siblings.contains(&10) => self.pick(&["0", "9", "10FFFF", "aBcDeF", "000041"]),
            11 if siblings.contains(&9) => self.pick(&["0", "9", "35", "9999999", "1114112"]),
            11 => self.pick(&names().collect::<Vec<_>>()),
            48 | 52 | 54 | 65 => return self.label(open.name),
            _ => return self.any_slice(open.start),
        };
        self.piece(piece)
    }

    /// Adds to the text, and gives the place of what was added.
    fn piece(&mut self, piece: &str) -> (usize, usize) {
        let from = self.text.len();
        self.text += piece;
        (from, self.text.len())
    }

    /// A label, remembered by the element that looks for it: 52 goes before 48.
    fn label(&mut self, name: u8) -> (usize, usize) {
        let label = self.below(self.words.labels.len());
        let mut parents = self.open.iter_mut().rev().filter(|open| open.name > 2);
        match name {
            48 => parents.nth(1).map(|media| media.label = Some(label)),
            52 => parents.next().map(|media| media.label = Some(label)),
            _ => None,
        };
        let spelling = self.pick(&self.words.labels[label]);
        self.piece(spelling)
    }

    /// All text since the enter, some more of it, or any part of the text so far.
    fn any_slice(&mut self, start: usize) -> (usize, usize) {
        match self.below(4) {
            0 => (start, self.text.len()),
            1 | 2 => {
                let piece = self.pick(self.words.pieces);
                self.piece(piece)
            }
            _ => {
                let (one, other) = (self.boundary(), self.boundary());
                (one.min(other), one.max(other))
            }
        }
    }

    fn boundary(&mut self) -> usize {
        let near = self.below(self.text.len() + 1);
        (0..=near).rev().find(|&place| self.text.is_char_boundary(place)).expect("0 is one")
    }

    /// The list, with all that is required put in and closed, and each label defined that is looked for.
    pub fn finish(mut self) -> List {
        while !self.open.is_empty() {
            self.contents();
            self.exit();
        }
        for (label, [plain, other]) in self.words.labels.iter().enumerate() {
            let spelling = if self.below(2) == 0 { plain } else { other };
            if self.sought[0][label] {
                self.define(&[53, 54], spelling);
            }
            if self.sought[1][label] {
                self.define(&[63, 64, 65], spelling);
            }
        }
        List::new(self.text, &self.records)
    }

    fn define(&mut self, path: &[u8], label: &str) {
        self.records.extend(path.iter().map(|&name| Record::enter(name)));
        let (from, to) = self.piece(label);
        self.records.extend(path[1..].iter().rev().map(|&name| Record::exit(name, from, to)));
        if self.words.full {
            let further: &[u8] = if path[0] == 53 { &[55, 56] } else { &[12, 3] };
            further.iter().for_each(|&name| self.further(name));
        }
        self.records.push(Record::exit(path[0], from, to));
    }

    /// Most times an element about a piece, or a line ending.
    fn further(&mut self, name: u8) {
        if self.below(3) == 0 {
            return;
        }
        let inside: &[u8] = if name == 3 { &[3] } else { &[name, 5] };
        let piece = if name == 3 { self.pick(&["\n", "\r", "\r\n"]) } else { self.pick(self.words.pieces) };
        let (from, to) = self.piece(piece);
        self.records.extend(inside.iter().map(|&name| Record::enter(name)));
        self.records.extend(inside.iter().rev().map(|&name| Record::exit(name, from, to)));
    }
}

/// A list at random that the rules pass, of so many events and some more.
pub fn random_list(random: &mut Random, enough: usize) -> List {
    random_list_of(&CHECKED, random, enough)
}

/// The same of other words.
pub fn random_list_of(words: &'static Words, random: &mut Random, enough: usize) -> List {
    let mut maker = Maker::new(Some(Random(random.next())), enough, words);
    while maker.records.len() < enough {
        maker.sprinkle(0);
        let name = maker.pick(FLOW);
        maker.element(name);
    }
    maker.finish()
}
