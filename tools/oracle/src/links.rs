// RULES R22, a list of links, read by itself, and the cases on which op 11 of `calls` is compared. What one URL gives is
// the crate's.
use crate::cases::{self, Family};
use crate::drive::{escaped, Asked};
use crate::judge::LINK_SCHEMES;
use crate::random::Random;
use markdown::util::sanitize_uri::sanitize_with_protocols;

const SEED: u64 = 20_261_116;
/// What cuts, schemes and escapes turn on, and bytes that are no text.
const PIECES: [&[u8]; 7] = [b"%20", "é".as_bytes(), b":", b"&", b"x:y", b"a", b"http:"];
const ODD: [&[u8]; 12] = [
    b"%20",
    "é".as_bytes(),
    "\u{20AC}".as_bytes(),
    "\u{1F44D}".as_bytes(),
    b":",
    b"&",
    b"x:y",
    b"a",
    b"MAILTO:",
    b"/",
    b"\0",
    b"\x82",
];

// ---- RULES R22

/// All bytes and each URL's length, or a refusal's number and place.
fn list(case: &Case, room: usize) -> Result<(Vec<u8>, Vec<u32>), (u32, usize)> {
    let Case { text, ends, quotes, places, .. } = case;
    let places = *places;
    if text.len() > 64_000 || places < ends.len() {
        return Err((1, 0));
    }
    let starts: Vec<u32> = [0].iter().chain(ends).copied().collect();
    if let Some(url) = (0..ends.len()).find(|&k| ends[k] < starts[k] || ends[k] as usize > text.len()) {
        return Err((1, url));
    }
    let text = std::str::from_utf8(text).map_err(|_| (2, 0))?;
    if let Some(url) = ends.iter().position(|&end| !text.is_char_boundary(end as usize)) {
        return Err((3, url));
    }
    let (mut bytes, mut lengths) = (Vec::new(), Vec::new());
    for (url, &end) in ends.iter().enumerate() {
        let link = sanitize_with_protocols(&text[starts[url] as usize..end as usize], &LINK_SCHEMES);
        // the crate keeps each apostrophe, and writes none of its own
        let link = if *quotes { link.replace('\'', "&#39;") } else { link };
        if bytes.len() + link.len() > room {
            return Err((9, url));
        }
        lengths.push(link.len() as u32);
        bytes.extend(link.into_bytes());
    }
    Ok((bytes, lengths))
}

// ---- a case, as `calls` takes and answers it

#[derive(Clone)]
pub struct Case {
    text: Vec<u8>,
    ends: Vec<u32>,
    /// Bit 3: apostrophes are escaped.
    quotes: bool,
    room: usize,
    places: usize,
}

impl Asked for Case {
    /// Adds the header of 32 bytes, the text and the ends.
    fn write(&self, to: &mut Vec<u8>) {
        to.extend([11, 8 * u8::from(self.quotes), 0, 0]);
        let fields = [self.text.len(), 4 * self.ends.len(), self.room, self.places];
        to.extend(fields.iter().flat_map(|&field| (field as u32).to_le_bytes()));
        to.extend([0; 12]);
        to.extend(&self.text);
        to.extend(self.ends.iter().flat_map(|end| end.to_le_bytes()));
    }

    /// The header of 24 bytes, the output and the lengths: zero behind what is written and after a refusal.
    fn expected(&self) -> Vec<u8> {
        let (number, value, bytes, mut lengths) = match list(self, self.room) {
            Ok((bytes, lengths)) => (0, bytes.len(), bytes, lengths),
            Err((number, place)) => (number, place, Vec::new(), Vec::new()),
        };
        let fields = [number, value as u32, 0, 0, self.room as u32, 4 * self.places as u32];
        let mut answer: Vec<u8> = fields.iter().flat_map(|field| field.to_le_bytes()).collect();
        answer.extend(bytes);
        answer.resize(24 + self.room, 0);
        lengths.resize(self.places, 0);
        answer.extend(lengths.iter().flat_map(|length| length.to_le_bytes()));
        answer
    }

    fn size(&self) -> (usize, usize) {
        (self.text.len() + 4 * self.ends.len(), self.room + 4 * self.places)
    }

    fn shown(&self) -> String {
        let ends = &self.ends[..self.ends.len().min(20)];
        let quotes = if self.quotes { ", apostrophes" } else { "" };
        format!("text {} ends {ends:?}{quotes}, room {}, {} places", escaped(&self.text), self.room, self.places)
    }
}

/// A case with room for every byte, and a place for each URL.
fn enough(text: impl Into<Vec<u8>>, ends: &[u32]) -> Case {
    let case = Case { text: text.into(), ends: ends.to_vec(), quotes: false, room: 0, places: ends.len() };
    Case { room: needed(&case), ..case }
}

fn needed(case: &Case) -> usize {
    list(case, usize::MAX).map_or(8, |(bytes, _)| bytes.len())
}

/// The case with apostrophes for each `a`, escaped, and as much more or less room than it needs.
fn quoted(case: &Case) -> Case {
    let text = case.text.iter().map(|&byte| if byte == b'a' { b'\'' } else { byte }).collect();
    let quoted = Case { text, quotes: true, ..case.clone() };
    Case { room: (case.room + needed(&quoted)).saturating_sub(needed(case)), ..quoted }
}

// ---- families of cases, each in an order that never changes

type Ask<'a> = cases::Ask<'a, Case>;

pub const FAMILIES: [Family<Case>; 8] = [
    ("fixed", |ask| fixed().into_iter().for_each(ask)),
    ("cuts", cuts),
    ("rooms", rooms),
    ("order", order),
    ("sizes", sizes),
    ("many", many),
    ("random", random),
    ("quotes", quotes),
];

/// Every text of at most so many pieces.
fn texts(most: usize) -> Vec<Vec<u8>> {
    let (mut all, mut last) = (vec![Vec::new()], vec![Vec::new()]);
    for _ in 0..most {
        last = last.iter().flat_map(|text| PIECES.iter().map(move |piece| [text, *piece].concat())).collect();
        all.extend(last.iter().cloned());
    }
    all
}

/// Every list of at most so many ends, each from 0 to `last`, falling or not.
fn lists(most: usize, last: u32) -> Vec<Vec<u32>> {
    let (mut all, mut longest) = (vec![Vec::new()], vec![Vec::new()]);
    for _ in 0..most {
        longest = longest.iter().flat_map(|ends| (0..=last).map(move |end| [&ends[..], &[end]].concat())).collect();
        all.extend(longest.iter().cloned());
    }
    all
}

/// Every cut of small texts: all lists of up to three ends, up to one past the text.
fn cuts(ask: Ask) {
    for text in texts(2) {
        for ends in lists(3, text.len() as u32 + 1) {
            ask(enough(text.clone(), &ends));
        }
    }
}

/// Every room from none to one more than enough, for each list of up to two ends that do not fall; with a place too few, and
/// with one more.
fn rooms(ask: Ask) {
    for text in texts(2) {
        for ends in lists(2, text.len() as u32) {
            let case = enough(text.clone(), &ends);
            if !ends.is_sorted() {
                continue;
            }
            for room in 0..=case.room + 1 {
                ask(Case { room, ..case.clone() });
                ask(Case { room, places: ends.len() + 1, ..case.clone() });
            }
            ask(Case { places: ends.len().saturating_sub(1), ..case });
        }
    }
}

/// Two faults or three in one list, at every pair of URLs: the lower number is told, then the earlier URL.
fn order(ask: Ask) {
    let text = "&\u{e9}&\u{e9}&\u{e9}&\u{e9}";
    let right: Vec<u32> = vec![1, 3, 4, 6, 7, 9, 10, 12];
    let faults = [0, 2, 5, 8, 11, 13, u32::MAX];
    for first in 0..right.len() {
        for second in 0..right.len() {
            for (one, other) in faults.iter().flat_map(|&one| faults.map(|other| (one, other))) {
                let mut ends = right.clone();
                ends[first] = one;
                ends[second] = other;
                for (bytes, room) in [(text.as_bytes(), 100), (text.as_bytes(), 9), (&b"&\xFF&\x82&aa&aa"[..], 0)] {
                    ask(Case { text: bytes.to_vec(), ends: ends.clone(), quotes: false, room, places: 8 });
                }
                ask(Case { text: text.into(), ends, quotes: false, room: 100, places: 7 });
            }
        }
    }
}

/// Texts about the limit, lists up to the most that `calls` takes, and places about the number of URLs.
fn sizes(ask: Ask) {
    for length in [0, 1, 63_999, 64_000, 64_001, 65_536, 262_144] {
        for byte in [b'a', b'&', b' ', 0xFF] {
            for ends in
                [vec![], vec![length as u32], vec![0, length as u32 / 2, length as u32], vec![2, 1], vec![64_001]]
            {
                let case = enough(vec![byte; length], &ends);
                for places in [0, ends.len(), ends.len() + 1, 300] {
                    ask(Case { places, ..case.clone() });
                }
                ask(Case { room: case.room.saturating_sub(1), ..case });
            }
        }
    }
    for count in [255, 256, 257, 300, 32_767, 32_768] {
        for text in ["a".repeat(count), "é".repeat(count), "x:".repeat(count)] {
            let each: Vec<u32> = (0..count as u32).map(|k| k * (text.len() / count) as u32).collect();
            let case = enough(text, &each);
            for places in [count - 1, count, 131_072] {
                ask(Case { places, ..case.clone() });
            }
            ask(Case { room: case.room.saturating_sub(1), ..case });
        }
    }
}

/// Hundreds of URLs, as a release has them.
fn many(ask: Ask) {
    let mut random = Random(SEED);
    for _ in 0..300 {
        let (mut text, mut ends) = (Vec::new(), Vec::new());
        for _ in 0..random.below(400) {
            for _ in 0..random.below(12) {
                text.extend(random.pick(&ODD[..10]));
            }
            ends.push(text.len() as u32);
        }
        ask(enough(text, &ends));
    }
}

/// Any text and ends, most of them right, with some room or enough.
fn random(ask: Ask) {
    let mut random = Random(SEED + 1);
    for _ in 0..80_000 {
        let pieces = random.pick(&[&ODD[..11], &ODD[..11], &ODD[..]]);
        let (mut text, mut ends) = (Vec::new(), Vec::new());
        for _ in 0..random.below(8) {
            for _ in 0..random.below(4) {
                text.extend(random.pick(pieces));
            }
            ends.push(text.len() as u32 + random.pick(&[0, 0, 0, 0, 0, 0, 0, 1]));
        }
        text.extend(random.pick(&[&b""[..], b"behind", b"\xFF"]).iter());
        let case = enough(text, &ends);
        let room = random.pick(&[case.room, case.room, case.room + 3, case.room / 2]);
        let places = ends.len() + random.pick(&[0, 0, 5]);
        ask(Case { room, places, ..case });
    }
}

/// Three families again, with apostrophes.
fn quotes(ask: Ask) {
    for family in [cuts, rooms, random] {
        family(&mut |case| ask(quoted(&case)));
    }
}

// ---- the few that the gate replays

/// What RULES R22 has for examples, then some of each kind.
pub fn fixed() -> Vec<Case> {
    let mut cases = vec![
        Case { places: 3, ..enough("", &[]) },
        enough("a", &[1, 1]),
        enough("aaaa", &[5, 3]),
        enough("aaaa", &[2, 1]),
        enough("a".repeat(64_001), &[2, 1]),
        enough(*b"\xFF", &[]),
        enough("é", &[1, 2]),
        Case { room: 5, ..enough("&a", &[1, 2]) },
        Case { room: 1, ..enough("ax:y", &[1, 4]) },
        enough("%20", &[2, 3]),
        enough("http:x", &[4, 6]),
        Case { places: 1, ..enough("ab", &[1, 2]) },
        Case { places: 5, room: 9, ..enough("ab", &[1, 2]) },
        enough("abc", &[1, 2]),
        enough(*b"ab\xC3", &[1, 2]),
        quoted(&enough("a&ajavascripta:x", &[1, 3, 16])),
        Case { room: 9, ..quoted(&enough("aa", &[1, 2])) },
    ];
    let mut random = Random(SEED + 2);
    let mut groups: [Vec<Case>; 10] = Default::default();
    for family in [cuts, rooms, order, self::random, quotes] {
        family(&mut |case| {
            let number = list(&case, case.room).map_or_else(|(number, _)| number, |_| 0);
            groups[number as usize].push(case);
        });
        for group in &mut groups {
            cases.extend(crate::vectors::some(group, 20, &mut random));
            group.clear();
        }
    }
    cases
}
