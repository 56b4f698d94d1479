// The call that normalizes a URL, op 12 of `calls`: its bytes by the crate, its visits by a reading of RULES R11.7 of its own.
use crate::cases::{self, Family};
use crate::drive::{escaped, Asked};
use crate::families::{every, random_text};
use crate::random::Random;
use markdown::util::sanitize_uri::sanitize;

const NORMALIZE: u8 = 12;
const SEED: u64 = 20_261_116;
const MOST_TEXT: usize = 64_000;
const MOST_ROOM: usize = 524_288;
/// The characters that matter: triples and what is nearly one, characters of one to four bytes, what stays and what not.
const ALPHABET: &str = "%2z& é\u{20AC}\u{1F44D}\0";

#[derive(Clone)]
pub struct Case {
    text: Vec<u8>,
    room: usize,
}

/// The crate's URL before it is encoded for HTML. `normalize` itself is private: of what it leaves in place HTML encodes
/// `&` alone, so that every `&amp;` was one `&`.
fn normalized(url: &str) -> String {
    sanitize(url).replace("&amp;", "&")
}

/// RULES R11.7: the characters, less two for each triple that is kept. No triple begins inside another one, since its two
/// letters or digits are no `%`.
fn visits(url: &str) -> usize {
    let characters: Vec<char> = url.chars().collect();
    let kept = |three: &&[char]| three[0] == '%' && three[1..].iter().all(char::is_ascii_alphanumeric);
    characters.len() - 2 * characters.windows(3).filter(kept).count()
}

/// The URL and the visits, or the refusal's number: RULES R7.7.
fn answer(text: &[u8], room: usize) -> Result<(String, usize), u32> {
    if text.len() > MOST_TEXT {
        return Err(1);
    }
    let url = std::str::from_utf8(text).map_err(|_| 2u32)?;
    let made = normalized(url);
    if made.len() > room {
        return Err(9);
    }
    Ok((made, visits(url)))
}

impl Asked for Case {
    fn write(&self, to: &mut Vec<u8>) {
        let mut header = [0; 32];
        header[0] = NORMALIZE;
        header[4..8].copy_from_slice(&(self.text.len() as u32).to_le_bytes());
        header[12..16].copy_from_slice(&(self.room as u32).to_le_bytes());
        to.extend(header);
        to.extend(&self.text);
    }

    fn expected(&self) -> Vec<u8> {
        let (number, made, visits) = match answer(&self.text, self.room) {
            Ok((made, visits)) => (0, made, visits),
            Err(number) => (number, String::new(), 0),
        };
        let fields = [number, made.len() as u32, visits as u32, 0, self.room as u32, 0];
        let mut bytes: Vec<u8> = fields.iter().flat_map(|field| field.to_le_bytes()).collect();
        bytes.extend(made.bytes());
        bytes.resize(24 + self.room, 0);
        bytes
    }

    fn size(&self) -> (usize, usize) {
        (self.text.len(), self.room)
    }

    fn shown(&self) -> String {
        format!("op 12 room {} text {}", self.room, escaped(&self.text))
    }
}

type Ask<'a> = cases::Ask<'a, Case>;

const FAMILIES: [Family<Case>; 7] = [
    ("fixed", |ask| fixed().into_iter().for_each(ask)),
    ("bytes", bytes),
    ("short", short),
    ("rooms", rooms),
    ("places", places),
    ("random", random),
    ("limits", limits),
];

pub fn compare(program: &[&str]) -> usize {
    cases::compare("normalize", &FAMILIES, program) + other_by_hand()
}

/// A case whose room is what the answer needs and `more`; for a text to be refused, its own length and `more`.
fn fitting(text: &[u8], more: usize) -> Case {
    let needed = answer(text, usize::MAX).map_or(text.len(), |(made, _)| made.len());
    Case { text: text.to_vec(), room: needed + more }
}

/// The examples of RULES R11.7 and more, with their answers, by hand.
const EXAMPLES: [(&str, &str, usize); 14] = [
    ("", "", 0),
    ("é", "%C3%A9", 1),
    ("%20", "%20", 1),
    ("%zz", "%zz", 1),
    ("%%20", "%25%20", 2),
    ("%2", "%252", 2),
    ("%", "%25", 1),
    ("%2é", "%252%C3%A9", 3),
    ("%é20", "%25%C3%A920", 4),
    ("%20%20", "%20%20", 2),
    ("%200", "%200", 2),
    ("a b&c\"", "a%20b&c%22", 6),
    ("\0", "%00", 1),
    ("\u{1F44D}%F0\u{1F44D}", "%F0%9F%91%8D%F0%F0%9F%91%8D", 3),
];

fn table(ask: Ask) {
    for (text, made, _) in EXAMPLES {
        for room in [made.len(), made.len() + 8, made.len().saturating_sub(1)] {
            ask(Case { text: text.as_bytes().to_vec(), room });
        }
    }
}

/// How many of the answers by hand are others than the judge's.
fn other_by_hand() -> usize {
    let other = |&&(text, made, visits): &&(&str, &str, usize)| {
        answer(text.as_bytes(), MOST_ROOM) != Ok((made.to_string(), visits))
    };
    let differences = EXAMPLES.iter().filter(other).count();
    println!("normalize by hand {:>4} cases  {differences:>3} differences", EXAMPLES.len());
    differences
}

/// Every string of up to two bytes, and each behind a `%` and behind a character.
fn bytes(ask: Ask) {
    for start in ["", "%", "é"] {
        ask(fitting(start.as_bytes(), 1));
        for a in 0..=255 {
            ask(fitting(&[start.as_bytes(), &[a]].concat(), 1));
            (0..=255).for_each(|b| ask(fitting(&[start.as_bytes(), &[a, b]].concat(), 1)));
        }
    }
}

/// Every text of up to five of the characters that matter.
fn short(ask: Ask) {
    let mut more = 0;
    every(ALPHABET, 5, &mut String::new(), &mut |text| {
        more = (more + 1) % 3;
        ask(fitting(text, more));
    });
}

/// Every text of up to three of them, with every room from none to one more than needed.
fn rooms(ask: Ask) {
    every(ALPHABET, 3, &mut String::new(), &mut |text| {
        let most = fitting(text, 1);
        (0..=most.room).for_each(|room| ask(Case { room, ..most.clone() }));
    });
}

/// For code that reads many bytes at a time: pieces at every place of plain texts of up to 40 bytes.
fn places(ask: Ask) {
    for length in 1..=40 {
        for place in 0..length {
            for piece in ["%", "%2", "%20", "%%20", "%20%20", "é", "\u{20AC}", "\u{1F44D}", "%é", "&", " ", "\0"] {
                let mut text = vec![b'x'; length];
                text.splice(place..place + 1, piece.bytes());
                ask(fitting(&text, 1));
                text.pop();
                ask(fitting(&text, 0));
            }
        }
    }
}

/// URLs, texts and labels from a seed, some of them damaged; the room exact, short, none or generous.
fn random(ask: Ask) {
    let mut random = Random(SEED);
    for _ in 0..100_000 {
        let text = random_text(&mut random);
        let exact = fitting(&text, 0);
        let room = match random.below(8) {
            0 => 0,
            1 => exact.room.saturating_sub(1),
            2..=4 => exact.room,
            _ => exact.room + random.below(64),
        };
        ask(Case { room, ..exact });
    }
}

/// About 64,000 bytes, of one piece over and over, whole and cut; the room exact, one short, none and the most; then the
/// order of the refusals.
fn limits(ask: Ask) {
    for length in [63_999, 64_000, 64_001] {
        for piece in ["a", " ", "\"", "&", "%20", "%", "%2", "é", "\u{20AC}", "\u{1F44D}", "http:/"] {
            let cut: Vec<u8> = piece.bytes().cycle().take(length).collect();
            let mut whole = vec![b'-'; length % piece.len()];
            whole.extend(&cut[..length - length % piece.len()]);
            for text in [&whole, &cut] {
                let exact = fitting(text, 0);
                for room in [exact.room, exact.room.saturating_sub(1), 0, MOST_ROOM] {
                    ask(Case { room, ..exact.clone() });
                }
            }
        }
    }
    for room in [0, MOST_TEXT, MOST_ROOM] {
        for (byte, length) in [(b'a', 262_144), (0xFF, 262_144), (0xFF, 64_001), (0xFF, 64_000), (0xFF, 1)] {
            ask(Case { text: vec![byte; length], room });
        }
    }
}

/// The few that the gate replays: the table, some of each other family, and the limits that are one text each.
fn fixed() -> Vec<Case> {
    let mut random = Random(SEED);
    let mut cases = Vec::new();
    table(&mut |case| cases.push(case));
    for (family, count) in [(bytes as fn(Ask), 60), (short, 200), (rooms, 150), (places, 100), (self::random, 100)] {
        let mut small = Vec::new();
        family(&mut |case| small.extend((case.text.len() + case.room < 400).then_some(case)));
        cases.extend(crate::vectors::some(&small, count, &mut random));
    }
    cases.push(fitting(&b"%20".repeat(MOST_TEXT / 3), 0));
    cases.push(Case { text: vec![0xFF; MOST_TEXT + 1], room: 3 });
    cases
}

/// The same, for the store: every number is among the answers.
pub fn stored() -> Vec<Case> {
    let cases = fixed();
    for number in [0, 1, 2, 9] {
        assert!(cases.iter().any(|case| case.expected()[0] == number), "none gives {number}");
    }
    cases
}
