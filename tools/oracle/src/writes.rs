// RULES R15.8, a bundle written, read by itself, and the cases on which op 9 of `calls` is compared.
use crate::bundle::{self, answered, noise, pack, word, Answer, EDITIONS, RECORD};
use crate::cases::{self, answer_length, Family};
use crate::drive::{escaped, start, Asked};
use crate::random::Random;

const SEED: u64 = 20_261_117;
const TEXT_LENGTHS: [usize; 16] =
    [0, 1, 2, 499, 500, 501, 999, 1_000, 1_001, 63_499, 63_500, 63_501, 63_999, 64_000, 64_001, 64_500];
const EVENT_COUNTS: [usize; 14] = [0, 1, 2, 24, 25, 26, 49, 50, 51, 3_175, 3_176, 3_199, 3_200, 3_201];

// ---- RULES R15.8

/// The bundle, or a refusal's number; the place is always 0.
fn write(text: &[u8], events: &[u8], edition: u32, room: usize) -> Result<Vec<u8>, u32> {
    if text.len() > 64_000 || events.len() > 3_200 * RECORD || events.len() % RECORD != 0 {
        return Err(1);
    }
    let bundle = pack(text, events, edition);
    if bundle.len() > room {
        return Err(9);
    }
    Ok(bundle)
}

// ---- a case, as `calls` takes and answers it

#[derive(Clone)]
pub struct Case {
    text: Vec<u8>,
    events: Vec<u8>,
    edition: u32,
    room: usize,
}

impl Asked for Case {
    /// Adds the header of 32 bytes, the text and the events.
    fn write(&self, to: &mut Vec<u8>) {
        let fields = [self.text.len(), self.events.len(), self.room, 0, self.edition as usize];
        to.extend([9, 0, 0, 0]);
        to.extend(fields.iter().flat_map(|&field| (field as u32).to_le_bytes()));
        to.extend([0; 8]);
        to.extend(&self.text);
        to.extend(&self.events);
    }

    /// The header of 24 bytes, and the whole buffer: zero behind the bundle and after a refusal.
    fn expected(&self) -> Vec<u8> {
        let (number, bundle) = match write(&self.text, &self.events, self.edition, self.room) {
            Ok(bundle) => (0, bundle),
            Err(number) => (number, Vec::new()),
        };
        let fields = [number, bundle.len() as u32, 0, 0, self.room as u32, 0];
        let mut answer: Vec<u8> = fields.iter().flat_map(|field| field.to_le_bytes()).collect();
        answer.extend(bundle);
        answer.resize(24 + self.room, 0);
        answer
    }

    fn size(&self) -> (usize, usize) {
        (self.text.len() + self.events.len(), self.room)
    }

    fn shown(&self) -> String {
        let events = self.events.len();
        format!("text {} {events} bytes of events, edition {}, room {}", escaped(&self.text), self.edition, self.room)
    }
}

/// A case with as much room as its bundle takes, or would take.
fn exact(text: Vec<u8>, events: Vec<u8>, edition: u32) -> Case {
    let room = pack(&text, &events, edition).len();
    Case { text, events, edition, room }
}

/// Text and bytes of events of these lengths.
fn some(random: &mut Random, text: usize, events: usize) -> Case {
    let (text, events) = (noise(random, text), noise(random, events));
    exact(text, events, random.pick(&EDITIONS))
}

// ---- families of cases, each in an order that never changes

type Ask<'a> = cases::Ask<'a, Case>;

pub const FAMILIES: [Family<Case>; 8] = [
    ("fixed", |ask| fixed().into_iter().for_each(ask)),
    ("sizes", sizes),
    ("texts", texts),
    ("events", events),
    ("rooms", rooms),
    ("editions", editions),
    ("outside", outside),
    ("random", random),
];

/// Every pair of lengths about the borders of blocks and the limits, some with a cut record behind: the room exact, one
/// short, none, one more and a block more.
fn sizes(ask: Ask) {
    let mut random = Random(SEED);
    for text in TEXT_LENGTHS {
        for count in EVENT_COUNTS {
            for cut in [0, random.pick(&[1, 10, 19])] {
                let case = some(&mut random, text, count * RECORD + cut);
                for room in [case.room, case.room - 1, 0, case.room + 1, case.room + 512] {
                    ask(Case { room, ..case.clone() });
                }
            }
        }
    }
}

/// Every length of text about the first blocks and the limit.
fn texts(ask: Ask) {
    let mut random = Random(SEED + 1);
    for length in (0..=1_600).chain(63_400..=64_100) {
        let case = some(&mut random, length, RECORD);
        ask(Case { room: case.room - 1, ..case.clone() });
        ask(case);
    }
}

/// Every number of bytes of events about the first blocks and the limit, whole records or not.
fn events(ask: Ask) {
    let mut random = Random(SEED + 2);
    for length in (0..=1_600).chain(63_400..=64_100) {
        let case = some(&mut random, 1, length);
        ask(Case { room: case.room - 1, ..case.clone() });
        ask(case);
    }
}

/// Every room from none to some more than is taken.
fn rooms(ask: Ask) {
    let mut random = Random(SEED + 3);
    for (text, events) in [(0, 0), (1, 0), (0, 1), (500, 25), (3, 3)] {
        let case = some(&mut random, text, events * RECORD);
        for room in 0..=case.room + 600 {
            ask(Case { room, ..case.clone() });
        }
    }
}

/// Each bit of the edition, with bytes that give the least and the largest checks.
fn editions(ask: Ask) {
    for edition in (0..32).map(|bit| 1 << bit).chain(EDITIONS) {
        for byte in [0, 0xFF] {
            ask(exact(vec![byte; 501], vec![byte; 26 * RECORD], edition));
        }
    }
    ask(exact(vec![0xFF; 64_000], vec![0xFF; 3_200 * RECORD], u32::MAX));
}

/// Up to the most that `calls` takes, with no room, some and the most.
fn outside(ask: Ask) {
    let mut random = Random(SEED + 4);
    for text in [3, 64_000, 64_001, 65_536, 128_000, 262_144] {
        for events in [0, 20, 63_999, 64_000, 64_001, 64_020, 65_536, 80_000, 131_072] {
            let case = some(&mut random, text, events);
            for room in [0, 600, 524_288] {
                ask(Case { room, ..case.clone() });
            }
        }
    }
}

/// Any lengths, most of them small; the room any, or about what is taken.
fn random(ask: Ask) {
    let mut random = Random(SEED + 5);
    for _ in 0..12_000 {
        let most = random.pick(&[10, 600, 600, 3_000, 3_000, 66_000]);
        let (text, events) = (random.below(most), random.below(most / 20 + 1) * RECORD);
        let case = some(&mut random, text, events);
        let room = random.pick(&[case.room, case.room, case.room - 1, case.room + 100, case.room / 2]);
        ask(Case { room, ..case });
    }
}

// ---- the few that the gate replays

pub fn fixed() -> Vec<Case> {
    let mut random = Random(SEED + 6);
    let mut cases = vec![
        // RULES R7.8 and R15.7: no text is judged; one block and zeros behind it; 1 before 9
        exact(vec![0xFF], Vec::new(), 0),
        Case { room: 600, ..exact(Vec::new(), Vec::new(), 5) },
        Case { room: 0, ..exact(Vec::new(), vec![0; 19], 0) },
        // block 256, and the limits with no room for what is taken
        some(&mut random, 64_000, 3_200 * RECORD),
        Case { room: 9, ..some(&mut random, 64_000, 0) },
        Case { room: 9, ..some(&mut random, 64_001, 0) },
        Case { room: 9, ..some(&mut random, 0, 3_200 * RECORD) },
        Case { room: 9, ..some(&mut random, 0, 3_201 * RECORD) },
    ];
    for (text, events) in [(0, 0), (1, 20), (499, 480), (500, 500), (501, 520), (1_000, 1_000), (1_001, 1_020)] {
        let case = some(&mut random, text, events);
        for room in [case.room - 1, case.room + 1, 0] {
            cases.push(Case { room, ..case.clone() });
        }
        cases.push(Case { room: case.room + 512, ..some(&mut random, text, events + 1) });
        cases.push(case);
    }
    cases
}

// ---- the comparison

/// Compares the program with this reading, then with itself; gives the number of differences.
pub fn compare(program: &[&str]) -> usize {
    cases::compare("writes", &FAMILIES, program) + compare_both_ways(program)
}

/// Reads with op 8 what op 9 wrote, which gives the text, the events and the edition again; and writes with op 9 what
/// was read, which gives the same bytes.
fn compare_both_ways(program: &[&str]) -> usize {
    let mut given = Vec::new();
    for cases in [sizes, editions] {
        cases(&mut |case| {
            if write(&case.text, &case.events, case.edition, case.room).is_ok_and(|bundle| bundle.len() == case.room) {
                given.push(case);
            }
        });
    }
    let written = answers(program, &given);
    let bundles: Vec<bundle::Case> =
        written.iter().map(|answer| bundle::Case::of(some_bytes(answer, 24, field(answer, 4)))).collect();
    let read = answers(program, &bundles);
    let again: Vec<Case> = read.iter().map(|answer| case_of(answer)).collect();
    let again = answers(program, &again);
    let differs = |k: &usize| {
        let Case { text, events, edition, .. } = given[*k].clone();
        read[*k] != answered(&Answer::Bundle { text, events, edition }, 64_000, 64_000) || again[*k] != written[*k]
    };
    let wrong = (0..given.len()).filter(differs).count();
    println!("writes back     {:>6} cases  {wrong:>3} differences", given.len());
    wrong
}

/// What a reader's answer holds, to be written into as much room as it takes.
fn case_of(answer: &[u8]) -> Case {
    let text = some_bytes(answer, 24, field(answer, 4));
    let events = some_bytes(answer, 24 + 64_000, field(answer, 8));
    exact(text, events, field(answer, 12) as u32)
}

/// The answers one by one, empty where none came.
fn answers<A: Asked>(program: &[&str], batch: &[A]) -> Vec<Vec<u8>> {
    let came = start(program, batch).finish();
    let mut rest = &came[..];
    let mut all = Vec::new();
    for _ in batch {
        let (answer, behind) = rest.split_at(answer_length(rest));
        all.push(answer.to_vec());
        rest = behind;
    }
    all
}

fn field(answer: &[u8], at: usize) -> usize {
    answer.get(at..at + 4).map_or(0, |bytes| word(bytes, 0) as usize)
}

fn some_bytes(answer: &[u8], at: usize, length: usize) -> Vec<u8> {
    answer.get(at..at + length).unwrap_or_default().to_vec()
}
