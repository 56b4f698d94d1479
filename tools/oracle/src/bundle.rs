// The note bundle of RULES R15, read by itself: packing, reading, and the cases on which op 8 of `calls` is compared.
use crate::cases::{self, Family};
pub use crate::drive::word;
use crate::drive::Asked;
use crate::random::Random;

pub const BLOCK: usize = 512;
pub const PAYLOAD: std::ops::Range<usize> = 8..508;
const CHECK: usize = 508;
pub const RECORD: usize = 20;
const SEED: u64 = 20_251_115;

// ---- RULES R15

/// What the reader answers: the text, the events and the edition, or a refusal's number and place.
#[derive(Debug, PartialEq)]
pub enum Answer {
    Bundle { text: Vec<u8>, events: Vec<u8>, edition: u32 },
    Refused { number: u32, place: u32 },
}

/// Header, text blocks, event blocks. The events are whole records.
pub fn pack(text: &[u8], events: &[u8], edition: u32) -> Vec<u8> {
    let mut header = (text.len() as u32).to_le_bytes().to_vec();
    header.extend((events.len() as u32 / RECORD as u32).to_le_bytes());
    let text_blocks = text.chunks(500).map(|payload| (2, payload));
    let event_blocks = events.chunks(25 * RECORD).map(|payload| (3, payload));
    let mut bundle = Vec::new();
    for (kind, payload) in [(1, &header[..])].into_iter().chain(text_blocks).chain(event_blocks) {
        let number = (bundle.len() / BLOCK) as u16;
        let mut block = [0; BLOCK];
        block[0..4].copy_from_slice(&edition.to_le_bytes());
        block[4..6].copy_from_slice(&number.to_le_bytes());
        block[6] = kind;
        block[PAYLOAD][..payload.len()].copy_from_slice(payload);
        mend(&mut block);
        bundle.extend(block);
    }
    bundle
}

/// The sum of (place + 1) times byte over places 0 to 507.
fn check(block: &[u8]) -> u32 {
    (1..).zip(&block[..CHECK]).map(|(weight, &byte)| weight * u32::from(byte)).sum()
}

pub fn mend(block: &mut [u8]) {
    let sum = check(block);
    block[CHECK..BLOCK].copy_from_slice(&sum.to_le_bytes());
}

pub fn read(bytes: &[u8], text_room: usize, event_room: usize) -> Answer {
    match read_blocks(bytes, text_room, event_room) {
        Ok((text, events)) => Answer::Bundle { text, events, edition: word(bytes, 0) },
        Err((number, place)) => Answer::Refused { number, place: place as u32 },
    }
}

fn read_blocks(bytes: &[u8], text_room: usize, event_room: usize) -> Result<(Vec<u8>, Vec<u8>), (u32, usize)> {
    if text_room < 64_000 || event_room < 64_000 {
        return Err((1, 0));
    }
    if bytes.is_empty() || bytes.len() % BLOCK != 0 {
        return Err((10, 0));
    }
    let edition = word(bytes, 0);
    judge(&bytes[..BLOCK], 0, edition, 1, 8)?;
    let (length, count) = (word(bytes, 8) as usize, word(bytes, 12) as usize);
    if length > 64_000 || count > 3_200 {
        return Err((10, 0));
    }
    if bytes.len() / BLOCK != 1 + length.div_ceil(500) + count.div_ceil(25) {
        return Err((10, 0));
    }
    let (mut text, mut events) = (Vec::new(), Vec::new());
    for (number, block) in bytes.chunks(BLOCK).enumerate().skip(1) {
        let (to, kind, whole) =
            if text.len() < length { (&mut text, 2, length) } else { (&mut events, 3, count * RECORD) };
        let used = (whole - to.len()).min(500);
        judge(block, number, edition, kind, used)?;
        to.extend(&block[PAYLOAD][..used]);
    }
    Ok((text, events))
}

/// A block by itself: 11, 12, 10.
pub fn judge(block: &[u8], number: usize, edition: u32, kind: u8, used: usize) -> Result<(), (u32, usize)> {
    if word(block, CHECK) != check(block) {
        return Err((11, number));
    }
    if word(block, 0) != edition {
        return Err((12, number));
    }
    let numbered = usize::from(u16::from_le_bytes([block[4], block[5]])) == number;
    let unused = block[PAYLOAD][used..].iter().all(|&byte| byte == 0);
    if !numbered || block[6] != kind || block[7] != 0 || !unused {
        return Err((10, number));
    }
    Ok(())
}

// ---- a case, as `calls` takes and answers it

#[derive(Clone)]
pub struct Case {
    pub bundle: Vec<u8>,
    pub text_room: usize,
    pub event_room: usize,
}

impl Case {
    /// With the least buffers that are taken.
    pub fn of(bundle: Vec<u8>) -> Self {
        Case { bundle, text_room: 64_000, event_room: 64_000 }
    }
}

impl Asked for Case {
    /// Adds the header of 32 bytes, and the bundle as the text.
    fn write(&self, to: &mut Vec<u8>) {
        let lengths = [self.bundle.len(), 0, self.text_room, self.event_room];
        to.extend([8, 0, 0, 0]);
        to.extend(lengths.iter().flat_map(|&length| (length as u32).to_le_bytes()));
        to.extend([0; 12]);
        to.extend(&self.bundle);
    }

    fn expected(&self) -> Vec<u8> {
        answered(&read(&self.bundle, self.text_room, self.event_room), self.text_room, self.event_room)
    }

    fn size(&self) -> (usize, usize) {
        (self.bundle.len(), self.text_room + self.event_room)
    }

    fn shown(&self) -> String {
        format!("bundle of {} bytes, rooms {} {}", self.bundle.len(), self.text_room, self.event_room)
    }
}

/// All that `calls` has to write: a header of 24 bytes, and both buffers.
pub fn answered(answer: &Answer, text_room: usize, event_room: usize) -> Vec<u8> {
    let (fields, text, events) = match answer {
        Answer::Bundle { text, events, edition } => {
            ([0, text.len() as u32, events.len() as u32, *edition], &text[..], &events[..])
        }
        Answer::Refused { number, place } => ([*number, *place, 0, 0], &[][..], &[][..]),
    };
    let rooms = [text_room as u32, event_room as u32];
    let mut answer: Vec<u8> = fields.iter().chain(&rooms).flat_map(|field| field.to_le_bytes()).collect();
    for (bytes, room) in [(text, text_room), (events, event_room)] {
        let end = answer.len() + room;
        answer.extend(bytes);
        answer.resize(end, 0);
    }
    answer
}

// ---- families of cases, each in an order that never changes

type Ask<'a> = cases::Ask<'a, Case>;

pub const FAMILIES: [Family<Case>; 9] = [
    ("good", good),
    ("cut", cut),
    ("bytes", bytes),
    ("header", header),
    ("blocks", blocks),
    ("rooms", rooms),
    ("largest", largest),
    ("outside", outside),
    ("random", random),
];

const TEXT_LENGTHS: [usize; 11] = [0, 1, 499, 500, 501, 999, 1_000, 1_001, 63_500, 63_999, 64_000];
const EVENT_COUNTS: [usize; 9] = [0, 1, 24, 25, 26, 49, 50, 3_199, 3_200];
pub const EDITIONS: [u32; 5] = [0, 1, 0x0102_0304, 0x8000_0000, u32::MAX];

pub fn noise(random: &mut Random, length: usize) -> Vec<u8> {
    (0..length).map(|_| random.below(256) as u8).collect()
}

pub fn bundle(random: &mut Random, text: usize, events: usize) -> Vec<u8> {
    let (text, events) = (noise(random, text), noise(random, events * RECORD));
    pack(&text, &events, random.pick(&EDITIONS))
}

/// Bundles of every shape: no block of a kind, one that is not full, one that is, and more.
pub fn shapes(random: &mut Random) -> Vec<Vec<u8>> {
    let sizes = [(0, 0), (3, 0), (0, 1), (3, 1), (500, 25), (501, 26), (1_100, 60)];
    sizes.iter().map(|&(text, events)| bundle(random, text, events)).collect()
}

/// Every pair of lengths about the borders of blocks, read back to what was packed.
fn good(ask: Ask) {
    let mut random = Random(SEED);
    for length in TEXT_LENGTHS {
        for count in EVENT_COUNTS {
            let (text, events) = (noise(&mut random, length), noise(&mut random, count * RECORD));
            let edition = random.pick(&EDITIONS);
            let bundle = pack(&text, &events, edition);
            assert_eq!(read(&bundle, 64_000, 64_000), Answer::Bundle { text, events, edition });
            ask(Case::of(bundle));
        }
    }
}

/// Cut, and lengthened, at each length about each border; one bundle at every length.
fn cut(ask: Ask) {
    let mut random = Random(SEED + 1);
    for bundle in shapes(&mut random) {
        for border in (0..=bundle.len() + BLOCK).step_by(BLOCK) {
            for length in border.saturating_sub(5)..border + 6 {
                let mut other = bundle.clone();
                other.resize(length, 0);
                ask(Case::of(other));
            }
        }
    }
    let bundle = bundle(&mut random, 3, 1);
    for length in 0..=bundle.len() {
        ask(Case::of(bundle[..length].to_vec()));
    }
}

/// Each byte of bundles of each shape changed, with the check mended and not.
fn bytes(ask: Ask) {
    let mut random = Random(SEED + 2);
    for bundle in shapes(&mut random) {
        for at in 0..bundle.len() {
            let place = at % BLOCK;
            let border = place < 24 || place > 500 || bundle.len() <= 3 * BLOCK;
            for change in [1, 0x80, 0xFF] {
                if border || change == 1 {
                    ask(Case::of(changed(&bundle, at, change, true)));
                    ask(Case::of(changed(&bundle, at, change, false)));
                }
            }
        }
    }
}

pub fn changed(bundle: &[u8], at: usize, change: u8, mended: bool) -> Vec<u8> {
    let mut other = bundle.to_vec();
    other[at] ^= change;
    if mended {
        let start = at / BLOCK * BLOCK;
        mend(&mut other[start..start + BLOCK]);
    }
    other
}

/// The header's two lengths set to numbers about every border and limit, mended.
fn header(ask: Ask) {
    let mut random = Random(SEED + 3);
    let about = |n: u32| [n.wrapping_sub(1), n, n.wrapping_add(1)];
    for bundle in shapes(&mut random) {
        let text = word(&bundle, 8);
        let count = word(&bundle, 12);
        for at in [8, 12] {
            for border in [0, 25, 500, 1_000, 3_200, 64_000, 0x1_0000, 0x100_0000, 0x8000_0000, text, count] {
                for number in about(border) {
                    let mut other = bundle.clone();
                    other[at..at + 4].copy_from_slice(&number.to_le_bytes());
                    mend(&mut other[..BLOCK]);
                    ask(Case::of(other));
                }
            }
        }
    }
}

/// Blocks swapped, doubled, missing, of another edition, of another kind and renumbered.
fn blocks(ask: Ask) {
    let mut random = Random(SEED + 4);
    for bundle in shapes(&mut random) {
        let other_edition = word(&bundle, 0) ^ 0x0100;
        let split: Vec<Vec<u8>> = bundle.chunks(BLOCK).map(<[u8]>::to_vec).collect();
        let mut ask_blocks = |blocks: &[Vec<u8>]| ask(Case::of(blocks.concat()));
        for one in 0..split.len() {
            for other in 0..split.len() {
                let mut swapped = split.clone();
                swapped.swap(one, other);
                ask_blocks(&swapped);
                let mut doubled = split.clone();
                doubled.insert(other, split[one].clone());
                ask_blocks(&doubled);
                let mut replaced = split.clone();
                replaced[other] = split[one].clone();
                ask_blocks(&replaced);
                // renumbered, so that only the kind or the count can be wrong
                for blocks in [&mut swapped, &mut doubled, &mut replaced] {
                    for (number, block) in blocks.iter_mut().enumerate() {
                        block[4..6].copy_from_slice(&(number as u16).to_le_bytes());
                        mend(block);
                    }
                    ask_blocks(blocks);
                }
            }
            let mut missing = split.clone();
            missing.remove(one);
            ask_blocks(&missing);
            for mended in [true, false] {
                let mut blocks = split.clone();
                blocks[one][0..4].copy_from_slice(&other_edition.to_le_bytes());
                if mended {
                    mend(&mut blocks[one]);
                }
                ask_blocks(&blocks);
            }
            for kind in 0..=5 {
                let mut blocks = split.clone();
                blocks[one][6] = kind;
                mend(&mut blocks[one]);
                ask_blocks(&blocks);
            }
        }
    }
}

/// Buffers about the least length, with bundles that are good and that are not.
fn rooms(ask: Ask) {
    let mut random = Random(SEED + 5);
    let lengths = [0, 1, 500, 63_999, 64_000, 64_001, 70_001, 131_072];
    let good = bundle(&mut random, 501, 26);
    let bundles =
        [good.clone(), changed(&good, 1_000, 1, false), changed(&good, 8, 1, true), good[..700].to_vec(), Vec::new()];
    for bundle in &bundles {
        for text_room in lengths {
            for event_room in lengths {
                ask(Case { bundle: bundle.clone(), text_room, event_room });
            }
        }
    }
}

/// The largest bundle, one block more, and a fault in each block.
fn largest(ask: Ask) {
    let mut random = Random(SEED + 6);
    let bundle = bundle(&mut random, 64_000, 3_200);
    let mut longer = bundle.clone();
    longer.extend(&bundle[256 * BLOCK..]);
    ask(Case::of(longer));
    for block in 0..bundle.len() / BLOCK {
        let place = random.below(BLOCK);
        ask(Case::of(changed(&bundle, block * BLOCK + place, 1, false)));
        ask(Case::of(changed(&bundle, block * BLOCK + random.below(8), 1, true)));
    }
}

/// Whole bundles of more than the sizes of RULES R8.1, with room for all of it.
fn outside(ask: Ask) {
    let mut random = Random(SEED + 7);
    let sizes = [(64_001, 0), (64_500, 1), (64_501, 25), (66_000, 3_200), (0, 3_201), (1, 3_225), (500, 3_226)];
    for (text, events) in sizes {
        let bundle = bundle(&mut random, text, events);
        ask(Case { bundle, text_room: 131_072, event_room: 131_072 });
    }
}

/// One to three faults at once on small bundles, so that the order of refusals shows; and blocks of noise.
fn random(ask: Ask) {
    let mut random = Random(SEED + 8);
    for _ in 0..12_000 {
        let (text, events) = (random.below(1_300), random.below(70));
        let mut bundle = bundle(&mut random, text, events);
        for _ in 0..random.below(4) {
            damage(&mut bundle, &mut random);
        }
        ask(Case::of(bundle));
    }
    for _ in 0..1_000 {
        let mut noisy = noise(&mut random, BLOCK * 3);
        for block in noisy.chunks_mut(BLOCK) {
            block[4..8].copy_from_slice(&[0, 0, 1, 0]);
            mend(block);
        }
        ask(Case::of(noisy));
    }
}

pub fn damage(bundle: &mut Vec<u8>, random: &mut Random) {
    if bundle.len() < BLOCK {
        return;
    }
    let start = random.below(bundle.len() / BLOCK) * BLOCK;
    let places = [0, 3, 4, 5, 6, 7, 8, 9, 12, 13, 16, 100, 507, CHECK, CHECK + 3];
    match random.below(8) {
        0 => bundle.truncate(random.below(bundle.len())),
        1 => bundle.truncate(start),
        2 => bundle.extend_from_within(start..start + BLOCK),
        3 => bundle[start + random.below(BLOCK)] = random.below(256) as u8,
        _ => {
            bundle[start + random.pick(&places)] ^= 1 << random.below(8);
            if random.below(4) > 0 {
                mend(&mut bundle[start..start + BLOCK]);
            }
        }
    }
}

// ---- the few that the gate replays: an answer is 128,024 bytes long, unless a buffer is too short

pub fn fixed() -> Vec<Case> {
    let good = bundle(&mut Random(SEED), 501, 26);
    let damaged = |damage: fn(&mut Vec<u8>)| {
        let mut bundle = good.clone();
        damage(&mut bundle);
        Case::of(bundle)
    };
    vec![
        Case::of(good.clone()),
        Case { bundle: good.clone(), text_room: 0, event_room: 0 },
        damaged(|b| b.clear()),
        damaged(|b| b.truncate(700)),
        damaged(|b| b.truncate(4 * BLOCK)),
        damaged(|b| b[BLOCK + 9] ^= 1),
        damaged(|b| mended(b, 2, 0)),
        damaged(|b| mended(b, 1, 4)),
        damaged(|b| mended(b, 4, 507)),
    ]
}

/// One bit of a place of a block turned, and the check mended.
fn mended(bundle: &mut [u8], block: usize, place: usize) {
    let block = &mut bundle[block * BLOCK..(block + 1) * BLOCK];
    block[place] ^= 1;
    mend(block);
}
