// The cases on which op 10 of `calls` is compared: bundles, good and damaged, in parts of every kind.
use crate::bundle::{self, bundle, changed, damage, noise, pack, shapes, BLOCK, RECORD};
use crate::cases::{self, Family};
use crate::part_vectors::fixed;
use crate::parts::{between, stepped, Case, Said};
use crate::random::Random;

type Ask<'a> = cases::Ask<'a, Case>;

pub const FAMILIES: [Family<Case>; 13] = [
    ("fixed", |ask| fixed().into_iter().for_each(ask)),
    ("random", random),
    ("cuts", cuts),
    ("steps", steps),
    ("borders", borders),
    ("bytes", bytes),
    ("lengths", lengths),
    ("header", header),
    ("open", open),
    ("after", after),
    ("rooms", rooms),
    ("largest", largest),
    ("whole", whole),
];

const SEED: u64 = 20_261_116;
const EACH: [Said; 3] = [Said::Nothing, Said::End, Said::EndAndMore];

// ---- how bytes are cut

/// Up to seven parts, cut anywhere and about the borders of blocks; some are empty.
fn some_parts(random: &mut Random, length: usize) -> Vec<usize> {
    let mut places = vec![0, length];
    for _ in 0..random.below(7) {
        let anywhere = random.below(length + 1);
        let border = (anywhere / BLOCK * BLOCK + random.below(3)).saturating_sub(1).min(length);
        places.push(random.pick(&[anywhere, border]));
    }
    places.sort();
    between(&places)
}

fn cut_somewhere(bytes: &[u8], said: Said, random: &mut Random) -> Case {
    Case::of(bytes, &some_parts(random, bytes.len()), said)
}

/// Bundles of one to three blocks.
fn small(random: &mut Random) -> Vec<Vec<u8>> {
    let sizes = [(0, 0), (3, 0), (0, 1), (3, 1)];
    sizes.iter().map(|&(text, events)| bundle(random, text, events)).collect()
}

// ---- the families

/// Up to three damages at once, some bytes too many, some that are not handed over, and now and then a short buffer.
fn random(ask: Ask) {
    let mut random = Random(SEED);
    for _ in 0..20_000 {
        let (text, events) = (random.below(1_300), random.below(70));
        let mut bytes = bundle(&mut random, text, events);
        for _ in 0..random.below(4) {
            damage(&mut bytes, &mut random);
        }
        let more = random.pick(&[0, 0, 1, 511, 512, 700]);
        bytes.extend(noise(&mut random, more));
        let mut case = cut_somewhere(&bytes, random.pick(&EACH), &mut random);
        if random.below(4) == 0 && case.parts.len() > 1 {
            case.parts.pop();
        }
        let short = if random.below(20) == 0 { 63_999 } else { 64_000 };
        ask(case.with_rooms(64_000, short));
    }
}

/// Small bundles in two parts, cut at each place, and with an empty part before, between and behind.
fn cuts(ask: Ask) {
    for bundle in small(&mut Random(SEED + 1)) {
        for at in 0..=bundle.len() {
            let rest = bundle.len() - at;
            for parts in [vec![at, rest], vec![0, at, rest], vec![at, 0, rest], vec![at, rest, 0]] {
                ask(Case::of(&bundle, &parts, Said::End));
            }
        }
    }
}

/// Parts of each length from one byte to two blocks and a byte.
fn steps(ask: Ask) {
    for bundle in shapes(&mut Random(SEED + 2)) {
        for step in 1..=2 * BLOCK + 1 {
            ask(Case::of(&bundle, &stepped(bundle.len(), step), Said::End));
        }
    }
}

/// Three parts, cut at each pair of places about the borders of blocks: a good bundle, and one with a damaged block.
fn borders(ask: Ask) {
    let mut random = Random(SEED + 3);
    for bundle in shapes(&mut random) {
        let places: Vec<usize> = (0..=bundle.len()).filter(|at| matches!(at % BLOCK, 0 | 1 | 511)).collect();
        for (k, &one) in places.iter().enumerate() {
            for &other in &places[k..] {
                let parts = between(&[0, one, other, bundle.len()]);
                let damaged = changed(&bundle, random.below(bundle.len()), 1, false);
                ask(Case::of(&bundle, &parts, Said::End));
                ask(Case::of(&damaged, &parts, Said::End));
                ask(Case::of(&damaged, &parts, Said::Nothing));
            }
        }
    }
}

/// Each byte of a bundle changed, with the check mended and not.
fn bytes(ask: Ask) {
    let mut random = Random(SEED + 4);
    for bundle in small(&mut random).into_iter().chain([bundle(&mut random, 501, 26)]) {
        for at in 0..bundle.len() {
            for change in [1, 0x80, 0xFF] {
                for mended in [true, false] {
                    let said = random.pick(&EACH);
                    ask(cut_somewhere(&changed(&bundle, at, change, mended), said, &mut random));
                }
            }
        }
    }
}

/// Cut short, and prolonged, by 1 to 1,024 bytes, with the end said and not: what is too much is zeros, FF, the last
/// block again, or the blocks that a longer note would have there.
fn lengths(ask: Ask) {
    let mut random = Random(SEED + 5);
    for events in [0, 25, 50] {
        let (text, records) = (noise(&mut random, 3), noise(&mut random, (events + 50) * RECORD));
        let bundle = pack(&text, &records[..events * RECORD], 7);
        let longer = pack(&text, &records, 7)[bundle.len()..].to_vec();
        let last = bundle[bundle.len() - BLOCK..].repeat(2);
        for length in 1..=2 * BLOCK {
            for said in [Said::End, Said::Nothing] {
                let less = bundle.len().saturating_sub(length);
                ask(cut_somewhere(&bundle[..less], said, &mut random));
                for more in [&[0; 2 * BLOCK][..], &[0xFF; 2 * BLOCK], &last, &longer] {
                    ask(cut_somewhere(&[&bundle, &more[..length]].concat(), said, &mut random));
                }
            }
        }
    }
}

/// The header's lengths about every border and limit: at the end, without one, and with the first block alone.
fn header(ask: Ask) {
    let mut random = Random(SEED + 6);
    bundles_of("header", &mut |case| {
        ask(cut_somewhere(&case.bundle, Said::End, &mut random));
        ask(cut_somewhere(&case.bundle, Said::Nothing, &mut random));
        ask(Case::of(&case.bundle, &some_parts(&mut random, BLOCK), Said::Nothing));
    });
}

/// So many bytes and no more, with the end said and not: a fault is answered with the last byte of its block.
fn open(ask: Ask) {
    let mut random = Random(SEED + 7);
    let good = bundle(&mut random, 3, 1);
    let faults = [(508, false), (10, true), (600, false), (512, true), (1_100, false), (1_028, true), (1_500, true)];
    let damaged = faults.map(|(at, mended)| changed(&good, at, 0x80, mended));
    for bundle in [good].iter().chain(&damaged) {
        for length in 0..=bundle.len() {
            ask(Case::of(bundle, &some_parts(&mut random, length), Said::Nothing));
            ask(Case::of(bundle, &some_parts(&mut random, length), Said::End));
        }
    }
}

/// Calls behind an answer of every kind: three bytes that might be taken for missing ones, or for too many.
fn after(ask: Ask) {
    let mut random = Random(SEED + 8);
    for bundle in shapes(&mut random) {
        let mut all = vec![bundle.clone(), [&bundle[..], &[0x5A]].concat()];
        all.extend((0..=6).map(|less| bundle[..bundle.len() - less].to_vec()));
        for block in 0..bundle.len() / BLOCK {
            for place in [0, 6, 100] {
                all.extend([true, false].map(|mended| changed(&bundle, block * BLOCK + place, 1, mended)));
            }
        }
        for bytes in &all {
            for _ in 0..6 {
                ask(cut_somewhere(bytes, Said::EndAndMore, &mut random));
            }
            ask(Case::of(bytes, &[], Said::EndAndMore));
            ask(cut_somewhere(bytes, Said::EndAndMore, &mut random).with_rooms(64_000, 63_999));
        }
    }
}

/// Buffers about the least length, with an empty part, no part, and parts that bring a fault or none.
fn rooms(ask: Ask) {
    let mut random = Random(SEED + 9);
    let lengths = [0, 1, 500, 63_999, 64_000, 64_001, 131_072];
    let good = bundle(&mut random, 501, 26);
    let bundles = [Vec::new(), changed(&good, 9, 1, false), changed(&good, 1_000, 1, true), good[..700].to_vec(), good];
    for (text_room, event_room) in lengths.iter().flat_map(|&text| lengths.map(|events| (text, events))) {
        for bundle in &bundles {
            for said in EACH {
                ask(cut_somewhere(bundle, said, &mut random).with_rooms(text_room, event_room));
                ask(Case::of(bundle, &[0], said).with_rooms(text_room, event_room));
            }
            ask(Case::of(bundle, &[], Said::End).with_rooms(text_room, event_room));
        }
    }
}

/// The largest bundle in parts of each kind: good, with a fault, a byte missing, a byte and a block too many; then a
/// fault in each block.
fn largest(ask: Ask) {
    let mut random = Random(SEED + 10);
    let good = bundle(&mut random, 64_000, 3_200);
    let late = changed(&good, good.len() - 600, 1, true);
    let longer = [&good[..], &good[..BLOCK]].concat();
    for bytes in [&good, &late, &good[..good.len() - 1], &longer[..good.len() + 1], &longer] {
        for parts in large_parts(bytes.len()) {
            EACH.iter().for_each(|&said| ask(Case::of(bytes, &parts, said)));
        }
        for _ in 0..20 {
            ask(cut_somewhere(bytes, Said::End, &mut random));
        }
    }
    for start in (0..good.len()).step_by(BLOCK) {
        for (place, mended) in [(random.below(BLOCK), false), (random.below(8), true)] {
            ask(cut_somewhere(&changed(&good, start + place, 1, mended), random.pick(&EACH), &mut random));
        }
    }
}

/// Parts of one length; and of single bytes at the start, in the middle and at the end, as many as `calls` takes.
fn large_parts(length: usize) -> Vec<Vec<usize>> {
    let mut all: Vec<Vec<usize>> =
        [5, 7, 511, 512, 513, 1_500, 65_536, length].iter().map(|&step| stepped(length, step)).collect();
    let singles = 32_000;
    for before in [0, length / 2, length - singles] {
        let mut parts = vec![1; singles + 2];
        parts[0] = before;
        parts[singles + 1] = length - singles - before;
        all.push(parts);
    }
    all
}

/// The cases of the whole-file reader, in parts.
fn whole(ask: Ask) {
    let mut random = Random(SEED + 11);
    for name in ["good", "cut", "blocks", "outside", "random"] {
        bundles_of(name, &mut |case| {
            let parts = cut_somewhere(&case.bundle, random.pick(&EACH), &mut random);
            ask(parts.with_rooms(case.text_room, case.event_room));
        });
    }
}

fn bundles_of(name: &str, ask: cases::Ask<bundle::Case>) {
    let (_, bundles) = bundle::FAMILIES.iter().find(|family| family.0 == name).expect("the family is listed");
    bundles(ask);
}
