// The reads in parts that the gate replays. An answer is 128,024 bytes long, unless more is wanted or a buffer is short.
use crate::bundle::{bundle, changed, mend, BLOCK};
use crate::parts::{stepped, Case, Said};
use crate::random::Random;

const SEED: u64 = 9;

pub fn fixed() -> Vec<Case> {
    let good = bundle(&mut Random(SEED), 501, 26);
    [answers(&good), block_faults(&good), length_faults(&good), more_wanted(&good), short_buffers(&good)].concat()
}

/// Odd parts and calls behind the end; single bytes; the largest bundle; the smallest, with a byte that is not handed over.
fn answers(good: &[u8]) -> Vec<Case> {
    let largest = bundle(&mut Random(SEED + 1), 64_000, 3_200);
    let smallest = bundle(&mut Random(SEED + 2), 0, 0);
    vec![
        Case::of(good, &[1, 0, 510, 2, 511, 0, 1_030, 0, 506, 0], Said::EndAndMore),
        Case::of(good, &stepped(good.len(), 1), Said::End),
        Case::of(&largest, &stepped(largest.len(), 1_500), Said::End),
        Case::of(&[&smallest[..], &[0xFF]].concat(), &[0, 511, 1], Said::End),
    ]
}

/// Answered with the block's last byte, and before any fault of a length.
fn block_faults(good: &[u8]) -> Vec<Case> {
    let length = good.len();
    let first_bad = changed(good, 20, 1, false);
    let second_bad = changed(good, BLOCK + 9, 1, false);
    let last_bad = changed(good, length - 1, 1, false);
    let other_edition = changed(good, 3 * BLOCK, 1, true);
    let other_number = changed(good, 2 * BLOCK + 5, 1, true);
    let other_rest = changed(good, length - 5, 1, true);
    vec![
        Case::of(&first_bad, &[511, 2], Said::End),
        Case::of(&second_bad, &[700, 900], Said::End),
        Case::of(&second_bad, &[2 * BLOCK], Said::End),
        Case::of(&last_bad, &[300, 0, length - 301, 1], Said::Nothing),
        Case::of(&other_edition, &stepped(length, 513), Said::EndAndMore),
        Case::of(&other_number, &[BLOCK, length - BLOCK], Said::End),
        Case::of(&other_rest, &stepped(length, 511), Said::End),
        // a text of 501 bytes and one event, where the header has 500
        Case::of(&with_header(&bundle(&mut Random(SEED + 3), 501, 1), 500, 1), &stepped(4 * BLOCK, 600), Said::Nothing),
        Case::of(&with_header(good, 64_001, 26), &[BLOCK], Said::Nothing),
        Case::of(&with_header(good, 501, 3_201), &[100, BLOCK], Said::Nothing),
    ]
}

/// 10 at 0, which only the end shows: too little, too much, another count.
fn length_faults(good: &[u8]) -> Vec<Case> {
    let length = good.len();
    let first_bad = changed(good, 20, 1, false);
    vec![
        Case::of(good, &[], Said::End),
        Case::of(&first_bad, &[511], Said::End),
        Case::of(good, &[1_000, length - 1_003], Said::EndAndMore),
        Case::of(good, &[4 * BLOCK], Said::End),
        Case::of(&[good, &[0xFF]].concat(), &[length, 0, 1], Said::End),
        Case::of(&[good, &first_bad[..BLOCK]].concat(), &stepped(length + BLOCK, 800), Said::End),
        Case::of(&with_header(good, 501, 51), &[length], Said::End),
    ]
}

/// No end is said, and no fault is to be seen yet.
fn more_wanted(good: &[u8]) -> Vec<Case> {
    let first_bad = changed(good, 20, 1, false);
    let longer = [good, &first_bad[..BLOCK], &[0xFF]].concat();
    let about_borders = (0..=longer.len()).filter(|at| matches!(at % BLOCK, 0 | 1 | 511));
    let mut cases: Vec<Case> =
        about_borders.map(|at| Case::of(&longer, &[at / 3, at - at / 3], Said::Nothing)).collect();
    cases.extend([
        Case::of(good, &[0], Said::Nothing),
        Case::of(good, &[0, 5, 0, 0, 505, 0], Said::Nothing),
        Case::of(&with_header(good, 501, 51), &[good.len()], Said::Nothing),
        Case::of(&with_header(good, 64_001, 3_201), &[511], Said::Nothing),
    ]);
    // each kind of fault in each block, all of it there but the last byte
    for (place, mended) in [(20, false), (0, true), (4, true), (6, true), (7, true), (507, true)] {
        for block in 0..good.len() / BLOCK {
            let damaged = changed(good, block * BLOCK + place, 5, mended);
            cases.push(Case::of(&damaged, &[100, block * BLOCK + 411], Said::Nothing));
        }
    }
    cases
}

/// 1 at 0 by the first call, whatever it brings.
fn short_buffers(good: &[u8]) -> Vec<Case> {
    let bad = changed(good, 20, 1, false);
    let mut cases = vec![
        Case::of(&[], &[0], Said::Nothing).with_rooms(64_000, 63_999),
        Case::of(&[], &[], Said::End).with_rooms(63_999, 64_000),
    ];
    for (text_room, event_room) in [(0, 0), (5, 3)] {
        for (parts, said) in [
            (&[0][..], Said::Nothing),
            (&[1], Said::Nothing),
            (&[BLOCK], Said::Nothing),
            (&[BLOCK, 2], Said::End),
            (&[], Said::End),
            (&[], Said::EndAndMore),
        ] {
            cases.push(Case::of(&bad, parts, said).with_rooms(text_room, event_room));
            cases.push(Case::of(good, parts, said).with_rooms(text_room, event_room));
        }
    }
    cases
}

/// The header's two lengths set anew.
fn with_header(bundle: &[u8], length: u32, count: u32) -> Vec<u8> {
    let mut other = bundle.to_vec();
    other[8..12].copy_from_slice(&length.to_le_bytes());
    other[12..16].copy_from_slice(&count.to_le_bytes());
    mend(&mut other[..BLOCK]);
    other
}
