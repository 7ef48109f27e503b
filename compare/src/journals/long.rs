//! Long journals: the slots filled and emptied, and random records.

use super::{BIG, SLOTS, journal, record};
use crate::rng::Rng;

/// The slots filled and emptied three times, each time from another head and around the end of the slots.
pub fn three_turns() -> Vec<u8> {
    [from_behind(), from_the_front(), every_distance()].concat()
}

/// As many pushes as there are slots and one more, which is refused; then what a full queue refuses and what it
/// doesn't.
fn too_many(push: u8) -> Vec<u8> {
    let mut bytes: Vec<u8> = (1..=SLOTS + 1).flat_map(|v| record(push, &[v])).collect();
    bytes.extend(journal(&[(3 - push, &[1]), (8, &[0, 1]), (8, &[8_000, 1]), (8, &[SLOTS, 1])]));
    bytes.extend(journal(&[(8, &[SLOTS + 1, 1]), (8, &[BIG, 1]), (9, &[SLOTS]), (9, &[BIG]), (6, &[SLOTS])]));
    bytes.extend(journal(&[(7, &[SLOTS]), (5, &[SLOTS, SLOTS]), (5, &[0, SLOTS + 1]), (5, &[8_001, 8_000])]));
    bytes
}

/// Filled by push_back, from the last slots on; emptied by pops at both ends, by truncations and by drains, the last of
/// which empties it.
fn from_behind() -> Vec<u8> {
    let mut bytes = journal(&[(2, &[1]), (2, &[2]), (2, &[3]), (6, &[0])]);
    bytes.extend(too_many(1));
    bytes.extend(record(3, &[]).repeat(4_000));
    bytes.extend(record(4, &[]).repeat(4_000));
    bytes.extend(journal(&[(7, &[7_000]), (6, &[6_000]), (5, &[1_000, 2_000]), (5, &[4_000, 4_500])]));
    bytes.extend(journal(&[(5, &[2_000, 2_500]), (5, &[0, 1_000]), (5, &[2_000, 3_000]), (5, &[0, 2_000])]));
    bytes.extend(journal(&[(3, &[]), (4, &[]), (9, &[0])]));
    bytes
}

/// Filled by push_front, with head in the middle of the slots; emptied by pops and truncations, which leave head where
/// it came to stand.
fn from_the_front() -> Vec<u8> {
    let mut bytes: Vec<u8> = record(1, &[1]).repeat(6_000);
    bytes.extend(record(7, &[0]));
    bytes.extend(too_many(2));
    bytes.extend(record(4, &[]).repeat(1_000));
    bytes.extend(journal(&[(7, &[14_000]), (6, &[3]), (7, &[2]), (3, &[]), (4, &[]), (4, &[]), (3, &[])]));
    bytes
}

/// Filled at both ends by turns. An element is removed at every distance from the front and one inserted as far from
/// the end, so that head goes on around the slots; at every fifth distance also the other way round. Then one is
/// drained at every distance, from the front and from the end by turns, and the rest at once.
fn every_distance() -> Vec<u8> {
    let mut bytes: Vec<u8> = (1..=SLOTS).flat_map(|v| record(if v % 3 == 0 { 2 } else { 1 }, &[v])).collect();
    for d in 0..=SLOTS / 2 {
        bytes.extend(journal(&[(9, &[d]), (8, &[SLOTS - 1 - d, d])]));
        if d % 5 == 0 {
            bytes.extend(journal(&[(9, &[SLOTS - 1 - d]), (8, &[d, d])]));
        }
    }
    for (d, len) in (0..SLOTS / 2).rev().zip((0..=SLOTS).rev()) {
        let start = if d % 2 == 0 { d } else { len - 1 - d };
        bytes.extend(record(5, &[start, start + 1]));
    }
    bytes.extend(journal(&[(5, &[0, SLOTS / 2]), (5, &[0, 0]), (3, &[])]));
    bytes
}

/// The slots filled to the last, the 16,001st element refused, and positions tested before room.
pub fn full() -> Vec<u8> {
    let mut bytes = vec![];
    (0..SLOTS).for_each(|v| bytes.extend(record(if v % 3 == 0 { 2 } else { 1 }, &[v])));
    let at_edge: [(u8, &[u32]); 8] = [
        (1, &[1]),
        (2, &[1]),
        (8, &[0, 1]),
        (8, &[8_000, 1]),
        (8, &[SLOTS, 1]),
        (8, &[SLOTS + 1, 1]),
        (8, &[BIG, 1]),
        (9, &[SLOTS]),
    ];
    bytes.extend(journal(&at_edge));
    bytes.extend(journal(&[(9, &[7_999]), (8, &[8_000, 5]), (9, &[8_000]), (8, &[7_999, 6]), (1, &[1])]));
    bytes.extend(journal(&[(4, &[]), (1, &[2]), (1, &[3]), (3, &[]), (2, &[4]), (2, &[5])]));
    bytes.extend(journal(&[
        (5, &[SLOTS, SLOTS]),
        (5, &[SLOTS, SLOTS + 1]),
        (5, &[8_000, 8_000]),
        (5, &[1, 15_999]),
        (5, &[0, 2]),
    ]));
    bytes
}

/// The slots filled and emptied six times, each time by other operations and from another head.
pub fn six_turns() -> Vec<u8> {
    let mut bytes = vec![];
    for turn in 0..6 {
        for v in 0..SLOTS - turn {
            let push = if turn % 2 == 0 { 1 } else { 2 };
            bytes.extend(record(push, &[v + turn * 100_000]));
        }
        match turn {
            0 => (0..SLOTS + 1).for_each(|_| bytes.extend(record(3, &[]))),
            1 => (0..SLOTS).for_each(|_| bytes.extend(record(4, &[]))),
            2 => bytes.extend(journal(&[
                (7, &[15_000]),
                (6, &[14_000]),
                (5, &[2_000, 9_000]),
                (5, &[4_000, 5_000]),
                (7, &[0]),
            ])),
            3 => bytes.extend(journal(&[(5, &[5_000, 6_000]), (5, &[9_000, 10_000]), (5, &[0, 13_997])])),
            4 => bytes.extend(journal(&[(6, &[1]), (4, &[]), (4, &[])])),
            _ => bytes.extend(journal(&[(5, &[100, 15_900]), (9, &[150]), (9, &[20]), (8, &[150, 1]), (8, &[20, 2])])),
        }
    }
    bytes
}

/// Random records. For 40,000 of them more enter than leave, for the next 40,000 it is the other way, so that the slots
/// fill and empty again and again.
pub fn random(seed: u64, n: usize) -> Vec<u8> {
    let mut rng = Rng::new(seed);
    let mut bytes = vec![];
    let mut len: u32 = 0;
    for k in 0..n {
        let filling = (k / 40_000) % 2 == 0;
        let (operation, operands) = random_record(&mut rng, len, filling);
        bytes.extend(record(operation, &operands));
        len = len_after(len, operation, &operands);
    }
    bytes
}

/// One random record for a queue of len elements.
fn random_record(rng: &mut Rng, len: u32, filling: bool) -> (u8, Vec<u32>) {
    let edges = [0, 1, len / 2, len / 2 + 1, len.wrapping_sub(1), len, len + 1, BIG];
    let place = if rng.once_in(8) { rng.pick(&edges) } else { rng.below(len as usize + 1) as u32 };
    let (few, value) = (rng.below(4) as u32, rng.bits() as u32);
    match rng.below(if filling { 160 } else { 56 }) {
        0..=9 => (3, vec![]),
        10..=19 => (4, vec![]),
        20..=29 => (9, vec![place]),
        30..=31 => (6, vec![len.saturating_sub(few)]),
        32..=33 => (7, vec![len.saturating_sub(few)]),
        34..=38 => (5, vec![place, place.saturating_add(few)]),
        39 if rng.once_in(4) => (5, vec![place, value]),
        39 if rng.once_in(200) => (rng.pick(&[6, 7]), vec![place]),
        39..=49 => (8, vec![place, value]),
        k => (1 + k as u8 % 2, vec![value]),
    }
}

/// How many elements stand after a record, so that the next one's positions meet the edges.
fn len_after(len: u32, operation: u8, operands: &[u32]) -> u32 {
    match operation {
        1 | 2 => (len + 1).min(SLOTS),
        8 if operands[0] <= len => (len + 1).min(SLOTS),
        3 | 4 => len.saturating_sub(1),
        9 if operands[0] < len => len - 1,
        5 if operands[0] <= operands[1] && operands[1] <= len => len - (operands[1] - operands[0]),
        6 | 7 => len.min(operands[0]),
        _ => len,
    }
}
