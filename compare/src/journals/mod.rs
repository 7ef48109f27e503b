//! Journals with fixed seeds: every operation, every refusal at its edges, every way to be broken, and long runs.

mod broken;
mod long;

/// The slots of the replay program.
const SLOTS: u32 = 16_000;

/// The largest operand.
const BIG: u32 = u32::MAX;

/// A journal and its name.
pub struct Journal {
    pub name: String,
    pub bytes: Vec<u8>,
}

/// One record.
pub fn record(operation: u8, operands: &[u32]) -> Vec<u8> {
    let length = (2 + 4 * operands.len()) as u16;
    let mut bytes = length.to_be_bytes().to_vec();
    bytes.extend([1, operation]);
    bytes.extend(operands.iter().flat_map(|v| v.to_be_bytes()));
    bytes
}

/// Records one after the other.
fn journal(records: &[(u8, &[u32])]) -> Vec<u8> {
    records.iter().flat_map(|(operation, operands)| record(*operation, operands)).collect()
}

/// Takes a journal with its name.
type Add<'a> = dyn FnMut(&str, Vec<u8>) + 'a;

/// What a maker of journals adds, in its order.
fn collected(make: impl Fn(&mut Add)) -> Vec<Journal> {
    let mut all = vec![];
    make(&mut |name, bytes| all.push(Journal { name: name.into(), bytes }));
    all
}

/// The journals of the gate, kept in the repository: each operation, each edge, each way to be broken, three turns of
/// the slots.
pub fn stored() -> Vec<Journal> {
    collected(|add| {
        add("empty", vec![]);
        add("document-01", whole_case());
        add("every-operation", every_operation());
        add("empty-queue", on_empty());
        add("ranges", ranges());
        broken::each_way(add);
        (0..3).for_each(|seed| add(&format!("random-{seed}"), long::random(seed, 3_000)));
        add("three-turns", long::three_turns());
    })
}

/// Those that are too large for the repository.
fn large() -> Vec<Journal> {
    collected(|add| {
        add("full", long::full());
        add("six-turns", long::six_turns());
        broken::longest(add);
        (3..8).for_each(|seed| add(&format!("random-{seed}"), long::random(seed, 3_000)));
        add("random-million", long::random(99, 1_000_000));
    })
}

/// Every journal.
pub fn all() -> Vec<Journal> {
    stored().into_iter().chain(large()).collect()
}

/// The whole case of document 01.
fn whole_case() -> Vec<u8> {
    journal(&[(1, &[10]), (1, &[20]), (5, &[0, 1]), (8, &[5, 30])])
}

/// Each operation on a queue that wraps.
fn every_operation() -> Vec<u8> {
    let mut records: Vec<(u8, &[u32])> =
        vec![(2, &[3]), (2, &[2]), (2, &[1]), (1, &[4]), (1, &[5]), (1, &[6]), (1, &[0]), (1, &[BIG])];
    records.extend::<[(u8, &[u32]); 8]>([
        (8, &[1, 9]),
        (8, &[7, 8]),
        (9, &[1]),
        (9, &[7]),
        (5, &[1, 3]),
        (5, &[2, 3]),
        (3, &[]),
        (4, &[]),
    ]);
    records.extend::<[(u8, &[u32]); 8]>([
        (7, &[2]),
        (6, &[1]),
        (8, &[0, 7]),
        (8, &[2, 6]),
        (9, &[3]),
        (9, &[0]),
        (6, &[0]),
        (7, &[0]),
    ]);
    journal(&records)
}

/// Everything that an empty queue answers, with head at 0, at the last slot and elsewhere.
fn on_empty() -> Vec<u8> {
    let asks: [(u8, &[u32]); 13] = [
        (3, &[]),
        (4, &[]),
        (9, &[0]),
        (9, &[BIG]),
        (6, &[0]),
        (6, &[BIG]),
        (7, &[0]),
        (7, &[BIG]),
        (8, &[1, 5]),
        (5, &[0, 1]),
        (5, &[1, 1]),
        (5, &[1, 0]),
        (5, &[0, 0]),
    ];
    let mut bytes = journal(&asks);
    bytes.extend(journal(&[(2, &[1]), (4, &[])]));
    bytes.extend(journal(&asks));
    bytes.extend(journal(&[(1, &[1]), (3, &[])]));
    bytes.extend(journal(&asks));
    bytes.extend(journal(&[(2, &[1]), (2, &[2]), (7, &[0]), (1, &[3]), (5, &[0, 1])]));
    bytes
}

/// Drains, inserts, removes and truncations at every position of short queues, straight and wrapped, and past them.
fn ranges() -> Vec<u8> {
    let mut bytes = vec![];
    for front in 0..=6 {
        let refill = |bytes: &mut Vec<u8>| {
            bytes.extend(record(6, &[0]));
            (0..front).for_each(|v| bytes.extend(record(2, &[v])));
            (front..6).for_each(|v| bytes.extend(record(1, &[v])));
        };
        let numbers = [0, 1, 2, 3, 4, 5, 6, 7, SLOTS, BIG - 1, BIG];
        for a in numbers {
            for operands in [[6, a], [7, a], [9, a]] {
                refill(&mut bytes);
                bytes.extend(record(operands[0] as u8, &[operands[1]]));
            }
            refill(&mut bytes);
            bytes.extend(record(8, &[a, 77]));
            for b in numbers {
                refill(&mut bytes);
                bytes.extend(record(5, &[a, b]));
            }
        }
    }
    bytes
}
