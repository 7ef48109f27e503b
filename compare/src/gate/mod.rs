//! The gate's script: every call, every refusal at its edges, records of any numbers, drains, walks, images and moves,
//! on one pair of capacities, so that the proved program can be run on it and its output be held against a stored one.

mod moves;
mod records;

use crate::calls::{Call, Test};
use crate::exhaustive::{self, in_order, new_values, one_of_each, planted};
use crate::model;
use crate::random::{Values, sequence};
use crate::script::Script;
use crate::stream::Stream;
use crate::world::World;

/// The capacities of A, small enough for every slot to be shown, and of B, as line 93 wants it.
const CAPS: [usize; 2] = [8, 2];

/// The largest number that a script can write.
const BIG: usize = usize::MAX;

/// The records of A in which every call is made: empty, one, straight, wrapped, one short and full.
const RECORDS: [(usize, usize); 10] = [(0, 0), (5, 0), (7, 1), (0, 5), (6, 5), (3, 5), (2, 7), (6, 7), (0, 8), (5, 8)];

/// The whole script.
pub fn script() -> Script {
    let mut gate = Stream::new(CAPS);
    examples(&mut gate);
    searches(&mut gate);
    for (head, len) in RECORDS {
        let world = planted(CAPS[0], head, len);
        let wrap = (CAPS[0] - head).min(len);
        single_calls(&mut gate, &world, len, wrap);
        range_calls(&mut gate, &world, len, wrap);
        two_queue_calls(&mut gate, &world);
    }
    small_queue(&mut gate);
    records::bad_records(&mut gate);
    records::drains(&mut gate);
    records::walks(&mut gate);
    records::images(&mut gate);
    moves::marked(&mut gate);
    moves::single_moves(&mut gate);
    moves::carried_on(&mut gate);
    gate.then(sequence(1, CAPS, Values::New, 500));
    gate.then(sequence(2, CAPS, Values::Few, 500));
    gate.script()
}

/// The examples of document 01 that have eight slots: head 6, elements 1 to 5.
fn examples(gate: &mut Stream) {
    let mut world = planted(CAPS[0], 6, 5);
    world.0[0].slots = vec![3, 4, 5, 93, 94, 95, 1, 2];
    [Call::Ranges(0, 5), Call::FrontRun(0, 5), Call::BackRun(0, 5)].iter().for_each(|c| gate.put(&world, 0, c));
    for (start, end) in [(1, 3), (2, 3), (0, 5), (3, 5), (2, 2)] {
        gate.put(&world, 0, &Call::DrainOpen(start, end));
        gate.go(0, &Call::DrainClose);
    }
    for call in [
        Call::TruncateFront(3),
        Call::TruncateFront(4),
        Call::TruncateFront(0),
        Call::Splice(1, 2, vec![7, 8, 9]),
        Call::Splice(1, 4, vec![7]),
    ] {
        gate.put(&world, 0, &call);
    }
    (world.0[0].head, world.0[0].len, world.0[0].slots) = (0, 4, vec![4, 1, 6, 2, 90, 91, 92, 93]);
    gate.put(&world, 0, &Call::Retain(Test::Below(5)));
    (world.0[0].head, world.0[0].len, world.0[0].slots) = (6, 4, vec![5, 7, 90, 91, 92, 93, 7, 9]);
    gate.put(&world, 0, &Call::BinarySearch(7));
    (world.0[0].len, world.0[0].slots[6], world.0[0].slots[7]) = (2, 1, 2);
    gate.put(&world, 0, &Call::ImageWrite(12));
}

/// Searches for one of several equal elements, sorted and not, straight and wrapped, where the Rust may answer
/// otherwise.
fn searches(gate: &mut Stream) {
    for head in [0, 3, 5, 7] {
        for list in [[1, 2, 2, 2, 3], [2, 2, 2, 2, 2], [1, 1, 2, 3, 3], [3, 1, 2, 1, 3], [2, 0, 2, 4, 1]] {
            let mut world = planted(CAPS[0], head, 5);
            for (i, v) in list.into_iter().enumerate() {
                world.0[0].slots[model::place(CAPS[0], head, i)] = v;
            }
            (0..5).for_each(|x| gate.put(&world, 0, &Call::BinarySearch(x)));
            (1..4).for_each(|k| gate.put(&world, 0, &Call::PartitionPoint(Test::Below(k))));
        }
    }
}

/// The calls that take no range, with operands on both sides of each edge.
fn single_calls(gate: &mut Stream, world: &World, len: usize, wrap: usize) {
    for call in [
        Call::Front,
        Call::Back,
        Call::PushBack(9),
        Call::PushFront(9),
        Call::PopFront,
        Call::PopBack,
        Call::Clear,
        Call::Fresh,
    ] {
        gate.put(world, 0, &call);
    }
    for i in in_order(vec![0, 1, wrap, len.saturating_sub(1), len, len + 1, BIG]) {
        for call in [
            Call::Get(i),
            Call::Truncate(i),
            Call::TruncateFront(i),
            Call::Insert(i, 9),
            Call::Remove(i),
            Call::SwapRemoveFront(i),
            Call::SwapRemoveBack(i),
        ] {
            gate.put(world, 0, &call);
        }
    }
    for n in in_order(vec![0, len.saturating_sub(1), len, len + 1, CAPS[0], CAPS[0] + 1, BIG]) {
        gate.put(world, 0, &Call::Resize(n, 9));
    }
    for (i, j) in [(0, 0), (0, len.saturating_sub(1)), (wrap, 0), (0, len), (len, 0), (BIG, 0), (0, BIG)] {
        gate.put(world, 0, &Call::Swap(i, j));
    }
    let room = CAPS[0] - len;
    for n in in_order(vec![0, 1, room.saturating_sub(1), room, room + 1]) {
        [Call::Extend(new_values(n)), Call::Prepend(new_values(n)), Call::ExtendFront(new_values(n))]
            .iter()
            .for_each(|c| gate.put(world, 0, c));
    }
    for k in [9, 10, 13, 16, 17, 18, u32::MAX] {
        [Call::Contains(k), Call::BinarySearch(k)].iter().for_each(|c| gate.put(world, 0, c));
    }
    for k in [10, 13, 16] {
        for t in Test::all(k) {
            [Call::PartitionPoint(t), Call::PopFrontIf(t), Call::PopBackIf(t), Call::Retain(t)]
                .iter()
                .for_each(|c| gate.put(world, 0, c));
        }
    }
}

/// Ranges that fit and that don't.
fn ranges(len: usize, wrap: usize) -> Vec<(usize, usize)> {
    let one = len.min(1);
    let mut all = vec![
        (0, 0),
        (0, one),
        (0, len),
        (len, len),
        (len - one, len),
        (one, len),
        (0, wrap),
        (wrap, len),
        (one, wrap),
        (wrap, wrap),
    ];
    all.extend([(1, 0), (0, len + 1), (len + 1, len + 1), (BIG, BIG), (0, BIG), (BIG, 0)]);
    all.sort_unstable();
    all.dedup();
    all
}

/// The calls that take a range: runs, drains closed at once, splices by less, as much and more, up to one too many.
fn range_calls(gate: &mut Stream, world: &World, len: usize, wrap: usize) {
    for (start, end) in ranges(len, wrap) {
        [Call::Ranges(start, end), Call::FrontRun(start, end), Call::BackRun(start, end)]
            .iter()
            .for_each(|c| gate.put(world, 0, c));
        gate.put(world, 0, &Call::DrainOpen(start, end));
        let fits = start <= end && end <= len;
        if fits {
            gate.go(0, &Call::DrainClose);
        }
        let d = if fits { end - start } else { 0 };
        let room = CAPS[0] - len + d;
        for r in in_order(vec![0, 1, d.saturating_sub(1), d, room, room + 1]) {
            gate.put(world, 0, &Call::Splice(start, end, new_values(r)));
        }
    }
}

/// The calls on two queues, called on either, with every record of B.
fn two_queue_calls(gate: &mut Stream, world: &World) {
    let len = world.0[0].len;
    for (head, n) in exhaustive::records(CAPS[1]) {
        let mut world = world.clone();
        (world.0[1].head, world.0[1].len) = (head, n);
        for q in 0..2 {
            [Call::Equal, Call::Compare, Call::Append].iter().for_each(|c| gate.put(&world, q, c));
        }
    }
    for at in in_order(vec![0, len.saturating_sub(3), len.saturating_sub(2), len.saturating_sub(1), len, len + 1, BIG])
    {
        gate.put(world, 0, &Call::SplitOff(at));
    }
    for at in [0, 1, 2, 3, BIG] {
        gate.put(world, 1, &Call::SplitOff(at));
    }
}

/// One of each call on B, in every record of it; lists that are equal to A's, and that begin it.
fn small_queue(gate: &mut Stream) {
    for (head, len) in exhaustive::records(CAPS[1]) {
        let mut world = planted(CAPS[0], 6, 2);
        (world.0[1].head, world.0[1].len) = (head, len);
        one_of_each().iter().for_each(|c| gate.put(&world, 1, c));
        for change in 0..3 {
            for i in 0..2 {
                world.0[1].slots[model::place(2, head, i)] = 16 + i as u32 + u32::from(i == change);
            }
            for q in 0..2 {
                [Call::Equal, Call::Compare].iter().for_each(|c| gate.put(&world, q, c));
            }
        }
    }
}
