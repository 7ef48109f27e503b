//! The gate's open marks and moves into another region.

use super::{BIG, CAPS};
use crate::calls::{Call, Test};
use crate::exhaustive::{both_calls, in_order, new_values, one_of_each, planted};
use crate::stream::Stream;

/// Calls that a queue of len elements refuses with 3 or 4, answers with Nothing, or is left by as it is: the mark comes
/// before all that.
fn without_effect(len: usize) -> Vec<Call> {
    let too_many = new_values(CAPS[0] + 1);
    vec![
        Call::PopFrontIf(Test::Below(0)),
        Call::PopBackIf(Test::Below(0)),
        Call::Get(len),
        Call::Truncate(len),
        Call::TruncateFront(BIG),
        Call::Extend(vec![]),
        Call::Prepend(vec![]),
        Call::ExtendFront(vec![]),
        Call::Extend(too_many.clone()),
        Call::Prepend(too_many.clone()),
        Call::ExtendFront(too_many.clone()),
        Call::Resize(len, 100),
        Call::Resize(BIG, 100),
        Call::Insert(len + 1, 100),
        Call::Insert(BIG, 100),
        Call::Remove(len),
        Call::Swap(0, len),
        Call::Swap(BIG, 0),
        Call::SwapRemoveFront(len),
        Call::SwapRemoveBack(BIG),
        Call::SplitOff(len),
        Call::SplitOff(len + 1),
        Call::Retain(Test::AtLeast(0)),
        Call::Ranges(0, len + 1),
        Call::FrontRun(0, len),
        Call::BackRun(0, len),
        Call::Splice(1, 0, vec![]),
        Call::Splice(0, 0, vec![]),
        Call::Splice(0, 0, too_many),
        Call::DrainOpen(1, 0),
        Call::DrainOpen(0, len + 1),
        Call::MovePortion(0),
        Call::MovePortion(BIG),
        Call::ImageWrite(2),
        Call::ImageRead(vec![0, 1, 2]),
    ]
}

/// Every call on a marked queue, empty, wrapped and full, and the calls on two queues beside it; 2 before 6.
pub fn marked(gate: &mut Stream) {
    for (head, len) in [(5, 0), (6, 5), (5, 8)] {
        let mut world = planted(CAPS[0], head, len);
        world.0[0].mark = true;
        one_of_each().iter().chain(&without_effect(len)).for_each(|c| gate.put(&world, 0, c));
        both_calls().iter().for_each(|c| gate.put(&world, 1, c));
        world.0[1].mark = true;
        for q in 0..2 {
            both_calls().iter().for_each(|c| gate.put(&world, q, c));
        }
    }
    let mut bad = planted(CAPS[0], CAPS[0], 0);
    bad.0[0].mark = true;
    one_of_each().iter().for_each(|c| gate.put(&bad, 0, c));
    both_calls().iter().for_each(|c| gate.put(&bad, 1, c));
}

/// A and B with these records; the queue that q is moved into is marked before every other portion.
fn move_both_ways(gate: &mut Stream, a: (usize, usize), b: (usize, usize)) {
    let mut world = planted(CAPS[0], a.0, a.1);
    (world.0[1].head, world.0[1].len) = b;
    for q in 0..2 {
        gate.put(&world, q, &Call::MoveAll);
        let room = world.0[1 - q].cap() - world.0[1 - q].len;
        let portions = in_order(vec![0, 1, room, room + 1, world.0[q].len, BIG]);
        for (k, n) in portions.into_iter().enumerate() {
            let mut world = world.clone();
            world.0[1 - q].mark = k % 2 == 1;
            gate.put(&world, q, &Call::MovePortion(n));
        }
    }
}

/// Single moves between A and B, which has fewer slots: empty, straight, wrapped and full ones.
pub fn single_moves(gate: &mut Stream) {
    for a in [(5, 0), (7, 1), (6, 5), (0, 8)] {
        for b in [(1, 0), (1, 1), (1, 2)] {
            move_both_ways(gate, a, b);
        }
    }
}

/// Moves of B into A in portions until B is empty, each beside the whole move; between the portions A is looked at and
/// refuses a pop.
pub fn carried_on(gate: &mut Stream) {
    for (from, to, portions) in [(0, 0, vec![1, 1]), (1, 0, vec![0, 1, 0, 1]), (1, 6, vec![1, 2]), (0, 7, vec![2])] {
        let mut world = planted(CAPS[0], to, 0);
        world.0[1].head = from;
        gate.put(&world, 1, &Call::MoveAll);
        gate.bring_to(&world);
        for n in portions {
            gate.go(1, &Call::MovePortion(n));
            [Call::Front, Call::Equal, Call::PopFront].iter().for_each(|c| gate.go(0, c));
        }
    }
    too_large_for_the_new_one(gate);
    into_each_other(gate);
}

/// Three elements of A into B's two slots: the third portion is refused, and the mark stays until one leaves A empty.
fn too_large_for_the_new_one(gate: &mut Stream) {
    gate.bring_to(&planted(CAPS[0], 7, 3));
    gate.go(1, &Call::Fresh);
    (0..3).for_each(|_| gate.go(0, &Call::MovePortion(1)));
    for (q, call) in [(1, Call::PopBack), (0, Call::PopFront), (0, Call::MovePortion(BIG)), (1, Call::PopBack)] {
        gate.go(q, &call);
    }
}

/// Two queues moved into each other: neither goes back before the other has come whole. Then a mark set by hand is
/// cleared by a portion of elements that it was never set for.
fn into_each_other(gate: &mut Stream) {
    gate.bring_to(&planted(CAPS[0], 7, 1));
    gate.go(1, &Call::Fresh);
    for (q, call) in [
        (0, Call::MovePortion(0)),
        (1, Call::MovePortion(1)),
        (1, Call::MoveAll),
        (0, Call::MovePortion(1)),
        (1, Call::MovePortion(0)),
        (0, Call::MovePortion(BIG)),
        (0, Call::Append),
        (1, Call::Append),
        (1, Call::PushBack(9)),
        (1, Call::MovePortion(1)),
        (1, Call::MovePortion(1)),
        (0, Call::MovePortion(2)),
        (0, Call::PushBack(9)),
        (1, Call::SetRecord(1, 1, true)),
        (0, Call::MovePortion(1)),
        (1, Call::PushBack(9)),
    ] {
        gate.go(q, &call);
    }
}
