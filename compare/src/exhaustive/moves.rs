//! Open marks and moves into another region: marked queues, and both forms of the move in every pair of records.

use super::{BIG, Visit, hand_set, one_of_each, one_queue_calls, planted, records, two};
use crate::calls::Call;

/// The largest capacity of which queues are marked in every way.
const MARKED: usize = 3;

/// Marks of the queue called on and of the other.
const MARKS: [[bool; 2]; 4] = [[false, false], [false, true], [true, false], [true, true]];

/// Every call on a marked queue of cap slots, with good operands and bad ones; walks and bad records with a mark.
pub fn marked(cap: usize, visit: &mut Visit) {
    if cap > MARKED {
        return;
    }
    for (head, len) in records(cap) {
        let mut world = planted(cap, head, len);
        world.0[0].mark = true;
        one_queue_calls(cap, len, &mut |call| visit(&world, 0, call));
        one_of_each().iter().for_each(|c| visit(&world, 0, c));
    }
    hand_set::walks(cap, true, visit);
    MARKS[1..].iter().for_each(|&marks| hand_set::bad_records(cap, marks, visit));
}

/// Both forms of the move in every pair of records, either way round, and where the capacities are small the other
/// calls on two queues beside a mark. The larger ones have it on the queue that is moved into.
pub fn pairs(cap: usize, other: usize, visit: &mut Visit) {
    let marks = if cap <= MARKED { &MARKS[..] } else { &MARKS[..2] };
    for (a, b) in records(cap).flat_map(|a| records(other).map(move |b| (a, b))) {
        for q in 0..2 {
            for &[mine, others] in marks {
                let mut world = two(cap, a, other, b);
                (world.0[q].mark, world.0[1 - q].mark) = (mine, others);
                visit(&world, q, &Call::MoveAll);
                (0..=5).chain([BIG]).for_each(|n| visit(&world, q, &Call::MovePortion(n)));
                if cap <= MARKED && (mine || others) {
                    [Call::Append, Call::Equal, Call::Compare].iter().for_each(|c| visit(&world, q, c));
                    (0..=world.0[q].len + 1).chain([BIG]).for_each(|at| visit(&world, q, &Call::SplitOff(at)));
                }
            }
        }
    }
}
