//! A walk: a record of its own and two ends, over slots that it only reads.

use super::places::place;
use super::{Verdict, check, good_record, slots_fit};
use crate::calls::Walk;
use crate::world::{Answer, Queue};

/// A walk over the whole list.
pub fn begin(queue: &mut Queue) -> Verdict {
    check(queue)?;
    queue.walk = Some(Walk { head: queue.head, len: queue.len, mark: queue.mark, low: 0, high: queue.len });
    Ok((0, Answer::Silent))
}

/// Refusal 2 of a walk.
pub fn good(cap: usize, w: &Walk) -> bool {
    good_record(cap, w.head, w.len) && w.low <= w.high && w.high <= w.len
}

/// Hands over one end's element, if any is left, and moves that end.
fn step(queue: &mut Queue, from_back: bool) -> Verdict {
    let Some(w) = queue.walk else { return Ok((0, Answer::Nothing)) };
    slots_fit(queue.cap())?;
    if !good(queue.cap(), &w) {
        return Err(2);
    }
    if w.low == w.high {
        return Ok((0, Answer::Nothing));
    }
    let (i, left) =
        if from_back { (w.high - 1, Walk { high: w.high - 1, ..w }) } else { (w.low, Walk { low: w.low + 1, ..w }) };
    queue.walk = Some(left);
    Ok((0, Answer::Number(queue.slots[place(queue.cap(), w.head, i)])))
}

/// The element at the low end.
pub fn next(queue: &mut Queue) -> Verdict {
    step(queue, false)
}

/// The element at the high end.
pub fn next_back(queue: &mut Queue) -> Verdict {
    step(queue, true)
}
