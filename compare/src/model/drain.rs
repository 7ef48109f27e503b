//! A drain: a record by value that hands elements over, and an explicit close.

use super::places::{place, range_fits, stretch};
use super::{Verdict, check_change, lay, slots_fit};
use crate::calls::Drain;
use crate::world::{Answer, Queue};

/// Refusal 2 of a drain record, in numbers too wide to overflow.
fn good(cap: usize, d: &Drain) -> bool {
    let sum = |parts: &[usize]| parts.iter().map(|&n| n as u128).sum::<u128>();
    (d.head < cap || (cap == 0 && d.head == 0))
        && sum(&[d.start, d.drain_len, d.tail_len]) <= cap as u128
        && d.start <= d.idx
        && sum(&[d.idx, d.remaining]) <= sum(&[d.start, d.drain_len])
}

/// The open drain's record after refusals 1 and 2.
fn checked(queue: &Queue) -> Result<Drain, u8> {
    let d = queue.drain.expect("a drain is open");
    slots_fit(queue.cap())?;
    if good(queue.cap(), &d) { Ok(d) } else { Err(2) }
}

/// Whether the queue's open drain has a good record.
pub fn is_good(queue: &Queue) -> bool {
    queue.drain.is_some_and(|d| good(queue.cap(), &d))
}

/// Opens a drain of start..end; nothing is handed over yet.
pub fn open(queue: &mut Queue, start: usize, end: usize) -> Verdict {
    check_change(queue)?;
    range_fits(start, end, queue.len)?;
    let (head, drain_len, tail_len) = (queue.head, end - start, queue.len - end);
    queue.drain = Some(Drain { head, start, drain_len, idx: start, tail_len, remaining: drain_len });
    Ok((0, Answer::Silent))
}

/// Hands over the element at position i of the drain's queue.
fn hand(queue: &mut Queue, i: usize, left: Drain) -> Verdict {
    let slot = place(queue.cap(), left.head, i);
    queue.drain = Some(left);
    Ok((0, Answer::Number(queue.slots[slot])))
}

/// Hands over the element at idx.
pub fn next(queue: &mut Queue) -> Verdict {
    let d = checked(queue)?;
    if d.remaining == 0 {
        return Ok((0, Answer::Nothing));
    }
    hand(queue, d.idx, Drain { idx: d.idx + 1, remaining: d.remaining - 1, ..d })
}

/// Hands over the last remaining element.
pub fn next_back(queue: &mut Queue) -> Verdict {
    let d = checked(queue)?;
    if d.remaining == 0 {
        return Ok((0, Answer::Nothing));
    }
    hand(queue, d.idx + d.remaining - 1, Drain { remaining: d.remaining - 1, ..d })
}

/// Closes the hole: the earlier elements move on if they are fewer, else the later ones move down.
pub fn close(queue: &mut Queue) -> Verdict {
    let d = checked(queue)?;
    let (t, tail_start) = (d.tail_len, d.start + d.drain_len);
    let mut kept = stretch(queue, d.head, 0, d.start);
    kept.extend(stretch(queue, d.head, tail_start, tail_start + t));
    let head = match () {
        _ if kept.is_empty() => 0,
        _ if d.start < t => place(queue.cap(), d.head, d.drain_len),
        _ => d.head,
    };
    lay(queue, head, &kept);
    queue.drain = None;
    Ok((if d.drain_len == 0 { 0 } else { d.start.min(t) }, Answer::Silent))
}
