//! How a place is found: positions, slots and the two runs of a range.

use crate::world::Queue;

/// The slot of position i: head + i, less cap if that is cap or more.
pub fn place(cap: usize, head: usize, i: usize) -> usize {
    let slot = head + i;
    if slot >= cap { slot - cap } else { slot }
}

/// The slot n steps before head.
pub fn step_back(cap: usize, head: usize, n: usize) -> usize {
    if head >= n { head - n } else { head + cap - n }
}

/// The list of a queue whose record is good.
pub fn list(queue: &Queue) -> Vec<u32> {
    stretch(queue, queue.head, 0, queue.len)
}

/// The values at positions from..to, counted from head.
pub fn stretch(queue: &Queue, head: usize, from: usize, to: usize) -> Vec<u32> {
    (from..to).map(|i| queue.slots[place(queue.cap(), head, i)]).collect()
}

/// The two runs of start..end, as slots a..b and c..d.
pub fn runs(cap: usize, head: usize, start: usize, end: usize) -> [usize; 4] {
    let n = end - start;
    if n == 0 {
        return [0; 4];
    }
    let w = place(cap, head, start);
    if cap - w >= n { [w, w + n, 0, 0] } else { [w, cap, 0, n - (cap - w)] }
}

/// Refusal 3 of a range.
pub fn range_fits(start: usize, end: usize, len: usize) -> Result<(), u8> {
    if start > end || end > len { Err(3) } else { Ok(()) }
}
