//! `binary_search` and `partition_point`: one look at the back run, then halving in one of the two runs.

use super::places::runs;
use crate::calls::Test;
use crate::world::Answer;
use std::cmp::Ordering;

/// Halving: low 0, high n; a look that is less sets low one past it, any other sets high to it. Ends at low.
fn halve(run: &[u32], mut less: impl FnMut(u32) -> bool) -> usize {
    let (mut low, mut high) = (0, run.len());
    while low < high {
        let mid = low + (high - low) / 2;
        if less(run[mid]) { low = mid + 1 } else { high = mid }
    }
    low
}

/// The run in which the halving goes on, and how many elements stand before it; None if the back run begins with a
/// match.
pub fn searched_run(cap: usize, head: usize, list: &[u32], look: impl Fn(u32) -> Ordering) -> (usize, Option<&[u32]>) {
    let [a, b, _, _] = runs(cap, head, 0, list.len());
    let (front, back) = list.split_at(b - a);
    match back.first().map(|&v| look(v)) {
        Some(Ordering::Equal) => (front.len(), None),
        Some(Ordering::Less) => (front.len(), Some(back)),
        _ => (0, Some(front)),
    }
}

/// Where x stands, or where it would go.
pub fn binary_search(cap: usize, head: usize, list: &[u32], x: u32) -> Answer {
    let (before, run) = searched_run(cap, head, list, |v| v.cmp(&x));
    let Some(run) = run else { return Answer::Found(before) };
    let low = halve(run, |v| v < x);
    match run.get(low) {
        Some(&v) if v == x => Answer::Found(before + low),
        _ => Answer::Place(before + low),
    }
}

/// A met test stands for less, an unmet one for greater.
pub fn test_order(test: Test, v: u32) -> Ordering {
    if test.met(v) { Ordering::Less } else { Ordering::Greater }
}

/// How many elements meet the test, on a list parted by it.
pub fn partition_point(cap: usize, head: usize, list: &[u32], test: Test) -> Answer {
    let (before, run) = searched_run(cap, head, list, |v| test_order(test, v));
    Answer::Count(before + halve(run.unwrap_or(&[]), |v| test.met(v)))
}
