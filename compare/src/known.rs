//! The differences between document 01 and the Rust where both accept a call, and where ours alone refuses it since a
//! move is open: when each occurs, as a test of the input.

use crate::calls::Call;
use crate::model;
use crate::numbers;
use crate::world::{Queue, World};
use std::cmp::Ordering;
use std::ops::RangeInclusive;

/// What a difference shows in.
#[derive(Clone, Copy, Debug, PartialEq, Eq)]
pub enum Shows {
    /// Slots that hold no element after the call; list, record and answer are the same.
    LeftOverSlots,
    /// The answer; record and slots are the same.
    TheAnswer,
}

/// A difference: in which call, when exactly, and what it shows in.
pub struct Known {
    pub call: &'static str,
    pub when: &'static str,
    pub shows: Shows,
    holds: fn(&Queue, &[u32], &Call) -> bool,
}

/// Every difference that is known.
pub const KNOWN: [Known; 7] = [
    Known {
        call: "retain",
        when: "an element is kept behind a rejected one",
        shows: Shows::LeftOverSlots,
        holds: retain,
    },
    Known {
        call: "swap_remove_front",
        when: "0 < i < len and element i is not equal to the front element",
        shows: Shows::LeftOverSlots,
        holds: swap_remove_front,
    },
    Known {
        call: "swap_remove_back",
        when: "i < len - 1 and element i is not equal to the back element",
        shows: Shows::LeftOverSlots,
        holds: swap_remove_back,
    },
    Known {
        call: "splice",
        when: "r < d, start + r < t, and for some p with start <= p < start + r and p < d - r the new element p - start is not equal to element p",
        shows: Shows::LeftOverSlots,
        holds: splice,
    },
    Known {
        call: "binary_search",
        when: "the run searched is sorted and x stands in it more than once",
        shows: Shows::TheAnswer,
        holds: search_sorted,
    },
    Known {
        call: "binary_search",
        when: "the run searched is not sorted and the two halvings of it end differently",
        shows: Shows::TheAnswer,
        holds: search_unsorted,
    },
    Known {
        call: "partition_point",
        when: "the run searched is not parted by the test and the two halvings of it end differently",
        shows: Shows::TheAnswer,
        holds: partition_unparted,
    },
];

/// The difference that occurs for this input, if one does. The queue's record is good and the call is accepted.
pub fn which(queue: &Queue, call: &Call) -> Option<&'static Known> {
    let of_this_call: Vec<&Known> = KNOWN.iter().filter(|k| k.call == call.name()).collect();
    let list = if of_this_call.is_empty() { vec![] } else { model::list(queue) };
    of_this_call.into_iter().find(|k| (k.holds)(queue, &list, call))
}

/// The numbers of the calls that can change the list or the record of the queue called on, and take that record.
const CHANGES: [RangeInclusive<usize>; 4] = [
    numbers::PUSH_BACK..=numbers::POP_BACK_IF,
    numbers::TRUNCATE..=numbers::RETAIN,
    numbers::SPLICE..=numbers::DRAIN_OPEN,
    numbers::MOVE_ALL..=numbers::MOVE_PORTION,
];

/// Whether a call is refused with 6: it can change the queue called on, and that one's mark stands; or it is append,
/// which changes the other, too, and the other's stands. Refusals 1 and 2 come first.
pub fn move_open(world: &World, q: usize, call: &Call) -> bool {
    let (mine, other) = (&world.0[q], &world.0[1 - q]);
    if !mine.mark && !other.mark {
        return false;
    }
    let good = |q: &Queue| q.cap() <= model::LIMIT && model::good_record(q.cap(), q.head, q.len);
    let changes = CHANGES.iter().any(|numbers| numbers.contains(&call.words().0));
    changes && good(mine) && (mine.mark || (matches!(call, Call::Append) && good(other)))
}

/// The kept elements aren't the first ones of the list, so that the Rust swaps rejected ones to its end.
fn retain(_: &Queue, list: &[u32], call: &Call) -> bool {
    let Call::Retain(t) = call else { return false };
    list.iter().skip_while(|&&v| t.met(v)).any(|&v| t.met(v))
}

/// The Rust swaps the removed element into the front slot before it pops.
fn swap_remove_front(_: &Queue, list: &[u32], call: &Call) -> bool {
    let Call::SwapRemoveFront(i) = call else { return false };
    list.get(*i).is_some_and(|&v| v != list[0])
}

/// The Rust swaps the removed element into the back slot before it pops.
fn swap_remove_back(_: &Queue, list: &[u32], call: &Call) -> bool {
    let Call::SwapRemoveBack(i) = call else { return false };
    list.get(*i).is_some_and(|&v| v != list[list.len() - 1])
}

/// The Rust writes the new elements where the old ones stood and then moves them on, out of slots that end up left
/// over.
fn splice(_: &Queue, list: &[u32], call: &Call) -> bool {
    let Call::Splice(start, end, new) = call else { return false };
    let (r, d, t) = (new.len(), end - start, list.len() - end);
    r < d && start + r < t && (*start..(start + r).min(d - r)).any(|p| new[p - start] != list[p])
}

/// The Rust's halving in a run, that of core's slices: it keeps the last place that is not greater.
fn rust_halve(run: &[u32], look: impl Fn(u32) -> Ordering) -> Result<usize, usize> {
    if run.is_empty() {
        return Err(0);
    }
    let (mut base, mut size) = (0, run.len());
    while size > 1 {
        let half = size / 2;
        if look(run[base + half]) != Ordering::Greater {
            base += half;
        }
        size -= half;
    }
    match look(run[base]) {
        Ordering::Equal => Ok(base),
        Ordering::Less => Err(base + 1),
        Ordering::Greater => Err(base),
    }
}

/// Document 01's halving of low..high in a run, written a second time so that the conditions don't lean on the model's.
fn our_halve(run: &[u32], less: &dyn Fn(u32) -> bool, low: usize, high: usize) -> usize {
    let look = low + (high - low) / 2;
    match () {
        _ if low == high => low,
        _ if less(run[look]) => our_halve(run, less, look + 1, high),
        _ => our_halve(run, less, low, look),
    }
}

/// The run in which x is searched, unless the back run begins with it.
fn run_for<'a>(queue: &Queue, list: &'a [u32], x: u32) -> Option<&'a [u32]> {
    model::searched_run(queue.cap(), queue.head, list, |v| v.cmp(&x)).1
}

/// Document 01's halving comes to the first of the equal elements, the Rust's to the last.
fn search_sorted(queue: &Queue, list: &[u32], call: &Call) -> bool {
    let Call::BinarySearch(x) = call else { return false };
    run_for(queue, list, *x).is_some_and(|run| run.is_sorted() && run.iter().filter(|&v| v == x).count() > 1)
}

/// The two halvings look at other elements, and come to another place, or one of them finds x and the other doesn't.
fn search_unsorted(queue: &Queue, list: &[u32], call: &Call) -> bool {
    let Call::BinarySearch(x) = call else { return false };
    run_for(queue, list, *x).is_some_and(|run| {
        let low = our_halve(run, &|v| v < *x, 0, run.len());
        let ours = if run.get(low) == Some(x) { Ok(low) } else { Err(low) };
        !run.is_sorted() && ours != rust_halve(run, |v| v.cmp(x))
    })
}

/// The two halvings look at other elements and come to another place.
fn partition_unparted(queue: &Queue, list: &[u32], call: &Call) -> bool {
    let Call::PartitionPoint(t) = call else { return false };
    let look = |v| model::test_order(*t, v);
    model::searched_run(queue.cap(), queue.head, list, look).1.is_some_and(|run| {
        let parted = run.iter().is_partitioned(|&v| t.met(v));
        !parted && Err(our_halve(run, &|v| t.met(v), 0, run.len())) != rust_halve(run, look)
    })
}
