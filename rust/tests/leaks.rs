//! A leaked drain counts as closed: whatever the next call is, it does the same as after a drain that was dropped.
mod common;

use common::{record, wrapped, LAID};
use scorebucket::{Queue, Test};
use std::collections::VecDeque;
use std::hash::{BuildHasher, BuildHasherDefault, DefaultHasher};
use std::panic::{catch_unwind, AssertUnwindSafe};
use std::sync::atomic::{AtomicUsize, Ordering};
use std::{mem, thread};

/// A call on a queue, and what it gave as text.
type Call = fn(&mut Queue<'_>) -> String;

/// What a call gave, and what it left in another queue.
macro_rules! text {
    ($($x:expr),+) => { format!("{:?}", ($($x),+)) };
}

/// A call with another queue that holds 1, 2.
fn with_other(call: impl FnOnce(&mut Queue<'_>) -> String) -> String {
    let mut slots = [0; 6];
    let mut other = Queue::new(&mut slots).unwrap();
    other.extend(&[1, 2]).unwrap();
    let answer = call(&mut other);
    text!(answer, other.record(), other.slots(), other.moved())
}

/// Every method and trait of a queue.
const CALLS: [(&str, Call); 58] = [
    ("len", |q| text!(q.len())),
    ("is_empty", |q| text!(q.is_empty())),
    ("capacity", |q| text!(q.capacity())),
    ("record", |q| text!(q.record())),
    ("slots", |q| text!(q.slots())),
    ("moved", |q| text!(q.moved())),
    ("get", |q| text!(q.get(0))),
    ("front", |q| text!(q.front())),
    ("back", |q| text!(q.back())),
    ("contains", |q| text!(q.contains(20))),
    ("binary_search", |q| text!(q.binary_search(40))),
    ("partition_point", |q| text!(q.partition_point(Test::Below(40)))),
    ("slices", |q| text!(q.slices(..1))),
    ("as_slices", |q| text!(q.as_slices())),
    ("iter", |q| text!(q.iter().collect::<Vec<_>>())),
    ("write_image", |q| {
        let mut bytes = [0; 20];
        text!(q.write_image(&mut bytes), bytes)
    }),
    ("Debug", |q| text!(q)),
    ("Index", |q| text!(catch_unwind(AssertUnwindSafe(|| q[0])).ok())),
    ("IntoIterator", |q| text!(q.into_iter().rev().collect::<Vec<_>>())),
    ("Hash", |q| text!(BuildHasherDefault::<DefaultHasher>::default().hash_one(q))),
    ("== a list", |q| text!(*q == [10, 40])),
    ("==", |q| with_other(|other| text!(q == other))),
    ("==, as the other", |q| with_other(|other| text!(other == q))),
    ("cmp", |q| with_other(|other| text!((*q).cmp(other)))),
    ("cmp, as the other", |q| with_other(|other| text!((*other).cmp(q)))),
    ("push_back", |q| text!(q.push_back(5))),
    ("push_front", |q| text!(q.push_front(5))),
    ("pop_front", |q| text!(q.pop_front())),
    ("pop_back", |q| text!(q.pop_back())),
    ("pop_front_if", |q| text!(q.pop_front_if(Test::Below(15)))),
    ("pop_back_if", |q| text!(q.pop_back_if(Test::Below(50)))),
    ("truncate", |q| text!(q.truncate(1))),
    ("truncate_front", |q| text!(q.truncate_front(1))),
    ("clear", |q| text!(q.clear())),
    ("swap", |q| text!(q.swap(0, 1))),
    ("swap_remove_front", |q| text!(q.swap_remove_front(1))),
    ("swap_remove_back", |q| text!(q.swap_remove_back(0))),
    ("insert", |q| text!(q.insert(1, 5))),
    ("remove", |q| text!(q.remove(1))),
    ("retain", |q| text!(q.retain(Test::AtLeast(20)))),
    ("extend", |q| text!(q.extend(&[1, 2, 3]))),
    ("prepend", |q| text!(q.prepend(&[1, 2, 3]))),
    ("extend_front", |q| text!(q.extend_front(&[1, 2, 3]))),
    ("resize", |q| text!(q.resize(3, 5))),
    ("resize, to no room", |q| text!(q.resize(7, 5))),
    ("append", |q| with_other(|other| text!(q.append(other)))),
    ("append, as the other", |q| with_other(|other| text!(other.append(q)))),
    ("split_off", |q| {
        let mut target = [0; 4];
        text!(q.split_off(1, &mut target).map(|split| (split.record(), split.moved())), target)
    }),
    ("is_move_open", |q| text!(q.is_move_open())),
    ("move_into", |q| {
        let mut target = [0; 4];
        text!(q.move_into(&mut target).map(|moved| (moved.record(), moved.moved())), target)
    }),
    ("move_portion", |q| with_other(|other| text!(q.move_portion(1, other)))),
    ("move_portion, as the target", |q| with_other(|other| text!(other.move_portion(1, q)))),
    ("drain", |q| text!(q.drain(1..).map(|drain| drain.collect::<Vec<_>>()))),
    ("drain, dropped at once", |q| text!(q.drain(..1).map(drop))),
    ("drain, leaked again", |q| text!(q.drain(..1).map(mem::forget))),
    ("drain, past the end", |q| text!(q.drain(..5).map(drop))),
    ("splice", |q| text!(q.splice(0..1, &[1, 2, 3]))),
    ("splice, past the end", |q| text!(q.splice(0..5, &[1]))),
];

/// Opens a drain, takes so many elements from its ends, and leaves it: by dropping or by leaking it.
fn left(queue: &mut Queue<'_>, start: usize, end: usize, front: usize, back: usize, leaked: bool) {
    let mut drain = queue.drain(start..end).unwrap();
    assert_eq!(drain.by_ref().take(front).count(), front);
    assert_eq!(drain.by_ref().rev().take(back).count(), back);
    if leaked {
        mem::forget(drain)
    }
}

/// Every range of the queue, and every number of elements that can be taken from its ends.
fn every_drain(mut each: impl FnMut(usize, usize, usize, usize)) {
    for end in 0..=4 {
        for start in 0..=end {
            for front in 0..=end - start {
                for back in 0..=end - start - front {
                    each(start, end, front, back);
                }
            }
        }
    }
}

#[test]
fn the_next_call_finds_it_closed() {
    for (name, call) in CALLS {
        every_drain(|start, end, front, back| {
            let outcome = |leaked| {
                let mut slots = LAID;
                let mut queue = wrapped(&mut slots);
                left(&mut queue, start, end, front, back, leaked);
                let answer = call(&mut queue);
                text!(answer, queue.moved(), queue.record(), queue.slots())
            };
            assert_eq!(outcome(true), outcome(false), "{name} after {start}..{end}, {front} and {back} taken");
        });
    }
}

/// The first call closes it, and the second finds nothing of it any more.
#[test]
fn and_so_does_every_call_after_it() {
    for (first, one) in CALLS {
        for (second, other) in CALLS {
            let outcome = |leaked| {
                let mut slots = LAID;
                let mut queue = wrapped(&mut slots);
                left(&mut queue, 1, 3, 1, 0, leaked);
                let answers = (one(&mut queue), other(&mut queue));
                text!(answers, queue.moved(), queue.record(), queue.slots())
            };
            assert_eq!(outcome(true), outcome(false), "{first}, then {second}");
        }
    }
}

#[test]
fn its_elements_are_out_as_in_the_standard_library() {
    every_drain(|start, end, front, back| {
        let mut slots = LAID;
        let mut queue = wrapped(&mut slots);
        left(&mut queue, start, end, front, back, true);
        let mut model = VecDeque::from([10, 20, 30, 40]);
        model.drain(start..end);
        assert!(model == queue.iter().collect::<Vec<_>>());
    });
}

#[test]
fn the_record_that_is_taken_out_is_the_closed_one() {
    let mut slots = LAID;
    let mut queue = wrapped(&mut slots);
    left(&mut queue, 1, 3, 1, 0, true);
    let closed = queue.record();
    assert_eq!(closed, record(4, 2));
    assert_eq!(Queue::with_record(&mut slots, closed).unwrap(), [10, 40]);
}

#[test]
fn a_queue_may_end_with_it() {
    let mut slots = LAID;
    left(&mut wrapped(&mut slots), 1, 3, 1, 0, true);
    assert_eq!(slots, LAID);
}

/// Two threads look at the same time: one of them closes the drain, and both see it closed, also if one of them asks
/// for the slots and the other for an element.
#[test]
fn two_threads_look_at_once() {
    for turn in 0..100 {
        let mut slots: Vec<u32> = (0..16_000).collect();
        let mut queue = Queue::with_record(&mut slots, record(0, 16_000)).unwrap();
        left(&mut queue, 7_999, 8_001, 1, 0, true);
        let (queue, ready) = (&queue, &AtomicUsize::new(0));
        let look = |by_slices| {
            ready.fetch_add(1, Ordering::SeqCst);
            while ready.load(Ordering::SeqCst) < 2 {
                thread::yield_now();
            }
            let run = if by_slices { queue.as_slices().0 } else { &[] };
            (queue.get(7_998), queue.get(7_999), queue.get(15_997), queue.len(), !by_slices || run[7_999] == 8_001)
        };
        thread::scope(|scope| {
            let other = scope.spawn(|| look(turn % 2 == 0));
            assert_eq!(look(false), (Some(7_998), Some(8_001), Some(15_999), 15_998, true));
            assert_eq!(other.join().unwrap(), (Some(7_998), Some(8_001), Some(15_999), 15_998, true));
        });
    }
}
