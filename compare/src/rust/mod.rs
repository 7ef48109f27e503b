//! Rust's own VecDeque behind one trait: the given text of 1.97.0 and the std of the installed toolchain.

mod ask;
mod given;
mod installed;

pub use ask::{Heard, Rust, quiet_panics};
pub use given::Given;
pub use installed::Installed;

use crate::calls::{Call, Drain};
use crate::world::Answer;
use std::cmp::Ordering;

/// What is done with a drain once it stands at its record.
#[derive(Clone, Copy, PartialEq, Eq)]
pub enum Step {
    Look,
    Next,
    NextBack,
    Close,
}

/// A VecDeque<u32> that can be set to any state and looked into. Its calls panic where the Rust panics.
pub trait Engine: Sized {
    /// The engine's name in tables.
    const NAME: &'static str;
    /// A queue over exactly these slots, with this good record.
    fn make(slots: &[u32], head: usize, len: usize) -> Self;
    /// The slot where the list begins.
    fn head(&mut self) -> usize;
    /// The number of elements.
    fn len(&self) -> usize;
    /// Every slot, whether it holds an element or not.
    fn slots(&self) -> &[u32];
    /// Whether a call took a larger buffer.
    fn grown(&self) -> bool;
    /// The two runs of start..end.
    fn ranges(&self, start: usize, end: usize) -> [usize; 4];
    /// A call on one queue's list.
    fn one(&mut self, call: &Call) -> Answer;
    /// The other's elements go behind.
    fn append(&mut self, other: &mut Self);
    /// The elements from at on, as they stand in a buffer of their own from slot 0.
    fn split_off(&mut self, at: usize) -> Vec<u32>;
    /// The first n elements of the other, which has as many, go behind.
    fn take_front_of(&mut self, other: &mut Self, n: usize);
    /// Equality of the lists.
    fn equal(&self, other: &Self) -> bool;
    /// Lexicographic order of the lists.
    fn compare(&self, other: &Self) -> Ordering;
    /// Opens a drain of start..end, takes so many from its front and its back, does the step, and says what that handed
    /// and the record then.
    fn drain(&mut self, range: [usize; 2], taken: [usize; 2], step: Step) -> (Option<u32>, Option<Drain>);
    /// One step of an iterator over low..high: what it handed and how many are left.
    fn walk(&self, low: usize, high: usize, from_back: bool) -> (Option<u32>, usize);
}

/// The record that a drain's own Debug shows: `Drain(drain_len, idx, tail_len, remaining)`.
fn shown(debug: &str, head: usize, start: usize) -> Drain {
    let inner = debug.strip_prefix("Drain(").and_then(|s| s.strip_suffix(')')).expect("a drain's Debug");
    let numbers: Vec<usize> = inner.split(", ").map(|n| n.parse().expect("a number")).collect();
    let [drain_len, idx, tail_len, remaining] = numbers[..] else { panic!("four numbers") };
    Drain { head, start, drain_len, idx, tail_len, remaining }
}

/// The calls of the trait that read the same for both VecDeques, over a field `deque`.
macro_rules! calls_of_the_rust {
    () => {
        fn len(&self) -> usize {
            self.deque.len()
        }

        fn one(&mut self, call: &Call) -> Answer {
            let number = |v: Option<u32>| v.map_or(Answer::Nothing, Answer::Number);
            let d = &mut self.deque;
            match call {
                Call::PushBack(v) => d.push_back(*v),
                Call::PushFront(v) => d.push_front(*v),
                Call::PopFront => return number(d.pop_front()),
                Call::PopBack => return number(d.pop_back()),
                Call::PopFrontIf(t) => return number(d.pop_front_if(|v| t.met(*v))),
                Call::PopBackIf(t) => return number(d.pop_back_if(|v| t.met(*v))),
                Call::Get(i) => return number(d.get(*i).copied()),
                Call::Front => return number(d.front().copied()),
                Call::Back => return number(d.back().copied()),
                Call::Truncate(n) => d.truncate(*n),
                Call::TruncateFront(n) => d.truncate_front(*n),
                Call::Clear => d.clear(),
                Call::Extend(values) => d.extend(values.iter()),
                Call::Prepend(values) => d.prepend(values.clone()),
                Call::ExtendFront(values) => d.extend_front(values.clone()),
                Call::Resize(n, v) => d.resize(*n, *v),
                Call::Insert(i, v) => d.insert(*i, *v),
                Call::Remove(i) => return number(d.remove(*i)),
                Call::Swap(i, j) => d.swap(*i, *j),
                Call::SwapRemoveFront(i) => return number(d.swap_remove_front(*i)),
                Call::SwapRemoveBack(i) => return number(d.swap_remove_back(*i)),
                Call::Retain(t) => d.retain(|v| t.met(*v)),
                Call::Contains(x) => return Answer::Truth(d.contains(x)),
                Call::Ranges(s, e) => return Answer::Runs(self.ranges(*s, *e)),
                Call::FrontRun(s, e) => {
                    let [a, b, _, _] = self.ranges(*s, *e);
                    return Answer::Part(self.slots()[a..b].to_vec());
                }
                Call::BackRun(s, e) => {
                    let [_, _, c, d] = self.ranges(*s, *e);
                    return Answer::Part(self.slots()[c..d].to_vec());
                }
                Call::BinarySearch(x) => return d.binary_search(x).map_or_else(Answer::Place, Answer::Found),
                Call::PartitionPoint(t) => return Answer::Count(d.partition_point(|v| t.met(*v))),
                Call::Splice(s, e, values) => drop(d.splice(*s..*e, values.clone())),
                _ => unreachable!("not a call on one list"),
            }
            Answer::Silent
        }

        fn append(&mut self, other: &mut Self) {
            self.deque.append(&mut other.deque)
        }

        fn split_off(&mut self, at: usize) -> Vec<u32> {
            let other = self.deque.split_off(at);
            assert!(other.capacity() == other.len() && other.as_slices().1.is_empty(), "a buffer filled from slot 0");
            other.into()
        }

        fn take_front_of(&mut self, other: &mut Self, n: usize) {
            self.deque.extend(other.deque.drain(..n))
        }

        fn equal(&self, other: &Self) -> bool {
            self.deque == other.deque
        }

        fn compare(&self, other: &Self) -> Ordering {
            self.deque.cmp(&other.deque)
        }

        fn drain(&mut self, range: [usize; 2], taken: [usize; 2], step: Step) -> (Option<u32>, Option<Drain>) {
            let mut drain = self.deque.drain(range[0]..range[1]);
            drain.by_ref().take(taken[0]).for_each(|_| ());
            drain.by_ref().rev().take(taken[1]).for_each(|_| ());
            let handed = match step {
                Step::Next => drain.next(),
                Step::NextBack => drain.next_back(),
                Step::Look | Step::Close => None,
            };
            let debug = format!("{drain:?}");
            if step == Step::Close {
                drop(drain);
                return (None, None);
            }
            // Kept from closing, so that the queue's len is still the drain's start.
            std::mem::forget(drain);
            (handed, Some($crate::rust::shown(&debug, self.head(), self.deque.len())))
        }

        fn walk(&self, low: usize, high: usize, from_back: bool) -> (Option<u32>, usize) {
            let mut iter = self.deque.range(low..high);
            let handed = if from_back { iter.next_back() } else { iter.next() };
            (handed.copied(), iter.len())
        }
    };
}
pub(crate) use calls_of_the_rust;
