//! The standard library's traits.
mod common;

use common::{wrapped, LAID};
use scorebucket::{Drain, Iter, Queue, Refusal};
use std::cmp::Ordering;
use std::collections::VecDeque;
use std::hash::{BuildHasher, RandomState};
use std::iter::FusedIterator;
use std::panic::{catch_unwind, RefUnwindSafe};

/// The same list as `wrapped`'s, from the first slot on.
fn straight(slots: &mut [u32; 4]) -> Queue<'_> {
    let mut queue = Queue::new(slots).unwrap();
    queue.extend(&[10, 20, 30, 40]).unwrap();
    queue
}

#[test]
fn shows_itself_as_a_list() {
    let mut slots = LAID;
    let mut queue = wrapped(&mut slots);
    assert_eq!(format!("{queue:?}"), "[10, 20, 30, 40]");
    assert_eq!(format!("{:?}", queue.drain(1..)), "Ok(Drain { remaining: 3, .. })");
    queue.clear().unwrap();
    assert_eq!(format!("{queue:?}"), "[]");
}

#[test]
fn equal_wherever_it_stands() {
    let (mut slots, mut others) = (LAID, [0; 4]);
    let queue = wrapped(&mut slots);
    let mut other = straight(&mut others);
    let hashes = RandomState::new();
    assert_eq!(queue, other);
    assert_eq!(hashes.hash_one(&queue), hashes.hash_one(&other));
    assert_eq!(hashes.hash_one(&queue), hashes.hash_one(VecDeque::from([10, 20, 30, 40])));
    other.swap(0, 1).unwrap();
    assert_ne!(queue, other);
    assert_ne!(hashes.hash_one(&queue), hashes.hash_one(&other));
}

#[test]
fn equal_to_a_list() {
    let mut slots = LAID;
    let queue = wrapped(&mut slots);
    assert!(queue == [10, 20, 30, 40]);
    assert!(queue == [10, 20, 30, 40][..]);
    let lent: &[u32] = &[10, 20, 30, 40];
    assert!(queue == lent);
    assert!(queue != [10, 20, 30]);
    assert!(queue != [10, 20, 30, 40, 50]);
    assert!(queue != [10, 20, 30, 41]);
    assert!(queue != vec![10; 16_001][..]);
}

#[test]
fn ordered_as_lists_are() {
    let (mut slots, mut others) = (LAID, [0; 4]);
    let queue = wrapped(&mut slots);
    let mut other = straight(&mut others);
    assert_eq!(queue.cmp(&other), Ordering::Equal);
    other.truncate(3).unwrap();
    assert!(queue > other);
    other.push_back(41).unwrap();
    assert!(queue < other);
    assert_eq!(queue.partial_cmp(&other), Some(Ordering::Less));
    assert_eq!((&queue).max(&other), &other);
}

#[test]
fn indexed() {
    let mut slots = LAID;
    let queue = wrapped(&mut slots);
    assert_eq!([queue[0], queue[1], queue[2], queue[3]], [10, 20, 30, 40]);
    for past in [4, usize::MAX] {
        let message = *catch_unwind(|| queue[past]).unwrap_err().downcast::<String>().unwrap();
        assert_eq!(message, format!("there is no position {past} in a queue of 4 elements"));
    }
}

#[test]
fn iterated() {
    let mut slots = LAID;
    let queue = wrapped(&mut slots);
    let mut list = Vec::new();
    for x in &queue {
        list.push(x);
    }
    assert_eq!(list, [10, 20, 30, 40]);
    let mut iter = queue.iter();
    assert_eq!((iter.by_ref().count(), iter.next(), iter.next_back(), iter.next()), (4, None, None, None));
}

/// Every element from either end by every way to take it, beside the same of a `VecDeque`.
#[test]
fn iterated_from_both_ends() {
    let mut slots = LAID;
    let queue = wrapped(&mut slots);
    let model = VecDeque::from([10, 20, 30, 40]);
    for front in 0..6 {
        for back in 0..6 {
            let mut ours = queue.iter();
            let mut theirs = model.iter().copied();
            assert_eq!(ours.nth(front), theirs.nth(front));
            assert_eq!(ours.nth_back(back), theirs.nth_back(back));
            assert_eq!((ours.len(), ours.size_hint()), (theirs.len(), theirs.size_hint()));
            assert_eq!(ours.clone().last(), theirs.clone().last());
            assert!(ours.clone().eq(theirs.clone()));
            assert!(ours.clone().rev().eq(theirs.clone().rev()));
            let chain = |text: String, x| format!("{text} {x}");
            assert_eq!(ours.clone().fold(String::new(), chain), theirs.clone().fold(String::new(), chain));
            assert_eq!(ours.clone().rfold(String::new(), chain), theirs.clone().rfold(String::new(), chain));
            assert_eq!((ours.next_back(), ours.next()), (theirs.next_back(), theirs.next()));
            assert_eq!((ours.next(), ours.next_back()), (theirs.next(), theirs.next_back()));
        }
    }
}

/// What a program may do with each type, as with the standard library's.
#[test]
fn bounds() {
    fn may_cross_threads<T: Send + Sync>() {}
    fn is_a_whole_iterator<I: DoubleEndedIterator + ExactSizeIterator + FusedIterator>() {}
    fn may_be_looked_at_after_a_panic<T: RefUnwindSafe>() {}
    may_cross_threads::<Queue<'_>>();
    may_cross_threads::<Drain<'_, '_>>();
    may_cross_threads::<Iter<'_>>();
    may_cross_threads::<Refusal>();
    is_a_whole_iterator::<Drain<'_, '_>>();
    is_a_whole_iterator::<Iter<'_>>();
    may_be_looked_at_after_a_panic::<Queue<'_>>();
}
