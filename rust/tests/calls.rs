//! Every call once, on a queue whose list goes round the end.
mod common;

use common::{record, wrapped, LAID};
use scorebucket::{Queue, Test};

#[test]
fn new_is_empty() {
    let mut slots = [1, 2, 3];
    let queue = Queue::new(&mut slots).unwrap();
    assert!(queue.is_empty());
    assert_eq!((queue.len(), queue.capacity()), (0, 3));
    assert_eq!(queue.slots(), [1, 2, 3]);
}

#[test]
fn pushes_and_pops() {
    let mut slots = LAID;
    let mut queue = wrapped(&mut slots);
    queue.push_back(50).unwrap();
    queue.push_front(5).unwrap();
    assert_eq!(queue, [5, 10, 20, 30, 40, 50]);
    assert_eq!(queue.record(), record(3, 6));
    assert_eq!(queue.pop_front(), Ok(Some(5)));
    assert_eq!(queue.pop_back(), Ok(Some(50)));
    queue.clear().unwrap();
    assert_eq!(queue.record(), record(0, 0));
    assert_eq!((queue.pop_front(), queue.pop_back()), (Ok(None), Ok(None)));
}

#[test]
fn conditional_pops() {
    let mut slots = LAID;
    let mut queue = wrapped(&mut slots);
    assert_eq!(queue.pop_front_if(Test::Below(10)), Ok(None));
    assert_eq!(queue.pop_front_if(Test::AtLeast(10)), Ok(Some(10)));
    assert_eq!(queue.pop_back_if(Test::NotEqual(40)), Ok(None));
    assert_eq!(queue.pop_back_if(Test::Equal(40)), Ok(Some(40)));
    assert_eq!(queue, [20, 30]);
}

#[test]
fn looks() {
    let mut slots = LAID;
    let queue = wrapped(&mut slots);
    assert_eq!((queue.get(2), queue.get(4)), (Some(30), None));
    assert_eq!((queue.front(), queue.back()), (Some(10), Some(40)));
    assert_eq!((queue.contains(40), queue.contains(7)), (true, false));
    assert_eq!((queue.binary_search(30), queue.binary_search(31)), (Ok(2), Err(3)));
    assert_eq!(queue.partition_point(Test::Below(30)), 2);
    assert_eq!(queue.as_slices(), (&[10, 20][..], &[30, 40][..]));
    assert_eq!(queue.slices(1..=2), Ok((&[20][..], &[30][..])));
    assert_eq!(queue.iter().rev().collect::<Vec<_>>(), [40, 30, 20, 10]);
}

#[test]
fn cuts() {
    let mut slots = LAID;
    let mut queue = wrapped(&mut slots);
    queue.truncate(3).unwrap();
    queue.truncate_front(2).unwrap();
    assert_eq!(queue, [20, 30]);
}

#[test]
fn swaps() {
    let mut slots = LAID;
    let mut queue = wrapped(&mut slots);
    queue.swap(0, 3).unwrap();
    assert_eq!(queue, [40, 20, 30, 10]);
    assert_eq!(queue.moved(), 2);
    assert_eq!(queue.swap_remove_front(2), Ok(Some(30)));
    assert_eq!(queue, [20, 40, 10]);
    assert_eq!(queue.swap_remove_back(0), Ok(Some(20)));
    assert_eq!(queue, [10, 40]);
}

#[test]
fn middle() {
    let mut slots = LAID;
    let mut queue = wrapped(&mut slots);
    queue.insert(1, 15).unwrap();
    assert_eq!(queue, [10, 15, 20, 30, 40]);
    assert_eq!(queue.moved(), 1);
    assert_eq!((queue.remove(3), queue.moved()), (Ok(Some(30)), 1));
    queue.retain(Test::NotEqual(15)).unwrap();
    assert_eq!(queue, [10, 20, 40]);
    assert_eq!(queue.moved(), 2);
}

#[test]
fn lent_values() {
    let mut slots = LAID;
    let mut queue = wrapped(&mut slots);
    queue.truncate(1).unwrap();
    queue.extend(&[1, 2]).unwrap();
    queue.prepend(&[3]).unwrap();
    queue.extend_front(&[4, 5]).unwrap();
    assert_eq!(queue, [5, 4, 3, 10, 1, 2]);
    queue.resize(3, 9).unwrap();
    queue.resize(5, 9).unwrap();
    assert_eq!(queue, [5, 4, 3, 9, 9]);
}

#[test]
fn two_queues() {
    let (mut slots, mut others) = (LAID, LAID);
    let mut queue = wrapped(&mut slots);
    let mut other = wrapped(&mut others);
    queue.truncate(2).unwrap();
    queue.append(&mut other).unwrap();
    assert_eq!(queue, [10, 20, 10, 20, 30, 40]);
    assert!(other.is_empty());
    let mut target = [0; 3];
    let split = queue.split_off(4, &mut target).unwrap();
    assert_eq!(queue, [10, 20, 10, 20]);
    assert_eq!(split, [30, 40]);
    assert_eq!(split.slots(), [30, 40, 0]);
}

/// Both queues say how many crossed, whatever they said before.
#[test]
fn moved_of_two_queues() {
    let (mut slots, mut others) = (LAID, LAID);
    let mut queue = wrapped(&mut slots);
    let mut other = wrapped(&mut others);
    queue.swap(0, 1).unwrap();
    other.swap(0, 1).unwrap();
    queue.truncate_front(1).unwrap();
    assert_eq!((queue.moved(), other.moved()), (0, 2));
    queue.append(&mut other).unwrap();
    assert_eq!((queue.moved(), other.moved()), (4, 4));
    let mut target = [0; 3];
    let split = queue.split_off(3, &mut target).unwrap();
    assert_eq!((queue.moved(), split.moved()), (2, 2));
}

/// A refused append says nothing of what moved before.
#[test]
fn moved_of_a_refused_call() {
    let (mut slots, mut others) = (LAID, LAID);
    let mut queue = wrapped(&mut slots);
    let mut other = wrapped(&mut others);
    queue.insert(1, 15).unwrap();
    other.swap(0, 1).unwrap();
    queue.append(&mut other).unwrap_err();
    assert_eq!((queue.moved(), other.moved()), (1, 2));
}

#[test]
fn a_drain_closes_where_it_is_dropped() {
    let mut slots = LAID;
    let mut queue = wrapped(&mut slots);
    let mut drain = queue.drain(1..).unwrap();
    assert_eq!((drain.next(), drain.next_back(), drain.len()), (Some(20), Some(40), 1));
    drop(drain);
    assert_eq!(queue, [10]);
    assert_eq!(queue.moved(), 0);
}

#[test]
fn moved_of_a_drain() {
    let mut slots = LAID;
    let mut queue = wrapped(&mut slots);
    queue.drain(1..2).unwrap();
    assert_eq!(queue, [10, 30, 40]);
    assert_eq!(queue.moved(), 1);
}

#[test]
fn splices() {
    let mut slots = LAID;
    let mut queue = wrapped(&mut slots);
    queue.splice(1..3, &[1, 2, 3]).unwrap();
    assert_eq!(queue, [10, 1, 2, 3, 40]);
}

#[test]
fn images() {
    let mut slots = LAID;
    let queue = wrapped(&mut slots);
    let mut bytes = [0; 20];
    assert_eq!(queue.write_image(&mut bytes), Ok(19));
    let mut target = [0; 4];
    assert_eq!(Queue::read_image(&mut target, &bytes[..19]).unwrap(), queue);
}
