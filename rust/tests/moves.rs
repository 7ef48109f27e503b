//! A queue moved into other slots, at once and in portions, and what the open mark of such a move does.
mod common;

use common::{record, wrapped, LAID, WRAPPED};
use scorebucket::{Queue, Record, Refusal, Test};

/// The record with the open mark.
fn marked(record: Record) -> Record {
    Record { mark: true, ..record }
}

#[test]
fn at_once() {
    let (mut slots, mut target) = (LAID, [9; 7]);
    let mut old = wrapped(&mut slots);
    let new = old.move_into(&mut target).unwrap();
    assert_eq!((new.record(), new.moved()), (record(0, 4), 4));
    assert_eq!((old.record(), old.moved()), (record(0, 0), 4));
    assert_eq!(new.slots(), [10, 20, 30, 40, 9, 9, 9]);
    assert_eq!(old.slots(), LAID);
}

#[test]
fn in_portions() {
    let (mut slots, mut target) = (LAID, [9; 7]);
    let mut old = wrapped(&mut slots);
    let mut new = Queue::new(&mut target).unwrap();
    old.move_portion(3, &mut new).unwrap();
    assert_eq!((old.record(), old.moved()), (record(1, 1), 3));
    assert_eq!((new.record(), new.moved()), (marked(record(0, 3)), 3));
    old.move_portion(usize::MAX, &mut new).unwrap();
    assert_eq!((old.record(), old.moved()), (record(0, 0), 1));
    assert_eq!((new.record(), new.moved()), (record(0, 4), 1));
    assert_eq!(new.slots(), [10, 20, 30, 40, 9, 9, 9]);
    assert_eq!(old.slots(), LAID);
}

#[test]
fn behind_what_stands_there() {
    let (mut slots, mut others) = (LAID, LAID);
    let mut old = wrapped(&mut slots);
    let mut new = wrapped(&mut others);
    old.move_portion(2, &mut new).unwrap();
    assert_eq!(old, [30, 40]);
    assert_eq!(new, [10, 20, 30, 40, 10, 20]);
    assert_eq!(old.move_portion(1, &mut new), Err(Refusal::Room));
}

/// Every queue of few slots, moved at once and in portions of every two sizes: the same records, slots and marks, and
/// the portions' moved counts add up to the whole move's.
#[test]
fn portions_leave_what_a_whole_move_leaves() {
    for (cap, sizes) in (1..=5).flat_map(|cap| (0..25).map(move |n| (cap, [n / 5 + 1, n % 5]))) {
        for (head, len, more) in (0..3 * cap * (cap + 1)).map(|n| (n / 3 % cap, n / 3 / cap, n % 3)) {
            let (mut slots, mut slots_at_once) = ([1, 2, 3, 4, 5], [1, 2, 3, 4, 5]);
            let (mut target, mut target_at_once) = ([9; 7], [9; 7]);
            let mut at_once = Queue::with_record(&mut slots_at_once[..cap], record(head, len)).unwrap();
            let new_at_once = at_once.move_into(&mut target_at_once[..len + more]).unwrap();

            let mut old = Queue::with_record(&mut slots[..cap], record(head, len)).unwrap();
            let mut new = Queue::new(&mut target[..len + more]).unwrap();
            let mut moved = 0;
            for n in sizes.into_iter().cycle() {
                old.move_portion(n, &mut new).unwrap();
                moved += new.moved();
                assert_eq!(new.is_move_open(), !old.is_empty());
                if old.is_empty() {
                    break;
                }
            }
            assert_eq!((old.record(), old.slots()), (at_once.record(), at_once.slots()));
            assert_eq!((new.record(), new.slots()), (new_at_once.record(), new_at_once.slots()));
            assert_eq!(moved, new_at_once.moved());
        }
    }
}

/// A portion of none sets the mark where elements are left, and clears it where there are none.
#[test]
fn portions_of_none() {
    let (mut slots, mut target) = (LAID, [9; 4]);
    let mut old = wrapped(&mut slots);
    let mut new = Queue::new(&mut target).unwrap();
    old.move_portion(0, &mut new).unwrap();
    assert_eq!((old.record(), new.record()), (WRAPPED, marked(record(0, 0))));
    let mut empty = Queue::with_record(&mut [], record(0, 0)).unwrap();
    empty.move_portion(0, &mut new).unwrap();
    assert_eq!((old.record(), new.record()), (WRAPPED, record(0, 0)));
}

/// The queue that is moved may change meanwhile: the mark is the target's.
#[test]
fn what_comes_meanwhile_moves_with_the_others() {
    let (mut slots, mut target) = (LAID, [9; 8]);
    let mut old = wrapped(&mut slots);
    let mut new = Queue::new(&mut target).unwrap();
    old.move_portion(1, &mut new).unwrap();
    old.push_back(50).unwrap();
    assert_eq!(old.pop_front(), Ok(Some(20)));
    old.move_portion(4, &mut new).unwrap();
    new.push_back(60).unwrap();
    assert_eq!(new, [10, 30, 40, 50, 60]);
}

#[test]
fn a_refused_move_changes_nothing() {
    let (mut slots, mut target) = (LAID, [9; 5]);
    let mut old = wrapped(&mut slots);
    assert_eq!(old.move_into(&mut [0; 3]).err(), Some(Refusal::Room));
    assert_eq!(old.move_into(&mut [0; 16_001]).err(), Some(Refusal::Slots));
    let mut new = Queue::with_record(&mut target, marked(record(4, 2))).unwrap();
    for n in [4, usize::MAX] {
        assert_eq!(old.move_portion(n, &mut new), Err(Refusal::Room));
        assert_eq!((old.record(), old.slots(), old.moved()), (WRAPPED, &LAID[..], 0));
        assert_eq!((new.record(), new.slots(), new.moved()), (marked(record(4, 2)), &[9; 5][..], 0));
    }
    old.move_portion(3, &mut new).unwrap();
}

/// A call that may change a queue.
type Change = fn(&mut Queue<'_>) -> Option<Refusal>;

/// A call with another queue of four elements, and room for two.
fn with_other(call: impl FnOnce(&mut Queue<'_>) -> Result<(), Refusal>) -> Option<Refusal> {
    let mut slots = LAID;
    let mut other = wrapped(&mut slots);
    let refusal = call(&mut other).err();
    assert_eq!((other.record(), other.slots(), other.moved()), (WRAPPED, &LAID[..], 0));
    refusal
}

/// Every method that can change a queue, with operands that it would accept, refuse, or change nothing for.
const CHANGES: [(&str, Change); 55] = [
    ("push_back", |q| q.push_back(1).err()),
    ("push_front", |q| q.push_front(1).err()),
    ("pop_front", |q| q.pop_front().err()),
    ("pop_back", |q| q.pop_back().err()),
    ("pop_front_if, met", |q| q.pop_front_if(Test::AtLeast(0)).err()),
    ("pop_front_if, unmet", |q| q.pop_front_if(Test::Below(0)).err()),
    ("pop_back_if, met", |q| q.pop_back_if(Test::AtLeast(0)).err()),
    ("pop_back_if, unmet", |q| q.pop_back_if(Test::Below(0)).err()),
    ("truncate, to none", |q| q.truncate(0).err()),
    ("truncate, of none", |q| q.truncate(usize::MAX).err()),
    ("truncate_front, to none", |q| q.truncate_front(0).err()),
    ("truncate_front, of none", |q| q.truncate_front(usize::MAX).err()),
    ("clear", |q| q.clear().err()),
    ("swap", |q| q.swap(0, 1).err()),
    ("swap, with itself", |q| q.swap(0, 0).err()),
    ("swap, past the end", |q| q.swap(0, 9).err()),
    ("swap_remove_front", |q| q.swap_remove_front(0).err()),
    ("swap_remove_front, past the end", |q| q.swap_remove_front(9).err()),
    ("swap_remove_back", |q| q.swap_remove_back(0).err()),
    ("swap_remove_back, past the end", |q| q.swap_remove_back(9).err()),
    ("insert", |q| q.insert(0, 1).err()),
    ("insert, past the end", |q| q.insert(9, 1).err()),
    ("remove", |q| q.remove(0).err()),
    ("remove, past the end", |q| q.remove(9).err()),
    ("retain, all", |q| q.retain(Test::AtLeast(0)).err()),
    ("retain, none", |q| q.retain(Test::Below(0)).err()),
    ("extend", |q| q.extend(&[1]).err()),
    ("extend, by none", |q| q.extend(&[]).err()),
    ("extend, past the slots", |q| q.extend(&[1; 7]).err()),
    ("prepend", |q| q.prepend(&[1]).err()),
    ("prepend, none", |q| q.prepend(&[]).err()),
    ("prepend, past the slots", |q| q.prepend(&[1; 7]).err()),
    ("extend_front", |q| q.extend_front(&[1]).err()),
    ("extend_front, by none", |q| q.extend_front(&[]).err()),
    ("extend_front, past the slots", |q| q.extend_front(&[1; 7]).err()),
    ("resize, to the same", |q| q.resize(q.len(), 1).err()),
    ("resize, to none", |q| q.resize(0, 1).err()),
    ("resize, past the slots", |q| q.resize(7, 1).err()),
    ("append", |q| with_other(|other| q.append(other))),
    ("append, as the other", |q| with_other(|other| other.append(q))),
    ("split_off", |q| q.split_off(0, &mut [0; 6]).err()),
    ("split_off, past the end", |q| q.split_off(9, &mut [0; 6]).err()),
    ("split_off, into no slots", |q| q.split_off(0, &mut []).err()),
    ("split_off, into too many", |q| q.split_off(0, &mut [0; 16_001]).err()),
    ("drain", |q| q.drain(..).err()),
    ("drain, none", |q| q.drain(..0).err()),
    ("drain, past the end", |q| q.drain(..9).err()),
    ("drain, past every number", |q| q.drain(..=usize::MAX).err()),
    ("splice", |q| q.splice(.., &[1]).err()),
    ("splice, none for none", |q| q.splice(..0, &[]).err()),
    ("splice, past the end", |q| q.splice(9.., &[]).err()),
    ("move_into", |q| q.move_into(&mut [0; 6]).err()),
    ("move_into, into too many", |q| q.move_into(&mut [0; 16_001]).err()),
    ("move_portion", |q| with_other(|other| q.move_portion(1, other))),
    ("move_portion, none", |q| with_other(|other| q.move_portion(0, other))),
];

/// While a move into it is open, a queue refuses every change for that and for nothing else, and is as it was.
#[test]
fn a_marked_queue_refuses_every_change() {
    for record in [WRAPPED, record(2, 0), record(4, 6)].map(marked) {
        for (name, change) in CHANGES {
            let mut slots = LAID;
            let mut queue = Queue::with_record(&mut slots, record).unwrap();
            assert_eq!(change(&mut queue), Some(Refusal::MoveOpen), "{name} of {record:?}");
            assert_eq!((queue.record(), queue.slots(), queue.moved()), (record, &LAID[..], 0), "{name}");
        }
    }
}

/// A queue without the mark never gives that refusal.
#[test]
fn another_queue_does_not() {
    for record in [WRAPPED, record(2, 0), record(4, 6)] {
        for (name, change) in
            CHANGES.into_iter().filter(|(name, _)| !name.contains("append") && !name.contains("portion"))
        {
            let mut slots = LAID;
            let mut queue = Queue::with_record(&mut slots, record).unwrap();
            assert_ne!(change(&mut queue), Some(Refusal::MoveOpen), "{name} of {record:?}");
            assert!(!queue.is_move_open());
        }
    }
}

/// What every look gives, as text.
fn looks(queue: &Queue<'_>) -> String {
    let mut bytes = [0; 27];
    let image = queue.write_image(&mut bytes);
    let slots = (queue.slots(), queue.capacity(), queue.as_slices(), queue.slices(..0), queue.slices(..9));
    let list = (queue, queue.len(), queue.is_empty(), queue.iter().collect::<Vec<_>>());
    let elements = (queue.get(1), queue.get(9), queue.front(), queue.back(), queue.contains(30));
    let searches = (queue.binary_search(30), queue.partition_point(Test::Below(30)));
    format!("{slots:?} {list:?} {elements:?} {searches:?} {image:?} {bytes:?}")
}

/// A look is never refused, and shows what it shows without the mark.
#[test]
fn a_marked_queue_is_looked_at() {
    for record in [WRAPPED, record(2, 0), record(4, 6)] {
        let (mut slots, mut others) = (LAID, LAID);
        let queue = Queue::with_record(&mut slots, record).unwrap();
        let other = Queue::with_record(&mut others, marked(record)).unwrap();
        assert_eq!(looks(&queue), looks(&other));
        assert_eq!((queue == other, queue.cmp(&other), other.cmp(&queue)), (true, 0.cmp(&0), 0.cmp(&0)));
        assert_eq!((queue.is_move_open(), other.is_move_open()), (false, true));
    }
}

/// The record keeps the mark; slots that are lent anew have none.
#[test]
fn the_mark_goes_with_the_record() {
    let (mut slots, mut target) = (LAID, [9; 6]);
    let mut old = wrapped(&mut slots);
    let mut new = Queue::new(&mut target).unwrap();
    old.move_portion(1, &mut new).unwrap();
    let record = new.record();
    let mut again = Queue::with_record(&mut target, record).unwrap();
    assert_eq!(again.clear(), Err(Refusal::MoveOpen));
    assert!(!Queue::new(&mut target).unwrap().is_move_open());
    assert!(!old.split_off(1, &mut target).unwrap().is_move_open());
    assert!(!old.move_into(&mut target).unwrap().is_move_open());
}
