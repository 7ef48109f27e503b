//! What is refused, and that nothing has changed then.
mod common;

use common::{record, wrapped, LAID, WRAPPED};
use scorebucket::{Queue, Record, Refusal};
use std::error::Error;

/// Makes a call on the queue of the given record; it must be refused so, and leave record, slots and moved as they
/// were.
fn refused<T>(record: Record, refusal: Refusal, call: impl FnOnce(&mut Queue<'_>) -> Result<T, Refusal>) {
    let mut slots = LAID;
    let mut queue = Queue::with_record(&mut slots, record).unwrap();
    assert_eq!(call(&mut queue).err(), Some(refusal));
    assert_eq!(queue.record(), record);
    assert_eq!(queue.slots(), LAID);
    assert_eq!(queue.moved(), 0);
}

#[test]
fn too_many_slots() {
    let mut slots = vec![0; 16_001];
    assert_eq!(Queue::new(&mut slots).err(), Some(Refusal::Slots));
    // asked before the record, and before the image
    assert_eq!(Queue::with_record(&mut slots, record(16_001, 0)).err(), Some(Refusal::Slots));
    assert_eq!(Queue::read_image(&mut slots, &[]).err(), Some(Refusal::Slots));
    refused(WRAPPED, Refusal::Slots, |q| q.split_off(5, &mut slots).map(|_| ()));
    assert!(Queue::new(&mut slots[..16_000]).is_ok());
}

#[test]
fn records_that_are_not_good() {
    for (head, len) in [(6, 0), (0, 7), (usize::MAX, 0), (0, usize::MAX), (usize::MAX, usize::MAX)] {
        let mut slots = LAID;
        assert_eq!(Queue::with_record(&mut slots, record(head, len)).err(), Some(Refusal::Record));
    }
    assert_eq!(Queue::with_record(&mut [], record(1, 0)).err(), Some(Refusal::Record));
    assert!(Queue::with_record(&mut [], record(0, 0)).is_ok());
    assert!(Queue::with_record(&mut LAID.clone(), record(5, 6)).is_ok());
}

#[test]
fn positions() {
    refused(WRAPPED, Refusal::Position, |q| q.swap(0, 4));
    refused(WRAPPED, Refusal::Position, |q| q.swap(4, 0));
    refused(WRAPPED, Refusal::Position, |q| q.insert(5, 1));
    refused(WRAPPED, Refusal::Position, |q| q.split_off(5, &mut [0; 6]).map(|_| ()));
    #[allow(clippy::reversed_empty_ranges)]
    refused(WRAPPED, Refusal::Position, |q| q.drain(3..2).map(|_| ()));
    refused(WRAPPED, Refusal::Position, |q| q.drain(..=usize::MAX).map(|_| ()));
    refused(WRAPPED, Refusal::Position, |q| q.splice(0..5, &[]));
    refused(WRAPPED, Refusal::Position, |q| q.slices(4..5).map(|_| ()));
}

#[test]
fn room() {
    let full = record(4, 6);
    refused(full, Refusal::Room, |q| q.push_back(1));
    refused(full, Refusal::Room, |q| q.push_front(1));
    refused(full, Refusal::Room, |q| q.insert(3, 1));
    refused(WRAPPED, Refusal::Room, |q| q.extend(&[1, 2, 3]));
    refused(WRAPPED, Refusal::Room, |q| q.prepend(&[1, 2, 3]));
    refused(WRAPPED, Refusal::Room, |q| q.extend_front(&[1, 2, 3]));
    refused(WRAPPED, Refusal::Room, |q| q.resize(7, 1));
    refused(WRAPPED, Refusal::Room, |q| q.splice(1..2, &[1, 2, 3, 4]));
    refused(WRAPPED, Refusal::Room, |q| q.split_off(1, &mut [0; 2]).map(|_| ()));
    refused(WRAPPED, Refusal::Room, |q| q.write_image(&mut [0; 18]));
    refused(WRAPPED, Refusal::Room, |q| {
        let mut slots = LAID;
        let mut other = wrapped(&mut slots);
        let answer = q.append(&mut other);
        assert_eq!((other.record(), other.slots()), (WRAPPED, &LAID[..]));
        answer
    });
}

#[test]
fn a_position_is_asked_before_room() {
    let full = record(4, 6);
    refused(full, Refusal::Position, |q| q.insert(7, 1));
    refused(full, Refusal::Position, |q| q.splice(6..7, &[1, 2]));
    refused(full, Refusal::Position, |q| q.split_off(7, &mut []).map(|_| ()));
}

#[test]
fn images_that_are_none() {
    let mut slots = LAID;
    for bytes in [&[][..], &[0, 0], &[0, 1, 0], &[0, 5, 1, 0, 0, 0]] {
        assert_eq!(Queue::read_image(&mut slots, bytes).err(), Some(Refusal::Image));
    }
    let one = [0, 5, 1, 0, 0, 0, 9];
    assert_eq!(Queue::read_image(&mut [], &one).err(), Some(Refusal::Room));
    assert_eq!(slots, LAID);
}

#[test]
fn a_refusal_is_an_error_with_a_number() {
    use Refusal::*;
    assert_eq!([Slots, Record, Position, Room, Image, MoveOpen].map(Refusal::number), [1, 2, 3, 4, 5, 6]);
    let refusal: Box<dyn Error> = Box::new(Refusal::Room);
    assert_eq!(refusal.to_string(), "no room");
}
