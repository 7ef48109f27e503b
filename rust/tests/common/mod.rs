//! A queue to begin with: 10, 20, 30, 40 round the end of six slots.
use scorebucket::{Queue, Record};

/// Its slots.
pub const LAID: [u32; 6] = [30, 40, 7, 8, 10, 20];

/// Its record.
pub const WRAPPED: Record = record(4, 4);

/// A record without a mark.
pub const fn record(head: usize, len: usize) -> Record {
    Record { head, len, mark: false }
}

/// The queue, laid into the slots.
pub fn wrapped(slots: &mut [u32; 6]) -> Queue<'_> {
    *slots = LAID;
    Queue::with_record(slots, WRAPPED).expect("the record is good")
}
