//! What a queue is beside its slots.
use crate::raw;

/// The record of a queue: element i stands `i` slots on from `head`, round the end.
#[derive(Clone, Copy, Debug, Default, PartialEq, Eq, Hash)]
pub struct Record {
    /// The slot of the first element.
    pub head: usize,
    /// How many elements there are.
    pub len: usize,
    /// The open mark: another queue is being moved into this one, and has elements left. See
    /// [`Queue::is_move_open`](crate::Queue::is_move_open).
    pub mark: bool,
}

impl From<Record> for raw::Record {
    fn from(record: Record) -> raw::Record {
        raw::Record { head: record.head, len: record.len, mark: usize::from(record.mark) }
    }
}

impl From<raw::Record> for Record {
    #[inline]
    fn from(record: raw::Record) -> Record {
        Record { head: record.head, len: record.len, mark: record.mark != 0 }
    }
}
