//! The queue: how it is made, and what it is.
use crate::lent::Lent;
use crate::raw::{self, Seen};
use crate::{Record, Refusal};
use core::ops::{Bound, RangeBounds};

/// A double-ended queue over lent slots, whose number is its capacity.
///
/// The queue borrows the slots as long as it is used; what it is beside them is a small [`Record`]. A queue that is to
/// be used again later is the slots and the record that [`Queue::record`] gives: [`Queue::with_record`] takes both.
pub struct Queue<'a> {
    pub(crate) lent: Lent<'a>,
}

impl<'a> Queue<'a> {
    /// An empty queue over the slots.
    ///
    /// # Errors
    ///
    /// [`Refusal::Slots`] (1) if there are more than 16,000 slots.
    pub fn new(slots: &'a mut [u32]) -> Result<Queue<'a>, Refusal> {
        let mut record = raw::Record::default();
        let reply = raw::fresh(slots, &mut record);
        Refusal::of(reply.refused)?;
        Ok(Queue::over(slots, record, reply.moved))
    }

    /// The queue that [`Queue::write_image`] saved, from the first slot on.
    ///
    /// # Errors
    ///
    /// In this order, with the slots as they were:
    /// - [`Refusal::Slots`] (1) if there are more than 16,000 slots;
    /// - [`Refusal::Image`] (5) if the bytes are not one whole saved image;
    /// - [`Refusal::Room`] (4) if the image has more elements than there are slots.
    pub fn read_image(slots: &'a mut [u32], bytes: &[u8]) -> Result<Queue<'a>, Refusal> {
        let mut record = raw::Record::default();
        let reply = raw::read_image(slots, &mut record, bytes);
        Refusal::of(reply.refused)?;
        Ok(Queue::over(slots, record, reply.moved))
    }

    /// The queue whose elements stand in the slots already, as the record says. Where the record has the open mark, a
    /// move into this queue is still open.
    ///
    /// # Errors
    ///
    /// In this order:
    /// - [`Refusal::Slots`] (1) if there are more than 16,000 slots;
    /// - [`Refusal::Record`] (2) if the record does not fit the slots: `head` is no slot's number (where there are no
    ///   slots it is 0), or `len` is more than their number.
    pub fn with_record(slots: &'a mut [u32], record: Record) -> Result<Queue<'a>, Refusal> {
        let record = raw::Record::from(record);
        // a look at the first element is refused for these two reasons alone
        Refusal::of(raw::front(Seen::of(slots, &record)).refused)?;
        Ok(Queue::over(slots, record, 0))
    }

    /// The queue of a record that is known to be good for the slots, as the call that made it says.
    pub(crate) fn over(slots: &'a mut [u32], record: raw::Record, moved: usize) -> Queue<'a> {
        Queue { lent: Lent::new(slots, record, moved) }
    }

    /// How many elements it holds.
    #[inline]
    pub fn len(&self) -> usize {
        self.lent.look().1.record.len
    }

    /// Whether it holds none.
    #[inline]
    pub fn is_empty(&self) -> bool {
        self.len() == 0
    }

    /// How many elements it can hold: the number of its slots.
    #[inline]
    pub fn capacity(&self) -> usize {
        self.slots().len()
    }

    /// Its record as it is now. With the slots it is the whole queue; a change makes it stale.
    #[inline]
    pub fn record(&self) -> Record {
        self.lent.look().1.record.into()
    }

    /// All slots, those without an element too.
    #[inline]
    pub fn slots(&self) -> &[u32] {
        self.lent.look().0
    }

    /// How many elements the last call that this queue took part in left in another slot.
    ///
    /// Both queues of a call that takes elements from one to the other, as [`append`](Queue::append) does,
    /// [`split_off`](Queue::split_off), [`move_into`](Queue::move_into) and [`move_portion`](Queue::move_portion), give
    /// the number of those. A call that only looks, or is refused, leaves the number as it is; a drain counts when it
    /// closes.
    #[inline]
    pub fn moved(&self) -> usize {
        self.lent.look().1.moved
    }

    /// The first position of a range, and the one behind its last. Behind the largest number there is none, but that is
    /// past the end of every queue, too.
    #[inline]
    pub(crate) fn ends(&self, range: impl RangeBounds<usize>) -> (usize, usize) {
        let start = match range.start_bound() {
            Bound::Included(i) => *i,
            Bound::Excluded(i) => i.saturating_add(1),
            Bound::Unbounded => 0,
        };
        let end = match range.end_bound() {
            Bound::Included(i) => i.saturating_add(1),
            Bound::Excluded(i) => *i,
            Bound::Unbounded => self.len(),
        };
        (start, end)
    }
}
