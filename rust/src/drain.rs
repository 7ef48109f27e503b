//! An open drain.
use crate::{Queue, Refusal};
use core::fmt;
use core::iter::FusedIterator;

/// The elements of a range of a queue, which leave it: handed over by value, from either end.
///
/// Where it is dropped, the drain is closed: what was not handed over leaves too, and the shorter side of the queue
/// moves. A drain that is leaked (by `mem::forget`) counts as closed: the next call on the queue closes it first.
/// A closing is never refused: a drain is not opened while a move into its queue is open.
pub struct Drain<'q, 'a> {
    // It has the drain's record, by which the drain is closed.
    pub(crate) queue: &'q mut Queue<'a>,
    // Two numbers of the record stand here as well: read from there, each step would wait for the last one's stores.
    /// The position of the first element that is not handed over yet.
    idx: usize,
    /// How many are not.
    remaining: usize,
}

impl<'q, 'a> Drain<'q, 'a> {
    /// Opens a drain of the positions from `start` up to `end`.
    #[inline]
    pub(crate) fn open(queue: &'q mut Queue<'a>, start: usize, end: usize) -> Result<Drain<'q, 'a>, Refusal> {
        queue.lent.open(start, end)?;
        Ok(Drain { queue, idx: start, remaining: end - start })
    }

    /// Hands over the element at position i, the first or the last of the remaining; the others begin at `idx`.
    ///
    /// The archive's steps, `scorebucket_drain_next` and `scorebucket_drain_next_back`, do the same: element i stands
    /// i slots on from the head, round the end, and the record has one less remaining, from `idx` on. But a call for
    /// each element costs more than the element. (archive_steps.rs holds both against each other.)
    #[inline]
    fn hand_over(&mut self, i: usize, idx: usize) -> u32 {
        self.idx = idx;
        self.remaining -= 1;
        let (slots, record) = self.queue.lent.opened();
        record.idx = self.idx;
        record.remaining = self.remaining;
        let place = record.head + i;
        match slots.get(place) {
            Some(x) => *x,
            None => slots[place - slots.len()],
        }
    }
}

impl Iterator for Drain<'_, '_> {
    type Item = u32;

    #[inline]
    fn next(&mut self) -> Option<u32> {
        if self.remaining == 0 {
            return None;
        }
        Some(self.hand_over(self.idx, self.idx + 1))
    }

    #[inline]
    fn size_hint(&self) -> (usize, Option<usize>) {
        (self.remaining, Some(self.remaining))
    }
}

impl DoubleEndedIterator for Drain<'_, '_> {
    #[inline]
    fn next_back(&mut self) -> Option<u32> {
        if self.remaining == 0 {
            return None;
        }
        Some(self.hand_over(self.idx + self.remaining - 1, self.idx))
    }
}

impl ExactSizeIterator for Drain<'_, '_> {}

impl FusedIterator for Drain<'_, '_> {}

impl fmt::Debug for Drain<'_, '_> {
    fn fmt(&self, f: &mut fmt::Formatter<'_>) -> fmt::Result {
        f.debug_struct("Drain").field("remaining", &self.remaining).finish_non_exhaustive()
    }
}

impl Drop for Drain<'_, '_> {
    #[inline]
    fn drop(&mut self) {
        self.queue.lent.close();
    }
}
