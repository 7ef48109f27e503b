//! The calls that only look.
use crate::raw::{self, Record};
use crate::{Iter, Queue, Refusal, Test};
use core::cmp::Ordering;
use core::ops::RangeBounds;

/// The two runs as parts of the slots.
#[inline]
fn parts<'s>(slots: &'s [u32], runs: &raw::Runs) -> (&'s [u32], &'s [u32]) {
    (&slots[runs.front.start..runs.front.end], &slots[runs.back.start..runs.back.end])
}

impl Queue<'_> {
    /// The element at position i, or `None` past the end.
    #[inline]
    pub fn get(&self, i: usize) -> Option<u32> {
        self.lent.find(move |queue| raw::get(queue, i))
    }

    /// The first element, or `None` of an empty queue.
    #[inline]
    pub fn front(&self) -> Option<u32> {
        self.lent.find(raw::front)
    }

    /// The last element, or `None` of an empty queue.
    #[inline]
    pub fn back(&self) -> Option<u32> {
        self.lent.find(raw::back)
    }

    /// Whether x stands in it.
    #[inline]
    pub fn contains(&self, x: u32) -> bool {
        let (slots, kept) = self.lent.look();
        raw::contains(slots, &kept.record, x).is
    }

    /// Where x stands in a sorted queue: `Ok` of a position, or `Err` of the position where to insert it.
    ///
    /// In a queue that is not sorted the answer has no meaning. Where several elements are x, it is any one of them.
    #[inline]
    pub fn binary_search(&self, x: u32) -> Result<usize, usize> {
        let (slots, kept) = self.lent.look();
        let reply = raw::binary_search(slots, &kept.record, x);
        match reply.found {
            1 => Ok(reply.position),
            _ => Err(reply.position),
        }
    }

    /// How many elements meet the test, in a queue in which those stand before all others.
    #[inline]
    pub fn partition_point(&self, test: Test) -> usize {
        let (slots, kept) = self.lent.look();
        let (kind, k) = test.numbers();
        raw::partition_point(slots, &kept.record, kind, k).count
    }

    /// The two runs of a range: parts of the slots that hold its elements, the first run's before the second's.
    ///
    /// # Errors
    ///
    /// [`Refusal::Position`] (3) if the range ends before it starts, or past the end of the queue.
    #[inline]
    pub fn slices(&self, range: impl RangeBounds<usize>) -> Result<(&[u32], &[u32]), Refusal> {
        let (start, end) = self.ends(range);
        let (slots, kept) = self.lent.look();
        let mut runs = raw::Runs::default();
        Refusal::of(raw::slice_ranges(slots, &kept.record, start, end, &mut runs))?;
        Ok(parts(slots, &runs))
    }

    /// The two runs of the whole queue: parts of the slots that hold its elements, the first run's before the second's.
    #[inline]
    pub fn as_slices(&self) -> (&[u32], &[u32]) {
        let (slots, kept) = self.lent.look();
        let mut runs = raw::Runs::default();
        let refused = raw::slice_ranges(slots, &kept.record, 0, kept.record.len, &mut runs);
        debug_assert_eq!(refused, 0);
        parts(slots, &runs)
    }

    /// The elements in order, by value, from either end.
    #[inline]
    pub fn iter(&self) -> Iter<'_> {
        let (front, back) = self.as_slices();
        Iter::over(front, back)
    }

    /// Writes the saved image, 3 + 4 * len bytes, to the start of the target, and gives their number.
    ///
    /// # Errors
    ///
    /// [`Refusal::Room`] (4) if the target is shorter; it is as it was then.
    #[inline]
    pub fn write_image(&self, target: &mut [u8]) -> Result<usize, Refusal> {
        let (slots, kept) = self.lent.look();
        let reply = raw::write_image(slots, &kept.record, target);
        Refusal::of(reply.refused)?;
        Ok(reply.count)
    }

    /// Whether it holds what the record says of the other slots.
    #[inline]
    pub(crate) fn equals(&self, other_slots: &[u32], other: &Record) -> bool {
        let (slots, kept) = self.lent.look();
        raw::eq(slots, &kept.record, other_slots, other).is
    }

    /// How its list stands to another queue's in lexicographic order.
    #[inline]
    pub(crate) fn order(&self, other: &Queue<'_>) -> Ordering {
        let (slots, kept) = self.lent.look();
        let (other_slots, other_kept) = other.lent.look();
        match raw::cmp(slots, &kept.record, other_slots, &other_kept.record).order {
            1 => Ordering::Less,
            2 => Ordering::Equal,
            _ => Ordering::Greater,
        }
    }
}
