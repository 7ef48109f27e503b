//! The calls that change a queue.
use crate::raw::{self, Record};
use crate::{Drain, Queue, Refusal, Test};
use core::ops::RangeBounds;

impl<'a> Queue<'a> {
    /// Appends v.
    ///
    /// # Errors
    ///
    /// In this order:
    /// - [`Refusal::MoveOpen`] (6) while a move into the queue is open;
    /// - [`Refusal::Room`] (4) if every slot holds an element.
    #[inline]
    pub fn push_back(&mut self, v: u32) -> Result<(), Refusal> {
        let (slots, kept) = self.lent.change();
        let reply = raw::push_back(slots, &mut kept.record, v);
        kept.take(reply)
    }

    /// Puts v in front.
    ///
    /// # Errors
    ///
    /// In this order:
    /// - [`Refusal::MoveOpen`] (6) while a move into the queue is open;
    /// - [`Refusal::Room`] (4) if every slot holds an element.
    #[inline]
    pub fn push_front(&mut self, v: u32) -> Result<(), Refusal> {
        let (slots, kept) = self.lent.change();
        let reply = raw::push_front(slots, &mut kept.record, v);
        kept.take(reply)
    }

    /// Hands the first element over, or `None` of an empty queue.
    ///
    /// # Errors
    ///
    /// [`Refusal::MoveOpen`] (6) while a move into the queue is open.
    #[inline]
    pub fn pop_front(&mut self) -> Result<Option<u32>, Refusal> {
        let (slots, kept) = self.lent.change();
        let reply = raw::pop_front(slots, &mut kept.record);
        kept.take_handed(reply)
    }

    /// Hands the last element over, or `None` of an empty queue.
    ///
    /// # Errors
    ///
    /// [`Refusal::MoveOpen`] (6) while a move into the queue is open.
    #[inline]
    pub fn pop_back(&mut self) -> Result<Option<u32>, Refusal> {
        let (slots, kept) = self.lent.change();
        let reply = raw::pop_back(slots, &mut kept.record);
        kept.take_handed(reply)
    }

    /// Hands the first element over if it meets the test; else `None`, and it stays.
    ///
    /// # Errors
    ///
    /// [`Refusal::MoveOpen`] (6) while a move into the queue is open.
    #[inline]
    pub fn pop_front_if(&mut self, test: Test) -> Result<Option<u32>, Refusal> {
        let (kind, k) = test.numbers();
        let (slots, kept) = self.lent.change();
        let reply = raw::pop_front_if(slots, &mut kept.record, kind, k);
        kept.take_handed(reply)
    }

    /// Hands the last element over if it meets the test; else `None`, and it stays.
    ///
    /// # Errors
    ///
    /// [`Refusal::MoveOpen`] (6) while a move into the queue is open.
    #[inline]
    pub fn pop_back_if(&mut self, test: Test) -> Result<Option<u32>, Refusal> {
        let (kind, k) = test.numbers();
        let (slots, kept) = self.lent.change();
        let reply = raw::pop_back_if(slots, &mut kept.record, kind, k);
        kept.take_handed(reply)
    }

    /// Keeps the first n elements, or all if there are no more.
    ///
    /// # Errors
    ///
    /// [`Refusal::MoveOpen`] (6) while a move into the queue is open.
    #[inline]
    pub fn truncate(&mut self, n: usize) -> Result<(), Refusal> {
        let (slots, kept) = self.lent.change();
        let reply = raw::truncate(slots, &mut kept.record, n);
        kept.take(reply)
    }

    /// Keeps the last n elements, or all if there are no more.
    ///
    /// # Errors
    ///
    /// [`Refusal::MoveOpen`] (6) while a move into the queue is open.
    #[inline]
    pub fn truncate_front(&mut self, n: usize) -> Result<(), Refusal> {
        let (slots, kept) = self.lent.change();
        let reply = raw::truncate_front(slots, &mut kept.record, n);
        kept.take(reply)
    }

    /// Keeps no element, and starts anew at the first slot.
    ///
    /// # Errors
    ///
    /// [`Refusal::MoveOpen`] (6) while a move into the queue is open.
    #[inline]
    pub fn clear(&mut self) -> Result<(), Refusal> {
        let (slots, kept) = self.lent.change();
        let reply = raw::clear(slots, &mut kept.record);
        kept.take(reply)
    }

    /// Exchanges the elements at positions i and j.
    ///
    /// # Errors
    ///
    /// In this order:
    /// - [`Refusal::MoveOpen`] (6) while a move into the queue is open;
    /// - [`Refusal::Position`] (3) if there is no element at one of them.
    #[inline]
    pub fn swap(&mut self, i: usize, j: usize) -> Result<(), Refusal> {
        let (slots, kept) = self.lent.change();
        let reply = raw::swap(slots, &mut kept.record, i, j);
        kept.take(reply)
    }

    /// Hands the element at position i over and puts the first one in its place; `None` past the end.
    ///
    /// # Errors
    ///
    /// [`Refusal::MoveOpen`] (6) while a move into the queue is open.
    #[inline]
    pub fn swap_remove_front(&mut self, i: usize) -> Result<Option<u32>, Refusal> {
        let (slots, kept) = self.lent.change();
        let reply = raw::swap_remove_front(slots, &mut kept.record, i);
        kept.take_handed(reply)
    }

    /// Hands the element at position i over and puts the last one in its place; `None` past the end.
    ///
    /// # Errors
    ///
    /// [`Refusal::MoveOpen`] (6) while a move into the queue is open.
    #[inline]
    pub fn swap_remove_back(&mut self, i: usize) -> Result<Option<u32>, Refusal> {
        let (slots, kept) = self.lent.change();
        let reply = raw::swap_remove_back(slots, &mut kept.record, i);
        kept.take_handed(reply)
    }

    /// Puts v at position i, where `len` is behind the last element; the shorter side moves.
    ///
    /// # Errors
    ///
    /// In this order:
    /// - [`Refusal::MoveOpen`] (6) while a move into the queue is open;
    /// - [`Refusal::Position`] (3) if i is more than `len`;
    /// - [`Refusal::Room`] (4) if every slot holds an element.
    #[inline]
    pub fn insert(&mut self, i: usize, v: u32) -> Result<(), Refusal> {
        let (slots, kept) = self.lent.change();
        let reply = raw::insert(slots, &mut kept.record, i, v);
        kept.take(reply)
    }

    /// Hands the element at position i over, and the shorter side moves; `None` past the end.
    ///
    /// # Errors
    ///
    /// [`Refusal::MoveOpen`] (6) while a move into the queue is open.
    #[inline]
    pub fn remove(&mut self, i: usize) -> Result<Option<u32>, Refusal> {
        let (slots, kept) = self.lent.change();
        let reply = raw::remove(slots, &mut kept.record, i);
        kept.take_handed(reply)
    }

    /// Keeps, in order, the elements that meet the test.
    ///
    /// # Errors
    ///
    /// [`Refusal::MoveOpen`] (6) while a move into the queue is open.
    #[inline]
    pub fn retain(&mut self, test: Test) -> Result<(), Refusal> {
        let (kind, k) = test.numbers();
        let (slots, kept) = self.lent.change();
        let reply = raw::retain(slots, &mut kept.record, kind, k);
        kept.take(reply)
    }

    /// Appends the values, or none of them.
    ///
    /// # Errors
    ///
    /// In this order:
    /// - [`Refusal::MoveOpen`] (6) while a move into the queue is open;
    /// - [`Refusal::Room`] (4) if they do not all fit.
    #[inline]
    pub fn extend(&mut self, values: &[u32]) -> Result<(), Refusal> {
        let (slots, kept) = self.lent.change();
        let reply = raw::extend(slots, &mut kept.record, values);
        kept.take(reply)
    }

    /// Puts the values in front, in their order, or none of them.
    ///
    /// # Errors
    ///
    /// In this order:
    /// - [`Refusal::MoveOpen`] (6) while a move into the queue is open;
    /// - [`Refusal::Room`] (4) if they do not all fit.
    #[inline]
    pub fn prepend(&mut self, values: &[u32]) -> Result<(), Refusal> {
        let (slots, kept) = self.lent.change();
        let reply = raw::prepend(slots, &mut kept.record, values);
        kept.take(reply)
    }

    /// Puts the values in front, the last of them first, or none of them.
    ///
    /// # Errors
    ///
    /// In this order:
    /// - [`Refusal::MoveOpen`] (6) while a move into the queue is open;
    /// - [`Refusal::Room`] (4) if they do not all fit.
    #[inline]
    pub fn extend_front(&mut self, values: &[u32]) -> Result<(), Refusal> {
        let (slots, kept) = self.lent.change();
        let reply = raw::extend_front(slots, &mut kept.record, values);
        kept.take(reply)
    }

    /// Keeps the first n elements, or appends copies of v until there are n.
    ///
    /// # Errors
    ///
    /// In this order:
    /// - [`Refusal::MoveOpen`] (6) while a move into the queue is open;
    /// - [`Refusal::Room`] (4) if n is more than the number of slots.
    #[inline]
    pub fn resize(&mut self, n: usize, v: u32) -> Result<(), Refusal> {
        let (slots, kept) = self.lent.change();
        let reply = raw::resize(slots, &mut kept.record, n, v);
        kept.take(reply)
    }

    /// Takes the other queue's elements behind its own, and leaves the other empty.
    ///
    /// # Errors
    ///
    /// In this order, with both queues as they were:
    /// - [`Refusal::MoveOpen`] (6) while a move into the queue is open;
    /// - the same of the other queue;
    /// - [`Refusal::Room`] (4) if its elements do not all fit.
    #[inline]
    pub fn append(&mut self, other: &mut Queue<'_>) -> Result<(), Refusal> {
        let (slots, kept) = self.lent.change();
        let (other_slots, other_kept) = other.lent.change();
        let reply = raw::append(slots, &mut kept.record, other_slots, &mut other_kept.record);
        kept.take(reply)?;
        other_kept.moved = reply.moved;
        Ok(())
    }

    /// Moves the elements from position `at` on into other slots, from the first on, as a queue of their own.
    ///
    /// # Errors
    ///
    /// In this order, with the target as it was:
    /// - [`Refusal::MoveOpen`] (6) while a move into the queue is open;
    /// - [`Refusal::Slots`] (1) if the target has more than 16,000 slots;
    /// - [`Refusal::Position`] (3) if `at` is more than `len`;
    /// - [`Refusal::Room`] (4) if the target has fewer slots than elements are to go there.
    #[inline]
    pub fn split_off<'b>(&mut self, at: usize, target: &'b mut [u32]) -> Result<Queue<'b>, Refusal> {
        let (slots, kept) = self.lent.change();
        let mut record = Record::default();
        let reply = raw::split_off(slots, &mut kept.record, at, target, &mut record);
        kept.take(reply)?;
        Ok(Queue::over(target, record, reply.moved))
    }

    /// Opens a drain of a range, which hands its elements over and closes where it is dropped.
    ///
    /// # Errors
    ///
    /// In this order:
    /// - [`Refusal::MoveOpen`] (6) while a move into the queue is open;
    /// - [`Refusal::Position`] (3) if the range ends before it starts, or past the end of the queue.
    #[inline]
    pub fn drain(&mut self, range: impl RangeBounds<usize>) -> Result<Drain<'_, 'a>, Refusal> {
        let (start, end) = self.ends(range);
        Drain::open(self, start, end)
    }

    /// Puts the values in the place of a range, whose elements leave.
    ///
    /// # Errors
    ///
    /// In this order:
    /// - [`Refusal::MoveOpen`] (6) while a move into the queue is open;
    /// - [`Refusal::Position`] (3) if the range ends before it starts, or past the end of the queue;
    /// - [`Refusal::Room`] (4) if the values do not all fit.
    #[inline]
    pub fn splice(&mut self, range: impl RangeBounds<usize>, values: &[u32]) -> Result<(), Refusal> {
        let (start, end) = self.ends(range);
        let (slots, kept) = self.lent.change();
        let reply = raw::splice(slots, &mut kept.record, start, end, values);
        kept.take(reply)
    }
}
