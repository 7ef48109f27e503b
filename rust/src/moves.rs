//! A queue moved into other slots, at once or in portions.
use crate::raw::{self, Record};
use crate::{Queue, Refusal};

impl Queue<'_> {
    /// Moves all elements into other slots, from the first on, as a queue of their own, and ends empty.
    ///
    /// The slots may be more than the queue has now, or fewer.
    ///
    /// # Errors
    ///
    /// In this order, with the target as it was:
    /// - [`Refusal::MoveOpen`] (6) while a move into the queue is open;
    /// - [`Refusal::Slots`] (1) if the target has more than 16,000 slots;
    /// - [`Refusal::Room`] (4) if the target has fewer slots than there are elements.
    #[inline]
    pub fn move_into<'b>(&mut self, target: &'b mut [u32]) -> Result<Queue<'b>, Refusal> {
        let (slots, kept) = self.lent.change();
        let mut record = Record::default();
        let reply = raw::move_all(slots, &mut kept.record, target, &mut record);
        kept.take(reply)?;
        Ok(Queue::over(target, record, reply.moved))
    }

    /// Moves the first n elements, or all if there are no more, behind those of the target.
    ///
    /// So a large queue is moved without a stop: the time of a portion grows with n, not with the queue. Into a target
    /// that is [`new`](Queue::new) the portions take what [`move_into`](Queue::move_into) takes at once.
    ///
    /// If elements are left, a move into the target is open: until a portion comes that leaves none, it takes portions
    /// alone, and every other method that could change it refuses with [`Refusal::MoveOpen`]. It can be looked at, and
    /// the queue that is moved can also be changed: what is appended to it comes with a later portion.
    ///
    /// ```
    /// # use scorebucket::{Queue, Refusal};
    /// let (mut slots, mut twice) = ([0; 4], [0; 8]);
    /// let mut old = Queue::new(&mut slots)?;
    /// old.extend(&[10, 20, 30, 40])?; // full
    ///
    /// let mut new = Queue::new(&mut twice)?;
    /// while !old.is_empty() {
    ///     old.move_portion(3, &mut new)?;
    /// }
    /// assert!(!new.is_move_open());
    /// new.push_back(50)?;
    /// assert_eq!(new, [10, 20, 30, 40, 50]);
    /// # Ok::<(), Refusal>(())
    /// ```
    ///
    /// # Errors
    ///
    /// In this order, with both queues as they were:
    /// - [`Refusal::MoveOpen`] (6) while a move into this queue is open (not: into the target);
    /// - [`Refusal::Room`] (4) if they do not all fit the target.
    #[inline]
    pub fn move_portion(&mut self, n: usize, target: &mut Queue<'_>) -> Result<(), Refusal> {
        let (slots, kept) = self.lent.change();
        let (target_slots, target_kept) = target.lent.change();
        let reply = raw::move_portion(slots, &mut kept.record, n, target_slots, &mut target_kept.record);
        kept.take(reply)?;
        target_kept.moved = reply.moved;
        Ok(())
    }

    /// Whether a move into this queue is open: the last portion that came into it left elements behind.
    #[inline]
    pub fn is_move_open(&self) -> bool {
        self.record().mark
    }
}
