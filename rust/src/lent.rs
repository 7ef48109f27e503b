//! A queue's lent slots and what it keeps beside them, and the closing of a drain. Beside raw.rs the only file with
//! `unsafe`.
//!
//! A drain that is leaked (by `mem::forget`) can't close itself, so the next call closes it, whichever it is. A look
//! has `&self`, and a closing moves elements: so the slots stand behind a pointer, and what is kept in a cell.
//!
//! While a drain is open, a flag stands in the place of the number of slots: a number that there can't be. Most calls
//! ask for it. A look for one element would be slowed by asking: it gives the archive whatever number it finds, and the
//! archive refuses a flag (with 1), as it is proved to. Only then is a drain closed and the look made again.
//!
//! Why that is sound:
//! - The pointer comes from the `&'a mut [u32]` that was lent: for `'a`, only this queue reads and writes the slots.
//! - A call with `&mut self` is alone with the queue: whatever references earlier calls gave are not used any more.
//! - Calls with `&self` only read, but for the one that makes the flag DRAINING into CLOSING. Until it has taken that
//!   flag off, every other call with `&self` waits; and none before it has given a reference since the drain was
//!   opened, for it would have closed the drain itself. A drain is opened with `&mut self`, so once a call with `&self`
//!   sees no flag, nothing is written as long as the reference that it gives is used.
//! - A look for one element that gives the archive a flag gives it pointers and no references, and 1 is the first that
//!   the archive asks: it reads no slot, and what it may have read of the record by then it does not use.
//! - A flag is taken off with `Release` and read with `Acquire`: who sees none sees the elements in their new places.
use crate::raw::{self, FoundReply, Record, Reply, Seen};
use crate::Refusal;
use core::cell::UnsafeCell;
use core::hint::spin_loop;
use core::marker::PhantomData;
use core::ptr::{addr_of, NonNull};
use core::slice;
use core::sync::atomic::{AtomicUsize, Ordering};

/// The most slots of a queue. What is above is a flag:
const MOST_SLOTS: usize = 16_000;
/// A drain is open, or was leaked.
const DRAINING: usize = usize::MAX;
/// A leaked drain is being closed by a call with `&self`.
const CLOSING: usize = usize::MAX - 1;

/// What a queue keeps beside its slots.
pub(crate) struct Kept {
    pub record: Record,
    /// How many elements the last call left in another slot.
    pub moved: usize,
    /// The record of its drain, while one is open.
    drain: raw::Drain,
}

impl Kept {
    /// Takes the answer of a call that changes the queue.
    #[inline]
    pub fn take(&mut self, reply: Reply) -> Result<(), Refusal> {
        Refusal::of(reply.refused)?;
        self.moved = reply.moved;
        Ok(())
    }

    /// Takes the answer of such a call, and gives what it handed over.
    #[inline]
    pub fn take_handed(&mut self, reply: Reply) -> Result<Option<u32>, Refusal> {
        self.take(reply)?;
        Ok((reply.handed == 1).then_some(reply.number))
    }
}

/// The lent slots and what is kept beside them. The record is good for the slots.
pub(crate) struct Lent<'a> {
    slots: NonNull<[u32]>,
    /// The number of the slots, or a flag while a drain is open. A call needs the number in any case, so that asking
    /// for a flag costs it one comparison and no load.
    number: AtomicUsize,
    kept: UnsafeCell<Kept>,
    borrow: PhantomData<&'a mut [u32]>,
}

// SAFETY: it is a `&mut [u32]` and numbers, and calls with `&self` are ordered among threads, as said above.
unsafe impl Send for Lent<'_> {}
unsafe impl Sync for Lent<'_> {}

impl<'a> Lent<'a> {
    /// The slots with a good record over them.
    pub fn new(slots: &'a mut [u32], record: Record, moved: usize) -> Lent<'a> {
        Lent {
            number: AtomicUsize::new(slots.len()),
            slots: NonNull::from(slots),
            kept: UnsafeCell::new(Kept { record, moved, drain: raw::Drain::default() }),
            borrow: PhantomData,
        }
    }

    /// Looks for one element: first without asking for a flag.
    #[inline]
    pub fn find(&self, look: impl Fn(Seen<'_>) -> FoundReply) -> Option<u32> {
        let number = self.number.load(Ordering::Acquire);
        // SAFETY: it is a flag, above 16,000, or the number of the slots, and nothing is written while `&self` is used.
        let reply = look(unsafe { Seen::at(self.slots.cast().as_ptr(), number, addr_of!((*self.kept.get()).record)) });
        if let Some(x) = reply.given() {
            return Some(x);
        }
        if reply.refused == 0 {
            return None;
        }
        let (slots, kept) = self.look();
        look(Seen::of(slots, &kept.record)).given()
    }

    /// The slots and what is kept, to look at.
    #[inline]
    pub fn look(&self) -> (&[u32], &Kept) {
        let mut number = self.number.load(Ordering::Acquire);
        if number > MOST_SLOTS {
            number = self.close_leaked();
        }
        // SAFETY: it is no flag but the number of the slots, and nothing is written while `&self` is used.
        unsafe { (slice::from_raw_parts(self.slots.cast().as_ptr(), number), &*self.kept.get()) }
    }

    /// The slots and what is kept, to change.
    #[inline]
    pub fn change(&mut self) -> (&mut [u32], &mut Kept) {
        let mut number = *self.number.get_mut();
        if number > MOST_SLOTS {
            number = self.close_leaked();
        }
        // SAFETY: it is no flag but the number of the slots, and `&mut self` is the only way to them.
        (unsafe { slice::from_raw_parts_mut(self.slots.cast().as_ptr(), number) }, self.kept.get_mut())
    }

    /// The slots and what is kept, whether a drain is open or not.
    #[inline]
    fn alone(&mut self) -> (&mut [u32], &mut Kept) {
        // SAFETY: `&mut self` is the only way to the slots.
        (unsafe { self.slots.as_mut() }, self.kept.get_mut())
    }

    /// Opens a drain of the positions from `start` up to `end`.
    #[inline]
    pub fn open(&mut self, start: usize, end: usize) -> Result<(), Refusal> {
        let (slots, kept) = self.change();
        let reply = raw::drain(slots, &kept.record, start, end, &mut kept.drain);
        Refusal::of(reply.refused)?;
        *self.number.get_mut() = DRAINING;
        Ok(())
    }

    /// The slots and the record of the open drain.
    #[inline]
    pub fn opened(&mut self) -> (&[u32], &mut raw::Drain) {
        let (slots, kept) = self.alone();
        (slots, &mut kept.drain)
    }

    /// Closes the open drain.
    #[inline]
    pub fn close(&mut self) {
        *self.number.get_mut() = self.slots.len();
        let (slots, kept) = self.alone();
        let refused = close(slots, kept);
        debug_assert_eq!(refused, 0);
    }

    /// Closes a leaked drain, or waits until another thread has closed it. Gives the number of the slots.
    #[cold]
    fn close_leaked(&self) -> usize {
        loop {
            match self.number.compare_exchange(DRAINING, CLOSING, Ordering::Acquire, Ordering::Acquire) {
                Ok(_) => break,
                Err(CLOSING) => spin_loop(),
                Err(number) => return number,
            }
        }
        // SAFETY: only one call makes DRAINING into CLOSING, and no other goes on before that is taken off.
        let (slots, kept) = unsafe { (&mut *self.slots.as_ptr(), &mut *self.kept.get()) };
        let refused = close(slots, kept);
        self.number.store(self.slots.len(), Ordering::Release);
        debug_assert_eq!(refused, 0);
        self.slots.len()
    }
}

/// Closes the drain: what was not handed over leaves, and the shorter side moves. Gives the refusal number, which is 0.
#[inline]
fn close(slots: &mut [u32], kept: &mut Kept) -> u16 {
    let reply = raw::drain_close(slots, &kept.drain, &mut kept.record);
    kept.moved = reply.moved;
    reply.refused
}

#[cfg(test)]
mod tests {
    extern crate std;

    use super::*;
    use core::sync::atomic::AtomicBool;
    use std::thread;
    use std::time::Duration;

    /// A look gives nothing before the thread that closes the drain is done.
    #[test]
    fn a_look_waits_for_the_closing() {
        let mut slots = [1, 2];
        let lent = Lent::new(&mut slots, Record { head: 0, len: 2, mark: 0 }, 0);
        let closed = AtomicBool::new(false);
        lent.number.store(CLOSING, Ordering::Relaxed);
        thread::scope(|scope| {
            scope.spawn(|| {
                lent.look();
                assert!(closed.load(Ordering::Relaxed));
            });
            scope.spawn(|| {
                assert_eq!(lent.find(raw::front), Some(1));
                assert!(closed.load(Ordering::Relaxed));
            });
            thread::sleep(Duration::from_millis(50));
            closed.store(true, Ordering::Relaxed);
            lent.number.store(2, Ordering::Release);
        });
    }
}
