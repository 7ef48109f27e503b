//! std's VecDeque of the installed toolchain. Its state is set by public calls alone and read from where its slices
//! stand.

use super::{Engine, Step, calls_of_the_rust};
use crate::calls::{Call, Drain};
use crate::world::Answer;
use std::cmp::Ordering;
use std::collections::VecDeque;

/// std's queue, with its buffer's first slot and length as they were at the start.
pub struct Installed {
    deque: VecDeque<u32>,
    first: *mut u32,
    cap: usize,
}

impl Installed {
    /// The slot at which a slice of the queue begins.
    fn slot_of(&self, slice: &[u32]) -> usize {
        (slice.as_ptr() as usize - self.first as usize) / size_of::<u32>()
    }
}

impl Engine for Installed {
    const NAME: &'static str = "std";

    /// Fills every slot, turns the full queue until it begins at head, and cuts it to len: no slot's value is lost.
    fn make(slots: &[u32], head: usize, len: usize) -> Self {
        let cap = slots.len();
        let mut deque = VecDeque::with_capacity(cap);
        deque.extend(slots);
        let first = deque.as_mut_slices().0.as_mut_ptr();
        deque.truncate_front(cap - head);
        deque.extend(&slots[..head]);
        deque.truncate(len);
        let mut made = Installed { deque, first, cap };
        assert!(!made.grown() && made.head() == head && made.slots() == slots);
        made
    }

    /// Where the front slice begins; an empty queue is asked by a push, which is taken back.
    fn head(&mut self) -> usize {
        if self.cap == 0 || !self.deque.is_empty() {
            return self.slot_of(self.deque.as_slices().0);
        }
        let old = self.slots().to_vec();
        self.deque.push_back(0);
        let head = self.slot_of(self.deque.as_slices().0);
        self.deque.pop_back();
        // SAFETY: head is one of the buffer's slots, and the queue is empty.
        unsafe { self.first.add(head).write(old[head]) };
        head
    }

    fn slots(&self) -> &[u32] {
        assert!(!self.grown());
        // SAFETY: the buffer is the one of `make`, in which every slot was written.
        unsafe { std::slice::from_raw_parts(self.first, self.cap) }
    }

    fn grown(&self) -> bool {
        self.deque.capacity() != self.cap
    }

    fn ranges(&self, start: usize, end: usize) -> [usize; 4] {
        let (front, back) = self.deque.range(start..end).as_slices();
        let (a, c) = (self.slot_of(front), self.slot_of(back));
        [a, a + front.len(), c, c + back.len()]
    }

    calls_of_the_rust!();
}
