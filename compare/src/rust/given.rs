//! The given text of vec_deque 1.97.0, built outside liballoc; its stand-in for the allocator never grows.

use super::{Engine, Step, calls_of_the_rust};
use crate::calls::{Call, Drain};
use crate::world::Answer;
use std::cmp::Ordering;
use vd197::VecDeque;

/// The 1.97.0 text over a buffer that can't grow.
pub struct Given {
    deque: VecDeque<u32>,
}

impl Engine for Given {
    const NAME: &'static str = "1.97.0";

    fn make(slots: &[u32], head: usize, len: usize) -> Self {
        Given { deque: VecDeque::ins_make(slots, head, len) }
    }

    fn head(&mut self) -> usize {
        self.deque.ins_head()
    }

    fn slots(&self) -> &[u32] {
        self.deque.ins_slots()
    }

    fn grown(&self) -> bool {
        false
    }

    fn ranges(&self, start: usize, end: usize) -> [usize; 4] {
        self.deque.ins_ranges(start, end)
    }

    calls_of_the_rust!();
}
