//! The proved queue, as a Rust program has it: the crate in ../rust over the archive of the exported calls.
use crate::queue::Queue;
use scorebucket::{Record, Test};

pub struct Proved {
    queue: scorebucket::Queue<'static>,
    /// The slots of what is split off, or is moved to here.
    target: Vec<u32>,
}

/// A call was refused that the benchmark means to be accepted.
const REFUSED: &str = "refused";

impl Queue for Proved {
    fn starting_at(cap: usize, head: usize) -> Self {
        let slots = vec![0; cap].leak();
        let queue = scorebucket::Queue::with_record(slots, Record { head, ..Record::default() }).expect(REFUSED);
        Proved { queue, target: vec![0; cap] }
    }
    fn push_back(&mut self, v: u32) {
        self.queue.push_back(v).expect(REFUSED)
    }
    fn push_front(&mut self, v: u32) {
        self.queue.push_front(v).expect(REFUSED)
    }
    fn pop_front(&mut self) -> Option<u32> {
        self.queue.pop_front().expect(REFUSED)
    }
    fn pop_back(&mut self) -> Option<u32> {
        self.queue.pop_back().expect(REFUSED)
    }
    fn get(&self, i: usize) -> Option<u32> {
        self.queue.get(i)
    }
    fn insert(&mut self, i: usize, v: u32) {
        self.queue.insert(i, v).expect(REFUSED)
    }
    fn remove(&mut self, i: usize) -> Option<u32> {
        self.queue.remove(i).expect(REFUSED)
    }
    fn truncate(&mut self, n: usize) {
        self.queue.truncate(n).expect(REFUSED)
    }
    fn extend(&mut self, values: &[u32]) {
        self.queue.extend(values).expect(REFUSED)
    }
    fn prepend(&mut self, values: &[u32]) {
        self.queue.prepend(values).expect(REFUSED)
    }
    fn truncate_front(&mut self, n: usize) {
        self.queue.truncate_front(n).expect(REFUSED)
    }
    fn extend_front(&mut self, values: &[u32]) {
        self.queue.extend_front(values).expect(REFUSED)
    }
    fn resize(&mut self, n: usize, v: u32) {
        self.queue.resize(n, v).expect(REFUSED)
    }
    fn split_append(&mut self, at: usize) {
        let mut later = self.queue.split_off(at, &mut self.target).expect(REFUSED);
        self.queue.append(&mut later).expect(REFUSED)
    }
    fn append(&mut self, other: &mut Self) {
        self.queue.append(&mut other.queue).expect(REFUSED)
    }
    fn move_all(&mut self, target: &mut Self) {
        self.queue.move_into(&mut target.target).expect(REFUSED);
    }
    fn move_portion(&mut self, n: usize, target: &mut Self) {
        let mut fresh = scorebucket::Queue::new(&mut target.target).expect(REFUSED);
        self.queue.move_portion(n, &mut fresh).expect(REFUSED)
    }
    fn drain(&mut self, start: usize, end: usize) {
        drop(self.queue.drain(start..end).expect(REFUSED))
    }
    fn splice(&mut self, start: usize, end: usize, values: &[u32]) {
        self.queue.splice(start..end, values).expect(REFUSED)
    }
    fn retain_below(&mut self, k: u32) {
        self.queue.retain(Test::Below(k)).expect(REFUSED)
    }
    fn sum(&self) -> u32 {
        self.queue.iter().fold(0, u32::wrapping_add)
    }
    fn sum_by_steps(&self) -> u32 {
        let mut sum = 0u32;
        for x in &self.queue {
            sum = sum.wrapping_add(x);
        }
        sum
    }
    fn drain_sum(&mut self) -> u32 {
        let mut sum = 0u32;
        for x in self.queue.drain(..).expect(REFUSED) {
            sum = sum.wrapping_add(x);
        }
        sum
    }
    fn contains(&self, x: u32) -> bool {
        self.queue.contains(x)
    }
    fn equals(&self, other: &Self) -> bool {
        self.queue == other.queue
    }
    fn is_less(&self, other: &Self) -> bool {
        self.queue < other.queue
    }
    fn find(&self, x: u32) -> bool {
        self.queue.binary_search(x).is_ok()
    }
}
