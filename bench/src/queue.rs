//! What is timed, as each side offers it.

/// A queue over a fixed number of slots. A call that can't be met is not made here.
pub trait Queue {
    /// An empty queue over `cap` slots whose first element will stand in slot `head`.
    fn starting_at(cap: usize, head: usize) -> Self;
    fn push_back(&mut self, v: u32);
    fn push_front(&mut self, v: u32);
    fn pop_front(&mut self) -> Option<u32>;
    fn pop_back(&mut self) -> Option<u32>;
    fn get(&self, i: usize) -> Option<u32>;
    fn insert(&mut self, i: usize, v: u32);
    fn remove(&mut self, i: usize) -> Option<u32>;
    fn truncate(&mut self, n: usize);
    fn extend(&mut self, values: &[u32]);
    fn prepend(&mut self, values: &[u32]);
    fn extend_front(&mut self, values: &[u32]);
    fn truncate_front(&mut self, n: usize);
    fn resize(&mut self, n: usize, v: u32);
    fn append(&mut self, other: &mut Self);
    /// Splits the elements from position `at` on off, and appends them again.
    fn split_append(&mut self, at: usize);
    /// Moves all elements into the target, which is empty and starts at the first slot then, and is left empty.
    fn move_all(&mut self, target: &mut Self);
    /// Moves the first n elements into such a target.
    fn move_portion(&mut self, n: usize, target: &mut Self);
    fn drain(&mut self, start: usize, end: usize);
    fn splice(&mut self, start: usize, end: usize, values: &[u32]);
    fn retain_below(&mut self, k: u32);
    /// The sum of its elements, by the iterator's own loop.
    fn sum(&self) -> u32;
    /// The same, step by step.
    fn sum_by_steps(&self) -> u32;
    /// Drains all elements, step by step, and gives their sum.
    fn drain_sum(&mut self) -> u32;
    fn contains(&self, x: u32) -> bool;
    fn equals(&self, other: &Self) -> bool;
    fn is_less(&self, other: &Self) -> bool;
    fn find(&self, x: u32) -> bool;
}
