//! The installed toolchain's VecDeque, each call behind a function of its own, as a caller of the archive meets the
//! proved one; and the same with every call inlined.
use crate::queue::Queue;
use std::collections::VecDeque;

/// A VecDeque whose next element will stand in slot `head`.
fn starting_at(cap: usize, head: usize) -> VecDeque<u32> {
    let mut q = VecDeque::with_capacity(cap);
    assert_eq!(q.capacity(), cap);
    for _ in 0..head {
        q.push_back(0);
        q.pop_front();
    }
    q
}

macro_rules! side {
    ($name:ident, $inlining:meta) => {
        pub struct $name(VecDeque<u32>);

        impl Queue for $name {
            fn starting_at(cap: usize, head: usize) -> Self {
                $name(starting_at(cap, head))
            }
            #[$inlining]
            fn push_back(&mut self, v: u32) {
                self.0.push_back(v)
            }
            #[$inlining]
            fn push_front(&mut self, v: u32) {
                self.0.push_front(v)
            }
            #[$inlining]
            fn pop_front(&mut self) -> Option<u32> {
                self.0.pop_front()
            }
            #[$inlining]
            fn pop_back(&mut self) -> Option<u32> {
                self.0.pop_back()
            }
            #[$inlining]
            fn get(&self, i: usize) -> Option<u32> {
                self.0.get(i).copied()
            }
            #[$inlining]
            fn insert(&mut self, i: usize, v: u32) {
                self.0.insert(i, v)
            }
            #[$inlining]
            fn remove(&mut self, i: usize) -> Option<u32> {
                self.0.remove(i)
            }
            #[$inlining]
            fn truncate(&mut self, n: usize) {
                self.0.truncate(n)
            }
            #[$inlining]
            fn extend(&mut self, values: &[u32]) {
                self.0.extend(values)
            }
            #[$inlining]
            fn prepend(&mut self, values: &[u32]) {
                self.0.prepend(values.iter().copied())
            }
            #[$inlining]
            fn truncate_front(&mut self, n: usize) {
                self.0.truncate_front(n)
            }
            #[$inlining]
            fn extend_front(&mut self, values: &[u32]) {
                self.0.extend_front(values.iter().copied())
            }
            #[$inlining]
            fn resize(&mut self, n: usize, v: u32) {
                self.0.resize(n, v)
            }
            #[$inlining]
            fn split_append(&mut self, at: usize) {
                let mut later = self.0.split_off(at);
                self.0.append(&mut later)
            }
            #[$inlining]
            fn append(&mut self, other: &mut Self) {
                self.0.append(&mut other.0)
            }
            #[$inlining]
            fn move_all(&mut self, target: &mut Self) {
                let (front, back) = self.0.as_slices();
                target.0.clear();
                target.0.extend(front);
                target.0.extend(back);
                self.0.clear()
            }
            #[$inlining]
            fn move_portion(&mut self, n: usize, target: &mut Self) {
                target.0.clear();
                target.0.extend(self.0.drain(..n))
            }
            #[$inlining]
            fn drain(&mut self, start: usize, end: usize) {
                drop(self.0.drain(start..end))
            }
            #[$inlining]
            fn splice(&mut self, start: usize, end: usize, values: &[u32]) {
                drop(self.0.splice(start..end, values.iter().copied()))
            }
            #[$inlining]
            fn retain_below(&mut self, k: u32) {
                self.0.retain(|x| *x < k)
            }
            #[$inlining]
            fn sum(&self) -> u32 {
                self.0.iter().copied().fold(0, u32::wrapping_add)
            }
            #[$inlining]
            fn sum_by_steps(&self) -> u32 {
                let mut sum = 0u32;
                for x in &self.0 {
                    sum = sum.wrapping_add(*x);
                }
                sum
            }
            #[$inlining]
            fn drain_sum(&mut self) -> u32 {
                let mut sum = 0u32;
                for x in self.0.drain(..) {
                    sum = sum.wrapping_add(x);
                }
                sum
            }
            #[$inlining]
            fn contains(&self, x: u32) -> bool {
                self.0.contains(&x)
            }
            #[$inlining]
            fn equals(&self, other: &Self) -> bool {
                self.0 == other.0
            }
            #[$inlining]
            fn is_less(&self, other: &Self) -> bool {
                self.0 < other.0
            }
            #[$inlining]
            fn find(&self, x: u32) -> bool {
                self.0.binary_search(&x).is_ok()
            }
        }
    };
}

side!(Called, inline(never));
side!(Inlined, inline(always));
