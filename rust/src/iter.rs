//! The elements of a queue, one after the other.
use core::iter::FusedIterator;
use core::mem;
use core::slice;

/// The elements of a queue in order, by value, from either end: those of its two runs.
#[derive(Clone, Debug, Default)]
#[must_use = "an iterator does nothing unless it is used"]
pub struct Iter<'q> {
    front: slice::Iter<'q, u32>,
    back: slice::Iter<'q, u32>,
}

impl<'q> Iter<'q> {
    /// The elements of the first run, then those of the second.
    #[inline]
    pub(crate) fn over(front: &'q [u32], back: &'q [u32]) -> Iter<'q> {
        Iter { front: front.iter(), back: back.iter() }
    }
}

/// The first element of a run, and what is left of it. Apart, so that a loop over the run before stays short.
#[cold]
#[inline(never)]
fn begin(mut run: slice::Iter<'_, u32>) -> (Option<u32>, slice::Iter<'_, u32>) {
    (run.next().copied(), run)
}

/// The last element of a run, and what is left of it.
#[cold]
#[inline(never)]
fn begin_back(mut run: slice::Iter<'_, u32>) -> (Option<u32>, slice::Iter<'_, u32>) {
    (run.next_back().copied(), run)
}

impl Iterator for Iter<'_> {
    type Item = u32;

    #[inline]
    fn next(&mut self) -> Option<u32> {
        match self.front.next() {
            Some(x) => Some(*x),
            None => {
                let (first, rest) = begin(mem::take(&mut self.back));
                self.front = rest;
                first
            }
        }
    }

    #[inline]
    fn size_hint(&self) -> (usize, Option<usize>) {
        let left = self.front.len() + self.back.len();
        (left, Some(left))
    }

    #[inline]
    fn nth(&mut self, n: usize) -> Option<u32> {
        let first = self.front.len();
        if n < first {
            return self.front.nth(n).copied();
        }
        self.front = mem::take(&mut self.back);
        self.front.nth(n - first).copied()
    }

    #[inline]
    fn last(mut self) -> Option<u32> {
        self.next_back()
    }

    #[inline]
    fn fold<B, F: FnMut(B, u32) -> B>(self, first: B, mut f: F) -> B {
        let middle = self.front.copied().fold(first, &mut f);
        self.back.copied().fold(middle, f)
    }
}

impl DoubleEndedIterator for Iter<'_> {
    #[inline]
    fn next_back(&mut self) -> Option<u32> {
        match self.back.next_back() {
            Some(x) => Some(*x),
            None => {
                let (last, rest) = begin_back(mem::take(&mut self.front));
                self.back = rest;
                last
            }
        }
    }

    #[inline]
    fn nth_back(&mut self, n: usize) -> Option<u32> {
        let last = self.back.len();
        if n < last {
            return self.back.nth_back(n).copied();
        }
        self.back = mem::take(&mut self.front);
        self.back.nth_back(n - last).copied()
    }

    #[inline]
    fn rfold<B, F: FnMut(B, u32) -> B>(self, last: B, mut f: F) -> B {
        let middle = self.back.copied().rfold(last, &mut f);
        self.front.copied().rfold(middle, f)
    }
}

impl ExactSizeIterator for Iter<'_> {}

impl FusedIterator for Iter<'_> {}
