//! The standard library's traits.
use crate::raw::Record;
use crate::{Iter, Queue};
use core::cmp::Ordering;
use core::fmt;
use core::hash::{Hash, Hasher};
use core::ops::Index;
use core::panic::RefUnwindSafe;

/// As a list, like `VecDeque`: `[10, 20, 30]`.
impl fmt::Debug for Queue<'_> {
    fn fmt(&self, f: &mut fmt::Formatter<'_>) -> fmt::Result {
        f.debug_list().entries(self).finish()
    }
}

/// Equal if both hold the same list, wherever it stands in their slots.
impl<'b> PartialEq<Queue<'b>> for Queue<'_> {
    #[inline]
    fn eq(&self, other: &Queue<'b>) -> bool {
        let (slots, kept) = other.lent.look();
        self.equals(slots, &kept.record)
    }
}

impl Eq for Queue<'_> {}

/// Equal if the list is the slice's.
impl PartialEq<[u32]> for Queue<'_> {
    #[inline]
    fn eq(&self, list: &[u32]) -> bool {
        // a list is a queue of its own slots; one of more than 16,000 is refused, which no queue equals
        self.equals(list, &Record { head: 0, len: list.len(), mark: 0 })
    }
}

/// Equal if the list is the slice's.
impl PartialEq<&[u32]> for Queue<'_> {
    #[inline]
    fn eq(&self, list: &&[u32]) -> bool {
        self == *list
    }
}

/// Equal if the list is the array's.
impl<const N: usize> PartialEq<[u32; N]> for Queue<'_> {
    #[inline]
    fn eq(&self, list: &[u32; N]) -> bool {
        self == list.as_slice()
    }
}

/// Lexicographic: by the first element that differs, or else by length.
impl<'b> PartialOrd<Queue<'b>> for Queue<'_> {
    #[inline]
    fn partial_cmp(&self, other: &Queue<'b>) -> Option<Ordering> {
        Some(self.order(other))
    }
}

impl Ord for Queue<'_> {
    #[inline]
    fn cmp(&self, other: &Queue<'_>) -> Ordering {
        self.order(other)
    }
}

/// Equal queues have equal hashes, wherever their lists stand.
impl Hash for Queue<'_> {
    fn hash<H: Hasher>(&self, state: &mut H) {
        self.len().hash(state);
        self.iter().for_each(|x| x.hash(state));
    }
}

impl Index<usize> for Queue<'_> {
    type Output = u32;

    /// The element at position i.
    ///
    /// # Panics
    ///
    /// If there is none. [`Queue::get`] gives an `Option`.
    #[inline]
    #[track_caller]
    fn index(&self, i: usize) -> &u32 {
        match self.slices(i..=i) {
            Ok((run, _)) => &run[0],
            Err(_) => panic!("there is no position {i} in a queue of {} elements", self.len()),
        }
    }
}

impl<'q> IntoIterator for &'q Queue<'_> {
    type Item = u32;
    type IntoIter = Iter<'q>;

    #[inline]
    fn into_iter(self) -> Iter<'q> {
        self.iter()
    }
}

// What a look changes, the closing of a leaked drain, is whole before anything is seen of it.
impl RefUnwindSafe for Queue<'_> {}
