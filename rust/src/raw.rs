//! The exported calls that this crate makes, as they are, and over each a safe function that lends it slices.
//!
//! Why the functions are safe: each exported call is proved for any slots, record and numbers; a slice or a reference
//! is never null, is aligned and as long as it says; and what a call writes comes as `&mut`, so that nothing else in
//! the call overlaps it. (`Seen` has pointers, and says what holds of them.) The structs are those of
//! `include/scorebucket.h`.
use core::marker::PhantomData;

/// The record of a queue.
#[repr(C)]
#[derive(Clone, Copy, Debug, Default, PartialEq)]
pub(crate) struct Record {
    pub head: usize,
    pub len: usize,
    /// 0, or set: the calls leave 1 then.
    pub mark: usize,
}

/// The record of an open drain.
#[repr(C)]
#[derive(Clone, Copy, Debug, Default, PartialEq)]
pub(crate) struct Drain {
    pub head: usize,
    pub start: usize,
    pub drain_len: usize,
    pub idx: usize,
    pub tail_len: usize,
    pub remaining: usize,
}

/// A queue as a look for one element is given it: the slots, their number, and the record.
///
/// These are no references, since there may be nothing to refer to: where the number is above 16,000, the look is
/// refused for it: no slot is read, and nothing of the record is used.
#[derive(Clone, Copy)]
pub(crate) struct Seen<'s> {
    slots: *const u32,
    number: usize,
    record: *const Record,
    lent: PhantomData<&'s Record>,
}

impl<'s> Seen<'s> {
    #[inline]
    pub fn of(slots: &'s [u32], record: &'s Record) -> Seen<'s> {
        Seen { slots: slots.as_ptr(), number: slots.len(), record, lent: PhantomData }
    }

    /// # Safety
    ///
    /// Where the number is at most 16,000, so many slots and the record are there, and nobody writes to them for `'s`.
    #[inline]
    pub unsafe fn at(slots: *const u32, number: usize, record: *const Record) -> Seen<'s> {
        Seen { slots, number, record, lent: PhantomData }
    }
}

/// A part of the slots.
#[repr(C)]
#[derive(Clone, Copy, Default)]
pub(crate) struct Span {
    pub start: usize,
    pub end: usize,
}

/// Of a call that changes a queue or makes one.
#[repr(C)]
#[derive(Clone, Copy)]
pub(crate) struct Reply {
    pub refused: u16,
    pub handed: u16,
    pub number: u32,
    pub moved: usize,
}

/// Of a look at one element.
#[repr(C)]
#[derive(Clone, Copy)]
pub(crate) struct FoundReply {
    pub refused: u16,
    pub found: u16,
    pub number: u32,
}

impl FoundReply {
    /// What was found. Both numbers are asked in one comparison: a `get` takes no longer than a few of them.
    #[inline]
    pub fn given(self) -> Option<u32> {
        let found = u32::from(self.found) << 16 | u32::from(self.refused) == 1 << 16;
        found.then_some(self.number)
    }
}

/// Of a yes-or-no question.
#[repr(C)]
#[derive(Clone, Copy)]
pub(crate) struct TruthReply {
    pub refused: u16,
    pub is: bool,
}

/// Of a comparison: 1 less, 2 equal, 3 greater.
#[repr(C)]
#[derive(Clone, Copy)]
pub(crate) struct OrderReply {
    pub refused: u16,
    pub order: u16,
}

/// Of a search.
#[repr(C)]
#[derive(Clone, Copy)]
pub(crate) struct SearchReply {
    pub refused: u16,
    pub found: u16,
    pub position: usize,
}

/// A number of elements or of bytes.
#[repr(C)]
#[derive(Clone, Copy)]
pub(crate) struct CountReply {
    pub refused: u16,
    pub count: usize,
}

/// The two runs of a range.
#[repr(C)]
#[derive(Clone, Copy, Default)]
pub(crate) struct Runs {
    pub front: Span,
    pub back: Span,
}

mod exported {
    use super::*;

    extern "C" {
        pub fn scorebucket_fresh(slots: *const u32, slots_len: usize, q: *mut Record) -> Reply;
        pub fn scorebucket_push_back(slots: *mut u32, slots_len: usize, q: *mut Record, v: u32) -> Reply;
        pub fn scorebucket_push_front(slots: *mut u32, slots_len: usize, q: *mut Record, v: u32) -> Reply;
        pub fn scorebucket_pop_front(slots: *const u32, slots_len: usize, q: *mut Record) -> Reply;
        pub fn scorebucket_pop_back(slots: *const u32, slots_len: usize, q: *mut Record) -> Reply;
        pub fn scorebucket_pop_front_if(
            slots: *const u32,
            slots_len: usize,
            q: *mut Record,
            kind: u32,
            k: u32,
        ) -> Reply;
        pub fn scorebucket_pop_back_if(slots: *const u32, slots_len: usize, q: *mut Record, kind: u32, k: u32)
            -> Reply;
        pub fn scorebucket_get(slots: *const u32, slots_len: usize, q: *const Record, i: usize) -> FoundReply;
        pub fn scorebucket_front(slots: *const u32, slots_len: usize, q: *const Record) -> FoundReply;
        pub fn scorebucket_back(slots: *const u32, slots_len: usize, q: *const Record) -> FoundReply;
        pub fn scorebucket_truncate(slots: *const u32, slots_len: usize, q: *mut Record, n: usize) -> Reply;
        pub fn scorebucket_truncate_front(slots: *const u32, slots_len: usize, q: *mut Record, n: usize) -> Reply;
        pub fn scorebucket_clear(slots: *const u32, slots_len: usize, q: *mut Record) -> Reply;
        pub fn scorebucket_swap(slots: *mut u32, slots_len: usize, q: *mut Record, i: usize, j: usize) -> Reply;
        pub fn scorebucket_swap_remove_front(slots: *mut u32, slots_len: usize, q: *mut Record, i: usize) -> Reply;
        pub fn scorebucket_swap_remove_back(slots: *mut u32, slots_len: usize, q: *mut Record, i: usize) -> Reply;
        pub fn scorebucket_insert(slots: *mut u32, slots_len: usize, q: *mut Record, i: usize, v: u32) -> Reply;
        pub fn scorebucket_remove(slots: *mut u32, slots_len: usize, q: *mut Record, i: usize) -> Reply;
        pub fn scorebucket_retain(slots: *mut u32, slots_len: usize, q: *mut Record, kind: u32, k: u32) -> Reply;
        pub fn scorebucket_extend(
            slots: *mut u32,
            slots_len: usize,
            q: *mut Record,
            values: *const u32,
            values_len: usize,
        ) -> Reply;
        pub fn scorebucket_prepend(
            slots: *mut u32,
            slots_len: usize,
            q: *mut Record,
            values: *const u32,
            values_len: usize,
        ) -> Reply;
        pub fn scorebucket_extend_front(
            slots: *mut u32,
            slots_len: usize,
            q: *mut Record,
            values: *const u32,
            values_len: usize,
        ) -> Reply;
        pub fn scorebucket_resize(slots: *mut u32, slots_len: usize, q: *mut Record, n: usize, v: u32) -> Reply;
        pub fn scorebucket_append(
            slots: *mut u32,
            slots_len: usize,
            q: *mut Record,
            other_slots: *const u32,
            other_slots_len: usize,
            other: *mut Record,
        ) -> Reply;
        pub fn scorebucket_split_off(
            slots: *const u32,
            slots_len: usize,
            q: *mut Record,
            at: usize,
            target: *mut u32,
            target_len: usize,
            t: *mut Record,
        ) -> Reply;
        pub fn scorebucket_move_all(
            slots: *const u32,
            slots_len: usize,
            q: *mut Record,
            target: *mut u32,
            target_len: usize,
            t: *mut Record,
        ) -> Reply;
        pub fn scorebucket_move_portion(
            slots: *const u32,
            slots_len: usize,
            q: *mut Record,
            n: usize,
            target: *mut u32,
            target_len: usize,
            other: *mut Record,
        ) -> Reply;
        pub fn scorebucket_drain(
            slots: *const u32,
            slots_len: usize,
            q: *const Record,
            start: usize,
            end: usize,
            d: *mut Drain,
        ) -> Reply;
        pub fn scorebucket_drain_close(slots: *mut u32, slots_len: usize, d: *const Drain, q: *mut Record) -> Reply;
        pub fn scorebucket_splice(
            slots: *mut u32,
            slots_len: usize,
            q: *mut Record,
            start: usize,
            end: usize,
            values: *const u32,
            values_len: usize,
        ) -> Reply;
        pub fn scorebucket_slice_ranges(
            slots: *const u32,
            slots_len: usize,
            q: *const Record,
            start: usize,
            end: usize,
            runs: *mut Runs,
        ) -> u16;
        pub fn scorebucket_contains(slots: *const u32, slots_len: usize, q: *const Record, x: u32) -> TruthReply;
        pub fn scorebucket_eq(
            slots: *const u32,
            slots_len: usize,
            q: *const Record,
            other_slots: *const u32,
            other_slots_len: usize,
            other: *const Record,
        ) -> TruthReply;
        pub fn scorebucket_cmp(
            slots: *const u32,
            slots_len: usize,
            q: *const Record,
            other_slots: *const u32,
            other_slots_len: usize,
            other: *const Record,
        ) -> OrderReply;
        pub fn scorebucket_binary_search(slots: *const u32, slots_len: usize, q: *const Record, x: u32) -> SearchReply;
        pub fn scorebucket_partition_point(
            slots: *const u32,
            slots_len: usize,
            q: *const Record,
            kind: u32,
            k: u32,
        ) -> CountReply;
        pub fn scorebucket_write_image(
            slots: *const u32,
            slots_len: usize,
            q: *const Record,
            target: *mut u8,
            target_len: usize,
        ) -> CountReply;
        pub fn scorebucket_read_image(
            slots: *mut u32,
            slots_len: usize,
            q: *mut Record,
            bytes: *const u8,
            bytes_len: usize,
        ) -> Reply;
    }
}

#[inline]
pub(crate) fn fresh(slots: &[u32], q: &mut Record) -> Reply {
    unsafe { exported::scorebucket_fresh(slots.as_ptr(), slots.len(), q) }
}

#[inline]
pub(crate) fn push_back(slots: &mut [u32], q: &mut Record, v: u32) -> Reply {
    unsafe { exported::scorebucket_push_back(slots.as_mut_ptr(), slots.len(), q, v) }
}

#[inline]
pub(crate) fn push_front(slots: &mut [u32], q: &mut Record, v: u32) -> Reply {
    unsafe { exported::scorebucket_push_front(slots.as_mut_ptr(), slots.len(), q, v) }
}

#[inline]
pub(crate) fn pop_front(slots: &[u32], q: &mut Record) -> Reply {
    unsafe { exported::scorebucket_pop_front(slots.as_ptr(), slots.len(), q) }
}

#[inline]
pub(crate) fn pop_back(slots: &[u32], q: &mut Record) -> Reply {
    unsafe { exported::scorebucket_pop_back(slots.as_ptr(), slots.len(), q) }
}

#[inline]
pub(crate) fn pop_front_if(slots: &[u32], q: &mut Record, kind: u32, k: u32) -> Reply {
    unsafe { exported::scorebucket_pop_front_if(slots.as_ptr(), slots.len(), q, kind, k) }
}

#[inline]
pub(crate) fn pop_back_if(slots: &[u32], q: &mut Record, kind: u32, k: u32) -> Reply {
    unsafe { exported::scorebucket_pop_back_if(slots.as_ptr(), slots.len(), q, kind, k) }
}

#[inline]
pub(crate) fn get(q: Seen<'_>, i: usize) -> FoundReply {
    unsafe { exported::scorebucket_get(q.slots, q.number, q.record, i) }
}

#[inline]
pub(crate) fn front(q: Seen<'_>) -> FoundReply {
    unsafe { exported::scorebucket_front(q.slots, q.number, q.record) }
}

#[inline]
pub(crate) fn back(q: Seen<'_>) -> FoundReply {
    unsafe { exported::scorebucket_back(q.slots, q.number, q.record) }
}

#[inline]
pub(crate) fn truncate(slots: &[u32], q: &mut Record, n: usize) -> Reply {
    unsafe { exported::scorebucket_truncate(slots.as_ptr(), slots.len(), q, n) }
}

#[inline]
pub(crate) fn truncate_front(slots: &[u32], q: &mut Record, n: usize) -> Reply {
    unsafe { exported::scorebucket_truncate_front(slots.as_ptr(), slots.len(), q, n) }
}

#[inline]
pub(crate) fn clear(slots: &[u32], q: &mut Record) -> Reply {
    unsafe { exported::scorebucket_clear(slots.as_ptr(), slots.len(), q) }
}

#[inline]
pub(crate) fn swap(slots: &mut [u32], q: &mut Record, i: usize, j: usize) -> Reply {
    unsafe { exported::scorebucket_swap(slots.as_mut_ptr(), slots.len(), q, i, j) }
}

#[inline]
pub(crate) fn swap_remove_front(slots: &mut [u32], q: &mut Record, i: usize) -> Reply {
    unsafe { exported::scorebucket_swap_remove_front(slots.as_mut_ptr(), slots.len(), q, i) }
}

#[inline]
pub(crate) fn swap_remove_back(slots: &mut [u32], q: &mut Record, i: usize) -> Reply {
    unsafe { exported::scorebucket_swap_remove_back(slots.as_mut_ptr(), slots.len(), q, i) }
}

#[inline]
pub(crate) fn insert(slots: &mut [u32], q: &mut Record, i: usize, v: u32) -> Reply {
    unsafe { exported::scorebucket_insert(slots.as_mut_ptr(), slots.len(), q, i, v) }
}

#[inline]
pub(crate) fn remove(slots: &mut [u32], q: &mut Record, i: usize) -> Reply {
    unsafe { exported::scorebucket_remove(slots.as_mut_ptr(), slots.len(), q, i) }
}

#[inline]
pub(crate) fn retain(slots: &mut [u32], q: &mut Record, kind: u32, k: u32) -> Reply {
    unsafe { exported::scorebucket_retain(slots.as_mut_ptr(), slots.len(), q, kind, k) }
}

#[inline]
pub(crate) fn extend(slots: &mut [u32], q: &mut Record, values: &[u32]) -> Reply {
    unsafe { exported::scorebucket_extend(slots.as_mut_ptr(), slots.len(), q, values.as_ptr(), values.len()) }
}

#[inline]
pub(crate) fn prepend(slots: &mut [u32], q: &mut Record, values: &[u32]) -> Reply {
    unsafe { exported::scorebucket_prepend(slots.as_mut_ptr(), slots.len(), q, values.as_ptr(), values.len()) }
}

#[inline]
pub(crate) fn extend_front(slots: &mut [u32], q: &mut Record, values: &[u32]) -> Reply {
    unsafe { exported::scorebucket_extend_front(slots.as_mut_ptr(), slots.len(), q, values.as_ptr(), values.len()) }
}

#[inline]
pub(crate) fn resize(slots: &mut [u32], q: &mut Record, n: usize, v: u32) -> Reply {
    unsafe { exported::scorebucket_resize(slots.as_mut_ptr(), slots.len(), q, n, v) }
}

#[inline]
pub(crate) fn append(slots: &mut [u32], q: &mut Record, other_slots: &[u32], other: &mut Record) -> Reply {
    unsafe {
        exported::scorebucket_append(slots.as_mut_ptr(), slots.len(), q, other_slots.as_ptr(), other_slots.len(), other)
    }
}

#[inline]
pub(crate) fn split_off(slots: &[u32], q: &mut Record, at: usize, target: &mut [u32], t: &mut Record) -> Reply {
    unsafe { exported::scorebucket_split_off(slots.as_ptr(), slots.len(), q, at, target.as_mut_ptr(), target.len(), t) }
}

#[inline]
pub(crate) fn move_all(slots: &[u32], q: &mut Record, target: &mut [u32], t: &mut Record) -> Reply {
    unsafe { exported::scorebucket_move_all(slots.as_ptr(), slots.len(), q, target.as_mut_ptr(), target.len(), t) }
}

#[inline]
pub(crate) fn move_portion(slots: &[u32], q: &mut Record, n: usize, target: &mut [u32], other: &mut Record) -> Reply {
    unsafe {
        exported::scorebucket_move_portion(slots.as_ptr(), slots.len(), q, n, target.as_mut_ptr(), target.len(), other)
    }
}

#[inline]
pub(crate) fn drain(slots: &[u32], q: &Record, start: usize, end: usize, d: &mut Drain) -> Reply {
    unsafe { exported::scorebucket_drain(slots.as_ptr(), slots.len(), q, start, end, d) }
}

#[inline]
pub(crate) fn drain_close(slots: &mut [u32], d: &Drain, q: &mut Record) -> Reply {
    unsafe { exported::scorebucket_drain_close(slots.as_mut_ptr(), slots.len(), d, q) }
}

#[inline]
pub(crate) fn splice(slots: &mut [u32], q: &mut Record, start: usize, end: usize, values: &[u32]) -> Reply {
    unsafe {
        exported::scorebucket_splice(slots.as_mut_ptr(), slots.len(), q, start, end, values.as_ptr(), values.len())
    }
}

#[inline]
pub(crate) fn slice_ranges(slots: &[u32], q: &Record, start: usize, end: usize, runs: &mut Runs) -> u16 {
    unsafe { exported::scorebucket_slice_ranges(slots.as_ptr(), slots.len(), q, start, end, runs) }
}

#[inline]
pub(crate) fn contains(slots: &[u32], q: &Record, x: u32) -> TruthReply {
    unsafe { exported::scorebucket_contains(slots.as_ptr(), slots.len(), q, x) }
}

#[inline]
pub(crate) fn eq(slots: &[u32], q: &Record, other_slots: &[u32], other: &Record) -> TruthReply {
    unsafe { exported::scorebucket_eq(slots.as_ptr(), slots.len(), q, other_slots.as_ptr(), other_slots.len(), other) }
}

#[inline]
pub(crate) fn cmp(slots: &[u32], q: &Record, other_slots: &[u32], other: &Record) -> OrderReply {
    unsafe { exported::scorebucket_cmp(slots.as_ptr(), slots.len(), q, other_slots.as_ptr(), other_slots.len(), other) }
}

#[inline]
pub(crate) fn binary_search(slots: &[u32], q: &Record, x: u32) -> SearchReply {
    unsafe { exported::scorebucket_binary_search(slots.as_ptr(), slots.len(), q, x) }
}

#[inline]
pub(crate) fn partition_point(slots: &[u32], q: &Record, kind: u32, k: u32) -> CountReply {
    unsafe { exported::scorebucket_partition_point(slots.as_ptr(), slots.len(), q, kind, k) }
}

#[inline]
pub(crate) fn write_image(slots: &[u32], q: &Record, target: &mut [u8]) -> CountReply {
    unsafe { exported::scorebucket_write_image(slots.as_ptr(), slots.len(), q, target.as_mut_ptr(), target.len()) }
}

#[inline]
pub(crate) fn read_image(slots: &mut [u32], q: &mut Record, bytes: &[u8]) -> Reply {
    unsafe { exported::scorebucket_read_image(slots.as_mut_ptr(), slots.len(), q, bytes.as_ptr(), bytes.len()) }
}
