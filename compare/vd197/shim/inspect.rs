// Added for this crate (not part of the given text): look inside, and set up any state.
use super::VecDeque;
use super::index::WrappedIndex;
impl VecDeque<u32> {
    /// A deque over exactly `slots.len()` slots with this content, head and len.
    pub fn ins_make(slots: &[u32], head: usize, len: usize) -> Self {
        assert!(len <= slots.len() && (head < slots.len() || (slots.is_empty() && head == 0)));
        let mut d = VecDeque::with_capacity(slots.len());
        unsafe { core::ptr::copy_nonoverlapping(slots.as_ptr(), d.buf.ptr(), slots.len()) };
        d.head = WrappedIndex::from_arbitrary_number(head);
        d.len = len;
        d
    }
    /// The slot where the list begins.
    pub fn ins_head(&self) -> usize { self.head.as_index() }
    /// Every slot, whether it holds an element or not.
    pub fn ins_slots(&self) -> &[u32] { unsafe { core::slice::from_raw_parts(self.buf.ptr(), self.buf.capacity()) } }
    /// The two runs of start..end, as `slice_ranges` gives them.
    pub fn ins_ranges(&self, start: usize, end: usize) -> [usize; 4] {
        let (a, b) = self.slice_ranges(start..end, self.len);
        [a.start, a.end, b.start, b.end]
    }
}
