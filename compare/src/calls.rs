//! The calls of a trial script.

/// A test of an element, as `retain`, the conditional pops and `partition_point` take it.
#[derive(Clone, Copy, Debug, PartialEq, Eq)]
pub enum Test {
    Below(u32),
    AtLeast(u32),
    Equal(u32),
    NotEqual(u32),
}

impl Test {
    /// Whether an element meets the test.
    pub fn met(self, v: u32) -> bool {
        match self {
            Test::Below(k) => v < k,
            Test::AtLeast(k) => v >= k,
            Test::Equal(k) => v == k,
            Test::NotEqual(k) => v != k,
        }
    }

    /// The four tests with this k.
    pub fn all(k: u32) -> [Test; 4] {
        [Test::Below(k), Test::AtLeast(k), Test::Equal(k), Test::NotEqual(k)]
    }
}

/// The record of an open drain; any numbers may stand in it.
#[derive(Clone, Copy, Debug, PartialEq, Eq)]
pub struct Drain {
    pub head: usize,
    pub start: usize,
    pub drain_len: usize,
    pub idx: usize,
    pub tail_len: usize,
    pub remaining: usize,
}

/// A walk: a record of its own and two ends; any numbers may stand in it.
#[derive(Clone, Copy, Debug, PartialEq, Eq)]
pub struct Walk {
    pub head: usize,
    pub len: usize,
    pub mark: bool,
    pub low: usize,
    pub high: usize,
}

/// One line of a trial script behind its queue. The last five only set a state.
#[derive(Clone, Debug, PartialEq, Eq)]
pub enum Call {
    Fresh,
    PushBack(u32),
    PushFront(u32),
    PopFront,
    PopBack,
    PopFrontIf(Test),
    PopBackIf(Test),
    Get(usize),
    Front,
    Back,
    Truncate(usize),
    TruncateFront(usize),
    Clear,
    Extend(Vec<u32>),
    Prepend(Vec<u32>),
    ExtendFront(Vec<u32>),
    Resize(usize, u32),
    Insert(usize, u32),
    Remove(usize),
    Swap(usize, usize),
    SwapRemoveFront(usize),
    SwapRemoveBack(usize),
    Append,
    SplitOff(usize),
    Retain(Test),
    Contains(u32),
    Equal,
    Compare,
    Ranges(usize, usize),
    FrontRun(usize, usize),
    BackRun(usize, usize),
    BinarySearch(u32),
    PartitionPoint(Test),
    Splice(usize, usize, Vec<u32>),
    DrainOpen(usize, usize),
    DrainNext,
    DrainNextBack,
    DrainClose,
    WalkBegin,
    WalkNext,
    WalkNextBack,
    ImageRead(Vec<u8>),
    ImageWrite(usize),
    MoveAll,
    MovePortion(usize),
    SetRecord(usize, usize, bool),
    SetDrain(Drain),
    SetWalk(Walk),
    Plant(usize, usize),
    Forget,
}

/// The names of calls 0 to 44, by number.
pub const NAMES: [&str; 45] = [
    "fresh",
    "push_back",
    "push_front",
    "pop_front",
    "pop_back",
    "pop_front_if",
    "pop_back_if",
    "get",
    "front",
    "back",
    "truncate",
    "truncate_front",
    "clear",
    "extend",
    "prepend",
    "extend_front",
    "resize",
    "insert",
    "remove",
    "swap",
    "swap_remove_front",
    "swap_remove_back",
    "append",
    "split_off",
    "retain",
    "contains",
    "equal",
    "compare",
    "two ranges",
    "front run",
    "back run",
    "binary_search",
    "partition_point",
    "splice",
    "drain open",
    "drain next",
    "drain next_back",
    "drain close",
    "walk begin",
    "walk next",
    "walk next_back",
    "image read",
    "image write",
    "whole move",
    "portion",
];

impl Call {
    /// Whether the operands hold elements that enter the queue.
    pub fn adds(&self) -> bool {
        matches!(
            self,
            Call::PushBack(_)
                | Call::PushFront(_)
                | Call::Extend(_)
                | Call::Prepend(_)
                | Call::ExtendFront(_)
                | Call::Resize(..)
                | Call::Insert(..)
                | Call::Splice(..)
                | Call::ImageRead(_)
        )
    }

    /// Whether the call is on both queues.
    pub fn on_both(&self) -> bool {
        matches!(
            self,
            Call::Append | Call::SplitOff(_) | Call::Equal | Call::Compare | Call::MoveAll | Call::MovePortion(_)
        )
    }

    /// The call's name for a reader.
    pub fn name(&self) -> &'static str {
        NAMES.get(self.words().0).copied().unwrap_or("set a state")
    }
}
