//! The calls of a trial script as words: a call's number and its operands.

use crate::calls::{Call, Drain, Test, Walk};
use crate::numbers;

impl Test {
    /// The two words that write the test.
    fn words(self) -> [usize; 2] {
        match self {
            Test::Below(k) => [1, k as usize],
            Test::AtLeast(k) => [2, k as usize],
            Test::Equal(k) => [3, k as usize],
            Test::NotEqual(k) => [4, k as usize],
        }
    }
}

/// A count and then the values, as a script writes a LIST.
fn list_words<T: Copy + Into<u64>>(values: &[T]) -> Vec<usize> {
    let mut words = vec![values.len()];
    words.extend(values.iter().map(|&v| v.into() as usize));
    words
}

impl Call {
    /// The call's number and the words of its operands.
    pub fn words(&self) -> (usize, Vec<usize>) {
        match self {
            Call::Fresh => (numbers::FRESH, vec![]),
            Call::PushBack(v) => (numbers::PUSH_BACK, vec![*v as usize]),
            Call::PushFront(v) => (numbers::PUSH_FRONT, vec![*v as usize]),
            Call::PopFront => (numbers::POP_FRONT, vec![]),
            Call::PopBack => (numbers::POP_BACK, vec![]),
            Call::PopFrontIf(t) => (numbers::POP_FRONT_IF, t.words().to_vec()),
            Call::PopBackIf(t) => (numbers::POP_BACK_IF, t.words().to_vec()),
            Call::Get(i) => (numbers::GET, vec![*i]),
            Call::Front => (numbers::FRONT, vec![]),
            Call::Back => (numbers::BACK, vec![]),
            Call::Truncate(n) => (numbers::TRUNCATE, vec![*n]),
            Call::TruncateFront(n) => (numbers::TRUNCATE_FRONT, vec![*n]),
            Call::Clear => (numbers::CLEAR, vec![]),
            Call::Extend(l) => (numbers::EXTEND, list_words(l)),
            Call::Prepend(l) => (numbers::PREPEND, list_words(l)),
            Call::ExtendFront(l) => (numbers::EXTEND_FRONT, list_words(l)),
            Call::Resize(n, v) => (numbers::RESIZE, vec![*n, *v as usize]),
            Call::Insert(i, v) => (numbers::INSERT, vec![*i, *v as usize]),
            Call::Remove(i) => (numbers::REMOVE, vec![*i]),
            Call::Swap(i, j) => (numbers::SWAP, vec![*i, *j]),
            Call::SwapRemoveFront(i) => (numbers::SWAP_REMOVE_FRONT, vec![*i]),
            Call::SwapRemoveBack(i) => (numbers::SWAP_REMOVE_BACK, vec![*i]),
            Call::Append => (numbers::APPEND, vec![]),
            Call::SplitOff(at) => (numbers::SPLIT_OFF, vec![*at]),
            Call::Retain(t) => (numbers::RETAIN, t.words().to_vec()),
            Call::Contains(x) => (numbers::CONTAINS, vec![*x as usize]),
            Call::Equal => (numbers::EQUAL, vec![]),
            Call::Compare => (numbers::COMPARE, vec![]),
            Call::Ranges(s, e) => (numbers::RANGES, vec![*s, *e]),
            Call::FrontRun(s, e) => (numbers::FRONT_RUN, vec![*s, *e]),
            Call::BackRun(s, e) => (numbers::BACK_RUN, vec![*s, *e]),
            Call::BinarySearch(x) => (numbers::BINARY_SEARCH, vec![*x as usize]),
            Call::PartitionPoint(t) => (numbers::PARTITION_POINT, t.words().to_vec()),
            Call::Splice(s, e, l) => (numbers::SPLICE, [vec![*s, *e], list_words(l)].concat()),
            Call::DrainOpen(s, e) => (numbers::DRAIN_OPEN, vec![*s, *e]),
            Call::DrainNext => (numbers::DRAIN_NEXT, vec![]),
            Call::DrainNextBack => (numbers::DRAIN_NEXT_BACK, vec![]),
            Call::DrainClose => (numbers::DRAIN_CLOSE, vec![]),
            Call::WalkBegin => (numbers::WALK_BEGIN, vec![]),
            Call::WalkNext => (numbers::WALK_NEXT, vec![]),
            Call::WalkNextBack => (numbers::WALK_NEXT_BACK, vec![]),
            Call::ImageRead(bytes) => (numbers::IMAGE_READ, list_words(bytes)),
            Call::ImageWrite(n) => (numbers::IMAGE_WRITE, vec![*n]),
            Call::MoveAll => (numbers::MOVE_ALL, vec![]),
            Call::MovePortion(n) => (numbers::MOVE_PORTION, vec![*n]),
            Call::SetRecord(h, n, mark) => (numbers::SET_RECORD, vec![*h, *n, usize::from(*mark)]),
            Call::SetDrain(d) => {
                (numbers::SET_DRAIN, vec![d.head, d.start, d.drain_len, d.idx, d.tail_len, d.remaining])
            }
            Call::SetWalk(w) => (numbers::SET_WALK, vec![w.head, w.len, usize::from(w.mark), w.low, w.high]),
            Call::Plant(h, n) => (numbers::PLANT, vec![*h, *n]),
            Call::Forget => (numbers::FORGET, vec![]),
        }
    }

    /// The call with this number and these operands, if they make one.
    pub fn from_words(number: usize, words: &[usize]) -> Option<Call> {
        let mut at = Operands(words);
        let call = match number {
            numbers::FRESH => Call::Fresh,
            numbers::PUSH_BACK => Call::PushBack(at.value()?),
            numbers::PUSH_FRONT => Call::PushFront(at.value()?),
            numbers::POP_FRONT => Call::PopFront,
            numbers::POP_BACK => Call::PopBack,
            numbers::POP_FRONT_IF => Call::PopFrontIf(at.test()?),
            numbers::POP_BACK_IF => Call::PopBackIf(at.test()?),
            numbers::GET => Call::Get(at.number()?),
            numbers::FRONT => Call::Front,
            numbers::BACK => Call::Back,
            numbers::TRUNCATE => Call::Truncate(at.number()?),
            numbers::TRUNCATE_FRONT => Call::TruncateFront(at.number()?),
            numbers::CLEAR => Call::Clear,
            numbers::EXTEND => Call::Extend(at.list()?),
            numbers::PREPEND => Call::Prepend(at.list()?),
            numbers::EXTEND_FRONT => Call::ExtendFront(at.list()?),
            numbers::RESIZE => Call::Resize(at.number()?, at.value()?),
            numbers::INSERT => Call::Insert(at.number()?, at.value()?),
            numbers::REMOVE => Call::Remove(at.number()?),
            numbers::SWAP => Call::Swap(at.number()?, at.number()?),
            numbers::SWAP_REMOVE_FRONT => Call::SwapRemoveFront(at.number()?),
            numbers::SWAP_REMOVE_BACK => Call::SwapRemoveBack(at.number()?),
            numbers::APPEND => Call::Append,
            numbers::SPLIT_OFF => Call::SplitOff(at.number()?),
            numbers::RETAIN => Call::Retain(at.test()?),
            numbers::CONTAINS => Call::Contains(at.value()?),
            numbers::EQUAL => Call::Equal,
            numbers::COMPARE => Call::Compare,
            numbers::RANGES => Call::Ranges(at.number()?, at.number()?),
            numbers::FRONT_RUN => Call::FrontRun(at.number()?, at.number()?),
            numbers::BACK_RUN => Call::BackRun(at.number()?, at.number()?),
            numbers::BINARY_SEARCH => Call::BinarySearch(at.value()?),
            numbers::PARTITION_POINT => Call::PartitionPoint(at.test()?),
            numbers::SPLICE => Call::Splice(at.number()?, at.number()?, at.list()?),
            numbers::DRAIN_OPEN => Call::DrainOpen(at.number()?, at.number()?),
            numbers::DRAIN_NEXT => Call::DrainNext,
            numbers::DRAIN_NEXT_BACK => Call::DrainNextBack,
            numbers::DRAIN_CLOSE => Call::DrainClose,
            numbers::WALK_BEGIN => Call::WalkBegin,
            numbers::WALK_NEXT => Call::WalkNext,
            numbers::WALK_NEXT_BACK => Call::WalkNextBack,
            numbers::IMAGE_READ => Call::ImageRead(at.list()?),
            numbers::IMAGE_WRITE => Call::ImageWrite(at.number()?),
            numbers::MOVE_ALL => Call::MoveAll,
            numbers::MOVE_PORTION => Call::MovePortion(at.number()?),
            numbers::SET_RECORD => Call::SetRecord(at.number()?, at.number()?, at.mark()?),
            numbers::SET_DRAIN => Call::SetDrain(at.drain()?),
            numbers::SET_WALK => Call::SetWalk(at.walk()?),
            numbers::PLANT => Call::Plant(at.number()?, at.number()?),
            numbers::FORGET => Call::Forget,
            _ => return None,
        };
        at.0.is_empty().then_some(call)
    }
}

/// The operands of a line that are still to be read.
struct Operands<'a>(&'a [usize]);

impl Operands<'_> {
    /// The next number.
    fn number(&mut self) -> Option<usize> {
        let (&first, rest) = self.0.split_first()?;
        self.0 = rest;
        Some(first)
    }

    /// The next number, as an element.
    fn value(&mut self) -> Option<u32> {
        self.number()?.try_into().ok()
    }

    /// The next number, as an open mark: 0 or 1.
    fn mark(&mut self) -> Option<bool> {
        self.number().filter(|&n| n <= 1).map(|n| n == 1)
    }

    /// The next two words, as a test.
    fn test(&mut self) -> Option<Test> {
        let kind = self.number()?;
        let k = self.value()?;
        kind.checked_sub(1).and_then(|i| Test::all(k).get(i).copied())
    }

    /// A count and that many values.
    fn list<T: TryFrom<usize>>(&mut self) -> Option<Vec<T>> {
        let count = self.number()?;
        (count <= self.0.len()).then_some(())?;
        (0..count).map(|_| self.number()?.try_into().ok()).collect()
    }

    /// The six numbers of a drain record.
    fn drain(&mut self) -> Option<Drain> {
        let mut n = || self.number();
        Some(Drain { head: n()?, start: n()?, drain_len: n()?, idx: n()?, tail_len: n()?, remaining: n()? })
    }

    /// The five words of a walk: its record and its two ends.
    fn walk(&mut self) -> Option<Walk> {
        let (head, len, mark) = (self.number()?, self.number()?, self.mark()?);
        Some(Walk { head, len, mark, low: self.number()?, high: self.number()? })
    }
}
