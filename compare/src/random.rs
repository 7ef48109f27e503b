//! Long sequences of calls with fixed seeds, which keep to the edges: full, one short, empty, and around the wrap.

use crate::calls::{Call, Drain, Test, Walk};
use crate::exhaustive::broken_images;
use crate::model;
use crate::rng::Rng;
use crate::script::Script;
use crate::world::{Queue, World};

/// The most values in one line, so that a line stays below 4,000 bytes.
const LIST: usize = 300;

/// How the values that enter are chosen.
#[derive(Clone, Copy)]
pub enum Values {
    /// Each is new, so that every element can be told from every other.
    New,
    /// Each is one of a few.
    Few,
    /// Any u32.
    Any,
}

/// What a sequence is made from as it grows: the state by the model, and the next new value.
struct Maker {
    rng: Rng,
    world: World,
    values: Values,
    next: u32,
}

/// A sequence of n calls on queues of these capacities.
pub fn sequence(seed: u64, caps: [usize; 2], values: Values, n: usize) -> Script {
    let mut maker = Maker { rng: Rng::new(seed), world: World::new(caps), values, next: 3000 };
    let mut lines = Vec::new();
    while lines.len() < n {
        let q = usize::from(maker.rng.once_in(3));
        let call = maker.call(q);
        model::call(&mut maker.world, q, &call);
        lines.push((q, call));
    }
    Script { caps, lines }
}

impl Maker {
    /// The next call on queue q.
    fn call(&mut self, q: usize) -> Call {
        if self.world.0[q].drain.is_some() {
            let steps = [
                Call::DrainNext,
                Call::DrainNext,
                Call::DrainNext,
                Call::DrainNextBack,
                Call::DrainNextBack,
                Call::DrainClose,
            ];
            let often = if model::good_drain(&self.world.0[q]) { 40 } else { 3 };
            return if self.rng.once_in(often) { Call::Forget } else { steps[self.rng.below(steps.len())].clone() };
        }
        if !model::good_record(self.world.0[q].cap(), self.world.0[q].head, self.world.0[q].len) && self.rng.once_in(3)
        {
            return self.record(q);
        }
        if self.world.0[q].mark && self.rng.once_in(4) {
            return self.without_mark(q);
        }
        if self.world.0[1 - q].mark && self.rng.once_in(3) {
            return Call::MovePortion(self.portion(q));
        }
        match self.rng.below(100) {
            0..=43 => self.change(q),
            44..=57 => self.fill(q),
            58..=66 => self.ask(q),
            67..=76 => self.with_range(q),
            77..=86 => self.with_both(q),
            87..=91 => self.walk(q),
            92..=94 => self.image(q),
            95..=97 => self.record(q),
            _ => self.thin(q),
        }
    }

    /// A number at an edge of queue q, or any position.
    fn position(&mut self, q: usize) -> usize {
        let Queue { head, len, .. } = self.world.0[q];
        let cap = self.world.0[q].cap();
        let (len, wrap) = (len.min(cap), cap.saturating_sub(head).min(len));
        let edges =
            [0, 1, len / 2, len.wrapping_sub(1), len, len + 1, wrap.wrapping_sub(1), wrap, wrap + 1, cap, usize::MAX];
        if self.rng.once_in(3) { self.rng.pick(&edges) } else { self.rng.below(len + 1) }
    }

    /// A value that enters.
    fn value(&mut self) -> u32 {
        match self.values {
            Values::Few => self.rng.below(4) as u32,
            Values::Any => self.rng.bits() as u32,
            Values::New => {
                self.next += 1;
                self.next
            }
        }
    }

    /// So many values.
    fn values(&mut self, n: usize) -> Vec<u32> {
        (0..n).map(|_| self.value()).collect()
    }

    /// A value that may stand in queue q.
    fn asked(&mut self, q: usize) -> u32 {
        let queue = &self.world.0[q];
        if queue.cap() == 0 || self.rng.once_in(4) {
            return self.rng.pick(&[0, 1, 2, 3, 1000, 2000, 3001, u32::MAX]);
        }
        let v = queue.slots[self.rng.below(queue.cap())];
        v.wrapping_add(self.rng.pick(&[0, 0, 0, 1, u32::MAX]))
    }

    /// A test that some elements of queue q meet.
    fn test(&mut self, q: usize) -> Test {
        let k = self.asked(q);
        Test::all(k)[self.rng.below(4)]
    }

    /// How many values to add to queue q: few, or as many as fit, or one more.
    fn amount(&mut self, q: usize) -> usize {
        let room = self.world.0[q].cap().saturating_sub(self.world.0[q].len);
        self.rng.pick(&[0, 1, 2, 3, 7, room.wrapping_sub(1), room, room + 1]).min(LIST)
    }

    /// Calls that add or take single elements.
    fn change(&mut self, q: usize) -> Call {
        match self.rng.below(13) {
            0 | 1 => Call::PushBack(self.value()),
            2 | 3 => Call::PushFront(self.value()),
            4 => Call::PopFront,
            5 => Call::PopBack,
            6 => Call::PopFrontIf(self.test(q)),
            7 => Call::PopBackIf(self.test(q)),
            8 => Call::Insert(self.position(q), self.value()),
            9 => Call::Remove(self.position(q)),
            10 => Call::Swap(self.position(q), self.position(q)),
            11 => Call::SwapRemoveFront(self.position(q)),
            _ => Call::SwapRemoveBack(self.position(q)),
        }
    }

    /// Calls that add many elements.
    fn fill(&mut self, q: usize) -> Call {
        let n = self.amount(q);
        match self.rng.below(4) {
            0 => Call::Extend(self.values(n)),
            1 => Call::Prepend(self.values(n)),
            2 => Call::ExtendFront(self.values(n)),
            _ => {
                let cap = self.world.0[q].cap();
                let len = self.rng.pick(&[cap, cap.wrapping_sub(1), cap + 1, cap / 2, 0]);
                Call::Resize(len, self.value())
            }
        }
    }

    /// Calls that only read one queue.
    fn ask(&mut self, q: usize) -> Call {
        match self.rng.below(7) {
            0 => Call::Get(self.position(q)),
            1 => Call::Front,
            2 => Call::Back,
            3 => Call::Contains(self.asked(q)),
            4 | 5 => Call::BinarySearch(self.asked(q)),
            _ => Call::PartitionPoint(self.test(q)),
        }
    }

    /// Calls with a range.
    fn with_range(&mut self, q: usize) -> Call {
        let (a, b) = (self.position(q), self.position(q));
        let (start, end) = if self.rng.once_in(20) { (a, b) } else { (a.min(b), a.max(b)) };
        let shown = if self.world.0[q].cap() > 64 { end.min(start.saturating_add(100)) } else { end };
        match self.rng.below(7) {
            0 => Call::Ranges(start, end),
            1 => Call::FrontRun(start, shown),
            2 => Call::BackRun(start, shown),
            3 | 4 => Call::DrainOpen(start, end),
            _ => {
                let n = self.amount(q);
                let gone = end.saturating_sub(start);
                let n = self.rng.pick(&[n, gone.wrapping_sub(1), gone, gone.saturating_add(1)]).min(LIST);
                Call::Splice(start, end, self.values(n))
            }
        }
    }

    /// Calls on both queues, unless the other has an open drain.
    fn with_both(&mut self, q: usize) -> Call {
        if self.world.0[1 - q].drain.is_some() {
            return self.change(q);
        }
        match self.rng.below(7) {
            0 => Call::Append,
            1 => Call::SplitOff(self.position(q)),
            2 => Call::Equal,
            3 => Call::Compare,
            4 => Call::MoveAll,
            _ => Call::MovePortion(self.portion(q)),
        }
    }

    /// How many to move out of queue q: a number at its edges, or as many as the other has room for, or one more.
    fn portion(&mut self, q: usize) -> usize {
        let other = &self.world.0[1 - q];
        let room = other.cap().saturating_sub(other.len);
        let at_an_edge = self.position(q);
        self.rng.pick(&[at_an_edge, at_an_edge, room, room + 1])
    }

    /// A way out for a marked queue whose move may never be ended: it is made anew, or its mark taken by hand.
    fn without_mark(&mut self, q: usize) -> Call {
        let Queue { head, len, .. } = self.world.0[q];
        if self.rng.once_in(3) { Call::Fresh } else { Call::SetRecord(head, len, false) }
    }

    /// Walks, now and then with ends set by hand.
    fn walk(&mut self, q: usize) -> Call {
        match self.rng.below(8) {
            0 => Call::WalkBegin,
            1 => {
                let Queue { head, len, mark, .. } = self.world.0[q];
                Call::SetWalk(Walk { head, len, mark, low: self.position(q), high: self.position(q) })
            }
            2..=5 => Call::WalkNext,
            _ => Call::WalkNextBack,
        }
    }

    /// Images of short lists, whole or broken.
    fn image(&mut self, q: usize) -> Call {
        let len = self.world.0[q].len;
        if self.rng.once_in(2) && len <= 60 {
            return Call::ImageWrite(4 * len + self.rng.pick(&[0, 2, 3, 4, 9]));
        }
        let n = self.rng.below(12);
        let list = self.values(n);
        let mut bytes = broken_images(&list);
        let i = if self.rng.once_in(3) { self.rng.below(bytes.len()) } else { bytes.len() - 1 };
        Call::ImageRead(bytes.swap_remove(i))
    }

    /// A record or a drain record set by hand at an edge, now and then a bad one.
    fn record(&mut self, q: usize) -> Call {
        let cap = self.world.0[q].cap();
        if self.rng.once_in(20) {
            let (head, len) = (self.rng.pick(&[cap, usize::MAX, 0]), self.rng.pick(&[cap + 1, usize::MAX, 1]));
            return Call::SetRecord(head, len, self.rng.once_in(2));
        }
        let head = self.rng.pick(&[0, cap.saturating_sub(1), cap / 2]);
        let any = self.rng.below(cap + 1);
        let len = self.rng.pick(&[0, 1.min(cap), cap.saturating_sub(1), cap, any]);
        if self.rng.once_in(8) {
            let d = |rng: &mut Rng| rng.below(cap + 1);
            let (start, idx, remaining) = (d(&mut self.rng), d(&mut self.rng), d(&mut self.rng));
            let drain_len = self.rng.below(cap + 1 - start);
            return Call::SetDrain(Drain { head, start, drain_len, idx, tail_len: cap - start - drain_len, remaining });
        }
        Call::SetRecord(head, len, self.rng.once_in(3))
    }

    /// Calls that may take many elements.
    fn thin(&mut self, q: usize) -> Call {
        match self.rng.below(6) {
            0 => Call::Fresh,
            1 => Call::Clear,
            2 => Call::Truncate(self.position(q)),
            3 => Call::TruncateFront(self.position(q)),
            _ => Call::Retain(self.test(q)),
        }
    }
}
