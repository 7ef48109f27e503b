//! What is timed: each piece of work leaves the queue as it found it, so that it can be done again and again.
use crate::queue::Queue;
use std::hint::black_box;

#[derive(Clone, Copy, PartialEq)]
pub enum Work {
    PushBackPopFront,
    PushFrontPopBack,
    GetAll,
    Sum,
    SumBySteps,
    InsertRemoveFront,
    InsertRemoveQuarter,
    InsertRemoveMiddle,
    DrainMiddle,
    DrainAll,
    Extend,
    Prepend,
    ExtendFront,
    Resize,
    Append,
    SplitAppend,
    MoveAll,
    MovePortion(usize),
    SpliceSame,
    SpliceGrow,
    RetainAll,
    RetainHalf,
    Contains,
    Equality,
    Order,
    BinarySearch,
}

impl Work {
    pub const ALL: [Work; 27] = [
        Work::PushBackPopFront,
        Work::PushFrontPopBack,
        Work::GetAll,
        Work::Sum,
        Work::SumBySteps,
        Work::InsertRemoveFront,
        Work::InsertRemoveQuarter,
        Work::InsertRemoveMiddle,
        Work::DrainMiddle,
        Work::DrainAll,
        Work::Extend,
        Work::Prepend,
        Work::ExtendFront,
        Work::Resize,
        Work::Append,
        Work::SplitAppend,
        Work::MoveAll,
        Work::MovePortion(64),
        Work::MovePortion(1_000),
        Work::SpliceSame,
        Work::SpliceGrow,
        Work::RetainAll,
        Work::RetainHalf,
        Work::Contains,
        Work::Equality,
        Work::Order,
        Work::BinarySearch,
    ];

    pub fn name(self) -> &'static str {
        match self {
            Work::PushBackPopFront => "push_back, pop_front",
            Work::PushFrontPopBack => "push_front, pop_back",
            Work::GetAll => "get, every position",
            Work::Sum => "iter, summed",
            Work::SumBySteps => "for x in iter, summed",
            Work::InsertRemoveFront => "insert, remove at the front (none moves)",
            Work::InsertRemoveQuarter => "insert, remove at a quarter",
            Work::InsertRemoveMiddle => "insert, remove in the middle",
            Work::DrainMiddle => "drain n/8 in the middle, extend by n/8",
            Work::DrainAll => "for x in drain(..), summed; extend by n",
            Work::Extend => "extend by n, truncate",
            Work::Prepend => "prepend n/2, truncate_front",
            Work::ExtendFront => "extend_front n/2, truncate_front",
            Work::Resize => "resize by n/2 more, truncate",
            Work::Append => "append n/2, extend the other by n/2",
            Work::SplitAppend => "split_off in the middle, append",
            Work::MoveAll => "the whole move, extend by n",
            Work::MovePortion(64) => "a portion of 64, prepend 64",
            Work::MovePortion(_) => "a portion of 1,000, prepend 1,000",
            Work::SpliceSame => "splice n/8 for n/8 in the middle",
            Work::SpliceGrow => "splice n/8 for n/16, n/16 for n/8",
            Work::RetainAll => "retain, none rejected",
            Work::RetainHalf => "extend by n, retain half, truncate",
            Work::Contains => "contains, absent",
            Work::Equality => "equality, equal",
            Work::Order => "order, equal",
            Work::BinarySearch => "binary_search, 64 times",
        }
    }

    /// Whether it is timed with n elements: a portion is, where there are as many.
    pub fn is_for(self, n: usize) -> bool {
        match self {
            Work::MovePortion(k) => k <= n,
            _ => true,
        }
    }

    /// The aim: no more than so much of std's time. Where there is none, the figure is stated only.
    pub fn aim(self) -> Option<f64> {
        match self {
            Work::PushBackPopFront | Work::PushFrontPopBack | Work::GetAll | Work::InsertRemoveFront => Some(2.0),
            Work::DrainAll => Some(1.5),
            Work::Contains | Work::Equality | Work::Order | Work::BinarySearch => None,
            // iterating, and whatever moves or copies elements
            _ => Some(1.1),
        }
    }

    /// Whether a call's own cost is what counts, so that the inlined std is shown too.
    pub fn is_small(self) -> bool {
        matches!(self, Work::PushBackPopFront | Work::PushFrontPopBack | Work::GetAll | Work::InsertRemoveFront)
    }
}

/// A queue of `n` elements, another, and values to put in.
pub struct State<Q> {
    n: usize,
    wrapped: bool,
    queue: Q,
    other: Q,
    ascending: Vec<u32>,
    mixed: Vec<u32>,
}

/// No element is as large.
const ABSENT: u32 = u32::MAX;

impl<Q: Queue> State<Q> {
    /// The state that the work begins in: the elements stand in one run, or run past the last slot.
    pub fn for_work(work: Work, n: usize, wrapped: bool) -> State<Q> {
        let cap = n + n / 4 + 16;
        // round the end goes what the work is about
        let round = if let Work::MovePortion(k) = work { k } else { n };
        let head = if wrapped { cap - round / 2 } else { n / 8 + 4 };
        let ascending: Vec<u32> = (0..n as u32).collect();
        let mixed = ascending.iter().map(|v| v.wrapping_mul(2654435761) >> 1).collect();
        let mut queue = Q::starting_at(cap, head);
        let mut other = Q::starting_at(cap, head);
        match work {
            Work::Extend | Work::RetainHalf => {}
            Work::Prepend | Work::ExtendFront | Work::Resize => queue.extend(&ascending[0..n / 2]),
            Work::Append => {
                queue.extend(&ascending[0..n / 2]);
                other.extend(&ascending[0..n / 2]);
            }
            _ => {
                queue.extend(&ascending);
                other.extend(&ascending);
            }
        }
        State { n, wrapped, queue, other, ascending, mixed }
    }

    pub fn queue(&self) -> &Q {
        &self.queue
    }

    /// Does the work `turns` times.
    pub fn repeat(&mut self, work: Work, turns: u32) {
        let n = self.n;
        let values = &self.ascending;
        let q = &mut self.queue;
        let times = 0..turns;
        match work {
            Work::PushBackPopFront => times.for_each(|v| {
                black_box(&mut *q).push_back(v);
                black_box(q.pop_front());
            }),
            Work::PushFrontPopBack => times.for_each(|v| {
                black_box(&mut *q).push_front(v);
                black_box(q.pop_back());
            }),
            Work::GetAll => times.for_each(|_| {
                let q = black_box(&*q);
                let mut sum = 0u32;
                for i in 0..n {
                    sum = sum.wrapping_add(q.get(i).unwrap_or(0));
                }
                black_box(sum);
            }),
            Work::Sum => times.for_each(|_| {
                black_box(black_box(&*q).sum());
            }),
            Work::SumBySteps => times.for_each(|_| {
                black_box(black_box(&*q).sum_by_steps());
            }),
            Work::InsertRemoveFront => times.for_each(|v| insert_remove(q, 0, v)),
            Work::InsertRemoveQuarter => times.for_each(|v| insert_remove(q, n / 4, v)),
            Work::InsertRemoveMiddle => times.for_each(|v| insert_remove(q, n / 2, v)),
            Work::DrainMiddle => times.for_each(|_| {
                let q = black_box(&mut *q);
                q.drain(n / 2, n / 2 + n / 8);
                q.extend(&values[0..n / 8]);
            }),
            Work::DrainAll => times.for_each(|_| {
                let q = black_box(&mut *q);
                black_box(q.drain_sum());
                refill(q, values, self.wrapped);
            }),
            Work::Extend => times.for_each(|_| {
                let q = black_box(&mut *q);
                q.extend(values);
                q.truncate(0);
            }),
            Work::Prepend => times.for_each(|_| {
                let q = black_box(&mut *q);
                q.prepend(&values[0..n / 2]);
                q.truncate_front(n / 2);
            }),
            Work::ExtendFront => times.for_each(|_| {
                let q = black_box(&mut *q);
                q.extend_front(&values[0..n / 2]);
                q.truncate_front(n / 2);
            }),
            Work::Resize => times.for_each(|v| {
                let q = black_box(&mut *q);
                q.resize(n, v);
                q.truncate(n / 2);
            }),
            Work::SplitAppend => times.for_each(|_| black_box(&mut *q).split_append(n / 2)),
            Work::MoveAll => times.for_each(|_| {
                let q = black_box(&mut *q);
                q.move_all(&mut self.other);
                refill(q, values, self.wrapped);
            }),
            Work::MovePortion(k) => times.for_each(|_| {
                let q = black_box(&mut *q);
                q.move_portion(k, &mut self.other);
                match k == n {
                    true => refill(q, values, self.wrapped),
                    false => q.prepend(&values[0..k]),
                }
            }),
            Work::Append => times.for_each(|_| {
                let q = black_box(&mut *q);
                q.append(&mut self.other);
                q.truncate(n / 2);
                self.other.extend(&values[0..n / 2]);
            }),
            Work::SpliceSame => times.for_each(|_| {
                black_box(&mut *q).splice(n / 2, n / 2 + n / 8, &values[0..n / 8]);
            }),
            Work::SpliceGrow => times.for_each(|_| {
                let q = black_box(&mut *q);
                q.splice(n / 2, n / 2 + n / 16, &values[0..n / 8]);
                q.splice(n / 2, n / 2 + n / 8, &values[0..n / 16]);
            }),
            Work::RetainAll => times.for_each(|_| black_box(&mut *q).retain_below(ABSENT)),
            Work::RetainHalf => times.for_each(|_| {
                let q = black_box(&mut *q);
                q.extend(&self.mixed);
                q.retain_below(1 << 30);
                q.truncate(0);
            }),
            Work::Contains => times.for_each(|_| {
                black_box(black_box(&*q).contains(ABSENT));
            }),
            Work::Equality => times.for_each(|_| {
                black_box(black_box(&*q).equals(&self.other));
            }),
            Work::Order => times.for_each(|_| {
                black_box(black_box(&*q).is_less(&self.other));
            }),
            Work::BinarySearch => times.for_each(|_| {
                for i in 0..64 {
                    let x = self.mixed[i % n] % n as u32;
                    black_box(black_box(&*q).find(x));
                }
            }),
        }
    }
}

/// Puts the values into a queue that was emptied, and so starts anew at the first slot: what is put in front of that
/// runs round the end.
fn refill<Q: Queue>(q: &mut Q, values: &[u32], wrapped: bool) {
    let (front, back) = values.split_at(if wrapped { values.len() / 2 } else { 0 });
    q.extend(back);
    if wrapped {
        q.prepend(front);
    }
}

fn insert_remove<Q: Queue>(q: &mut Q, i: usize, v: u32) {
    let q = black_box(q);
    q.insert(i, v);
    black_box(q.remove(i));
}
