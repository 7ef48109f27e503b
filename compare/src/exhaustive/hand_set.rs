//! Records that no call makes: drain records, walks and queue records set by hand, good and bad.

use super::{BIG, Visit, planted};
use crate::calls::{Call, Drain, Test, Walk};
use crate::model;

/// Every drain record whose numbers are at most one too large, good and bad, and some huge ones, with each step.
pub fn drains(cap: usize, visit: &mut Visit) {
    let mut step_all = |d: Drain| {
        let mut world = planted(cap, 0, 0);
        world.0[0].drain = Some(d);
        [Call::DrainNext, Call::DrainNextBack, Call::DrainClose].iter().for_each(|c| visit(&world, 0, c));
    };
    for head in 0..=cap {
        for start in 0..=cap {
            for drain_len in 0..=cap - start {
                for tail_len in 0..=cap + 1 - start - drain_len {
                    for idx in start.saturating_sub(1)..=start + drain_len + 1 {
                        for remaining in 0..=(start + drain_len + 1).saturating_sub(idx) {
                            step_all(Drain { head, start, drain_len, idx, tail_len, remaining });
                        }
                    }
                }
            }
        }
    }
    let good = Drain { head: 0, start: 0, drain_len: 0, idx: 0, tail_len: 0, remaining: 0 };
    for n in [BIG, BIG - cap, BIG - 1] {
        step_all(Drain { head: n, ..good });
        step_all(Drain { start: n, ..good });
        step_all(Drain { start: n, idx: n, drain_len: 1, tail_len: cap, remaining: 1, ..good });
        step_all(Drain { drain_len: n, remaining: n, ..good });
        step_all(Drain { drain_len: n, tail_len: 1, ..good });
        step_all(Drain { tail_len: n, start: 1, idx: 1, ..good });
        step_all(Drain { idx: n, remaining: 1, ..good });
        step_all(Drain { idx: n, remaining: n, ..good });
        step_all(Drain { remaining: n, idx: 1, ..good });
    }
}

/// Every walk whose numbers are at most one too large, good and bad, and some huge ones; its record has this mark.
pub fn walks(cap: usize, mark: bool, visit: &mut Visit) {
    let mut step_both = |w: Walk| {
        let mut world = planted(cap, 0, 0);
        world.0[0].walk = Some(w);
        [Call::WalkNext, Call::WalkNextBack].iter().for_each(|c| visit(&world, 0, c));
    };
    for head in 0..=cap {
        for len in 0..=cap + 1 {
            for high in 0..=len + 1 {
                (0..=high + 1).for_each(|low| step_both(Walk { head, len, mark, low, high }));
            }
        }
    }
    for n in [BIG, BIG - 1] {
        let whole = Walk { head: 0, len: cap, mark, low: 0, high: 0 };
        step_both(Walk { head: n, len: 0, ..whole });
        step_both(Walk { len: n, ..whole });
        step_both(Walk { low: n, high: n, ..whole });
        step_both(Walk { high: n, ..whole });
        step_both(Walk { len: n, high: n, ..whole });
    }
    let world = planted(cap, 0, 0);
    [Call::WalkNext, Call::WalkNextBack].iter().for_each(|c| visit(&world, 0, c));
}

/// Records that break rule 2.
pub fn bad(cap: usize) -> Vec<(usize, usize)> {
    let head = if cap == 0 { 1 } else { cap };
    vec![(head, 0), (0, cap + 1), (head, cap + 1), (BIG, 0), (0, BIG), (BIG, BIG), (1, BIG)]
}

/// One of each call on queues.
pub fn one_of_each() -> Vec<Call> {
    let t = Test::Below(12);
    vec![
        Call::PushBack(100),
        Call::PushFront(100),
        Call::PopFront,
        Call::PopBack,
        Call::PopFrontIf(t),
        Call::PopBackIf(t),
        Call::Get(0),
        Call::Front,
        Call::Back,
        Call::Truncate(1),
        Call::TruncateFront(1),
        Call::Clear,
        Call::Extend(vec![100]),
        Call::Prepend(vec![100]),
        Call::ExtendFront(vec![100]),
        Call::Resize(1, 100),
        Call::Insert(0, 100),
        Call::Remove(0),
        Call::Swap(0, 0),
        Call::SwapRemoveFront(0),
        Call::SwapRemoveBack(0),
        Call::Append,
        Call::SplitOff(0),
        Call::MoveAll,
        Call::MovePortion(1),
        Call::Retain(t),
        Call::Contains(10),
        Call::Equal,
        Call::Compare,
        Call::Ranges(0, 1),
        Call::FrontRun(0, 1),
        Call::BackRun(0, 1),
        Call::BinarySearch(10),
        Call::PartitionPoint(t),
        Call::Splice(0, 1, vec![100]),
        Call::DrainOpen(0, 1),
        Call::WalkBegin,
        Call::ImageWrite(7),
        Call::Fresh,
        Call::ImageRead(model::image(&[5])),
    ]
}

/// The calls on two queues, each with operands that good records accept.
pub fn both_calls() -> Vec<Call> {
    one_of_each().into_iter().filter(Call::on_both).collect()
}

/// Every call on a bad record, and the calls on two queues beside one; the two records have these marks.
pub fn bad_records(cap: usize, marks: [bool; 2], visit: &mut Visit) {
    for (head, len) in bad(cap) {
        let mut world = planted(cap, head, len);
        [world.0[0].mark, world.0[1].mark] = marks;
        one_of_each().iter().for_each(|c| visit(&world, 0, c));
        both_calls().iter().for_each(|c| visit(&world, 1, c));
    }
}
