//! The gate's records set by hand, its drains and walks, and its images.

use super::{BIG, CAPS, RECORDS};
use crate::calls::{Call, Drain, Walk};
use crate::exhaustive::{bad, both_calls, broken_images, in_order, new_values, one_of_each, planted};
use crate::model;
use crate::stream::Stream;

/// Every call on records that break rule 2, and beside one.
pub fn bad_records(gate: &mut Stream) {
    for (head, len) in bad(CAPS[0]) {
        let world = planted(CAPS[0], head, len);
        one_of_each().iter().for_each(|c| gate.put(&world, 0, c));
        both_calls().iter().for_each(|c| gate.put(&world, 1, c));
        gate.put(&world, 1, &Call::SplitOff(3));
    }
}

/// Drains handed out from both ends, and drain records set by hand, good and bad.
pub fn drains(gate: &mut Stream) {
    for (start, end) in [(0, 5), (1, 4), (2, 5), (0, 2), (1, 2), (3, 3)] {
        for steps in ["fffff", "bbbbb", "fbfbf", "bf", "f", "b"] {
            gate.put(&planted(CAPS[0], 6, 5), 0, &Call::DrainOpen(start, end));
            for step in steps.chars() {
                gate.go(0, if step == 'f' { &Call::DrainNext } else { &Call::DrainNextBack });
            }
            gate.go(0, &Call::DrainClose);
        }
    }
    let good = Drain { head: 6, start: 1, drain_len: 3, idx: 2, tail_len: 2, remaining: 1 };
    let edges = |base: usize| [base.wrapping_sub(1), base + 1, base + 2, base + 3, BIG - 1, BIG];
    let mut all = vec![good];
    all.extend([7, 8, BIG].map(|head| Drain { head, ..good }));
    all.extend(edges(1).map(|start| Drain { start, ..good }));
    all.extend(edges(3).map(|drain_len| Drain { drain_len, ..good }));
    all.extend(edges(2).map(|idx| Drain { idx, ..good }));
    all.extend(edges(2).map(|tail_len| Drain { tail_len, ..good }));
    all.extend(edges(1).map(|remaining| Drain { remaining, ..good }));
    all.push(Drain { start: BIG, drain_len: BIG, idx: BIG, tail_len: BIG, remaining: BIG, ..good });
    all.push(Drain { start: BIG, drain_len: 1, idx: BIG, tail_len: 1, remaining: 1, ..good });
    for d in all {
        let mut world = planted(CAPS[0], 0, 0);
        world.0[0].drain = Some(d);
        [Call::DrainNext, Call::DrainNextBack, Call::DrainClose].iter().for_each(|c| gate.put(&world, 0, c));
    }
    gate.go(0, &Call::Forget);
}

/// Walks from both ends, over a queue that changes under them, beside an open drain, and set by hand, good and bad.
pub fn walks(gate: &mut Stream) {
    gate.put(&planted(CAPS[0], 6, 5), 0, &Call::WalkNext);
    for call in [
        Call::WalkNextBack,
        Call::WalkBegin,
        Call::WalkNext,
        Call::WalkNextBack,
        Call::PopFront,
        Call::WalkNext,
        Call::Clear,
        Call::WalkNext,
        Call::WalkNext,
        Call::WalkNext,
        Call::WalkNextBack,
    ] {
        gate.go(0, &call);
    }
    for call in
        [Call::WalkBegin, Call::WalkNextBack, Call::WalkNext, Call::WalkNext, Call::PushBack(9), Call::WalkBegin]
    {
        gate.go(1, &call);
    }
    gate.go(1, &Call::DrainOpen(0, 1));
    gate.go(1, &Call::DrainNext);
    gate.go(1, &Call::DrainClose);
    let good = Walk { head: 6, len: 5, mark: false, low: 1, high: 4 };
    let mut all = vec![good, Walk { mark: true, ..good }, Walk { low: 4, ..good }, Walk { low: 0, high: 5, ..good }];
    all.extend([8, BIG].map(|head| Walk { head, ..good }));
    all.extend([3, 9, BIG].map(|len| Walk { len, ..good }));
    all.extend([5, BIG].map(|low| Walk { low, ..good }));
    all.extend([0, 6, BIG].map(|high| Walk { high, ..good }));
    for w in all {
        let mut world = planted(CAPS[0], 0, 0);
        world.0[0].walk = Some(w);
        [Call::WalkNext, Call::WalkNextBack].iter().for_each(|c| gate.put(&world, 0, c));
    }
    // A begin that is refused leaves the walk as it was.
    gate.go(0, &Call::SetRecord(8, 0, false));
    gate.go(0, &Call::WalkBegin);
    gate.go(0, &Call::WalkNext);
}

/// Images read whole, broken, into too few slots; written into targets around the right length.
pub fn images(gate: &mut Stream) {
    let world = planted(CAPS[0], 6, 5);
    for n in [0, 1, 2] {
        broken_images(&new_values(n)).into_iter().for_each(|bytes| gate.put(&world, 0, &Call::ImageRead(bytes)));
    }
    for n in [3, 8, 9] {
        gate.put(&world, 0, &Call::ImageRead(model::image(&new_values(n))));
        gate.put(&world, 1, &Call::ImageRead(model::image(&new_values(n))));
    }
    // 9 elements that don't fit, and a length that is broken as well: 5 comes before 4.
    gate.put(&world, 0, &Call::ImageRead(model::image(&new_values(9))[..38].to_vec()));
    gate.put(&world, 0, &Call::ImageRead(model::image(&[0, u32::MAX, 0x0102_0304])));
    gate.go(0, &Call::ImageWrite(16));
    for (head, len) in RECORDS {
        let length = 3 + 4 * len;
        for target in in_order(vec![0, length - 1, length, length + 1, length + 6]) {
            gate.put(&planted(CAPS[0], head, len), 0, &Call::ImageWrite(target));
        }
    }
}
