//! Every state and every call of the small capacities.

mod hand_set;
mod moves;

pub use hand_set::{bad, both_calls, one_of_each};

use crate::calls::{Call, Test};
use crate::model;
use crate::world::{Queue, World};

/// The largest number that a script can write.
const BIG: usize = usize::MAX;

/// Takes a state, the queue called on and a call.
pub type Visit<'a> = dyn FnMut(&World, usize, &Call) + 'a;

/// The state that line 93 sets: A with this record over slots 10, 11, .., B with 20 21, head 1 and len 2.
pub fn planted(cap: usize, head: usize, len: usize) -> World {
    let mut world = World([Queue::new(cap, 10), Queue::new(2, 20)]);
    (world.0[0].head, world.0[0].len) = (head, len);
    (world.0[1].head, world.0[1].len) = (1, 2);
    world
}

/// Every good record over cap slots: the lengths in order, and every head for each.
pub fn records(cap: usize) -> impl Iterator<Item = (usize, usize)> {
    (0..=cap).flat_map(move |len| (0..cap.max(1)).map(move |head| (head, len)))
}

/// Everything about capacity cap, B having two slots; then the calls on two queues with every capacity up to cap beside
/// it.
pub fn each(cap: usize, visit: &mut Visit) {
    for (head, len) in records(cap) {
        let world = planted(cap, head, len);
        one_queue_calls(cap, len, &mut |call| visit(&world, 0, call));
        valued(cap, head, len, visit);
    }
    hand_set::drains(cap, visit);
    hand_set::walks(cap, false, visit);
    hand_set::bad_records(cap, [false; 2], visit);
    images(cap, visit);
    moves::marked(cap, visit);
    for other in 0..=cap {
        pairs(cap, other, visit);
        moves::pairs(cap, other, visit);
    }
}

/// Positions on both sides of every edge.
pub fn positions(cap: usize) -> Vec<usize> {
    (0..=cap + 1).chain([BIG - 1, BIG]).collect()
}

/// Numbers in order, each once.
pub fn in_order(mut numbers: Vec<usize>) -> Vec<usize> {
    numbers.sort_unstable();
    numbers.dedup();
    numbers
}

/// New values 100, 101, ..
pub fn new_values(n: usize) -> Vec<u32> {
    (100..100 + n as u32).collect()
}

/// Every call on one queue with every operand that matters, for slots that hold 10, 11, ..
pub fn one_queue_calls(cap: usize, len: usize, take: &mut dyn FnMut(&Call)) {
    let places = positions(cap);
    let ks = || (9..=11 + cap as u32).chain([0, u32::MAX]);
    for call in [
        Call::Fresh,
        Call::PushBack(100),
        Call::PushFront(100),
        Call::PopFront,
        Call::PopBack,
        Call::Front,
        Call::Back,
        Call::Clear,
        Call::WalkBegin,
    ] {
        take(&call);
    }
    for k in ks() {
        take(&Call::Contains(k));
        take(&Call::BinarySearch(k));
        for t in Test::all(k) {
            [Call::PopFrontIf(t), Call::PopBackIf(t), Call::Retain(t), Call::PartitionPoint(t)]
                .iter()
                .for_each(&mut *take);
        }
    }
    for &i in &places {
        for call in [
            Call::Get(i),
            Call::Truncate(i),
            Call::TruncateFront(i),
            Call::Resize(i, 100),
            Call::Insert(i, 100),
            Call::Remove(i),
            Call::SwapRemoveFront(i),
            Call::SwapRemoveBack(i),
            Call::SplitOff(i),
        ] {
            take(&call);
        }
        for &j in &places {
            [Call::Swap(i, j), Call::Ranges(i, j), Call::FrontRun(i, j), Call::BackRun(i, j), Call::DrainOpen(i, j)]
                .iter()
                .for_each(&mut *take);
            (0..=cap + 1).for_each(|r| take(&Call::Splice(i, j, new_values(r))));
        }
    }
    for n in 0..=cap + 1 - len.min(cap) {
        [Call::Extend(new_values(n)), Call::Prepend(new_values(n)), Call::ExtendFront(new_values(n))]
            .iter()
            .for_each(&mut *take);
    }
}

/// Every list of n values from 1 to top.
fn lists(n: usize, top: u32) -> Vec<Vec<u32>> {
    (0..n).fold(vec![vec![]], |all, _| {
        all.iter().flat_map(|l| (1..=top).map(|v| [l.clone(), vec![v]].concat())).collect()
    })
}

/// The state with this list; the left-over slots hold 90, 91, ..
fn holding(cap: usize, head: usize, list: &[u32]) -> World {
    let mut world = planted(cap, head, list.len());
    world.0[0].slots = (90..90 + cap as u32).collect();
    for (i, &v) in list.iter().enumerate() {
        world.0[0].slots[model::place(cap, head, i)] = v;
    }
    world
}

/// The calls whose outcome depends on the values, on every list of few values: equal, sorted and unsorted ones.
fn valued(cap: usize, head: usize, len: usize, visit: &mut Visit) {
    for list in lists(len, 3) {
        let world = holding(cap, head, &list);
        for k in 0..=4 {
            visit(&world, 0, &Call::Contains(k));
            visit(&world, 0, &Call::BinarySearch(k));
            for t in Test::all(k) {
                [Call::Retain(t), Call::PartitionPoint(t)].iter().for_each(|c| visit(&world, 0, c));
            }
        }
        for i in 0..len {
            [Call::SwapRemoveFront(i), Call::SwapRemoveBack(i)].iter().for_each(|c| visit(&world, 0, c));
        }
    }
    for list in lists(len, 2) {
        let world = holding(cap, head, &list);
        for start in 0..=len {
            for end in start..=len {
                let room = cap - (len - (end - start));
                let new = (0..=room).flat_map(|r| lists(r, 2));
                new.for_each(|new| visit(&world, 0, &Call::Splice(start, end, new)));
            }
        }
    }
}

/// Images of every length up to one too many, each way to break one, and targets around the right length.
fn images(cap: usize, visit: &mut Visit) {
    for (head, len) in records(cap) {
        let world = planted(cap, head, len);
        (0..=4 * len + 5).for_each(|n| visit(&world, 0, &Call::ImageWrite(n)));
    }
    for n in 0..=cap + 1 {
        let world = planted(cap, 0, cap);
        broken_images(&new_values(n)).into_iter().for_each(|bytes| visit(&world, 0, &Call::ImageRead(bytes)));
    }
}

/// A list's image, and it with one thing wrong: cut, lengthened, another length, another version.
pub fn broken_images(list: &[u32]) -> Vec<Vec<u8>> {
    let good = model::image(list);
    let mut all: Vec<Vec<u8>> = (0..good.len()).map(|n| good[..n].to_vec()).collect();
    all.push([good.clone(), vec![0]].concat());
    all.push([good.clone(), vec![0; 4]].concat());
    for (at, v) in [
        (0, 1),
        (1, good[1].wrapping_add(4)),
        (1, good[1].wrapping_sub(1)),
        (1, good[1] + 1),
        (1, 0),
        (2, 0),
        (2, 2),
        (2, 255),
    ] {
        let mut bytes = good.clone();
        bytes[at] = v;
        all.push(bytes);
    }
    all.push(good);
    all
}

/// The state with these records over slots that hold 10, 11, .. and 50, 51, ..
fn two(cap: usize, a: (usize, usize), other: usize, b: (usize, usize)) -> World {
    let mut world = World([Queue::new(cap, 10), Queue::new(other, 50)]);
    (world.0[0].head, world.0[0].len) = a;
    (world.0[1].head, world.0[1].len) = b;
    world
}

/// The calls on two queues in every pair of records; the lists also equal, or one the beginning of the other.
fn pairs(cap: usize, other: usize, visit: &mut Visit) {
    for (a, b) in records(cap).flat_map(|a| records(other).map(move |b| (a, b))) {
        let mut world = two(cap, a, other, b);
        for q in 0..2 {
            let len = world.0[q].len;
            visit(&world, q, &Call::Append);
            (0..=len + 1).chain([BIG]).for_each(|at| visit(&world, q, &Call::SplitOff(at)));
        }
        for change in 0..=b.1 {
            for i in 0..b.1 {
                let v = 10 + i as u32 + u32::from(i == change);
                world.0[1].slots[model::place(other, b.0, i)] = v;
            }
            for i in 0..a.1 {
                world.0[0].slots[model::place(cap, a.0, i)] = 10 + i as u32;
            }
            for q in 0..2 {
                [Call::Equal, Call::Compare].iter().for_each(|c| visit(&world, q, c));
            }
        }
    }
}
