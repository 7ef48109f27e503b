//! Every call at the edges of larger capacities: empty, one, half, one short, full; head first, second, middle and
//! last; positions and ranges around the wrap and the end.

use crate::calls::{Call, Drain, Test};
use crate::exhaustive::{Visit, in_order, new_values, planted};
use crate::world::{Queue, World};

/// The numbers around an edge.
fn around(edge: usize) -> [usize; 3] {
    [edge.wrapping_sub(1), edge, edge + 1]
}

/// Every state and call at the edges of capacity cap, which is at least 1.
pub fn each(cap: usize, visit: &mut Visit) {
    let heads = in_order(vec![0, 1.min(cap - 1), cap / 2, cap - 1]);
    for len in in_order(vec![0, 1, 2.min(cap), cap / 2, cap - 1, cap]) {
        for &head in &heads {
            let world = planted(cap, head, len);
            let wrap = (cap - head).min(len);
            calls(cap, len, wrap, &mut |call| visit(&world, 0, call));
            drains(head, len, wrap, &world, visit);
            moves(len, wrap, &world, visit);
        }
    }
}

/// Drains of ranges at the edges, whole and with one taken from either end, and each step of them.
fn drains(head: usize, len: usize, wrap: usize, world: &World, visit: &mut Visit) {
    let places = in_order([around(0), around(wrap), around(len), around(len / 2)].concat());
    let ranges = places.iter().flat_map(|&start| places.iter().map(move |&end| (start, end)));
    for (start, end) in ranges.filter(|(start, end)| start <= end && *end <= len) {
        let drain_len = end - start;
        for (front, back) in [(0, 0), (1, 0), (0, 1), (1, 1), (drain_len, 0)] {
            if front + back <= drain_len {
                let remaining = drain_len - front - back;
                let mut world = world.clone();
                world.0[0].drain =
                    Some(Drain { head, start, drain_len, idx: start + front, tail_len: len - end, remaining });
                [Call::DrainNext, Call::DrainNextBack, Call::DrainClose].iter().for_each(|c| visit(&world, 0, c));
            }
        }
    }
}

/// Both forms of the move into as many slots: from head 0 on, across their end, and where one slot is free.
fn moves(len: usize, wrap: usize, world: &World, visit: &mut Visit) {
    let cap = world.0[0].cap();
    for (head, held) in [(0, 0), (cap - 1, 1), (cap / 2, cap / 2), (cap / 2, cap - 1)] {
        let other = Queue { head, len: held, ..Queue::new(cap, 50_000) };
        let world = World([world.0[0].clone(), other]);
        visit(&world, 0, &Call::MoveAll);
        for n in in_order([around(0), around(wrap), around(len), around(cap - held)].concat()) {
            visit(&world, 0, &Call::MovePortion(n));
        }
    }
}

/// The calls for a queue of len elements whose front run has wrap of them.
fn calls(cap: usize, len: usize, wrap: usize, take: &mut dyn FnMut(&Call)) {
    let places = in_order([around(0), around(wrap), around(len), around(len / 2)].concat());
    let values =
        in_order([around(0), around(wrap), around(len)].concat()).into_iter().map(|v| (v as u32).wrapping_add(10));
    let room = cap - len;
    for call in [
        Call::PushBack(9),
        Call::PushFront(9),
        Call::PopFront,
        Call::PopBack,
        Call::Front,
        Call::Back,
        Call::Clear,
        Call::Append,
    ] {
        take(&call);
    }
    for v in values {
        [Call::Contains(v), Call::BinarySearch(v)].iter().for_each(&mut *take);
        for t in Test::all(v) {
            [Call::Retain(t), Call::PartitionPoint(t)].iter().for_each(&mut *take);
        }
    }
    for &i in &places {
        for call in [
            Call::Get(i),
            Call::Truncate(i),
            Call::TruncateFront(i),
            Call::Resize(i, 9),
            Call::Insert(i, 9),
            Call::Remove(i),
            Call::SwapRemoveFront(i),
            Call::SwapRemoveBack(i),
            Call::SplitOff(i),
        ] {
            take(&call);
        }
        for &j in &places {
            [Call::Swap(i, j), Call::Ranges(i, j), Call::DrainOpen(i, j)].iter().for_each(&mut *take);
            let gone = j.wrapping_sub(i);
            for r in
                in_order(vec![0, 1, gone.wrapping_sub(1), gone, gone.wrapping_add(room), gone.wrapping_add(room + 1)])
            {
                if r <= cap + 1 && i <= j {
                    take(&Call::Splice(i, j, new_values(r).iter().map(|v| v + 20_000).collect()));
                }
            }
        }
    }
    for n in in_order(vec![0, 1, room.saturating_sub(1), room, room + 1]) {
        let new: Vec<u32> = new_values(n).iter().map(|v| v + 20_000).collect();
        [Call::Extend(new.clone()), Call::Prepend(new.clone()), Call::ExtendFront(new)].iter().for_each(&mut *take);
    }
}
