//! The calls on two queues: the one called on, q, and the other.

use super::{Verdict, check, check_change, lay, list, make, slots_fit};
use crate::world::{Answer, World};

/// Refusals 1 and 2 of q and then of the other queue.
fn check_both(world: &World, q: usize) -> Result<(), u8> {
    check(&world.0[q])?;
    check(&world.0[1 - q])
}

/// The other queue's elements go behind; its head and len become 0. Both queues change, so both are asked for a mark.
pub fn append(world: &mut World, q: usize) -> Verdict {
    check_change(&world.0[q])?;
    check_change(&world.0[1 - q])?;
    let (mine, theirs) = (list(&world.0[q]), list(&world.0[1 - q]));
    if mine.len() + theirs.len() > world.0[q].cap() {
        return Err(4);
    }
    let head = world.0[q].head;
    lay(&mut world.0[q], head, &[mine, theirs.clone()].concat());
    lay(&mut world.0[1 - q], 0, &[]);
    Ok((theirs.len(), Answer::Silent))
}

/// Positions at and on fill the other's slots, a bare target, from slot 0.
pub fn split_off(world: &mut World, q: usize, at: usize) -> Verdict {
    check_change(&world.0[q])?;
    slots_fit(world.0[1 - q].cap())?;
    let mine = list(&world.0[q]);
    if at > mine.len() {
        return Err(3);
    }
    if mine.len() - at > world.0[1 - q].cap() {
        return Err(4);
    }
    let head = world.0[q].head;
    lay(&mut world.0[q], head, &mine[..at]);
    make(&mut world.0[1 - q], &mine[at..]);
    Ok((mine.len() - at, Answer::Silent))
}

/// Whether the two lists are equal.
pub fn equal(world: &World, q: usize) -> Verdict {
    check_both(world, q)?;
    Ok((0, Answer::Truth(list(&world.0[q]) == list(&world.0[1 - q]))))
}

/// The lexicographic order of the two lists.
pub fn compare(world: &World, q: usize) -> Verdict {
    check_both(world, q)?;
    Ok((0, Answer::Order(list(&world.0[q]).cmp(&list(&world.0[1 - q])))))
}
