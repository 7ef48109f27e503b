//! A queue moved into another region, whole or in portions: q is the old queue, the other the region or the new queue.

use super::places::place;
use super::{Verdict, check, check_change, lay, list, make, slots_fit};
use crate::world::{Answer, World};

/// Everything goes into the other's slots, a bare region, from slot 0; the old queue's head and len become 0.
pub fn whole(world: &mut World, q: usize) -> Verdict {
    check_change(&world.0[q])?;
    slots_fit(world.0[1 - q].cap())?;
    let all = list(&world.0[q]);
    if all.len() > world.0[1 - q].cap() {
        return Err(4);
    }
    lay(&mut world.0[q], 0, &[]);
    make(&mut world.0[1 - q], &all);
    Ok((all.len(), Answer::Silent))
}

/// The smaller of n and len go from the old queue's front behind the new one's elements. The new one's mark then says
/// whether the old one has elements left; one that has none gets head 0.
pub fn portion(world: &mut World, q: usize, n: usize) -> Verdict {
    check_change(&world.0[q])?;
    check(&world.0[1 - q])?;
    let (mine, theirs) = (list(&world.0[q]), list(&world.0[1 - q]));
    let (passed, kept) = mine.split_at(n.min(mine.len()));
    if passed.len() > world.0[1 - q].cap() - theirs.len() {
        return Err(4);
    }
    let [old, new] = world.0.get_disjoint_mut([q, 1 - q]).expect("two queues");
    let head = if kept.is_empty() { 0 } else { place(old.cap(), old.head, passed.len()) };
    lay(old, head, kept);
    lay(new, new.head, &[&theirs, passed].concat());
    new.mark = !kept.is_empty();
    Ok((passed.len(), Answer::Silent))
}
