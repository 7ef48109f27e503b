//! Document 01 and E1 of document 02 as plain Rust: a queue is a list laid into slots from head on, and each call turns
//! one list into another. Nothing here looks at Rust's VecDeque.

mod drain;
mod image;
mod moves;
mod one;
mod places;
mod search;
mod two;
mod walk;

pub use drain::is_good as good_drain;
pub use image::image;
pub use places::{list, place, runs, step_back};
pub use search::{searched_run, test_order};
pub use walk::good as good_walk;

use crate::calls::Call;
use crate::world::{Answer, Outcome, Queue, World};

/// The most slots that a queue may have; beyond it every call on it is refused with 1.
pub const LIMIT: usize = 16_000;

/// A moved count and an answer, or a refusal number.
type Verdict = Result<(usize, Answer), u8>;

/// Does one call on queue q, or on both, and says what it gave.
pub fn call(world: &mut World, q: usize, call: &Call) -> Outcome {
    match verdict(world, q, call) {
        Ok((moved, answer)) => Outcome { refusal: 0, moved, answer },
        Err(number) => Outcome::refused(number, call),
    }
}

/// The refusal number of a call, also where the output doesn't show it (the front and the back run).
pub fn refusal(world: &World, q: usize, call: &Call) -> u8 {
    verdict(&mut world.clone(), q, call).err().unwrap_or(0)
}

/// Hands the call to the rule that it belongs to.
fn verdict(world: &mut World, q: usize, call: &Call) -> Verdict {
    match call {
        Call::Append => two::append(world, q),
        Call::SplitOff(at) => two::split_off(world, q, *at),
        Call::Equal => two::equal(world, q),
        Call::Compare => two::compare(world, q),
        Call::DrainOpen(start, end) => drain::open(&mut world.0[q], *start, *end),
        Call::DrainNext => drain::next(&mut world.0[q]),
        Call::DrainNextBack => drain::next_back(&mut world.0[q]),
        Call::DrainClose => drain::close(&mut world.0[q]),
        Call::WalkBegin => walk::begin(&mut world.0[q]),
        Call::WalkNext => walk::next(&mut world.0[q]),
        Call::WalkNextBack => walk::next_back(&mut world.0[q]),
        Call::Fresh => fresh(&mut world.0[q]),
        Call::ImageRead(bytes) => image::read(&mut world.0[q], bytes),
        Call::ImageWrite(target) => image::write(&world.0[q], *target),
        Call::MoveAll => moves::whole(world, q),
        Call::MovePortion(n) => moves::portion(world, q, *n),
        Call::SetRecord(..) | Call::SetDrain(_) | Call::SetWalk(_) | Call::Plant(..) | Call::Forget => {
            set(world, q, call)
        }
        _ => one::call(&mut world.0[q], call),
    }
}

/// Refusal 1: the slots are too many.
fn slots_fit(cap: usize) -> Result<(), u8> {
    if cap > LIMIT { Err(1) } else { Ok(()) }
}

/// Refusal 2 of a record: head is a slot (or 0 where there is none) and len is at most the capacity.
pub fn good_record(cap: usize, head: usize, len: usize) -> bool {
    (head < cap || (cap == 0 && head == 0)) && len <= cap
}

/// Refusals 1 and 2 of a queue.
fn check(queue: &Queue) -> Result<(), u8> {
    slots_fit(queue.cap())?;
    if good_record(queue.cap(), queue.head, queue.len) { Ok(()) } else { Err(2) }
}

/// Refusals 1, 2 and 6 of a queue, for a call that can change its list or record.
fn check_change(queue: &Queue) -> Result<(), u8> {
    check(queue)?;
    if queue.mark { Err(6) } else { Ok(()) }
}

/// Lays a list into the queue's slots from head on; every other slot keeps its value.
fn lay(queue: &mut Queue, head: usize, list: &[u32]) {
    let cap = queue.cap();
    for (i, &v) in list.iter().enumerate() {
        queue.slots[place(cap, head, i)] = v;
    }
    queue.head = head;
    queue.len = list.len();
}

/// Makes a new record over a list in bare slots, from slot 0 on: it has no mark, whatever stood there.
fn make(queue: &mut Queue, list: &[u32]) {
    lay(queue, 0, list);
    queue.mark = false;
}

/// Fresh: head 0, len 0; the slots keep what they hold.
fn fresh(queue: &mut Queue) -> Verdict {
    slots_fit(queue.cap())?;
    make(queue, &[]);
    Ok((0, Answer::Silent))
}

/// The lines 90 to 94, which only set a state.
fn set(world: &mut World, q: usize, call: &Call) -> Verdict {
    match *call {
        Call::SetRecord(head, len, mark) => {
            let queue = &mut world.0[q];
            (queue.head, queue.len, queue.mark) = (head, len, mark);
        }
        Call::SetDrain(d) => (world.0[q].drain, world.0[q].mark) = (Some(d), false),
        Call::SetWalk(w) => world.0[q].walk = Some(w),
        Call::Plant(head, len) => {
            let cap = world.0[0].cap();
            world.0 = [Queue::new(cap, 10), Queue::new(2, 20)];
            (world.0[0].head, world.0[0].len) = (head, len);
            (world.0[1].head, world.0[1].len) = (1, 2);
        }
        Call::Forget => {
            let queue = &mut world.0[q];
            (queue.drain, queue.head, queue.len, queue.mark) = (None, 0, 0, false);
        }
        _ => unreachable!("not a line that sets a state"),
    }
    Ok((0, Answer::Silent))
}
