//! Holds what the Rust did with one call against what document 01 says, and names the kind of agreement or difference.

use crate::calls::Call;
use crate::known::{self, Known, Shows};
use crate::model;
use crate::rust::{Engine, Heard, Rust};
use crate::world::{Outcome, Queue, World};

/// Whether the moved count was counted in the Rust's own slots; it is where every element can be told from every other.
pub type Counted = bool;

/// How document 01 and the Rust stand to each other in one call.
pub enum Kind {
    /// Both accept; answer, records, lists and every slot are the same. Says whether moved could be counted.
    Agree(Counted),
    /// Both accept and differ as `known` says, and in nothing else.
    Differ(&'static Known, Counted),
    /// Refusal 1; the Rust has no such limit.
    Limit,
    /// Refusal 2; the Rust can't be brought into such a state.
    NoSuchState,
    /// Refusal 3; the Rust panics.
    Panics,
    /// Refusal 4; the Rust grows.
    Grows,
    /// Refusal 4 of split_off; the Rust makes a buffer of its own.
    OwnRoom,
    /// Refusal 6; the Rust has no mark, and does the call or fails in its own way.
    Open,
    /// The Rust has no such call.
    NoCounterpart,
    /// The Rust was not asked.
    NotAsked,
    /// Anything else: an error in these papers or programs.
    Wrong(String),
}

/// One call as document 01 has it: the state before it, what it gave, the state behind it.
pub struct Called<'a> {
    pub before: &'a World,
    pub q: usize,
    pub call: &'a Call,
    pub outcome: Outcome,
    pub after: World,
}

impl<'a> Called<'a> {
    /// Does the call by the model.
    pub fn by_model(before: &'a World, q: usize, call: &'a Call) -> Called<'a> {
        let mut after = before.clone();
        let outcome = model::call(&mut after, q, call);
        Called { before, q, call, outcome, after }
    }
}

/// Puts the call to an engine and names the kind; what the engine gave is handed back where it gave something.
pub fn judge<E: Engine>(rust: &mut Rust<E>, called: &Called) -> (Kind, Heard) {
    let heard = rust.hear(called.before, called.q, called.call);
    let refusal = match called.call {
        Call::FrontRun(..) | Call::BackRun(..) => model::refusal(called.before, called.q, called.call),
        _ => called.outcome.refusal,
    };
    let open = known::move_open(called.before, called.q, called.call);
    let kind = match (refusal, &heard) {
        (1.., _) if called.after != *called.before => Kind::Wrong(format!("refused, and left {}", called.after)),
        (6, _) if open => Kind::Open,
        (number, _) if open || number == 6 => Kind::Wrong(format!("refusal {number} here; a move is open: {open}")),
        (_, Heard::NoCounterpart) => Kind::NoCounterpart,
        (_, Heard::NotAsked) => Kind::NotAsked,
        (1, _) => Kind::Limit,
        (2, Heard::NoSuchState) => Kind::NoSuchState,
        (3, Heard::Panicked) => Kind::Panics,
        (4, Heard::Grew) => Kind::Grows,
        (4, Heard::OwnRoom) => Kind::OwnRoom,
        (0, Heard::Gave(answer, after)) => accepted(called, *answer == called.outcome.answer, after),
        (number, heard) => Kind::Wrong(format!("refusal {number} here, the Rust: {heard:?}")),
    };
    if !matches!(kind, Kind::Agree(_)) {
        rust.forget();
    }
    (kind, heard)
}

/// Both accept: whether the outcome is the same, and if not, whether the difference is a known one.
fn accepted(called: &Called, same_answer: bool, rust: &World) -> Kind {
    let known = known::which(&called.before.0[called.q], called.call);
    let same_slots = (0..2).all(|i| rust.0[i].slots == called.after.0[i].slots);
    let same_rest = (0..2).all(|i| without_left_overs(&rust.0[i]) == without_left_overs(&called.after.0[i]));
    let seen = match (same_answer, same_rest, same_slots) {
        (true, true, true) => None,
        (true, true, false) => Some(Shows::LeftOverSlots),
        (false, true, true) => Some(Shows::TheAnswer),
        _ => {
            return Kind::Wrong(format!(
                "answer the same: {same_answer}, list and record: {same_rest}, slots: {same_slots}; the Rust: {rust}"
            ));
        }
    };
    let moved = moved_in(called, rust);
    if moved.is_some_and(|n| n != called.outcome.moved) {
        return Kind::Wrong(format!("moved {} here, {moved:?} counted in the Rust's slots", called.outcome.moved));
    }
    match (seen, known) {
        (None, None) => Kind::Agree(moved.is_some()),
        (Some(seen), Some(known)) if seen == known.shows => Kind::Differ(known, moved.is_some()),
        (None, Some(known)) => Kind::Wrong(format!("no difference where one is told: {}", known.when)),
        (Some(seen), _) => Kind::Wrong(format!("a difference that isn't told, in {seen:?}; the Rust: {rust}")),
    }
}

/// A queue's record and the elements that stand, without the values of left-over slots.
fn without_left_overs(queue: &Queue) -> (Vec<(u32, usize)>, Queue) {
    (standing(queue), Queue { slots: vec![], ..queue.clone() })
}

/// The elements that stand in a queue and their slots; of one with an open drain the first, the remaining and the last.
fn standing(queue: &Queue) -> Vec<(u32, usize)> {
    let (head, positions): (usize, Vec<usize>) = match queue.drain {
        Some(_) if !model::good_drain(queue) => return vec![],
        Some(d) => {
            let tail = d.start + d.drain_len;
            (d.head, (0..d.start).chain(d.idx..d.idx + d.remaining).chain(tail..tail + d.tail_len).collect())
        }
        None if !model::good_record(queue.cap(), queue.head, queue.len) => return vec![],
        None => (queue.head, (0..queue.len).collect()),
    };
    let slot = |i| model::place(queue.cap(), head, i);
    positions.into_iter().map(|i| (queue.slots[slot(i)], slot(i))).collect()
}

/// Counts, in the Rust's own slots, the elements that stand before and after the call with another slot or buffer.
fn moved_in(called: &Called, rust: &World) -> Option<usize> {
    if (0..2).any(|i| rust.0[i].cap() > 64) {
        return None;
    }
    let all = |w: &World| -> Vec<(u32, usize, usize)> {
        (0..2).flat_map(|i| standing(&w.0[i]).into_iter().map(move |(v, s)| (v, i, s))).collect()
    };
    let (before, after) = (all(called.before), all(rust));
    let distinct =
        |all: &[(u32, usize, usize)]| all.iter().enumerate().all(|(i, a)| all[..i].iter().all(|b| a.0 != b.0));
    let operands = called.call.words().1;
    let enters_again = before.iter().any(|b| operands.contains(&(b.0 as usize)));
    let told_apart = distinct(&before) && distinct(&after) && !(enters_again && called.call.adds());
    told_apart.then(|| after.iter().filter(|a| before.iter().any(|b| a.0 == b.0 && (a.1, a.2) != (b.1, b.2))).count())
}
