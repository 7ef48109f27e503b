//! The replay program by the model of document 01, to be held against the one over std's VecDeque.

use crate::calls::Call;
use crate::model;
use crate::world::{Answer, Outcome, Queue, World};
use std::fmt::Write;

/// The calls of a record, its length and whether it hands a number over; None if it is broken, unknown or cut.
fn record(bytes: &[u8]) -> Option<(Vec<Call>, usize, bool)> {
    let word = |k: usize| bytes.get(4 + 4 * k..8 + 4 * k).map(|b| u32::from_be_bytes(b.try_into().unwrap()));
    let at = |k| word(k).map(|n| n as usize);
    let (operands, calls) = match *bytes.get(3)? {
        1 => (1, vec![Call::PushBack(word(0)?)]),
        2 => (1, vec![Call::PushFront(word(0)?)]),
        3 => (0, vec![Call::PopFront]),
        4 => (0, vec![Call::PopBack]),
        5 => (2, vec![Call::DrainOpen(at(0)?, at(1)?), Call::DrainClose]),
        6 => (1, vec![Call::Truncate(at(0)?)]),
        7 => (1, vec![Call::TruncateFront(at(0)?)]),
        8 => (2, vec![Call::Insert(at(0)?, word(1)?)]),
        9 => (1, vec![Call::Remove(at(0)?)]),
        _ => return None,
    };
    let right = bytes[..3] == [0, 2 + 4 * operands as u8, 1];
    right.then_some((calls, 4 + 4 * operands, matches!(bytes[3], 3 | 4 | 9)))
}

/// Replays a journal and gives the lines.
pub fn replay(mut bytes: &[u8]) -> String {
    let slots = Queue { slots: vec![0; model::LIMIT], ..Queue::new(0, 0) };
    let mut world = World([slots, Queue::new(0, 0)]);
    let mut out = String::new();
    while !bytes.is_empty() {
        let Some((calls, length, hands)) = record(bytes) else {
            writeln!(out, "5 0 {} {}", world.0[0].head, world.0[0].len).unwrap();
            break;
        };
        bytes = &bytes[length..];
        let mut outcome = Outcome { refusal: 0, moved: 0, answer: Answer::Silent };
        for call in calls {
            if outcome.refusal == 0 {
                outcome = model::call(&mut world, 0, &call);
            }
        }
        write!(out, "{} {} {} {}", outcome.refusal, outcome.moved, world.0[0].head, world.0[0].len).unwrap();
        match outcome.answer {
            Answer::Number(v) if hands => write!(out, " {v}").unwrap(),
            Answer::Nothing if hands => out.push_str(" none"),
            _ => (),
        }
        out.push('\n');
    }
    out.push_str("end");
    model::list(&world.0[0]).iter().for_each(|v| write!(out, " {v}").unwrap());
    out.push('\n');
    out
}
