//! A replay program of its own: journal bytes in, lines out, over std's VecDeque. Refusals, moved counts and the head
//! are worked out here from document 01; nothing of the model is used.

use std::collections::VecDeque;
use std::fmt::Write;

/// The slots of the replay program.
const SLOTS: usize = 16_000;

/// What a record asks for.
enum Operation {
    PushBack(u32),
    PushFront(u32),
    PopFront,
    PopBack,
    Drain(usize, usize),
    Truncate(usize),
    TruncateFront(usize),
    Insert(usize, u32),
    Remove(usize),
}

/// The first record of the bytes and those behind it; None if it is broken, unknown or cut.
fn record(bytes: &[u8]) -> Option<(Operation, &[u8])> {
    let (length, rest) = bytes.split_at_checked(2)?;
    let length = usize::from(length[0]) * 256 + usize::from(length[1]);
    let (body, rest) = rest.split_at_checked(length)?;
    let [1, code, operands @ ..] = body else { return None };
    let words: Option<Vec<u32>> = operands.chunks(4).map(|c| c.try_into().ok().map(u32::from_be_bytes)).collect();
    let operation = match (code, &words?[..]) {
        (1, [v]) => Operation::PushBack(*v),
        (2, [v]) => Operation::PushFront(*v),
        (3, []) => Operation::PopFront,
        (4, []) => Operation::PopBack,
        (5, [start, end]) => Operation::Drain(*start as usize, *end as usize),
        (6, [n]) => Operation::Truncate(*n as usize),
        (7, [n]) => Operation::TruncateFront(*n as usize),
        (8, [i, v]) => Operation::Insert(*i as usize, *v),
        (9, [i]) => Operation::Remove(*i as usize),
        _ => return None,
    };
    Some((operation, rest))
}

/// The queue, and where its list would begin in the slots.
struct Replay {
    queue: VecDeque<u32>,
    head: usize,
}

/// What a record writes behind its refusal number: moved, and for three operations the number or none.
type Said = (usize, Option<Option<u32>>);

/// Replays a journal and gives the lines.
pub fn replay(mut bytes: &[u8]) -> String {
    let mut replay = Replay { queue: VecDeque::with_capacity(SLOTS), head: 0 };
    let mut out = String::new();
    while !bytes.is_empty() {
        let Some((operation, rest)) = record(bytes) else {
            writeln!(out, "5 0 {} {}", replay.head, replay.queue.len()).unwrap();
            break;
        };
        bytes = rest;
        let (refusal, (moved, handed)) = match replay.apply(operation) {
            Ok(said) => (0, said),
            Err(number) => (number, (0, None)),
        };
        write!(out, "{refusal} {moved} {} {}", replay.head, replay.queue.len()).unwrap();
        match handed {
            Some(Some(v)) => writeln!(out, " {v}").unwrap(),
            Some(None) => out.push_str(" none\n"),
            None => out.push('\n'),
        }
    }
    out.push_str("end");
    replay.queue.iter().for_each(|v| write!(out, " {v}").unwrap());
    out.push('\n');
    out
}

impl Replay {
    /// Head n slots on, around the end.
    fn on(&mut self, n: usize) {
        self.head = (self.head + n) % SLOTS;
    }

    /// Head one slot back, around the beginning.
    fn back(&mut self) {
        self.head = (self.head + SLOTS - 1) % SLOTS;
    }

    /// Does one operation, or refuses it.
    fn apply(&mut self, operation: Operation) -> Result<Said, u8> {
        let len = self.queue.len();
        match operation {
            Operation::PushBack(v) => self.insert(len, v, false),
            Operation::PushFront(v) => self.insert(0, v, true),
            Operation::PopFront => {
                self.on(len.min(1));
                Ok((0, Some(self.queue.pop_front())))
            }
            Operation::PopBack => Ok((0, Some(self.queue.pop_back()))),
            Operation::Drain(start, end) => self.drain(start, end),
            Operation::Truncate(n) => {
                self.queue.truncate(n);
                Ok((0, None))
            }
            Operation::TruncateFront(n) => {
                let gone = len.saturating_sub(n);
                self.queue.drain(..gone);
                self.on(gone);
                Ok((0, None))
            }
            Operation::Insert(i, _) if i > len => Err(3),
            Operation::Insert(i, v) => self.insert(i, v, len - i >= i),
            Operation::Remove(i) => Ok(self.remove(i)),
        }
    }

    /// Puts v at position i; the earlier elements make room if `front`, else the later ones.
    fn insert(&mut self, i: usize, v: u32, front: bool) -> Result<Said, u8> {
        let len = self.queue.len();
        if len == SLOTS {
            return Err(4);
        }
        self.queue.insert(i, v);
        if front {
            self.back();
        }
        Ok((if front { i } else { len - i }, None))
    }

    /// Takes position i out; the later elements move if they are fewer than the earlier ones.
    fn remove(&mut self, i: usize) -> Said {
        let len = self.queue.len();
        let gone = self.queue.remove(i);
        if gone.is_none() {
            return (0, Some(None));
        }
        let later = len - i - 1;
        if later < i {
            return (later, Some(gone));
        }
        self.on(1);
        (i, Some(gone))
    }

    /// Takes start..end out and closes the hole from the shorter side, a tie from behind.
    fn drain(&mut self, start: usize, end: usize) -> Result<Said, u8> {
        let len = self.queue.len();
        if start > end || end > len {
            return Err(3);
        }
        self.queue.drain(start..end);
        let behind = len - end;
        if self.queue.is_empty() {
            self.head = 0;
        } else if start < behind {
            self.on(end - start);
        }
        Ok((if start == end { 0 } else { start.min(behind) }, None))
    }
}
