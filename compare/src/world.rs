//! The two queues of a trial script with everything that a line of output shows of them.

use crate::calls::{Call, Drain, Walk};
use std::cmp::Ordering;
use std::fmt;

/// One queue: its lent slots, its record with the open mark, and its open drain and walk if it has them. While a drain
/// is open there is no mark.
#[derive(Clone, Debug, PartialEq, Eq)]
pub struct Queue {
    pub slots: Vec<u32>,
    pub head: usize,
    pub len: usize,
    pub mark: bool,
    pub drain: Option<Drain>,
    pub walk: Option<Walk>,
}

impl Queue {
    /// A fresh queue over slots that hold first, first + 1 and so on.
    pub fn new(cap: usize, first: u32) -> Queue {
        Queue { slots: (first..first + cap as u32).collect(), head: 0, len: 0, mark: false, drain: None, walk: None }
    }

    /// The number of slots.
    pub fn cap(&self) -> usize {
        self.slots.len()
    }
}

/// Queues A and B.
#[derive(Clone, Debug, PartialEq, Eq)]
pub struct World(pub [Queue; 2]);

impl World {
    /// The state behind a script's first line.
    pub fn new(caps: [usize; 2]) -> World {
        World([Queue::new(caps[0], 1000), Queue::new(caps[1], 2000)])
    }
}

/// What a call says.
#[derive(Clone, Debug, PartialEq, Eq)]
pub enum Answer {
    Silent,
    Nothing,
    Number(u32),
    Truth(bool),
    Order(Ordering),
    Found(usize),
    Place(usize),
    Runs([usize; 4]),
    Part(Vec<u32>),
    Count(usize),
    Image(usize, Vec<u8>),
}

/// A refusal number (0 if none), a moved count and an answer.
#[derive(Clone, Debug, PartialEq, Eq)]
pub struct Outcome {
    pub refusal: u8,
    pub moved: usize,
    pub answer: Answer,
}

impl Outcome {
    /// What a refused call writes: the two ranges and an image's target still show something, the two runs no number.
    pub fn refused(number: u8, call: &Call) -> Outcome {
        let (refusal, answer) = match call {
            Call::Ranges(..) => (number, Answer::Runs([0; 4])),
            Call::FrontRun(..) | Call::BackRun(..) => (0, Answer::Part(vec![])),
            Call::ImageWrite(n) => (number, Answer::Image(0, vec![238; *n])),
            _ => (number, Answer::Silent),
        };
        Outcome { refusal, moved: 0, answer }
    }
}

/// Writes each number after a space.
fn spaced<T: fmt::Display>(f: &mut fmt::Formatter<'_>, numbers: &[T]) -> fmt::Result {
    numbers.iter().try_for_each(|n| write!(f, " {n}"))
}

impl fmt::Display for Answer {
    fn fmt(&self, f: &mut fmt::Formatter<'_>) -> fmt::Result {
        match self {
            Answer::Silent => write!(f, "."),
            Answer::Nothing => write!(f, "none"),
            Answer::Number(v) => write!(f, "= {v}"),
            Answer::Truth(true) => write!(f, "yes"),
            Answer::Truth(false) => write!(f, "no"),
            Answer::Order(Ordering::Less) => write!(f, "lt"),
            Answer::Order(Ordering::Equal) => write!(f, "eq"),
            Answer::Order(Ordering::Greater) => write!(f, "gt"),
            Answer::Found(p) => write!(f, "found {p}"),
            Answer::Place(p) => write!(f, "place {p}"),
            Answer::Runs([a, b, c, d]) => write!(f, "runs {a} {b} {c} {d}"),
            Answer::Part(values) => {
                write!(f, "part {}", values.len())?;
                spaced(f, values)
            }
            Answer::Count(n) => write!(f, "count {n}"),
            Answer::Image(n, bytes) => {
                write!(f, "count {n} bytes")?;
                spaced(f, bytes)
            }
        }
    }
}

impl fmt::Display for Outcome {
    fn fmt(&self, f: &mut fmt::Formatter<'_>) -> fmt::Result {
        write!(f, "{} {} {}", self.refusal, self.moved, self.answer)
    }
}

impl fmt::Display for Queue {
    fn fmt(&self, f: &mut fmt::Formatter<'_>) -> fmt::Result {
        match self.drain {
            Some(d) => {
                write!(f, "d")?;
                spaced(f, &[d.head, d.start, d.drain_len, d.idx, d.tail_len, d.remaining])?;
            }
            None => write!(f, "{} {} o{}", self.head, self.len, u8::from(self.mark))?,
        }
        if let Some(w) = self.walk {
            write!(f, " w {} {}", w.low, w.high)?;
        }
        if self.cap() > 64 {
            let sum = self.slots.iter().fold(0, |s, &v| (s * 31 + u64::from(v) % 65521) % 65521);
            return write!(f, " # {sum}");
        }
        write!(f, " :")?;
        spaced(f, &self.slots)
    }
}

impl fmt::Display for World {
    fn fmt(&self, f: &mut fmt::Formatter<'_>) -> fmt::Result {
        write!(f, "{} | {}", self.0[0], self.0[1])
    }
}
