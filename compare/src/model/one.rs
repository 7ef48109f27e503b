//! The calls on one queue that read or change its list at once.

use super::places::{place, range_fits, runs, step_back};
use super::{Verdict, check, check_change, lay, search};
use crate::calls::Call;
use crate::world::{Answer, Queue};

/// A queue's list and where it begins, while a rule works on it.
struct Now {
    cap: usize,
    head: usize,
    list: Vec<u32>,
}

/// Whether the call only looks, so that an open mark does not matter to it.
fn only_looks(call: &Call) -> bool {
    matches!(
        call,
        Call::Get(_)
            | Call::Front
            | Call::Back
            | Call::Contains(_)
            | Call::Ranges(..)
            | Call::FrontRun(..)
            | Call::BackRun(..)
            | Call::BinarySearch(_)
            | Call::PartitionPoint(_)
    )
}

/// Refusals 1, 2 and 6, then the call's rule, then the new list is laid.
pub fn call(queue: &mut Queue, call: &Call) -> Verdict {
    if only_looks(call) {
        check(queue)?
    } else {
        check_change(queue)?
    }
    let mut now = Now { cap: queue.cap(), head: queue.head, list: super::list(queue) };
    let (moved, answer) = now.rule(queue, call)?;
    lay(queue, now.head, &now.list);
    Ok((moved, answer))
}

/// The answer that hands over a number, or Nothing.
fn number(v: Option<u32>) -> Answer {
    v.map_or(Answer::Nothing, Answer::Number)
}

impl Now {
    /// Steps head on by n.
    fn on(&mut self, n: usize) {
        self.head = place(self.cap, self.head, n);
    }

    /// Steps head back by n.
    fn back(&mut self, n: usize) {
        self.head = step_back(self.cap, self.head, n);
    }

    /// Refusal 4: so many elements must fit.
    fn room(&self, wanted: Option<usize>) -> Result<(), u8> {
        if wanted.is_some_and(|n| n <= self.cap) { Ok(()) } else { Err(4) }
    }

    /// Refusal 4 of a call that adds n elements.
    fn room_for(&self, n: usize) -> Result<(), u8> {
        self.room(self.list.len().checked_add(n))
    }

    /// Each call's rule, in the order of a script's numbers.
    fn rule(&mut self, queue: &Queue, call: &Call) -> Verdict {
        let len = self.list.len();
        match call {
            Call::PushBack(v) => self.extend(&[*v]),
            Call::PushFront(v) => self.prepend(&[*v]),
            Call::PopFront => Ok((0, self.pop_front())),
            Call::PopBack => Ok((0, number(self.list.pop()))),
            Call::PopFrontIf(t) if self.list.first().is_some_and(|&v| t.met(v)) => Ok((0, self.pop_front())),
            Call::PopBackIf(t) if self.list.last().is_some_and(|&v| t.met(v)) => Ok((0, number(self.list.pop()))),
            Call::PopFrontIf(_) | Call::PopBackIf(_) => Ok((0, Answer::Nothing)),
            Call::Get(i) => Ok((0, number(self.list.get(*i).copied()))),
            Call::Front => Ok((0, number(self.list.first().copied()))),
            Call::Back => Ok((0, number(self.list.last().copied()))),
            Call::Truncate(n) => self.truncate(*n),
            Call::TruncateFront(n) => self.truncate_front(*n),
            Call::Clear => {
                (self.head, self.list) = (0, vec![]);
                Ok((0, Answer::Silent))
            }
            Call::Extend(values) => self.extend(values),
            Call::Prepend(values) => self.prepend(values),
            Call::ExtendFront(values) => self.prepend(&values.iter().rev().copied().collect::<Vec<_>>()),
            Call::Resize(n, v) if *n > len => {
                self.room(Some(*n))?;
                self.extend(&vec![*v; *n - len])
            }
            Call::Resize(n, _) => self.truncate(*n),
            Call::Insert(i, v) => self.insert(*i, *v),
            Call::Remove(i) => self.remove(*i),
            Call::Swap(i, j) => self.swap(*i, *j),
            Call::SwapRemoveFront(i) => self.swap_remove_front(*i),
            Call::SwapRemoveBack(i) => self.swap_remove_back(*i),
            Call::Retain(t) => {
                let first_rejected = self.list.iter().position(|&v| !t.met(v)).unwrap_or(len);
                self.list.retain(|&v| t.met(v));
                Ok((self.list.len() - first_rejected, Answer::Silent))
            }
            Call::Contains(x) => Ok((0, Answer::Truth(self.list.contains(x)))),
            Call::Ranges(start, end) => Ok((0, Answer::Runs(self.runs(*start, *end)?))),
            Call::FrontRun(start, end) => {
                let [a, b, _, _] = self.runs(*start, *end)?;
                Ok((0, Answer::Part(queue.slots[a..b].to_vec())))
            }
            Call::BackRun(start, end) => {
                let [_, _, c, d] = self.runs(*start, *end)?;
                Ok((0, Answer::Part(queue.slots[c..d].to_vec())))
            }
            Call::BinarySearch(x) => Ok((0, search::binary_search(self.cap, self.head, &self.list, *x))),
            Call::PartitionPoint(t) => Ok((0, search::partition_point(self.cap, self.head, &self.list, *t))),
            Call::Splice(start, end, values) => self.splice(*start, *end, values),
            _ => unreachable!("not a call on one list"),
        }
    }

    /// Takes the first element out; head steps on by one.
    fn pop_front(&mut self) -> Answer {
        if self.list.is_empty() {
            return Answer::Nothing;
        }
        self.on(1);
        Answer::Number(self.list.remove(0))
    }

    /// Keeps the first n.
    fn truncate(&mut self, n: usize) -> Verdict {
        self.list.truncate(n);
        Ok((0, Answer::Silent))
    }

    /// Keeps the last n; head steps on by as many as leave.
    fn truncate_front(&mut self, n: usize) -> Verdict {
        let leave = self.list.len().saturating_sub(n);
        self.on(leave);
        self.list.drain(..leave);
        Ok((0, Answer::Silent))
    }

    /// Appends values.
    fn extend(&mut self, values: &[u32]) -> Verdict {
        self.room_for(values.len())?;
        self.list.extend(values);
        Ok((0, Answer::Silent))
    }

    /// Puts values in front, in their order.
    fn prepend(&mut self, values: &[u32]) -> Verdict {
        self.room_for(values.len())?;
        self.back(values.len());
        self.list.splice(0..0, values.iter().copied());
        Ok((0, Answer::Silent))
    }

    /// The side with fewer elements moves: the later ones if len - i < i, else the i earlier ones.
    fn insert(&mut self, i: usize, v: u32) -> Verdict {
        let len = self.list.len();
        if i > len {
            return Err(3);
        }
        self.room_for(1)?;
        self.list.insert(i, v);
        if len - i < i {
            return Ok((len - i, Answer::Silent));
        }
        self.back(1);
        Ok((i, Answer::Silent))
    }

    /// The later ones move if len - i - 1 < i, else the i earlier ones.
    fn remove(&mut self, i: usize) -> Verdict {
        let len = self.list.len();
        if i >= len {
            return Ok((0, Answer::Nothing));
        }
        let gone = Answer::Number(self.list.remove(i));
        if len - i - 1 < i {
            return Ok((len - i - 1, gone));
        }
        self.on(1);
        Ok((i, gone))
    }

    /// Exchanges two positions.
    fn swap(&mut self, i: usize, j: usize) -> Verdict {
        if i.max(j) >= self.list.len() {
            return Err(3);
        }
        self.list.swap(i, j);
        Ok((if i == j { 0 } else { 2 }, Answer::Silent))
    }

    /// The front element takes the place of the removed one; head as after pop_front.
    fn swap_remove_front(&mut self, i: usize) -> Verdict {
        let Some(&gone) = self.list.get(i) else { return Ok((0, Answer::Nothing)) };
        self.list[i] = self.list[0];
        self.pop_front();
        Ok((usize::from(i != 0), Answer::Number(gone)))
    }

    /// The back element takes the place of the removed one.
    fn swap_remove_back(&mut self, i: usize) -> Verdict {
        let Some(&gone) = self.list.get(i) else { return Ok((0, Answer::Nothing)) };
        let last = self.list.len() - 1;
        self.list[i] = self.list[last];
        self.list.truncate(last);
        Ok((usize::from(i != last), Answer::Number(gone)))
    }

    /// The two runs of a range, if it fits.
    fn runs(&self, start: usize, end: usize) -> Result<[usize; 4], u8> {
        range_fits(start, end, self.list.len())?;
        Ok(runs(self.cap, self.head, start, end))
    }

    /// r values replace d = end - start elements in front of t.
    fn splice(&mut self, start: usize, end: usize, values: &[u32]) -> Verdict {
        range_fits(start, end, self.list.len())?;
        let (r, d, t) = (values.len(), end - start, self.list.len() - end);
        self.room(Some(start + r + t))?;
        self.list.splice(start..end, values.iter().copied());
        let mut moved = if r > d { t } else { 0 };
        if r < d {
            moved = if start + r < t { start } else { t };
            if start + r < t {
                self.on(d - r);
            }
        }
        if self.list.is_empty() {
            self.head = 0;
        }
        Ok((moved, Answer::Silent))
    }
}
