//! Trial scripts as text: written, read and interpreted.

use crate::calls::Call;
use crate::world::World;
use std::fmt::Write;

/// The most bytes in a line.
const LINE: usize = 4_000;

/// The most slots that a script's first line may give a queue.
const SLOTS: usize = 16_002;

/// A script: the two capacities, and each line's queue and call.
pub struct Script {
    pub caps: [usize; 2],
    pub lines: Vec<(usize, Call)>,
}

impl Script {
    /// The script's text.
    pub fn text(&self) -> String {
        let mut text = format!("T {} {}\n", self.caps[0], self.caps[1]);
        for (q, call) in &self.lines {
            let line = line(*q, call);
            assert!(line.len() <= LINE, "a line is too long");
            text.push_str(&line);
            text.push('\n');
        }
        text
    }
}

/// One line of a script.
pub fn line(q: usize, call: &Call) -> String {
    let (number, operands) = call.words();
    let mut line = format!("{q} {number}");
    for word in operands {
        write!(line, " {word}").unwrap();
    }
    line
}

/// The numbers of a line's words, if it is made of numbers with one space between.
fn numbers(words: &str) -> Option<Vec<usize>> {
    words.split(' ').map(|w| w.bytes().all(|b| b.is_ascii_digit()).then(|| w.parse().ok()).flatten()).collect()
}

/// The capacities of a first line.
fn first_line(line: &str) -> Option<[usize; 2]> {
    let caps: [usize; 2] = numbers(line.strip_prefix("T ")?)?.try_into().ok()?;
    caps.iter().all(|&cap| cap <= SLOTS).then_some(caps)
}

/// The queue and the call of a line in this state.
fn call_of(line: &str, world: &World) -> Option<(usize, Call)> {
    let words = numbers(line)?;
    let [q @ 0..=1, number, operands @ ..] = &words[..] else { return None };
    let call = Call::from_words(*number, operands)?;
    let open = world.0[*q].drain.is_some();
    let needs_drain = matches!(call, Call::DrainNext | Call::DrainNextBack | Call::DrainClose);
    (open || !needs_drain).then_some((*q, call))
}

/// Interprets a script: `answer` does each call on the state and gives the words before the first bar.
pub fn interpret(text: &str, mut answer: impl FnMut(&mut World, usize, &Call) -> String) -> String {
    let mut out = String::new();
    let mut world = World::new([0, 0]);
    for (k, line) in text.lines().enumerate() {
        let parsed = if line.len() > LINE { None } else { Some(line) };
        if k == 0 {
            let Some(caps) = parsed.and_then(first_line) else { return broken(out, k) };
            world = World::new(caps);
            writeln!(out, "T {} {}", caps[0], caps[1]).unwrap();
            continue;
        }
        let Some((q, call)) = parsed.and_then(|line| call_of(line, &world)) else { return broken(out, k) };
        let said = answer(&mut world, q, &call);
        writeln!(out, "{said} | {world}").unwrap();
    }
    out
}

/// What was written so far, and the line that ends the run.
fn broken(out: String, k: usize) -> String {
    format!("{out}broken line {}\n", k + 1)
}
