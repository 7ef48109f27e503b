//! Counts what was compared, by call and kind, and keeps the smallest input of each known difference.

use crate::calls::NAMES;
use crate::judge::{Called, Kind};
use crate::known::KNOWN;
use crate::rust::Heard;
use std::collections::BTreeMap;

/// The columns of the table.
const COLUMNS: [&str; 10] =
    ["agree", "differ", "limit", "no state", "panics", "grows", "own room", "open", "no call", "unasked"];

/// A known difference as it was seen: how often, and its smallest input with both outcomes.
struct Seen {
    count: u64,
    key: (usize, usize, usize, Vec<usize>),
    text: String,
}

/// What one engine's comparison came to.
pub struct Tally {
    engine: &'static str,
    rows: BTreeMap<usize, [u64; COLUMNS.len()]>,
    seen: BTreeMap<&'static str, Seen>,
    counted: u64,
    pub calls: u64,
    pub wrong: u64,
}

impl Tally {
    /// Nothing compared yet.
    pub fn new(engine: &'static str) -> Tally {
        Tally { engine, rows: BTreeMap::new(), seen: BTreeMap::new(), counted: 0, calls: 0, wrong: 0 }
    }

    /// Enters one call. A wrong one is printed at once, up to a few.
    pub fn enter(&mut self, called: &Called, kind: &Kind, heard: &Heard) {
        let (number, operands) = called.call.words();
        let column = match kind {
            Kind::Agree(counted) => {
                self.counted += u64::from(*counted);
                0
            }
            Kind::Differ(known, counted) => {
                self.counted += u64::from(*counted);
                self.differ(known.when, called, operands, heard);
                1
            }
            Kind::Limit => 2,
            Kind::NoSuchState => 3,
            Kind::Panics => 4,
            Kind::Grows => 5,
            Kind::OwnRoom => 6,
            Kind::Open => 7,
            Kind::NoCounterpart => 8,
            Kind::NotAsked => 9,
            Kind::Wrong(what) => return self.enter_wrong(called, what),
        };
        if number < NAMES.len() {
            self.calls += 1;
            self.rows.entry(number).or_default()[column] += 1;
        }
    }

    /// Counts a call that can't be explained, and prints the first of them.
    fn enter_wrong(&mut self, called: &Called, what: &str) {
        self.wrong += 1;
        if self.wrong <= 10 {
            println!("WRONG ({}): {what}", self.engine);
            println!("  before: {}\n  call:   {} {:?}", called.before, called.q, called.call);
            println!("  ours:   {} | {}", called.outcome, called.after);
        }
    }

    /// Counts a known difference and keeps its smallest input.
    fn differ(&mut self, when: &'static str, called: &Called, operands: Vec<usize>, heard: &Heard) {
        let queue = &called.before.0[called.q];
        let key = (queue.cap(), queue.len, queue.head, operands);
        let Heard::Gave(answer, rust) = heard else { unreachable!("both accept") };
        let text = format!(
            "{:?} on {queue}\n      ours: {} | {}\n      Rust: {answer} | {}",
            called.call, called.outcome.answer, called.after.0[called.q], rust.0[called.q]
        );
        let new = Seen { count: 0, key: key.clone(), text: text.clone() };
        let seen = self.seen.entry(when).or_insert(new);
        seen.count += 1;
        if key < seen.key && queue.walk.is_none() {
            (seen.key, seen.text) = (key, text);
        }
    }

    /// Prints the table and the smallest inputs.
    pub fn print(&self) {
        println!("\nagainst {}:", self.engine);
        print!("{:<18}", "call");
        COLUMNS.iter().for_each(|c| print!("{c:>10}"));
        println!();
        for (number, row) in &self.rows {
            print!("{:<18}", NAMES[*number]);
            row.iter().for_each(|n| print!("{n:>10}"));
            println!();
        }
        for known in &KNOWN {
            let Some(seen) = self.seen.get(known.when) else { continue };
            println!("  {} ({:?}): {} times, exactly when {}", known.call, known.shows, seen.count, known.when);
            println!("    smallest: {}", seen.text);
        }
        println!("  moved counted in this Rust's own slots: {} calls", self.counted);
    }
}
