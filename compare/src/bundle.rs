//! The input of the program that runs many journals, and what it has to write: each journal behind its length, four
//! bytes big-endian.

use crate::journal::replay;
use crate::journals::{Journal, record, stored};

/// The input and the output, and at which line of the output each journal begins.
pub struct Bundle {
    pub input: Vec<u8>,
    pub output: String,
    pub contents: Vec<(String, usize)>,
}

/// The journals of the gate, the replay of each worked out by itself.
pub fn bundle() -> Bundle {
    let mut bundle = Bundle { input: vec![], output: String::new(), contents: vec![] };
    stored().iter().for_each(|journal| bundle.add(journal, journal.bytes.len()));
    // What was stored in the slots by the journals before must not show.
    let pops = Journal { name: "empty-behind-all".into(), bytes: [record(3, &[]), record(4, &[])].concat() };
    bundle.add(&pops, pops.bytes.len());
    // The last one ends before its length: what is there is played.
    let last = Journal { name: "shorter-than-its-length".into(), bytes: [&record(1, &[7])[..], &[0, 6, 1]].concat() };
    bundle.add(&last, 1_000_000);
    bundle
}

impl Bundle {
    /// Adds a journal behind the length that is said of it.
    fn add(&mut self, journal: &Journal, said: usize) {
        let lines_before = self.output.lines().count();
        self.contents.push((journal.name.clone(), lines_before + 1));
        self.input.extend((said as u32).to_be_bytes());
        self.input.extend(&journal.bytes);
        self.output.push_str(&replay(&journal.bytes));
    }
}
