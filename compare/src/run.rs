//! Runs the proved programs on every script and journal and holds what they write against what is expected.

use crate::calls::Call;
use crate::carried_on;
use crate::differences::SEQUENCES;
use crate::exhaustive::one_of_each;
use crate::gate;
use crate::journal::replay;
use crate::journals;
use crate::oracle;
use crate::random::{Values, sequence};
use crate::script::Script;
use crate::stream::exhaustive_scripts;
use std::io::Write;
use std::process::{Command, Stdio};

/// A script and its name.
pub struct Named {
    pub name: String,
    pub text: String,
}

/// The gate's script.
pub fn gate_scripts() -> Vec<Named> {
    vec![Named { name: "gate".into(), text: gate::script().text() }]
}

/// Every state and call of capacities 0 to 5.
pub fn small_scripts() -> Vec<Named> {
    let name = |s: &Script| format!("exhaustive-{}-{}", s.caps[0], s.caps[1]);
    exhaustive_scripts(5).iter().map(|s| Named { name: name(s), text: s.text() }).collect()
}

/// The random sequences, the moves that are carried on, each call on more than 16,000 slots, the largest image, and
/// scripts that break off.
pub fn random_scripts() -> Vec<Named> {
    let mut all = vec![];
    for (seed, (caps, n)) in SEQUENCES.into_iter().enumerate() {
        for (kind, values) in [("new", Values::New), ("few", Values::Few), ("any", Values::Any)] {
            let name = format!("random-{}-{}-{kind}", caps[0], caps[1]);
            all.push(Named { name, text: sequence(seed as u64, caps, values, n / 4).text() });
        }
    }
    let name = |s: &Script| format!("moves-{}-{}", s.caps[0], s.caps[1]);
    all.extend(carried_on::scripts().iter().map(|s| Named { name: name(s), text: s.text() }));
    for caps in [[16_001, 2], [2, 16_001], [16_002, 16_002], [16_000, 16_000]] {
        let lines = (0..2).flat_map(|q| one_of_each().into_iter().map(move |c| (q, c))).collect();
        all.push(Named { name: format!("limit-{}-{}", caps[0], caps[1]), text: Script { caps, lines }.text() });
    }
    let full = vec![(0, Call::Resize(16_000, 7)), (0, Call::ImageWrite(64_002)), (0, Call::ImageWrite(64_003))];
    all.push(Named { name: "image-16000".into(), text: Script { caps: [16_000, 0], lines: full }.text() });
    all.extend(broken_scripts());
    all
}

/// Scripts with one broken line.
fn broken_scripts() -> Vec<Named> {
    let long = format!("0 13 2000{}", " 1".repeat(2_000));
    let lines = [
        "0 45",
        "0 89",
        "0 43 1",
        "0 44",
        "0 44 1 1",
        "0 90 1 2",
        "0 90 1 2 2",
        "0 92 1 2 0 1",
        "0 92 1 2 2 0 1",
        "0 95",
        "2 3",
        "0",
        "0 1",
        "0 1 5 6",
        "0 3 1",
        "0 5 1",
        "0 5 0 3",
        "0 5 5 3",
        "0 13 2 1",
        "0 13 1 1 1",
        "0 17 1",
        "0 7 18446744073709551616",
        "0 1 4294967296",
        "0 41 1 256",
        "0 91 1 2 3 4 5",
        "x",
        "0 7 -1",
        "0 7 1x",
        &long,
    ];
    let name = |i: usize| format!("broken-{i}");
    lines
        .iter()
        .enumerate()
        .map(|(i, line)| Named { name: name(i), text: format!("T 3 2\n0 1 7\n{line}\n0 1 8\n") })
        .collect()
}

/// What a program wrote, and how it ended if not well.
struct Ran {
    text: String,
    failed: Option<String>,
}

/// Runs a command on an input.
fn feed(command: &str, input: &[u8]) -> Ran {
    let mut child = Command::new("sh")
        .args(["-c", command])
        .stdin(Stdio::piped())
        .stdout(Stdio::piped())
        .spawn()
        .expect("a shell can be started");
    let mut stdin = child.stdin.take().expect("piped");
    let output = std::thread::scope(|scope| {
        // A program that ends early, as behind a broken line, leaves the rest unread.
        scope.spawn(move || drop(stdin.write_all(input)));
        child.wait_with_output().expect("the program's output can be read")
    });
    let text = String::from_utf8_lossy(&output.stdout).into_owned();
    let failed = (!output.status.success()).then(|| output.status.to_string());
    Ran { text, failed }
}

/// The first line in which two texts differ, counted from 0.
fn first_difference(wanted: &str, got: &str) -> Option<usize> {
    let (mut a, mut b) = (wanted.split('\n'), got.split('\n'));
    (0..).find_map(|k| match (a.next(), b.next()) {
        (None, None) => Some(None),
        (x, y) if x != y => Some(Some(k)),
        _ => None,
    })?
}

/// What was run, how many calls it had, and how many runs differed.
#[derive(Default)]
struct Count {
    runs: usize,
    calls: usize,
    differences: usize,
}

impl Count {
    /// Enters one run; the first differing line is shown with what asked for it and what stood before.
    fn enter(&mut self, name: &str, wanted: &str, got: Ran, asked: impl Fn(usize) -> String) {
        self.runs += 1;
        self.calls += wanted.lines().count() - 1;
        let difference = first_difference(wanted, &got.text);
        // No paper says how a program ends behind a broken line.
        let ended_badly = got.failed.filter(|_| !wanted.lines().last().is_some_and(|l| l.starts_with("broken")));
        if difference.is_none() && ended_badly.is_none() {
            return;
        }
        self.differences += 1;
        if self.differences > 10 {
            return;
        }
        if let Some(how) = ended_badly {
            println!("{name}: the program ended with {how}");
        }
        let Some(k) = difference else { return };
        println!("{name}: line {} differs", k + 1);
        println!("  asked:  {}", asked(k));
        println!("  before: {}", k.checked_sub(1).and_then(|k| wanted.lines().nth(k)).unwrap_or("-"));
        println!("  wanted: {}", wanted.lines().nth(k).unwrap_or("(nothing)"));
        println!("  got:    {}", got.text.lines().nth(k).unwrap_or("(nothing)"));
    }
}

/// Feeds every script to a trial program; true if nothing differs.
pub fn run_trial(command: &str) -> bool {
    let mut count = Count::default();
    for script in gate_scripts().into_iter().chain(small_scripts()).chain(random_scripts()) {
        let told = oracle::tell(&script.text);
        told.wrong.iter().for_each(|w| println!("{}: the Rust and the model differ in {w}", script.name));
        count.differences += told.wrong.len();
        let got = feed(command, script.text.as_bytes());
        count.enter(&script.name, &told.out, got, |k| script.text.lines().nth(k).unwrap_or("-").into());
    }
    println!("trial: {} scripts, {} calls, {} differences", count.runs, count.calls, count.differences);
    count.differences == 0
}

/// Feeds every journal to a replay program; true if nothing differs.
pub fn run_replay(command: &str) -> bool {
    let mut count = Count::default();
    for journal in journals::all() {
        let got = feed(command, &journal.bytes);
        count.enter(&journal.name, &replay(&journal.bytes), got, |k| format!("record {}", k + 1));
    }
    println!("replay: {} journals, {} records, {} differences", count.runs, count.calls, count.differences);
    count.differences == 0
}
