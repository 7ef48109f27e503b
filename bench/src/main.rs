//! Times the proved queue beside Rust's VecDeque: `sh run.sh` in this folder makes the archive, builds this program
//! and runs it. Every figure is the fastest of several rounds; the rounds of the two sides alternate.
#![feature(deque_extend_front, vec_deque_truncate_front)]
mod copies;
mod places;
mod proved;
mod queue;
mod refusals;
mod standard;
mod timing;
mod work;

use proved::Proved;
use queue::Queue;
use standard::{Called, Inlined};
use work::{State, Work};

const LENGTHS: [usize; 3] = [16, 1_000, 12_000];

/// The times of a piece of work: the proved code's, std's, and the inlined std's.
struct Times {
    proved: f64,
    called: f64,
    inlined: f64,
}

fn times_of(work: Work, n: usize, wrapped: bool) -> Times {
    let mut ours = State::<Proved>::for_work(work, n, wrapped);
    let mut theirs = State::<Called>::for_work(work, n, wrapped);
    let mut inlined = State::<Inlined>::for_work(work, n, wrapped);
    for _ in 0..3 {
        ours.repeat(work, 1);
        theirs.repeat(work, 1);
    }
    assert!(ours.list() == theirs.list(), "{}: the two sides differ", work.name());
    let t = timing::times(&mut [
        &mut |turns| ours.repeat(work, turns),
        &mut |turns| theirs.repeat(work, turns),
        &mut |turns| inlined.repeat(work, turns),
    ]);
    Times { proved: t[0], called: t[1], inlined: t[2] }
}

fn print_calls() {
    println!("Calls. `!` marks a figure that falls short of its aim.");
    println!();
    println!("| calls | wrapped | n | proved ns | std ns | ratio | inlined std ns | growth, proved | growth, std |");
    println!("|---|---|---:|---:|---:|---:|---:|---:|---:|");
    for work in Work::ALL {
        for wrapped in [false, true] {
            let mut before: Option<(usize, Times)> = None;
            for n in LENGTHS.into_iter().filter(|n| work.is_for(*n)) {
                let t = times_of(work, n, wrapped);
                let inlined = if work.is_small() { format!("{:.1}", t.inlined) } else { String::new() };
                let growth = |f: fn(&Times) -> f64| match &before {
                    Some((_, b)) => format!("{:.1}", f(&t) / f(b)),
                    None => String::new(),
                };
                println!(
                    "| {} | {} | {} | {:.1} | {:.1} | {:.2}{} | {} | {} | {} |",
                    work.name(),
                    if wrapped { "yes" } else { "no" },
                    n,
                    t.proved,
                    t.called,
                    t.proved / t.called,
                    if falls_short(work, n, &t) { " !" } else { "" },
                    inlined,
                    growth(|t| t.proved),
                    growth(|t| t.called)
                );
                before = Some((n, t));
            }
        }
    }
}

/// Whether a figure falls short of its aim. Where the elements count, the aim is for 1,000 of them and more.
fn falls_short(work: Work, n: usize, t: &Times) -> bool {
    let counts = n >= 1_000 || work.is_small();
    work.aim().is_some_and(|aim| counts && t.proved / t.called > aim)
}

/// Prints the tables that are asked for by name, or all.
fn main() {
    let tables: [(&str, fn()); 3] = [("calls", print_calls), ("copies", copies::print), ("refusals", refusals::print)];
    let asked: Vec<String> = std::env::args().skip(1).collect();
    if let Some(unknown) = asked.iter().find(|a| tables.iter().all(|(name, _)| name != a)) {
        eprintln!("bench: no table '{unknown}': ask for calls, copies or refusals, or for nothing to get all");
        std::process::exit(2);
    }
    println!("{}", machine());
    for (name, print) in tables {
        if asked.is_empty() || asked.iter().any(|a| a == name) {
            println!();
            print();
        }
    }
}

/// The machine and the versions.
fn machine() -> String {
    let cpu = std::fs::read_to_string("/proc/cpuinfo").unwrap_or_default();
    let model = cpu
        .lines()
        .find_map(|l| l.strip_prefix("model name"))
        .map_or("unknown", |l| l.trim_start_matches([' ', '\t', ':']));
    format!(
        "Machine: {} ({}). Rust: {}. Kit: {}.",
        std::env::consts::ARCH,
        model,
        env!("BENCH_RUSTC"),
        env!("BENCH_KIT")
    )
}

impl<Q: Queue> State<Q> {
    fn list(&self) -> Vec<u32> {
        (0..).map_while(|i| self.queue().get(i)).collect()
    }
}
