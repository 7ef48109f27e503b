//! How long a piece of work takes.
use std::time::{Duration, Instant};

/// A round takes at least so long: short, so that many a round is over before another program gets its turn.
const ROUND: Duration = Duration::from_micros(200);
/// So many rounds are made of each side, in turns; the fastest counts.
const ROUNDS: u32 = 250;

/// How many turns of the work make a round.
fn turns_of_a_round(mut work: impl FnMut(u32)) -> u32 {
    let mut turns = 1;
    loop {
        let start = Instant::now();
        work(turns);
        if start.elapsed() > ROUND {
            return turns;
        }
        turns *= 2;
    }
}

fn nanoseconds(turns: u32, work: &mut dyn FnMut(u32)) -> f64 {
    let start = Instant::now();
    work(turns);
    start.elapsed().as_nanos() as f64 / turns as f64
}

/// The nanoseconds that one turn of each work takes. The rounds of the works alternate, so that whatever slows the
/// machine meets them all.
pub fn times(works: &mut [&mut dyn FnMut(u32)]) -> Vec<f64> {
    let turns: Vec<u32> = works.iter_mut().map(turns_of_a_round).collect();
    let mut best = vec![f64::MAX; works.len()];
    for _ in 0..ROUNDS {
        for (i, work) in works.iter_mut().enumerate() {
            best[i] = best[i].min(nanoseconds(turns[i], *work));
        }
    }
    best
}
