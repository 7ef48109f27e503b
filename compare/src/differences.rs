//! Holds document 01 against both Rusts, call by call, and prints what was found.

use crate::boundary;
use crate::calls::Call;
use crate::exhaustive;
use crate::judge::{Called, judge};
use crate::random::{Values, sequence};
use crate::rust::{Engine, Given, Heard, Installed, Rust};
use crate::tally::Tally;
use crate::world::World;

/// The capacities of the boundary cases.
const BOUNDARY: [usize; 9] = [6, 7, 8, 16, 63, 64, 65, 1_000, 16_000];

/// The capacities of the random sequences, and how many calls each has for each way to choose values.
pub const SEQUENCES: [([usize; 2], usize); 16] = [
    ([0, 0], 2_000),
    ([0, 3], 10_000),
    ([1, 1], 30_000),
    ([1, 2], 30_000),
    ([2, 3], 60_000),
    ([3, 5], 60_000),
    ([4, 4], 60_000),
    ([5, 8], 60_000),
    ([8, 2], 60_000),
    ([16, 15], 40_000),
    ([63, 64], 20_000),
    ([65, 64], 10_000),
    ([1_000, 999], 4_000),
    ([15_999, 16_000], 1_500),
    ([16_000, 16_000], 1_500),
    ([16_000, 16_001], 300),
];

/// Both engines and their tallies, and how often the two did otherwise than each other.
struct Both {
    apart: u64,
    given: (Rust<Given>, Tally),
    installed: (Rust<Installed>, Tally),
}

impl Both {
    /// Puts one call to both engines in the state `world`, and enters what they did. The state behind it is handed
    /// back.
    fn put(&mut self, world: &World, q: usize, call: &Call) -> World {
        let called = Called::by_model(world, q, call);
        let given = put_to(&mut self.given, &called);
        let installed = put_to(&mut self.installed, &called);
        if let (Heard::Gave(..), Heard::Gave(..)) = (&given, &installed)
            && given != installed
        {
            println!(
                "WRONG: the two Rusts differ\n  before: {world}\n  call: {q} {call:?}\n  {given:?}\n  {installed:?}"
            );
            self.apart += 1;
        }
        called.after
    }

    /// Puts a call in a state that has nothing to do with the one before.
    fn put_anew(&mut self, world: &World, q: usize, call: &Call) {
        self.given.0.forget();
        self.installed.0.forget();
        self.put(world, q, call);
    }
}

/// Puts one call to one engine, and gives what it did.
fn put_to<E: Engine>((rust, tally): &mut (Rust<E>, Tally), called: &Called) -> Heard {
    let (kind, heard) = judge(rust, called);
    tally.enter(called, &kind, &heard);
    heard
}

/// The whole comparison; true if nothing was left unexplained.
pub fn run() -> bool {
    let mut both = Both {
        apart: 0,
        given: (Rust::new(), Tally::new(Given::NAME)),
        installed: (Rust::new(), Tally::new(Installed::NAME)),
    };
    for cap in 0..=5 {
        exhaustive::each(cap, &mut |world, q, call| both.put_anew(world, q, call));
    }
    println!("every call of capacities 0 to 5: {} calls", both.given.1.calls);
    for cap in BOUNDARY {
        boundary::each(cap, &mut |world, q, call| both.put_anew(world, q, call));
    }
    println!("with the edges of capacities {BOUNDARY:?}: {} calls", both.given.1.calls);
    for (seed, (caps, n)) in SEQUENCES.into_iter().enumerate() {
        for values in [Values::New, Values::Few, Values::Any] {
            let mut world = World::new(caps);
            both.given.0.forget();
            both.installed.0.forget();
            for (q, call) in sequence(seed as u64, caps, values, n).lines {
                world = both.put(&world, q, &call);
            }
        }
    }
    println!("with the random sequences: {} calls", both.given.1.calls);
    both.given.1.print();
    both.installed.1.print();
    let wrong = both.given.1.wrong + both.installed.1.wrong + both.apart;
    println!(
        "{} calls, each against {} and {}: {wrong} unexplained",
        both.given.1.calls + both.given.1.wrong,
        Given::NAME,
        Installed::NAME
    );
    wrong == 0
}
