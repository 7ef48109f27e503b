//! Interprets a script with the Rust's own answers wherever the Rust has a say, and ours elsewhere.

use crate::calls::Call;
use crate::judge::{Called, Kind, judge};
use crate::known::Shows;
use crate::model;
use crate::numbers;
use crate::rust::{Given, Heard, Installed, Rust};
use crate::script::interpret;
use crate::world::{Outcome, World};

/// What a script comes to: the output, where each line of it is from, and what could not be explained.
pub struct Told {
    pub out: String,
    pub sources: Vec<String>,
    pub wrong: Vec<String>,
}

/// Interprets a script with both Rusts asked at every call.
pub fn tell(text: &str) -> Told {
    let (mut given, mut installed) = (Rust::<Given>::new(), Rust::<Installed>::new());
    let (mut sources, mut wrong) = (vec!["-".to_string()], vec![]);
    let out = interpret(text, |world, q, call| {
        if on_open_drain(world, q, call) {
            wrong.push(format!("line {}: a call on a queue whose drain is open", sources.len() + 1));
        }
        let called = Called::by_model(world, q, call);
        let (kind, heard) = judge(&mut given, &called);
        let (second, _) = judge(&mut installed, &called);
        for kind in [&kind, &second] {
            if let Kind::Wrong(what) = kind {
                wrong.push(format!("line {}: {what}", sources.len() + 1));
            }
        }
        sources.push(source(&kind, call));
        let (outcome, after) = choose(kind, heard, called);
        *world = after;
        outcome.to_string()
    });
    Told { out, sources, wrong }
}

/// Whether the call breaks the scripts' rule: while a queue's drain is open no other call is made on it.
fn on_open_drain(world: &World, q: usize, call: &Call) -> bool {
    let of_the_drain = matches!(
        call,
        Call::DrainNext | Call::DrainNextBack | Call::DrainClose | Call::SetDrain(_) | Call::Plant(..) | Call::Forget
    );
    (world.0[q].drain.is_some() && !of_the_drain) || (world.0[1 - q].drain.is_some() && call.on_both())
}

/// The Rust's own answer and state where it agrees in everything, else ours; moved is always ours.
fn choose(kind: Kind, heard: Heard, called: Called) -> (Outcome, World) {
    match (kind, heard) {
        (Kind::Agree(_), Heard::Gave(answer, after)) => (Outcome { answer, ..called.outcome }, *after),
        _ => (called.outcome, called.after),
    }
}

/// Where a line of output is from.
fn source(kind: &Kind, call: &Call) -> String {
    match kind {
        Kind::Agree(_) => "Rust".into(),
        Kind::Differ(known, _) if known.shows == Shows::LeftOverSlots => {
            format!("ours: the Rust writes left-over slots in {}", known.call)
        }
        Kind::Differ(known, _) => format!("ours: the Rust's {} answers otherwise", known.call),
        Kind::Limit => "ours: refusal 1, the Rust has no such limit".into(),
        Kind::NoSuchState => "ours: refusal 2, the Rust has no such record".into(),
        Kind::Panics => "ours: refusal 3, the Rust panics".into(),
        Kind::Grows => "ours: refusal 4, the Rust grows".into(),
        Kind::OwnRoom => "ours: refusal 4, the Rust makes a buffer of its own".into(),
        Kind::Open => "ours: refusal 6, the Rust has no open mark".into(),
        Kind::NoCounterpart if call.words().0 >= numbers::SET_RECORD => "-".into(),
        Kind::NoCounterpart => "ours: the Rust has no such call".into(),
        Kind::NotAsked => "ours: the Rust was not asked".into(),
        Kind::Wrong(what) => format!("WRONG: {what}"),
    }
}

/// Interprets a script by the model alone.
pub fn tell_by_model(text: &str) -> String {
    interpret(text, |world, q, call| model::call(world, q, call).to_string())
}
