//! Scripts that go from one state to another: each call is put in the state it is meant for.

use crate::calls::Call;
use crate::exhaustive::{self, planted};
use crate::model;
use crate::script::Script;
use crate::world::{Queue, World};
use std::collections::BTreeMap;

/// A script as it grows, with the state behind its last line.
pub struct Stream {
    caps: [usize; 2],
    now: World,
    lines: Vec<(usize, Call)>,
}

/// A queue without its walk: a walk stays where it is and doesn't matter to other calls.
fn without_walk(queue: &Queue) -> Queue {
    Queue { walk: None, ..queue.clone() }
}

/// Whether the slots of both queues hold the same.
fn same_slots(one: &World, other: &World) -> bool {
    (0..2).all(|q| one.0[q].slots == other.0[q].slots)
}

impl Stream {
    /// A script that has only its first line.
    pub fn new(caps: [usize; 2]) -> Stream {
        Stream { caps, now: World::new(caps), lines: vec![] }
    }

    /// The state behind the last line.
    pub fn now(&self) -> &World {
        &self.now
    }

    /// The whole script.
    pub fn script(self) -> Script {
        Script { caps: self.caps, lines: self.lines }
    }

    /// The script with another one's lines behind it, from two fresh queues on.
    pub fn then(&mut self, more: Script) {
        assert!(self.caps == more.caps);
        self.bring_to(&World::new(self.caps));
        more.lines.iter().for_each(|(q, call)| self.go(*q, call));
    }

    /// Adds a call in whatever state stands.
    pub fn go(&mut self, q: usize, call: &Call) {
        model::call(&mut self.now, q, call);
        self.lines.push((q, call.clone()));
    }

    /// Adds a call in this state.
    pub fn put(&mut self, world: &World, q: usize, call: &Call) {
        self.bring_to(world);
        self.go(q, call);
    }

    /// Adds the lines that bring the queues into this state.
    pub fn bring_to(&mut self, world: &World) {
        let there = (0..2).all(|i| {
            let (now, wanted) = (&self.now.0[i], &world.0[i]);
            if wanted.walk.is_some() { now == wanted } else { without_walk(now) == without_walk(wanted) }
        });
        if there {
            return;
        }
        let a = &world.0[0];
        let bare = World(world.0.each_ref().map(|queue| Queue { drain: None, ..without_walk(queue) }));
        let plain = planted(a.cap(), a.head, a.len);
        if bare == plain || (same_slots(&bare, &plain) && !same_slots(&bare, &self.now)) {
            self.go(0, &Call::Plant(a.head, a.len));
        }
        (0..2).for_each(|q| self.set_queue(q, &bare.0[q]));
        for (q, queue) in world.0.iter().enumerate() {
            if let Some(d) = queue.drain {
                self.go(q, &Call::SetDrain(d));
            }
            if let Some(w) = queue.walk {
                self.go(q, &Call::SetWalk(w));
            }
        }
    }

    /// Sets one queue's slots and record, as far as they differ.
    fn set_queue(&mut self, q: usize, wanted: &Queue) {
        if self.now.0[q].drain.is_some() || self.now.0[q].slots != wanted.slots {
            self.go(q, &Call::Forget);
        }
        if self.now.0[q].slots != wanted.slots {
            self.go(q, &Call::Extend(wanted.slots.clone()));
        }
        let record = |queue: &Queue| (queue.head, queue.len, queue.mark);
        if record(&self.now.0[q]) != record(wanted) {
            self.go(q, &Call::SetRecord(wanted.head, wanted.len, wanted.mark));
        }
    }
}

/// Every state and call of the capacities up to cap, one script for each pair of capacities.
pub fn exhaustive_scripts(cap: usize) -> Vec<Script> {
    let mut streams: BTreeMap<[usize; 2], Stream> = BTreeMap::new();
    for cap in 0..=cap {
        exhaustive::each(cap, &mut |world, q, call| {
            let caps = [world.0[0].cap(), world.0[1].cap()];
            streams.entry(caps).or_insert_with(|| Stream::new(caps)).put(world, q, call);
        });
    }
    streams.into_values().map(Stream::script).collect()
}
