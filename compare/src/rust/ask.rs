//! Puts a call of a script to an engine, and brings what it did into the form of a script's state.

use super::{Engine, Step};
use crate::calls::{Call, Walk};
use crate::model;
use crate::world::{Answer, Queue, World};
use std::cell::Cell;
use std::panic::{AssertUnwindSafe, catch_unwind, set_hook, take_hook};

/// What the Rust did with a call.
#[derive(Debug, PartialEq, Eq)]
pub enum Heard {
    /// It answered and left this state.
    Gave(Answer, Box<World>),
    /// It has no such call.
    NoCounterpart,
    /// A record with these numbers can't be made in it.
    NoSuchState,
    /// It panicked.
    Panicked,
    /// It took, or would have taken, a larger buffer.
    Grew,
    /// It put the elements into a new buffer, where ours has too small a target.
    OwnRoom,
    /// It was not asked, since it would have asked the machine for too much memory.
    NotAsked,
}

thread_local! {
    /// Whether a panic is an answer now.
    static ASKING: Cell<bool> = const { Cell::new(false) };
}

/// Keeps the panics that are answers from being printed. Called once, at the start of the program.
pub fn quiet_panics() {
    let print = take_hook();
    set_hook(Box::new(move |info| {
        if !ASKING.get() {
            print(info);
        }
    }));
}

/// Runs a call of the Rust; a panic is an answer.
fn listen<T>(call: impl FnOnce() -> T) -> Result<T, Heard> {
    ASKING.set(true);
    let given = catch_unwind(AssertUnwindSafe(call));
    ASKING.set(false);
    given.map_err(|payload| {
        let text = payload.downcast_ref::<String>().map(String::as_str).or(payload.downcast_ref::<&str>().copied());
        match text {
            Some(vd197::raw_vec::WOULD_GROW | "capacity overflow") => Heard::Grew,
            _ => Heard::Panicked,
        }
    })
}

/// The engine's two queues, which live on from call to call until a state is set or a call fails.
pub struct Rust<E> {
    live: [Option<E>; 2],
}

impl<E: Engine> Rust<E> {
    /// No queue yet: each is made from the script's state when it is first called on.
    pub fn new() -> Self {
        Rust { live: [None, None] }
    }

    /// Lets both queues go, so that the next call makes them from the script's state again.
    pub fn forget(&mut self) {
        self.live = [None, None];
    }

    /// Puts a call to the engine in the state `world`.
    pub fn hear(&mut self, world: &World, q: usize, call: &Call) -> Heard {
        let heard = match call {
            Call::Fresh => renew::<E>(world, q),
            Call::Append => self.append(world, q),
            Call::SplitOff(at) => self.split_off(world, q, *at),
            Call::MoveAll => self.move_all(world, q),
            Call::MovePortion(n) => self.move_portion(world, q, *n),
            Call::Equal => self.both(world, q, |e, other| Answer::Truth(e.equal(other))),
            Call::Compare => self.both(world, q, |e, other| Answer::Order(e.compare(other))),
            Call::DrainOpen(start, end) => open::<E>(world, q, *start, *end),
            Call::DrainNext => drain::<E>(world, q, Step::Next),
            Call::DrainNextBack => drain::<E>(world, q, Step::NextBack),
            Call::DrainClose => drain::<E>(world, q, Step::Close),
            Call::WalkBegin => begin::<E>(world, q),
            Call::WalkNext => walk::<E>(world, q, false),
            Call::WalkNextBack => walk::<E>(world, q, true),
            Call::ImageRead(_) | Call::ImageWrite(_) => Ok(Heard::NoCounterpart),
            Call::SetRecord(..) | Call::SetDrain(_) | Call::SetWalk(_) | Call::Plant(..) | Call::Forget => {
                Ok(Heard::NoCounterpart)
            }
            Call::Resize(n, _) if *n > 1 << 20 && E::NAME == "std" => Ok(Heard::NotAsked),
            _ => self.one(world, q, call),
        };
        if !matches!(heard, Ok(Heard::Gave(..))) || matches!(call, Call::Fresh | Call::DrainClose) {
            self.forget();
        }
        heard.unwrap_or_else(|failed| failed)
    }

    /// The engine's queue q, made if it isn't there.
    fn queue(&mut self, world: &World, q: usize) -> Result<&mut E, Heard> {
        if self.live[q].is_none() {
            self.live[q] = Some(make(&world.0[q])?);
        }
        Ok(self.live[q].as_mut().unwrap())
    }

    /// Both of the engine's queues, q's first, made if they aren't there.
    fn two(&mut self, world: &World, q: usize) -> Result<(&mut E, &mut E), Heard> {
        self.queue(world, q)?;
        self.queue(world, 1 - q)?;
        let [Some(a), Some(b)] = &mut self.live else { unreachable!("both were made") };
        Ok(if q == 0 { (a, b) } else { (b, a) })
    }

    /// A call on one list.
    fn one(&mut self, world: &World, q: usize, call: &Call) -> Result<Heard, Heard> {
        let e = self.queue(world, q)?;
        let answer = listen(|| e.one(call))?;
        if e.grown() {
            return Ok(Heard::Grew);
        }
        let mut after = Box::new(world.clone());
        read_back(&mut after.0[q], e);
        Ok(Heard::Gave(answer, after))
    }

    /// A question about both lists.
    fn both(&mut self, world: &World, q: usize, ask: impl FnOnce(&E, &E) -> Answer) -> Result<Heard, Heard> {
        let (mine, theirs) = self.two(world, q)?;
        let answer = listen(|| ask(mine, theirs))?;
        Ok(Heard::Gave(answer, Box::new(world.clone())))
    }

    /// The other queue's elements go behind.
    fn append(&mut self, world: &World, q: usize) -> Result<Heard, Heard> {
        let (mine, theirs) = self.two(world, q)?;
        listen(|| mine.append(theirs))?;
        if mine.grown() {
            return Ok(Heard::Grew);
        }
        let mut after = Box::new(world.clone());
        read_back(&mut after.0[q], mine);
        read_back(&mut after.0[1 - q], theirs);
        Ok(Heard::Gave(Answer::Silent, after))
    }

    /// The Rust makes a buffer of its own for what is split off; here it is laid into the target from slot 0.
    fn split_off(&mut self, world: &World, q: usize, at: usize) -> Result<Heard, Heard> {
        let e = self.queue(world, q)?;
        let off = listen(|| e.split_off(at))?;
        let mut after = Box::new(world.clone());
        read_back(&mut after.0[q], e);
        let target = &mut after.0[1 - q];
        if off.len() > target.cap() {
            return Ok(Heard::OwnRoom);
        }
        target.slots[..off.len()].copy_from_slice(&off);
        (target.head, target.len, target.mark) = (0, off.len(), false);
        self.live[1 - q] = None;
        Ok(Heard::Gave(Answer::Silent, after))
    }

    /// A whole move: all go into a new queue over the region's slots.
    fn move_all(&mut self, world: &World, q: usize) -> Result<Heard, Heard> {
        self.live[1 - q] = Some(E::make(&world.0[1 - q].slots, 0, 0));
        self.move_portion(world, q, usize::MAX)
    }

    /// The Rust has no call for a portion: the first n, or all if there are fewer, are drained into what extends the
    /// other. Whether the mark stands is read from the Rust's old queue.
    fn move_portion(&mut self, world: &World, q: usize, n: usize) -> Result<Heard, Heard> {
        let (old, new) = self.two(world, q)?;
        listen(|| new.take_front_of(old, n.min(old.len())))?;
        if new.grown() {
            return Ok(Heard::Grew);
        }
        let mut after = Box::new(world.clone());
        read_back(&mut after.0[q], old);
        read_back(&mut after.0[1 - q], new);
        after.0[1 - q].mark = old.len() > 0;
        Ok(Heard::Gave(Answer::Silent, after))
    }
}

/// An engine's queue in the state of a script's queue, if the record is one that can be made.
fn make<E: Engine>(queue: &Queue) -> Result<E, Heard> {
    let good = model::good_record(queue.cap(), queue.head, queue.len);
    good.then(|| E::make(&queue.slots, queue.head, queue.len)).ok_or(Heard::NoSuchState)
}

/// Brings an engine's record and slots into a script's queue.
fn read_back<E: Engine>(queue: &mut Queue, e: &mut E) {
    (queue.head, queue.len) = (e.head(), e.len());
    queue.slots.copy_from_slice(e.slots());
}

/// A new queue, as `with_capacity` gives it; a new buffer has no old values, so the slots stay as they were.
fn renew<E: Engine>(world: &World, q: usize) -> Result<Heard, Heard> {
    let mut after = Box::new(world.clone());
    read_back(&mut after.0[q], &mut E::make(&world.0[q].slots, 0, 0));
    after.0[q].mark = false;
    Ok(Heard::Gave(Answer::Silent, after))
}

/// Opens a drain and looks at its record.
fn open<E: Engine>(world: &World, q: usize, start: usize, end: usize) -> Result<Heard, Heard> {
    let mut e: E = make(&world.0[q])?;
    let mut after = Box::new(world.clone());
    after.0[q].drain = listen(|| e.drain([start, end], [0, 0], Step::Look))?.1;
    Ok(Heard::Gave(Answer::Silent, after))
}

/// A step of an open drain. Every good record is one that a drain reaches by so many steps from either end, so the
/// engine opens it on the queue as it was and goes there.
fn drain<E: Engine>(world: &World, q: usize, step: Step) -> Result<Heard, Heard> {
    if !model::good_drain(&world.0[q]) {
        return Err(Heard::NoSuchState);
    }
    let d = world.0[q].drain.expect("a drain is open");
    let end = d.start + d.drain_len;
    let mut e = E::make(&world.0[q].slots, d.head, end + d.tail_len);
    let taken = [d.idx - d.start, end - d.idx - d.remaining];
    let mut after = Box::new(world.clone());
    let (handed, left) = listen(|| e.drain([d.start, end], taken, step))?;
    after.0[q].drain = left;
    if step == Step::Close {
        read_back(&mut after.0[q], &mut e);
        return Ok(Heard::Gave(Answer::Silent, after));
    }
    Ok(Heard::Gave(handed.map_or(Answer::Nothing, Answer::Number), after))
}

/// An iterator over the whole list.
fn begin<E: Engine>(world: &World, q: usize) -> Result<Heard, Heard> {
    let e: E = make(&world.0[q])?;
    let mut after = Box::new(world.clone());
    let queue = &mut after.0[q];
    queue.walk = Some(Walk { head: queue.head, len: queue.len, mark: queue.mark, low: 0, high: e.len() });
    Ok(Heard::Gave(Answer::Silent, after))
}

/// A step of an iterator over low..high of the walk's own record.
fn walk<E: Engine>(world: &World, q: usize, from_back: bool) -> Result<Heard, Heard> {
    let Some(w) = world.0[q].walk else { return Err(Heard::NoCounterpart) };
    if !model::good_walk(world.0[q].cap(), &w) {
        return Err(Heard::NoSuchState);
    }
    let e = E::make(&world.0[q].slots, w.head, w.len);
    let (handed, left) = listen(|| e.walk(w.low, w.high, from_back))?;
    let mut after = Box::new(world.clone());
    let ends = if from_back { Walk { high: w.low + left, ..w } } else { Walk { low: w.high - left, ..w } };
    after.0[q].walk = Some(ends);
    Ok(Heard::Gave(handed.map_or(Answer::Nothing, Answer::Number), after))
}
