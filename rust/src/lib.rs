//! A double-ended queue of `u32` in slots that the caller lends: the standard library's `VecDeque` without allocation.
//!
//! The work is done by an archive of compiled functions, each of which is proved to leave the answer, the queue and
//! every slot that its rules say, for any slots and numbers; this crate is the safe Rust over them. It needs no `std`.
//!
//! ```
//! use scorebucket::{Queue, Refusal, Test};
//!
//! let mut slots = [0u32; 4]; // the number of slots is the capacity, at most 16,000
//! let mut queue = Queue::new(&mut slots)?;
//! queue.extend(&[10, 20, 30, 40])?;
//! assert_eq!(queue.push_back(50), Err(Refusal::Room)); // nothing is overwritten, nothing grows
//!
//! for number in queue.drain(1..3)? {
//!     println!("{number} has left"); // 20, then 30
//! }
//! assert_eq!(queue, [10, 40]);
//!
//! queue.retain(Test::AtLeast(20))?;
//! assert_eq!(queue.front(), Some(40));
//! assert_eq!(queue.iter().sum::<u32>(), 40);
//! # Ok::<(), Refusal>(())
//! ```
//!
//! # Refusals
//!
//! What can't be met is refused: the method gives an `Err` of a [`Refusal`], and then nothing has changed. Each method
//! says under "Errors" which refusals it gives and when. A method that gives no `Result` is never refused: those are
//! the methods that only look.
//!
//! # More slots
//!
//! A queue does not grow, but it can be moved into other slots: at once by [`Queue::move_into`], or in portions by
//! [`Queue::move_portion`], so that the program never stops for long. Until the last portion has come, the new queue
//! refuses every change with [`Refusal::MoveOpen`]: what was pushed or popped there meanwhile would be out of its
//! order. Both can be looked at, and the old one can still be changed.
//!
//! ```
//! use scorebucket::{Queue, Refusal};
//!
//! let (mut slots, mut twice) = ([0u32; 4], [0u32; 8]);
//! let mut old = Queue::new(&mut slots)?;
//! old.extend(&[10, 20, 30, 40])?;
//! assert_eq!(old.push_back(50), Err(Refusal::Room)); // it is full: time to move
//!
//! let mut new = Queue::new(&mut twice)?;
//! old.move_portion(2, &mut new)?;
//! assert_eq!((new.iter().sum::<u32>(), old.iter().sum::<u32>()), (30, 70)); // both can be looked at
//! assert!(new.is_move_open());
//! assert_eq!(new.push_back(50), Err(Refusal::MoveOpen)); // 30 and 40 come first
//! old.push_back(50)?; // there is room in the old one now: 50 moves with the others
//!
//! while !old.is_empty() {
//!     old.move_portion(2, &mut new)?;
//! }
//! new.push_back(60)?; // the move is over, and the queue goes on in twice the slots
//! assert_eq!(new, [10, 20, 30, 40, 50, 60]);
//! assert_eq!(new.capacity(), 8);
//! # Ok::<(), Refusal>(())
//! ```
//!
//! # Beside `VecDeque`
//!
//! Methods bear `VecDeque`'s names and do what it does to the list. What differs:
//!
//! - Elements are given by value: [`Queue::get`] is an `Option<u32>`, and [`Queue::iter`] gives `u32`.
//! - Where `VecDeque` would grow, or panic for a position past the end, a method refuses; indexing alone panics.
//! - Every method that can change a queue gives a `Result`, also those of which `VecDeque`'s can't fail
//!   (`while let Some(x) = queue.pop_front()?`): a queue into which another is being moved refuses them.
//! - A condition is a [`Test`], not a closure, and values come as a slice, not as an iterator.
//! - [`Queue::split_off`] takes the slots of the queue that it makes.
//! - An element can't be changed in its place (`IndexMut`, `get_mut`, `iter_mut`): numbers come and go by calls alone.
//! - The slots are borrowed, so a queue can't be copied or made without any (`Clone`, `Default`, `FromIterator`), and
//!   it can't refuse through the `Extend` trait: there are [`Queue::extend`] and its like.
//!
//! # The archive
//!
//! The crate links the archive that `sh tools/native.sh . exports` leaves in the repository's folder target/native,
//! for Linux on x86-64 and on Arm. To link another, set `SCOREBUCKET_ARCHIVE` to its path: an absolute one, or one
//! from the folder in which cargo is called.
#![no_std]
#![warn(missing_docs)]

#[cfg(test)]
mod archive_steps;
mod changes;
mod drain;
mod iter;
mod lent;
mod looks;
mod moves;
mod queue;
mod raw;
mod record;
mod refusal;
mod test;
mod traits;

pub use drain::Drain;
pub use iter::Iter;
pub use queue::Queue;
pub use record::Record;
pub use refusal::Refusal;
pub use test::Test;
