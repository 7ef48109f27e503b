//! Why a call was refused.
use core::error::Error;
use core::fmt;

/// Why a call was refused. A refused call has changed nothing.
///
/// The numbers are those of the C header and of the replay program's lines. Where several reasons hold, a method says
/// under "Errors" in which order they are asked.
#[derive(Clone, Copy, Debug, PartialEq, Eq, Hash)]
pub enum Refusal {
    /// There are more than 16,000 slots.
    Slots = 1,
    /// The record does not fit the slots: `head` is no slot's number, or `len` is more than their number.
    Record = 2,
    /// A position or a range is past the end of the queue, or a range ends before it starts.
    Position = 3,
    /// The elements do not fit the slots, or the bytes the target.
    Room = 4,
    /// The bytes are not one whole saved image.
    Image = 5,
    /// A move into the queue is open: the last portion that came into it left elements in the queue that they came
    /// from. Until one comes that leaves none there, it takes nothing but portions, and can be looked at.
    ///
    /// Move the rest, with [`Queue::move_portion`](crate::Queue::move_portion), and call again. Where the rest is not
    /// to come, a portion out of any empty queue ends the move.
    MoveOpen = 6,
}

impl Refusal {
    /// Its number, from 1 to 6.
    pub fn number(self) -> u16 {
        self as u16
    }

    /// Ok where a call was accepted. That is asked first, and alone.
    #[inline]
    pub(crate) fn of(number: u16) -> Result<(), Refusal> {
        if number == 0 {
            return Ok(());
        }
        Err(Refusal::numbered(number))
    }

    /// The refusal of a number, which is not 0.
    #[cold]
    #[inline(never)]
    fn numbered(number: u16) -> Refusal {
        match number {
            1 => Refusal::Slots,
            2 => Refusal::Record,
            3 => Refusal::Position,
            4 => Refusal::Room,
            5 => Refusal::Image,
            _ => Refusal::MoveOpen,
        }
    }
}

impl fmt::Display for Refusal {
    fn fmt(&self, f: &mut fmt::Formatter<'_>) -> fmt::Result {
        f.write_str(match self {
            Refusal::Slots => "more than 16,000 slots",
            Refusal::Record => "a record that does not fit the slots",
            Refusal::Position => "a position or range past the end",
            Refusal::Room => "no room",
            Refusal::Image => "bytes that are no saved image",
            Refusal::MoveOpen => "a move into the queue is open: first move the rest there, with move_portion",
        })
    }
}

impl Error for Refusal {}
