//! What a refused call costs: it grows with nothing.
use crate::timing;
use scorebucket::{Queue, Record, Refusal};

/// What a refused call is made on: full queues that run round the end, one into which a move is open, slots, and bytes
/// that hold no image.
struct Lent {
    full: Queue<'static>,
    other: Queue<'static>,
    open: Queue<'static>,
    slots: Vec<u32>,
    bytes: Vec<u8>,
}

impl Lent {
    fn of(cap: usize) -> Lent {
        let full = |mark| {
            let record = Record { head: cap / 2, len: cap, mark };
            Queue::with_record(vec![7; cap].leak(), record).expect("the record is good")
        };
        Lent {
            full: full(false),
            other: full(false),
            open: full(true),
            slots: vec![7; cap],
            bytes: vec![7; 3 + 4 * cap],
        }
    }
}

/// A refused call: its name, the refusal that is meant, and the call.
type RefusedCall = (&'static str, Refusal, fn(&mut Lent) -> Option<Refusal>);

const CALLS: [RefusedCall; 18] = [
    ("push_back, full", Refusal::Room, |l| l.full.push_back(1).err()),
    ("insert, full", Refusal::Room, |l| l.full.insert(l.full.len() / 2, 1).err()),
    ("extend by 100, full", Refusal::Room, |l| l.full.extend(&[1; 100]).err()),
    ("prepend 100, full", Refusal::Room, |l| l.full.prepend(&[1; 100]).err()),
    ("resize, past the slots", Refusal::Room, |l| l.full.resize(l.full.len() + 1, 1).err()),
    ("append, full", Refusal::Room, |l| l.full.append(&mut l.other).err()),
    ("split_off, into no slots", Refusal::Room, |l| l.full.split_off(0, &mut []).err()),
    ("move_into, no slots", Refusal::Room, |l| l.full.move_into(&mut []).err()),
    ("move_portion, full", Refusal::Room, |l| l.full.move_portion(100, &mut l.other).err()),
    ("splice, full", Refusal::Room, |l| l.full.splice(1..2, &[1; 2]).err()),
    ("write_image, no room", Refusal::Room, |l| l.full.write_image(&mut l.bytes[1..]).err()),
    ("swap, past the end", Refusal::Position, |l| l.full.swap(0, l.full.len()).err()),
    ("drain, past the end", Refusal::Position, |l| l.full.drain(1..l.full.len() + 1).err()),
    ("slices, past the end", Refusal::Position, |l| l.full.slices(1..l.full.len() + 1).err()),
    ("read_image, no image", Refusal::Image, |l| Queue::read_image(&mut l.slots, &l.bytes).err()),
    ("with_record, a bad one", Refusal::Record, |l| {
        let head = l.slots.len();
        Queue::with_record(&mut l.slots, Record { head, ..Record::default() }).err()
    }),
    ("pop_front, a move open", Refusal::MoveOpen, |l| l.open.pop_front().err()),
    ("clear, a move open", Refusal::MoveOpen, |l| l.open.clear().err()),
];

/// Prints the time of each kind of refused call, over few slots and over many.
pub fn print() {
    println!("Refused calls, ns: their cost grows with nothing.");
    println!();
    println!("| call | 16 slots | 16,000 slots |");
    println!("|---|---:|---:|");
    for (name, refusal, call) in CALLS {
        let mut few = Lent::of(16);
        let mut many = Lent::of(16_000);
        let t = timing::times(&mut [
            &mut |turns| (0..turns).for_each(|_| assert_eq!(call(&mut few), Some(refusal))),
            &mut |turns| (0..turns).for_each(|_| assert_eq!(call(&mut many), Some(refusal))),
        ]);
        println!("| {} | {:.1} | {:.1} |", name, t[0], t[1]);
    }
}
