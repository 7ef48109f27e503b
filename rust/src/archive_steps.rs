//! Beside the archive's own steps: this crate reads the elements of a drain and of a queue from the slots itself.
use crate::raw::{Drain, FoundReply, Record, Reply};
use crate::Queue;

/// A walk: its queue's record, and the positions from `low` to before `high`, which are to come.
#[repr(C)]
#[derive(Default)]
struct Walk {
    queue: Record,
    low: usize,
    high: usize,
}

extern "C" {
    fn scorebucket_drain_next(slots: *const u32, slots_len: usize, d: *mut Drain) -> Reply;
    fn scorebucket_drain_next_back(slots: *const u32, slots_len: usize, d: *mut Drain) -> Reply;
    fn scorebucket_begin_walk(slots: *const u32, slots_len: usize, q: *const Record, w: *mut Walk) -> u16;
    fn scorebucket_walk_next(slots: *const u32, slots_len: usize, w: *mut Walk) -> FoundReply;
    fn scorebucket_walk_next_back(slots: *const u32, slots_len: usize, w: *mut Walk) -> FoundReply;
}

/// The most slots of a queue that is tried; and so many steps are made, more than there are elements.
const MOST: usize = 5;
const STEPS: usize = MOST + 1;

/// Every record over every number of slots up to `MOST`, and every order of steps from the front and the back.
fn every_queue(mut each: impl FnMut(&mut [u32], Record, &[bool])) {
    for cap in 1..=MOST {
        for head in 0..cap {
            for len in 0..=cap {
                for order in 0..1 << STEPS {
                    let mut slots = [11, 12, 13, 14, 15];
                    let from_front: [bool; STEPS] = core::array::from_fn(|step| order >> step & 1 == 1);
                    each(&mut slots[..cap], Record { head, len, mark: 0 }, &from_front);
                }
            }
        }
    }
}

#[test]
fn a_drain_steps_as_the_archive() {
    every_queue(|slots, record, steps| {
        for end in 0..=record.len {
            for start in 0..=end {
                let mut queue = Queue::with_record(slots, record.into()).unwrap();
                let mut drain = queue.drain(start..end).unwrap();
                let mut kept = *drain.queue.lent.opened().1;
                for from_front in steps {
                    let (slots, _) = drain.queue.lent.opened();
                    // SAFETY: the pointers and the length are those of a slice and of a record.
                    let reply = unsafe {
                        match from_front {
                            true => scorebucket_drain_next(slots.as_ptr(), slots.len(), &mut kept),
                            false => scorebucket_drain_next_back(slots.as_ptr(), slots.len(), &mut kept),
                        }
                    };
                    let handed = if *from_front { drain.next() } else { drain.next_back() };
                    assert_eq!((reply.refused, reply.moved), (0, 0));
                    assert_eq!(handed, (reply.handed == 1).then_some(reply.number));
                    assert_eq!(*drain.queue.lent.opened().1, kept);
                }
            }
        }
    });
}

#[test]
fn an_iterator_steps_as_the_archive() {
    every_queue(|slots, record, steps| {
        let queue = Queue::with_record(slots, record.into()).unwrap();
        let slots = queue.slots();
        let mut iter = queue.iter();
        let mut walk = Walk::default();
        // SAFETY: the pointers and the length are those of a slice, of a record and of a walk.
        assert_eq!(unsafe { scorebucket_begin_walk(slots.as_ptr(), slots.len(), &record, &mut walk) }, 0);
        for from_front in steps {
            // SAFETY: the same.
            let reply = unsafe {
                match from_front {
                    true => scorebucket_walk_next(slots.as_ptr(), slots.len(), &mut walk),
                    false => scorebucket_walk_next_back(slots.as_ptr(), slots.len(), &mut walk),
                }
            };
            let given = if *from_front { iter.next() } else { iter.next_back() };
            assert_eq!(reply.refused, 0);
            assert_eq!(given, (reply.found == 1).then_some(reply.number));
            assert_eq!(iter.len(), walk.high - walk.low);
        }
    });
}
