//! Scripts of moves that are carried on to their end: portions of every size until the old queue is empty, looks and
//! refused calls between them, beside the whole move; then the other way round.

use crate::calls::Call;
use crate::exhaustive::in_order;
use crate::script::Script;
use crate::stream::Stream;
use crate::world::World;

/// The capacities of A and B: equal, larger and smaller ones.
const CAPS: [[usize; 2]; 12] = [
    [0, 0],
    [0, 1],
    [1, 1],
    [3, 3],
    [3, 5],
    [5, 3],
    [8, 16],
    [16, 8],
    [64, 128],
    [1_000, 999],
    [8_000, 16_000],
    [16_000, 16_000],
];

/// One script for each pair of capacities.
pub fn scripts() -> Vec<Script> {
    CAPS.into_iter().map(script).collect()
}

/// Empty, half full and full old queues, straight and wrapped, into fresh queues and into ones that begin at the last
/// slot; in portions of one, around a half and a third, of all and of more. Large queues have no small portions.
fn script(caps: [usize; 2]) -> Script {
    let mut stream = Stream::new(caps);
    for q in 0..2 {
        let (cap, other) = (caps[q], caps[1 - q]);
        for len in in_order(vec![0, cap / 2, cap]) {
            for n in in_order(vec![1, len / 3, len / 2, len, other, other + 1]) {
                if n * 40 >= len {
                    let head = (cap / 3 + n) % cap.max(1);
                    chain(&mut stream, q, [head, len], n, 0);
                    chain(&mut stream, q, [head, len], n, other.saturating_sub(1));
                }
            }
        }
    }
    stream.script()
}

/// Queue q, with this record, moved whole and then in portions of n, as far as there is room, into the other queue,
/// which is empty and has this head; what was moved whole goes back first.
fn chain(stream: &mut Stream, q: usize, record: [usize; 2], n: usize, to: usize) {
    begin(stream, q, record, to);
    stream.go(q, &Call::MoveAll);
    stream.go(1 - q, &Call::MoveAll);
    begin(stream, q, record, to);
    // A portion of none opens the move.
    stream.go(q, &Call::MovePortion(0));
    let mut left = usize::MAX;
    while left > stream.now().0[q].len {
        left = stream.now().0[q].len;
        stream.go(q, &Call::MovePortion(n));
        between(stream, q, left);
    }
}

/// The two records at the start of a move.
fn begin(stream: &mut Stream, q: usize, [head, len]: [usize; 2], to: usize) {
    stream.go(q, &Call::SetRecord(head, len, false));
    stream.go(1 - q, &Call::SetRecord(to, 0, false));
}

/// What goes on between two portions: looks at both queues; a change and a way back, which the new one refuses while
/// the move is open. Where it has ended, the old one has nothing that could go.
fn between(stream: &mut Stream, q: usize, left: usize) {
    let World(queues) = stream.now();
    if !queues[1 - q].mark {
        return;
    }
    for (q, call) in [
        (q, Call::Front),
        (1 - q, Call::Back),
        (1 - q, Call::Get(left / 2)),
        (q, Call::Compare),
        (1 - q, Call::Truncate(left)),
        (1 - q, Call::MovePortion(1)),
        (q, Call::Append),
    ] {
        stream.go(q, &call);
    }
}
