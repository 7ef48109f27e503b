//! A queue moved into another region: what E1 of document 02 says, by the oracle (the model and both Rusts) and by the
//! model in every small state.

use compare::calls::Call;
use compare::exhaustive::{one_of_each, planted, records};
use compare::known;
use compare::model;
use compare::oracle::tell;
use compare::world::{Queue, World};

/// What a script's lines give; A and B have these slots.
fn told(caps: &str, lines: &[&str]) -> Vec<String> {
    let told = tell(&format!("T {caps}\n{}\n", lines.join("\n")));
    assert!(told.wrong.is_empty(), "{:?}", told.wrong);
    told.out.lines().skip(1).map(str::to_string).collect()
}

/// What the last of a script's lines gives, on two queues of four slots; A is 7 8 5 6 from slot 2 on, and holds 5 6 7.
fn last(lines: &[&str]) -> String {
    let begun = ["0 13 4 7 8 5 6", "0 90 2 3 0"];
    told("4 4", &[&begun[..], lines].concat()).pop().unwrap()
}

#[test]
fn a_whole_move() {
    assert_eq!(last(&["0 43"]), "0 3 . | 0 0 o0 : 7 8 5 6 | 0 3 o0 : 5 6 7 2003");
    // What stood in the bare region has left, a mark with it.
    assert_eq!(last(&["1 90 3 4 1", "0 43"]), "0 3 . | 0 0 o0 : 7 8 5 6 | 0 3 o0 : 5 6 7 2003");
    assert_eq!(last(&["1 90 9 9 1", "0 43"]), "0 3 . | 0 0 o0 : 7 8 5 6 | 0 3 o0 : 5 6 7 2003");
    // What just fits is moved, one more is refused.
    let full = ["0 13 3 1 2 3", "0 43"];
    assert_eq!(told("3 3", &full)[1], "0 3 . | 0 0 o0 : 1 2 3 | 0 3 o0 : 1 2 3");
    assert_eq!(told("3 2", &full)[1], "4 0 . | 0 3 o0 : 1 2 3 | 0 0 o0 : 2000 2001");
}

#[test]
fn portions() {
    assert_eq!(last(&["0 44 2"]), "0 2 . | 0 1 o0 : 7 8 5 6 | 0 2 o1 : 5 6 2002 2003");
    assert_eq!(last(&["0 44 2", "0 44 2"]), "0 1 . | 0 0 o0 : 7 8 5 6 | 0 3 o0 : 5 6 7 2003");
    // n = 0 sets the mark if elements are left, and else clears it; an empty old queue gets head 0.
    assert_eq!(last(&["0 44 0"]), "0 0 . | 2 3 o0 : 7 8 5 6 | 0 0 o1 : 2000 2001 2002 2003");
    assert_eq!(
        last(&["0 90 2 0 0", "1 90 1 2 1", "0 44 0"]),
        "0 0 . | 0 0 o0 : 7 8 5 6 | 1 2 o0 : 2000 2001 2002 2003"
    );
    // The smaller of n and len is taken before the sum.
    let most = "0 44 18446744073709551615";
    assert_eq!(last(&["1 90 3 1 0", most]), "0 3 . | 0 0 o0 : 7 8 5 6 | 3 4 o0 : 5 6 7 2003");
    // Refused, nothing changes, the mark neither.
    assert_eq!(last(&["1 90 3 2 1", most]), "4 0 . | 2 3 o0 : 7 8 5 6 | 3 2 o1 : 2000 2001 2002 2003");
    assert_eq!(last(&["1 90 3 4 1", "0 44 1"]), "4 0 . | 2 3 o0 : 7 8 5 6 | 3 4 o1 : 2000 2001 2002 2003");
    assert_eq!(last(&["1 90 3 4 0", "0 44 0"]), "0 0 . | 2 3 o0 : 7 8 5 6 | 3 4 o1 : 2000 2001 2002 2003");
}

#[test]
fn refusals_of_a_portion_in_order() {
    let refusal = |lines: &[&str]| last(lines)[..1].to_string();
    // 2 and 6 of the old queue, 2 of the new one, whose mark is not asked, then 4.
    assert_eq!(refusal(&["0 90 4 0 1", "1 90 4 0 1", "0 44 9"]), "2");
    assert_eq!(refusal(&["0 90 2 3 1", "1 90 4 0 1", "0 44 9"]), "6");
    assert_eq!(refusal(&["0 90 2 3 0", "1 90 4 4 1", "0 44 9"]), "2");
    assert_eq!(refusal(&["0 90 2 3 0", "1 90 3 4 1", "0 44 9"]), "4");
    let slots = |caps, line| told(caps, &["0 90 0 0 1", "1 90 0 0 1", line])[2][..1].to_string();
    assert_eq!(slots("16001 1", "0 44 0"), "1");
    assert_eq!(slots("1 16001", "0 44 0"), "6");
    assert_eq!(told("1 16001", &["1 90 0 0 1", "0 44 0"])[1][..1], *"1");
}

#[test]
fn the_second_queue_of_an_append_is_asked() {
    assert_eq!(last(&["1 90 0 0 1", "0 22"]), "6 0 . | 2 3 o0 : 7 8 5 6 | 0 0 o1 : 2000 2001 2002 2003");
    assert_eq!(last(&["0 90 2 3 1", "1 90 9 9 1", "0 22"]), "6 0 . | 2 3 o1 : 7 8 5 6 | 9 9 o1 : 2000 2001 2002 2003");
    assert_eq!(last(&["1 90 9 9 1", "0 22"]), "2 0 . | 2 3 o0 : 7 8 5 6 | 9 9 o1 : 2000 2001 2002 2003");
    assert_eq!(last(&["1 90 0 2 1", "0 22"])[..1], *"6");
}

#[test]
fn bare_targets_have_no_mark() {
    assert_eq!(last(&["0 90 2 3 1", "0 0"]), "0 0 . | 0 0 o0 : 7 8 5 6 | 0 0 o0 : 2000 2001 2002 2003");
    let image = "0 41 7 0 5 1 0 0 0 9";
    assert_eq!(last(&["0 90 2 3 1", image]), "0 0 . | 0 1 o0 : 9 8 5 6 | 0 0 o0 : 2000 2001 2002 2003");
    assert_eq!(last(&["0 90 2 3 1", "0 41 1 0"]), "5 0 . | 2 3 o1 : 7 8 5 6 | 0 0 o0 : 2000 2001 2002 2003");
    assert_eq!(last(&["1 90 1 1 1", "0 23 1"]), "0 2 . | 2 1 o0 : 7 8 5 6 | 0 2 o0 : 6 7 2002 2003");
}

#[test]
fn nothing_of_a_mark_is_in_a_drain() {
    assert!(last(&["0 90 2 3 1", "0 91 2 0 1 0 2 1", "0 37"]).starts_with("0 0 . | 3 2 o0 :"));
    assert!(last(&["0 90 2 3 1", "0 94"]).starts_with("0 0 . | 0 0 o0 :"));
}

/// The numbers of the calls that a marked queue answers: the looks, and those that make its record anew.
const ANSWERED: [usize; 15] = [0, 7, 8, 9, 25, 26, 27, 28, 29, 30, 31, 32, 38, 41, 42];

#[test]
fn what_a_marked_queue_answers() {
    let mut world = planted(3, 2, 2);
    world.0[0].mark = true;
    for call in one_of_each() {
        let mut after = world.clone();
        let outcome = model::call(&mut after, 0, &call);
        let answered = ANSWERED.contains(&call.words().0);
        assert_eq!(outcome.refusal == 6, !answered, "{call:?}");
        assert_eq!(known::move_open(&world, 0, &call), !answered, "{call:?}");
        assert!(answered || (after == world && outcome.moved == 0), "{call:?}");
    }
    // A portion into it is no call on it.
    assert_eq!(model::call(&mut world, 1, &Call::MovePortion(1)).refusal, 0);
}

/// Every list of at most n numbers, each at most top.
fn lists(n: usize, top: usize) -> Vec<Vec<usize>> {
    let longer = |all: &[Vec<usize>]| -> Vec<Vec<usize>> {
        all.iter().flat_map(|l| (0..=top).map(|v| [l.clone(), vec![v]].concat())).collect()
    };
    let mut all = vec![vec![]];
    let mut last = all.clone();
    for _ in 0..n {
        last = longer(&last);
        all.extend(last.clone());
    }
    all
}

/// Does the portions one after the other; the sum of what moved, if all are accepted.
fn move_by(world: &mut World, portions: &[usize]) -> Option<usize> {
    portions.iter().try_fold(0, |moved, n| {
        let outcome = model::call(world, 0, &Call::MovePortion(*n));
        (outcome.refusal == 0).then_some(moved + outcome.moved)
    })
}

#[test]
fn portions_leave_what_the_whole_move_leaves() {
    let mut compared = 0;
    for (cap, other) in (0..=4).flat_map(|cap| (0..=4).map(move |other| (cap, other))) {
        for (head, len) in records(cap) {
            let start = World([Queue { head, len, ..Queue::new(cap, 10) }, Queue::new(other, 50)]);
            let mut whole = start.clone();
            let outcome = model::call(&mut whole, 0, &Call::MoveAll);
            for portions in lists(4, 5) {
                let mut world = start.clone();
                let moved = move_by(&mut world, &portions);
                if portions.is_empty() || moved.is_none() || world.0[0].len > 0 {
                    continue;
                }
                assert_eq!((outcome.refusal, outcome.moved), (0, moved.unwrap()));
                assert_eq!(world, whole, "{portions:?}");
                compared += 1;
            }
        }
    }
    assert!(compared > 50_000, "{compared}");
}

#[test]
fn no_portion_at_all_changes_nothing() {
    let mut world = World([Queue { head: 2, ..Queue::new(3, 10) }, Queue::new(3, 50)]);
    assert_eq!(move_by(&mut world, &[]), Some(0));
    assert_eq!(world.0[0].head, 2);
    assert_eq!(move_by(&mut world, &[0]), Some(0));
    assert_eq!(world.0[0].head, 0);
}
