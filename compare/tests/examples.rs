//! The twelve marked examples of document 01 and the example of the trial script, by the oracle: the model and both
//! Rusts.

use compare::oracle::tell;

/// Sets A (eight slots) to head 6 with the elements 1 to 5, does the lines, and gives the last line's answer and A.
fn example(lines: &str) -> String {
    last(&format!("T 8 2\n0 13 8 3 4 5 93 94 95 1 2\n0 90 6 5 0\n{lines}\n"))
}

/// The last line of a script's output, up to B.
fn last(script: &str) -> String {
    let told = tell(script);
    assert!(told.wrong.is_empty(), "{:?}", told.wrong);
    let line = told.out.lines().last().unwrap();
    line[..line.rfind(" | ").unwrap()].to_string()
}

#[test]
fn the_twelve_examples() {
    assert_eq!(example("0 28 0 5"), "0 0 runs 6 8 0 3 | 6 5 o0 : 3 4 5 93 94 95 1 2");
    assert_eq!(example("0 34 1 3\n0 37"), "0 1 . | 0 3 o0 : 1 4 5 93 94 95 1 2");
    assert_eq!(example("0 34 2 3\n0 37"), "0 2 . | 6 4 o0 : 4 5 5 93 94 95 1 2");
    assert_eq!(example("0 34 0 5\n0 37"), "0 0 . | 0 0 o0 : 3 4 5 93 94 95 1 2");
    assert_eq!(example("0 34 3 5\n0 37"), "0 0 . | 6 3 o0 : 3 4 5 93 94 95 1 2");
    assert_eq!(example("0 34 2 2\n0 37"), "0 0 . | 6 5 o0 : 3 4 5 93 94 95 1 2");
    assert_eq!(example("0 11 3"), "0 0 . | 0 3 o0 : 3 4 5 93 94 95 1 2");
    assert_eq!(example("0 11 4"), "0 0 . | 7 4 o0 : 3 4 5 93 94 95 1 2");
    assert_eq!(example("0 11 0"), "0 0 . | 3 0 o0 : 3 4 5 93 94 95 1 2");
    assert_eq!(example("0 33 1 2 3 7 8 9"), "0 3 . | 6 7 o0 : 8 9 3 4 5 95 1 7");
    assert_eq!(example("0 33 1 4 1 7"), "0 1 . | 6 3 o0 : 5 4 5 93 94 95 1 7");
    assert_eq!(last("T 4 2\n0 13 4 7 9 5 7\n0 90 2 4 0\n0 31 7\n"), "0 0 found 2 | 2 4 o0 : 7 9 5 7");
    assert_eq!(last("T 4 2\n0 13 4 4 1 6 2\n0 24 1 5\n"), "0 1 . | 0 3 o0 : 4 1 2 2");
    assert_eq!(last("T 2 2\n0 13 2 1 2\n0 42 11\n"), "0 0 count 11 bytes 0 9 1 0 0 0 1 0 0 0 2 | 0 2 o0 : 1 2");
}

#[test]
fn the_example_of_the_trial_script() {
    let told = tell("T 3 2\n0 1 7\n0 2 8\n0 17 1 9\n0 1 5\n1 22\n0 34 1 2\n0 35\n0 37\n");
    let wanted = "T 3 2
0 0 . | 0 1 o0 : 7 1001 1002 | 0 0 o0 : 2000 2001
0 0 . | 2 2 o0 : 7 1001 8 | 0 0 o0 : 2000 2001
0 1 . | 1 3 o0 : 7 8 9 | 0 0 o0 : 2000 2001
4 0 . | 1 3 o0 : 7 8 9 | 0 0 o0 : 2000 2001
4 0 . | 1 3 o0 : 7 8 9 | 0 0 o0 : 2000 2001
0 0 . | d 1 1 1 1 1 1 : 7 8 9 | 0 0 o0 : 2000 2001
0 0 = 9 | d 1 1 1 2 1 0 : 7 8 9 | 0 0 o0 : 2000 2001
0 1 . | 1 2 o0 : 7 8 7 | 0 0 o0 : 2000 2001
";
    assert!(told.wrong.is_empty());
    assert_eq!(told.out, wanted);
}

#[test]
fn the_whole_case_of_the_replay_program() {
    let bytes = [
        &[0, 6, 1, 1, 0, 0, 0, 10][..],
        &[0, 6, 1, 1, 0, 0, 0, 20],
        &[0, 10, 1, 5, 0, 0, 0, 0, 0, 0, 0, 1],
        &[0, 10, 1, 8, 0, 0, 0, 5, 0, 0, 0, 30],
    ]
    .concat();
    let wanted = "0 0 0 1\n0 0 0 2\n0 0 1 1\n3 0 1 1\nend 20\n";
    assert_eq!(compare::journal::replay(&bytes), wanted);
    assert_eq!(compare::model_replay::replay(&bytes), wanted);
}
