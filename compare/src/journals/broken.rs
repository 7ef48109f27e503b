//! Each way to be broken: the lines before it stand, and nothing behind it is read.

use super::{Add, journal, record};

/// A record of each operation.
const KINDS: [(u8, &[u32]); 9] =
    [(1, &[5]), (2, &[5]), (3, &[]), (4, &[]), (5, &[0, 1]), (6, &[1]), (7, &[1]), (8, &[1, 5]), (9, &[1])];

/// Two good records.
fn good() -> Vec<u8> {
    journal(&[(2, &[7]), (1, &[8])])
}

/// Bytes between two good records and one more.
fn between(bytes: &[u8]) -> Vec<u8> {
    [&good(), bytes, &record(1, &[9])].concat()
}

/// A record that says another length, as it stands.
fn with_length(whole: &[u8], length: u16) -> Vec<u8> {
    [&length.to_be_bytes(), &whole[2..]].concat()
}

/// A record that says another length, with that many bytes.
fn filled(whole: &[u8], length: u16) -> Vec<u8> {
    let mut bytes = with_length(whole, length);
    bytes.resize(2 + usize::from(length), 0);
    bytes
}

/// A length too small, too large or of another operation; another version; an unknown operation; a record cut after
/// each of its bytes; bytes behind.
pub fn each_way(add: &mut Add) {
    for (operation, operands) in KINDS {
        let whole = record(operation, operands);
        (1..whole.len()).for_each(|n| add(&format!("cut-{operation}-{n}"), [&good(), &whole[..n]].concat()));
        (1..whole.len()).for_each(|n| add(&format!("cut-first-{operation}-{n}"), whole[..n].to_vec()));
        for length in [0, 1, 2, 3, 5, 6, 7, 9, 10, 11, 14, 255] {
            if usize::from(length) + 2 != whole.len() {
                add(&format!("length-{operation}-{length}"), between(&with_length(&whole, length)));
                add(&format!("length-{operation}-{length}-filled"), between(&filled(&whole, length)));
            }
        }
        add(&format!("length-{operation}-65535"), between(&with_length(&whole, u16::MAX)));
        for version in [0, 2, 255] {
            let mut bytes = whole.clone();
            bytes[2] = version;
            add(&format!("version-{operation}-{version}"), between(&bytes));
        }
    }
    for operation in [0, 10, 255] {
        for operands in 0..4 {
            add(&format!("operation-{operation}-{operands}"), between(&record(operation, &vec![1; operands])));
        }
    }
    add("first-record-broken", vec![0, 2, 1, 0]);
    for byte in [0, b'\n', 255] {
        add(&format!("one-byte-{byte}"), vec![byte]);
        (1..=12).for_each(|n| add(&format!("bytes-behind-{byte}-{n}"), [good(), vec![byte; n]].concat()));
    }
    add("much-behind-a-broken-one", [between(&[0, 2, 0, 3]), record(1, &[9]).repeat(17_500)].concat());
}

/// Records that say the largest length and have it.
pub fn longest(add: &mut Add) {
    for (operation, operands) in KINDS {
        let bytes = filled(&record(operation, operands), u16::MAX);
        add(&format!("length-{operation}-65535-filled"), between(&bytes));
    }
}
