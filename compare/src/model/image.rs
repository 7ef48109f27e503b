//! Saved images: two bytes of length, version 1, and four bytes for each element, all big-endian.

use super::{LIMIT, Verdict, check, list, make, slots_fit};
use crate::world::{Answer, Queue};

/// The elements of an image whose layout is right.
fn elements(bytes: &[u8]) -> Option<Vec<u32>> {
    let [high, low, rest @ ..] = bytes else { return None };
    let length = usize::from(u16::from_be_bytes([*high, *low]));
    let [1, body @ ..] = rest else { return None };
    let whole = rest.len() == length && body.len() % 4 == 0 && body.len() / 4 <= LIMIT;
    whole.then(|| body.chunks(4).map(|b| u32::from_be_bytes(b.try_into().unwrap())).collect())
}

/// Reads an image into the queue's slots, bare ones: refusals 1, 5, 4.
pub fn read(queue: &mut Queue, bytes: &[u8]) -> Verdict {
    slots_fit(queue.cap())?;
    let list = elements(bytes).ok_or(5)?;
    if list.len() > queue.cap() {
        return Err(4);
    }
    make(queue, &list);
    Ok((0, Answer::Silent))
}

/// The image of a list.
pub fn image(list: &[u32]) -> Vec<u8> {
    let length = (1 + 4 * list.len()) as u16;
    let mut bytes = length.to_be_bytes().to_vec();
    bytes.push(1);
    bytes.extend(list.iter().flat_map(|v| v.to_be_bytes()));
    bytes
}

/// Writes the image into the first bytes of a target whose bytes are 238: refusals 1, 2, 4.
pub fn write(queue: &Queue, target: usize) -> Verdict {
    check(queue)?;
    let mut bytes = image(&list(queue));
    if bytes.len() > target {
        return Err(4);
    }
    let written = bytes.len();
    bytes.resize(target, 238);
    Ok((0, Answer::Image(written, bytes)))
}
