//! Random calls on a queue and on a `VecDeque` of the standard library: the same answers and lists throughout.
use scorebucket::{Queue, Refusal, Test};
use std::collections::VecDeque;
use std::mem;

/// A xorshift generator: the same calls in every run.
struct Random(u64);

impl Random {
    fn below(&mut self, n: usize) -> usize {
        self.0 ^= self.0 << 13;
        self.0 ^= self.0 >> 7;
        self.0 ^= self.0 << 17;
        (self.0 >> 11) as usize % n
    }

    fn number(&mut self) -> u32 {
        self.below(50) as u32
    }

    fn numbers(&mut self, most: usize) -> Vec<u32> {
        (0..self.below(most + 1)).map(|_| self.number()).collect()
    }

    fn test(&mut self) -> Test {
        let k = self.number();
        [Test::Below(k), Test::AtLeast(k), Test::Equal(k), Test::NotEqual(k)][self.below(4)]
    }
}

fn meets(test: Test, x: u32) -> bool {
    match test {
        Test::Below(k) => x < k,
        Test::AtLeast(k) => x >= k,
        Test::Equal(k) => x == k,
        Test::NotEqual(k) => x != k,
    }
}

/// What the queue must answer where n more elements are to fit; where they do, the model is changed.
fn if_room<T>(
    model: &mut VecDeque<u32>,
    cap: usize,
    more: usize,
    change: impl FnOnce(&mut VecDeque<u32>) -> T,
) -> Result<T, Refusal> {
    if model.len() + more > cap {
        return Err(Refusal::Room);
    }
    Ok(change(model))
}

fn put_in_front(model: &mut VecDeque<u32>, values: &[u32]) {
    values.iter().rev().for_each(|v| model.push_front(*v));
}

/// One random call on both.
fn step(random: &mut Random, queue: &mut Queue<'_>, model: &mut VecDeque<u32>) {
    let cap = queue.capacity();
    let i = random.below(model.len() + 2);
    let j = random.below(model.len() + 2);
    let v = random.number();
    let test = random.test();
    let values = random.numbers(cap / 2 + 1);
    match random.below(28) {
        0 | 1 => assert_eq!(queue.push_back(v), if_room(model, cap, 1, |m| m.push_back(v))),
        2 | 3 => assert_eq!(queue.push_front(v), if_room(model, cap, 1, |m| m.push_front(v))),
        4 => assert_eq!(queue.pop_front(), Ok(model.pop_front())),
        5 => assert_eq!(queue.pop_back(), Ok(model.pop_back())),
        6 => {
            let met = model.front().is_some_and(|x| meets(test, *x));
            let popped = if met { model.pop_front() } else { None };
            assert_eq!(queue.pop_front_if(test), Ok(popped));
        }
        7 => {
            let met = model.back().is_some_and(|x| meets(test, *x));
            let popped = if met { model.pop_back() } else { None };
            assert_eq!(queue.pop_back_if(test), Ok(popped));
        }
        8 => {
            let expected = match i {
                i if i > model.len() => Err(Refusal::Position),
                _ => if_room(model, cap, 1, |m| m.insert(i, v)),
            };
            assert_eq!(queue.insert(i, v), expected);
        }
        9 => assert_eq!(queue.remove(i), Ok(model.remove(i))),
        10 => {
            let expected = match i.max(j) < model.len() {
                true => {
                    model.swap(i, j);
                    Ok(())
                }
                false => Err(Refusal::Position),
            };
            assert_eq!(queue.swap(i, j), expected);
        }
        11 => assert_eq!(queue.swap_remove_front(i), Ok(model.swap_remove_front(i))),
        12 => assert_eq!(queue.swap_remove_back(i), Ok(model.swap_remove_back(i))),
        13 => {
            queue.retain(test).unwrap();
            model.retain(|x| meets(test, *x));
        }
        14 => {
            let n = values.len();
            let expected = if_room(model, cap, n, |m| m.extend(&values));
            assert_eq!(queue.extend(&values), expected);
        }
        15 => {
            let n = values.len();
            let expected = if_room(model, cap, n, |m| put_in_front(m, &values));
            assert_eq!(queue.prepend(&values), expected);
        }
        16 => {
            let n = values.len();
            let expected = if_room(model, cap, n, |m| values.iter().for_each(|v| m.push_front(*v)));
            assert_eq!(queue.extend_front(&values), expected);
        }
        17 => {
            let more = j.saturating_sub(model.len());
            let expected = if_room(model, cap, more, |m| m.resize(j, v));
            assert_eq!(queue.resize(j, v), expected);
        }
        18 => {
            queue.truncate(i).unwrap();
            model.truncate(i);
        }
        19 => {
            queue.truncate_front(i).unwrap();
            model.drain(..model.len().saturating_sub(i));
        }
        20 => drain(random, queue, model, i, j),
        21 => splice(queue, model, i, j, &values),
        22 => append(queue, model, &values),
        23 => split_off(queue, model, i),
        24 => save(queue),
        25 => portions(random, queue, model),
        26 => move_into(random, queue, model),
        _ => {
            queue.clear().unwrap();
            model.clear();
        }
    }
}

/// Draws some elements from either end, and drops or leaks the drain.
fn drain(random: &mut Random, queue: &mut Queue<'_>, model: &mut VecDeque<u32>, i: usize, j: usize) {
    if i > j || j > model.len() {
        assert_eq!(queue.drain(i..j).err(), Some(Refusal::Position));
        return;
    }
    let mut ours = queue.drain(i..j).unwrap();
    let mut theirs = model.drain(i..j);
    for _ in 0..random.below(j - i + 2) {
        match random.below(2) {
            0 => assert_eq!(ours.next(), theirs.next()),
            _ => assert_eq!(ours.next_back(), theirs.next_back()),
        }
        assert_eq!(ours.len(), theirs.len());
    }
    if random.below(2) == 0 {
        mem::forget(ours);
    }
}

fn splice(queue: &mut Queue<'_>, model: &mut VecDeque<u32>, i: usize, j: usize, values: &[u32]) {
    let expected = if i > j || j > model.len() {
        Err(Refusal::Position)
    } else if model.len() - (j - i) + values.len() > queue.capacity() {
        Err(Refusal::Room)
    } else {
        let tail = model.split_off(j);
        model.truncate(i);
        model.extend(values.iter().chain(&tail));
        Ok(())
    };
    assert_eq!(queue.splice(i..j, values), expected);
}

/// A queue that holds the list, round the end of its slots: from position `at` on it stands in the first slots.
fn laid<'s>(slots: &'s mut [u32], list: &[u32], at: usize) -> Queue<'s> {
    let mut queue = Queue::new(slots).unwrap();
    queue.extend(&list[at..]).unwrap();
    queue.prepend(&list[..at]).unwrap();
    queue
}

fn append(queue: &mut Queue<'_>, model: &mut VecDeque<u32>, values: &[u32]) {
    let mut slots = vec![0; values.len() + 1];
    let mut other = laid(&mut slots, values, values.len() / 2);
    let expected = if_room(model, queue.capacity(), values.len(), |m| m.extend(values));
    assert_eq!(queue.append(&mut other), expected);
    let left = if expected.is_ok() { 0 } else { values.len() };
    assert_eq!(other.len(), left);
}

fn split_off(queue: &mut Queue<'_>, model: &mut VecDeque<u32>, i: usize) {
    let mut slots = vec![0; queue.capacity() / 2];
    let cap = slots.len();
    match queue.split_off(i, &mut slots) {
        Ok(split) => check(&split, &model.split_off(i)),
        Err(Refusal::Position) => assert!(i > model.len()),
        Err(refusal) => {
            assert_eq!(refusal, Refusal::Room);
            assert!(model.len() - i > cap);
        }
    }
}

/// Moves a few portions into another queue, which is looked at in between, beside `drain(..n)` into `extend`.
fn portions(random: &mut Random, queue: &mut Queue<'_>, model: &mut VecDeque<u32>) {
    let values = random.numbers(4);
    let cap = values.len() + random.below(model.len() + 3);
    let mut slots = vec![0; cap];
    let mut target = laid(&mut slots, &values, values.len() / 2);
    let mut theirs = VecDeque::from(values);
    let mut open = false;
    for _ in 0..=random.below(4) {
        let n = random.below(model.len() + 2);
        let k = n.min(model.len());
        let expected = if_room(&mut theirs, cap, k, |m| m.extend(model.drain(..k)));
        assert_eq!(queue.move_portion(n, &mut target), expected);
        if expected.is_ok() {
            open = !model.is_empty();
            assert_eq!((queue.moved(), target.moved()), (k, k));
        }
        assert_eq!(target.is_move_open(), open);
        assert_eq!(target.truncate(cap).is_err(), open);
        check(queue, model);
        check(&target, &theirs);
    }
}

/// Moves all into other slots, and goes on with what that leaves.
fn move_into(random: &mut Random, queue: &mut Queue<'_>, model: &mut VecDeque<u32>) {
    let mut slots = vec![0; random.below(queue.capacity() + 2)];
    let expected = if_room(&mut VecDeque::new(), slots.len(), model.len(), |_| mem::take(model));
    match (queue.move_into(&mut slots), expected) {
        (Ok(moved), Ok(theirs)) => check(&moved, &theirs),
        (ours, theirs) => assert_eq!(ours.err(), theirs.err()),
    }
}

/// Writes the queue's image and reads it back.
fn save(queue: &Queue<'_>) {
    let mut bytes = vec![0; 3 + 4 * queue.len()];
    assert_eq!(queue.write_image(&mut bytes), Ok(bytes.len()));
    let mut slots = vec![0; queue.len()];
    let read = Queue::read_image(&mut slots, &bytes).unwrap();
    assert_eq!(read, *queue);
}

/// Both hold the same list, looked at in every way.
fn check(queue: &Queue<'_>, model: &VecDeque<u32>) {
    assert_eq!(queue.len(), model.len());
    assert!(queue.iter().eq(model.iter().copied()));
    assert!(queue.iter().rev().eq(model.iter().rev().copied()));
    let (front, back) = queue.as_slices();
    assert!(front.iter().chain(back).eq(model));
    assert_eq!(queue.front(), model.front().copied());
    assert_eq!(queue.back(), model.back().copied());
}

/// Looks at random operands.
fn look(random: &mut Random, queue: &Queue<'_>, model: &VecDeque<u32>) {
    let i = random.below(model.len() + 2);
    let x = random.number();
    assert_eq!(queue.get(i), model.get(i).copied());
    assert_eq!(queue.contains(x), model.contains(&x));
}

/// Compares with a list that differs in a number, in its length, or not at all.
fn compare(random: &mut Random, queue: &Queue<'_>, model: &VecDeque<u32>) {
    let mut list: Vec<u32> = model.iter().copied().collect();
    let i = random.below(list.len() + 1);
    match random.below(3) {
        0 if i < list.len() => list[i] = random.number(),
        1 => list.truncate(i),
        _ => {}
    }
    let mut slots = vec![0; list.len() + 1];
    let other = laid(&mut slots, &list, random.below(list.len() + 1));
    assert_eq!(queue.cmp(&other), model.iter().cmp(&list));
    assert_eq!(queue == &other, model.iter().eq(&list));
}

/// Searches the sorted numbers, each once, so that a search has one answer.
fn search(random: &mut Random, model: &VecDeque<u32>) {
    let mut list: Vec<u32> = model.iter().copied().collect();
    list.sort_unstable();
    list.dedup();
    let mut slots = vec![0; list.len() + 1];
    let queue = laid(&mut slots, &list, random.below(list.len() + 1));
    let x = random.number();
    let below = list.partition_point(|v| *v < x);
    assert_eq!(queue.binary_search(x), list.binary_search(&x));
    assert_eq!(queue.partition_point(Test::Below(x)), below);
}

#[test]
fn as_the_standard_library() {
    let mut random = Random(0x9e37_79b9_7f4a_7c15);
    for cap in (0..40).chain([100, 257]) {
        let mut slots = vec![0; cap];
        let mut queue = Queue::new(&mut slots).unwrap();
        let mut model = VecDeque::new();
        for _ in 0..4_000 {
            step(&mut random, &mut queue, &mut model);
            check(&queue, &model);
            look(&mut random, &queue, &model);
            compare(&mut random, &queue, &model);
            search(&mut random, &model);
        }
    }
}
