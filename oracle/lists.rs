// What a done call does to the lists and which entry it returns: the same call on Rust's own VecDeque or Vec.
use crate::ops::{Act, Act::*};
use std::collections::VecDeque;
use std::mem::{replace, take};

// A ring's call; `other` is T's list. Answers the value.
pub fn ring(act: Act, a: usize, x: u32, list: &mut VecDeque<u32>, other: &mut VecDeque<u32>) -> u32 {
    match act {
        New => *list = VecDeque::new(),
        WithCapacity => *list = VecDeque::with_capacity(a),
        Len => return list.len() as u32,
        Read => return list[a],
        Reserve => list.reserve(a),
        Write => return replace(&mut list[a], x),
        PushBack => list.push_back(x),
        PushFront => list.push_front(x),
        PopBack => return list.pop_back().unwrap(),
        PopFront => return list.pop_front().unwrap(),
        Insert => list.insert(a, x),
        Remove => return list.remove(a).unwrap(),
        Truncate => list.truncate(a),
        Resize => list.resize(a, x),
        Clear => list.clear(),
        Append => list.append(other),
        SplitOff => *other = list.split_off(a),
        Clone => *other = list.clone(),
        Same => return (list == other) as u32,
        _ => unreachable!("{act:?} is no call of a ring"),
    }
    0
}

// A vector's call; `other` is T's list, or for extend_from_slice what is added.
pub fn vector(act: Act, a: usize, x: u32, list: &mut Vec<u32>, other: &mut Vec<u32>) -> u32 {
    match act {
        New => *list = Vec::new(),
        WithCapacity => *list = Vec::with_capacity(a),
        FromElem => *list = vec![x; a],
        Len => return list.len() as u32,
        IsEmpty => return list.is_empty() as u32,
        Read => return list[a],
        AskRange => {}
        Reserve => list.reserve(a),
        TryReserve => list.try_reserve(a).unwrap(),
        TryReserveExact => list.try_reserve_exact(a).unwrap(),
        Write => return replace(&mut list[a], x),
        PushBack => list.push(x),
        PopBack => return list.pop().unwrap(),
        Insert => list.insert(a, x),
        Remove => return list.remove(a),
        SwapRemove => return list.swap_remove(a),
        Truncate => list.truncate(a),
        Resize => list.resize(a, x),
        Clear => list.clear(),
        Extend => list.extend_from_slice(&take(other)),
        Append => list.append(other),
        SplitOff => *other = list.split_off(a),
        Clone => *other = list.clone(),
        Same => return (list == other) as u32,
        _ => unreachable!("{act:?} is no call of a vector"),
    }
    0
}

// A ring's sameness with a vector.
pub fn ring_and_vector(list: &VecDeque<u32>, other: &Vec<u32>) -> u32 {
    (list == other) as u32
}

// The part that a vector lends. A writable one takes x at position a, where it has that position; what stood in it before is answered.
pub fn part(act: Act, a: usize, b: usize, x: u32, list: &mut Vec<u32>) -> Vec<u32> {
    match act {
        Range => list[a..b].to_vec(),
        AsSlice => list.as_slice().to_vec(),
        AsRef => std::convert::AsRef::<[u32]>::as_ref(list).to_vec(),
        Deref => std::ops::Deref::deref(list).to_vec(),
        AsMutSlice => written(list.as_mut_slice(), a, x),
        DerefMut => written(std::ops::DerefMut::deref_mut(list), a, x),
        _ => unreachable!("{act:?} lends no part"),
    }
}

fn written(part: &mut [u32], a: usize, x: u32) -> Vec<u32> {
    let stood = part.to_vec();
    if let Some(place) = part.get_mut(a) {
        *place = x;
    }
    stood
}

// What a call of the cursor leaves: value, front, back, and the list that from_iter collects.
pub struct Walked {
    pub value: u32,
    pub front: u64,
    pub back: u64,
    pub filled: Option<Vec<u32>>,
}

// A cursor is a real iterator over the whole list, from which what lies outside front and back was taken.
pub fn walk<'a, I>(act: Act, k: usize, front: u64, back: u64, whole: I) -> Walked
where
    I: DoubleEndedIterator<Item = &'a u32> + ExactSizeIterator,
{
    let mut left = whole;
    let after = (left.len() as u64 - back) as usize;
    if front > 0 {
        left.nth(front as usize - 1);
    }
    if after > 0 {
        left.nth_back(after - 1);
    }
    let at = |value: Option<&u32>, front, back| Walked { value: *value.unwrap(), front, back, filled: None };
    match act {
        StepFront => {
            let value = left.next();
            at(value, back - left.len() as u64, back)
        }
        StepBack => {
            let value = left.next_back();
            at(value, front, front + left.len() as u64)
        }
        PeekFront => at(left.nth(k), front, back),
        PeekBack => at(left.rev().nth(k), front, back),
        FromIter => Walked { value: 0, front: back, back, filled: Some(left.copied().collect()) },
        _ => unreachable!("{act:?} is no call of a cursor"),
    }
}
