// Paper 01's rules of layout and refusal, with request 03's of an empty ring, request 10's of the slot reported and request 11's of an allowance, written
// from the papers: validity, slots, heads, numbers, carrying, moves, reports, stored form. No list is made here.
use crate::ops::{self, Act, Act::*, Kind, Kind::*};

pub const MOST: u64 = 4096;
pub const NO_SLOT: u64 = 65_535; // what is reported where there is no slot to report
pub const TOO_MANY_MOVES: u8 = 12;

#[derive(Clone, Copy, PartialEq, Eq, Debug)]
pub struct State {
    pub cap: u64,
    pub head: u64,
    pub len: u64,
}

// A call with everything that its number may depend on.
pub struct Asked {
    pub act: Act,
    pub kind: Kind,
    pub a: u64,
    pub b: u64,
    pub first: State,
    pub second: State,
    pub front: u64,
    pub back: u64,
}

pub fn valid(kind: Kind, s: State) -> bool {
    s.cap <= MOST && s.len <= s.cap && (kind == Vector || head_fits(s))
}

// A ring's head is a slot, or 0 where there is none; an empty ring's is 0.
fn head_fits(s: State) -> bool {
    (s.head < s.cap || (s.cap == 0 && s.head == 0)) && (s.len > 0 || s.head == 0)
}

// The slot of position j; asked of valid states only.
pub fn slot(kind: Kind, s: State, j: u64) -> usize {
    match kind {
        Ring => ((s.head + j) % s.cap) as usize,
        Vector => j as usize,
    }
}

// A container that is read back counts as made.
pub fn is_making(act: Act) -> bool {
    matches!(act, New | WithCapacity | FromElem | ReadBack)
}

// The first number that applies, from the lowest up; 0 where none does. A higher one is only tried once the lower ones don't apply, so states are valid by then.
pub fn number(q: &Asked) -> u8 {
    let applies = [one, two, three, four, five, six];
    applies.iter().position(|test| test(q)).map_or(0, |k| k as u8 + 1)
}

fn one(q: &Asked) -> bool {
    // A making is given slots and no state.
    if is_making(q.act) { q.first.cap > MOST } else { !valid(q.kind, q.first) }
}

fn two(q: &Asked) -> bool {
    ops::has_second(q.act) && !valid(ops::second_kind(q.act, q.kind), q.second)
}

fn three(q: &Asked) -> bool {
    let n = q.first.len;
    let cursor_off = !(q.front <= q.back && q.back <= n);
    match q.act {
        Read | Write | Remove | SwapRemove => q.a >= n,
        Insert | SplitOff => q.a > n,
        AskRange => !(q.a <= q.b && q.b <= n),
        StepFront | StepBack | FromIter => cursor_off,
        PeekFront | PeekBack => cursor_off || q.a >= q.back - q.front,
        _ => false,
    }
}

fn four(q: &Asked) -> bool {
    match q.act {
        PopBack | PopFront => q.first.len == 0,
        StepFront | StepBack => q.front == q.back,
        _ => false,
    }
}

fn five(q: &Asked) -> bool {
    matches!(q.act, SplitOff | Clone | FromIter) && q.second.len != 0
}

fn six(q: &Asked) -> bool {
    let free = |s: State| s.cap - s.len;
    match q.act {
        PushBack | PushFront | Insert => free(q.first) < 1,
        Reserve | TryReserve | TryReserveExact | Extend => free(q.first) < q.a,
        Append => free(q.first) < q.second.len,
        SplitOff => free(q.second) < q.first.len - q.a,
        Clone => free(q.second) < q.first.len,
        FromIter => free(q.second) < q.back - q.front,
        WithCapacity | FromElem | Resize => q.a > q.first.cap,
        Store => q.a < text_length(q.first.cap),
        _ => false,
    }
}

// The first container's head after a call that is done and leaves so many entries.
pub fn head_after(q: &Asked, left: u64) -> u64 {
    let State { cap, head, len } = q.first;
    if q.kind == Vector || left == 0 {
        return 0;
    }
    let back = || (head + cap - 1) % cap;
    let on = || (head + 1) % cap;
    match q.act {
        PushFront => back(),
        PopFront => on(),
        Insert if q.a < len - q.a => back(),
        Remove if q.a < len - 1 - q.a => on(),
        New | WithCapacity | Clear => 0,
        _ => head,
    }
}

// Where position j of the first container is carried; None where its entry leaves the list.
fn carried(q: &Asked, len_after: u64, j: u64) -> Option<u64> {
    let last = q.first.len - 1;
    let inserted = |i: u64| Some(if j < i { j } else { j + 1 });
    let removed = |i: u64| if j == i { None } else { Some(if j < i { j } else { j - 1 }) };
    match q.act {
        Insert => inserted(q.a),
        PushFront => inserted(0),
        Remove => removed(q.a),
        PopFront => removed(0),
        SwapRemove if j == q.a => None,
        SwapRemove if j == last => Some(q.a),
        _ => (j < len_after).then_some(j),
    }
}

// Counted entry by entry: those that remain and stand in another slot than before.
pub fn moves(q: &Asked, after: State) -> u64 {
    let moved = |j: u64| carried(q, after.len, j).is_some_and(|k| slot(q.kind, q.first, j) != slot(q.kind, after, k));
    (0..q.first.len).filter(|&j| moved(j)).count() as u64
}

// Of a call with an allowance, by what the plain call answers: 12 where that is done and its moves are more, so that every other number comes before 12.
pub fn exceeds(number: u8, moves: u64, allowance: u64) -> bool {
    number == 0 && moves > allowance
}

// What a call that is done reports, `after` being the first container's state then: where the entry stands that was put, read or written, or where the
// one stood that was taken out. None for every other call.
pub fn reported(q: &Asked, after: State) -> Option<usize> {
    let stands = |j: u64| Some(slot(q.kind, after, j));
    let stood = |j: u64| Some(slot(q.kind, q.first, j));
    match q.act {
        Read | Write | Insert => stands(q.a),
        PushBack => stands(after.len - 1),
        PushFront => stands(0),
        Remove | SwapRemove => stood(q.a),
        PopBack => stood(q.first.len - 1),
        PopFront => stood(0),
        _ => None,
    }
}

pub fn occupied(kind: Kind, s: State) -> impl Iterator<Item = usize> {
    (0..s.len).map(move |j| slot(kind, s, j))
}

// The list stands in its slots, a slot that was occupied and no longer is holds 0, and every other is left alone.
pub fn lay<'a>(kind: Kind, slots: &mut [u32], before: State, after: State, list: impl Iterator<Item = &'a u32>) {
    for k in occupied(kind, before) {
        slots[k] = 0;
    }
    for (k, x) in occupied(kind, after).zip(list) {
        slots[k] = *x;
    }
}

pub fn text_length(cap: u64) -> u64 {
    17 + 9 * cap
}

// The stored form, into the beginning of a text that is long enough.
pub fn store(kind: Kind, s: State, slots: &[u32], text: &mut [u8]) {
    let (byte, head) = if kind == Ring { (0, s.head) } else { (1, 0) };
    let mut form = format!("{byte:02x}00{:04x}{head:04x}{:04x}\n", s.cap, s.len);
    for x in slots {
        form.push_str(&format!("{x:08x}\n"));
    }
    text[..form.len()].copy_from_slice(form.as_bytes());
}
