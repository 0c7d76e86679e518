// Before the measuring: random calls on ours and by hand, each from a state and slots of its own, many of them refused. Answer, states and slots must
// come out alike; else the run stops.
use crate::ours::*;
use by_hand::{Answer, Cursor, Ring, Vector};

const CALLS: usize = 200_000;
const MOST: usize = 4096;

pub struct Dice(u64);

impl Dice {
    // A number below n.
    fn below(&mut self, n: usize) -> usize {
        self.0 ^= self.0 << 13;
        self.0 ^= self.0 >> 7;
        self.0 ^= self.0 << 17;
        (self.0 >> 11) as usize % n
    }

    // Mostly small, so that equal lists are met; now and then any.
    fn entry(&mut self) -> u32 {
        if self.below(4) == 0 { self.below(1 << 32) as u32 } else { self.below(2) as u32 }
    }

    fn total(&mut self) -> u64 {
        if self.below(4) == 0 { u64::MAX - self.below(9) as u64 } else { self.below(1 << 40) as u64 }
    }

    // Mostly about what a call on few slots moves.
    fn allowance(&mut self) -> usize {
        if self.below(8) == 0 { usize::MAX >> self.below(64) } else { self.below(4) }
    }

    fn capacity(&mut self) -> usize {
        if self.below(200) == 0 { MOST + self.below(2) } else { self.below(10) }
    }
}

// A container, ring or vector, as both sides get it: a vector's head is 0.
#[derive(Clone, PartialEq, Debug)]
struct Tray {
    slots: Vec<u32>,
    head: usize,
    len: usize,
    total: u64,
}

impl Tray {
    // One state in some is invalid, by one too many or by anything at all.
    fn new(dice: &mut Dice) -> Tray {
        let cap = dice.capacity();
        let slots = (0..cap).map(|_| dice.entry()).collect();
        let len = if dice.below(16) == 0 { 1 << dice.below(64) } else { dice.below(cap + 2).saturating_sub(dice.below(2)) };
        let head = match dice.below(16) {
            0 => 1 << dice.below(64),
            1 => cap,
            _ if len == 0 => 0,
            _ => dice.below(cap.max(1)),
        };
        Tray { slots, head, len, total: dice.total() }
    }

    fn ring(&mut self) -> Ring<'_> {
        Ring { slots: &mut self.slots, head: self.head, len: self.len, total: self.total }
    }

    fn vector(&mut self) -> Vector<'_> {
        Vector { slots: &mut self.slots, len: self.len, total: self.total }
    }

    fn ring_state(&self) -> RingState {
        [self.head as u64, self.len as u64, self.total]
    }

    fn vector_state(&self) -> VectorState {
        [self.len as u64, self.total]
    }

    fn keep(&mut self, state: &[u64]) {
        (self.len, self.total) = (state[state.len() - 2] as usize, state[state.len() - 1]);
        if state.len() == 3 {
            self.head = state[0] as usize;
        }
    }
}

// What a call is given: two containers, a cursor and a run of numbers.
#[derive(Clone, PartialEq, Debug)]
struct Given {
    first: Tray,
    second: Tray,
    cursor: [usize; 2],
    part: Vec<u32>,
    i: usize,
    x: u32,
    allowance: usize,
}

impl Given {
    fn new(dice: &mut Dice) -> Given {
        let first = Tray::new(dice);
        let mut second = Tray::new(dice);
        if dice.below(4) == 0 {
            (second.head, second.len) = (0, 0); // what a clone takes
        }
        let near = first.len.min(MOST) + 2;
        let (front, back, i) = (dice.below(near), dice.below(near), dice.below(near));
        let part = (0..dice.below(6)).map(|_| dice.entry()).collect();
        Given { first, second, cursor: [front, back], part, i, x: dice.entry(), allowance: dice.allowance() }
    }
}

const RINGS: usize = 16; // so many are on a ring, the others on a vector
const NAMES: [&str; 25] = [
    "push_back", "push_front", "pop_back", "pop_front", "read", "insert", "remove", "clear", "resize", "append", "clone", "same", "same_as_vector", "step_front",
    "insert_within", "remove_within", "vector push", "vector pop", "vector read", "vector insert", "vector remove", "vector swap_remove", "vector truncate", "vector extend_from_slice", "vector equal",
];

fn by_hand_ring(call: usize, g: &mut Given) -> Answer {
    let (mut r, mut t) = (g.first.ring(), g.second.ring());
    let mut cursor = Cursor { front: g.cursor[0], back: g.cursor[1] };
    let answer = match call {
        0 => r.push_back(g.x),
        1 => r.push_front(g.x),
        2 => r.pop_back(),
        3 => r.pop_front(),
        4 => r.read(g.i),
        5 => r.insert(g.i, g.x),
        6 => r.remove(g.i),
        7 => r.clear(),
        8 => r.resize(g.i, g.x),
        9 => r.append(&mut t),
        10 => r.clone_to(&mut t),
        11 => r.same(&t),
        12 => r.same_as_vector(&Vector { slots: t.slots, len: t.len, total: t.total }),
        13 => r.step_front(&mut cursor),
        14 => r.insert_within(g.i, g.x, g.allowance),
        _ => r.remove_within(g.i, g.allowance),
    };
    let (first, second) = ([r.head as u64, r.len as u64, r.total], [t.head as u64, t.len as u64, t.total]);
    g.first.keep(&first);
    g.second.keep(&second);
    g.cursor = [cursor.front, cursor.back];
    answer
}

fn by_hand_vector(call: usize, g: &mut Given) -> Answer {
    let (mut v, t) = (g.first.vector(), g.second.vector());
    let answer = match call {
        16 => v.push(g.x),
        17 => v.pop(),
        18 => v.read(g.i),
        19 => v.insert(g.i, g.x),
        20 => v.remove(g.i),
        21 => v.swap_remove(g.i),
        22 => v.truncate(g.i),
        23 => v.extend_from_slice(&g.part),
        _ => v.equal(&t),
    };
    let state = [v.len as u64, v.total];
    g.first.keep(&state);
    answer
}

fn ours_ring(call: usize, g: &mut Given) -> Word {
    let (mut r, mut t, v) = (g.first.ring_state(), g.second.ring_state(), g.second.vector_state());
    let (slots, cap, theirs, room) = (g.first.slots.as_mut_ptr(), g.first.slots.len(), g.second.slots.as_mut_ptr(), g.second.slots.len());
    let answer = unsafe {
        match call {
            0 => tum_ring_push_back(slots, cap, &mut r, g.x),
            1 => tum_ring_push_front(slots, cap, &mut r, g.x),
            2 => tum_ring_pop_back(slots, cap, &mut r),
            3 => tum_ring_pop_front(slots, cap, &mut r),
            4 => tum_ring_read(slots, cap, &r, g.i),
            5 => tum_ring_insert(slots, cap, &mut r, g.i, g.x),
            6 => tum_ring_remove(slots, cap, &mut r, g.i),
            7 => tum_ring_clear(slots, cap, &mut r),
            8 => tum_ring_resize(slots, cap, &mut r, g.i, g.x),
            9 => tum_ring_append(slots, cap, &mut r, theirs, room, &mut t),
            10 => tum_ring_clone(slots, cap, &r, theirs, room, &mut t),
            11 => tum_ring_same(slots, cap, &r, theirs, room, &t),
            12 => tum_ring_same_as_vector(slots, cap, &r, theirs, room, &v),
            13 => tum_ring_step_front(slots, cap, &r, &mut g.cursor),
            14 => tum_ring_insert_within(slots, cap, &mut r, g.i, g.x, g.allowance),
            _ => tum_ring_remove_within(slots, cap, &mut r, g.i, g.allowance),
        }
    };
    g.first.keep(&r);
    g.second.keep(&t);
    answer
}

fn ours_vector(call: usize, g: &mut Given) -> Word {
    let (mut v, t) = (g.first.vector_state(), g.second.vector_state());
    let (slots, cap) = (g.first.slots.as_mut_ptr(), g.first.slots.len());
    let answer = unsafe {
        match call {
            16 => tum_vector_push(slots, cap, &mut v, g.x),
            17 => tum_vector_pop(slots, cap, &mut v),
            18 => tum_vector_read(slots, cap, &v, g.i),
            19 => tum_vector_insert(slots, cap, &mut v, g.i, g.x),
            20 => tum_vector_remove(slots, cap, &mut v, g.i),
            21 => tum_vector_swap_remove(slots, cap, &mut v, g.i),
            22 => tum_vector_truncate(slots, cap, &mut v, g.i),
            23 => tum_vector_extend_from_slice(slots, cap, &mut v, g.part.as_ptr(), g.part.len()),
            _ => tum_vector_equal(slots, cap, &v, g.second.slots.as_ptr(), g.second.slots.len(), &t),
        }
    };
    g.first.keep(&v);
    answer
}

// How many of the calls were done; the others were refused.
pub fn agree() -> (usize, usize) {
    let mut dice = Dice(0x9e37_79b9_7f4a_7c15);
    let mut done = 0;
    for k in 0..CALLS {
        let call = k % NAMES.len();
        let given = Given::new(&mut dice);
        let (mut one, mut other) = (given.clone(), given.clone());
        let (word, a) = if call < RINGS {
            (ours_ring(call, &mut one), by_hand_ring(call, &mut other))
        } else {
            (ours_vector(call, &mut one), by_hand_vector(call, &mut other))
        };
        let said = (a.number as u64) << 60 | (a.moves as u64) << 48 | (a.slot as u64) << 32 | a.value as u64;
        assert!(word == said && one == other, "{} by hand answers {said:016x}, ours {word:016x}:\n{given:?}\nby hand {other:?}\nours {one:?}", NAMES[call]);
        done += (a.number == 0) as usize;
    }
    (done, CALLS - done)
}
