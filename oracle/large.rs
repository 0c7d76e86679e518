// Cases at the capacities where something changes: a byte's end, a power of two, the most that is permitted and above it.
use crate::allowance;
use crate::ops::{self, Act::*, Kind, Kind::*, Op, OPS};
use crate::pen::Pen;
use crate::rng::Rng;
use crate::rules::{self, State};
use crate::totals;

// Every call on each of these, from heads and lengths at the bounds; those on a text are in texts.rs.
pub fn every(pen: &mut Pen) {
    let mut rng = Rng::new(0x1a46e);
    for cap in [15, 16, 17, 255, 256, 257, 4095, 4096, 4097, 4200] {
        let slots: Vec<u32> = (0..cap as u32).map(|k| 0x5000_0000 + k).collect();
        for op in OPS.iter().filter(|op| !ops::has_text(op.act)) {
            let times = if cap < 300 { 40 } else if ops::plain(op.act).is_some() { 12 } else { 3 };
            for _ in 0..times {
                one(pen, &mut rng, op, &slots);
            }
        }
    }
}

fn one(pen: &mut Pen, rng: &mut Rng, op: &Op, slots: &[u32]) {
    let cap = slots.len() as u64;
    let len = rng.pick(&[0, 1, 2, 7, cap / 2, cap / 2 + 1, cap - 1, cap, cap, cap + 1]);
    let free = cap.saturating_sub(len);
    let at = [0, 1, 5, len / 2, (len / 2).saturating_sub(1), len.saturating_sub(1), len, len + 1, cap - 1, cap, cap + 1, free, free + 1];
    let a = match op.act {
        Store => rules::text_length(cap) - 1 + rng.below(3),
        _ => rng.pick(&at),
    };
    let b = if ops::has_entry(op.act) { rng.next() >> 32 } else { rng.pick(&at) };
    let head = rng.pick(&[0, 1, cap / 2, cap - 3, cap - 2, cap - 1]);
    let head = home(rng, head, len);
    pen.set_first(head, len, slots);
    if ops::has_second(op.act) || op.act == Extend {
        let room = rng.pick(&[cap, cap, len.min(cap), 3]);
        let filled = if op.act == Append { (free + rng.below(2)).min(room) } else { rng.below(8) / 7 };
        let head = rng.pick(&[0, room / 2, room.saturating_sub(1)]);
        pen.set_second(home(rng, head, filled), filled, &slots[..room as usize]);
    } else {
        pen.set_second(1, 1, &[4, 5, 6]);
    }
    let (front, back) = (rng.pick(&at), rng.pick(&at));
    pen.set_cursor(front.min(back), front.max(back).min(len + rng.below(9) / 8));
    totals::place(pen, rng, op);
    if ops::plain(op.act).is_some() {
        return within(pen, op, (a, b), (head, len, slots));
    }
    pen.line(op.code, a, b);
}

// On one ring, with each allowance about what would move.
fn within(pen: &mut Pen, op: &Op, (a, b): (u64, u64), (head, len, slots): (u64, u64, &[u32])) {
    for allowed in allowance::about(slots.len() as u64, allowance::count(op.act, len, a)) {
        pen.set_first(head, len, slots);
        pen.set_cursor(allowed, !allowed);
        pen.line(op.code, a, b);
    }
}

// An empty ring's head is 0, but for one in four.
fn home(rng: &mut Rng, head: u64, len: u64) -> u64 {
    if len == 0 && !rng.one_in(4) { 0 } else { head }
}

// Two that hold one list, of every length up to 70 and about 256 and 4,096; then with one entry changed, up to 70 each in turn.
pub fn alike(pen: &mut Pen) {
    let mut rng = Rng::new(0x5a3e);
    for op in OPS.iter().filter(|op| matches!(op.act, Same | SameAsVector)) {
        for len in (0..=70u64).chain([255, 256, 257, 4095, 4096]) {
            let changed: Vec<u64> = if len <= 70 { (0..len).collect() } else { vec![0, 1, len / 2, len - 17, len - 16, len - 2, len - 1] };
            for _ in 0..if len < 4095 { 6 } else { 2 } {
                turned(pen, &mut rng, op, len, None);
            }
            for j in changed {
                turned(pen, &mut rng, op, len, Some(j));
            }
        }
    }
}

// The few of them that the fixed list has.
pub fn few_alike(pen: &mut Pen) {
    let mut rng = Rng::new(0xa11c);
    for op in OPS.iter().filter(|op| matches!(op.act, Same | SameAsVector)) {
        for len in [15, 16, 17, 33] {
            for changed in [None, None, Some(0), Some(len - 1)] {
                turned(pen, &mut rng, op, len, changed);
            }
        }
    }
}

// One list on two runs of slots, each of a capacity and from a head of its own; `changed` is an entry that the second has otherwise.
fn turned(pen: &mut Pen, rng: &mut Rng, op: &Op, len: u64, changed: Option<u64>) {
    let mut list: Vec<u32> = (0..len).map(|_| rng.next() as u32).collect();
    let (head, slots) = laid(rng, op.kind, &list);
    pen.set_first(head, len, &slots);
    if let Some(j) = changed {
        list[j as usize] ^= 1 << rng.below(32);
    }
    let (head, slots) = laid(rng, ops::second_kind(op.act, op.kind), &list);
    pen.set_second(head, len, &slots);
    totals::place(pen, rng, op);
    pen.line(op.code, 0, 0);
}

fn laid(rng: &mut Rng, kind: Kind, list: &[u32]) -> (u64, Vec<u32>) {
    let len = list.len() as u64;
    let cap = (len + rng.pick(&[0, 0, 1, 5, 40])).clamp(1, 4096);
    let head = if len == 0 { 0 } else { rng.below(cap) };
    let mut slots: Vec<u32> = (0..cap).map(|_| rng.next() as u32).collect();
    for (j, x) in list.iter().enumerate() {
        slots[rules::slot(kind, State { cap, head, len }, j as u64)] = *x;
    }
    (head, slots)
}

type Call = (u8, u64, u64);

// Capacity, head, length, and the calls from there, with totals that are placed between them.
const FEW: [(u64, u64, u64, &[Call]); 11] = [
    (16, 12, 15, &[(0x1a, 7, 1), (0x1a, 8, 1), (0x1b, 8, 0), (0x1a, 8, 2), (0x1b, 3, 0), (0x19, 0, 0), (0x17, 0, 3), (0x17, 0, 4), (0x1b, 15, 0), (0x1d, 16, 5)]),
    // 7 is half of 16 - 1, the most that moves; with one less allowed, which the cursor's front says (07), it is 12
    (16, 12, 15, &[
        (0x07, 6, 7), (0x90, 7, 1), (0x90, 8, 1), (0x91, 7, 0), (0x07, 7, 6), (0x90, 7, 1), (0x90, 7, 2), (0x91, 7, 0), (0x90, 8, 3), (0x91, 8, 0),
        (0x07, 6, 7), (0x91, 7, 0), (0x91, 8, 0),
    ]),
    (17, 16, 9, &[(0x1a, 4, 1), (0x1a, 5, 1), (0x1b, 5, 0), (0x1b, 4, 0), (0x18, 0, 0), (0x1d, 17, 6), (0x16, 0, 7), (0x1c, 16, 0), (0x16, 0, 8), (0x1e, 0, 0)]),
    (256, 250, 200, &[
        (0x1a, 3, 1), (0x1a, 199, 2), (0x1b, 2, 0), (0x1b, 198, 0), (0x16, 0, 3), (0x17, 0, 4), (0x18, 0, 0), (0x19, 0, 0),
        (0x1d, 256, 5), (0x16, 0, 6), (0x1c, 9, 0),
    ]),
    (257, 254, 20, &[
        (0x80, 2330, 0), (0x80, 2329, 0), (0x29, 0, 0), (0x2a, 256, 1), (0x2a, 10, 9), (0x2d, 257, 8), (0x26, 0, 1), (0x33, 3, 257), (0x33, 3, 258),
    ]),
    // Each call that reports a slot, at slot 256: one byte doesn't hold it. The last pop_front empties the ring.
    (257, 254, 20, &[
        (0x13, 2, 0), (0x15, 2, 1), (0x1b, 2, 0), (0x1a, 2, 2), (0x07, 2, 20), (0x91, 2, 0), (0x90, 2, 2), (0x1c, 3, 0), (0x18, 0, 0), (0x16, 0, 3),
        (0x19, 0, 0), (0x19, 0, 0), (0x19, 0, 0), (0x17, 0, 4),
    ]),
    (257, 0, 257, &[(0x23, 256, 0), (0x25, 256, 1), (0x27, 0, 0), (0x26, 0, 2), (0x29, 256, 0), (0x2a, 256, 3), (0x2b, 256, 0)]),
    (4096, 4090, 4095, &[
        (0x1a, 2047, 1), (0x1b, 2048, 0), (0x1b, 2046, 0), (0x17, 0, 2), (0x19, 0, 0), (0x80, 36_881, 0), (0x80, 36_880, 0), (0x14, 3, 0),
        (0x1d, 4097, 0), (0x62, 0, 0), (0x27, 0, 0),
    ]),
    // 2,047 is half of 4,096 - 1
    (4096, 4090, 4095, &[(0x07, 2046, 0), (0x90, 2047, 1), (0x91, 2047, 0), (0x07, 2047, 0), (0x91, 2047, 0), (0x90, 2047, 1)]),
    // Above 4,096 slots every state is invalid, and a making is refused. Whatever the first's total (08), none is left; the second's (09) stays.
    (4097, 1, 2, &[
        (0x08, 5, 0), (0x09, 6, 0), (0x16, 0, 1), (0x10, 0, 0), (0x08, u64::MAX, 0), (0x11, 1, 0), (0x08, 5, 0), (0x20, 0, 0),
        (0x08, 5, 0), (0x21, 1, 0), (0x08, u64::MAX, 0), (0x28, 1, 1),
    ]),
    (4200, 4199, 3, &[(0x12, 0, 0), (0x39, 0, 0)]),
];

// The few large calls of the fixed list: only slots near the ends and the middle are placed, since each call prints all of them.
pub fn few(pen: &mut Pen) {
    let mut rng = Rng::new(0xfe3);
    for (cap, head, len, calls) in FEW {
        wrapped(pen, cap, head, len);
        totals::place_as(pen, &mut rng, [Ring, Vector]);
        for &(code, a, b) in calls {
            pen.line(code, a, b);
        }
    }
    pen.line(1, 0, 0);
}

fn wrapped(pen: &mut Pen, cap: u64, head: u64, len: u64) {
    pen.line(1, cap, 0);
    pen.line(2, head, len);
    for k in (0..12).chain(cap / 2 - 3..cap / 2 + 3).chain(cap - 12..cap) {
        pen.line(3, k, 0x7000 + k);
    }
    pen.line(4, 1, 0);
    pen.line(7, 1, len);
}
