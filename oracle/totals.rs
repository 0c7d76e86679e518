// The totals that cases are placed with: what the list adds up to, or another number, most of them near a place where a sum wraps or carries.
use crate::ops::{self, Kind, Op};
use crate::pen::Pen;
use crate::rng::Rng;

const NEAR: u64 = 1 << 10; // more than the entries of a short case add up to

pub fn place(pen: &mut Pen, rng: &mut Rng, op: &Op) {
    place_as(pen, rng, [op.kind, ops::second_kind(op.act, op.kind)]);
}

// Whether a number is what the list adds up to depends on how the container is read.
pub fn place_as(pen: &mut Pen, rng: &mut Rng, kinds: [Kind; 2]) {
    let now = pen.desk.totals();
    let sums = [pen.desk.first.sum(kinds[0]), pen.desk.second.sum(kinds[1])];
    let [first, second] = [0, 1].map(|k| some(rng, now[k], sums[k]));
    pen.set_totals(first, second);
}

fn some(rng: &mut Rng, now: u64, sum: Option<u64>) -> u64 {
    match rng.below(10) {
        0..=2 => sum.unwrap_or(rng.next()),
        3 => 0,
        4 => u64::MAX,
        5 => u64::MAX - rng.below(NEAR),
        6 => rng.below(NEAR),
        7 => (1 << 32) - NEAR / 2 + rng.below(NEAR),
        8 => rng.next(),
        // as it came about, so that it is seen what a placing of head, length or slots leaves
        _ => now,
    }
}
