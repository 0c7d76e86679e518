// A ring: the list stands from slot `head` on, and runs on from the last slot to slot 0.
use crate::{sum, Answer, Vector, MOST};
use std::ops::Range;

pub struct Ring<'a> {
    pub slots: &'a mut [u32],
    pub head: usize,
    pub len: usize,
    pub total: u64,
}

pub struct Cursor {
    pub front: usize,
    pub back: usize,
}

impl<'a> Ring<'a> {
    pub const fn new(slots: &'a mut [u32]) -> Ring<'a> {
        Ring { slots, head: 0, len: 0, total: 0 }
    }

    fn is_valid(&self) -> bool {
        let cap = self.slots.len();
        cap <= MOST && self.len <= cap && if self.len == 0 { self.head == 0 } else { self.head < cap }
    }

    // The slot of position j, at most the capacity.
    fn slot(&self, j: usize) -> usize {
        let at = self.head + j;
        if at < self.slots.len() { at } else { at - self.slots.len() }
    }

    fn slot_before_head(&self) -> usize {
        if self.head == 0 { self.slots.len() - 1 } else { self.head - 1 }
    }

    // The runs of slots, one or two, of positions from .. to.
    fn runs(&self, from: usize, to: usize) -> (Range<usize>, Range<usize>) {
        let (start, count) = (self.slot(from), to - from);
        let gap = self.slots.len() - start;
        if count <= gap { (start..start + count, 0..0) } else { (start..start + gap, 0..count - gap) }
    }

    pub(crate) fn as_slices(&self) -> (&[u32], &[u32]) {
        let (first, second) = self.runs(0, self.len);
        (&self.slots[first], &self.slots[second])
    }

    // Positions past from, up to and with to, go one down.
    fn shift_down(&mut self, from: usize, to: usize) {
        let (start, end) = (self.slot(from), self.slot(to));
        if start <= end {
            self.slots.copy_within(start + 1..end + 1, start);
            return;
        }
        let last = self.slots.len() - 1;
        self.slots.copy_within(start + 1.., start);
        self.slots[last] = self.slots[0];
        self.slots.copy_within(1..end + 1, 0);
    }

    // Positions from .. to go one up.
    fn shift_up(&mut self, from: usize, to: usize) {
        let (start, end) = (self.slot(from), self.slot(to));
        if start <= end {
            self.slots.copy_within(start..end, start + 1);
            return;
        }
        let last = self.slots.len() - 1;
        self.slots.copy_within(0..end, 1);
        self.slots[0] = self.slots[last];
        self.slots.copy_within(start..last, start + 1);
    }

    // Positions from at on take the numbers of a run.
    fn lay(&mut self, at: usize, run: &[u32]) {
        let (first, second) = self.runs(at, at + run.len());
        let (low, high) = run.split_at(first.len());
        self.slots[first].copy_from_slice(low);
        self.slots[second].copy_from_slice(high);
    }

    // The last entries are dropped, and k are left.
    fn cut(&mut self, k: usize) {
        let (first, second) = self.runs(k, self.len);
        let dropped = sum(&self.slots[first.clone()]) + sum(&self.slots[second.clone()]);
        self.slots[first].fill(0);
        self.slots[second].fill(0);
        self.total = self.total.wrapping_sub(dropped);
        self.leave(k);
    }

    // An emptied ring starts at slot 0.
    fn leave(&mut self, k: usize) {
        self.len = k;
        if k == 0 {
            self.head = 0;
        }
    }

    #[inline(never)]
    pub fn push_back(&mut self, x: u32) -> Answer {
        if !self.is_valid() {
            return Answer::refused(1);
        }
        if self.len == self.slots.len() {
            return Answer::refused(6);
        }
        let at = self.slot(self.len);
        self.slots[at] = x;
        self.len += 1;
        self.total = self.total.wrapping_add(x as u64);
        Answer::at(at, 0, 0)
    }

    #[inline(never)]
    pub fn push_front(&mut self, x: u32) -> Answer {
        if !self.is_valid() {
            return Answer::refused(1);
        }
        if self.len == self.slots.len() {
            return Answer::refused(6);
        }
        self.head = self.slot_before_head();
        self.slots[self.head] = x;
        self.len += 1;
        self.total = self.total.wrapping_add(x as u64);
        Answer::at(self.head, 0, 0)
    }

    #[inline(never)]
    pub fn pop_back(&mut self) -> Answer {
        if !self.is_valid() {
            return Answer::refused(1);
        }
        if self.len == 0 {
            return Answer::refused(4);
        }
        let at = self.slot(self.len - 1);
        let x = std::mem::take(&mut self.slots[at]);
        self.leave(self.len - 1);
        self.total = self.total.wrapping_sub(x as u64);
        Answer::at(at, x, 0)
    }

    #[inline(never)]
    pub fn pop_front(&mut self) -> Answer {
        if !self.is_valid() {
            return Answer::refused(1);
        }
        if self.len == 0 {
            return Answer::refused(4);
        }
        let at = self.head;
        let x = std::mem::take(&mut self.slots[at]);
        self.head = self.slot(1);
        self.leave(self.len - 1);
        self.total = self.total.wrapping_sub(x as u64);
        Answer::at(at, x, 0)
    }

    #[inline(never)]
    pub fn read(&self, i: usize) -> Answer {
        if !self.is_valid() {
            return Answer::refused(1);
        }
        if i >= self.len {
            return Answer::refused(3);
        }
        let at = self.slot(i);
        Answer::at(at, self.slots[at], 0)
    }

    // The shorter side shifts.
    #[inline(never)]
    pub fn insert(&mut self, i: usize, x: u32) -> Answer {
        if !self.is_valid() {
            return Answer::refused(1);
        }
        if i > self.len {
            return Answer::refused(3);
        }
        if self.len == self.slots.len() {
            return Answer::refused(6);
        }
        let after = self.len - i;
        if i < after {
            self.head = self.slot_before_head();
            self.shift_down(0, i);
        } else {
            self.shift_up(i, self.len);
        }
        let at = self.slot(i);
        self.slots[at] = x;
        self.len += 1;
        self.total = self.total.wrapping_add(x as u64);
        Answer::at(at, 0, i.min(after))
    }

    #[inline(never)]
    pub fn remove(&mut self, i: usize) -> Answer {
        if !self.is_valid() {
            return Answer::refused(1);
        }
        if i >= self.len {
            return Answer::refused(3);
        }
        let at = self.slot(i);
        let x = self.slots[at];
        let after = self.len - 1 - i;
        if i < after {
            self.shift_up(0, i);
            self.slots[self.head] = 0;
            self.head = self.slot(1);
        } else {
            self.shift_down(i, self.len - 1);
            let freed = self.slot(self.len - 1);
            self.slots[freed] = 0;
        }
        self.leave(self.len - 1);
        self.total = self.total.wrapping_sub(x as u64);
        Answer::at(at, x, i.min(after))
    }

    // 12 where the plain call would be done, with more moves than allowed.
    #[inline(never)]
    pub fn insert_within(&mut self, i: usize, x: u32, allowance: usize) -> Answer {
        if self.is_valid() && i <= self.len && self.len < self.slots.len() && i.min(self.len - i) > allowance {
            return Answer::refused(12);
        }
        self.insert(i, x)
    }

    #[inline(never)]
    pub fn remove_within(&mut self, i: usize, allowance: usize) -> Answer {
        if self.is_valid() && i < self.len && i.min(self.len - 1 - i) > allowance {
            return Answer::refused(12);
        }
        self.remove(i)
    }

    #[inline(never)]
    pub fn clear(&mut self) -> Answer {
        if !self.is_valid() {
            return Answer::refused(1);
        }
        self.cut(0);
        Answer::done(0)
    }

    #[inline(never)]
    pub fn resize(&mut self, k: usize, x: u32) -> Answer {
        if !self.is_valid() {
            return Answer::refused(1);
        }
        if k > self.slots.len() {
            return Answer::refused(6);
        }
        if k < self.len {
            self.cut(k);
            return Answer::done(0);
        }
        let (first, second) = self.runs(self.len, k);
        self.slots[first].fill(x);
        self.slots[second].fill(x);
        self.total = self.total.wrapping_add((k - self.len) as u64 * x as u64);
        self.len = k;
        Answer::done(0)
    }

    #[inline(never)]
    pub fn append(&mut self, other: &mut Ring) -> Answer {
        if !self.is_valid() {
            return Answer::refused(1);
        }
        if !other.is_valid() {
            return Answer::refused(2);
        }
        if self.slots.len() - self.len < other.len {
            return Answer::refused(6);
        }
        let (first, second) = other.as_slices();
        self.lay(self.len, first);
        self.lay(self.len + first.len(), second);
        self.len += other.len;
        let before = other.total;
        other.cut(0);
        self.total = self.total.wrapping_add(before.wrapping_sub(other.total));
        Answer::done(0)
    }

    #[inline(never)]
    pub fn clone_to(&self, other: &mut Ring) -> Answer {
        if !self.is_valid() {
            return Answer::refused(1);
        }
        if !other.is_valid() {
            return Answer::refused(2);
        }
        if other.len > 0 {
            return Answer::refused(5);
        }
        if other.slots.len() < self.len {
            return Answer::refused(6);
        }
        let (first, second) = self.as_slices();
        other.slots[..first.len()].copy_from_slice(first);
        other.slots[first.len()..self.len].copy_from_slice(second);
        other.len = self.len;
        other.total = other.total.wrapping_add(sum(first) + sum(second));
        Answer::done(0)
    }

    #[inline(never)]
    pub fn same(&self, other: &Ring) -> Answer {
        if !self.is_valid() {
            return Answer::refused(1);
        }
        if !other.is_valid() {
            return Answer::refused(2);
        }
        let same = self.len == other.len && joined_alike(self.as_slices(), other.as_slices());
        Answer::done(same as u32)
    }

    #[inline(never)]
    pub fn same_as_vector(&self, other: &Vector) -> Answer {
        if !self.is_valid() {
            return Answer::refused(1);
        }
        if !other.is_valid() {
            return Answer::refused(2);
        }
        let (first, second) = self.as_slices();
        let same = self.len == other.len && other.slots[..first.len()] == *first && other.slots[first.len()..self.len] == *second;
        Answer::done(same as u32)
    }

    #[inline(never)]
    pub fn step_front(&self, cursor: &mut Cursor) -> Answer {
        if !self.is_valid() {
            return Answer::refused(1);
        }
        if cursor.front > cursor.back || cursor.back > self.len {
            return Answer::refused(3);
        }
        if cursor.front == cursor.back {
            return Answer::refused(4);
        }
        let at = self.slot(cursor.front);
        cursor.front += 1;
        Answer::done(self.slots[at])
    }

    #[inline(never)]
    pub fn total(&self) -> u64 {
        self.total
    }
}

// Whether two lists of one length, each in two pieces, are equal.
fn joined_alike(one: (&[u32], &[u32]), other: (&[u32], &[u32])) -> bool {
    if one.0.len() > other.0.len() {
        return joined_alike(other, one);
    }
    let (start, rest) = other.0.split_at(one.0.len());
    let (middle, end) = one.1.split_at(rest.len());
    one.0 == start && middle == rest && end == other.1
}
