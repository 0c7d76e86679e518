// A vector: position j stands in slot j.
use crate::{sum, Answer, MOST};

pub struct Vector<'a> {
    pub slots: &'a mut [u32],
    pub len: usize,
    pub total: u64,
}

impl<'a> Vector<'a> {
    pub const fn new(slots: &'a mut [u32]) -> Vector<'a> {
        Vector { slots, len: 0, total: 0 }
    }

    pub(crate) fn is_valid(&self) -> bool {
        self.len <= self.slots.len() && self.slots.len() <= MOST
    }

    pub(crate) fn as_slice(&self) -> &[u32] {
        &self.slots[..self.len]
    }

    #[inline(never)]
    pub fn push(&mut self, x: u32) -> Answer {
        if !self.is_valid() {
            return Answer::refused(1);
        }
        if self.len == self.slots.len() {
            return Answer::refused(6);
        }
        let at = self.len;
        self.slots[at] = x;
        self.len += 1;
        self.total = self.total.wrapping_add(x as u64);
        Answer::at(at, 0, 0)
    }

    #[inline(never)]
    pub fn pop(&mut self) -> Answer {
        if !self.is_valid() {
            return Answer::refused(1);
        }
        if self.len == 0 {
            return Answer::refused(4);
        }
        self.len -= 1;
        let x = std::mem::take(&mut self.slots[self.len]);
        self.total = self.total.wrapping_sub(x as u64);
        Answer::at(self.len, x, 0)
    }

    #[inline(never)]
    pub fn read(&self, i: usize) -> Answer {
        if !self.is_valid() {
            return Answer::refused(1);
        }
        if i >= self.len {
            return Answer::refused(3);
        }
        Answer::at(i, self.slots[i], 0)
    }

    #[inline(never)]
    pub fn insert(&mut self, i: usize, x: u32) -> Answer {
        if !self.is_valid() {
            return Answer::refused(1);
        }
        if i > self.len {
            return Answer::refused(3);
        }
        if self.len == self.slots.len() {
            return Answer::refused(6);
        }
        let moves = self.len - i;
        self.slots.copy_within(i..self.len, i + 1);
        self.slots[i] = x;
        self.len += 1;
        self.total = self.total.wrapping_add(x as u64);
        Answer::at(i, 0, moves)
    }

    #[inline(never)]
    pub fn remove(&mut self, i: usize) -> Answer {
        if !self.is_valid() {
            return Answer::refused(1);
        }
        if i >= self.len {
            return Answer::refused(3);
        }
        let x = self.slots[i];
        self.slots.copy_within(i + 1..self.len, i);
        self.len -= 1;
        self.slots[self.len] = 0;
        self.total = self.total.wrapping_sub(x as u64);
        Answer::at(i, x, self.len - i)
    }

    #[inline(never)]
    pub fn swap_remove(&mut self, i: usize) -> Answer {
        if !self.is_valid() {
            return Answer::refused(1);
        }
        if i >= self.len {
            return Answer::refused(3);
        }
        let x = self.slots[i];
        self.len -= 1;
        self.slots[i] = self.slots[self.len];
        self.slots[self.len] = 0;
        self.total = self.total.wrapping_sub(x as u64);
        Answer::at(i, x, (i < self.len) as usize)
    }

    #[inline(never)]
    pub fn truncate(&mut self, k: usize) -> Answer {
        if !self.is_valid() {
            return Answer::refused(1);
        }
        if k < self.len {
            let dropped = &mut self.slots[k..self.len];
            self.total = self.total.wrapping_sub(sum(dropped));
            dropped.fill(0);
            self.len = k;
        }
        Answer::done(0)
    }

    #[inline(never)]
    pub fn extend_from_slice(&mut self, s: &[u32]) -> Answer {
        if !self.is_valid() {
            return Answer::refused(1);
        }
        if self.slots.len() - self.len < s.len() {
            return Answer::refused(6);
        }
        let end = self.len + s.len();
        self.slots[self.len..end].copy_from_slice(s);
        self.len = end;
        self.total = self.total.wrapping_add(sum(s));
        Answer::done(0)
    }

    #[inline(never)]
    pub fn equal(&self, other: &Vector) -> Answer {
        if !self.is_valid() {
            return Answer::refused(1);
        }
        if !other.is_valid() {
            return Answer::refused(2);
        }
        Answer::done((self.as_slice() == other.as_slice()) as u32)
    }

    #[inline(never)]
    pub fn total(&self) -> u64 {
        self.total
    }
}
