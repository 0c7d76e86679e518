// Debian's arrayvec, where its package is installed: a vector of fixed capacity, which refuses what it has no room for.
use crate::work;
use arrayvec::ArrayVec;
use std::cell::UnsafeCell;

#[derive(Clone, Copy)]
pub struct Vector<const C: usize>(&'static UnsafeCell<ArrayVec<u32, C>>);

#[inline(never)]
fn push<const C: usize>(v: &mut ArrayVec<u32, C>, x: u32) -> u64 {
    v.try_push(x).is_err() as u64
}

#[inline(never)]
fn pop<const C: usize>(v: &mut ArrayVec<u32, C>) -> Option<u32> {
    v.pop()
}

#[inline(never)]
fn read<const C: usize>(v: &ArrayVec<u32, C>, i: usize) -> Option<u32> {
    v.get(i).copied()
}

#[inline(never)]
fn insert<const C: usize>(v: &mut ArrayVec<u32, C>, i: usize, x: u32) -> u64 {
    v.try_insert(i, x).is_err() as u64
}

#[inline(never)]
fn remove<const C: usize>(v: &mut ArrayVec<u32, C>, i: usize) -> Option<u32> {
    v.pop_at(i)
}

#[inline(never)]
fn swap_remove<const C: usize>(v: &mut ArrayVec<u32, C>, i: usize) -> Option<u32> {
    v.swap_pop(i)
}

#[inline(never)]
fn extend<const C: usize>(v: &mut ArrayVec<u32, C>, s: &[u32]) -> u64 {
    v.try_extend_from_slice(s).is_err() as u64
}

#[inline(never)]
fn truncate<const C: usize>(v: &mut ArrayVec<u32, C>, k: usize) {
    v.truncate(k)
}

#[inline(never)]
fn total<const C: usize>(v: &ArrayVec<u32, C>) -> u64 {
    v.iter().map(|&x| x as u64).sum()
}

impl<const C: usize> Vector<C> {
    #[inline(always)]
    fn it(self) -> &'static mut ArrayVec<u32, C> {
        unsafe { &mut *self.0.get() }
    }
}

impl<const C: usize> work::Vector for Vector<C> {
    fn make() -> Self {
        Vector(Box::leak(Box::new(UnsafeCell::new(ArrayVec::new()))))
    }

    #[inline(always)]
    fn push(self, x: u32) -> u64 {
        push(self.it(), x)
    }

    #[inline(always)]
    fn pop(self) -> Option<u32> {
        pop(self.it())
    }

    #[inline(always)]
    fn read(self, i: usize) -> Option<u32> {
        read(self.it(), i)
    }

    #[inline(always)]
    fn insert(self, i: usize, x: u32) -> u64 {
        insert(self.it(), i, x)
    }

    #[inline(always)]
    fn remove(self, i: usize) -> Option<u32> {
        remove(self.it(), i)
    }

    #[inline(always)]
    fn swap_remove(self, i: usize) -> Option<u32> {
        swap_remove(self.it(), i)
    }

    #[inline(always)]
    fn truncate(self, k: usize) -> u64 {
        truncate(self.it(), k);
        0
    }

    #[inline(always)]
    fn extend(self, s: &[u32]) -> u64 {
        extend(self.it(), s)
    }

    #[inline(always)]
    fn total(self) -> u64 {
        total(self.it())
    }

    #[inline(always)]
    fn anew(self) {
        self.it().clear();
    }
}
