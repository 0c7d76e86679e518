// tinyvec's SliceVec, where Debian's package is installed: a vector over lent slots. It panics where there is no room or no such position, and pop,
// remove and swap_remove leave 0 in the slot that they free.
use crate::place::Page;
use crate::work;
use std::cell::UnsafeCell;
use tinyvec::SliceVec;

type Lent = SliceVec<'static, u32>;

#[derive(Clone, Copy)]
pub struct Vector<const C: usize>(&'static UnsafeCell<Lent>);

#[inline(never)]
fn push(v: &mut Lent, x: u32) {
    v.push(x)
}

#[inline(never)]
fn pop(v: &mut Lent) -> Option<u32> {
    v.pop()
}

#[inline(never)]
fn read(v: &Lent, i: usize) -> Option<u32> {
    v.get(i).copied()
}

#[inline(never)]
fn insert(v: &mut Lent, i: usize, x: u32) {
    v.insert(i, x)
}

#[inline(never)]
fn remove(v: &mut Lent, i: usize) -> u32 {
    v.remove(i)
}

#[inline(never)]
fn swap_remove(v: &mut Lent, i: usize) -> u32 {
    v.swap_remove(i)
}

#[inline(never)]
fn extend(v: &mut Lent, s: &[u32]) {
    v.extend_from_slice(s)
}

#[inline(never)]
fn truncate(v: &mut Lent, k: usize) {
    v.truncate(k)
}

#[inline(never)]
fn total(v: &Lent) -> u64 {
    v.iter().map(|&x| x as u64).sum()
}

impl<const C: usize> Vector<C> {
    #[inline(always)]
    fn it(self) -> &'static mut Lent {
        unsafe { &mut *self.0.get() }
    }
}

impl<const C: usize> work::Vector for Vector<C> {
    fn make() -> Self {
        static mut LENT: Page = Page::of(0);
        let slots = unsafe { &mut (&mut *(&raw mut LENT.slots))[..C] };
        Vector(Box::leak(Box::new(UnsafeCell::new(SliceVec::from_slice_len(slots, 0)))))
    }

    #[inline(always)]
    fn push(self, x: u32) -> u64 {
        push(self.it(), x);
        0
    }

    #[inline(always)]
    fn pop(self) -> Option<u32> {
        pop(self.it())
    }

    #[inline(always)]
    fn read(self, i: usize) -> Option<u32> {
        read(self.it(), i)
    }

    #[inline(always)]
    fn insert(self, i: usize, x: u32) -> u64 {
        insert(self.it(), i, x);
        0
    }

    #[inline(always)]
    fn remove(self, i: usize) -> Option<u32> {
        Some(remove(self.it(), i))
    }

    #[inline(always)]
    fn swap_remove(self, i: usize) -> Option<u32> {
        Some(swap_remove(self.it(), i))
    }

    #[inline(always)]
    fn truncate(self, k: usize) -> u64 {
        truncate(self.it(), k);
        0
    }

    #[inline(always)]
    fn extend(self, s: &[u32]) -> u64 {
        extend(self.it(), s);
        0
    }

    #[inline(always)]
    fn total(self) -> u64 {
        total(self.it())
    }

    // No slot is touched, as `clear` would.
    #[inline(always)]
    fn anew(self) {
        self.it().set_len(0);
    }
}
