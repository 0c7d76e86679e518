// The same rules by hand, on lent slots at a fixed place; each call goes through the crate `by_hand`.
use crate::place::{Line, Page};
use crate::work;
use by_hand::{Answer, Cursor};

static mut LENT: [Page; 2] = [const { Page::of(0) }; 2];
static mut RING: [Line<by_hand::Ring<'static>>; 2] = [const { Line(by_hand::Ring::new(&mut [])) }; 2];
static mut VECTOR: [Line<by_hand::Vector<'static>>; 2] = [const { Line(by_hand::Vector::new(&mut [])) }; 2];

#[derive(Clone, Copy)]
pub struct Ring<const C: usize, const WHICH: usize>;

#[derive(Clone, Copy)]
pub struct Rings<const C: usize>;

#[derive(Clone, Copy)]
pub struct Turned<const C: usize>;

#[derive(Clone, Copy)]
pub struct Nearly<const C: usize>;

#[derive(Clone, Copy)]
pub struct Mixed<const C: usize>;

#[derive(Clone, Copy)]
pub struct Vectors<const C: usize>;

#[derive(Clone, Copy)]
pub struct Vector<const C: usize>;

#[inline(always)]
fn ring<const WHICH: usize>() -> &'static mut by_hand::Ring<'static> {
    unsafe { &mut *(&raw mut RING[WHICH].0) }
}

#[inline(always)]
fn vector_of<const WHICH: usize>() -> &'static mut by_hand::Vector<'static> {
    unsafe { &mut *(&raw mut VECTOR[WHICH].0) }
}

#[inline(always)]
fn vector() -> &'static mut by_hand::Vector<'static> {
    vector_of::<0>()
}

fn slots<const C: usize, const WHICH: usize>() -> &'static mut [u32] {
    unsafe { &mut (&mut *(&raw mut LENT[WHICH].slots))[..C] }
}

fn lay<const C: usize, const WHICH: usize>(n: usize) {
    *vector_of::<WHICH>() = by_hand::Vector::new(slots::<C, WHICH>());
    for k in 0..n {
        vector_of::<WHICH>().push(k as u32);
    }
}

#[inline(always)]
fn done(a: Answer) -> u64 {
    a.number as u64
}

#[inline(always)]
fn entry(a: Answer) -> Option<u32> {
    if a.number == 0 { Some(a.value) } else { None }
}

impl<const C: usize, const WHICH: usize> work::Ring for Ring<C, WHICH> {
    fn make() -> Self {
        *ring::<WHICH>() = by_hand::Ring::new(slots::<C, WHICH>());
        Ring
    }

    #[inline(always)]
    fn push_back(self, x: u32) -> u64 {
        done(ring::<WHICH>().push_back(x))
    }

    #[inline(always)]
    fn push_front(self, x: u32) -> u64 {
        done(ring::<WHICH>().push_front(x))
    }

    #[inline(always)]
    fn pop_back(self) -> Option<u32> {
        entry(ring::<WHICH>().pop_back())
    }

    #[inline(always)]
    fn pop_front(self) -> Option<u32> {
        entry(ring::<WHICH>().pop_front())
    }

    #[inline(always)]
    fn read(self, i: usize) -> Option<u32> {
        entry(ring::<WHICH>().read(i))
    }

    #[inline(always)]
    fn insert(self, i: usize, x: u32) -> u64 {
        done(ring::<WHICH>().insert(i, x))
    }

    #[inline(always)]
    fn remove(self, i: usize) -> Option<u32> {
        entry(ring::<WHICH>().remove(i))
    }

    #[inline(always)]
    fn insert_within(self, i: usize, x: u32, allowance: usize) -> u64 {
        done(ring::<WHICH>().insert_within(i, x, allowance))
    }

    #[inline(always)]
    fn remove_within(self, i: usize, allowance: usize) -> Option<u32> {
        entry(ring::<WHICH>().remove_within(i, allowance))
    }

    #[inline(always)]
    fn clear(self) -> u64 {
        done(ring::<WHICH>().clear())
    }

    #[inline(always)]
    fn resize(self, k: usize, x: u32) -> u64 {
        done(ring::<WHICH>().resize(k, x))
    }

    type Cursor = Cursor;

    #[inline(always)]
    fn begin(self) -> Cursor {
        Cursor { front: 0, back: ring::<WHICH>().len }
    }

    #[inline(always)]
    fn step(self, u: &mut Cursor) -> Option<u32> {
        entry(ring::<WHICH>().step_front(u))
    }

    #[inline(always)]
    fn total(self) -> u64 {
        ring::<WHICH>().total()
    }
}

impl<const C: usize> work::Pair for Rings<C> {
    fn make(n: usize) -> Self {
        let _: Ring<C, 0> = work::wrapped(C, 0);
        let _: Ring<C, 1> = work::wrapped(C, n);
        Rings
    }

    #[inline(always)]
    fn append(self) -> u64 {
        done(ring::<0>().append(ring::<1>()))
    }

    #[inline(always)]
    fn append_back(self) -> u64 {
        done(ring::<1>().append(ring::<0>()))
    }

    // T as `new` makes it: no slot is touched.
    #[inline(always)]
    fn clone_to(self) -> u64 {
        let t = ring::<0>();
        (t.head, t.len, t.total) = (0, 0, 0);
        done(ring::<1>().clone_to(t))
    }
}

impl<const C: usize> work::Alike for Turned<C> {
    fn make(n: usize) -> Self {
        let _: Ring<C, 1> = work::twice_turned::<Ring<C, 0>, _>(C, n);
        Turned
    }

    #[inline(always)]
    fn same(self) -> Option<u32> {
        entry(ring::<0>().same(ring::<1>()))
    }
}

impl<const C: usize> work::Alike for Nearly<C> {
    fn make(n: usize) -> Self {
        let _: Turned<C> = work::Alike::make(n);
        ring::<1>().pop_back();
        ring::<1>().push_back(u32::MAX);
        Nearly
    }

    #[inline(always)]
    fn same(self) -> Option<u32> {
        entry(ring::<0>().same(ring::<1>()))
    }
}

impl<const C: usize> work::Alike for Mixed<C> {
    fn make(n: usize) -> Self {
        let _: Ring<C, 0> = work::wrapped(C, n);
        lay::<C, 1>(n);
        Mixed
    }

    #[inline(always)]
    fn same(self) -> Option<u32> {
        entry(ring::<0>().same_as_vector(vector_of::<1>()))
    }
}

impl<const C: usize> work::Alike for Vectors<C> {
    fn make(n: usize) -> Self {
        lay::<C, 0>(n);
        lay::<C, 1>(n);
        Vectors
    }

    #[inline(always)]
    fn same(self) -> Option<u32> {
        entry(vector().equal(vector_of::<1>()))
    }
}

impl<const C: usize> work::Vector for Vector<C> {
    fn make() -> Self {
        *vector() = by_hand::Vector::new(slots::<C, 0>());
        Vector
    }

    #[inline(always)]
    fn push(self, x: u32) -> u64 {
        done(vector().push(x))
    }

    #[inline(always)]
    fn pop(self) -> Option<u32> {
        entry(vector().pop())
    }

    #[inline(always)]
    fn read(self, i: usize) -> Option<u32> {
        entry(vector().read(i))
    }

    #[inline(always)]
    fn insert(self, i: usize, x: u32) -> u64 {
        done(vector().insert(i, x))
    }

    #[inline(always)]
    fn remove(self, i: usize) -> Option<u32> {
        entry(vector().remove(i))
    }

    #[inline(always)]
    fn swap_remove(self, i: usize) -> Option<u32> {
        entry(vector().swap_remove(i))
    }

    #[inline(always)]
    fn truncate(self, k: usize) -> u64 {
        done(vector().truncate(k))
    }

    #[inline(always)]
    fn extend(self, s: &[u32]) -> u64 {
        done(vector().extend_from_slice(s))
    }

    #[inline(always)]
    fn total(self) -> u64 {
        vector().total()
    }

    // As `new` makes it: no slot is touched.
    #[inline(always)]
    fn anew(self) {
        let v = vector();
        (v.len, v.total) = (0, 0);
    }
}
