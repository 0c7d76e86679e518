// Rust's own containers at fixed places; each call goes through the crate `rust`.
use crate::place::Line;
use crate::work;
use std::collections::vec_deque::Iter;
use std::collections::VecDeque;

static mut DEQUE: [Line<VecDeque<u32>>; 2] = [const { Line(VecDeque::new()) }; 2];
static mut VEC: [Line<Vec<u32>>; 2] = [const { Line(Vec::new()) }; 2];

#[derive(Clone, Copy)]
pub struct Ring<const C: usize, const WHICH: usize>;

#[derive(Clone, Copy)]
pub struct Rings<const C: usize>;

#[derive(Clone, Copy)]
pub struct Turned<const C: usize>;

#[derive(Clone, Copy)]
pub struct Nearly<const C: usize>;

#[derive(Clone, Copy)]
pub struct Mixed<const C: usize>;

#[derive(Clone, Copy)]
pub struct Vectors<const C: usize>;

#[derive(Clone, Copy)]
pub struct Vector<const C: usize>;

#[inline(always)]
fn deque<const WHICH: usize>() -> &'static mut VecDeque<u32> {
    unsafe { &mut *(&raw mut DEQUE[WHICH].0) }
}

#[inline(always)]
fn vec_of<const WHICH: usize>() -> &'static mut Vec<u32> {
    unsafe { &mut *(&raw mut VEC[WHICH].0) }
}

#[inline(always)]
fn vec() -> &'static mut Vec<u32> {
    vec_of::<0>()
}

fn lay<const C: usize, const WHICH: usize>(n: usize) {
    *vec_of::<WHICH>() = Vec::with_capacity(C);
    vec_of::<WHICH>().extend(0..n as u32);
}

impl<const C: usize, const WHICH: usize> work::Ring for Ring<C, WHICH> {
    fn make() -> Self {
        *deque::<WHICH>() = VecDeque::with_capacity(C);
        Ring
    }

    #[inline(always)]
    fn push_back(self, x: u32) -> u64 {
        rust::deque_push_back(deque::<WHICH>(), x);
        0
    }

    #[inline(always)]
    fn push_front(self, x: u32) -> u64 {
        rust::deque_push_front(deque::<WHICH>(), x);
        0
    }

    #[inline(always)]
    fn pop_back(self) -> Option<u32> {
        rust::deque_pop_back(deque::<WHICH>())
    }

    #[inline(always)]
    fn pop_front(self) -> Option<u32> {
        rust::deque_pop_front(deque::<WHICH>())
    }

    #[inline(always)]
    fn read(self, i: usize) -> Option<u32> {
        rust::deque_read(deque::<WHICH>(), i)
    }

    #[inline(always)]
    fn insert(self, i: usize, x: u32) -> u64 {
        rust::deque_insert(deque::<WHICH>(), i, x);
        0
    }

    #[inline(always)]
    fn remove(self, i: usize) -> Option<u32> {
        rust::deque_remove(deque::<WHICH>(), i)
    }

    #[inline(always)]
    fn clear(self) -> u64 {
        rust::deque_clear(deque::<WHICH>());
        0
    }

    #[inline(always)]
    fn resize(self, k: usize, x: u32) -> u64 {
        rust::deque_resize(deque::<WHICH>(), k, x);
        0
    }

    type Cursor = Iter<'static, u32>;

    #[inline(always)]
    fn begin(self) -> Iter<'static, u32> {
        deque::<WHICH>().iter()
    }

    #[inline(always)]
    fn step(self, u: &mut Iter<'static, u32>) -> Option<u32> {
        rust::deque_step(u)
    }

    #[inline(always)]
    fn total(self) -> u64 {
        rust::deque_total(deque::<WHICH>())
    }
}

impl<const C: usize> work::Pair for Rings<C> {
    fn make(n: usize) -> Self {
        let _: Ring<C, 0> = work::wrapped(C, 0);
        let _: Ring<C, 1> = work::wrapped(C, n);
        Rings
    }

    #[inline(always)]
    fn append(self) -> u64 {
        rust::deque_append(deque::<0>(), deque::<1>());
        0
    }

    #[inline(always)]
    fn append_back(self) -> u64 {
        rust::deque_append(deque::<1>(), deque::<0>());
        0
    }

    #[inline(always)]
    fn clone_to(self) -> u64 {
        rust::deque_clone_to(deque::<1>(), deque::<0>());
        0
    }
}

impl<const C: usize> work::Alike for Turned<C> {
    fn make(n: usize) -> Self {
        let _: Ring<C, 1> = work::twice_turned::<Ring<C, 0>, _>(C, n);
        Turned
    }

    #[inline(always)]
    fn same(self) -> Option<u32> {
        Some(rust::deque_same(deque::<0>(), deque::<1>()) as u32)
    }
}

impl<const C: usize> work::Alike for Nearly<C> {
    fn make(n: usize) -> Self {
        let _: Turned<C> = work::Alike::make(n);
        *deque::<1>().back_mut().unwrap() = u32::MAX;
        Nearly
    }

    #[inline(always)]
    fn same(self) -> Option<u32> {
        Some(rust::deque_same(deque::<0>(), deque::<1>()) as u32)
    }
}

impl<const C: usize> work::Alike for Mixed<C> {
    fn make(n: usize) -> Self {
        let _: Ring<C, 0> = work::wrapped(C, n);
        lay::<C, 1>(n);
        Mixed
    }

    #[inline(always)]
    fn same(self) -> Option<u32> {
        Some(rust::deque_same_as_vec(deque::<0>(), vec_of::<1>()) as u32)
    }
}

impl<const C: usize> work::Alike for Vectors<C> {
    fn make(n: usize) -> Self {
        lay::<C, 0>(n);
        lay::<C, 1>(n);
        Vectors
    }

    #[inline(always)]
    fn same(self) -> Option<u32> {
        Some(rust::vec_equal(vec_of::<0>(), vec_of::<1>()) as u32)
    }
}

impl<const C: usize> work::Vector for Vector<C> {
    fn make() -> Self {
        *vec() = Vec::with_capacity(C);
        Vector
    }

    #[inline(always)]
    fn push(self, x: u32) -> u64 {
        rust::vec_push(vec(), x);
        0
    }

    #[inline(always)]
    fn pop(self) -> Option<u32> {
        rust::vec_pop(vec())
    }

    #[inline(always)]
    fn read(self, i: usize) -> Option<u32> {
        rust::vec_read(vec(), i)
    }

    #[inline(always)]
    fn insert(self, i: usize, x: u32) -> u64 {
        rust::vec_insert(vec(), i, x);
        0
    }

    #[inline(always)]
    fn remove(self, i: usize) -> Option<u32> {
        Some(rust::vec_remove(vec(), i))
    }

    #[inline(always)]
    fn swap_remove(self, i: usize) -> Option<u32> {
        Some(rust::vec_swap_remove(vec(), i))
    }

    #[inline(always)]
    fn truncate(self, k: usize) -> u64 {
        rust::vec_truncate(vec(), k);
        0
    }

    #[inline(always)]
    fn extend(self, s: &[u32]) -> u64 {
        rust::vec_extend(vec(), s);
        0
    }

    #[inline(always)]
    fn total(self) -> u64 {
        rust::vec_total(vec())
    }

    #[inline(always)]
    fn anew(self) {
        vec().clear();
    }
}
