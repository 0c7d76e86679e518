// The proved calls, as an archive exports them. A caller lends slots that stand at a fixed place, as firmware does.
use crate::place::{Line, Page};
use crate::work;

// An answer: the value in the low 32 bits, the slot in the next 16, the moves in the next 12, the number in the high 4.
pub type Word = u64;
pub type RingState = [u64; 3]; // its head, length and total
pub type VectorState = [u64; 2]; // its length and total

extern "C" {
    pub fn tum_ring_push_back(slots: *mut u32, cap: usize, state: *mut RingState, x: u32) -> Word;
    pub fn tum_ring_push_front(slots: *mut u32, cap: usize, state: *mut RingState, x: u32) -> Word;
    pub fn tum_ring_pop_back(slots: *mut u32, cap: usize, state: *mut RingState) -> Word;
    pub fn tum_ring_pop_front(slots: *mut u32, cap: usize, state: *mut RingState) -> Word;
    pub fn tum_ring_read(slots: *const u32, cap: usize, state: *const RingState, i: usize) -> Word;
    pub fn tum_ring_insert(slots: *mut u32, cap: usize, state: *mut RingState, i: usize, x: u32) -> Word;
    pub fn tum_ring_remove(slots: *mut u32, cap: usize, state: *mut RingState, i: usize) -> Word;
    pub fn tum_ring_insert_within(slots: *mut u32, cap: usize, state: *mut RingState, i: usize, x: u32, allowance: usize) -> Word;
    pub fn tum_ring_remove_within(slots: *mut u32, cap: usize, state: *mut RingState, i: usize, allowance: usize) -> Word;
    pub fn tum_ring_clear(slots: *mut u32, cap: usize, state: *mut RingState) -> Word;
    pub fn tum_ring_resize(slots: *mut u32, cap: usize, state: *mut RingState, k: usize, x: u32) -> Word;
    pub fn tum_ring_append(slots: *mut u32, cap: usize, state: *mut RingState, theirs: *mut u32, room: usize, other: *mut RingState) -> Word;
    pub fn tum_ring_clone(slots: *const u32, cap: usize, state: *const RingState, theirs: *mut u32, room: usize, other: *mut RingState) -> Word;
    pub fn tum_ring_same(slots: *const u32, cap: usize, state: *const RingState, theirs: *const u32, room: usize, other: *const RingState) -> Word;
    pub fn tum_ring_same_as_vector(slots: *const u32, cap: usize, state: *const RingState, theirs: *const u32, room: usize, other: *const VectorState) -> Word;
    pub fn tum_vector_equal(slots: *const u32, cap: usize, state: *const VectorState, theirs: *const u32, room: usize, other: *const VectorState) -> Word;
    pub fn tum_ring_step_front(slots: *const u32, cap: usize, state: *const RingState, cursor: *mut [usize; 2]) -> Word;
    pub fn tum_vector_push(slots: *mut u32, cap: usize, state: *mut VectorState, x: u32) -> Word;
    pub fn tum_vector_pop(slots: *mut u32, cap: usize, state: *mut VectorState) -> Word;
    pub fn tum_vector_read(slots: *const u32, cap: usize, state: *const VectorState, i: usize) -> Word;
    pub fn tum_vector_insert(slots: *mut u32, cap: usize, state: *mut VectorState, i: usize, x: u32) -> Word;
    pub fn tum_vector_remove(slots: *mut u32, cap: usize, state: *mut VectorState, i: usize) -> Word;
    pub fn tum_vector_swap_remove(slots: *mut u32, cap: usize, state: *mut VectorState, i: usize) -> Word;
    pub fn tum_vector_extend_from_slice(slots: *mut u32, cap: usize, state: *mut VectorState, s: *const u32, count: usize) -> Word;
    pub fn tum_vector_truncate(slots: *mut u32, cap: usize, state: *mut VectorState, k: usize) -> Word;
}

static mut LENT: [Page; 2] = [const { Page::of(0) }; 2];
static mut RING: [Line<RingState>; 2] = [const { Line([0; 3]) }; 2];
static mut VECTOR: [Line<VectorState>; 2] = [const { Line([0; 2]) }; 2];

#[inline(always)]
fn done(w: Word) -> u64 {
    w >> 60
}

#[inline(always)]
fn entry(w: Word) -> Option<u32> {
    if w >> 60 == 0 { Some(w as u32) } else { None }
}

// A ring on the first C slots of the run WHICH.
#[derive(Clone, Copy)]
pub struct Ring<const C: usize, const WHICH: usize>;

#[derive(Clone, Copy)]
pub struct Rings<const C: usize>;

// Two rings of one list with heads of their own; two that differ in the last entry; a ring and a vector; two vectors.
#[derive(Clone, Copy)]
pub struct Turned<const C: usize>;

#[derive(Clone, Copy)]
pub struct Nearly<const C: usize>;

#[derive(Clone, Copy)]
pub struct Mixed<const C: usize>;

#[derive(Clone, Copy)]
pub struct Vectors<const C: usize>;

#[derive(Clone, Copy)]
pub struct Vector<const C: usize>;

macro_rules! of_ring {
    ($call:ident $(, $arg:expr)*) => {
        unsafe { $call((&raw mut LENT[WHICH].slots).cast(), C, &raw mut RING[WHICH].0 $(, $arg)*) }
    };
}

macro_rules! of_pair {
    ($call:ident, $first:literal, $second:literal) => {
        unsafe {
            $call(
                (&raw mut LENT[$first].slots).cast(), C, &raw mut RING[$first].0,
                (&raw mut LENT[$second].slots).cast(), C, &raw mut RING[$second].0,
            )
        }
    };
}

macro_rules! of_vector {
    ($call:ident $(, $arg:expr)*) => {
        unsafe { $call((&raw mut LENT[0].slots).cast(), C, &raw mut VECTOR[0].0 $(, $arg)*) }
    };
}

impl<const C: usize, const WHICH: usize> work::Ring for Ring<C, WHICH> {
    fn make() -> Self {
        unsafe { RING[WHICH].0 = [0; 3] };
        Ring
    }

    #[inline(always)]
    fn push_back(self, x: u32) -> u64 {
        done(of_ring!(tum_ring_push_back, x))
    }

    #[inline(always)]
    fn push_front(self, x: u32) -> u64 {
        done(of_ring!(tum_ring_push_front, x))
    }

    #[inline(always)]
    fn pop_back(self) -> Option<u32> {
        entry(of_ring!(tum_ring_pop_back))
    }

    #[inline(always)]
    fn pop_front(self) -> Option<u32> {
        entry(of_ring!(tum_ring_pop_front))
    }

    #[inline(always)]
    fn read(self, i: usize) -> Option<u32> {
        entry(of_ring!(tum_ring_read, i))
    }

    #[inline(always)]
    fn insert(self, i: usize, x: u32) -> u64 {
        done(of_ring!(tum_ring_insert, i, x))
    }

    #[inline(always)]
    fn remove(self, i: usize) -> Option<u32> {
        entry(of_ring!(tum_ring_remove, i))
    }

    #[inline(always)]
    fn insert_within(self, i: usize, x: u32, allowance: usize) -> u64 {
        done(of_ring!(tum_ring_insert_within, i, x, allowance))
    }

    #[inline(always)]
    fn remove_within(self, i: usize, allowance: usize) -> Option<u32> {
        entry(of_ring!(tum_ring_remove_within, i, allowance))
    }

    #[inline(always)]
    fn clear(self) -> u64 {
        done(of_ring!(tum_ring_clear))
    }

    #[inline(always)]
    fn resize(self, k: usize, x: u32) -> u64 {
        done(of_ring!(tum_ring_resize, k, x))
    }

    type Cursor = [usize; 2];

    #[inline(always)]
    fn begin(self) -> [usize; 2] {
        unsafe { [0, RING[WHICH].0[1] as usize] }
    }

    #[inline(always)]
    fn step(self, u: &mut [usize; 2]) -> Option<u32> {
        entry(of_ring!(tum_ring_step_front, u))
    }

    // No call of ours: a caller looks into the state. It does so behind a call too, as all else is.
    #[inline(always)]
    fn total(self) -> u64 {
        rust::number(unsafe { &*(&raw const RING[WHICH].0[2]) })
    }
}

impl<const C: usize> work::Pair for Rings<C> {
    // The entries are in the second, and the list runs on from the last slot to slot 0.
    fn make(n: usize) -> Self {
        let _: Ring<C, 0> = work::wrapped(C, 0);
        let _: Ring<C, 1> = work::wrapped(C, n);
        Rings
    }

    #[inline(always)]
    fn append(self) -> u64 {
        done(of_pair!(tum_ring_append, 0, 1))
    }

    #[inline(always)]
    fn append_back(self) -> u64 {
        done(of_pair!(tum_ring_append, 1, 0))
    }

    // T as `new` makes it: no slot is touched.
    #[inline(always)]
    fn clone_to(self) -> u64 {
        unsafe { RING[0].0 = [0; 3] };
        done(of_pair!(tum_ring_clone, 1, 0))
    }
}

// The second of two is on the other run of slots.
macro_rules! of_two {
    ($call:ident, $first:expr, $second:expr) => {
        unsafe { entry($call((&raw const LENT[0].slots).cast(), C, &raw const $first, (&raw const LENT[1].slots).cast(), C, &raw const $second)) }
    };
}

// A vector of 0 .. n, with its total.
fn lay<const C: usize>(which: usize, n: usize) {
    for k in 0..n {
        unsafe { LENT[which].slots[k] = k as u32 };
    }
    unsafe { VECTOR[which].0 = [n as u64, (0..n as u64).sum()] };
}

impl<const C: usize> work::Alike for Turned<C> {
    fn make(n: usize) -> Self {
        let _: Ring<C, 1> = work::twice_turned::<Ring<C, 0>, _>(C, n);
        Turned
    }

    #[inline(always)]
    fn same(self) -> Option<u32> {
        of_two!(tum_ring_same, RING[0].0, RING[1].0)
    }
}

impl<const C: usize> work::Alike for Nearly<C> {
    fn make(n: usize) -> Self {
        use work::Ring as _;
        let r: Ring<C, 1> = work::twice_turned::<Ring<C, 0>, _>(C, n);
        r.pop_back();
        r.push_back(u32::MAX);
        Nearly
    }

    #[inline(always)]
    fn same(self) -> Option<u32> {
        of_two!(tum_ring_same, RING[0].0, RING[1].0)
    }
}

impl<const C: usize> work::Alike for Mixed<C> {
    fn make(n: usize) -> Self {
        let _: Ring<C, 0> = work::wrapped(C, n);
        lay::<C>(1, n);
        Mixed
    }

    #[inline(always)]
    fn same(self) -> Option<u32> {
        of_two!(tum_ring_same_as_vector, RING[0].0, VECTOR[1].0)
    }
}

impl<const C: usize> work::Alike for Vectors<C> {
    fn make(n: usize) -> Self {
        lay::<C>(0, n);
        lay::<C>(1, n);
        Vectors
    }

    #[inline(always)]
    fn same(self) -> Option<u32> {
        of_two!(tum_vector_equal, VECTOR[0].0, VECTOR[1].0)
    }
}

impl<const C: usize> work::Vector for Vector<C> {
    fn make() -> Self {
        unsafe { VECTOR[0].0 = [0; 2] };
        Vector
    }

    #[inline(always)]
    fn push(self, x: u32) -> u64 {
        done(of_vector!(tum_vector_push, x))
    }

    #[inline(always)]
    fn pop(self) -> Option<u32> {
        entry(of_vector!(tum_vector_pop))
    }

    #[inline(always)]
    fn read(self, i: usize) -> Option<u32> {
        entry(of_vector!(tum_vector_read, i))
    }

    #[inline(always)]
    fn insert(self, i: usize, x: u32) -> u64 {
        done(of_vector!(tum_vector_insert, i, x))
    }

    #[inline(always)]
    fn remove(self, i: usize) -> Option<u32> {
        entry(of_vector!(tum_vector_remove, i))
    }

    #[inline(always)]
    fn swap_remove(self, i: usize) -> Option<u32> {
        entry(of_vector!(tum_vector_swap_remove, i))
    }

    #[inline(always)]
    fn truncate(self, k: usize) -> u64 {
        done(of_vector!(tum_vector_truncate, k))
    }

    #[inline(always)]
    fn extend(self, s: &[u32]) -> u64 {
        done(of_vector!(tum_vector_extend_from_slice, s.as_ptr(), s.len()))
    }

    #[inline(always)]
    fn total(self) -> u64 {
        rust::number(unsafe { &*(&raw const VECTOR[0].0[1]) })
    }

    // As `new` makes it: no slot is touched.
    #[inline(always)]
    fn anew(self) {
        unsafe { VECTOR[0].0 = [0; 2] };
    }
}
