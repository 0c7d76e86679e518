// The rows of the tables: what each measures, on which sides, and what keeps it above the ratio to reach, where something does.
#[cfg(arrayvec)]
use crate::array;
use crate::place::Page;
#[cfg(tinyvec)]
use crate::tiny;
use crate::work::*;
use crate::{hand, ours, theirs};

pub type Side = Box<dyn FnMut(usize) -> Came>;

pub struct Row {
    pub name: &'static str,
    pub beside: &'static str, // whose the second side is
    pub most: [f64; 3], // the ratio to the second side to reach at each capacity
    pub why: &'static str, // what keeps it above that, where it is
    pub by_hand: &'static str, // what keeps it above the ratio to the same rules by hand
    pub sides: [fn() -> Vec<Side>; 3], // at each capacity: ours, that of `beside`, and beside Rust's by hand
    pub demanded: Option<fn(usize) -> Side>, // of so many entries, what the rules demand and Rust doesn't do
}

pub const MOST: [f64; 3] = [1.1; 3];
pub const MOST_SAME: [f64; 3] = [f64::INFINITY, 1.2, 1.2]; // of a comparison: none is set at 16
pub const MOST_WITHIN: [f64; 3] = [1.03; 3]; // of a call with an allowance, beside the plain one
pub const MOST_TOTAL: [f64; 3] = [0.75, 0.1, 0.01]; // of a total, which Rust's containers do not keep

// The same work on each side, at each capacity, on a container that is three quarters full.
macro_rules! row {
    ($name:literal, $beside:literal, [$($side:ident),+], $most:ident, $why:expr, $by_hand:expr, $demanded:expr, $work:tt) => {
        Row {
            name: $name,
            beside: $beside,
            most: $most,
            why: $why,
            by_hand: $by_hand,
            sides: [|| vec![$(side!($side, 16, $work)),+], || vec![$(side!($side, 256, $work)),+], || vec![$(side!($side, 4096, $work)),+]],
            demanded: $demanded,
        }
    };
}

// Beside Rust's containers and by hand.
macro_rules! both {
    ($name:literal, $most:ident, $why:expr, $by_hand:expr, $work:tt) => {
        row!($name, "Rust's", [ours, theirs, hand], $most, $why, $by_hand, None, $work)
    };
    ($name:literal, $most:ident, $why:expr, $by_hand:expr, $demanded:expr, $work:tt) => {
        row!($name, "Rust's", [ours, theirs, hand], $most, $why, $by_hand, Some($demanded), $work)
    };
}

// Beside a vector of another crate.
#[cfg(any(arrayvec, tinyvec))]
macro_rules! beside {
    ($name:literal, $side:ident, $why:expr, $work:tt) => {
        row!($name, "the other vector", [ours, $side], MOST, $why, "", None, $work)
    };
}

// Ours beside the plain call of ours, which stands on slots of its own.
macro_rules! beside_plain {
    ($name:literal, $why:expr, $work:tt, $plain:tt) => {
        Row {
            name: $name,
            beside: "the plain calls",
            most: MOST_WITHIN,
            why: $why,
            by_hand: "",
            sides: [
                || vec![side!(ours, 16, $work), side!(ours, 16, $plain)],
                || vec![side!(ours, 256, $work), side!(ours, 256, $plain)],
                || vec![side!(ours, 4096, $work), side!(ours, 4096, $plain)],
            ],
            demanded: None,
        }
    };
}

macro_rules! side {
    ($side:ident, $cap:literal, ($kind:ident, [$($which:literal)?], $begin:ident, |$c:ident, $n:ident, $spots:ident, $k:ident| $work:expr)) => {{
        let $n = $cap * 3 / 4;
        let $spots = Spots::new();
        let $c: $side::$kind<$cap $(, $which)?> = $begin($cap, $n);
        let side: Side = Box::new(move |$k| { let _ = (&$spots, $n); $work });
        side
    }};
}

const TEST: &str = "the one test before the work, which asks of a state what Rust's type has settled: one to three comparisons more";
const READ: &str = "the one test before the work, which asks of a state what Rust's type has settled: one to three comparisons more; and the slot, which is put into the word beside the entry: a shift and an `or` (request 10)";
const ENDS: &str = "the one test before the work, which asks of a state what Rust's type has settled: two comparisons more in each call, and two more in a push, which asks an empty ring for its head (request 03); the freed slot, which paper 01 has set to 0 and Rust leaves as it was; and the total, one word more of the state that is loaded, changed and stored back in each call (request 04)";
const INSIDE: &str = "the one test before the work, which asks of a state what Rust's type has settled: one to three comparisons more; and the total, one number more that is loaded, changed and stored back in each call (request 04)";
const INSIDE_WITHIN: &str = "what keeps insert + remove above it; and the test of the allowance, which Rust's has not (request 11)";
const WITHIN: &str = "the test of the allowance, one comparison on the side that shifts (request 11)";
const REFILL: &str = "paper 01 has every freed slot hold 0, and what clear takes out is added up (request 04): a pass over each run of slots, where Rust touches none; at 256 also where the loop of resize lies in its function; at 16 the tests of two calls";
const APPEND: &str = "the slots that T frees are set to 0, as paper 01 has it, and what goes over is added up (request 04): a pass over each run, where Rust touches none";
const CLONE: &str = "the test of two states; and what is put in is added up on the way (request 04): a loop of 16-byte registers for each run of slots, where Rust's copy is a memmove";
const WALK: &str = "the one test before each step, which asks of the ring and of the cursor what Rust's iterator has settled when it is made: four comparisons more; and the slot, which is worked out anew where the iterator moves a pointer";
const STACK: &str = "the answer, one word that the caller takes apart, where Rust's push has none and its pop two registers; the total, one number more that is loaded, changed and stored back in each call (request 04); the freed slot and the one test before the work weigh next to nothing here";
const SHIFT: &str = "beside a shift of a few entries each step counts: the state, the total with it (request 04), is written back and the answer put together after the block move, so six registers are saved before it and restored; and the test of the state";
const SWAP: &str = "the one test before the work: two comparisons more in each call; the branch that asks whether the entry is the last one, which at 16 it often is and Rust does not ask; the total, one number more that is loaded, changed and stored back in each call (request 04); and the answer, one word that the caller takes apart";
const EXTEND: &str = "what is put in is added up on the way (request 04): a loop of 16-byte registers, where Rust's copy is a memmove";
const CUT: &str = "paper 01 has every freed slot hold 0, where Rust's truncate stores one word; and what is put in or taken out is added up (request 04): in each call a pass over the run that Rust doesn't make";
const TOTAL: &str = "the read of one number, behind a call as all else is, which takes as long at every capacity; Rust's walk at 16 is of twelve entries";

const SAME: &str = "Rust's `==` is the C library's memcmp, which has code for 32-byte registers where the processor has them; an archive for plain x86-64 has 16-byte ones, so twice as many loads. That is the likely reason and was not isolated (decision 39, bench/TRIED.md)";

// By hand does what the rules demand, too, and beside the limit the demanded work is counted.
const HAND: &str = "not looked into: the row was below or level when this was written";
const SAME_HAND: &str = "the same: by hand's `==` is that memcmp too";
pub const BEYOND: &str = "a list that runs on to slot 0 is two runs, each with a loop of its own, where the limit has one; and the tests and answers of the calls";

// A run of n that is only added up `sums` times, and set to 0 as well `zeros` times.
fn demanded(n: usize, sums: usize, zeros: usize) -> Side {
    static mut RUN: Page = Page::of(7);
    let run = unsafe { &mut (&mut *(&raw mut RUN.slots))[..n] };
    Box::new(move |k| {
        let mut came = Came::default();
        for _ in 0..k {
            for _ in 0..sums {
                came.sum += rust::add_up(run);
            }
            for _ in 0..zeros {
                came.sum += rust::add_up_and_zero(run);
            }
        }
        came
    })
}

pub fn containers() -> Vec<Row> {
    vec![
        both!("push_back + pop_front", MOST, ENDS, HAND, (Ring, [0], wrapped, |r, n, spots, k| ring_queue(r, k))),
        both!("push_front + pop_back", MOST, ENDS, HAND, (Ring, [0], wrapped, |r, n, spots, k| ring_queue_back(r, k))),
        both!("read", MOST, READ, HAND, (Ring, [0], wrapped, |r, n, spots, k| ring_read(r, n, &spots, k))),
        both!("insert + remove", MOST, INSIDE, HAND, (Ring, [0], wrapped, |r, n, spots, k| ring_shift(r, n, &spots, k))),
        both!("insert_within + remove_within", MOST, INSIDE_WITHIN, HAND, (Ring, [0], wrapped, |r, n, spots, k| ring_shift_within(r, n, &spots, k))),
        both!("clear + resize", MOST, REFILL, HAND, |n| demanded(n, 0, 1), (Ring, [0], wrapped, |r, n, spots, k| ring_refill(r, n, k))),
        both!("append", MOST, APPEND, HAND, |n| demanded(n, 0, 2), (Rings, [], paired, |p, n, spots, k| pair_append(p, k))),
        both!("clone", MOST, CLONE, HAND, |n| demanded(n, 1, 0), (Rings, [], paired, |p, n, spots, k| pair_clone(p, k))),
        both!("sameness", MOST_SAME, SAME, SAME_HAND, (Turned, [], twins, |a, n, spots, k| alike(a, k))),
        both!("sameness, last entry differs", MOST_SAME, SAME, SAME_HAND, (Nearly, [], twins, |a, n, spots, k| alike(a, k))),
        both!("sameness with a vector", MOST_SAME, SAME, SAME_HAND, (Mixed, [], twins, |a, n, spots, k| alike(a, k))),
        both!("walk by cursor", MOST, WALK, HAND, (Ring, [0], wrapped, |r, n, spots, k| ring_walk(r, k))),
        both!("total", MOST_TOTAL, TOTAL, HAND, (Ring, [0], wrapped, |r, n, spots, k| ring_total(r, k))),
        both!("vector equality", MOST_SAME, SAME, SAME_HAND, (Vectors, [], twins, |a, n, spots, k| alike(a, k))),
        both!("vector push + pop", MOST, STACK, HAND, (Vector, [], counted, |v, n, spots, k| vector_stack(v, k))),
        both!("vector read", MOST, TEST, HAND, (Vector, [], counted, |v, n, spots, k| vector_read(v, n, &spots, k))),
        both!("vector insert + remove", MOST, SHIFT, HAND, (Vector, [], counted, |v, n, spots, k| vector_shift(v, n, &spots, k))),
        both!("vector swap_remove + push", MOST, SWAP, HAND, (Vector, [], counted, |v, n, spots, k| vector_swap(v, n, &spots, k))),
        both!("vector extend", MOST, EXTEND, HAND, |n| demanded(n, 1, 0), (Vector, [], counted, |v, n, spots, k| vector_extend(v, &LENT.slots[..n], k))),
        both!("vector extend + truncate", MOST, CUT, HAND, |n| demanded(n / 3, 1, 1), (Vector, [], counted, |v, n, spots, k| vector_extend_truncate(v, n, &LENT.slots[..n / 3], k))),
        both!("vector total", MOST_TOTAL, TOTAL, HAND, (Vector, [], counted, |v, n, spots, k| vector_total(v, k))),
    ]
}

// With an allowance that is always enough, beside the plain calls at the same positions.
pub fn allowances() -> Vec<Row> {
    vec![beside_plain!(
        "insert_within + remove_within",
        WITHIN,
        (Ring, [0], wrapped, |r, n, spots, k| ring_shift_within(r, n, &spots, k)),
        (Ring, [1], wrapped, |r, n, spots, k| ring_shift(r, n, &spots, k))
    )]
}

// Beside the vectors of other crates.
pub fn vectors() -> Vec<Row> {
    vec![
        #[cfg(arrayvec)]
        beside!("arrayvec push + pop", array, STACK, (Vector, [], counted, |v, n, spots, k| vector_stack(v, k))),
        #[cfg(arrayvec)]
        beside!("arrayvec read", array, TEST, (Vector, [], counted, |v, n, spots, k| vector_read(v, n, &spots, k))),
        #[cfg(arrayvec)]
        beside!("arrayvec insert + remove", array, SHIFT, (Vector, [], counted, |v, n, spots, k| vector_shift(v, n, &spots, k))),
        #[cfg(arrayvec)]
        beside!("arrayvec swap_remove + push", array, SWAP, (Vector, [], counted, |v, n, spots, k| vector_swap(v, n, &spots, k))),
        #[cfg(arrayvec)]
        beside!("arrayvec extend", array, EXTEND, (Vector, [], counted, |v, n, spots, k| vector_extend(v, &LENT.slots[..n], k))),
        #[cfg(tinyvec)]
        beside!("tinyvec push + pop", tiny, STACK, (Vector, [], counted, |v, n, spots, k| vector_stack(v, k))),
        #[cfg(tinyvec)]
        beside!("tinyvec read", tiny, TEST, (Vector, [], counted, |v, n, spots, k| vector_read(v, n, &spots, k))),
        #[cfg(tinyvec)]
        beside!("tinyvec insert + remove", tiny, SHIFT, (Vector, [], counted, |v, n, spots, k| vector_shift(v, n, &spots, k))),
        #[cfg(tinyvec)]
        beside!("tinyvec swap_remove + push", tiny, SWAP, (Vector, [], counted, |v, n, spots, k| vector_swap(v, n, &spots, k))),
        #[cfg(tinyvec)]
        beside!("tinyvec extend", tiny, EXTEND, (Vector, [], counted, |v, n, spots, k| vector_extend(v, &LENT.slots[..n], k))),
    ]
}

static LENT: Page = Page::of(7);
