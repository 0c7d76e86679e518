// What is measured: each piece of work is written once, over what all sides offer, and gives back a number that must come out alike.
const SPOTS: usize = 1024;

// Positions, the same for all sides.
pub struct Spots([u32; SPOTS]);

impl Spots {
    pub fn new() -> Spots {
        let mut x: u32 = 0x9e37_79b9;
        Spots(std::array::from_fn(|_| {
            x ^= x << 13;
            x ^= x >> 17;
            x ^= x << 5;
            x
        }))
    }

    // A position below n.
    #[inline(always)]
    fn below(&self, k: usize, n: usize) -> usize {
        ((self.0[k % SPOTS] as u64 * n as u64) >> 32) as usize
    }
}

// What comes of the calls: the entries or totals that they gave, added up, and what was refused.
#[derive(Default, PartialEq, Debug)]
pub struct Came {
    pub sum: u64,
    refused: u64,
}

impl Came {
    #[inline(always)]
    fn got(&mut self, entry: Option<u32>) {
        match entry {
            Some(x) => self.sum += x as u64,
            None => self.refused += 1,
        }
    }

    #[inline(always)]
    fn did(&mut self, number: u64) {
        self.refused |= number;
    }
}

pub trait Ring: Copy {
    fn make() -> Self;
    fn push_back(self, x: u32) -> u64;
    fn push_front(self, x: u32) -> u64;
    fn pop_back(self) -> Option<u32>;
    fn pop_front(self) -> Option<u32>;
    fn read(self, i: usize) -> Option<u32>;
    fn insert(self, i: usize, x: u32) -> u64;
    fn remove(self, i: usize) -> Option<u32>;
    // Rust's has no allowance: the plain call.
    #[inline(always)]
    fn insert_within(self, i: usize, x: u32, _allowance: usize) -> u64 {
        self.insert(i, x)
    }
    #[inline(always)]
    fn remove_within(self, i: usize, _allowance: usize) -> Option<u32> {
        self.remove(i)
    }
    fn clear(self) -> u64;
    fn resize(self, k: usize, x: u32) -> u64;
    type Cursor;
    fn begin(self) -> Self::Cursor;
    fn step(self, u: &mut Self::Cursor) -> Option<u32>;
    fn total(self) -> u64;
}

// Two rings.
pub trait Pair: Copy {
    fn make(n: usize) -> Self;
    fn append(self) -> u64;
    fn append_back(self) -> u64;
    fn clone_to(self) -> u64;
}

// Two containers that are compared: a yes is 1, a no 0.
pub trait Alike: Copy {
    fn make(n: usize) -> Self;
    fn same(self) -> Option<u32>;
}

pub trait Vector: Copy {
    fn make() -> Self;
    fn push(self, x: u32) -> u64;
    fn pop(self) -> Option<u32>;
    fn read(self, i: usize) -> Option<u32>;
    fn insert(self, i: usize, x: u32) -> u64;
    fn remove(self, i: usize) -> Option<u32>;
    fn swap_remove(self, i: usize) -> Option<u32>;
    fn extend(self, s: &[u32]) -> u64;
    fn truncate(self, k: usize) -> u64;
    fn total(self) -> u64;
    fn anew(self);
}

// A ring of n entries whose list runs on from the last slot to slot 0.
pub fn wrapped<R: Ring>(cap: usize, n: usize) -> R {
    turned(cap - n / 2, n)
}

// A ring of n entries that begins `by` slots further on. One entry stays in it while it turns: ours starts at slot 0 again where it is emptied.
pub fn turned<R: Ring>(by: usize, n: usize) -> R {
    let r = R::make();
    if n > 0 {
        r.push_back(0);
        for _ in 0..by {
            r.push_back(0);
            r.pop_front();
        }
    }
    for k in 1..n {
        r.push_back(k as u32);
    }
    r
}

// Two rings of one list that run on to slot 0 at different places, so that three pairs of runs are compared.
pub fn twice_turned<R: Ring, T: Ring>(cap: usize, n: usize) -> T {
    let _: R = turned(cap - n / 2, n);
    turned(cap - n / 3 - 1, n)
}

pub fn twins<A: Alike>(_cap: usize, n: usize) -> A {
    A::make(n)
}

pub fn paired<P: Pair>(_cap: usize, n: usize) -> P {
    P::make(n)
}

pub fn counted<V: Vector>(_cap: usize, n: usize) -> V {
    let v = V::make();
    for k in 0..n {
        v.push(k as u32);
    }
    v
}

pub fn ring_queue<R: Ring>(r: R, rounds: usize) -> Came {
    let mut came = Came::default();
    for k in 0..rounds {
        came.did(r.push_back(k as u32));
        came.got(r.pop_front());
    }
    came
}

pub fn ring_queue_back<R: Ring>(r: R, rounds: usize) -> Came {
    let mut came = Came::default();
    for k in 0..rounds {
        came.did(r.push_front(k as u32));
        came.got(r.pop_back());
    }
    came
}

pub fn ring_read<R: Ring>(r: R, n: usize, spots: &Spots, rounds: usize) -> Came {
    let mut came = Came::default();
    for k in 0..rounds {
        came.got(r.read(spots.below(k, n)));
    }
    came
}

pub fn ring_shift<R: Ring>(r: R, n: usize, spots: &Spots, rounds: usize) -> Came {
    let mut came = Came::default();
    for k in 0..rounds {
        came.did(r.insert(spots.below(k, n + 1), k as u32));
        came.got(r.remove(spots.below(k + 7, n + 1)));
    }
    came
}

// The same positions, with an allowance that is always enough: half of one less than the capacity.
pub fn ring_shift_within<R: Ring>(r: R, n: usize, spots: &Spots, rounds: usize) -> Came {
    let allowance = (n / 3 * 4 - 1) / 2; // n is three quarters of the capacity
    let mut came = Came::default();
    for k in 0..rounds {
        came.did(r.insert_within(spots.below(k, n + 1), k as u32, allowance));
        came.got(r.remove_within(spots.below(k + 7, n + 1), allowance));
    }
    came
}

pub fn ring_refill<R: Ring>(r: R, n: usize, rounds: usize) -> Came {
    let mut came = Came::default();
    for k in 0..rounds {
        came.did(r.clear());
        came.did(r.resize(n, k as u32));
    }
    came
}

// Every entry by a step of its own.
pub fn ring_walk<R: Ring>(r: R, rounds: usize) -> Came {
    let mut came = Came::default();
    for _ in 0..rounds {
        let mut u = r.begin();
        while let Some(x) = r.step(&mut u) {
            came.sum += x as u64;
        }
    }
    came
}

// What the entries add up to.
pub fn ring_total<R: Ring>(r: R, rounds: usize) -> Came {
    let mut came = Came::default();
    for _ in 0..rounds {
        came.sum += r.total();
    }
    came
}

// All entries go over and come back.
pub fn pair_append<P: Pair>(p: P, rounds: usize) -> Came {
    let mut came = Came::default();
    for _ in 0..rounds {
        came.did(p.append());
        came.did(p.append_back());
    }
    came
}

pub fn pair_clone<P: Pair>(p: P, rounds: usize) -> Came {
    let mut came = Came::default();
    for _ in 0..rounds {
        came.did(p.clone_to());
    }
    came
}

pub fn alike<A: Alike>(a: A, rounds: usize) -> Came {
    let mut came = Came::default();
    for _ in 0..rounds {
        came.got(a.same());
    }
    came
}

pub fn vector_stack<V: Vector>(v: V, rounds: usize) -> Came {
    let mut came = Came::default();
    for k in 0..rounds {
        came.did(v.push(k as u32));
        came.got(v.pop());
    }
    came
}

pub fn vector_read<V: Vector>(v: V, n: usize, spots: &Spots, rounds: usize) -> Came {
    let mut came = Came::default();
    for k in 0..rounds {
        came.got(v.read(spots.below(k, n)));
    }
    came
}

pub fn vector_shift<V: Vector>(v: V, n: usize, spots: &Spots, rounds: usize) -> Came {
    let mut came = Came::default();
    for k in 0..rounds {
        came.did(v.insert(spots.below(k, n + 1), k as u32));
        came.got(v.remove(spots.below(k + 7, n + 1)));
    }
    came
}

pub fn vector_swap<V: Vector>(v: V, n: usize, spots: &Spots, rounds: usize) -> Came {
    let mut came = Came::default();
    for k in 0..rounds {
        came.got(v.swap_remove(spots.below(k, n)));
        came.did(v.push(k as u32));
    }
    came
}

pub fn vector_extend<V: Vector>(v: V, s: &[u32], rounds: usize) -> Came {
    let mut came = Came::default();
    for _ in 0..rounds {
        v.anew();
        came.did(v.extend(s));
    }
    came
}

pub fn vector_extend_truncate<V: Vector>(v: V, n: usize, s: &[u32], rounds: usize) -> Came {
    let mut came = Came::default();
    for _ in 0..rounds {
        came.did(v.extend(s));
        came.did(v.truncate(n));
    }
    came
}

pub fn vector_total<V: Vector>(v: V, rounds: usize) -> Came {
    let mut came = Came::default();
    for _ in 0..rounds {
        came.sum += v.total();
    }
    came
}
