// Longer random cases: a desk is placed, then calls follow one another on it, with arguments near every bound and damaged lines in between.
use crate::allowance;
use crate::damaged;
use crate::desk::{Tray, MOST_SLOTS};
use crate::ops::{self, Act::*, Kind, Kind::*, Op, OPS};
use crate::pen::Pen;
use crate::rng::Rng;
use crate::rules;
use crate::texts;
use crate::totals;

const WIDE: [u64; 8] = [u32::MAX as u64, 1 << 32, (1 << 32) + 1, (1 << 63) - 1, 1 << 63, (1 << 63) + 1, u64::MAX - 1, u64::MAX];

pub struct Random {
    rng: Rng,
    most: u64, // no container is placed with more slots
}

impl Random {
    pub fn new(seed: u64, most: u64) -> Random {
        Random { rng: Rng::new(seed), most }
    }

    // One desk and the calls on it.
    pub fn case(&mut self, pen: &mut Pen) {
        let large = self.rng.one_in(1000) && self.most == MOST_SLOTS;
        self.place_first(pen, large);
        self.place_second(pen, large);
        self.place_cursor(pen);
        let kinds: &[Kind] = match self.rng.below(20) {
            0..=8 => &[Ring],
            9..=16 => &[Vector],
            _ => &[Ring, Vector],
        };
        totals::place_as(pen, &mut self.rng, [kinds[0]; 2]);
        let most = if self.rng.one_in(10) { 90 } else { 24 };
        let calls = 1 + self.rng.below(most);
        for _ in 0..calls {
            self.between(pen, kinds[0]);
            self.call(pen, kinds);
        }
    }

    fn capacity(&mut self, large: bool) -> u64 {
        let rng = &mut self.rng;
        let cap = match rng.below(1000) {
            _ if large => rng.pick(&[4095, 4096, 4096, 4096, 4097, 4200, 1024, 2500]),
            0..=8 => 255 + rng.below(3),
            9..=40 => 18 + rng.below(50),
            41..=300 => 9 + rng.below(9),
            _ => rng.below(9),
        };
        cap.min(self.most)
    }

    fn length(&mut self, cap: u64) -> u64 {
        let rng = &mut self.rng;
        match rng.below(40) {
            0 => cap + 1,
            1 => rng.pick(&WIDE),
            2..=7 => cap,
            8..=9 => cap.saturating_sub(1),
            10..=13 => 0,
            _ => rng.below(cap + 1),
        }
    }

    fn head(&mut self, cap: u64) -> u64 {
        let rng = &mut self.rng;
        match rng.below(40) {
            0 => cap,
            1 => rng.pick(&WIDE),
            2..=11 => cap.saturating_sub(1),
            12..=15 => 0,
            _ => rng.below(cap.max(1)),
        }
    }

    // An empty ring has head 0; most of the time it gets it, else hardly any call on one would be done.
    fn home(&mut self, head: u64, len: u64) -> u64 {
        if len == 0 && !self.rng.one_in(4) { 0 } else { head }
    }

    fn entry(&mut self) -> u64 {
        let rng = &mut self.rng;
        match rng.below(60) {
            0 => 0,
            1..=3 => u32::MAX as u64,
            4 => 1 << 31,
            5 => if rng.one_in(3) { rng.pick(&[1 << 32, u64::MAX]) } else { 1 },
            6..=25 => rng.below(8),
            _ => rng.next() >> 32,
        }
    }

    fn place_first(&mut self, pen: &mut Pen, large: bool) {
        let cap = self.capacity(large);
        pen.line(1, cap, self.rng.next());
        let (head, len) = (self.head(cap), self.length(cap));
        pen.line(2, self.home(head, len), len);
        for k in 0..cap {
            pen.line(3, k, self.rng.next() >> 32);
        }
    }

    fn place_second(&mut self, pen: &mut Pen, large: bool) {
        let large = large && self.rng.one_in(2);
        let cap = self.capacity(large);
        pen.line(4, cap, self.rng.next());
        let (head, len) = (self.head(cap), if self.rng.one_in(2) { 0 } else { self.length(cap) });
        pen.line(5, self.home(head, len), len);
        for k in 0..cap {
            pen.line(6, k, self.rng.next() >> 32);
        }
        if self.rng.one_in(8) {
            self.copy_first(pen);
        }
    }

    // The second becomes what the first is, half the time turned to another head, and now and then with one slot changed: else two containers would
    // hardly ever agree.
    fn copy_first(&mut self, pen: &mut Pen) {
        let Tray { mut slots, mut head, len, .. } = pen.desk.first.clone();
        if slots.len() < 300 {
            if len > 0 && head < slots.len() as u64 && self.rng.one_in(2) {
                let by = self.rng.below(slots.len() as u64);
                slots.rotate_right(by as usize);
                head = (head + by) % slots.len() as u64;
            }
            if !slots.is_empty() && self.rng.one_in(3) {
                let k = self.rng.below(slots.len() as u64) as usize;
                slots[k] ^= 1 << self.rng.below(32);
            }
            pen.set_second(head, len, &slots);
        }
    }

    fn place_cursor(&mut self, pen: &mut Pen) {
        let n = pen.desk.first.len;
        let (one, two) = (self.position(pen), self.position(pen));
        let (front, back) = if self.rng.one_in(6) { (one, two) } else { (one.min(two).min(n), one.max(two).min(n)) };
        pen.line(7, front, back);
    }

    // What may stand between two calls. An emptied container is soon filled again, else most calls would be refused.
    fn between(&mut self, pen: &mut Pen, kind: Kind) {
        let emptied = pen.desk.first.len == 0 && self.rng.one_in(3);
        match if emptied { 4 } else { self.rng.below(60) } {
            0 => damaged::some(pen, &mut self.rng),
            1..=3 => self.place_cursor(pen),
            4..=5 => {
                let cap = pen.desk.first.slots.len() as u64;
                let (head, len) = (self.head(cap), self.length(cap));
                pen.line(2, self.home(head, len), len);
            }
            6..=9 => {
                let cap = pen.desk.second.slots.len() as u64;
                let (head, len) = (self.head(cap), if self.rng.one_in(3) { self.length(cap) } else { 0 });
                pen.line(5, self.home(head, len), len);
            }
            10 => {
                let (code, k, x) = (self.rng.pick(&[3, 6]), self.position(pen), self.entry());
                pen.line(code, k, x);
            }
            11 => self.copy_first(pen),
            12..=13 => totals::place_as(pen, &mut self.rng, [kind; 2]),
            _ => {}
        }
    }

    // Near a bound of the first container, or anywhere within it.
    fn position(&mut self, pen: &Pen) -> u64 {
        let rng = &mut self.rng;
        let (n, c) = (pen.desk.first.len, pen.desk.first.slots.len() as u64);
        let free = c.wrapping_sub(n);
        match rng.below(40) {
            0 => rng.pick(&WIDE),
            1 => rng.pick(&[n.wrapping_neg(), c.wrapping_neg(), free.wrapping_add(1 << 32), (1 << 32) + c, u64::MAX - n]),
            2..=4 => rng.pick(&[0, 1, n / 2, n / 2 + 1]),
            5..=12 => rng.pick(&[n, free, c]).wrapping_add(rng.below(3)).wrapping_sub(1),
            _ => rng.below(n.min(c) + 1),
        }
    }

    // Makings and clearings come seldom, so that a sequence gets somewhere.
    fn operation(&mut self, kinds: &[Kind]) -> &'static Op {
        loop {
            let op = &OPS[self.rng.below(OPS.len() as u64) as usize];
            let seldom = rules::is_making(op.act) && op.act != ReadBack || matches!(op.act, Clear | Store);
            if kinds.contains(&op.kind) && (!seldom || self.rng.one_in(12)) {
                return op;
            }
        }
    }

    fn call(&mut self, pen: &mut Pen, kinds: &[Kind]) {
        let op = self.operation(kinds);
        match op.act {
            ReadBack => return texts::back(pen, &mut self.rng, op.kind),
            Check => return texts::checked(pen, &mut self.rng),
            _ => {}
        }
        let a = match op.act {
            Store => self.text(pen),
            Truncate | SplitOff if !self.rng.one_in(3) => pen.desk.first.len.saturating_sub(self.rng.below(4)),
            Resize if !self.rng.one_in(3) => pen.desk.first.slots.len() as u64 + 1 - self.rng.below(4).min(pen.desk.first.slots.len() as u64),
            Extend => self.rng.below(pen.desk.second.slots.len() as u64 + 1) + self.rng.one_in(50) as u64,
            Range | AskRange => self.position(pen),
            act if ops::has_position(act) => self.position(pen),
            _ => self.rng.next(),
        };
        let b = match op.act {
            Range | AskRange => self.position(pen),
            act if ops::has_entry(act) => self.entry(),
            _ => self.rng.next(),
        };
        match ops::plain(op.act) {
            Some(_) => self.within(pen, op, a, b),
            None => drop(pen.line(op.code, a, b)),
        }
    }

    // With about as many allowed as would move, or any number. Then the cursor is placed as it was, for the calls that walk.
    fn within(&mut self, pen: &mut Pen, op: &Op, a: u64, b: u64) {
        let (front, back) = (pen.desk.front, pen.desk.back);
        let count = allowance::count(op.act, pen.desk.first.len, a);
        let allowed = match self.rng.below(10) {
            0 => self.rng.pick(&WIDE),
            1 => self.rng.next(),
            2..=3 => self.position(pen),
            _ => count.wrapping_add(self.rng.below(3)).wrapping_sub(1),
        };
        pen.set_cursor(allowed, back);
        pen.line(op.code, a, b);
        pen.set_cursor(front, back);
    }

    fn text(&mut self, pen: &Pen) -> u64 {
        let need = rules::text_length(pen.desk.first.slots.len() as u64);
        match self.rng.below(200) {
            0 => self.rng.pick(&[0, 1, 16, 40_000, 40_001, 1 << 32, u64::MAX]),
            1..=60 => need - 1 - self.rng.below(10),
            _ => need + self.rng.below(10),
        }
    }
}
