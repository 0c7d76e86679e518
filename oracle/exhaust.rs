// The short cases, all of them: every capacity 0 to 4 with every head, length, call, position and cursor, one past each bound too; second containers up to 3;
// with an allowance, capacities up to 8.
use crate::allowance;
use crate::desk::Taken;
use crate::ops::{self, Act, Act::*, Kind, Kind::*, Op, OPS};
use crate::pen::Pen;
use crate::rng::Rng;
use crate::rules::{self, State};
use crate::totals;

const FIRST: u32 = 0xa0; // slot k of the first container holds FIRST + k, so that no two slots agree, free ones neither
const SECOND: u32 = 0xb0;
const ENTRY: u64 = 0x99;
const UNUSED: u64 = 0xfedc_ba98_7654_3210; // in a number that isn't looked at
const WIDE: [u64; 4] = [1 << 32, (1 << 32) + 1, 1 << 63, u64::MAX]; // a number cut to 32 bits would pass for 0 or 1

// Which of the cases are written: all, or those chosen by their place in the order. What each was answered is kept.
#[derive(Default)]
pub struct Share {
    seen: usize,
    chosen: Option<Vec<bool>>,
    pub log: Vec<(Taken, u8)>, // with the group it belongs to, where one call has several
}

impl Share {
    pub fn all() -> Share {
        Share::default()
    }

    pub fn of(chosen: Vec<bool>) -> Share {
        Share { chosen: Some(chosen), ..Share::default() }
    }

    fn takes(&mut self) -> bool {
        self.seen += 1;
        self.chosen.as_ref().map_or(true, |chosen| chosen[self.seen - 1])
    }

    // Of a ring with another head than 0 that is empty afterwards: it was emptied, or it is refused. And with such an empty ring for T.
    fn call(&mut self, pen: &mut Pen, op: &Op, a: u64, b: u64) {
        let turned = op.kind == Ring && pen.desk.first.head != 0;
        let second = ops::has_second(op.act) && ops::second_kind(op.act, op.kind) == Ring && pen.desk.second.head != 0 && pen.desk.second.len == 0;
        let taken = self.made(pen, op, a, b);
        let first = turned && pen.desk.first.len == 0;
        self.log.push((taken, first as u8 + 2 * second as u8));
    }

    fn call_of(&mut self, group: u8, pen: &mut Pen, op: &Op, a: u64, b: u64) {
        let taken = self.made(pen, op, a, b);
        self.log.push((taken, group));
    }

    // By whether fewer are allowed than the shorter side has, or as many; where the plain call would be done, also by the side and by whether any would move.
    fn call_within(&mut self, pen: &mut Pen, op: &Op, a: u64, b: u64) {
        let (before, behind) = allowance::sides(op.act, pen.desk.first.len, a);
        let (fewer, allowed) = (before.min(behind), pen.desk.front);
        let taken = self.made(pen, op, a, b);
        let done = matches!(taken, Taken::Called(_, 0 | rules::TOO_MANY_MOVES, ..));
        let marks = [allowed < fewer, allowed == fewer, done && before < behind, done && behind < before, done && fewer > 0];
        self.log.push((taken, marks.iter().fold(0, |sum, &bit| 2 * sum + bit as u8)));
    }

    // The totals go by the case's place in the order, so that a case has the same ones whether or not those before it are written.
    fn made(&self, pen: &mut Pen, op: &Op, a: u64, b: u64) -> Taken {
        totals::place(pen, &mut Rng::new((self.seen as u64).wrapping_mul(0x9e37_79b9_7f4a_7c15)), op);
        pen.line(op.code, a, b)
    }
}

pub fn every(pen: &mut Pen, share: &mut Share) {
    for (kind, name) in [(Ring, "ring"), (Vector, "vector")] {
        pen.say(&format!("One {name}."));
        alone(pen, kind, share);
        pen.say(&format!("Two {name}s."));
        pairs(pen, kind, &[Append, SplitOff, Clone, Same], share);
        pen.say(&format!("Two {name}s that agree, or nearly."));
        sameness(pen, op(kind, Same), share);
        pen.say(&format!("A cursor over a {name}."));
        cursors(pen, kind, share);
        pen.say(&format!("from_iter over a {name}."));
        from_iter(pen, kind, share);
        pen.say(&format!("The stored form of a {name}."));
        stored(pen, kind, share);
    }
    pen.say("A ring and a vector.");
    pairs(pen, Ring, &[SameAsVector], share);
    pen.say("A ring and a vector that agree, or nearly.");
    sameness(pen, op(Ring, SameAsVector), share);
    pen.say("Parts of a vector.");
    parts(pen, share);
    pen.say("extend_from_slice.");
    extend(pen, share);
    pen.say("A ring with an allowance.");
    within(pen, share);
}

// A head that no capacity permits and a length above each are among them.
fn states(most: u64) -> Vec<State> {
    let heads = |cap: u64| (0..=cap.max(1)).flat_map(move |head| (0..=cap + 1).map(move |len| State { cap, head, len }));
    (0..=most).flat_map(heads).collect()
}

fn slots(s: State, from: u32) -> Vec<u32> {
    (0..s.cap as u32).map(|k| from + k).collect()
}

fn set_first(pen: &mut Pen, s: State) {
    pen.set_first(s.head, s.len, &slots(s, FIRST));
}

fn set_second(pen: &mut Pen, s: State) {
    pen.set_second(s.head, s.len, &slots(s, SECOND));
}

fn positions(s: State) -> impl Iterator<Item = u64> {
    (0..=s.len.max(s.cap) + 1).chain(WIDE)
}

fn op(kind: Kind, act: Act) -> &'static Op {
    OPS.iter().find(|op| op.kind == kind && op.act == act).unwrap()
}

// The calls on one container, its cursor's beginning with them.
fn alone(pen: &mut Pen, kind: Kind, share: &mut Share) {
    let elsewhere = |act: Act| ops::has_second(act) || ops::is_part(act) || ops::plain(act).is_some() || ops::has_text(act);
    let here = |act: Act| !elsewhere(act) && !matches!(act, StepFront | StepBack | PeekFront | PeekBack | Extend | Store);
    for s in states(4) {
        for op in OPS.iter().filter(|op| op.kind == kind && here(op.act)) {
            let at: Vec<u64> = if ops::has_position(op.act) { positions(s).collect() } else { vec![UNUSED] };
            for &a in &at {
                let b: &[u64] = match op.act {
                    AskRange => &at,
                    act if ops::has_entry(act) => &[ENTRY],
                    _ => &[UNUSED],
                };
                for &b in b {
                    if share.takes() {
                        set_first(pen, s);
                        share.call(pen, op, a, b);
                    }
                }
            }
        }
    }
}

fn parts(pen: &mut Pen, share: &mut Share) {
    for s in states(4) {
        for op in OPS.iter().filter(|op| ops::is_part(op.act)) {
            let at: Vec<u64> = if ops::has_position(op.act) { positions(s).collect() } else { vec![UNUSED] };
            for &a in &at {
                for &b in if op.act == Range { &at[..] } else { &[ENTRY] } {
                    if share.takes() {
                        set_first(pen, s);
                        share.call(pen, op, a, b);
                    }
                }
            }
        }
    }
}

fn pairs(pen: &mut Pen, kind: Kind, acts: &[Act], share: &mut Share) {
    for s in states(4) {
        for t in states(3) {
            for &act in acts {
                for a in if act == SplitOff { positions(s).collect() } else { vec![UNUSED] } {
                    if share.takes() {
                        set_first(pen, s);
                        set_second(pen, t);
                        share.call(pen, op(kind, act), a, UNUSED);
                    }
                }
            }
        }
    }
}

// Sameness of containers that agree, slot by slot or, whatever their heads and capacities, entry by entry; and then with one slot of the second changed.
fn sameness(pen: &mut Pen, op: &Op, share: &mut Share) {
    let (kind, other) = (op.kind, ops::second_kind(op.act, op.kind));
    for s in states(4) {
        for t in states(4).into_iter().filter(|t| t.len == s.len) {
            for by_entry in [false, true] {
                for changed in 0..=t.cap {
                    if share.takes() {
                        set_first(pen, s);
                        let mut like = slots(t, FIRST);
                        if by_entry && rules::valid(kind, s) && rules::valid(other, t) {
                            for j in 0..t.len {
                                like[rules::slot(other, t, j)] = FIRST + rules::slot(kind, s, j) as u32;
                            }
                        }
                        if let Some(slot) = like.get_mut(changed as usize) {
                            *slot += 0x10;
                        }
                        pen.set_second(t.head, t.len, &like);
                        let group = [by_entry, changed == t.cap, s.cap == t.cap, s.head == t.head].iter().fold(1, |sum, &bit| 2 * sum + bit as u8);
                        share.call_of(group, pen, op, UNUSED, UNUSED);
                    }
                }
            }
        }
    }
}

fn ends(s: State) -> Vec<(u64, u64)> {
    let end = |n: u64| (0..=n + 1).chain([(1 << 32) + 1, u64::MAX]);
    end(s.len).flat_map(|front| end(s.len).map(move |back| (front, back))).collect()
}

fn cursors(pen: &mut Pen, kind: Kind, share: &mut Share) {
    for s in states(4) {
        for (front, back) in ends(s) {
            for act in [StepFront, StepBack, PeekFront, PeekBack] {
                for a in if ops::has_position(act) { positions(s).collect() } else { vec![UNUSED] } {
                    if share.takes() {
                        set_first(pen, s);
                        pen.set_cursor(front, back);
                        share.call(pen, op(kind, act), a, UNUSED);
                    }
                }
            }
        }
    }
}

fn from_iter(pen: &mut Pen, kind: Kind, share: &mut Share) {
    for s in states(4) {
        for (front, back) in ends(s) {
            // T is a vector: one head that a ring couldn't have is enough to see that none is looked at.
            for t in states(3).into_iter().filter(|t| t.head == 0 || t.head == t.cap) {
                if share.takes() {
                    set_first(pen, s);
                    set_second(pen, t);
                    pen.set_cursor(front, back);
                    share.call(pen, op(kind, FromIter), UNUSED, UNUSED);
                }
            }
        }
    }
}

fn stored(pen: &mut Pen, kind: Kind, share: &mut Share) {
    for s in states(4) {
        let need = rules::text_length(s.cap);
        for a in (0..=need + 2).chain([40_001]).chain(WIDE) {
            if share.takes() {
                set_first(pen, s);
                share.call(pen, op(kind, Store), a, UNUSED);
            }
        }
    }
}

// The numbers that are added stand in the second container, whatever its head and length.
fn extend(pen: &mut Pen, share: &mut Share) {
    for s in states(4) {
        for t in (0..=6).map(|cap| State { cap, head: cap + 1, len: cap / 2 }) {
            for a in (0..=t.cap + 1).chain(WIDE) {
                if share.takes() {
                    set_first(pen, s);
                    set_second(pen, t);
                    share.call(pen, op(Vector, Extend), a, UNUSED);
                }
            }
        }
    }
}

// Up to 8 slots, so that up to 3 entries move: every allowance about what the call would move, whether or not it would be refused.
fn within(pen: &mut Pen, share: &mut Share) {
    for s in states(8) {
        for op in allowance::calls() {
            let b = if ops::has_entry(op.act) { ENTRY } else { UNUSED };
            for a in positions(s) {
                for allowed in allowance::about(s.cap, allowance::count(op.act, s.len, a)) {
                    if share.takes() {
                        set_first(pen, s);
                        pen.set_cursor(allowed, !allowed);
                        share.call_within(pen, op, a, b);
                    }
                }
            }
        }
    }
}
