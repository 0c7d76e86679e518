// Wrong rules of a total, each of which a program might follow: the fixed list must notice them all.
use crate::desk::{Desk, Taken};
use crate::format;
use crate::ops::{self, Act, Act::*, Op};
use crate::rules;

// A line that was taken: its numbers, and the desk before and after. Totals are those that the wrong rule left so far.
struct Seen<'a> {
    code: u8,
    op: Option<&'a Op>,
    a: u64,
    b: u64,
    number: u8,
    before: &'a Desk,
    after: &'a Desk,
}

impl Seen<'_> {
    fn is(&self, test: impl Fn(Act) -> bool) -> bool {
        self.op.is_some_and(|op| test(op.act))
    }

    fn done(&self, acts: &[Act]) -> bool {
        self.number == 0 && self.is(|act| acts.contains(&act))
    }

    fn refused(&self) -> bool {
        self.number != 0
    }

    fn given(&self, k: usize) -> u64 {
        self.before.totals()[k]
    }

    fn left(&self, k: usize) -> u64 {
        self.after.totals()[k]
    }

    // By how much the right rule changes it.
    fn by(&self, k: usize) -> u64 {
        self.left(k).wrapping_sub(self.given(k))
    }

    fn sum(&self, desk: &Desk, k: usize) -> u64 {
        self.op.and_then(|op| desk.sums(op)[k]).unwrap_or(0)
    }

    fn grows(&self) -> bool {
        self.after.first.len > self.before.first.len
    }
}

// When it differs from the right rule, which container's total that is about, and what it leaves.
struct Rule {
    name: &'static str,
    when: fn(&Seen) -> bool,
    of: usize,
    leaves: fn(&Seen) -> u64,
}

const fn rule(name: &'static str, when: fn(&Seen) -> bool, of: usize, leaves: fn(&Seen) -> u64) -> Rule {
    Rule { name, when, of, leaves }
}

const RIGHT: Rule = rule("the right one", |_| true, 0, |s| s.left(0));

const LOOKS: &[Act] = &[Len, IsEmpty, Read, AskRange, Reserve, TryReserve, TryReserveExact, Iter, StepFront, StepBack, PeekFront, PeekBack];

const RULES: [Rule; 46] = [
    rule("a refused call leaves 0", |s| s.refused(), 0, |_| 0),
    rule("a refused call leaves T 0", |s| s.refused(), 1, |_| 0),
    rule("a refused call leaves the true sum", |s| s.refused(), 0, |s| s.sum(s.before, 0)),
    rule("a refused making keeps the total", |s| s.refused() && s.is(rules::is_making), 0, |s| s.given(0)),
    rule("a making keeps the total", |s| s.done(&[New, WithCapacity]), 0, |s| s.given(0)),
    rule("from_elem adds to the total", |s| s.done(&[FromElem]), 0, |s| s.given(0).wrapping_add(s.left(0))),
    rule("from_elem counts one entry", |s| s.done(&[FromElem]), 0, |s| s.b),
    rule("a done call leaves the true sum", |s| s.number == 0 && s.is(|act| !ops::is_part(act)), 0, |s| s.sum(s.after, 0)),
    rule("a done call leaves T the true sum", |s| s.number == 0 && s.is(ops::has_second), 1, |s| s.sum(s.after, 1)),
    rule("a push leaves it", |s| s.done(&[PushBack, PushFront]), 0, |s| s.given(0)),
    rule("a pop leaves it", |s| s.done(&[PopBack, PopFront]), 0, |s| s.given(0)),
    rule("write only adds", |s| s.done(&[Write]), 0, |s| s.given(0).wrapping_add(s.b)),
    rule("write leaves it", |s| s.done(&[Write]), 0, |s| s.given(0)),
    rule("swap_remove takes off the last", |s| s.done(&[SwapRemove]), 0, |s| s.given(0).wrapping_sub(s.before.first.slots[s.after.first.len as usize] as u64)),
    rule("truncate leaves it", |s| s.done(&[Truncate]), 0, |s| s.given(0)),
    rule("resize up counts one entry", |s| s.done(&[Resize]) && s.grows(), 0, |s| s.given(0).wrapping_add(s.b)),
    rule("resize down leaves it", |s| s.done(&[Resize]) && !s.grows(), 0, |s| s.given(0)),
    rule("clear leaves 0", |s| s.done(&[Clear]), 0, |_| 0),
    rule("clear leaves it", |s| s.done(&[Clear]), 0, |s| s.given(0)),
    rule("extend_from_slice adds the second's total", |s| s.done(&[Extend]), 0, |s| s.given(0).wrapping_add(s.given(1))),
    rule("extend_from_slice takes off the second's", |s| s.done(&[Extend]), 1, |s| s.given(1).wrapping_sub(s.by(0))),
    rule("append adds T's total", |s| s.done(&[Append]), 0, |s| s.given(0).wrapping_add(s.given(1))),
    rule("append leaves T 0", |s| s.done(&[Append]), 1, |_| 0),
    rule("append leaves T's", |s| s.done(&[Append]), 1, |s| s.given(1)),
    rule("split_off leaves the first's", |s| s.done(&[SplitOff]), 0, |s| s.given(0)),
    rule("split_off leaves T what was moved", |s| s.done(&[SplitOff]), 1, |s| s.by(1)),
    rule("clone leaves T the first's total", |s| s.done(&[Clone]), 1, |s| s.given(0)),
    rule("clone leaves T what it copied", |s| s.done(&[Clone]), 1, |s| s.by(1)),
    rule("clone takes off the first's", |s| s.done(&[Clone]), 0, |s| s.given(0).wrapping_sub(s.by(1))),
    rule("from_iter leaves the second what was left to walk", |s| s.done(&[FromIter]), 1, |s| s.by(1)),
    rule("from_iter adds the first's total", |s| s.done(&[FromIter]), 1, |s| s.given(1).wrapping_add(s.given(0))),
    rule("a part that is written changes it", |s| s.done(&[AsMutSlice, DerefMut]), 0, |s| {
        s.given(0).wrapping_add(s.sum(s.after, 0)).wrapping_sub(s.sum(s.before, 0))
    }),
    rule("a part leaves 0", |s| s.is(ops::is_part), 0, |_| 0),
    rule("a look leaves 0", |s| s.done(LOOKS), 0, |_| 0),
    rule("sameness leaves T 0", |s| s.done(&[Same, SameAsVector]), 1, |_| 0),
    rule("into_iter takes the list off", |s| s.done(&[IntoIter]), 0, |s| s.given(0).wrapping_sub(s.sum(s.before, 0))),
    rule("the stored form leaves the true sum", |s| s.done(&[Store]), 0, |s| s.sum(s.before, 0)),
    rule("it stops at 2^64 - 1", |s| s.done(&[PushBack, Append, Extend, Insert]) && s.left(0) < s.given(0), 0, |_| u64::MAX),
    rule("it stops at 0", |s| s.done(&[PopBack, Truncate, Clear, Remove]) && s.left(0) > s.given(0), 0, |_| 0),
    rule("it has 32 bits", |_| true, 0, |s| s.left(0) as u32 as u64),
    rule("head and length placed leave 0", |s| s.code == 2, 0, |_| 0),
    rule("the second's head and length placed leave 0", |s| s.code == 5, 1, |_| 0),
    rule("slots placed leave it", |s| s.code == 1, 0, |s| s.given(0)),
    rule("the second's slots placed leave it", |s| s.code == 4, 1, |s| s.given(1)),
    rule("the total placed is the second number", |s| s.code == 8, 0, |s| s.b),
    rule("the second's total placed is the first's", |s| s.code == 9, 0, |s| s.a),
];

// How many wrong rules there are; it is an error if one passes on these lines.
pub fn noticed(input: &[u8]) -> Result<usize, String> {
    if differs(&RIGHT, input) {
        return Err("the right rule of a total differs from itself".to_string());
    }
    match RULES.iter().find(|rule| !differs(rule, input)) {
        Some(rule) => Err(format!("the fixed list doesn't notice a wrong rule of a total: {}", rule.name)),
        None => Ok(RULES.len()),
    }
}

// Whether some call prints other totals by this rule. A rule is held against the right one from line to line, so that what a placing leaves is seen too.
fn differs(rule: &Rule, input: &[u8]) -> bool {
    let (mut right, mut wrong) = (Desk::default(), Desk::default());
    input.split(|&byte| byte == b'\n').any(|line| {
        let before = wrong.clone();
        right.take(line, &mut Vec::new());
        let taken = wrong.take(line, &mut Vec::new());
        let Some((code, a, b)) = format::parse(line).filter(|_| taken != Taken::Refused) else { return false };
        let number = if let Taken::Called(_, number, ..) = taken { number } else { 0 };
        let seen = Seen { code, op: ops::find(code), a, b, number, before: &before, after: &wrong };
        let leaves = (rule.when)(&seen).then(|| (rule.leaves)(&seen));
        if let Some(total) = leaves {
            *[&mut wrong.first.total, &mut wrong.second.total][rule.of] = total;
        }
        matches!(taken, Taken::Called(..)) && wrong.totals() != right.totals()
    })
}
