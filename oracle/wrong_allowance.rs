// Wrong rules of an allowance (request 11), each of which a program might follow: the fixed list must notice them all, of insertions and of removals.
use crate::allowance;
use crate::desk::Desk;
use crate::format;
use crate::ops::{self, Act, Act::*, Op};
use crate::rules::TOO_MANY_MOVES;
use crate::selfcheck::{self, Answer, NO};

#[derive(Clone, PartialEq)]
struct Outcome {
    answer: Answer,
    desk: Desk,
}

// A call with an allowance: the desk before it, what the plain call gives, and what is right.
struct Tried {
    act: Act,
    place: u64,
    before: Desk,
    plain: Outcome,
    right: Outcome,
}

impl Tried {
    fn number(&self) -> u8 {
        self.plain.answer.0
    }

    fn moves(&self) -> u64 {
        self.plain.answer.2
    }

    fn allowance(&self) -> u64 {
        self.before.front
    }

    // How many stand before the place, and behind it.
    fn sides(&self) -> (u64, u64) {
        allowance::sides(self.act, self.before.first.len, self.place)
    }

    // 12 with nothing changed, if so; else as the plain call.
    fn twelve_if(&self, so: bool) -> Outcome {
        if so { Outcome { answer: (TOO_MANY_MOVES, 0, 0, NO), desk: self.before.clone() } } else { self.plain.clone() }
    }

    // The plain call is done, and by this rule its count is above what this rule takes for the allowance.
    fn counts(&self, count: u64, allowed: u64) -> Outcome {
        self.twelve_if(self.number() == 0 && count > allowed)
    }

    // It is 12 in place of this refusal too, where the fewer on a side are more than allowed.
    fn instead_of(&self, number: u8) -> Outcome {
        let (before, behind) = self.sides();
        let more = before.min(behind) > self.allowance();
        self.twelve_if(more && (self.number() == 0 || self.number() == number))
    }

    // The right outcome, but that 12 comes with something else.
    fn at_twelve(&self, change: impl Fn(&mut Outcome)) -> Outcome {
        let mut left = self.right.clone();
        if left.answer.0 == TOO_MANY_MOVES {
            change(&mut left);
        }
        left
    }

    fn at_done(&self, change: impl Fn(&mut Outcome)) -> Outcome {
        let mut left = self.right.clone();
        if left.answer.0 == 0 {
            change(&mut left);
        }
        left
    }
}

struct Rule {
    name: &'static str,
    of: &'static [Act],
    gives: fn(&Tried) -> Outcome,
}

const BOTH: &[Act] = &[InsertWithin, RemoveWithin];

const fn rule(name: &'static str, of: &'static [Act], gives: fn(&Tried) -> Outcome) -> Rule {
    Rule { name, of, gives }
}

const RIGHT: Rule = rule("the right one", BOTH, |t| t.counts(t.moves(), t.allowance()));

const RULES: [Rule; 33] = [
    // when it is 12
    rule("it is never 12", BOTH, |t| t.plain.clone()),
    rule("as many as allowed are too many", BOTH, |t| t.counts(t.moves().saturating_add(1), t.allowance())),
    rule("one more than allowed is not too many", BOTH, |t| t.counts(t.moves().saturating_sub(1), t.allowance())),
    rule("with none allowed no call is done", BOTH, |t| t.twelve_if(t.number() == 0 && (t.allowance() == 0 || t.moves() > t.allowance()))),
    rule("with none allowed there is no limit", BOTH, |t| t.twelve_if(t.number() == 0 && t.allowance() > 0 && t.moves() > t.allowance())),
    rule("the largest allowance allows nothing", BOTH, |t| t.counts(t.moves() + 1, t.allowance().wrapping_add(1))),
    rule("an allowance has a sign", BOTH, |t| t.twelve_if(t.number() == 0 && t.moves() as i64 > t.allowance() as i64)),
    rule("an allowance has 32 bits", BOTH, |t| t.counts(t.moves(), t.allowance() as u32 as u64)),
    rule("the cursor's back is the allowance", BOTH, |t| t.counts(t.moves(), t.before.back)),
    rule("what is left to walk is the allowance", BOTH, |t| t.counts(t.moves(), t.before.back.wrapping_sub(t.before.front))),
    rule("the longer side counts", BOTH, |t| t.counts(t.sides().0.max(t.sides().1), t.allowance())),
    rule("those before the place count", BOTH, |t| t.counts(t.sides().0, t.allowance())),
    rule("those behind the place count", BOTH, |t| t.counts(t.sides().1, t.allowance())),
    rule("both sides count", BOTH, |t| t.counts(t.sides().0.saturating_add(t.sides().1), t.allowance())),
    rule("an insertion counts as a removal", &[InsertWithin], |t| t.counts(t.sides().0.min(t.sides().1.saturating_sub(1)), t.allowance())),
    rule("a removal counts as an insertion", &[RemoveWithin], |t| t.counts(t.sides().0.min(t.sides().1 + 1), t.allowance())),
    rule("it is 12 before 1", BOTH, |t| t.instead_of(1)),
    rule("it is 12 before 3", BOTH, |t| t.instead_of(3)),
    rule("it is 12 before 6", &[InsertWithin], |t| t.instead_of(6)),
    // what 12 comes with
    rule("slots change before it is 12", BOTH, |t| t.at_twelve(|o| o.desk.first.slots = t.plain.desk.first.slots.clone())),
    rule("head and length change before it is 12", BOTH, |t| t.at_twelve(|o| (o.desk.first.head, o.desk.first.len) = (t.plain.desk.first.head, t.plain.desk.first.len))),
    rule("the call is made, and then it is 12", BOTH, |t| t.at_twelve(|o| o.desk = t.plain.desk.clone())),
    rule("12 leaves an empty ring", BOTH, |t| t.at_twelve(|o| (o.desk.first.head, o.desk.first.len) = (0, 0))),
    rule("12 says the moves", BOTH, |t| t.at_twelve(|o| o.answer.2 = t.moves())),
    rule("12 reports the slot", BOTH, |t| t.at_twelve(|o| o.answer.3 = t.plain.answer.3)),
    rule("12 returns the entry", &[RemoveWithin], |t| t.at_twelve(|o| o.answer.1 = t.plain.answer.1)),
    rule("12 leaves no total", BOTH, |t| t.at_twelve(|o| o.desk.first.total = 0)),
    rule("12 leaves the true sum", BOTH, |t| t.at_twelve(|o| o.desk.first.total = t.before.first.sum(ops::Kind::Ring).unwrap_or(0))),
    rule("12 leaves the plain call's total", BOTH, |t| t.at_twelve(|o| o.desk.first.total = t.plain.desk.first.total)),
    rule("12 uses the allowance up", BOTH, |t| t.at_twelve(|o| o.desk.front = 0)),
    // what a call that is done comes with
    rule("the moves are taken off the allowance", BOTH, |t| t.at_done(|o| o.desk.front -= t.moves())),
    rule("a done call reports no slot", BOTH, |t| t.at_done(|o| o.answer.3 = NO)),
    rule("a done call leaves the total", BOTH, |t| t.at_done(|o| o.desk.first.total = t.before.first.total)),
];

// How many wrong rules there are; it is an error if one passes on these lines.
pub fn noticed(input: &[u8]) -> Result<usize, String> {
    let tried = tried(input)?;
    let differs = |rule: &Rule, act: Act| tried.iter().any(|t| t.act == act && (rule.gives)(t) != t.right);
    if BOTH.iter().any(|&act| differs(&RIGHT, act)) {
        return Err("the right rule of an allowance differs from itself".to_string());
    }
    for rule in &RULES {
        if let Some(act) = rule.of.iter().find(|&&act| !differs(rule, act)) {
            return Err(format!("the fixed list doesn't notice a wrong rule of an allowance, in {act:?}: {}", rule.name));
        }
    }
    Ok(RULES.len())
}

// The calls with an allowance among these lines.
fn tried(input: &[u8]) -> Result<Vec<Tried>, String> {
    let (mut desk, mut all) = (Desk::default(), Vec::new());
    for line in input.split(|&byte| byte == b'\n') {
        let call = format::parse(line).and_then(|(code, a, b)| Some((ops::find(code).filter(|op| ops::plain(op.act).is_some())?, a, b)));
        if let Some((op, a, b)) = call.filter(|&(op, _, b)| !ops::has_entry(op.act) || b <= u32::MAX as u64) {
            all.push(one(&desk, op, a, b)?);
        }
        desk.take(line, &mut Vec::new());
    }
    Ok(all)
}

fn one(before: &Desk, op: &Op, a: u64, b: u64) -> Result<Tried, String> {
    let made = |code: u8| {
        let mut desk = before.clone();
        selfcheck::called(&mut desk, (code, a, b)).map(|answer| Outcome { answer, desk })
    };
    Ok(Tried { act: op.act, place: a, before: before.clone(), plain: made(allowance::plain(op).code)?, right: made(op.code)? })
}
