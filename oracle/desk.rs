// The desk that docs/REPLAY.md describes: two containers, a cursor and a text, which stay from line to line. Lists come from `lists`, totals from what those
// add up to, what a text says from `stored`, all else from `rules`.
use crate::format;
use crate::lists;
use crate::ops::{self, Act, Act::*, Kind, Kind::*, Op};
use crate::rules::{self, Asked, State};
use crate::stored;
use std::collections::VecDeque;

pub const MOST_SLOTS: u64 = 4200;
pub const MOST_TEXT: u64 = 40_000;
const DASH: u8 = b'-'; // a byte that nothing was written to

#[derive(Clone, Default, PartialEq)]
pub struct Tray {
    pub slots: Vec<u32>,
    pub head: u64,
    pub len: u64,
    pub total: u64,
}

#[derive(Clone, Default, PartialEq)]
pub struct Desk {
    pub first: Tray,
    pub second: Tray,
    pub front: u64,
    pub back: u64,
    pub text: Vec<u8>,
}

#[derive(Clone, Copy, PartialEq, Eq, Debug)]
pub enum Taken {
    Placed,
    Refused, // the line can't be taken
    Called(u8, u8, u32, [Total; 2]), // operation, number and value
}

// The total that a call was given for a container and the one that it left, and what the container's list added up to before; a state that isn't valid
// has no list.
#[derive(Clone, Copy, PartialEq, Eq, Debug)]
pub struct Total {
    pub given: u64,
    pub left: u64,
    pub sum: Option<u64>,
}

// What an answer has beside the desk.
#[derive(Default)]
struct Answer {
    number: u8,
    value: u32,
    moves: u64,
    slot: Option<usize>,
    part: Option<Vec<u32>>,
    shows_text: bool,
}

impl Tray {
    pub fn state(&self) -> State {
        State { cap: self.slots.len() as u64, head: self.head, len: self.len }
    }

    pub fn list<L: FromIterator<u32>>(&self, kind: Kind) -> L {
        rules::occupied(kind, self.state()).map(|k| self.slots[k]).collect()
    }

    // What its list adds up to.
    pub fn sum(&self, kind: Kind) -> Option<u64> {
        rules::valid(kind, self.state()).then(|| sum(&self.list::<Vec<u32>>(kind)))
    }

    fn place(&mut self, what: u8, a: u64, b: u64) {
        match what {
            1 => *self = Tray { slots: vec![0; a as usize], ..Tray::default() },
            2 => (self.head, self.len) = (a, b),
            _ => self.slots[a as usize] = b as u32,
        }
    }

    // By what Rust's own list adds up to before and after the call, whichever call it was: the program adds and takes off what that call puts in and takes
    // out, and here is no such count in which both could slip alike.
    fn count(&mut self, before: u64, after: u64) {
        self.total = self.total.wrapping_add(after).wrapping_sub(before);
    }

    fn lay<'a>(&mut self, kind: Kind, before: State, head: u64, list: impl ExactSizeIterator<Item = &'a u32>) {
        (self.head, self.len) = (head, list.len() as u64);
        let after = self.state();
        rules::lay(kind, &mut self.slots, before, after, list);
    }
}

impl Desk {
    // A line without its LF; what it prints is put behind `out`.
    pub fn take(&mut self, line: &[u8], out: &mut Vec<u8>) -> Taken {
        match format::parse(line) {
            Some((code, a, b)) => self.take_numbers(code, a, b, out),
            None => refuse(out, format::NOT_DIGITS),
        }
    }

    pub fn take_numbers(&mut self, code: u8, a: u64, b: u64, out: &mut Vec<u8>) -> Taken {
        let op = ops::find(code);
        if op.is_none() && !ops::PLACING.contains(&code) {
            return refuse(out, format::NO_OPERATION);
        }
        if !self.reaches(code, a, b) {
            return refuse(out, format::OUT_OF_REACH);
        }
        match (op, code) {
            (Some(op), _) => return self.call(op, a, b, out),
            (_, 1..=3) => self.first.place(code, a, b),
            (_, 4..=6) => self.second.place(code - 3, a, b),
            (_, 7) => (self.front, self.back) = (a, b),
            (_, 8) => self.first.total = a,
            (_, 9) => self.second.total = a,
            (_, 10) => self.text.resize(a as usize, DASH),
            _ => self.text[a as usize] = b as u8,
        }
        Taken::Placed
    }

    fn reaches(&self, code: u8, a: u64, b: u64) -> bool {
        let entry = b <= u32::MAX as u64;
        match code {
            0x01 | 0x04 => a <= MOST_SLOTS,
            0x03 => a < self.first.slots.len() as u64 && entry,
            0x06 => a < self.second.slots.len() as u64 && entry,
            0x15..=0x17 | 0x1a | 0x1d | 0x25 | 0x26 | 0x28 | 0x2a | 0x2d | 0x3c | 0x3d | 0x90 => entry,
            0x2f => a <= self.second.slots.len() as u64,
            0x0a | 0x80 | 0x81 => a <= MOST_TEXT,
            0x0b => a < self.text.len() as u64 && b <= u8::MAX as u64,
            _ => true,
        }
    }

    pub fn totals(&self) -> [u64; 2] {
        [self.first.total, self.second.total]
    }

    // What the lists of a call add up to.
    pub fn sums(&self, op: &Op) -> [Option<u64>; 2] {
        [self.first.sum(op.kind), self.second.sum(ops::second_kind(op.act, op.kind))]
    }

    fn call(&mut self, op: &Op, a: u64, b: u64, out: &mut Vec<u8>) -> Taken {
        let (act, kind) = (op.act, op.kind);
        let (given, sums) = (self.totals(), self.sums(op));
        // A vector has no head: none is looked at, and 0 is left.
        if kind == Vector {
            self.first.head = 0;
        }
        if ops::has_second(act) && ops::second_kind(act, kind) == Vector {
            self.second.head = 0;
        }
        // Nor is a making given a total.
        if rules::is_making(act) {
            self.first.total = 0;
        }
        let q = Asked { act, kind, a, b, first: self.first.state(), second: self.second.state(), front: self.front, back: self.back };
        let answer = match ops::plain(act) {
            Some(plain) => self.within(&Asked { act: plain, ..q }),
            None if ops::is_part(act) => self.lend(&q),
            None if act == ReadBack => self.read_back(&q),
            None if act == Check => Answer { value: stored::check(a, &self.text) as u32, ..Answer::default() },
            None => self.answered(&q),
        };
        self.print(&answer, out);
        let left = self.totals();
        Taken::Called(op.code, answer.number, answer.value, [0, 1].map(|k| Total { given: given[k], left: left[k], sum: sums[k] }))
    }

    fn answered(&mut self, q: &Asked) -> Answer {
        let number = rules::number(q);
        let mut answer = if number == 0 { self.done(q) } else { self.refused(q) };
        if q.act == Store {
            self.write_text(q, number);
            answer.shows_text = true;
        }
        Answer { number, ..answer }
    }

    // With an allowance, the cursor's front: the plain call is made on a copy of the desk, which takes its place unless that call is done and moves more.
    fn within(&mut self, plain: &Asked) -> Answer {
        let mut copy = self.clone();
        let answer = copy.answered(plain);
        if rules::exceeds(answer.number, answer.moves, plain.front) {
            return Answer { number: rules::TOO_MANY_MOVES, ..Answer::default() };
        }
        *self = copy;
        answer
    }

    fn done(&mut self, q: &Asked) -> Answer {
        match q.act {
            Iter | IntoIter => self.begin(q),
            StepFront | StepBack | PeekFront | PeekBack | FromIter => self.walk(q),
            Store => Answer { value: rules::text_length(q.first.cap) as u32, ..Answer::default() },
            SameAsVector => Answer { value: lists::ring_and_vector(&self.first.list(Ring), &self.second.list(Vector)), ..Answer::default() },
            _ if q.kind == Ring => self.ring(q),
            _ => self.vector(q),
        }
    }

    // The states and the cursor given, save for a making and for a cursor's beginning.
    fn refused(&mut self, q: &Asked) -> Answer {
        if rules::is_making(q.act) {
            (self.first.head, self.first.len) = (0, 0);
        }
        if matches!(q.act, Iter | IntoIter) {
            (self.front, self.back) = (0, 0);
        }
        Answer::default()
    }

    fn ring(&mut self, q: &Asked) -> Answer {
        let before = given(q);
        let other = if ops::has_second(q.act) { self.second.list(Ring) } else { VecDeque::new() };
        let mut lists: [VecDeque<u32>; 2] = [if rules::is_making(q.act) { VecDeque::new() } else { self.first.list(Ring) }, other];
        let [list, other] = &mut lists;
        let sums = [sum(&*list), sum(&*other)];
        let value = lists::ring(q.act, q.a as usize, q.b as u32, list, other);
        self.first.lay(Ring, before, rules::head_after(q, list.len() as u64), list.iter());
        self.first.count(sums[0], sum(&*list));
        if fills_second(q.act) {
            self.second.lay(Ring, q.second, 0, other.iter());
            self.second.count(sums[1], sum(&*other));
        }
        self.changed(&Asked { first: before, ..*q }, value)
    }

    fn vector(&mut self, q: &Asked) -> Answer {
        let before = given(q);
        let mut other: Vec<u32> = match q.act {
            Extend => self.second.slots[..q.a as usize].to_vec(),
            act if ops::has_second(act) => self.second.list(Vector),
            _ => Vec::new(),
        };
        let mut list: Vec<u32> = if rules::is_making(q.act) { Vec::new() } else { self.first.list(Vector) };
        let sums = [sum(&list), sum(&other)];
        let value = lists::vector(q.act, q.a as usize, q.b as u32, &mut list, &mut other);
        self.first.lay(Vector, before, 0, list.iter());
        self.first.count(sums[0], sum(&list));
        if fills_second(q.act) {
            self.second.lay(Vector, q.second, 0, other.iter());
            self.second.count(sums[1], sum(&other));
        }
        self.changed(&Asked { first: before, ..*q }, value)
    }

    // Moves and the slot reported, by how the first container stood before and stands now.
    fn changed(&self, q: &Asked, value: u32) -> Answer {
        let after = self.first.state();
        Answer { value, moves: rules::moves(q, after), slot: rules::reported(q, after), ..Answer::default() }
    }

    fn begin(&mut self, q: &Asked) -> Answer {
        let list: Vec<u32> = self.first.list(q.kind);
        let remaining = match (q.kind, q.act) {
            (Ring, Iter) => VecDeque::from(list).iter().len(),
            (Ring, _) => VecDeque::from(list).into_iter().len(),
            (Vector, Iter) => list.iter().len(),
            (Vector, _) => list.into_iter().len(),
        };
        (self.front, self.back) = (0, remaining as u64);
        Answer::default()
    }

    fn walk(&mut self, q: &Asked) -> Answer {
        let k = q.a as usize;
        let walked = match q.kind {
            Ring => lists::walk(q.act, k, q.front, q.back, self.first.list::<VecDeque<u32>>(Ring).iter()),
            Vector => lists::walk(q.act, k, q.front, q.back, self.first.list::<Vec<u32>>(Vector).iter()),
        };
        (self.front, self.back) = (walked.front, walked.back);
        if let Some(filled) = walked.filled {
            let before = sum(&self.second.list::<Vec<u32>>(Vector));
            self.second.lay(Vector, q.second, 0, filled.iter());
            self.second.count(before, sum(&filled));
        }
        Answer { value: walked.value, ..Answer::default() }
    }

    // A part bears no number: an invalid state or a range that isn't one lends the empty part. What is written to it no total hears of.
    fn lend(&mut self, q: &Asked) -> Answer {
        let asked = if q.act == Range { AskRange } else { Len };
        let mut part = Vec::new();
        if rules::number(&Asked { act: asked, ..*q }) == 0 {
            let mut list: Vec<u32> = self.first.list(Vector);
            part = lists::part(q.act, q.a as usize, q.b as usize, q.b as u32, &mut list);
            self.first.lay(Vector, q.first, 0, list.iter());
        }
        Answer { value: part.len() as u32, part: Some(part), ..Answer::default() }
    }

    // It is lent dashes, and stays on the desk as the call leaves it.
    fn write_text(&mut self, q: &Asked, number: u8) {
        self.text = vec![DASH; q.a as usize];
        if number == 0 {
            rules::store(q.kind, q.first, &self.first.slots, &mut self.text);
        }
    }

    // A making, so that a refused one leaves head, length and total 0; a done one has the total of the list that the text tells.
    fn read_back(&mut self, q: &Asked) -> Answer {
        let told = stored::told(q.kind, &self.text);
        let number = stored::number(q.first.cap, told.as_ref());
        (self.first.head, self.first.len) = (0, 0);
        if let Some(told) = told.filter(|_| number == 0) {
            (self.first.head, self.first.len, self.first.slots) = (told.head, told.len, told.slots);
            self.first.total = sum(&self.first.list::<Vec<u32>>(q.kind));
        }
        Answer { number, ..Answer::default() }
    }

    fn print(&self, answer: &Answer, out: &mut Vec<u8>) {
        let (first, second) = (&self.first, &self.second);
        let rest = [first.head, first.len, second.head, second.len, self.front, self.back];
        let slot = answer.slot.map_or(rules::NO_SLOT, |k| k as u64);
        format::answer(out, answer.number, answer.value, answer.moves, rest, slot, self.totals());
        format::entries(out, &first.slots);
        format::entries(out, &second.slots);
        if let Some(part) = &answer.part {
            format::entries(out, part);
        }
        if answer.shows_text {
            format::text(out, &self.text);
        }
    }
}

fn sum<'a>(list: impl IntoIterator<Item = &'a u32>) -> u64 {
    list.into_iter().fold(0, |sum, &x| sum.wrapping_add(x as u64))
}

fn refuse(out: &mut Vec<u8>, words: &str) -> Taken {
    out.extend_from_slice(words.as_bytes());
    Taken::Refused
}

// The state that the carrying starts from: a making has no list before it.
fn given(q: &Asked) -> State {
    if rules::is_making(q.act) { State { head: 0, len: 0, ..q.first } } else { q.first }
}

fn fills_second(act: Act) -> bool {
    matches!(act, Append | SplitOff | Clone)
}
