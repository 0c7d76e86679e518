// Wrong rules of reading a stored text back and of checking one (request 08), each of which a program might follow: the fixed list must notice them all, in the
// readers of both kinds and in the check.
use crate::desk::{Desk, Tray};
use crate::format;
use crate::ops::{Kind, Kind::*};
use crate::rules::{self, State, MOST};
use crate::selfcheck::{self, Answer, NO};
use crate::stored::{self, Told, NOT_ACCEPTABLE};

#[derive(Clone, PartialEq)]
struct Outcome {
    answer: Answer,
    desk: Desk,
}

// A reading, or a check: the desk before it, and what is right.
struct Tried {
    code: u8,
    number: u64, // of the kind that a check asks for
    before: Desk,
    right: Outcome,
}

const RING: u8 = 0x82;
const VECTOR: u8 = 0x83;
const CHECK: u8 = 0x84;
const READERS: &[u8] = &[RING, VECTOR];
const RINGS: &[u8] = &[RING, CHECK];
const VECTORS: &[u8] = &[VECTOR, CHECK];
const ALL: &[u8] = &[RING, VECTOR, CHECK];

impl Tried {
    fn kind(&self) -> Option<Kind> {
        match (self.code, self.number) {
            (RING, _) | (CHECK, 0) => Some(Ring),
            (VECTOR, _) | (CHECK, 1) => Some(Vector),
            _ => None,
        }
    }

    fn text(&self) -> &[u8] {
        &self.before.text
    }

    fn lent(&self) -> u64 {
        self.before.first.slots.len() as u64
    }

    fn told(&self) -> Option<Told> {
        self.kind().and_then(|kind| stored::told(kind, self.text()))
    }

    // As if the text told this.
    fn telling(&self, told: Option<Told>) -> Outcome {
        if self.code == CHECK {
            return self.says(told.is_some());
        }
        let number = stored::number(self.lent(), told.as_ref());
        self.answering(number, told)
    }

    fn says(&self, yes: bool) -> Outcome {
        Outcome { answer: (0, yes as u32, 0, NO), desk: self.before.clone() }
    }

    // A reading with that number; where it is 0, it leaves what is told.
    fn answering(&self, number: u8, told: Option<Told>) -> Outcome {
        let mut desk = self.before.clone();
        let slots = std::mem::take(&mut desk.first.slots);
        desk.first = Tray { slots, ..Tray::default() };
        if let Some(Told { head, len, slots }) = told.filter(|_| number == 0) {
            let total = (0..len.min(slots.len() as u64)).map(|j| slots[((head + j) % slots.len() as u64) as usize] as u64).sum();
            desk.first = Tray { head, len, slots, total };
        }
        Outcome { answer: (number, 0, 0, NO), desk }
    }

    // The text is first made into another, and that is read by the right rule.
    fn mended(&self, mend: impl Fn(Kind, &mut Vec<u8>)) -> Outcome {
        let Some(kind) = self.kind() else { return self.right.clone() };
        let mut text = self.text().to_vec();
        if text.len() >= 16 {
            mend(kind, &mut text);
        }
        self.telling(stored::told(kind, &text))
    }

    // Another test lets states pass; an empty ring's head is 0 all the same.
    fn passing(&self, passes: impl Fn(Kind, State) -> bool) -> Outcome {
        let Some(kind) = self.kind() else { return self.right.clone() };
        let told = stored::told_by(|s| passes(kind, s), kind, self.text());
        self.telling(told.map(|told| Told { head: if told.len == 0 { 0 } else { told.head }, ..told }))
    }

    // Some of the acceptable texts are refused.
    fn but(&self, refused: impl Fn(State, &Told) -> bool) -> Outcome {
        let state = |told: &Told| State { cap: told.slots.len() as u64, head: stored::said(self.text(), 8, 4), len: told.len };
        self.telling(self.told().filter(|told| !refused(state(told), told)))
    }

    // The right outcome, with something else in it where the test holds.
    fn at(&self, when: impl Fn(u8) -> bool, change: impl Fn(&mut Outcome)) -> Outcome {
        let mut left = self.right.clone();
        if when(left.answer.0) {
            change(&mut left);
        }
        left
    }

    fn at_done(&self, change: impl Fn(&mut Outcome)) -> Outcome {
        self.at(|number| number == 0, change)
    }

    // What the lines of the text say, as far as it has them, is put into the slots.
    fn stored_anyway(&self, o: &mut Outcome) {
        let lines = self.text().len().saturating_sub(17) / 9;
        for (k, slot) in o.desk.first.slots.iter_mut().enumerate().take(lines) {
            *slot = stored::said(self.text(), 17 + 9 * k, 8) as u32;
        }
    }

    // Other slots than the capacity will do where this test holds: of the text, what fits.
    fn fitting(&self, test: impl Fn(u64, u64) -> bool) -> Outcome {
        let told = self.told().filter(|told| self.right.answer.0 == 6 && test(self.lent(), told.slots.len() as u64));
        let Some(mut told) = told else { return self.right.clone() };
        let rest = self.before.first.slots.iter().skip(told.slots.len());
        told.slots.extend(rest);
        told.slots.truncate(self.lent() as usize);
        told.len = told.len.min(self.lent());
        self.answering(0, Some(told))
    }

    fn occupied(&self, o: &Outcome) -> Vec<usize> {
        self.kind().map_or(Vec::new(), |kind| rules::occupied(kind, o.desk.first.state()).collect())
    }

    // By another kind number.
    fn asking(&self, number: u64) -> Outcome {
        self.says(stored::check(number, self.text()))
    }

    fn says_capacity(&self) -> u64 {
        stored::said(self.text(), 4, 4)
    }
}

// How long the text has to be by its capacity.
fn need(text: &[u8]) -> usize {
    rules::text_length(stored::said(text, 4, 4)) as usize
}

fn is_end(k: usize) -> bool {
    k >= 16 && (k - 16) % 9 == 0
}

fn put(text: &mut [u8], from: usize, digits: &[u8]) {
    text[from..from + digits.len()].copy_from_slice(digits);
}

fn replaced(text: &mut Vec<u8>, from: &[u8], to: &[u8]) {
    let mut k = 0;
    while k + from.len() <= text.len() {
        if text[k..].starts_with(from) {
            text.splice(k..k + from.len(), to.iter().copied());
            k += to.len();
        } else {
            k += 1;
        }
    }
}

struct Rule {
    name: &'static str,
    of: &'static [u8],
    gives: fn(&Tried) -> Outcome,
}

const fn rule(name: &'static str, of: &'static [u8], gives: fn(&Tried) -> Outcome) -> Rule {
    Rule { name, of, gives }
}

const RIGHT: Rule = rule("the right one", ALL, |t| t.telling(t.told()));

const RULES: [Rule; 88] = [
    // which bytes count
    rule("upper-case digits are accepted", ALL, |t| t.mended(|_, text| text.make_ascii_lowercase())),
    rule("bytes after the text are passed over", ALL, |t| t.mended(|_, text| text.truncate(need(text)))),
    rule("a last line without LF is accepted", ALL, |t| t.mended(|_, text| if text.len() + 1 == need(text) { text.push(b'\n') })),
    rule("CR LF is accepted", ALL, |t| t.mended(|_, text| replaced(text, b"\r\n", b"\n"))),
    rule("CR is accepted", ALL, |t| t.mended(|_, text| replaced(text, b"\r", b"\n"))),
    rule("empty lines are passed over", ALL, |t| t.mended(|_, text| replaced(text, b"\n\n", b"\n"))),
    rule("LF LF at the end is accepted", ALL, |t| t.mended(|_, text| if text.ends_with(b"\n\n") { text.truncate(text.len() - 1) })),
    rule("a space at the end is passed over", ALL, |t| t.mended(|_, text| if text.ends_with(b" ") { text.truncate(text.len() - 1) })),
    rule("spaces at the front are passed over", ALL, |t| t.mended(|_, text| if text.starts_with(b" ") { drop(text.drain(..1)) })),
    rule("a mark at the front is passed over", ALL, |t| t.mended(|_, text| if text.starts_with(b"\xef\xbb\xbf") { drop(text.drain(..3)) })),
    rule("any byte ends a line", ALL, |t| t.mended(|_, text| (0..text.len()).filter(|&k| is_end(k)).for_each(|k| text[k] = b'\n'))),
    rule("lines need no end", ALL, |t| t.mended(|_, text| {
        let digits: Vec<u8> = text.iter().copied().filter(|&byte| byte != b'\n').collect();
        *text = digits.iter().enumerate().flat_map(|(k, &byte)| if k >= 15 && k % 8 == 7 { vec![byte, b'\n'] } else { vec![byte] }).collect();
    })),
    rule("a space counts as 0", ALL, |t| t.mended(|_, text| replaced(text, b" ", b"0"))),
    rule("what is no digit counts as 0", ALL, |t| t.mended(|_, text| {
        (0..text.len()).filter(|&k| !is_end(k)).for_each(|k| if !b"0123456789abcdef".contains(&text[k]) { text[k] = b'0' })
    })),
    rule("slots that have no line are 0", ALL, |t| t.mended(|_, text| {
        while text.len() < need(text).min(40_000) && text.ends_with(b"\n") {
            text.extend(b"00000000\n");
        }
    })),
    rule("only the first line is looked at", ALL, |t| t.mended(|_, text| {
        let cap = stored::said(text, 4, 4).min(MOST) as usize;
        text.resize(text.len().min(17), b'-');
        text.extend(b"00000000\n".repeat(cap));
    })),
    // kind and second byte
    rule("the kind is not looked at", ALL, |t| t.mended(|kind, text| put(text, 0, format!("{:02x}", kind as u8).as_bytes()))),
    rule("the kind's first digit is not looked at", RINGS, |t| t.mended(|_, text| text[0] = b'0')),
    rule("an unknown kind is a ring", RINGS, |t| t.mended(|_, text| if !text.starts_with(b"01") { put(text, 0, b"00") })),
    rule("an unknown kind is a vector", VECTORS, |t| t.mended(|_, text| if !text.starts_with(b"00") { put(text, 0, b"01") })),
    rule("the second byte is not looked at", ALL, |t| t.mended(|_, text| put(text, 2, b"00"))),
    rule("the second byte may be 01", ALL, |t| t.mended(|_, text| if &text[2..4] == b"01" { put(text, 2, b"00") })),
    rule("the second byte may be 02", ALL, |t| t.mended(|_, text| if &text[2..4] == b"02" { put(text, 2, b"00") })),
    // states
    rule("a vector's head is not looked at", VECTORS, |t| t.mended(|kind, text| if kind == Vector { put(text, 8, b"0000") })),
    rule("an empty vector's head is not looked at", VECTORS, |t| t.mended(|kind, text| if kind == Vector && &text[12..16] == b"0000" { put(text, 8, b"0000") })),
    rule("a head may be the capacity", RINGS, |t| t.passing(|_, s| s.head <= s.cap && s.len <= s.cap && s.cap <= MOST)),
    rule("any head will do", RINGS, |t| t.passing(|_, s| s.len <= s.cap && s.cap <= MOST)),
    rule("an older head may be the capacity", RINGS, |t| t.passing(|kind, s| rules::valid(kind, s) || s.len == 0 && s.head <= s.cap && s.cap <= MOST)),
    rule("a length may be one above the capacity", ALL, |t| t.passing(|_, s| s.len <= s.cap + 1 && (s.head < s.cap || s.head == 0) && s.cap <= MOST)),
    rule("any length will do", ALL, |t| t.passing(|_, s| (s.head < s.cap || s.head == 0) && s.cap <= MOST)),
    rule("a text may have 4,097 slots", ALL, |t| t.passing(|_, s| s.len <= s.cap && (s.head < s.cap || s.head == 0) && s.cap <= MOST + 1)),
    rule("a text has fewer than 4,096 slots", ALL, |t| t.but(|s, _| s.cap == MOST)),
    rule("older texts are refused", RINGS, |t| t.but(|s, _| s.len == 0 && s.head > 0)),
    rule("a text has a slot", ALL, |t| t.but(|s, _| s.cap == 0)),
    rule("a text has an entry", ALL, |t| t.but(|s, _| s.len == 0)),
    rule("a text has a free slot", ALL, |t| t.but(|s, _| s.len == s.cap)),
    rule("a ring that wraps is refused", RINGS, |t| t.but(|s, _| s.head + s.len > s.cap)),
    rule("free slots are 0 or it is refused", ALL, |t| t.but(|s, told| (s.len..s.cap).any(|j| told.slots[((told.head + j) % s.cap) as usize] != 0))),
    rule("entries below 2^31 alone are read", ALL, |t| t.but(|_, told| told.slots.iter().any(|&x| x >> 31 != 0))),
    // what a reading leaves
    rule("an older text's head is kept", &[RING], |t| t.at_done(|o| o.desk.first.head = stored::said(t.text(), 8, 4))),
    rule("head 0 is left", &[RING], |t| t.at_done(|o| o.desk.first.head = 0)),
    rule("the list is laid from slot 0 on", &[RING], |t| t.at_done(|o| {
        let by = o.desk.first.head as usize;
        o.desk.first.slots.rotate_left(by);
        o.desk.first.head = 0;
    })),
    rule("the length is the capacity", READERS, |t| t.at_done(|o| o.desk.first.len = t.lent())),
    rule("the length given stays", READERS, |t| t.at_done(|o| o.desk.first.len = t.before.first.len)),
    rule("the total is 0", READERS, |t| t.at_done(|o| o.desk.first.total = 0)),
    rule("the total stays", READERS, |t| t.at_done(|o| o.desk.first.total = t.before.first.total)),
    rule("the sum is added to the total", READERS, |t| t.at_done(|o| o.desk.first.total = o.desk.first.total.wrapping_add(t.before.first.total))),
    rule("all slots are added up", READERS, |t| t.at_done(|o| o.desk.first.total = o.desk.first.slots.iter().map(|&x| x as u64).sum())),
    rule("the first slots are added up", &[RING], |t| t.at_done(|o| o.desk.first.total = o.desk.first.slots.iter().take(o.desk.first.len as usize).map(|&x| x as u64).sum())),
    rule("what wraps is not added up", &[RING], |t| t.at_done(|o| {
        o.desk.first.total = o.desk.first.slots.iter().skip(o.desk.first.head as usize).take(o.desk.first.len as usize).map(|&x| x as u64).sum()
    })),
    rule("the total has 32 bits", READERS, |t| t.at_done(|o| o.desk.first.total = o.desk.first.total as u32 as u64)),
    rule("the second has the total", READERS, |t| t.at_done(|o| o.desk.second.total = o.desk.first.total)),
    rule("no slot is written", READERS, |t| t.at_done(|o| o.desk.first.slots = t.before.first.slots.clone())),
    rule("free slots are left", READERS, |t| t.at_done(|o| {
        let used = t.occupied(o);
        (0..o.desk.first.slots.len()).filter(|k| !used.contains(k)).for_each(|k| o.desk.first.slots[k] = t.before.first.slots[k]);
    })),
    rule("free slots are 0", READERS, |t| t.at_done(|o| {
        let used = t.occupied(o);
        (0..o.desk.first.slots.len()).filter(|k| !used.contains(k)).for_each(|k| o.desk.first.slots[k] = 0);
    })),
    rule("the value is the length", READERS, |t| t.at_done(|o| o.answer.1 = o.desk.first.len as u32)),
    rule("the value is the text's", READERS, |t| t.at_done(|o| o.answer.1 = t.text().len() as u32)),
    rule("entries read are moves", READERS, |t| t.at_done(|o| o.answer.2 = o.desk.first.len)),
    rule("the head's slot is reported", READERS, |t| t.at_done(|o| o.answer.3 = o.desk.first.head)),
    rule("a cursor over it is left", READERS, |t| t.at_done(|o| (o.desk.front, o.desk.back) = (0, o.desk.first.len))),
    // refusals
    rule("it is 14 before 1", READERS, |t| t.at(|number| number == 1 && t.told().is_none(), |o| o.answer.0 = NOT_ACCEPTABLE)),
    rule("it is 6 before 1", READERS, |t| t.at(|number| number == 1 && t.says_capacity() != t.lent(), |o| o.answer.0 = 6)),
    rule("it is 6 before 14", READERS, |t| t.at(|number| number == NOT_ACCEPTABLE && t.says_capacity() != t.lent(), |o| o.answer.0 = 6)),
    rule("more slots than the capacity will do", READERS, |t| t.fitting(|lent, cap| lent > cap)),
    rule("fewer slots than the capacity will do", READERS, |t| t.fitting(|lent, cap| lent < cap)),
    rule("slots are written before it is 14", READERS, |t| t.at(|number| number == NOT_ACCEPTABLE, |o| t.stored_anyway(o))),
    rule("slots are written before it is 6", READERS, |t| t.at(|number| number == 6, |o| t.stored_anyway(o))),
    rule("slots are 0 where it is refused", READERS, |t| t.at(|number| number != 0, |o| o.desk.first.slots.fill(0))),
    rule("1 leaves the length", READERS, |t| t.at(|number| number == 1, |o| o.desk.first.len = t.before.first.len)),
    rule("14 leaves the length", READERS, |t| t.at(|number| number == NOT_ACCEPTABLE, |o| o.desk.first.len = t.before.first.len)),
    rule("6 leaves the length", READERS, |t| t.at(|number| number == 6, |o| o.desk.first.len = t.before.first.len)),
    rule("a refusal leaves the head", &[RING], |t| t.at(|number| number != 0, |o| o.desk.first.head = t.before.first.head)),
    rule("a refusal leaves the total", READERS, |t| t.at(|number| number != 0, |o| o.desk.first.total = t.before.first.total)),
    // the check
    rule("either kind will do", &[CHECK], |t| t.says(stored::check(0, t.text()) || stored::check(1, t.text()))),
    rule("a kind number has 8 bits", &[CHECK], |t| t.asking(t.number as u8 as u64)),
    rule("a kind number has 32 bits", &[CHECK], |t| t.asking(t.number as u32 as u64)),
    rule("a kind number has 63 bits", &[CHECK], |t| t.asking(t.number & (u64::MAX >> 1))),
    rule("the last bit tells the kind", &[CHECK], |t| t.asking(t.number & 1)),
    rule("any other number is a ring", &[CHECK], |t| t.asking(if t.number > 1 { 0 } else { t.number })),
    rule("any other number is a vector", &[CHECK], |t| t.asking(t.number.min(1))),
    rule("a kind number may be the digit", &[CHECK], |t| t.asking(if (48..50).contains(&t.number) { t.number - 48 } else { t.number })),
    rule("a no is 14", &[CHECK], |t| t.at(|_| t.right.answer.1 == 0, |o| o.answer.0 = NOT_ACCEPTABLE)),
    rule("a no is 1 and a yes 0", &[CHECK], |t| t.says(t.right.answer.1 == 0)),
    rule("a check leaves an empty container", &[CHECK], |t| t.at_done(|o| (o.desk.first.head, o.desk.first.len) = (0, 0))),
    rule("a check leaves no head", &[CHECK], |t| t.at_done(|o| o.desk.first.head = 0)),
    rule("a check leaves no total", &[CHECK], |t| t.at_done(|o| o.desk.first.total = 0)),
    rule("a check reads where it can", &[CHECK], |t| match t.told().filter(|told| told.slots.len() as u64 == t.lent()) {
        Some(told) => Outcome { answer: t.right.answer, ..t.answering(0, Some(told)) },
        None => t.right.clone(),
    }),
    rule("a text of other slots than there are is a no", &[CHECK], |t| t.says(t.right.answer.1 == 1 && t.says_capacity() == t.lent())),
];

// How many wrong rules there are; it is an error if one passes on these lines.
pub fn noticed(input: &[u8]) -> Result<usize, String> {
    let tried = tried(input)?;
    let differs = |rule: &Rule, code: u8| tried.iter().any(|t| t.code == code && (rule.gives)(t) != t.right);
    if ALL.iter().any(|&code| differs(&RIGHT, code)) {
        return Err("the right rule of reading a text differs from itself".to_string());
    }
    for rule in &RULES {
        if let Some(code) = rule.of.iter().find(|&&code| !differs(rule, code)) {
            return Err(format!("the fixed list doesn't notice a wrong rule of a text, in operation {code:02x}: {}", rule.name));
        }
    }
    Ok(RULES.len())
}

// The readings and checks among these lines.
fn tried(input: &[u8]) -> Result<Vec<Tried>, String> {
    let (mut desk, mut all) = (Desk::default(), Vec::new());
    for line in input.split(|&byte| byte == b'\n') {
        match format::parse(line) {
            Some((code, number, b)) if ALL.contains(&code) => {
                let before = desk.clone();
                let answer = selfcheck::called(&mut desk, (code, number, b))?;
                all.push(Tried { code, number, before, right: Outcome { answer, desk: desk.clone() } });
            }
            _ => {
                desk.take(line, &mut Vec::new());
            }
        }
    }
    Ok(all)
}
