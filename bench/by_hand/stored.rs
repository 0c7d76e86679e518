// The stored form read back: the whole text is judged before the first slot is written.
use crate::{sum, Answer, Ring, Vector, MOST};

const FIRST: usize = 17; // bytes of the first line, LF among them
const LINE: usize = 9; // of a slot's

const RING: u64 = 0;
const VECTOR: u64 = 1;

struct Told {
    cap: usize,
    head: usize,
    len: usize,
}

// What each byte says as a digit.
static WORTH: [u8; 256] = {
    let mut worth = [NONE; 256];
    let mut d = 0;
    while d < 16 {
        worth[b"0123456789abcdef"[d] as usize] = d as u8;
        d += 1;
    }
    worth
};
const NONE: u8 = u8::MAX;

// Digits alone, and LF after them.
fn is_line(line: &[u8]) -> bool {
    matches!(line.split_last(), Some((b'\n', digits)) if digits.iter().all(|&b| WORTH[b as usize] != NONE))
}

// What the digits of a line say.
fn number(digits: &[u8]) -> u64 {
    digits.iter().fold(0, |x, &b| x << 4 | WORTH[b as usize] as u64)
}

// The capacity, head and length of a text that is acceptable for this kind.
fn judge(text: &[u8], kind: u64) -> Option<Told> {
    let (first, rest) = text.split_first_chunk::<FIRST>()?;
    if !is_line(first) {
        return None;
    }
    let x = number(&first[..FIRST - 1]);
    let field = |shift: u32| (x >> shift & 0xffff) as usize;
    let told = Told { cap: field(32), head: field(16), len: field(0) };
    let fits = x >> 48 == kind << 8 && told.cap <= MOST && rest.len() == LINE * told.cap;
    let state = told.len <= told.cap && (told.head == 0 || kind == RING && told.head < told.cap);
    (fits && state && rest.as_chunks::<LINE>().0.iter().all(|line| is_line(line))).then_some(told)
}

// The numbers of a text that was judged, a slot each.
fn take(text: &[u8], slots: &mut [u32]) {
    for (slot, line) in slots.iter_mut().zip(text[FIRST..].as_chunks::<LINE>().0) {
        *slot = number(&line[..LINE - 1]) as u32;
    }
}

// Whether a text is acceptable for a kind; a number that is no kind is a no.
#[inline(never)]
pub fn stored_check(text: &[u8], kind: u64) -> bool {
    kind <= VECTOR && judge(text, kind).is_some()
}

impl Ring<'_> {
    // Made anew on its slots, as the text tells.
    #[inline(never)]
    pub fn text_read(&mut self, text: &[u8]) -> Answer {
        (self.head, self.len, self.total) = (0, 0, 0);
        if self.slots.len() > MOST {
            return Answer::refused(1);
        }
        let Some(told) = judge(text, RING) else { return Answer::refused(14) };
        if told.cap != self.slots.len() {
            return Answer::refused(6);
        }
        take(text, self.slots);
        if told.len > 0 {
            (self.head, self.len) = (told.head, told.len);
            let (first, second) = self.as_slices();
            self.total = sum(first) + sum(second);
        }
        Answer::done(0)
    }
}

impl Vector<'_> {
    #[inline(never)]
    pub fn text_read(&mut self, text: &[u8]) -> Answer {
        (self.len, self.total) = (0, 0);
        if self.slots.len() > MOST {
            return Answer::refused(1);
        }
        let Some(told) = judge(text, VECTOR) else { return Answer::refused(14) };
        if told.cap != self.slots.len() {
            return Answer::refused(6);
        }
        take(text, self.slots);
        self.len = told.len;
        self.total = sum(&self.slots[..told.len]);
        Answer::done(0)
    }
}
