// Request 08's rule of which texts can be read back, and as what. There is no test of a digit or of a line's end here: the numbers are taken out of a text as
// they come, the container that they say is written anew (`rules::store`, paper 01), and the text counts exactly if it has those very bytes.
use crate::ops::{Kind, Kind::*};
use crate::rules::{self, State, MOST};

pub const NOT_ACCEPTABLE: u8 = 14;

// What a text says: every slot of it, free ones too, head and length.
#[derive(Clone, PartialEq, Eq, Debug)]
pub struct Told {
    pub head: u64,
    pub len: u64,
    pub slots: Vec<u32>,
}

// A valid container of that kind which is written so; or an older text, of an empty ring but with another head below the capacity, which is read as head 0.
pub fn told(kind: Kind, text: &[u8]) -> Option<Told> {
    told_by(|s| rules::valid(kind, s) || kind == Ring && older(s), kind, text).map(|told| Told { head: if told.len == 0 { 0 } else { told.head }, ..told })
}

fn older(s: State) -> bool {
    s.len == 0 && 0 < s.head && s.head < s.cap && s.cap <= MOST
}

// The container that a text has, if this test lets its state pass and it is written so.
pub fn told_by(passes: impl Fn(State) -> bool, kind: Kind, text: &[u8]) -> Option<Told> {
    let s = State { cap: said(text, 4, 4), head: said(text, 8, 4), len: said(text, 12, 4) };
    if text.len() as u64 != rules::text_length(s.cap) || !passes(s) {
        return None;
    }
    let slots: Vec<u32> = (0..s.cap as usize).map(|k| said(text, 17 + 9 * k, 8) as u32).collect();
    let mut anew = vec![0; text.len()];
    rules::store(kind, s, &slots, &mut anew);
    (anew == text).then_some(Told { head: s.head, len: s.len, slots })
}

// So many digits from a place on, as a number; what is no digit, or isn't there, counts as 0.
pub fn said(text: &[u8], from: usize, count: usize) -> u64 {
    (from..from + count).fold(0, |sum, k| 16 * sum + text.get(k).and_then(|&byte| (byte as char).to_digit(16)).unwrap_or(0) as u64)
}

// The number that a reading into so many slots is answered. 14 comes before 6.
pub fn number(cap: u64, told: Option<&Told>) -> u8 {
    match told {
        _ if cap > MOST => 1,
        None => NOT_ACCEPTABLE,
        Some(told) if told.slots.len() as u64 != cap => 6,
        Some(_) => 0,
    }
}

// Whether a text is acceptable for the kind of that number; there are two kinds.
pub fn check(number: u64, text: &[u8]) -> bool {
    match number {
        0 => told(Ring, text).is_some(),
        1 => told(Vector, text).is_some(),
        _ => false,
    }
}
