// Makes the calls on records that the archive exports: reads cases from standard input and writes what each call leaves behind. oracle/records-run makes
// the cases and judges the answers; nothing is judged here. All numbers are little-endian.
//
// A case: the text's length (4 bytes), the slots of `starts` and of `ends` (2 each), their states, a length and a total (8 each), start, end (8 each) and
// room (4) of one call of `text`, then the text.
// An answer: its length (4 bytes), then
// - of `read` the word, both states afterwards (16 each), and every slot that was lent, of `starts`, then of `ends`, each with SPARE more behind it;
// - of `judge` the word;
// - of `text`, on each field that `read` gave, with as much room as the field takes, the word and every byte that was lent, and SPARE more;
// - the same of `text` as the case has it.
use std::io::{Read, Write};

const SPARE: usize = 2;
const STARTS: u32 = 0xa5a5_0000; // what stands in the slots before: this and the slot's number
const ENDS: u32 = 0x5a5a_0000;
const BYTE: u8 = b'-';

type State = [u64; 2]; // a vector's length and total

extern "C" {
    fn tum_record_read(text: *const u8, count: usize, starts: *mut u32, starts_room: usize, starts_state: *mut State, ends: *mut u32, ends_room: usize, ends_state: *mut State) -> u64;
    fn tum_record_judge(text: *const u8, count: usize) -> u64;
    fn tum_record_text(text: *const u8, count: usize, start: usize, end: usize, out: *mut u8, room: usize) -> u64;
}

struct Cases<'a>(&'a [u8]);

impl<'a> Cases<'a> {
    fn bytes(&mut self, count: usize) -> &'a [u8] {
        let (these, rest) = self.0.split_at(count);
        self.0 = rest;
        these
    }

    fn number(&mut self, size: usize) -> usize {
        self.bytes(size).iter().rev().fold(0, |n, &b| n << 8 | b as usize)
    }

    fn state(&mut self) -> State {
        [self.number(8) as u64, self.number(8) as u64]
    }
}

fn lent(first: u32, room: usize) -> Vec<u32> {
    (first..).take(room + SPARE).collect()
}

fn text_of(text: &[u8], start: usize, end: usize, room: usize, out: &mut Vec<u8>) {
    let mut bytes = vec![BYTE; room + SPARE];
    let word = unsafe { tum_record_text(text.as_ptr(), text.len(), start, end, bytes.as_mut_ptr(), room) };
    out.extend(word.to_le_bytes());
    out.extend(bytes);
}

fn answer(cases: &mut Cases, out: &mut Vec<u8>) {
    let count = cases.number(4);
    let rooms = [cases.number(2), cases.number(2)];
    let mut states = [cases.state(), cases.state()];
    let (start, end, room) = (cases.number(8), cases.number(8), cases.number(4));
    let text = cases.bytes(count);

    let (mut starts, mut ends) = (lent(STARTS, rooms[0]), lent(ENDS, rooms[1]));
    let [ours, theirs] = &mut states;
    let word = unsafe { tum_record_read(text.as_ptr(), count, starts.as_mut_ptr(), rooms[0], ours, ends.as_mut_ptr(), rooms[1], theirs) };
    out.extend(word.to_le_bytes());
    for n in states.iter().flatten() {
        out.extend(n.to_le_bytes());
    }
    for slot in starts.iter().chain(&ends) {
        out.extend(slot.to_le_bytes());
    }
    out.extend(unsafe { tum_record_judge(text.as_ptr(), count) }.to_le_bytes());
    if word >> 60 == 0 {
        for (&a, &b) in starts.iter().zip(&ends).take((states[0][0] as usize).min(rooms[0]).min(rooms[1])) {
            // A wrong answer may have an end before its start or beyond the text; then no room is lent.
            let fits = if a <= b && b as usize <= count { b - a } else { 0 };
            text_of(text, a as usize, b as usize, fits as usize, out);
        }
    }
    text_of(text, start, end, room, out);
}

fn main() -> std::io::Result<()> {
    let (mut input, mut out) = (Vec::new(), Vec::new());
    std::io::stdin().read_to_end(&mut input)?;
    let mut cases = Cases(&input);
    while !cases.0.is_empty() {
        let at = out.len();
        out.extend([0; 4]);
        answer(&mut cases, &mut out);
        let size = (out.len() - at - 4) as u32;
        out[at..at + 4].copy_from_slice(&size.to_le_bytes());
    }
    std::io::stdout().write_all(&out)
}
