// Stored texts read back, and judged alone, against the same rules by hand: each side goes through the same texts, and a ratio is of their times.
use crate::ours::{RingState, VectorState, Word};
use crate::place::{Line, Page};
use crate::{median, CAPS, PASSES};
use std::hint::black_box;
use std::time::Instant;

const GOAL: f64 = 1.0; // our time through that by hand
const LEVEL: f64 = 1.05; // so far above it both are level: runs differ by as much
const BYTES: usize = 150_000; // of a row's texts together: so many digits that no branch predictor learns them
const TRIED: usize = 200_000; // texts, most of them damaged or otherwise wrong, before the measuring

const RING: u64 = 0;
const VECTOR: u64 = 1;

extern "C" {
    fn tum_ring_text_read(slots: *mut u32, cap: usize, state: *mut RingState, text: *const u8, size: usize) -> Word;
    fn tum_vector_text_read(slots: *mut u32, cap: usize, state: *mut VectorState, text: *const u8, size: usize) -> Word;
    fn tum_stored_check(text: *const u8, size: usize, kind: u64) -> u64;
}

static mut OURS: Page = Page::of(0);
static mut RING_STATE: Line<RingState> = Line([0; 3]);
static mut VECTOR_STATE: Line<VectorState> = Line([0; 2]);
static mut BY_HAND: Page = Page::of(0);
static mut BY_HAND_RING: Line<by_hand::Ring<'static>> = Line(by_hand::Ring::new(&mut []));
static mut BY_HAND_VECTOR: Line<by_hand::Vector<'static>> = Line(by_hand::Vector::new(&mut []));

// What is done to a text of so many slots: the total of what was read, or 1 for a yes. Nothing may be refused.
type Work = fn(&[u8], usize) -> u64;

fn read_ring(text: &[u8], cap: usize) -> u64 {
    unsafe {
        let word = tum_ring_text_read((&raw mut OURS.slots).cast(), cap, &raw mut RING_STATE.0, text.as_ptr(), text.len());
        assert!(word >> 60 == 0);
        RING_STATE.0[2]
    }
}

fn read_vector(text: &[u8], cap: usize) -> u64 {
    unsafe {
        let word = tum_vector_text_read((&raw mut OURS.slots).cast(), cap, &raw mut VECTOR_STATE.0, text.as_ptr(), text.len());
        assert!(word >> 60 == 0);
        VECTOR_STATE.0[1]
    }
}

fn check<const KIND: u64>(text: &[u8], _cap: usize) -> u64 {
    unsafe { tum_stored_check(text.as_ptr(), text.len(), KIND) }
}

fn read_ring_by_hand(text: &[u8], cap: usize) -> u64 {
    let ring = unsafe { &mut *(&raw mut BY_HAND_RING.0) };
    ring.slots = unsafe { &mut (&mut *(&raw mut BY_HAND.slots))[..cap] };
    assert!(ring.text_read(text).number == 0);
    ring.total
}

fn read_vector_by_hand(text: &[u8], cap: usize) -> u64 {
    let vector = unsafe { &mut *(&raw mut BY_HAND_VECTOR.0) };
    vector.slots = unsafe { &mut (&mut *(&raw mut BY_HAND.slots))[..cap] };
    assert!(vector.text_read(text).number == 0);
    vector.total
}

fn check_by_hand<const KIND: u64>(text: &[u8], _cap: usize) -> u64 {
    by_hand::stored_check(text, KIND) as u64
}

struct Row {
    name: &'static str,
    kind: u64,
    sides: [Work; 2], // ours, by hand
}

const ROWS: [Row; 4] = [
    Row { name: "ring text_read", kind: RING, sides: [read_ring, read_ring_by_hand] },
    Row { name: "vector text_read", kind: VECTOR, sides: [read_vector, read_vector_by_hand] },
    Row { name: "check of a ring", kind: RING, sides: [check::<RING>, check_by_hand::<RING>] },
    Row { name: "check of a vector", kind: VECTOR, sides: [check::<VECTOR>, check_by_hand::<VECTOR>] },
];

// Numbers that look random (xorshift).
struct Chance(u64);

impl Chance {
    fn next(&mut self) -> u64 {
        self.0 ^= self.0 << 13;
        self.0 ^= self.0 >> 7;
        self.0 ^= self.0 << 17;
        self.0 >> 11
    }

    fn below(&mut self, n: usize) -> usize {
        (self.next() % n as u64) as usize
    }
}

fn text_of(kind: u64, cap: usize, head: usize, len: usize, slot: impl FnMut(usize) -> u32) -> Vec<u8> {
    let slots: String = (0..cap).map(slot).map(|x| format!("{x:08x}\n")).collect();
    format!("{kind:02x}00{cap:04x}{head:04x}{len:04x}\n{slots}").into_bytes()
}

// Three quarters full, a ring's list running on to slot 0, with any numbers; free slots hold 0.
fn texts(kind: u64, cap: usize, chance: &mut Chance) -> Vec<Vec<u8>> {
    let len = cap * 3 / 4;
    let head = if kind == RING { cap - len / 2 } else { 0 };
    let mut text = || text_of(kind, cap, head, len, |k| if (k + cap - head) % cap < len { chance.next() as u32 } else { 0 });
    (0..BYTES.div_ceil(17 + 9 * cap)).map(|_| text()).collect()
}

// A text that may be wrong in a number of its first line, in a byte or in how many there are.
fn tried(kind: u64, chance: &mut Chance) -> Vec<u8> {
    let cap = if chance.below(400) == 0 { 4095 + chance.below(3) } else { chance.below(8) };
    let over = chance.below(8) / 7;
    let len = chance.below(cap + 1 + over);
    let head = match (chance.below(8), kind) {
        (0, _) => chance.below(cap + 2),
        (_, RING) if len > 0 => chance.below(cap.max(1)),
        _ => 0,
    };
    let told = if chance.below(30) == 0 { kind ^ 1 } else { kind };
    let mut text = text_of(told, cap, head, len, |_| chance.next() as u32);
    let at = if chance.below(2) == 0 { chance.below(17) } else { chance.below(text.len()) };
    match chance.below(12) {
        0 => text.truncate(chance.below(text.len() + 1)),
        1 => text.push(b'\n'),
        2 => text[at] ^= 1 << chance.below(8),
        3 => text[at] = b"09afgAF/:`@G-\n\r "[chance.below(16)],
        _ => {}
    }
    text
}

// Both sides' answers, states and slots on a text with so many slots lent.
fn try_ring(text: &[u8], slots: &[u32]) -> u64 {
    let (mut mine, mut theirs, mut state) = (slots.to_vec(), slots.to_vec(), [7; 3]);
    let word = unsafe { tum_ring_text_read(mine.as_mut_ptr(), mine.len(), &mut state, text.as_ptr(), text.len()) };
    let mut ring = by_hand::Ring { slots: &mut theirs, head: 7, len: 7, total: 7 };
    let a = ring.text_read(text);
    let left = [ring.head as u64, ring.len as u64, ring.total];
    assert!(word == said(a) && state == left && mine == theirs, "ring text_read: ours {word:016x} {state:?}, by hand {:016x} {left:?}\n{}", said(a), String::from_utf8_lossy(text));
    word >> 60
}

fn try_vector(text: &[u8], slots: &[u32]) -> u64 {
    let (mut mine, mut theirs, mut state) = (slots.to_vec(), slots.to_vec(), [7; 2]);
    let word = unsafe { tum_vector_text_read(mine.as_mut_ptr(), mine.len(), &mut state, text.as_ptr(), text.len()) };
    let mut vector = by_hand::Vector { slots: &mut theirs, len: 7, total: 7 };
    let a = vector.text_read(text);
    let left = [vector.len as u64, vector.total];
    assert!(word == said(a) && state == left && mine == theirs, "vector text_read: ours {word:016x} {state:?}, by hand {:016x} {left:?}\n{}", said(a), String::from_utf8_lossy(text));
    word >> 60
}

fn said(a: by_hand::Answer) -> Word {
    (a.number as u64) << 60 | (a.moves as u64) << 48 | (a.slot as u64) << 32 | a.value as u64
}

// Before the measuring: each text is read and judged by both, which must come to the same. Says of how many.
pub fn agree() -> String {
    let mut chance = Chance(0x9e37_79b9_7f4a_7c15);
    let mut done = 0;
    for at in 0..TRIED {
        let kind = at as u64 % 2;
        let text = tried(kind, &mut chance);
        let lent = if chance.below(8) == 0 { chance.below(9) } else { text.len().saturating_sub(17) / 9 };
        let slots: Vec<u32> = (0..lent).map(|_| chance.next() as u32).collect();
        let number = if kind == RING { try_ring(&text, &slots) } else { try_vector(&text, &slots) };
        let asked = [kind, kind, 1 - kind, 2, kind + 256, kind + (1 << 32)][chance.below(6)];
        let yes = unsafe { tum_stored_check(text.as_ptr(), text.len(), asked) };
        assert!(yes == by_hand::stored_check(&text, asked) as u64, "check {asked}: ours {yes}\n{}", String::from_utf8_lossy(&text));
        done += (number == 0) as usize;
    }
    format!("{TRIED} texts, of which {done} were read and {} refused", TRIED - done)
}

// The seconds that each side took, round by round.
type Times = [Vec<f64>; 2];

// Each round has both sides go through all texts, and another begins.
fn measure(row: &Row, cap: usize, rounds: usize, times: &mut Times) {
    let texts = texts(row.kind, cap, &mut Chance(0x9e37_79b9 + cap as u64));
    for round in 0..rounds {
        let mut sums = [0u64; 2];
        for turn in 0..2 {
            let side = (round + turn) % 2;
            let start = Instant::now();
            for text in black_box(&texts) {
                sums[side] = sums[side].wrapping_add(row.sides[side](text, cap));
            }
            times[side].push(start.elapsed().as_secs_f64());
        }
        assert!(sums[0] == sums[1] && sums[0] >= texts.len() as u64, "{} at {cap}: the sides came to {sums:?}", row.name);
    }
}

fn ratio(times: &Times) -> f64 {
    median(&mut times[0].iter().zip(&times[1]).map(|(ours, hand)| ours / hand).collect::<Vec<_>>())
}

fn line(row: &Row, times: &mut [Times; 3]) -> String {
    let ratios = times.each_ref().map(ratio);
    let speeds = [0, 1, 2].map(|at| {
        let bytes = (17 + 9 * CAPS[at]) as f64 * BYTES.div_ceil(17 + 9 * CAPS[at]) as f64;
        times[at].each_mut().map(|side| format!("{:.0}", bytes / 1e6 / median(side))).join(" / ")
    });
    let within = |most: f64| ratios.iter().all(|r| *r <= most + 0.005);
    let goal = if within(GOAL) { "reached" } else if within(LEVEL) { "level" } else { "not reached" };
    format!("| {} | {} | {} | {goal} |", row.name, ratios.map(|r| format!("{r:.2}")).join(" / "), speeds.join(" | "))
}

pub fn table(rounds: usize) -> String {
    let mut times: [[Times; 3]; 4] = Default::default();
    for _ in 0..PASSES {
        for (row, times) in ROWS.iter().zip(&mut times) {
            for at in 0..3 {
                measure(row, CAPS[at], rounds_in(rounds), &mut times[at]);
            }
        }
    }
    let head = format!("| work | to by hand | MB/s at 16 | at 256 | at 4,096 | {GOAL:.2} |\n|---|---|---|---|---|---|");
    std::iter::once(head).chain(ROWS.iter().zip(&mut times).map(|(row, times)| line(row, times))).collect::<Vec<_>>().join("\n")
}

// A round takes as long as some ten batches of the other rows, so a pass has a quarter of their rounds.
fn rounds_in(rounds: usize) -> usize {
    rounds.div_ceil(4)
}

pub fn rounds_of(rounds: usize) -> usize {
    rounds_in(rounds) * PASSES
}
