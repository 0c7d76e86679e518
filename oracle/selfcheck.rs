// Checks the desk's answers against results written by hand: paper 01's cases a to m and its listing, request 03's emptied rings, request 10's slots,
// request 04's totals (by_hand.rs), request 11's allowances (allowance.rs), request 08's texts (texts_by_hand.rs), and answers to the byte for what those leave
// out; and that a wrong rule of a total, of an allowance, of reading a text or of the text on the desk is noticed (wrong.rs, wrong_allowance.rs, wrong_texts.rs,
// wrong_kept.rs).
use crate::allowance;
use crate::by_hand;
use crate::desk::{Desk, Taken};
use crate::fixed;
use crate::ops::{self, Op, OPS};
use crate::pen::Pen;
use crate::texts;
use crate::texts_by_hand;
use crate::wrong;
use crate::wrong_allowance;
use crate::wrong_kept;
use crate::wrong_texts;

struct Case {
    name: &'static str,
    from: (u64, u64, &'static [u32]), // head, length, slots
    call: (u8, u64, u64),
    answer: Answer,
    to: (u64, u64, &'static [u32]),
}

pub type Answer = (u8, u32, u64, u64); // number, value, moves, slot
pub type Tray = (u64, u64, &'static [u32]);
const W: Tray = (2, 3, &[11, 0, 9, 10]);
const U: Tray = (0, 3, &[1, 2, 3, 9]);
const NONE: Tray = (0, 0, &[]);
const FULL: Tray = (0, 1, &[6]);
const OFF: Tray = (4, 0, &[0, 0, 0, 0]);
pub const NO: u64 = 0xffff; // no slot is reported

const fn case(name: &'static str, from: Tray, call: (u8, u64, u64), answer: Answer, to: Tray) -> Case {
    Case { name, from, call, answer, to }
}

const PAPER: [Case; 19] = [
    case("a", W, (0x1a, 1, 8), (0, 0, 1, 2), (1, 4, &[11, 9, 8, 10])),
    case("b", W, (0x1a, 2, 8), (0, 0, 1, 0), (2, 4, &[8, 11, 9, 10])),
    case("c", W, (0x1b, 0, 0), (0, 9, 0, 2), (3, 2, &[11, 0, 0, 10])),
    case("d", W, (0x1b, 1, 0), (0, 10, 1, 3), (2, 2, &[0, 0, 9, 11])),
    case("e, remove", W, (0x1b, 3, 0), (3, 0, 0, NO), W),
    case("e, insert", W, (0x1a, 4, 1), (3, 0, 0, NO), W),
    case("f", FULL, (0x16, 0, 1), (6, 0, 0, NO), FULL),
    case("g, push of a ring", NONE, (0x16, 0, 1), (6, 0, 0, NO), NONE),
    case("g, pop of a ring", NONE, (0x18, 0, 0), (4, 0, 0, NO), NONE),
    case("g, push of a vector", NONE, (0x26, 0, 1), (6, 0, 0, NO), NONE),
    case("g, pop of a vector", NONE, (0x27, 0, 0), (4, 0, 0, NO), NONE),
    case("h", (0, 0, &[3]), (0x17, 0, 4), (0, 0, 0, 0), (0, 1, &[4])),
    case("i", OFF, (0x16, 0, 1), (1, 0, 0, NO), OFF),
    case("j", (1, 1, &[3, 6]), (0x19, 0, 0), (0, 6, 0, 1), (0, 0, &[3, 0])),
    case("k, first", U, (0x29, 0, 0), (0, 1, 1, 0), (0, 2, &[3, 2, 0, 9])),
    case("k, last", U, (0x29, 2, 0), (0, 3, 0, 2), (0, 2, &[1, 2, 0, 9])),
    case("l", U, (0x2a, 3, 7), (0, 0, 0, 3), (0, 4, &[1, 2, 3, 7])),
    case("m, truncate", U, (0x2c, 5, 0), (0, 0, 0, NO), U),
    case("m, resize", U, (0x2d, 5, 0), (6, 0, 0, NO), U),
];

// Request 03: what takes the last entry out leaves head 0, what leaves one does not; an empty ring with another head is invalid.
const LAST: Tray = (3, 1, &[5, 6, 7, 9]);
const TWO: Tray = (3, 2, &[9, 6, 7, 8]);
const TURNED: Tray = (1, 0, &[5, 6, 7, 8]);
const EMPTIED: [Case; 18] = [
    case("pop_back of the last", LAST, (0x18, 0, 0), (0, 9, 0, 3), (0, 0, &[5, 6, 7, 0])),
    case("pop_back of two", TWO, (0x18, 0, 0), (0, 9, 0, 0), (3, 1, &[0, 6, 7, 8])),
    case("pop_front of the last", LAST, (0x19, 0, 0), (0, 9, 0, 3), (0, 0, &[5, 6, 7, 0])),
    case("pop_front of the last, head 1", (1, 1, &[5, 9, 7, 8]), (0x19, 0, 0), (0, 9, 0, 1), (0, 0, &[5, 0, 7, 8])),
    case("pop_front of two, head 1", (1, 2, &[5, 8, 9, 7]), (0x19, 0, 0), (0, 8, 0, 1), (2, 1, &[5, 0, 9, 7])),
    case("remove of the only entry", LAST, (0x1b, 0, 0), (0, 9, 0, 3), (0, 0, &[5, 6, 7, 0])),
    case("remove of the second", TWO, (0x1b, 1, 0), (0, 9, 0, 0), (3, 1, &[0, 6, 7, 8])),
    case("truncate 0", TWO, (0x1c, 0, 0), (0, 0, 0, NO), (0, 0, &[0, 6, 7, 0])),
    case("truncate 1", TWO, (0x1c, 1, 0), (0, 0, 0, NO), (3, 1, &[0, 6, 7, 8])),
    case("resize 0", TWO, (0x1d, 0, 4), (0, 0, 0, NO), (0, 0, &[0, 6, 7, 0])),
    case("resize up from empty", (0, 0, &[5, 6, 7, 8]), (0x1d, 2, 4), (0, 0, 0, NO), (0, 2, &[4, 4, 7, 8])),
    case("push_back on an empty ring", (0, 0, &[5, 6, 7, 8]), (0x16, 0, 4), (0, 0, 0, 0), (0, 1, &[4, 6, 7, 8])),
    case("push_front on an empty ring", (0, 0, &[5, 6, 7, 8]), (0x17, 0, 4), (0, 0, 0, 3), (3, 1, &[5, 6, 7, 4])),
    case("push_back, turned", TURNED, (0x16, 0, 4), (1, 0, 0, NO), TURNED),
    case("pop_front, turned", TURNED, (0x19, 0, 0), (1, 0, 0, NO), TURNED),
    case("read beyond, turned", TURNED, (0x13, 0, 0), (1, 0, 0, NO), TURNED),
    case("clear, turned", TURNED, (0x1e, 0, 0), (1, 0, 0, NO), TURNED),
    case("a vector has no head", (1, 0, &[5, 6, 7, 8]), (0x26, 0, 4), (0, 0, 0, 0), (0, 1, &[4, 6, 7, 8])),
];

// Request 10: where the entry stands after a push, insert, read or write; where it stood before a pop, remove or swap_remove; else none.
const TURN: Tray = (3, 3, &[8, 9, 5, 7]); // 7, 8, 9
const FIVE: Tray = (4, 5, &[3, 4, 5, 9, 1, 2]); // 1 to 5, and 9 in the free slot
const AWRY: Tray = (2, 3, &[1, 2, 3, 9]); // U with a head, which a vector doesn't have
const REPORTED: [Case; 31] = [
    case("push_back past the last slot", (2, 2, &[5, 6, 8, 9]), (0x16, 0, 4), (0, 0, 0, 0), (2, 3, &[4, 6, 8, 9])),
    case("push_back after slot 0", TURN, (0x16, 0, 4), (0, 0, 0, 2), (3, 4, &[8, 9, 4, 7])),
    case("push_front before slot 0", (0, 2, &[8, 9, 5, 6]), (0x17, 0, 4), (0, 0, 0, 3), (3, 3, &[8, 9, 5, 4])),
    case("push_front before slot 3", TURN, (0x17, 0, 4), (0, 0, 0, 2), (2, 4, &[8, 9, 4, 7])),
    case("pop_front from the last slot", TURN, (0x19, 0, 0), (0, 7, 0, 3), (0, 2, &[8, 9, 5, 0])),
    case("pop_front from slot 0", (0, 2, &[8, 9, 5, 6]), (0x19, 0, 0), (0, 8, 0, 0), (1, 1, &[0, 9, 5, 6])),
    case("pop_back past the last slot", TURN, (0x18, 0, 0), (0, 9, 0, 1), (3, 2, &[8, 0, 5, 7])),
    case("remove, those before it shift", FIVE, (0x1b, 1, 0), (0, 2, 1, 5), (5, 4, &[3, 4, 5, 9, 0, 1])),
    case("remove, those after it shift", FIVE, (0x1b, 3, 0), (0, 4, 1, 1), (4, 4, &[3, 5, 0, 9, 1, 2])),
    case("remove of the last", FIVE, (0x1b, 4, 0), (0, 5, 0, 2), (4, 4, &[3, 4, 0, 9, 1, 2])),
    case("insert at 0", FIVE, (0x1a, 0, 7), (0, 0, 0, 3), (3, 6, &[3, 4, 5, 7, 1, 2])),
    case("insert, those before it shift", FIVE, (0x1a, 2, 7), (0, 0, 2, 5), (3, 6, &[3, 4, 5, 1, 2, 7])),
    case("insert, those after it shift", FIVE, (0x1a, 3, 7), (0, 0, 2, 1), (4, 6, &[3, 7, 4, 5, 1, 2])),
    case("insert at the end", FIVE, (0x1a, 5, 7), (0, 0, 0, 3), (4, 6, &[3, 4, 5, 7, 1, 2])),
    case("read of a ring", FIVE, (0x13, 3, 0), (0, 4, 0, 1), FIVE),
    case("write to a ring", FIVE, (0x15, 2, 7), (0, 3, 0, 0), (4, 5, &[7, 4, 5, 9, 1, 2])),
    case("read of a vector", AWRY, (0x23, 1, 0), (0, 2, 0, 1), U),
    case("write to a vector", AWRY, (0x25, 2, 7), (0, 3, 0, 2), (0, 3, &[1, 2, 7, 9])),
    case("push of a vector", U, (0x26, 0, 7), (0, 0, 0, 3), (0, 4, &[1, 2, 3, 7])),
    case("pop of a vector", U, (0x27, 0, 0), (0, 3, 0, 2), (0, 2, &[1, 2, 0, 9])),
    case("insert into a vector", U, (0x2a, 1, 7), (0, 0, 2, 1), (0, 4, &[1, 7, 2, 3])),
    case("remove from a vector", U, (0x2b, 0, 0), (0, 1, 2, 0), (0, 2, &[2, 3, 0, 9])),
    case("swap_remove", U, (0x29, 1, 0), (0, 2, 1, 1), (0, 2, &[1, 3, 0, 9])),
    case("read refused", FIVE, (0x13, 5, 0), (3, 0, 0, NO), FIVE),
    case("insert refused", FULL, (0x1a, 0, 1), (6, 0, 0, NO), FULL),
    case("pop refused", (0, 0, &[5]), (0x18, 0, 0), (4, 0, 0, NO), (0, 0, &[5])),
    case("truncate", FIVE, (0x1c, 2, 0), (0, 0, 0, NO), (4, 2, &[0, 0, 0, 9, 1, 2])),
    case("resize", FIVE, (0x1d, 6, 7), (0, 0, 0, NO), (4, 6, &[3, 4, 5, 7, 1, 2])),
    case("clear", TURN, (0x1e, 0, 0), (0, 0, 0, NO), (0, 0, &[0, 0, 5, 0])),
    case("len", FIVE, (0x12, 0, 0), (0, 5, 0, NO), FIVE),
    case("reserve", U, (0x24, 1, 0), (0, 0, 0, NO), U),
];

// Paper 01's listing on its ring of capacity 4: each call with its answer, head and length.
const LISTING: [((u8, u64, u64), (Answer, u64, u64)); 4] = [
    ((0x16, 0, 10), ((0, 0, 0, 0), 0, 1)),
    ((0x17, 0, 9), ((0, 0, 0, 3), 3, 2)),
    ((0x16, 0, 11), ((0, 0, 0, 1), 3, 3)),
    ((0x1b, 1, 0), ((0, 10, 1, 0), 3, 2)),
];

fn cases() -> impl Iterator<Item = &'static Case> {
    PAPER.iter().chain(&EMPTIED).chain(&REPORTED)
}

// The papers' cases as lines of a list, each with the right total.
pub fn write_papers(pen: &mut Pen) {
    for case in cases() {
        pen.set_first(case.from.0, case.from.1, case.from.2);
        let right = ops::find(case.call.0).and_then(|op| pen.desk.sums(op)[0]);
        pen.set_totals(right.unwrap_or(0), 0);
        pen.line(case.call.0, case.call.1, case.call.2);
    }
    pen.set_first(0, 0, &[0; 4]);
    pen.set_totals(0, 0);
    for (call, _) in &LISTING {
        pen.line(call.0, call.1, call.2);
    }
}

pub fn run() -> Result<(), String> {
    for case in cases() {
        let mut desk = placed(case.from.0, case.from.1, case.from.2.to_vec());
        let came = called(&mut desk, case.call)?;
        let to = (desk.first.head, desk.first.len, &desk.first.slots[..]);
        if came != case.answer || to != case.to {
            return Err(format!("case {}: the desk says {came:?} and leaves {to:?}; by hand it is {:?} and {:?}", case.name, case.answer, case.to));
        }
    }
    listing()?;
    let bytes = to_the_byte()?;
    let counts = shorter_side()?;
    let (found, none) = looked_for()?;
    let (totals, allowed, stored) = (by_hand::agree()?, allowance::agree()?, texts_by_hand::agree()?);
    let (changed, accepted) = texts::counted()?;
    let (twelve, other) = allowance::held()?;
    let list = fixed::input();
    let (of_total, of_allowance) = (wrong::noticed(&list)?, wrong_allowance::noticed(&list)?);
    let (of_text, of_kept) = (wrong_texts::noticed(&list)?, wrong_kept::noticed(&list)?);
    let (paper, emptied, reported) = (PAPER.len(), EMPTIED.len(), REPORTED.len());
    println!("oracle selfcheck: {paper} cases of paper 01, its listing, {emptied} of request 03, {reported} of request 10, {totals} of request 04, {allowed} of request 11,");
    println!("{stored} of request 08 and {bytes} answers to the byte agree with what was written by hand, {counts} counts of moves with the paper's formula for a ring, and {found} slots reported");
    println!("with where the entry is found; {none} calls report none, as they must; {twelve} calls with an allowance answer 12, by that formula, and {other} as without it;");
    println!("of {changed} texts with one byte changed {accepted} are accepted, as many as their digits allow;");
    println!("the fixed list notices each of {of_total} wrong rules of a total, {of_allowance} of an allowance, {of_text} of reading a text and {of_kept} of what text stays");
    Ok(())
}

pub fn placed(head: u64, len: u64, slots: Vec<u32>) -> Desk {
    let mut desk = Desk::default();
    (desk.first.head, desk.first.len, desk.first.slots) = (head, len, slots);
    desk
}

// Capacity, head and length of the small valid rings.
pub fn states() -> impl Iterator<Item = (u64, u64, u64)> {
    let all = (1..8u64).flat_map(|c| (0..c).flat_map(move |h| (0..=c).map(move |n| (c, h, n))));
    all.filter(|&(_, head, len)| len > 0 || head == 0)
}

// The desk counts moves entry by entry; for a ring the paper says what that comes to.
fn shorter_side() -> Result<usize, String> {
    let mut checked = 0;
    for (cap, head, len) in states() {
        for i in 0..=len {
            for (code, done, says) in [(0x1a, len < cap, i.min(len - i)), (0x1b, i < len, i.min((len - i).saturating_sub(1)))] {
                let mut desk = placed(head, len, (0..cap as u32).collect());
                let (number, _, moves, _) = called(&mut desk, (code, i, 1))?;
                if (number == 0) != done || done && moves != says {
                    return Err(format!("operation {code:02x} at {i}, capacity {cap}, head {head}, length {len}: {moves} moves counted, {says} by the formula"));
                }
                checked += done as usize;
            }
        }
    }
    Ok(checked)
}

// The desk works a slot out from a head; here the entry is looked for among the slots, of which no two hold the same number. Answers how many calls
// report a slot, and how many none.
fn looked_for() -> Result<(u64, u64), String> {
    let (mut found, mut none) = (0, 0);
    for (cap, head, len) in states() {
        for op in OPS.iter() {
            let places = if ops::has_position(op.act) { 0..=cap + 1 } else { 0..=0 };
            // up to the most that moves on 7 slots
            let allowed = if ops::plain(op.act).is_some() { 0..=3 } else { 0..=0 };
            for (i, allowance) in places.flat_map(|i| allowed.clone().map(move |k| (i, k))) {
                let mut before = placed(head, len, (0x10..).take(cap as usize).collect());
                before.front = allowance;
                let reports = one_found(&before, op, i).map_err(|says| format!("{} {i}, capacity {cap}, head {head}, length {len}: {says}", op.name))?;
                *(if reports { &mut found } else { &mut none }) += 1;
            }
        }
    }
    Ok((found, none))
}

// Whether the call reports a slot: the one that holds the entry, after the call or before it.
fn one_found(before: &Desk, op: &Op, i: u64) -> Result<bool, String> {
    let entry = 0x99;
    let mut after = before.clone();
    (after.second.slots, after.back) = (vec![0; 8], before.first.len);
    let (number, value, _, slot) = called(&mut after, (op.code, i, entry as u64))?;
    let holds = match op.code {
        // reads; then writes, pushes and inserts; then pops and removes
        0x13 | 0x23 => Some((&after, value)),
        0x15 | 0x16 | 0x17 | 0x1a | 0x25 | 0x26 | 0x2a | 0x90 => Some((&after, entry)),
        0x18 | 0x19 | 0x1b | 0x27 | 0x29 | 0x2b | 0x91 => Some((before, value)),
        _ => None,
    };
    let says = match holds.filter(|_| number == 0) {
        Some((desk, x)) => desk.first.slots.iter().position(|&y| y == x).map(|k| k as u64),
        None => Some(NO),
    };
    if says == Some(slot) { Ok(slot != NO) } else { Err(format!("slot {slot} is reported, and {says:?} it must be")) }
}

fn listing() -> Result<(), String> {
    let mut desk = placed(0, 0, vec![0; 4]);
    for (k, (call, says)) in LISTING.iter().enumerate() {
        let came = (called(&mut desk, *call)?, desk.first.head, desk.first.len);
        if came != *says {
            return Err(format!("paper 01, line {} of the listing: the desk says {came:?}, the paper {says:?}", k + 1));
        }
    }
    Ok(())
}

// Number, value, moves and slot, read back from what is printed.
pub fn called(desk: &mut Desk, (code, a, b): (u8, u64, u64)) -> Result<Answer, String> {
    let mut out = Vec::new();
    let taken = desk.take_numbers(code, a, b, &mut out);
    let text = String::from_utf8(out).map_err(|e| e.to_string())?;
    let fields: Option<Vec<u64>> = text.lines().next().map(|line| line.split(' ').map_while(|x| u64::from_str_radix(x, 16).ok()).collect());
    match (taken, fields.as_deref()) {
        (Taken::Called(_, number, ..), Some(&[n, value, moves, _, _, _, _, _, _, slot, _, _])) if n == number as u64 => Ok((number, value as u32, moves, slot)),
        _ => Err(format!("the desk printed {text:?} for operation {code:02x}")),
    }
}

// Lines with what they print, both written by hand: `_` stands for ten 0, so that they can be read.
const BYTES: [(&str, &str); 82] = [
    ("01_000004_000000", ""),
    ("02_0000002_0000003", "! not 34 lower-case hexadecimal digits\n"),
    ("02_000002_000003", ""),
    ("03_000000_00000b", ""),
    ("03_000001_0000ff", ""),
    ("03_000002_000009", ""),
    ("03_000003_00000a", ""),
    ("04_000002_000000", ""),
    ("06_000001_0000ee", ""),
    ("06_000002_000000", "! out of reach\n"),
    ("0c_000002_000000", "! no such operation\n"),
    ("03_000002_00000A", "! not 34 lower-case hexadecimal digits\n"),
    // the first's total is right, 30; T's is wrong by 5
    ("08_00001e_000001", ""),
    ("09_000005_000001", ""),
    ("08_000002_00000A", "! not 34 lower-case hexadecimal digits\n"),
    // W with a stale free slot: insert 1, 8
    ("1a_000001_000008", "00 00000000 _000001 _000001 _000004 _000000 _000000 _000000 _000000 0002 _000026 _000005\n0000000b\n00000009\n00000008\n0000000a\n00000000\n000000ee\n"),
    // split_off 3 leaves 0 where the last, 11, stood, and the other slot of T is kept
    ("41_000003_000000", "00 00000000 _000000 _000001 _000003 _000000 _000001 _000000 _000000 ffff _00001b _000010\n00000000\n00000009\n00000008\n0000000a\n0000000b\n000000ee\n"),
    ("41_000003_000000", "05 00000000 _000000 _000001 _000003 _000000 _000001 _000000 _000000 ffff _00001b _000010\n00000000\n00000009\n00000008\n0000000a\n0000000b\n000000ee\n"),
    ("61_000000_000000", "00 00000000 _000000 _000001 _000003 _000000 _000001 _000000 _000003 ffff _00001b _000010\n00000000\n00000009\n00000008\n0000000a\n0000000b\n000000ee\n"),
    ("63_000000_000000", "00 0000000a _000000 _000001 _000003 _000000 _000001 _000000 _000002 ffff _00001b _000010\n00000000\n00000009\n00000008\n0000000a\n0000000b\n000000ee\n"),
    ("65_000001_000000", "00 00000009 _000000 _000001 _000003 _000000 _000001 _000000 _000002 ffff _00001b _000010\n00000000\n00000009\n00000008\n0000000a\n0000000b\n000000ee\n"),
    ("05_000009_000000", ""),
    // from_iter, of 9 and 8: T is a vector, so its head 9 is not looked at
    ("66_000000_000000", "00 00000000 _000000 _000001 _000003 _000000 _000002 _000002 _000002 ffff _00001b _000021\n00000000\n00000009\n00000008\n0000000a\n00000009\n00000008\n"),
    ("62_000000_000000", "04 00000000 _000000 _000001 _000003 _000000 _000002 _000002 _000002 ffff _00001b _000021\n00000000\n00000009\n00000008\n0000000a\n00000009\n00000008\n"),
    // no room for two more: both stay whole
    ("40_000000_000000", "06 00000000 _000000 _000001 _000003 _000000 _000002 _000002 _000002 ffff _00001b _000021\n00000000\n00000009\n00000008\n0000000a\n00000009\n00000008\n"),
    ("01_000001_000000", ""),
    ("02_000000_000001", ""),
    ("80_00001a_000000", "00 0000001a _000000 _000000 _000001 _000000 _000002 _000002 _000002 ffff _000000 _000021\n00000000\n00000009\n00000008\n0000000100000001\n00000000\n\n"),
    ("81_00001b_000000", "00 0000001a _000000 _000000 _000001 _000000 _000002 _000002 _000002 ffff _000000 _000021\n00000000\n00000009\n00000008\n0100000100000001\n00000000\n-\n"),
    ("08ffffffffffffffff_000000", ""),
    ("80_000003_000000", "06 00000000 _000000 _000000 _000001 _000000 _000002 _000002 _000002 ffff ffffffffffffffff _000021\n00000000\n00000009\n00000008\n---\n"),
    ("3c_000000_000007", "00 00000001 _000000 _000000 _000001 _000000 _000002 _000002 _000002 ffff ffffffffffffffff _000021\n00000007\n00000009\n00000008\n00000000\n"),
    // a refused making leaves no total
    ("11_000002_000000", "06 00000000 _000000 _000000 _000000 _000000 _000002 _000002 _000002 ffff _000000 _000021\n00000007\n00000009\n00000008\n"),
    ("2f_000001_000000", "00 00000000 _000000 _000000 _000001 _000000 _000002 _000002 _000002 ffff _000009 _000021\n00000009\n00000009\n00000008\n"),
    // 8, 9 from slot 2 of three, and from slot 1 of two: the same rings, whatever the totals; read as a vector the second holds 9, 8 at first
    ("01_000003_000000", ""),
    ("02_000002_000002", ""),
    ("03_000000_000009", ""),
    ("03_000002_000008", ""),
    ("05_000001_000002", ""),
    ("43_000000_000000", "00 00000001 _000000 _000002 _000002 _000001 _000002 _000002 _000002 ffff _000000 _000021\n00000009\n00000000\n00000008\n00000009\n00000008\n"),
    ("44_000000_000000", "00 00000000 _000000 _000002 _000002 _000000 _000002 _000002 _000002 ffff _000000 _000021\n00000009\n00000000\n00000008\n00000009\n00000008\n"),
    ("43_000000_000000", "00 00000000 _000000 _000002 _000002 _000000 _000002 _000002 _000002 ffff _000000 _000021\n00000009\n00000000\n00000008\n00000009\n00000008\n"),
    ("06_000000_000008", ""),
    ("06_000001_000009", ""),
    ("44_000000_000000", "00 00000001 _000000 _000002 _000002 _000000 _000002 _000002 _000002 ffff _000000 _000021\n00000009\n00000000\n00000008\n00000008\n00000009\n"),
    // as vectors the first holds 9, 0
    ("53_000000_000000", "00 00000000 _000000 _000000 _000002 _000000 _000002 _000002 _000002 ffff _000000 _000021\n00000009\n00000000\n00000008\n00000008\n00000009\n"),
    // 0 less the 9 that goes, plus the 2 that comes; then the second's slots are placed anew, and its total with them
    ("25_000000_000002", "00 00000009 _000000 _000000 _000002 _000000 _000002 _000002 _000002 0000 fffffffffffffff9 _000021\n00000002\n00000000\n00000008\n00000008\n00000009\n"),
    ("04_000001_000000", ""),
    ("26_000000_000007", "00 00000000 _000000 _000000 _000003 _000000 _000000 _000002 _000002 0002 _000000 _000000\n00000002\n00000000\n00000007\n00000000\n"),
    // 2, 0, 7 in three slots: with none allowed the middle one stays, with one it goes, and 5 comes in its place; then there is no room, whatever is allowed
    ("07_000000_000009", ""),
    ("91_000001_000000", "0c 00000000 _000000 _000000 _000003 _000000 _000000 _000000 _000009 ffff _000000 _000000\n00000002\n00000000\n00000007\n00000000\n"),
    ("07_000001_000009", ""),
    ("91_000001_000000", "00 00000000 _000001 _000000 _000002 _000000 _000000 _000001 _000009 0001 _000000 _000000\n00000002\n00000007\n00000000\n00000000\n"),
    ("90_0000011_00000", "! out of reach\n"),
    ("90_000001_000005", "00 00000000 _000001 _000000 _000003 _000000 _000000 _000001 _000009 0001 _000005 _000000\n00000002\n00000005\n00000007\n00000000\n"),
    ("07ffffffffffffffff_000009", ""),
    ("90_000001_000005", "06 00000000 _000000 _000000 _000003 _000000 _000000 ffffffffffffffff _000009 ffff _000005 _000000\n00000002\n00000005\n00000007\n00000000\n"),
    // one slot is written as a ring and stays on the desk: it is a ring's text and no vector's, and it is read into one slot alone
    ("01_000001_000000", ""),
    ("02_000000_000001", ""),
    ("03_000000_00000a", ""),
    ("08_000005_000000", ""),
    ("80_00001a_000000", "00 0000001a _000000 _000000 _000001 _000000 _000000 ffffffffffffffff _000009 ffff _000005 _000000\n0000000a\n00000000\n0000000100000001\n0000000a\n\n"),
    ("03_000000_00000c", ""),
    ("84_000000_000000", "00 00000001 _000000 _000000 _000001 _000000 _000000 ffffffffffffffff _000009 ffff _000005 _000000\n0000000c\n00000000\n"),
    ("84_000001_000000", "00 00000000 _000000 _000000 _000001 _000000 _000000 ffffffffffffffff _000009 ffff _000005 _000000\n0000000c\n00000000\n"),
    ("83_000000_000000", "0e 00000000 _000000 _000000 _000000 _000000 _000000 ffffffffffffffff _000009 ffff _000000 _000000\n0000000c\n00000000\n"),
    ("82_000000_000000", "00 00000000 _000000 _000000 _000001 _000000 _000000 ffffffffffffffff _000009 ffff _00000a _000000\n0000000a\n00000000\n"),
    // 02 would be a length above the capacity; a byte that isn't there and a number that is no byte change nothing
    ("0b_00000f_000032", ""),
    ("82_000000_000000", "0e 00000000 _000000 _000000 _000000 _000000 _000000 ffffffffffffffff _000009 ffff _000000 _000000\n0000000a\n00000000\n"),
    ("0b_00000f_000031", ""),
    ("0b_00000f_000100", "! out of reach\n"),
    ("0b_00001a_000000", "! out of reach\n"),
    ("0b_0000000_000000", "! not 34 lower-case hexadecimal digits\n"),
    ("0a_009c41_000000", "! out of reach\n"),
    ("84_000000_000000", "00 00000001 _000000 _000000 _000000 _000000 _000000 ffffffffffffffff _000009 ffff _000000 _000000\n0000000a\n00000000\n"),
    ("01_000002_000000", ""),
    ("82_000000_000000", "06 00000000 _000000 _000000 _000000 _000000 _000000 ffffffffffffffff _000009 ffff _000000 _000000\n00000000\n00000000\n00000000\n"),
    // its last byte gone, and in its place a dash: what was there does not come back
    ("0a_000019_000000", ""),
    ("0a_00001a_000000", ""),
    ("84_000000_000000", "00 00000000 _000000 _000000 _000000 _000000 _000000 ffffffffffffffff _000009 ffff _000000 _000000\n00000000\n00000000\n00000000\n"),
    ("0b_000019_00000a", ""),
    ("84_000000_000000", "00 00000001 _000000 _000000 _000000 _000000 _000000 ffffffffffffffff _000009 ffff _000000 _000000\n00000000\n00000000\n00000000\n"),
];

fn to_the_byte() -> Result<usize, String> {
    let mut desk = Desk::default();
    for (line, says) in BYTES {
        let (line, says) = (line.replace('_', "0000000000"), says.replace('_', "0000000000"));
        let mut came = Vec::new();
        desk.take(line.as_bytes(), &mut came);
        if came != says.as_bytes() {
            return Err(format!("line {line}: the desk prints\n{}by hand it is\n{says}", String::from_utf8_lossy(&came)));
        }
    }
    Ok(BYTES.iter().filter(|(_, says)| !says.is_empty()).count())
}
