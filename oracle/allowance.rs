// Request 11: insertions and removals with an allowance of moves, written by hand; what is allowed in the other cases; and 12 by the paper's formula on every
// small ring.
use crate::desk::Desk;
use crate::ops::{self, Act, Op, OPS};
use crate::pen::Pen;
use crate::rules::TOO_MANY_MOVES;
use crate::selfcheck::{self, Answer, Tray, NO};

struct Case {
    name: &'static str,
    from: Tray,
    call: (u8, u64, u64),
    allowance: u64,
    answer: Answer,
    to: Tray,
    totals: [u64; 2], // of the ring, before and after
}

const W: Tray = (2, 3, &[11, 0, 9, 10]); // 9, 10, 11: 30
const FULL: Tray = (2, 4, &[11, 8, 9, 10]); // 9, 10, 11, 8: 38
const FIVE: Tray = (4, 5, &[3, 4, 5, 9, 1, 2]); // 1 to 5: 15, and 9 in the free slot
const SEVEN: Tray = (0, 7, &[1, 2, 3, 4, 5, 6, 7, 9]); // 28
const LAST: Tray = (3, 1, &[5, 6, 7, 9]);
const FREE: Tray = (0, 0, &[5, 6]);
const NONE: Tray = (0, 0, &[]);
const TURNED: Tray = (1, 0, &[5, 6, 7, 8]); // these two are no valid rings
const OVER: Tray = (0, 5, &[1, 2, 3, 4]);
const TWELVE: Answer = (12, 0, 0, NO);
const BEYOND: Answer = (3, 0, 0, NO);
const INVALID: Answer = (1, 0, 0, NO);
const NO_ROOM: Answer = (6, 0, 0, NO);
const TOP: u64 = u64::MAX;

const fn case(name: &'static str, from: Tray, call: (u8, u64, u64), allowance: u64, answer: Answer, to: Tray, totals: [u64; 2]) -> Case {
    Case { name, from, call, allowance, answer, to, totals }
}

const CASES: [Case; 54] = [
    // one moves, on either side
    case("insert, none allowed", W, (0x90, 1, 8), 0, TWELVE, W, [30, 30]),
    case("insert, one allowed", W, (0x90, 1, 8), 1, (0, 0, 1, 2), (1, 4, &[11, 9, 8, 10]), [30, 38]),
    case("insert, two allowed", W, (0x90, 1, 8), 2, (0, 0, 1, 2), (1, 4, &[11, 9, 8, 10]), [30, 38]),
    case("insert, all allowed", W, (0x90, 2, 8), TOP, (0, 0, 1, 0), (2, 4, &[8, 11, 9, 10]), [30, 38]),
    case("insert, 2^32 allowed", W, (0x90, 2, 8), 1 << 32, (0, 0, 1, 0), (2, 4, &[8, 11, 9, 10]), [30, 38]),
    case("remove, none allowed", W, (0x91, 1, 0), 0, TWELVE, W, [30, 30]),
    case("remove, one allowed", W, (0x91, 1, 0), 1, (0, 10, 1, 3), (2, 2, &[0, 0, 9, 11]), [30, 20]),
    case("remove, two allowed", W, (0x91, 1, 0), 2, (0, 10, 1, 3), (2, 2, &[0, 0, 9, 11]), [30, 20]),
    case("remove, all allowed", W, (0x91, 1, 0), TOP, (0, 10, 1, 3), (2, 2, &[0, 0, 9, 11]), [30, 20]),
    case("remove, 2^32 allowed", W, (0x91, 1, 0), 1 << 32, (0, 10, 1, 3), (2, 2, &[0, 0, 9, 11]), [30, 20]),
    // none moves, so that none need be allowed
    case("insert at the front", W, (0x90, 0, 8), 0, (0, 0, 0, 1), (1, 4, &[11, 8, 9, 10]), [30, 38]),
    case("insert at the end", W, (0x90, 3, 8), 0, (0, 0, 0, 1), (2, 4, &[11, 8, 9, 10]), [30, 38]),
    case("insert into an empty ring", FREE, (0x90, 0, 8), 0, (0, 0, 0, 0), (0, 1, &[8, 6]), [0, 8]),
    case("remove at the front", W, (0x91, 0, 0), 0, (0, 9, 0, 2), (3, 2, &[11, 0, 0, 10]), [30, 21]),
    case("remove at the end", W, (0x91, 2, 0), 0, (0, 11, 0, 0), (2, 2, &[0, 0, 9, 10]), [30, 19]),
    case("remove the only one", LAST, (0x91, 0, 0), 0, (0, 9, 0, 3), (0, 0, &[5, 6, 7, 0]), [9, 0]),
    // those before it shift, or those behind it, whichever are fewer: they alone count
    case("insert at 1 of five", FIVE, (0x90, 1, 7), 1, (0, 0, 1, 4), (3, 6, &[3, 4, 5, 1, 7, 2]), [15, 22]),
    case("insert at 1 of five, none allowed", FIVE, (0x90, 1, 7), 0, TWELVE, FIVE, [15, 15]),
    case("insert at 2 of five", FIVE, (0x90, 2, 7), 2, (0, 0, 2, 5), (3, 6, &[3, 4, 5, 1, 2, 7]), [15, 22]),
    case("insert at 2 of five, one allowed", FIVE, (0x90, 2, 7), 1, TWELVE, FIVE, [15, 15]),
    case("insert at 3 of five", FIVE, (0x90, 3, 7), 2, (0, 0, 2, 1), (4, 6, &[3, 7, 4, 5, 1, 2]), [15, 22]),
    case("insert at 3 of five, one allowed", FIVE, (0x90, 3, 7), 1, TWELVE, FIVE, [15, 15]),
    case("insert at 4 of five", FIVE, (0x90, 4, 7), 1, (0, 0, 1, 2), (4, 6, &[3, 4, 7, 5, 1, 2]), [15, 22]),
    case("insert at 4 of five, none allowed", FIVE, (0x90, 4, 7), 0, TWELVE, FIVE, [15, 15]),
    case("remove at 1 of five", FIVE, (0x91, 1, 0), 1, (0, 2, 1, 5), (5, 4, &[3, 4, 5, 9, 0, 1]), [15, 13]),
    case("remove at 1 of five, none allowed", FIVE, (0x91, 1, 0), 0, TWELVE, FIVE, [15, 15]),
    case("remove at 2 of five", FIVE, (0x91, 2, 0), 2, (0, 3, 2, 0), (4, 4, &[4, 5, 0, 9, 1, 2]), [15, 12]),
    case("remove at 2 of five, one allowed", FIVE, (0x91, 2, 0), 1, TWELVE, FIVE, [15, 15]),
    case("remove at 3 of five", FIVE, (0x91, 3, 0), 1, (0, 4, 1, 1), (4, 4, &[3, 5, 0, 9, 1, 2]), [15, 11]),
    case("remove at 3 of five, none allowed", FIVE, (0x91, 3, 0), 0, TWELVE, FIVE, [15, 15]),
    case("remove of a full ring, none allowed", FULL, (0x91, 2, 0), 0, TWELVE, FULL, [38, 38]),
    case("remove of a full ring", FULL, (0x91, 2, 0), 1, (0, 11, 1, 0), (2, 3, &[8, 0, 9, 10]), [38, 27]),
    // half of 8 - 1 is the most that a call on 8 slots moves
    case("insert at 3 of seven", SEVEN, (0x90, 3, 8), 3, (0, 0, 3, 2), (7, 8, &[2, 3, 8, 4, 5, 6, 7, 1]), [28, 36]),
    case("insert at 3 of seven, two allowed", SEVEN, (0x90, 3, 8), 2, TWELVE, SEVEN, [28, 28]),
    case("remove at 3 of seven", SEVEN, (0x91, 3, 0), 3, (0, 4, 3, 3), (0, 6, &[1, 2, 3, 5, 6, 7, 0, 9]), [28, 24]),
    case("remove at 3 of seven, two allowed", SEVEN, (0x91, 3, 0), 2, TWELVE, SEVEN, [28, 28]),
    // the plain call is refused, and so is this one, with the same number
    case("insert beyond", W, (0x90, 4, 8), 0, BEYOND, W, [30, 30]),
    case("insert far beyond", W, (0x90, TOP, 8), 0, BEYOND, W, [30, 30]),
    case("insert beyond, full", FULL, (0x90, 5, 8), 0, BEYOND, FULL, [38, 38]),
    case("insert, full", FULL, (0x90, 2, 8), 0, NO_ROOM, FULL, [38, 38]),
    case("insert, full, all allowed", FULL, (0x90, 2, 8), TOP, NO_ROOM, FULL, [38, 38]),
    case("insert, no slots", NONE, (0x90, 0, 8), 0, NO_ROOM, NONE, [0, 0]),
    case("insert, no list", OVER, (0x90, 2, 8), 0, INVALID, OVER, [10, 10]),
    case("insert, turned", TURNED, (0x90, 0, 8), 0, INVALID, TURNED, [0, 0]),
    case("remove beyond", W, (0x91, 3, 0), 0, BEYOND, W, [30, 30]),
    case("remove far beyond", W, (0x91, TOP, 0), 0, BEYOND, W, [30, 30]),
    case("remove, empty", FREE, (0x91, 0, 0), 0, BEYOND, FREE, [0, 0]),
    case("remove, no slots", NONE, (0x91, 0, 0), TOP, BEYOND, NONE, [0, 0]),
    case("remove, no list", OVER, (0x91, 2, 0), 0, INVALID, OVER, [10, 10]),
    case("remove, turned", TURNED, (0x91, 0, 0), 0, INVALID, TURNED, [0, 0]),
    // a wrong total stays as it is with 12, and else passes 2^64 or 0
    case("insert, wrong total, none allowed", W, (0x90, 1, 8), 0, TWELVE, W, [TOP, TOP]),
    case("insert, past 2^64", W, (0x90, 1, 8), 1, (0, 0, 1, 2), (1, 4, &[11, 9, 8, 10]), [TOP, 7]),
    case("remove, wrong total, none allowed", W, (0x91, 1, 0), 0, TWELVE, W, [4, 4]),
    case("remove, past 0", W, (0x91, 1, 0), 1, (0, 10, 1, 3), (2, 2, &[0, 0, 9, 11]), [4, TOP - 5]),
];

// The cases as lines of a list. The cursor's back is not looked at.
pub fn write(pen: &mut Pen) {
    for case in &CASES {
        pen.set_first(case.from.0, case.from.1, case.from.2);
        pen.set_totals(case.totals[0], 0);
        pen.set_cursor(case.allowance, !case.allowance);
        pen.line(case.call.0, case.call.1, case.call.2);
    }
}

// How many agree.
pub fn agree() -> Result<usize, String> {
    for case in &CASES {
        let mut desk = selfcheck::placed(case.from.0, case.from.1, case.from.2.to_vec());
        (desk.first.total, desk.front, desk.back) = (case.totals[0], case.allowance, 7);
        let came = selfcheck::called(&mut desk, case.call)?;
        let to = (desk.first.head, desk.first.len, &desk.first.slots[..]);
        let rest = (desk.first.total, desk.front, desk.back);
        if came != case.answer || to != case.to || rest != (case.totals[1], case.allowance, 7) {
            return Err(format!("request 11, {}: the desk says {came:?} and leaves {to:?} and {rest:?}; by hand it is {:?} and {:?}", case.name, case.answer, case.to));
        }
    }
    Ok(CASES.len())
}

pub fn calls() -> impl Iterator<Item = &'static Op> {
    OPS.iter().filter(|op| ops::plain(op.act).is_some())
}

pub fn plain(op: &Op) -> &'static Op {
    OPS.iter().find(|other| other.kind == op.kind && Some(other.act) == ops::plain(op.act)).unwrap()
}

// How many entries stand before place i, and behind it, once one is taken out there if it is a removal. Where there is no such place the second count wraps,
// as it would for a program that forgets the refusals.
pub fn sides(act: Act, len: u64, i: u64) -> (u64, u64) {
    let stay = len.wrapping_sub((act == Act::RemoveWithin) as u64);
    (i, stay.wrapping_sub(i))
}

// The fewer of them move.
pub fn count(act: Act, len: u64, i: u64) -> u64 {
    let (before, behind) = sides(act, len, i);
    before.min(behind)
}

// Every allowance about such a count, the most that a call on so many slots moves, and allowances that would pass for less if they were cut or had a sign.
pub fn about(cap: u64, count: u64) -> Vec<u64> {
    let most = cap.saturating_sub(1) / 2;
    let mut all = vec![0, count.saturating_sub(1), count, count.saturating_add(1), most, 1 << 32, 1 << 63, u64::MAX];
    all.sort();
    all.dedup();
    all
}

// On every small valid ring, at each place and with each allowance up to one that is never passed: 12 exactly where the call would be done and the paper's
// formula says more, else all that the plain call says and leaves. Answers how often it is 12, and how often not.
pub fn held() -> Result<(u64, u64), String> {
    let (mut twelve, mut other) = (0, 0);
    for (cap, head, len) in selfcheck::states() {
        let places = calls().flat_map(|op| (0..=len + 1).flat_map(move |i| (0..=4).map(move |allowance| (op, i, allowance))));
        for (op, i, allowance) in places {
            let mut desk = selfcheck::placed(head, len, (0x10..).take(cap as usize).collect());
            desk.front = allowance;
            let more = one_held(desk, op, i).map_err(|says| format!("{} {i}, {allowance} allowed, capacity {cap}, head {head}, length {len}: {says}", op.name))?;
            *(if more { &mut twelve } else { &mut other }) += 1;
        }
    }
    Ok((twelve, other))
}

// Whether it is 12.
fn one_held(mut desk: Desk, op: &Op, i: u64) -> Result<bool, String> {
    let (mut plain, before) = (desk.clone(), desk.clone());
    let says = selfcheck::called(&mut plain, (self::plain(op).code, i, 0x99))?;
    let came = selfcheck::called(&mut desk, (op.code, i, 0x99))?;
    let more = says.0 == 0 && count(op.act, before.first.len, i) > before.front;
    let (answer, left) = if more { ((TOO_MANY_MOVES, 0, 0, NO), before) } else { (says, plain) };
    if came == answer && desk == left { Ok(more) } else { Err(format!("{came:?} is answered, and it must be {answer:?}")) }
}
