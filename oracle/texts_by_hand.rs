// Request 08: texts and what must be answered when they are read or checked, written by hand.
use crate::pen::Pen;
use crate::rules::MOST;
use crate::selfcheck::{self, Answer, Tray, NO};

struct Case {
    name: &'static str,
    text: &'static str,
    call: (u8, u64), // the second is a check's kind number
    lent: &'static [u32],
    answer: Answer,
    to: Tray,
    total: u64,
}

const fn case(name: &'static str, text: &'static str, call: (u8, u64), lent: &'static [u32], answer: Answer, to: Tray, total: u64) -> Case {
    Case { name, text, call, lent, answer, to, total }
}

// A reading that is refused leaves an empty container with no total, and the slots that were lent.
const fn no(name: &'static str, text: &'static str, code: u8, lent: &'static [u32], number: u8) -> Case {
    case(name, text, (code, 0), lent, (number, 0, 0, NO), (0, 0, lent), 0)
}

// A check leaves the desk: head, length and total as they were placed.
const fn says(name: &'static str, text: &'static str, kind: u64, value: u32) -> Case {
    case(name, text, (0x84, kind), THREE, (0, value, 0, NO), (HEAD, LEN, THREE), TOTAL)
}

// The state and the total that are on the desk before each.
const HEAD: u64 = 1;
const LEN: u64 = 2;
const TOTAL: u64 = 99;

const NONE: &[u32] = &[];
const ONE: &[u32] = &[77];
const TWO: &[u32] = &[77, 78];
const THREE: &[u32] = &[77, 78, 79];
const FOUR: &[u32] = &[77, 78, 79, 80];
const FIVE: &[u32] = &[77, 78, 79, 80, 81];
const DONE: Answer = (0, 0, 0, NO);
const RING: (u8, u64) = (0x82, 0);
const VECTOR: (u8, u64) = (0x83, 0);

const W: &str = "0000000400020003\n0000000b\n00000000\n00000009\n0000000a\n"; // paper 01's W: 9, 10, 11
const U: &str = "0100000400000003\n00000001\n00000002\n00000003\n00000009\n"; // its U: 1, 2, 3
const OLDER: &str = "0000000200010000\n00000003\n00000006\n"; // case j before request 03: the last entry went, and the head stayed
const MAIL: &str = "0000000400020003\r\n0000000b\r\n00000000\r\n00000009\r\n0000000a\r\n";

const CASES: [Case; 64] = [
    // rings that are read
    case("W", W, RING, FOUR, DONE, (2, 3, &[11, 0, 9, 10]), 30),
    case("no slots", "0000000000000000\n", RING, NONE, DONE, (0, 0, &[]), 0),
    case("one entry", "0000000100000001\n00000006\n", RING, ONE, DONE, (0, 1, &[6]), 6),
    case("an empty ring keeps what its slot shows", "0000000100000000\n00000006\n", RING, ONE, DONE, (0, 0, &[6]), 0),
    case("an older text", OLDER, RING, TWO, DONE, (0, 0, &[3, 6]), 0),
    case("an older text, the last head", "0000000300020000\n00000003\n00000006\n00000007\n", RING, THREE, DONE, (0, 0, &[3, 6, 7]), 0),
    case("the greatest entries", "0000000200010002\nffffffff\nffffffff\n", RING, TWO, DONE, (1, 2, &[u32::MAX, u32::MAX]), 8_589_934_590),
    case("a free slot does not count", "0000000200010001\nffffffff\n00000005\n", RING, TWO, DONE, (1, 1, &[u32::MAX, 5]), 5),
    // into other slots
    no("W into three slots", W, 0x82, THREE, 6),
    no("W into five slots", W, 0x82, FIVE, 6),
    no("W into none", W, 0x82, NONE, 6),
    no("none into one", "0000000000000000\n", 0x82, ONE, 6),
    no("an older text into three", OLDER, 0x82, THREE, 6),
    no("W damaged, into three slots", "0000000400020003\n0000000b\n00000000\n00000009\n0000000g\n", 0x82, THREE, 14),
    // not quite the text
    no("nothing at all", "", 0x82, NONE, 14),
    no("LF alone", "\n", 0x82, NONE, 14),
    no("W without its last LF", "0000000400020003\n0000000b\n00000000\n00000009\n0000000a", 0x82, FOUR, 14),
    no("W with one more LF", "0000000400020003\n0000000b\n00000000\n00000009\n0000000a\n\n", 0x82, FOUR, 14),
    no("W with one more line", "0000000400020003\n0000000b\n00000000\n00000009\n0000000a\n00000000\n", 0x82, FOUR, 14),
    no("W with a line less", "0000000400020003\n0000000b\n00000000\n00000009\n", 0x82, FOUR, 14),
    no("W, lines ended by CR LF", MAIL, 0x82, FOUR, 14),
    no("W, an upper-case digit", "0000000400020003\n0000000B\n00000000\n00000009\n0000000a\n", 0x82, FOUR, 14),
    no("W, an upper-case digit in the free slot", "0000000400020003\n0000000b\n0000000A\n00000009\n0000000a\n", 0x82, FOUR, 14),
    no("W, a space", "0000000400020003\n       b\n00000000\n00000009\n0000000a\n", 0x82, FOUR, 14),
    no("W, a colon, the byte after 9", "0000000400020003\n0000000b\n00000000\n0000000:\n0000000a\n", 0x82, FOUR, 14),
    no("W, a space in the place of LF", "0000000400020003 0000000b\n00000000\n00000009\n0000000a\n", 0x82, FOUR, 14),
    no("W, digits in the place of LF", "0000000400020003\n0000000b0000000000\n00000009\n0000000a\n", 0x82, FOUR, 14),
    // another kind or form
    no("U as a ring", U, 0x82, FOUR, 14),
    no("kind 02", "0200000100000001\n00000006\n", 0x82, ONE, 14),
    no("kind 10", "1000000100000001\n00000006\n", 0x82, ONE, 14),
    no("second byte 01", "0001000100000001\n00000006\n", 0x82, ONE, 14),
    no("second byte 02", "0002000100000001\n00000006\n", 0x82, ONE, 14),
    // states of no valid ring
    no("a head where there are no slots", "0000000000010000\n", 0x82, NONE, 14),
    no("an entry where there are no slots", "0000000000000001\n", 0x82, NONE, 14),
    no("empty, head at the capacity", "0000000200020000\n00000003\n00000006\n", 0x82, TWO, 14),
    no("empty, head at the capacity of one", "0000000100010000\n00000006\n", 0x82, ONE, 14),
    no("head at the capacity", "0000000200020001\n00000003\n00000006\n", 0x82, TWO, 14),
    no("head far above", "0000000201000001\n00000003\n00000006\n", 0x82, TWO, 14),
    no("length above the capacity", "0000000200000003\n00000003\n00000006\n", 0x82, TWO, 14),
    no("more lines than the capacity", "0000000100000001\n00000003\n00000006\n", 0x82, TWO, 14),
    // vectors
    case("U", U, VECTOR, FOUR, DONE, (0, 3, &[1, 2, 3, 9]), 6),
    case("a vector without slots", "0100000000000000\n", VECTOR, NONE, DONE, (0, 0, &[]), 0),
    case("a full vector", "0100000100000001\nffffffff\n", VECTOR, ONE, DONE, (0, 1, &[u32::MAX]), 4_294_967_295),
    case("an empty vector", "0100000200000000\n00000003\nfffffff6\n", VECTOR, TWO, DONE, (0, 0, &[3, 0xffff_fff6]), 0),
    no("U into three slots", U, 0x83, THREE, 6),
    no("U into five slots", U, 0x83, FIVE, 6),
    no("W as a vector", W, 0x83, FOUR, 14),
    no("a vector with a head", "0100000400010003\n00000001\n00000002\n00000003\n00000009\n", 0x83, FOUR, 14),
    no("an empty vector with a head", "0100000200010000\n00000003\n00000006\n", 0x83, TWO, 14),
    no("an older text as a vector", OLDER, 0x83, TWO, 14),
    no("a vector's length above the capacity", "0100000200000003\n00000003\n00000006\n", 0x83, TWO, 14),
    no("a vector, second byte 02", "0102000100000001\n00000006\n", 0x83, ONE, 14),
    // the check
    says("W as a ring", W, 0, 1),
    says("W as a vector", W, 1, 0),
    says("W as a 2", W, 2, 0),
    says("W as a 256", W, 256, 0),
    says("W as a 2^32", W, 1 << 32, 0),
    says("U as a vector", U, 1, 1),
    says("U as a ring", U, 0, 0),
    says("U as a 257", U, 257, 0),
    says("U as the greatest", U, u64::MAX, 0),
    says("an older text, checked", OLDER, 0, 1),
    says("nothing at all, checked", "", 0, 0),
    says("W by mail, checked", MAIL, 0, 0),
];

// Into 4,097 slots: 1 comes before all else.
const ABOVE: [(u8, &str); 4] = [(0x82, W), (0x82, MAIL), (0x83, U), (0x83, W)];

// The cases as lines of a list.
pub fn write(pen: &mut Pen) {
    for case in &CASES {
        pen.set_first(HEAD, LEN, case.lent);
        pen.set_totals(TOTAL, 7);
        pen.set_text(case.text.as_bytes());
        pen.line(case.call.0, case.call.1, 0);
    }
    for (code, text) in ABOVE {
        pen.line(1, MOST + 1, 0);
        pen.line(2, HEAD, LEN);
        pen.set_totals(TOTAL, 7);
        pen.set_text(text.as_bytes());
        pen.line(code, 0, 0);
    }
}

// How many agree.
pub fn agree() -> Result<usize, String> {
    for case in &CASES {
        let mut desk = selfcheck::placed(HEAD, LEN, case.lent.to_vec());
        (desk.first.total, desk.front, desk.back, desk.text) = (TOTAL, 3, 5, case.text.as_bytes().to_vec());
        let came = selfcheck::called(&mut desk, (case.call.0, case.call.1, 0))?;
        let to = (desk.first.head, desk.first.len, &desk.first.slots[..]);
        let rest = (desk.first.total, desk.front, desk.back, desk.text == case.text.as_bytes());
        if came != case.answer || to != case.to || rest != (case.total, 3, 5, true) {
            return Err(format!("request 08, {}: the desk says {came:?} and leaves {to:?} and {rest:?}; by hand it is {:?}, {:?} and {}", case.name, case.answer, case.to, case.total));
        }
    }
    for (code, text) in ABOVE {
        let mut desk = selfcheck::placed(HEAD, LEN, vec![0; MOST as usize + 1]);
        (desk.first.total, desk.text) = (TOTAL, text.as_bytes().to_vec());
        let came = selfcheck::called(&mut desk, (code, 0, 0))?;
        if came != (1, 0, 0, NO) || (desk.first.head, desk.first.len, desk.first.total) != (0, 0, 0) {
            return Err(format!("request 08, into 4,097 slots: the desk says {came:?}"));
        }
    }
    Ok(CASES.len() + ABOVE.len())
}
