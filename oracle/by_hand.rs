// Request 04: totals before and after a call, written by hand. A wrong one stays wrong by as much, and one that passes 2^64 or 0 goes on from the other side.
use crate::desk::{Desk, Taken};
use crate::pen::Pen;

type Tray = (u64, u64, &'static [u32]); // head, length, slots
struct Case {
    name: &'static str,
    trays: [Tray; 2], // the cursor runs over the whole first list
    call: (u8, u64, u64),
    number: u8,
    given: [u64; 2],
    left: [u64; 2],
}

const W: Tray = (2, 3, &[11, 0, 9, 10]); // a ring of 9, 10, 11: 30
const U: Tray = (0, 3, &[1, 2, 3, 9]); // a vector of 1, 2, 3: 6
const FULL: Tray = (0, 1, &[6]);
const NONE: Tray = (0, 0, &[]);
const FREE: Tray = (0, 0, &[4, 5, 6, 7]);
const ONE: Tray = (1, 1, &[8, 20]); // a ring of 20
const TWO: Tray = (0, 2, &[20, 30]); // 50, as a ring and as a vector
const LEAD: Tray = (0, 1, &[20, 8]); // a vector of 20
const OFF: Tray = (4, 0, &[0, 0, 0, 0]); // no valid ring
const OVER: Tray = (0, 5, &[1, 2, 3, 4]); // valid as neither
const BIG: u64 = u32::MAX as u64;
const TOP: u64 = u64::MAX;

const fn case(name: &'static str, trays: [Tray; 2], call: (u8, u64, u64), number: u8, given: [u64; 2], left: [u64; 2]) -> Case {
    Case { name, trays, call, number, given, left }
}

const CASES: [Case; 85] = [
    // one entry is put in
    case("push_back", [W, NONE], (0x16, 0, 5), 0, [30, 7], [35, 7]),
    case("push_back, wrong by 1", [W, NONE], (0x16, 0, 5), 0, [31, 7], [36, 7]),
    case("push_back, past 2^64", [W, NONE], (0x16, 0, 5), 0, [TOP, 7], [4, 7]),
    case("push_back of the greatest", [W, NONE], (0x16, 0, BIG), 0, [30, 7], [4_294_967_325, 7]),
    case("push_front, to 2^64", [W, NONE], (0x17, 0, 5), 0, [TOP - 4, 7], [0, 7]),
    case("push_back, full", [FULL, NONE], (0x16, 0, 5), 6, [8, 7], [8, 7]),
    case("push_back, invalid", [OFF, NONE], (0x16, 0, 5), 1, [8, 7], [8, 7]),
    case("push", [U, NONE], (0x26, 0, 5), 0, [6, 7], [11, 7]),
    case("push, past 2^64", [U, NONE], (0x26, 0, BIG), 0, [TOP, 7], [BIG - 1, 7]),
    case("insert", [W, NONE], (0x1a, 1, 8), 0, [30, 7], [38, 7]),
    case("insert, beyond", [W, NONE], (0x1a, 4, 8), 3, [30, 7], [30, 7]),
    case("insert into a vector", [U, NONE], (0x2a, 1, 8), 0, [TOP, 7], [7, 7]),
    // one is taken out
    case("pop_front", [W, NONE], (0x19, 0, 0), 0, [30, 7], [21, 7]),
    case("pop_front, of the last", [FULL, NONE], (0x19, 0, 0), 0, [7, 7], [1, 7]),
    case("pop_back, past 0", [W, NONE], (0x18, 0, 0), 0, [10, 7], [TOP, 7]),
    case("pop_back, to 0", [W, NONE], (0x18, 0, 0), 0, [11, 7], [0, 7]),
    case("pop_back, empty", [NONE, NONE], (0x18, 0, 0), 4, [12, 7], [12, 7]),
    case("pop", [U, NONE], (0x27, 0, 0), 0, [6, 7], [3, 7]),
    case("remove", [W, NONE], (0x1b, 1, 0), 0, [30, 7], [20, 7]),
    case("remove, past 0", [U, NONE], (0x2b, 1, 0), 0, [0, 7], [TOP - 1, 7]),
    case("swap_remove", [U, NONE], (0x29, 0, 0), 0, [6, 7], [5, 7]),
    case("swap_remove, past 0", [U, NONE], (0x29, 0, 0), 0, [0, 7], [TOP, 7]),
    // one for another
    case("write", [W, NONE], (0x15, 1, 15), 0, [30, 7], [35, 7]),
    case("write, past 2^64", [W, NONE], (0x15, 1, 15), 0, [TOP, 7], [4, 7]),
    case("write, past 0", [W, NONE], (0x15, 1, 3), 0, [2, 7], [TOP - 4, 7]),
    case("write of the same", [W, NONE], (0x15, 1, 10), 0, [TOP, 7], [TOP, 7]),
    case("write to a vector, past 2^64", [U, NONE], (0x25, 2, 5), 0, [TOP, 7], [1, 7]),
    case("write to a vector, past 0", [U, NONE], (0x25, 2, 0), 0, [1, 7], [TOP - 1, 7]),
    case("write, beyond", [U, NONE], (0x25, 3, 5), 3, [9, 7], [9, 7]),
    // several
    case("truncate", [W, NONE], (0x1c, 1, 0), 0, [30, 7], [9, 7]),
    case("truncate, past 0", [U, NONE], (0x2c, 1, 0), 0, [4, 7], [TOP, 7]),
    case("truncate of nothing", [U, NONE], (0x2c, 5, 0), 0, [4, 7], [4, 7]),
    case("resize up", [FREE, NONE], (0x1d, 3, 8), 0, [1, 7], [25, 7]),
    case("resize up, past 2^64", [U, NONE], (0x2d, 4, 2), 0, [TOP, 7], [1, 7]),
    case("resize down", [W, NONE], (0x1d, 1, 8), 0, [30, 7], [9, 7]),
    case("resize down, past 0", [U, NONE], (0x2d, 1, 2), 0, [0, 7], [TOP - 4, 7]),
    case("resize, no room", [U, NONE], (0x2d, 5, 2), 6, [5, 7], [5, 7]),
    case("clear", [W, NONE], (0x1e, 0, 0), 0, [30, 7], [0, 7]),
    case("clear, wrong by 1", [W, NONE], (0x1e, 0, 0), 0, [31, 7], [1, 7]),
    case("clear, past 0", [U, NONE], (0x2e, 0, 0), 0, [0, 7], [TOP - 5, 7]),
    case("clear, invalid", [OFF, NONE], (0x1e, 0, 0), 1, [8, 7], [8, 7]),
    case("extend_from_slice", [U, FREE], (0x2f, 1, 0), 0, [6, 90], [10, 90]),
    case("extend_from_slice, past 2^64", [(0, 0, &[0, 0, 0]), FREE], (0x2f, 3, 0), 0, [TOP - 3, 90], [11, 90]),
    case("extend_from_slice, no room", [U, FREE], (0x2f, 2, 0), 6, [6, 90], [6, 90]),
    // makings
    case("new", [W, NONE], (0x10, 0, 0), 0, [30, 7], [0, 7]),
    case("with_capacity", [U, NONE], (0x21, 2, 0), 0, [77, 7], [0, 7]),
    case("with_capacity, no room", [U, NONE], (0x21, 5, 0), 6, [77, 7], [0, 7]),
    case("from_elem", [U, NONE], (0x28, 3, 7), 0, [77, 7], [21, 7]),
    case("from_elem of the greatest", [U, NONE], (0x28, 4, BIG), 0, [TOP, 7], [17_179_869_180, 7]),
    case("from_elem of none", [U, NONE], (0x28, 0, 7), 0, [77, 7], [0, 7]),
    case("from_elem, no room", [U, NONE], (0x28, 5, 7), 6, [77, 7], [0, 7]),
    // from one to the other
    case("append", [W, ONE], (0x40, 0, 0), 0, [30, 20], [50, 0]),
    case("append, both wrong", [W, ONE], (0x40, 0, 0), 0, [31, 100], [51, 80]),
    case("append, past 2^64 and past 0", [W, ONE], (0x40, 0, 0), 0, [TOP, 0], [19, TOP - 19]),
    case("append, no room", [W, TWO], (0x40, 0, 0), 6, [31, 100], [31, 100]),
    case("append, T invalid", [W, OFF], (0x40, 0, 0), 2, [31, 100], [31, 100]),
    case("append of a vector", [U, LEAD], (0x50, 0, 0), 0, [6, 100], [26, 80]),
    case("append of a vector, past 2^64 and past 0", [U, LEAD], (0x50, 0, 0), 0, [TOP - 19, 19], [0, TOP]),
    case("split_off", [W, FREE], (0x41, 1, 0), 0, [30, 0], [9, 21]),
    case("split_off, both wrong", [W, FREE], (0x41, 1, 0), 0, [20, 5], [TOP, 26]),
    case("split_off, past 2^64", [W, FREE], (0x41, 1, 0), 0, [30, TOP], [9, 20]),
    case("split_off, T not empty", [W, TWO], (0x41, 1, 0), 5, [20, 5], [20, 5]),
    case("split_off of a vector", [U, FREE], (0x51, 2, 0), 0, [0, TOP], [TOP - 2, 2]),
    case("clone", [W, FREE], (0x42, 0, 0), 0, [30, 0], [30, 30]),
    case("clone, both wrong", [W, FREE], (0x42, 0, 0), 0, [1, 5], [1, 35]),
    case("clone, past 2^64", [W, FREE], (0x42, 0, 0), 0, [30, TOP], [30, 29]),
    case("clone, no room", [W, NONE], (0x42, 0, 0), 6, [1, 5], [1, 5]),
    case("clone of a vector", [U, FREE], (0x52, 0, 0), 0, [9, TOP - 5], [9, 0]),
    case("from_iter", [W, FREE], (0x66, 0, 0), 0, [30, 5], [30, 35]),
    case("from_iter, past 2^64", [W, FREE], (0x66, 0, 0), 0, [2, TOP], [2, 29]),
    case("from_iter over a vector, past 2^64", [U, FREE], (0x76, 0, 0), 0, [9, TOP], [9, 5]),
    case("from_iter, T not empty", [U, TWO], (0x76, 0, 0), 5, [9, 3], [9, 3]),
    // calls that leave a total alone, though the last two change an entry
    case("same", [W, W], (0x43, 0, 0), 0, [30, 5], [30, 5]),
    case("same, an invalid one", [OVER, W], (0x43, 0, 0), 1, [3, 5], [3, 5]),
    case("same_as_vector", [W, U], (0x44, 0, 0), 0, [3, 5], [3, 5]),
    case("len", [W, FREE], (0x12, 0, 0), 0, [3, 5], [3, 5]),
    case("read", [W, FREE], (0x13, 1, 0), 0, [3, 5], [3, 5]),
    case("reserve", [W, FREE], (0x14, 1, 0), 0, [3, 5], [3, 5]),
    case("iter", [W, FREE], (0x60, 0, 0), 0, [3, 5], [3, 5]),
    case("step_front", [W, FREE], (0x62, 0, 0), 0, [3, 5], [3, 5]),
    case("peek_back", [W, FREE], (0x65, 1, 0), 0, [3, 5], [3, 5]),
    case("stored", [W, FREE], (0x80, 53, 0), 0, [3, 5], [3, 5]),
    case("as_slice", [U, FREE], (0x39, 0, 0), 0, [3, 5], [3, 5]),
    case("as_mut_slice", [U, FREE], (0x3c, 1, 50), 0, [6, 5], [6, 5]),
    case("deref_mut", [U, FREE], (0x3d, 0, 50), 0, [3, 5], [3, 5]),
];

// The cases as lines of a list.
pub fn write(pen: &mut Pen) {
    for case in &CASES {
        let [first, second] = case.trays;
        pen.set_first(first.0, first.1, first.2);
        pen.set_second(second.0, second.1, second.2);
        pen.set_cursor(0, first.1);
        pen.set_totals(case.given[0], case.given[1]);
        pen.line(case.call.0, case.call.1, case.call.2);
    }
}

// How many agree.
pub fn agree() -> Result<usize, String> {
    for case in &CASES {
        let mut desk = Desk::default();
        for (tray, of, total) in [(&mut desk.first, case.trays[0], case.given[0]), (&mut desk.second, case.trays[1], case.given[1])] {
            (tray.head, tray.len, tray.slots, tray.total) = (of.0, of.1, of.2.to_vec(), total);
        }
        desk.back = desk.first.len;
        let mut out = Vec::new();
        let taken = desk.take_numbers(case.call.0, case.call.1, case.call.2, &mut out);
        let printed = format!(" {:016x} {:016x}", case.left[0], case.left[1]);
        let ends = out.split(|&byte| byte == b'\n').next().is_some_and(|line| line.ends_with(printed.as_bytes()));
        if !ends || !matches!(taken, Taken::Called(_, number, ..) if number == case.number) {
            return Err(format!("request 04, {}: the desk prints\n{}by hand the answer is {} and the totals are{printed}", case.name, String::from_utf8_lossy(&out), case.number));
        }
    }
    Ok(CASES.len())
}
