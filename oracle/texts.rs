// Request 08: stored texts, whole and damaged, read back and checked. Texts are placed byte by byte or written by a call; before each reading the slots hold
// other numbers than the text, and their state and total, valid or not, have nothing to do with it.
use crate::desk::MOST_SLOTS;
use crate::ops::{Kind, Kind::*};
use crate::pen::Pen;
use crate::rng::Rng;
use crate::rules::{self, State, MOST};
use crate::stored;
use crate::totals;

// Kind, head, length, slots. Two are older texts: of an empty ring with another head.
type Text = (Kind, u64, u64, &'static [u32]);

const TEXTS: [Text; 21] = [
    (Ring, 0, 0, &[]),
    (Ring, 0, 0, &[6]),
    (Ring, 0, 1, &[0x1f]),
    (Ring, 0, 1, &[0xa, 0xb]),
    (Ring, 1, 2, &[0xcafe, 0xffff_ffff]),
    (Ring, 0, 0, &[0xdead, 0xbeef]),
    (Ring, 2, 2, &[0xffff_ffff, 0x9abc_def0, 0x1234_5678]),
    (Ring, 1, 0, &[0xa, 0, 0xfade]),
    (Ring, 2, 3, &[11, 0, 9, 10]),
    (Ring, 3, 1, &[5, 6, 7, 0x8000_0000]),
    (Ring, 3, 4, &[0xffff_ffff; 4]),
    (Ring, 0, 4, &[1, 0, 0xf, 0xff]),
    (Ring, 3, 0, &[1, 2, 3, 0xffff_ffff]),
    (Vector, 0, 0, &[]),
    (Vector, 0, 0, &[0xe]),
    (Vector, 0, 1, &[0xffff_ffff]),
    (Vector, 0, 1, &[0xabcd, 0xef]),
    (Vector, 0, 2, &[0xffff_ffff, 0x9abc_def0, 0x1234_5678]),
    (Vector, 0, 3, &[1, 2, 3, 9]),
    (Vector, 0, 4, &[0xffff_ffff, 0, 0x8000_0000, 0xa]),
    (Vector, 0, 0, &[0xb, 0xc, 0xd, 0xe]),
];

const LENT: u32 = 0xc0; // slot k holds LENT + k before a reading
// Those above 1 would pass for 0 or 1 if they were cut to fewer bits, or taken for a digit.
const KINDS: [u64; 15] = [
    0, 1, 2, 3, b'0' as u64, b'1' as u64, 255, 256, 257, 1 << 32, (1 << 32) + 1, 1 << 63, (1 << 63) + 1, u64::MAX - 1, u64::MAX,
];

pub fn code(kind: Kind) -> u8 {
    if kind == Ring { 0x82 } else { 0x83 }
}

fn other(kind: Kind) -> Kind {
    if kind == Ring { Vector } else { Ring }
}

// A text that has these numbers, whether or not a writer would write them.
fn form(kind: u64, second: u64, s: State, slots: &[u32]) -> Vec<u8> {
    let first = format!("{kind:02x}{second:02x}{:04x}{:04x}{:04x}\n", s.cap, s.head, s.len);
    slots.iter().fold(first, |text, x| format!("{text}{x:08x}\n")).into_bytes()
}

fn whole(&(kind, head, len, slots): &Text) -> Vec<u8> {
    form(kind as u64, 0, State { cap: slots.len() as u64, head, len }, slots)
}

fn lend(pen: &mut Pen, rng: &mut Rng, kind: Kind, cap: u64) {
    let slots: Vec<u32> = (0..cap as u32).map(|k| LENT + k).collect();
    if cap < 300 {
        let len = rng.below(cap + 2);
        let head = if len == 0 && !rng.one_in(4) { 0 } else { rng.below(cap + 1) };
        pen.set_first(head, len, &slots);
    } else {
        // each slot is 0
        pen.line(1, cap, rng.next());
        pen.line(2, rng.below(cap), rng.below(cap));
    }
    totals::place_as(pen, rng, [kind; 2]);
    if let Some(right) = pen.desk.first.sum(kind).filter(|_| rng.one_in(3)) {
        pen.set_totals(right, pen.desk.second.total);
    }
}

fn read(pen: &mut Pen, rng: &mut Rng, kind: Kind, cap: u64) {
    lend(pen, rng, kind, cap);
    pen.line(code(kind), rng.next(), rng.next());
}

fn check(pen: &mut Pen, rng: &mut Rng, kind: u64) {
    if rng.one_in(4) {
        totals::place_as(pen, rng, [Ring; 2]);
    }
    pen.line(0x84, kind, rng.next());
}

// The text is read into so many slots, and checked.
fn tried(pen: &mut Pen, rng: &mut Rng, kind: Kind, cap: u64, text: &[u8]) {
    pen.set_text(text);
    read(pen, rng, kind, cap);
    check(pen, rng, kind as u64);
}

pub fn every(pen: &mut Pen) {
    let mut rng = Rng::new(0x7e47);
    pen.set_second(1, 1, &[0x51, 0x52]);
    for of in &TEXTS {
        let (kind, text) = (of.0, whole(of));
        for (kind, text) in changes(kind, &text) {
            tried(pen, &mut rng, kind, of.3.len() as u64, &text);
        }
        for text in lengths(&text).into_iter().chain(shapes(&text)).chain(edits(&text)) {
            tried(pen, &mut rng, kind, of.3.len() as u64, &text);
        }
        lent(pen, &mut rng, kind, of.3.len() as u64, &text);
        pen.set_text(&text);
        for number in KINDS {
            check(pen, &mut rng, number);
        }
    }
    first_lines(pen, &mut rng);
    for kind in [Ring, Vector] {
        for cap in [MOST - 1, MOST] {
            most(pen, &mut rng, kind, cap);
        }
        write_large(pen, kind, MOST);
        one_more(pen);
        for slots in [0, MOST - 1, MOST, MOST + 1] {
            read(pen, &mut rng, kind, slots);
        }
        check(pen, &mut rng, kind as u64);
    }
    pen.set_first(0, 0, &[]);
}

// Every other byte at every place. The first four bytes say of what kind a text is: a reader and a check of the other kind see them too.
fn changes(kind: Kind, text: &[u8]) -> impl Iterator<Item = (Kind, Vec<u8>)> + '_ {
    let places = (0..text.len()).flat_map(|at| (0..=255).map(move |byte| (at, byte)));
    places.filter(|&(at, byte)| byte != text[at]).flat_map(move |(at, byte)| {
        let changed = [&text[..at], &[byte], &text[at + 1..]].concat();
        let kinds = if at < 4 { vec![kind, other(kind)] } else { vec![kind] };
        kinds.into_iter().map(move |kind| (kind, changed.clone()))
    })
}

// How many of these there are, and how many of them are a text again, which the digits tell: each of a slot may be one of 15 others, the head's last and the
// length's last must leave a state of some ring or vector, and the kind may be the other one where the head is 0. It is an error if `stored` counts otherwise.
pub fn counted() -> Result<(u64, u64), String> {
    let (mut all, mut texts) = (0, 0);
    for of @ (kind, head, _, slots) in &TEXTS {
        let (cap, text) = (slots.len() as u64, whole(of));
        let heads = if *kind == Ring { cap.saturating_sub(1) } else { 0 };
        let says = 8 * 15 * cap + heads + cap + (*head == 0) as u64;
        let came = changes(*kind, &text).filter(|(kind, text)| stored::told(*kind, text).is_some()).count() as u64;
        if came != says {
            return Err(format!("request 08: {came} changes of {} leave a text that is accepted, and it must be {says}", text.escape_ascii()));
        }
        (all, texts) = (all + changes(*kind, &text).count() as u64, texts + came);
    }
    Ok((all, texts))
}

// Every length up to two lines more; what follows the text are dashes, or more lines.
fn lengths(text: &[u8]) -> Vec<Vec<u8>> {
    let tails = [vec![b'-'; 18], b"00000000\n0000000a\n".to_vec()];
    let shorter = (0..text.len()).map(|n| text[..n].to_vec());
    shorter.chain(tails.iter().flat_map(|tail| (0..=18).map(|n| [text, &tail[..n]].concat()))).collect()
}

fn ends(text: &[u8]) -> Vec<usize> {
    (0..text.len()).filter(|&k| text[k] == b'\n').collect()
}

// Texts that a person or a program might take for the same, each with its name.
fn named(text: &[u8]) -> Vec<(&'static str, Vec<u8>)> {
    let with = |from: &str, to: &str| String::from_utf8_lossy(text).replace(from, to).into_bytes();
    let last = text.len() - 1;
    let lines: Vec<&[u8]> = text.split_inclusive(|&byte| byte == b'\n').collect();
    vec![
        ("as it is written", text.to_vec()),
        ("upper-case digits", text.to_ascii_uppercase()),
        ("CR LF", with("\n", "\r\n")),
        ("CR", with("\n", "\r")),
        ("no LF at all", with("\n", "")),
        ("no last LF", text[..last].to_vec()),
        ("no last LF, and a dash", [&text[..last], b"-"].concat()),
        ("LF LF at the end", [text, b"\n"].concat()),
        ("LF LF everywhere", with("\n", "\n\n")),
        ("a space at the end", [text, b" "].concat()),
        ("a NUL at the end", [text, b"\0"].concat()),
        ("a space at the front", [b" ", text].concat()),
        ("spaces for 0", with("0", " ")),
        ("a mark of the encoding at the front", [b"\xef\xbb\xbf", text].concat()),
        ("a line more", [text, b"00000000\n"].concat()),
        ("the last line missing", lines[..lines.len() - 1].concat()),
        ("the last line twice", [text, lines[lines.len() - 1]].concat()),
        ("the first line missing", lines[1..].concat()),
        ("twice", [text, text].concat()),
    ]
}

// These, and each end of a line by itself.
fn shapes(text: &[u8]) -> Vec<Vec<u8>> {
    let one = |k: usize, end: &[u8]| [&text[..k], end, &text[k + 1..]].concat();
    let each = ends(text).into_iter().flat_map(|k| [one(k, b"\r\n"), one(k, b"\n\n"), one(k, b"\n\r")]);
    named(text).into_iter().map(|(_, text)| text).chain(each).collect()
}

// A byte less at each place, a byte more, and two bytes exchanged.
fn edits(text: &[u8]) -> Vec<Vec<u8>> {
    let less = (0..text.len()).map(|k| [&text[..k], &text[k + 1..]].concat());
    let more = (0..=text.len()).flat_map(|k| b"\n\r01f \0-".iter().map(move |&byte| [&text[..k], &[byte], &text[k..]].concat()));
    let turned = (1..text.len()).map(|k| {
        let mut text = text.to_vec();
        text.swap(k - 1, k);
        text
    });
    less.chain(more).chain(turned).collect()
}

// The text, and one that is not acceptable, into other numbers of slots: 1 comes before 14, and 14 before 6.
fn lent(pen: &mut Pen, rng: &mut Rng, kind: Kind, cap: u64, text: &[u8]) {
    for text in [text, &text[..text.len() - 1]] {
        for slots in [0, cap.saturating_sub(1), cap, cap + 1, MOST, MOST + 1, MOST_SLOTS] {
            tried(pen, rng, kind, slots, text);
        }
    }
}

// Every state about the bounds, of texts of each kind and second byte: those that are read, older ones, and those that no writer writes.
fn first_lines(pen: &mut Pen, rng: &mut Rng) {
    for cap in 0..=4 {
        let about = || (0..=cap + 1).chain([0x100, 0xffff]);
        for (head, len) in about().flat_map(|head| about().map(move |len| (head, len))) {
            for (kind, second) in [0, 1, 2, 3, 0x10, 0x80, 0xff].into_iter().flat_map(|kind| [0, 1, 2, 0xff].map(|second| (kind, second))) {
                let slots: Vec<u32> = (0..cap as u32).map(|k| 0xe000_0001 + k).collect();
                let text = form(kind, second, State { cap, head, len }, &slots);
                tried(pen, rng, Ring, cap, &text);
                tried(pen, rng, Vector, cap, &text);
            }
        }
    }
}

// A large container, written by the call and read back: into each number of slots about the bounds, then damaged.
fn most(pen: &mut Pen, rng: &mut Rng, kind: Kind, cap: u64) {
    write_large(pen, kind, cap);
    for slots in [0, cap - 1, cap, cap + 1, MOST, MOST + 1] {
        read(pen, rng, kind, slots);
    }
    check(pen, rng, kind as u64);
    check(pen, rng, other(kind) as u64);
    let size = rules::text_length(cap);
    for at in [0, 3, 4, 11, 15, 16, 17, 17 + 9 * (cap / 2) + 8, size - 2, size - 1] {
        let byte = pen.desk.text[at as usize] as u64;
        for changed in [b'1' as u64, b'A' as u64, b'\r' as u64] {
            pen.line(0x0b, at, changed);
            read(pen, rng, kind, cap);
            check(pen, rng, kind as u64);
        }
        pen.line(0x0b, at, byte);
    }
    // an empty one, with each head about the bounds: an older text of a ring where that is below the capacity
    for head in [0, 1, cap - 1, cap] {
        for (k, byte) in format!("{head:04x}0000").bytes().enumerate() {
            pen.line(0x0b, 8 + k as u64, byte as u64);
        }
        read(pen, rng, kind, cap);
        check(pen, rng, kind as u64);
    }
}

fn write_large(pen: &mut Pen, kind: Kind, cap: u64) {
    pen.line(1, cap, 0);
    pen.line(2, if kind == Ring { cap - 3 } else { 0 }, cap - 2);
    for k in (0..9).chain(cap / 2 - 3..cap / 2 + 3).chain(cap - 9..cap) {
        pen.line(3, k, 0xffff_ffff - k);
    }
    pen.line(0x80 + kind as u8, rules::text_length(cap), 0);
}

// A text of 4,096 slots becomes one as if of 4,097: no container has so many.
fn one_more(pen: &mut Pen) {
    let size = rules::text_length(MOST + 1);
    pen.line(0x0a, size, 0);
    for (k, byte) in b"00000000\n".iter().enumerate() {
        pen.line(0x0b, size - 9 + k as u64, *byte as u64);
    }
    pen.line(0x0b, 7, b'1' as u64);
}

// Those of the fixed list.
pub fn few(pen: &mut Pen) {
    let mut rng = Rng::new(0xf08);
    for of in [&TEXTS[6], &TEXTS[7], &TEXTS[17]] {
        let (kind, cap, text) = (of.0, of.3.len() as u64, whole(of));
        for (_, text) in named(&text) {
            tried(pen, &mut rng, kind, cap, &text);
        }
        for slots in [0, cap - 1, cap + 1] {
            tried(pen, &mut rng, kind, slots, &text);
            tried(pen, &mut rng, kind, slots, &text[..text.len() - 1]);
        }
        pen.set_text(&text);
        for number in KINDS {
            check(pen, &mut rng, number);
        }
    }
    few_first_lines(pen, &mut rng);
    few_changes(pen, &mut rng);
    few_large(pen, &mut rng);
}

// Kind, second byte, head and length of texts of three slots.
fn few_first_lines(pen: &mut Pen, rng: &mut Rng) {
    let lines = [
        (2, 0, 1, 2), (0x10, 0, 0, 2), (0xff, 0, 0, 2), (0, 1, 1, 2), (0, 2, 1, 2), (1, 1, 0, 2), (1, 2, 0, 2), (0, 0, 2, 3), (0, 0, 3, 2), (0, 0, 4, 2), (0, 0, 3, 0),
        (0, 0, 2, 0), (0, 0, 0, 4), (1, 0, 0, 4), (1, 0, 1, 2), (1, 0, 1, 0), (1, 0, 0, 3), (0, 0, 0, 0), (1, 0, 0, 0), (0, 0, 0x100, 1), (1, 0, 0, 0x103),
    ];
    for (kind, second, head, len) in lines {
        let text = form(kind, second, State { cap: 3, head, len }, &[0xffff_fff0, 7, 0x1_0000]);
        tried(pen, rng, Ring, 3, &text);
        tried(pen, rng, Vector, 3, &text);
    }
}

fn few_changes(pen: &mut Pen, rng: &mut Rng) {
    for of in TEXTS.iter().filter(|of| of.3.len() < 4) {
        for _ in 0..4 {
            let mut text = whole(of);
            let at = rng.below(text.len() as u64) as usize;
            text[at] = rng.pick(b"0123456789abcdefABCF\n\r g/:`@-");
            tried(pen, rng, of.0, of.3.len() as u64, &text);
        }
    }
}

// Into 4,096 slots only where it matters, since a call prints all of them.
fn few_large(pen: &mut Pen, rng: &mut Rng) {
    for kind in [Ring, Vector] {
        write_large(pen, kind, MOST);
        read(pen, rng, kind, MOST);
        read(pen, rng, kind, 1);
        check(pen, rng, kind as u64);
        one_more(pen);
        read(pen, rng, kind, 1);
        check(pen, rng, kind as u64);
    }
}

// For random sequences: the desk's container is written and read back, the text as it was written or damaged, into slots that hold something else by then.
pub fn back(pen: &mut Pen, rng: &mut Rng, kind: Kind) {
    let cap = pen.desk.first.slots.len() as u64;
    if !rng.one_in(6) {
        let written = if rng.one_in(12) { other(kind) } else { kind };
        pen.line(0x80 + written as u8, rules::text_length(cap) + rng.below(12) / 11, rng.next());
    }
    damage(pen, rng);
    match rng.below(12) {
        0 => drop(pen.line(1, rng.pick(&[cap + 1, cap.saturating_sub(1), cap]).min(MOST_SLOTS), rng.next())),
        1..=8 => {
            for _ in 0..rng.below(4) {
                pen.line(3, rng.below(cap + 1), rng.next() >> 32);
            }
        }
        _ => {}
    }
    totals::place_as(pen, rng, [kind; 2]);
    pen.line(code(kind), rng.next(), rng.next());
    if rng.one_in(3) {
        let number = if rng.one_in(4) { rng.pick(&KINDS) } else { kind as u64 };
        check(pen, rng, number);
    }
}

fn damage(pen: &mut Pen, rng: &mut Rng) {
    let size = pen.desk.text.len() as u64;
    match rng.below(12) {
        // a byte of the first line; any byte
        0..=1 => drop(pen.line(0x0b, rng.below(17), rng.pick(b"000123456789abcdef\n") as u64)),
        2..=3 => drop(pen.line(0x0b, rng.below(size + 1), rng.pick(b"0123456789abcdefAF\n\r-") as u64)),
        4 => drop(pen.line(0x0b, rng.below(size + 1), rng.below(257))),
        5 => drop(pen.line(0x0a, (size + rng.below(20)).saturating_sub(9), rng.next())),
        _ => {}
    }
}

// Whatever text is on the desk.
pub fn checked(pen: &mut Pen, rng: &mut Rng) {
    let number = if rng.one_in(3) { rng.pick(&KINDS) } else { rng.below(2) };
    check(pen, rng, number);
}
