// The three texts of the records' rows, 10 MB each, made from a fixed seed: the same bytes in every run, and none of them is kept.
use std::fmt::Write;

const BYTES: usize = 10_000_000;

// Numbers that look random (xorshift).
struct Chance(u64);

impl Chance {
    fn next(&mut self) -> u64 {
        self.0 ^= self.0 << 13;
        self.0 ^= self.0 >> 7;
        self.0 ^= self.0 << 17;
        self.0 >> 11
    }

    fn below(&mut self, n: usize) -> usize {
        (self.next() % n as u64) as usize
    }

    fn of<'a>(&mut self, words: &[&'a str]) -> &'a str {
        words[self.below(words.len())]
    }
}

const WELL_ROWS: [&str; 8] = ["A", "B", "C", "D", "E", "F", "G", "H"];
const LOCANTS: [&str; 8] = ["2", "3", "4", "5", "N", "1H", "(2R)", "(4S)"];
const PARTS: [&str; 12] = ["chloro", "methyl", "fluoro", "amino", "hydroxy", "methoxy", "phenyl", "nitro", "trifluoromethyl", "ethyl", "oxo", "bromo"];
const ENDS: [&str; 10] = ["benzamide", "pyridine", "indole", "benzoic acid", "quinoline", "phenol", "piperazine", "purine", "thiazole", "acetamide"];

// A name in one piece: `4-[(3-chloro)phenyl]pyridine`.
fn plain_name(text: &mut String, chance: &mut Chance) {
    text.push_str(chance.of(&LOCANTS));
    text.push_str("-[(");
    text.push_str(chance.of(&LOCANTS));
    text.push('-');
    text.push_str(chance.of(&PARTS));
    text.push(')');
    text.push_str(chance.of(&PARTS));
    text.push(']');
    text.push_str(chance.of(&ENDS));
}

// A name that needs its quotes: `"2,4-dichloro-N,N-diethyl-indole"`; some have doubled ones, as a second prime.
fn quoted_name(text: &mut String, chance: &mut Chance) {
    text.push('"');
    for at in 0..2 + chance.below(2) {
        text.push_str(if at == 0 { "" } else { "-" });
        text.push_str(chance.of(&LOCANTS));
        text.push(',');
        text.push_str(chance.of(&LOCANTS));
        text.push_str(if chance.below(10) == 0 { "\"\"-di" } else { "-di" });
        text.push_str(chance.of(&PARTS));
    }
    text.push('-');
    text.push_str(chance.of(&ENDS));
    text.push('"');
}

// Plate, well, compound, volume and barcode; a third of the names are quoted.
fn worklist_line(text: &mut String, chance: &mut Chance) {
    write!(text, "PL-{:05},{}{:02},", chance.below(100_000), chance.of(&WELL_ROWS), 1 + chance.below(12)).unwrap();
    if chance.below(3) == 0 {
        quoted_name(text, chance);
    } else {
        plain_name(text, chance);
    }
    write!(text, ",{}.{},{:012}\r\n", chance.below(500), chance.below(10), chance.below(1_000_000_000_000)).unwrap();
}

const DIGITS: [&str; 16] = ["0", "1", "2", "3", "4", "5", "6", "7", "8", "9", "a", "b", "c", "d", "e", "f"];

// Ten fields of one to six digits.
fn short_line(text: &mut String, chance: &mut Chance) {
    for at in 0..10 {
        text.push_str(if at == 0 { "" } else { "," });
        for _ in 0..1 + chance.below(6) {
            text.push_str(chance.of(&DIGITS));
        }
    }
    text.push_str("\r\n");
}

const WORDS: [&str; 12] = ["plate", "was", "returned", "to the", "stacker", "after", "a second", "dispense", "of", "200 nl", "and", "sealed"];

// Four quoted fields of 100 to 400 bytes, with commas and line breaks, and here and there a word in doubled quotes.
fn long_line(text: &mut String, chance: &mut Chance) {
    for at in 0..4 {
        text.push_str(if at == 0 { "\"" } else { ",\"" });
        let most = text.len() + 100 + chance.below(280);
        while text.len() < most {
            match chance.below(40) {
                0 => text.push_str("\"\"late\"\""),
                1 | 2 => text.push_str("\r\n"),
                3..=6 => text.push_str(", "),
                _ => text.push(' '),
            }
            text.push_str(chance.of(&WORDS));
        }
        text.push('"');
    }
    text.push_str("\r\n");
}

pub struct Text {
    pub name: &'static str,
    pub bytes: Vec<u8>,
}

fn text(name: &'static str, line: fn(&mut String, &mut Chance)) -> Text {
    let mut chance = Chance(0x9e37_79b9_7f4a_7c15);
    let mut text = String::with_capacity(BYTES + 4096);
    while text.len() < BYTES {
        line(&mut text, &mut chance);
    }
    Text { name, bytes: text.into_bytes() }
}

pub fn texts() -> [Text; 3] {
    [text("worklist, a third of the names quoted", worklist_line), text("short plain fields", short_line), text("long quoted fields", long_line)]
}
