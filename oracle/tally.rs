// Counts the calls by operation and number, and tells which numbers of an operation, which kinds of totals with each, and which of yes and no, were never met.
use crate::desk::{Taken, Total};
use crate::ops::{self, Op, OPS};
use std::fmt::Write;

// The kinds of totals.
const RIGHT: u8 = 1; // what the list adds up to
const WRONG: u8 = 2; // neither that nor 0
const UP: u8 = 4; // above 2^64 - 1 with what is put in
const DOWN: u8 = 8; // below 0 with what is taken out
const WORDS: [(u8, &str); 4] = [(RIGHT, "right"), (WRONG, "wrong"), (UP, "passing 2^64"), (DOWN, "passing 0")];

const NUMBERS: [u8; 9] = [0, 1, 2, 3, 4, 5, 6, 12, 14]; // that a call of `replay` can answer
const UP_TO: usize = 15;

#[derive(Clone)]
pub struct Tally {
    calls: Vec<[u64; UP_TO]>, // by code
    totals: Vec<[[u8; 2]; UP_TO]>, // of the first container and of the second, the kinds that were met
    said: Vec<[bool; 2]>, // of a question, by code: whether no was met, and yes
    pub placed: u64,
    pub refused: u64, // lines that couldn't be taken
}

impl Tally {
    pub fn new() -> Tally {
        Tally { calls: vec![[0; UP_TO]; 256], totals: vec![[[0; 2]; UP_TO]; 256], said: vec![[false; 2]; 256], placed: 0, refused: 0 }
    }

    pub fn count(&mut self, taken: Taken) {
        match taken {
            Taken::Placed => self.placed += 1,
            Taken::Refused => self.refused += 1,
            Taken::Called(code, number, value, totals) => {
                self.calls[code as usize][number as usize] += 1;
                if number == 0 {
                    self.said[code as usize][(value == 1) as usize] = true;
                }
                for (met, total) in self.totals[code as usize][number as usize].iter_mut().zip(totals) {
                    *met |= kinds(total);
                }
            }
        }
    }

    pub fn calls(&self) -> u64 {
        self.calls.iter().flatten().sum()
    }

    pub fn met(&self, op: &Op, number: u8) -> u64 {
        self.calls[op.code as usize][number as usize]
    }

    // In words, each operation with a number that it can answer and never did, or never with some kind of total.
    pub fn missing(&self) -> Vec<String> {
        let pairs = OPS.iter().flat_map(|op| op.numbers.iter().map(move |&number| (op, number)));
        pairs.flat_map(|(op, number)| self.lacks(op, number).into_iter().map(move |words| format!("{} never answers {number}{words}", op.name))).collect()
    }

    fn lacks(&self, op: &Op, number: u8) -> Vec<String> {
        if self.met(op, number) == 0 {
            return vec![String::new()];
        }
        let met = self.totals[op.code as usize][number as usize];
        let of = |k: usize| WORDS.iter().filter(move |(kind, _)| needs(op, number)[k] & !met[k] & kind != 0).map(move |(_, words)| (k, words));
        let said = [0, 1].into_iter().filter(|&k| number == 0 && ops::is_question(op.act) && !self.said[op.code as usize][k]);
        let said = said.map(|k| format!(", {}", ["no", "yes"][k]));
        [0, 1].into_iter().flat_map(of).map(|(k, words)| format!(" with the {} total {words}", ["first's", "second's"][k])).chain(said).collect()
    }

    // A row for each operation; '-' where paper 01 gives it no such number.
    pub fn table(&self) -> String {
        let mut out = format!("{:<28}{:>10}", "calls", "all");
        NUMBERS.iter().for_each(|number| write!(out, "{number:>10}").unwrap());
        for op in &OPS {
            let all: u64 = self.calls[op.code as usize].iter().sum();
            write!(out, "\n{:02x} {:<25}{all:>10}", op.code, op.name).unwrap();
            for number in NUMBERS {
                match (self.met(op, number), op.numbers.contains(&number)) {
                    (0, false) => write!(out, "{:>10}", "-").unwrap(),
                    (met, _) => write!(out, "{met:>10}").unwrap(),
                }
            }
        }
        write!(out, "\n{} placing lines, {} lines that can't be taken\n", self.placed, self.refused).unwrap();
        out
    }
}

fn kinds(total: Total) -> u8 {
    let Total { given, left, sum } = total;
    // 4,096 entries add up to far less than 2^63, so this has the sign of the change.
    let by = left.wrapping_sub(given) as i64;
    let each = [(RIGHT, sum == Some(given)), (WRONG, given != 0 && sum != Some(given)), (UP, by > 0 && left < given), (DOWN, by < 0 && left > given)];
    each.iter().filter(|(_, met)| *met).fold(0, |all, (kind, _)| all | kind)
}

// The kinds that must be met, of each container: a wrong total always, of the second too where the call is on one container; a right one where the number
// lets the state be valid; and where the call is done, those that it can bring about.
fn needs(op: &Op, number: u8) -> [u8; 2] {
    let right = [number != 1, ops::has_second(op.act) && number != 2];
    let (up, down) = (ops::puts(op.act), ops::takes(op.act));
    [0, 1].map(|k| {
        let each = [(RIGHT, right[k]), (WRONG, true), (UP, number == 0 && up[k]), (DOWN, number == 0 && down[k])];
        each.iter().filter(|(_, needed)| *needed).fold(0, |all, (kind, _)| all | kind)
    })
}
