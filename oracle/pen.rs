// Writes cases and keeps beside them what must come back: each line goes through the desk as it is written.
use crate::desk::{Desk, Taken, Tray};
use crate::format;
use crate::tally::Tally;

// A piece of the input, what it must print, and the desk before it, so that a case can be told without all that went before.
pub struct Batch {
    pub start: Desk,
    pub input: Vec<u8>,
    pub expected: Vec<u8>,
    pub marks: Vec<(usize, usize)>, // of each line that prints: where it stands in the input, and its answer in what is expected
}

pub struct Pen<'a> {
    pub desk: Desk,
    pub tally: Tally,
    batch: Batch,
    most: usize,
    sink: Box<dyn FnMut(Batch) + 'a>,
}

fn empty(start: Desk) -> Batch {
    Batch { start, input: Vec::new(), expected: Vec::new(), marks: Vec::new() }
}

impl<'a> Pen<'a> {
    // The sink gets a batch whenever `most` bytes have come together.
    pub fn new(most: usize, tally: Tally, sink: impl FnMut(Batch) + 'a) -> Pen<'a> {
        Pen { desk: Desk::default(), tally, batch: empty(Desk::default()), most, sink: Box::new(sink) }
    }

    pub fn line(&mut self, code: u8, a: u64, b: u64) -> Taken {
        let (at, from) = (self.batch.input.len(), self.batch.expected.len());
        format::line(&mut self.batch.input, code, a, b);
        let taken = self.desk.take_numbers(code, a, b, &mut self.batch.expected);
        self.ended(at, from, taken, true)
    }

    // Bytes as they are, and an LF unless it is the last line and has none.
    pub fn raw(&mut self, line: &[u8], lf: bool) -> Taken {
        let (at, from) = (self.batch.input.len(), self.batch.expected.len());
        self.batch.input.extend_from_slice(line);
        if line.is_empty() && !lf {
            return Taken::Placed;
        }
        let taken = self.desk.take(line, &mut self.batch.expected);
        self.ended(at, from, taken, lf)
    }

    // A line of words is one that can't be taken, so a list can say what it is.
    pub fn say(&mut self, words: &str) {
        self.raw(format!("# {words}").as_bytes(), true);
    }

    fn ended(&mut self, at: usize, from: usize, taken: Taken, lf: bool) -> Taken {
        if lf {
            self.batch.input.push(b'\n');
        }
        if taken != Taken::Placed {
            self.batch.marks.push((at, from));
        }
        self.tally.count(taken);
        if self.batch.input.len() + self.batch.expected.len() > self.most {
            self.flush();
        }
        taken
    }

    pub fn flush(&mut self) {
        let next = empty(self.desk.clone());
        (self.sink)(std::mem::replace(&mut self.batch, next));
    }

    // Places what differs from the desk, so that states also come about by calls.
    pub fn set_first(&mut self, head: u64, len: u64, slots: &[u32]) {
        let now = self.desk.first.clone();
        self.set(0, &now, head, len, slots);
    }

    pub fn set_second(&mut self, head: u64, len: u64, slots: &[u32]) {
        let now = self.desk.second.clone();
        self.set(3, &now, head, len, slots);
    }

    // The number that isn't looked at is another one.
    pub fn set_totals(&mut self, first: u64, second: u64) {
        let now = self.desk.totals();
        for (code, total, now) in [(8, first, now[0]), (9, second, now[1])] {
            if total != now {
                self.line(code, total, !total);
            }
        }
    }

    pub fn set_cursor(&mut self, front: u64, back: u64) {
        if (self.desk.front, self.desk.back) != (front, back) {
            self.line(7, front, back);
        }
    }

    // The bytes that differ from those on the desk.
    pub fn set_text(&mut self, text: &[u8]) {
        if self.desk.text.len() != text.len() {
            self.line(0x0a, text.len() as u64, u64::MAX);
        }
        for (k, &byte) in text.iter().enumerate() {
            if self.desk.text[k] != byte {
                self.line(0x0b, k as u64, byte as u64);
            }
        }
    }

    fn set(&mut self, shift: u8, now: &Tray, head: u64, len: u64, slots: &[u32]) {
        let anew = now.slots.len() != slots.len();
        if anew {
            self.line(1 + shift, slots.len() as u64, 0);
        }
        if anew && (head, len) != (0, 0) || !anew && (now.head, now.len) != (head, len) {
            self.line(2 + shift, head, len);
        }
        for (k, &x) in slots.iter().enumerate() {
            if x != if anew { 0 } else { now.slots[k] } {
                self.line(3 + shift, k as u64, x as u64);
            }
        }
    }
}

// The lines that place this desk from nothing.
pub fn placing(desk: &Desk) -> Vec<u8> {
    let mut lines = Vec::new();
    {
        let mut pen = Pen::new(usize::MAX, Tally::new(), |batch: Batch| lines = batch.input);
        pen.set_first(desk.first.head, desk.first.len, &desk.first.slots);
        pen.set_second(desk.second.head, desk.second.len, &desk.second.slots);
        pen.set_totals(desk.first.total, desk.second.total);
        pen.set_cursor(desk.front, desk.back);
        pen.set_text(&desk.text);
        pen.flush();
    }
    lines
}
