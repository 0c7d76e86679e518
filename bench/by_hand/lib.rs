// The rules of docs/RULES.md by hand, in safe Rust over lent slices: what a caller would write who does without the proved calls. Each call cannot be
// inlined, and this crate is compiled apart from the one that calls it.
#![forbid(unsafe_code)]
mod ring;
mod stored;
mod vector;

pub use ring::{Cursor, Ring};
pub use stored::stored_check;
pub use vector::Vector;

const MOST: usize = 4096; // slots
const NO_SLOT: u16 = u16::MAX;

#[derive(Clone, Copy)]
pub struct Answer {
    pub number: u8,
    pub value: u32,
    pub moves: u16,
    pub slot: u16,
}

impl Answer {
    fn refused(number: u8) -> Answer {
        Answer { number, value: 0, moves: 0, slot: NO_SLOT }
    }

    // Done, with no slot to report.
    fn done(value: u32) -> Answer {
        Answer { number: 0, value, moves: 0, slot: NO_SLOT }
    }

    // Done, with an entry that stands or stood in this slot.
    fn at(slot: usize, value: u32, moves: usize) -> Answer {
        Answer { number: 0, value, moves: moves as u16, slot: slot as u16 }
    }
}

fn sum(run: &[u32]) -> u64 {
    run.iter().map(|&x| x as u64).sum()
}
