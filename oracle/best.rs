// Request 07, tried out: on every ring of up to 8 slots, with every insertion and removal that is done, the new row of plates is laid out from every slot, and
// by every other layout too, and the plates that changed their slot are counted one by one. It is the statement that is tried, on what the program answers.
use crate::compare;
use crate::ops::{Act, Act::*, Kind::Ring, OPS};
use crate::pen::{Batch, Pen};
use crate::rules::{self, State};
use crate::tally::Tally;
use std::collections::VecDeque;

const MOST: u64 = 8;
const NEW: u32 = 0x99; // the plate that comes in
const FREE: u32 = 0xf0; // free slot k holds FREE + k; plate j, of those that are there, has the number j + 1

// A call that was done, and what the program left and said.
#[derive(Clone)]
struct Case {
    cap: usize,
    head: usize,
    len: usize,
    act: Act,
    at: usize,
    stood: Vec<Option<usize>>, // of each plate of the new row: the slot where it stood, if it was there
    stands: Vec<usize>,        // and the slot where it stands now
    chosen: usize,             // the head afterwards
    moves: usize,
}

#[derive(Default)]
struct Sum {
    heads: usize,
    ties: usize,
    ordered: usize,
    others: usize,
    wrong: usize,
}

pub fn run(replay: &str) -> Result<(), String> {
    let cases = answered(replay)?;
    let mut sum = Sum::default();
    for case in &cases {
        let named = |says| format!("{:?} at {}, {} plates from slot {} of {}: {says}", case.act, case.at, case.len, case.head, case.cap);
        case.heads(&mut sum).map_err(named)?;
        case.layouts(&mut sum).map_err(named)?;
        for (words, wrong) in case.wrong() {
            if wrong.heads(&mut Sum::default()).is_ok() {
                return Err(named(format!("{words} goes unnoticed")));
            }
            sum.wrong += 1;
        }
    }
    let (calls, Sum { heads, ties, ordered, others, wrong }) = (cases.len(), sum);
    println!("oracle best: {calls} insertions and removals on rings of up to {MOST} slots: with none of {heads} heads, and by none of {ordered} layouts in ring order,");
    println!("do fewer plates change their slot than the call moves; {ties} other heads do as well, where as many stand on either side; among all layouts, {others}");
    println!("more that are no ring, one always moves nothing; each of {wrong} wrong answers is noticed");
    Ok(())
}

// The small valid rings, and on each every insertion and removal that is done.
fn calls() -> impl Iterator<Item = (State, Act, u64)> {
    let rings = (0..=MOST).flat_map(|cap| (0..cap).flat_map(move |head| (0..=cap).map(move |len| State { cap, head, len })));
    let on = |s: State| [Insert, Remove].into_iter().flat_map(move |act| (0..=s.len).map(move |at| (s, act, at)));
    rings.filter(|&s| rules::valid(Ring, s)).flat_map(on).filter(|&(s, act, at)| if act == Insert { s.len < s.cap } else { at < s.len })
}

fn slots(s: State) -> Vec<u32> {
    let mut slots: Vec<u32> = (FREE..).take(s.cap as usize).collect();
    rules::occupied(Ring, s).zip(1..).for_each(|(k, plate)| slots[k] = plate);
    slots
}

fn every(pen: &mut Pen) {
    for (s, act, at) in calls() {
        pen.set_first(s.head, s.len, &slots(s));
        pen.line(OPS.iter().find(|op| op.kind == Ring && op.act == act).unwrap().code, at, NEW as u64);
    }
}

// All of them, put to the program. Once it has said byte for byte what is expected, its answers are read from that.
fn answered(replay: &str) -> Result<Vec<Case>, String> {
    compare::agrees(replay, &every)?;
    let mut expected = Vec::new();
    {
        let mut pen = Pen::new(usize::MAX, Tally::new(), |batch: Batch| expected = batch.expected);
        every(&mut pen);
        pen.flush();
    }
    let said = String::from_utf8(expected).map_err(|e| e.to_string())?;
    let mut lines = said.lines();
    calls().map(|(s, act, at)| case(s, act, at, &mut lines).ok_or(format!("no answer to {act:?} at {at} of {s:?}"))).collect()
}

// Number, value, moves and head are the first of an answer; the slots follow it, a line each.
fn case<'a>(s: State, act: Act, at: u64, lines: &mut impl Iterator<Item = &'a str>) -> Option<Case> {
    let says: Vec<usize> = lines.next()?.split(' ').map_while(|x| usize::from_str_radix(x, 16).ok()).collect();
    let now: Vec<u32> = lines.take(s.cap as usize).map_while(|x| u32::from_str_radix(x, 16).ok()).collect();
    let mut row: VecDeque<u32> = (1..=s.len as u32).collect();
    match act {
        Insert => row.insert(at as usize, NEW),
        _ => drop(row.remove(at as usize)),
    }
    let was = slots(s);
    let find = |slots: &[u32], plate: u32| slots.iter().position(|&x| x == plate);
    let stands: Option<Vec<usize>> = row.iter().map(|&plate| find(&now, plate)).collect();
    let &[0, _, moves, chosen, ..] = &says[..] else { return None };
    let stood = row.iter().map(|&plate| find(&was, plate)).collect();
    Some(Case { cap: s.cap as usize, head: s.head as usize, len: s.len as usize, act, at: at as usize, stood, stands: stands?, chosen, moves })
}

impl Case {
    // How many of the plates that remain stand before the place, and behind it.
    fn before(&self) -> usize {
        self.at
    }

    fn behind(&self) -> usize {
        self.len - self.at - (self.act == Remove) as usize
    }

    // The head one slot away, which goes with the plates before the place.
    fn along(&self) -> usize {
        (self.head + if self.act == Insert { self.cap - 1 } else { 1 }) % self.cap
    }

    fn permitted(&self) -> Vec<usize> {
        let len = self.stood.len() as u64;
        (0..self.cap).filter(|&head| rules::valid(Ring, State { cap: self.cap as u64, head: head as u64, len })).collect()
    }

    fn from(&self, head: usize) -> Vec<usize> {
        (0..self.stood.len()).map(|p| (head + p) % self.cap).collect()
    }

    // One by one: the plates that were there and stand in another slot, laid out so.
    fn changed(&self, lay: &[usize]) -> usize {
        self.stood.iter().zip(lay).filter(|(stood, slot)| stood.is_some_and(|s| s != **slot)).count()
    }

    // What the statement says of each head, and which do as well as the one chosen.
    fn heads(&self, sum: &mut Sum) -> Result<(), String> {
        let (before, behind, along) = (self.before(), self.behind(), self.along());
        if self.stands != self.from(self.chosen) || self.changed(&self.stands) != self.moves || !self.permitted().contains(&self.chosen) {
            return Err(format!("the plates stand in {:?}, the head is {} and {} moves are reported", self.stands, self.chosen, self.moves));
        }
        for g in self.permitted() {
            let count = self.changed(&self.from(g));
            let says = [(g == self.head, behind), (g == along, before), (g != self.head && g != along, before + behind)];
            if let Some((_, k)) = says.iter().find(|(holds, k)| *holds && *k != count) {
                return Err(format!("from slot {g} {count} plates change theirs, and not {k}"));
            }
            if count < self.moves {
                return Err(format!("{} moves, and from slot {g} there are {count}", self.moves));
            }
            let as_good = g == self.chosen || before == behind && (g == along || before == 0);
            if (count == self.moves) != as_good {
                return Err(format!("{} moves from slot {}, {count} from slot {g}", self.moves, self.chosen));
            }
            sum.heads += 1;
            sum.ties += (as_good && g != self.chosen) as usize;
        }
        Ok(())
    }

    // Every layout at all. Those in ring order are the heads'; without that order nothing need move.
    fn layouts(&self, sum: &mut Sum) -> Result<(), String> {
        let heads: Vec<Vec<usize>> = self.permitted().into_iter().map(|g| self.from(g)).collect();
        let (mut ordered, mut least, mut fault) = (0, usize::MAX, None);
        each_layout(self.cap, self.stood.len(), &mut Vec::new(), &mut |lay| {
            least = least.min(self.changed(lay));
            if lay.windows(2).any(|two| two[1] != (two[0] + 1) % self.cap) {
                sum.others += 1;
            } else if self.changed(lay) < self.moves || !heads.iter().any(|head| head == lay) {
                fault = Some(lay.to_vec());
            } else {
                ordered += 1;
            }
        });
        sum.ordered += ordered;
        match fault {
            Some(lay) => Err(format!("the plates may stand in {lay:?}")),
            None if ordered == heads.len() && least == 0 => Ok(()),
            None => Err(format!("{ordered} layouts in ring order, {} heads; the least of all layouts moves {least}", heads.len())),
        }
    }

    // Answers that are wrong: with the head of the longer side, and with a count that is one off.
    fn wrong(&self) -> Vec<(&'static str, Case)> {
        let mut all = vec![("a move too many", Case { moves: self.moves + 1, ..self.clone() })];
        if self.moves > 0 {
            all.push(("a move too few", Case { moves: self.moves - 1, ..self.clone() }));
        }
        if self.before() != self.behind() {
            let chosen = if self.before() < self.behind() { self.head } else { self.along() };
            let stands = self.from(chosen);
            all.push(("the longer side", Case { chosen, moves: self.changed(&stands), stands, ..self.clone() }));
        }
        all
    }
}

fn each_layout(cap: usize, len: usize, lay: &mut Vec<usize>, see: &mut impl FnMut(&[usize])) {
    if lay.len() == len {
        return see(lay);
    }
    for slot in 0..cap {
        if !lay.contains(&slot) {
            lay.push(slot);
            each_layout(cap, len, lay, see);
            lay.pop();
        }
    }
}
