// The fixed list: some thousands of calls, the same on every machine, for the program's own test in the gate.
use crate::allowance;
use crate::by_hand;
use crate::damaged;
use crate::desk::Taken;
use crate::exhaust::{self, Share};
use crate::large;
use crate::pen::{Batch, Pen};
use crate::random::Random;
use crate::rng::Rng;
use crate::selfcheck;
use crate::tally::Tally;
use crate::texts;
use crate::texts_by_hand;
use std::collections::BTreeMap;

const DONE: usize = 32;
const REFUSED: usize = 8; // of a group of several too
const BATCH: usize = 1 << 20;

// Writes both files. It is an error if some call doesn't answer each of its numbers.
pub fn run(dir: &str) -> Result<(), String> {
    let mut made = None;
    let tally = {
        let mut pen = Pen::new(usize::MAX, Tally::new(), |batch: Batch| made = Some(batch));
        list(&mut pen);
        pen.flush();
        pen.tally.clone()
    };
    let missing = tally.missing();
    if !missing.is_empty() {
        return Err(format!("the fixed list lacks something: {}", missing.join(", ")));
    }
    let Batch { input, expected, .. } = made.ok_or("no list was made")?;
    let write = |name: &str, bytes: &[u8]| std::fs::write(format!("{dir}/{name}"), bytes).map_err(|e| format!("{dir}/{name}: {e}"));
    std::fs::create_dir_all(dir).map_err(|e| format!("{dir}: {e}"))?;
    write("stdin", &input)?;
    write("stdout", &expected)?;
    let Tally { placed, refused, .. } = tally;
    println!("fixed list: {} calls, {placed} placing lines, {refused} lines that can't be taken; {} bytes in, {} out", tally.calls(), input.len(), expected.len());
    Ok(())
}

// The lines alone.
pub fn input() -> Vec<u8> {
    let mut input = Vec::new();
    {
        let mut pen = Pen::new(usize::MAX, Tally::new(), |batch: Batch| input = batch.input);
        list(&mut pen);
        pen.flush();
    }
    input
}

fn list(pen: &mut Pen) {
    pen.say("Cases of the program replay, written by oracle/ (oracle fixed). A line with a # can't be taken, and says what comes after it.");
    pen.say("Nothing was placed yet: every container is empty.");
    for code in [0x12, 0x18, 0x22, 0x27, 0x40, 0x43, 0x44, 0x53, 0x60, 0x62, 0x39] {
        pen.line(code, 0, 0);
    }
    pen.say("Paper 01: cases a to m; request 03: emptied rings; request 10: the slot that is reported; and the calls of paper 01's listing. Totals are right.");
    selfcheck::write_papers(pen);
    pen.say("Request 04: totals, right and wrong, and those that pass 2^64 or 0.");
    by_hand::write(pen);
    pen.say("Request 11: insertions and removals with an allowance, the cursor's front.");
    allowance::write(pen);
    pen.say("A sample of the short cases: capacity 0 to 4, with an allowance up to 8, every head and length, valid or not.");
    pen.set_second(1, 1, &[0x51, 0x52]);
    pen.set_cursor(3, 2);
    exhaust::every(pen, &mut Share::of(sample()));
    pen.say("Random sequences of calls, up to 17 slots.");
    let mut random = Random::new(0x5eed, 17);
    let before = pen.tally.calls();
    while pen.tally.calls() < before + 1200 {
        random.case(pen);
    }
    pen.say("Lines that can't be taken, each kind, between calls that can.");
    pen.set_first(2, 3, &[11, 0, 9, 10]);
    pen.set_second(0, 0, &[]);
    pen.set_totals(30, u64::MAX);
    damaged::each(pen);
    damaged::long(pen, &[100, 4095, 4096, 4097, 70_000]);
    pen.say("Capacities 16, 17, 256, 257, 4096, 4097 and 4200; only slots near an end or the middle are placed.");
    large::few(pen);
    pen.say("Containers that hold one list at other heads and on other capacities, or one entry otherwise.");
    large::few_alike(pen);
    pen.say("Request 08: texts read back and checked, whole and damaged, into as many slots and into others.");
    texts_by_hand::write(pen);
    texts::few(pen);
    pen.say("The last line has no LF and counts.");
    pen.raw(b"1600000000000000000000000000000001", false);
}

// Of all short cases the same number for each call and number that it answers, at most; more of those that are done.
fn sample() -> Vec<bool> {
    let mut all = Share::all();
    exhaust::every(&mut Pen::new(BATCH, Tally::new(), |_| {}), &mut all);
    let mut places: BTreeMap<(u8, u8, u8), Vec<usize>> = BTreeMap::new();
    for (k, &(taken, group)) in all.log.iter().enumerate() {
        let key = if let Taken::Called(code, number, ..) = taken { (code, number, group) } else { (0, 1, 0) };
        places.entry(key).or_default().push(k);
    }
    let mut chosen = vec![false; all.log.len()];
    let mut rng = Rng::new(0x11f7);
    for ((_, number, group), places) in &places {
        for _ in 0..if (*number, *group) == (0, 0) { DONE } else { REFUSED } {
            chosen[rng.pick(places)] = true;
        }
    }
    chosen
}
