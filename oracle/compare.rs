// Feeds a program through a pipe and compares what it prints with what the desk says, byte for byte.
use crate::damaged;
use crate::desk::MOST_SLOTS;
use crate::exhaust;
use crate::large;
use crate::ops;
use crate::pen::{self, Batch, Pen};
use crate::random::Random;
use crate::tally::Tally;
use crate::texts;
use std::io::{Read, Write};
use std::process::{Child, ChildStdout, Command, Stdio};
use std::sync::atomic::{AtomicU64, Ordering::Relaxed};
use std::sync::{mpsc, Arc};
use std::thread;
use std::time::Duration;

const BATCH: usize = 1 << 20; // bytes in and out together
const AHEAD: usize = 8; // batches written before the first of them is read: what the program may hold back in buffers of its own

const PATIENCE: u64 = 120; // seconds without a byte
static CAME: AtomicU64 = AtomicU64::new(0); // bytes read so far

pub fn run(replay: &str, millions: f64) -> Result<(), String> {
    let mut tally = Tally::new();
    thread::spawn(watch);
    let starts: [&(dyn Fn(&mut Pen) + Sync); 7] = [
        &|_| {},
        &|pen| { pen.raw(b"", true); },
        &|pen| { pen.raw(b"1600000000000000000000000000000001", false); },
        &|pen| { pen.raw(b"0100000000000000020000000000000000", false); },
        &|pen| { pen.raw(b"16000000000000000000000000000001\r", false); },
        &|pen| { pen.raw(&[b'1'; 200_000], false); },
        &|pen| { damaged::each(pen); pen.raw(b"1", false); },
    ];
    for make in starts {
        tally = sitting(replay, 7, tally, make)?;
    }
    tally = sitting(replay, BATCH, tally, &|pen| everything(pen, (millions * 1e6) as u64))?;
    print!("{}", tally.table());
    let missing = tally.missing();
    let calls = tally.calls() as f64 / 1e6;
    println!("{calls:.1} million calls compared, {calls:.1} million agreed, 0 differ");
    if missing.is_empty() { Ok(()) } else { Err(format!("the cases lack something: {}", missing.join(", "))) }
}

// One run of the program on these cases alone.
pub fn agrees(replay: &str, make: &(dyn Fn(&mut Pen) + Sync)) -> Result<(), String> {
    thread::spawn(watch);
    sitting(replay, BATCH, Tally::new(), make).map(|_| ())
}

// A program that prints nothing any more would keep the comparison waiting for ever.
fn watch() {
    let (mut last, mut quiet) = (0, 0);
    while quiet < PATIENCE {
        thread::sleep(Duration::from_secs(1));
        let now = CAME.load(Relaxed);
        quiet = if now == last { quiet + 1 } else { 0 };
        last = now;
    }
    println!("no answer came for {PATIENCE} seconds, after {last} bytes");
    std::process::exit(1);
}

// All short cases, damaged lines, large capacities, stored texts, then random ones until there are enough calls.
fn everything(pen: &mut Pen, calls: u64) {
    exhaust::every(pen, &mut exhaust::Share::all());
    pen.set_first(2, 3, &[11, 0, 9, 10]);
    pen.set_second(0, 0, &[]);
    pen.set_totals(30, u64::MAX);
    damaged::each(pen);
    damaged::long(pen, &[100, 4095, 4096, 4097, 65_535, 65_536, 65_537, 1_000_000]);
    large::every(pen);
    large::alike(pen);
    texts::every(pen);
    let mut random = Random::new(0x0ac1e, MOST_SLOTS);
    while pen.tally.calls() < calls {
        random.case(pen);
    }
    pen.raw(b"22ffffffffffffffff0000000000000000", false);
}

// One run of the program from its start to its end. The input is written in pieces of `piece` bytes.
fn sitting(replay: &str, piece: usize, tally: Tally, make: &(dyn Fn(&mut Pen) + Sync)) -> Result<Tally, String> {
    let mut child = Command::new(replay).stdin(Stdio::piped()).stdout(Stdio::piped()).spawn().map_err(|e| format!("{replay}: {e}"))?;
    let (mut input, mut output) = (child.stdin.take().unwrap(), child.stdout.take().unwrap());
    let (send, batches) = mpsc::sync_channel::<Arc<Batch>>(AHEAD);
    thread::scope(|scope| {
        let writer = scope.spawn(move || {
            let mut pen = Pen::new(BATCH, tally, |batch| {
                let batch = Arc::new(batch);
                let _ = send.send(batch.clone());
                // A program that ended early is noticed where its output is read.
                let _ = batch.input.chunks(piece).try_for_each(|part| input.write_all(part));
            });
            make(&mut pen);
            pen.flush();
            pen.tally.clone()
        });
        for batch in batches {
            if let Err(words) = read(&mut output, &batch) {
                differs(&mut child, &words);
            }
        }
        let tally = writer.join().map_err(|_| "the thread that writes the cases failed")?;
        at_end(&mut child, &mut output)?;
        Ok(tally)
    })
}

fn at_end(child: &mut Child, output: &mut ChildStdout) -> Result<(), String> {
    let mut rest = Vec::new();
    output.read_to_end(&mut rest).map_err(|e| e.to_string())?;
    if !rest.is_empty() {
        return Err(format!("after the last answer came\n{}", shown(&rest)));
    }
    let status = child.wait().map_err(|e| e.to_string())?;
    if status.success() { Ok(()) } else { Err(format!("all answers agreed, but the program ended with {status}")) }
}

// The writer may still be at work, so this ends the whole.
fn differs(child: &mut Child, words: &str) -> ! {
    println!("{words}");
    match child.try_wait() {
        Ok(Some(status)) => println!("the program ended by then, with {status}"),
        _ => drop(child.kill()),
    }
    std::process::exit(1);
}

fn read(output: &mut ChildStdout, batch: &Batch) -> Result<(), String> {
    let mut came = vec![0; batch.expected.len()];
    let mut got = 0;
    while got < came.len() {
        match output.read(&mut came[got..]) {
            Ok(0) => break,
            Ok(k) => {
                got += k;
                CAME.fetch_add(k as u64, Relaxed);
            }
            Err(e) => return Err(e.to_string()),
        }
    }
    came.truncate(got);
    if came == batch.expected { Ok(()) } else { Err(difference(batch, &came)) }
}

// The call at which the first byte differs: the lines that place the desk as it was before it, the call, and both answers.
fn difference(batch: &Batch, came: &[u8]) -> String {
    let at = batch.expected.iter().zip(came).position(|(x, y)| x != y).unwrap_or(came.len());
    let mark = batch.marks.partition_point(|mark| mark.1 <= at) - 1;
    let (start, from) = batch.marks[mark];
    let to = batch.marks.get(mark + 1).map_or(batch.expected.len(), |mark| mark.1);
    let mut desk = batch.start.clone();
    for line in batch.input[..start].split(|&byte| byte == b'\n') {
        if !line.is_empty() {
            desk.take(line, &mut Vec::new());
        }
    }
    let line = batch.input[start..].split(|&byte| byte == b'\n').next().unwrap_or(&[]);
    let name = std::str::from_utf8(&line[..line.len().min(2)]).ok().and_then(|code| u8::from_str_radix(code, 16).ok());
    let name = name.and_then(ops::find).map_or("no call", |op| op.name);
    let expected = &batch.expected[from..to];
    let lines = expected.iter().filter(|&&byte| byte == b'\n').count();
    let ended = if came.len() < batch.expected.len() { "and there the output ended" } else { "" };
    let came: Vec<u8> = came[from.min(came.len())..].split_inclusive(|&byte| byte == b'\n').take(lines).flatten().copied().collect();
    format!(
        "differs at byte {} of the answer to: {name}\nplaced:\n{}the line:\n{}expected:\n{}came:\n{}{ended}",
        at - from, shown(&pen::placing(&desk)), shown(line), shown(expected), shown(&came)
    )
}

// Bytes as text. A line of more than 600 bytes is cut.
fn shown(bytes: &[u8]) -> String {
    let line = |line: &[u8]| {
        let end = if line.len() > 600 { format!(" .. {} bytes in all", line.len()) } else { String::new() };
        format!("{}{end}\n", line[..line.len().min(600)].escape_ascii())
    };
    bytes.strip_suffix(b"\n").unwrap_or(bytes).split(|&byte| byte == b'\n').map(line).collect()
}
