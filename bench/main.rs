// Measures the proved calls against Rust's own containers and against the same rules by hand, side by side in one run: each round times a batch on one
// side and then the same batch on the next, and the rows are gone through several times. Then stored texts that are read back, and records, against
// other readers of them. Prints the ratios and writes them, with what falls short and why, to a file. BENCH_ONLY=records measures records alone,
// BENCH_ONLY=stored the reading of stored texts, BENCH_ONLY=allowances the calls with an allowance beside the plain ones; each writes nothing.
#[cfg(arrayvec)]
mod array;
mod check;
mod found;
mod hand;
mod ours;
mod place;
mod records;
mod rows;
mod stored;
mod texts;
mod theirs;
#[cfg(tinyvec)]
mod tiny;
mod work;

use found::{median, Found, Round, OURS, THEIRS};
use rows::{Row, Side};
use std::time::Instant;
use work::Came;

#[global_allocator]
static PAGES: place::Pages = place::Pages;

const CAPS: [usize; 3] = [16, 256, 4096];
const BATCH: f64 = 40_000.0; // nanoseconds
const PASSES: usize = 5;

fn time(side: &mut Side, k: usize) -> (f64, Came) {
    let start = Instant::now();
    let came = side(k);
    (start.elapsed().as_nanos() as f64 / k as f64, came)
}

// Each side takes its turn in a round; another begins in the next, and after each has begun the turn goes the other way round.
fn measure(row: &Row, at: usize, rounds: usize, times: &mut Vec<Round>) {
    let mut sides = row.sides[at]();
    let alike = sides.len();
    sides.extend(row.demanded.map(|demanded| demanded(CAPS[at] * 3 / 4)));
    let count = sides.len();
    let mut k = 16;
    loop {
        let spent: Vec<f64> = sides.iter_mut().map(|side| time(side, k).0).collect();
        if spent[THEIRS] * (k as f64) >= BATCH {
            break;
        }
        k *= 2;
    }
    for round in 0..rounds {
        let mut spent = Round::default();
        let mut came: [Came; 4] = Default::default();
        for turn in 0..count {
            let side = if round / count % 2 == 0 { (round + turn) % count } else { (round + count - turn) % count };
            (spent[side], came[side]) = time(&mut sides[side], k);
        }
        assert!(came[..alike].iter().all(|c| *c == came[OURS]), "{} at {}: the sides gave other entries, {came:?}", row.name, CAPS[at]);
        times.push(spent);
    }
}

// The rows, measured in passes over all of them.
fn rows_of(rows: Vec<Row>, rounds: usize) -> Vec<Found> {
    let mut times: Vec<[Vec<Round>; 3]> = rows.iter().map(|_| Default::default()).collect();
    for _ in 0..PASSES {
        for (row, times) in rows.iter().zip(&mut times) {
            for at in 0..3 {
                measure(row, at, rounds, &mut times[at]);
            }
        }
    }
    rows.into_iter().zip(times).map(|(row, times)| Found { row, times }).collect()
}

fn lines(found: &[Found], line: fn(&Found) -> Vec<String>) -> String {
    found.iter().flat_map(line).collect::<Vec<_>>().join("\n")
}

// The paper: its text with what was measured, and where.
fn paper(rounds: usize, measured: &[(&str, &str)]) -> String {
    let mut paper = include_str!("paper.md").to_string();
    for (name, value) in measured {
        paper = paper.replace(name, value);
    }
    for name in ["processor", "rustc", "rattle", "built", "plain", "arrayvec", "tinyvec", "csv-core", "libcsv"] {
        let given = format!("BENCH_{}", name.to_uppercase().replace('-', "_"));
        paper = paper.replace(&format!("{{{name}}}"), &std::env::var(given).unwrap_or_else(|_| "not said".into()));
    }
    let [of_stored, of_records] = [stored::rounds_of(rounds), records::rounds_of(rounds)].map(|n| n.to_string());
    paper.replace("{rounds}", &(rounds * PASSES).to_string()).replace("{rounds of stored}", &of_stored).replace("{rounds of records}", &of_records)
}

fn main() {
    let args: Vec<String> = std::env::args().collect();
    let rounds: usize = args.get(1).and_then(|a| a.parse().ok()).unwrap_or(201);
    match std::env::var("BENCH_ONLY").as_deref() {
        Ok("records") => return println!("{}", records::table(rounds)),
        Ok("stored") => {
            println!("by hand and ours agree on {}", stored::agree());
            return println!("{}", stored::table(rounds));
        }
        Ok("allowances") => return println!("{}", lines(&rows_of(rows::allowances(), rounds), |f| vec![f.line()])),
        _ => {}
    }
    let (done, refused) = check::agree();
    let texts = stored::agree();
    println!("by hand and ours agree in {done} random calls that were done and {refused} that were refused, and on {texts}");
    let [containers, allowances, vectors] = [rows::containers(), rows::allowances(), rows::vectors()].map(|rows| rows_of(rows, rounds));
    let table = lines(&containers, |f| vec![f.line()]);
    let limits = lines(&containers, |f| f.limit().into_iter().collect());
    let within = lines(&allowances, |f| vec![f.line()]);
    let others = lines(&vectors, |f| vec![f.line()]);
    let short: Vec<String> = [&containers, &allowances, &vectors].into_iter().flatten().flat_map(Found::short).collect();
    println!("{table}\n\n{limits}\n\n{within}\n\n{others}\n");
    let stored = stored::table(rounds);
    println!("{stored}\n");
    let records = records::table(rounds);
    println!("{records}");
    let Some(file) = args.get(2) else { return };
    let (checked, refused) = ((done + refused).to_string(), refused.to_string());
    let measured = [("{table}", &*table), ("{limits}", &*limits), ("{allowances}", &*within), ("{others}", &*others), ("{short}", &*short.join("\n")), ("{stored}", &*stored), ("{texts}", &*texts), ("{records}", &*records), ("{checked}", &*checked), ("{refused}", &*refused)];
    std::fs::write(file, paper(rounds, &measured)).expect("the paper cannot be written");
}
