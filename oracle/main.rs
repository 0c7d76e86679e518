// The Rust side of the comparison: makes cases of `replay`, answers them with VecDeque, Vec and paper 01's rules, and compares.
mod allowance;
mod best;
mod by_hand;
mod compare;
mod damaged;
mod desk;
mod exhaust;
mod fixed;
mod format;
mod large;
mod lists;
mod ops;
mod pen;
mod random;
mod rng;
mod rules;
mod selfcheck;
mod stored;
mod tally;
mod texts;
mod texts_by_hand;
mod totals;
mod wrong;
mod wrong_allowance;
mod wrong_kept;
mod wrong_texts;

use std::io::{BufRead, Write};
use std::process::exit;

const USAGE: &str = "oracle selfcheck             paper 01's trays and a few more, against results written by hand; wrong rules of a total, an allowance, a text
oracle fixed DIR             writes the fixed list: DIR/stdin and what it must print, DIR/stdout
oracle best REPLAY           tries on all small rings that no layout moves fewer plates than an insertion or removal does
oracle compare REPLAY [M]    compares the program REPLAY on all short cases and on random ones, M million calls in all (5)
oracle answer                prints what the lines of the input must print";

fn main() {
    let args: Vec<String> = std::env::args().skip(1).collect();
    let args: Vec<&str> = args.iter().map(String::as_str).collect();
    let done = match args[..] {
        ["selfcheck"] => selfcheck::run(),
        ["fixed", dir] => fixed::run(dir),
        ["best", replay] => best::run(replay),
        ["compare", replay] => compare::run(replay, 5.0),
        ["compare", replay, millions] => match millions.parse() {
            Ok(millions) => compare::run(replay, millions),
            Err(_) => Err(format!("{millions} is no number of millions")),
        },
        ["answer"] => answer(),
        _ => Err(USAGE.to_string()),
    };
    if let Err(words) = done {
        eprintln!("{words}");
        exit(1);
    }
}

fn answer() -> Result<(), String> {
    let (mut desk, mut out) = (desk::Desk::default(), Vec::new());
    let (mut input, mut output) = (std::io::stdin().lock(), std::io::stdout().lock());
    loop {
        let mut line = Vec::new();
        if input.read_until(b'\n', &mut line).map_err(|e| e.to_string())? == 0 {
            return output.write_all(&out).map_err(|e| e.to_string());
        }
        desk.take(line.strip_suffix(b"\n").unwrap_or(&line), &mut out);
        if out.len() > 1 << 16 {
            output.write_all(&out).map_err(|e| e.to_string())?;
            out.clear();
        }
    }
}
