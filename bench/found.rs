// A row as it came out: its lines in the tables, and what of it falls short.
use crate::rows::{Row, BEYOND};
use crate::CAPS;

// The sides of a row.
pub const OURS: usize = 0;
pub const THEIRS: usize = 1;
const BY_HAND: usize = 2;
const DEMANDED: usize = 3;

pub type Round = [f64; 4]; // nanoseconds of each side that the row has

// Beside by hand and the limit 1.00 is to be reached. So far above it both are level: runs differ by as much.
const LEVEL: f64 = 1.05;

pub fn median(xs: &mut [f64]) -> f64 {
    xs.sort_by(f64::total_cmp);
    xs[xs.len() / 2]
}

pub struct Found {
    pub row: Row,
    pub times: [Vec<Round>; 3],
}

fn limit(r: &Round) -> f64 {
    r[THEIRS] + r[DEMANDED]
}

fn shown(ratios: [f64; 3]) -> String {
    ratios.map(|r| if r < 0.1 { format!("{r:.3}") } else { format!("{r:.2}") }).join(" / ")
}

// The capacities at which a ratio is above what is to be reached.
fn over(ratios: [f64; 3], most: [f64; 3]) -> Option<String> {
    let caps: Vec<String> = (0..3).filter(|&c| ratios[c] > most[c] + 0.005).map(|c| CAPS[c].to_string()).collect();
    (!caps.is_empty()).then(|| caps.join(", "))
}

impl Found {
    fn of(&self, number: fn(&Round) -> f64) -> [f64; 3] {
        [0, 1, 2].map(|at| median(&mut self.times[at].iter().map(number).collect::<Vec<_>>()))
    }

    fn to_theirs(&self) -> [f64; 3] {
        self.of(|r| r[OURS] / r[THEIRS])
    }

    fn to_hand(&self) -> [f64; 3] {
        self.of(|r| r[OURS] / r[BY_HAND])
    }

    fn to_limit(&self) -> [f64; 3] {
        self.of(|r| r[OURS] / limit(r))
    }

    fn spans(&self, sides: &[[f64; 3]]) -> String {
        [0, 1, 2].map(|at| sides.iter().map(|side| format!("{:.1}", side[at])).collect::<Vec<_>>().join(" / ")).join(" | ")
    }

    fn has_hand(&self) -> bool {
        self.times[0][0][BY_HAND] > 0.0
    }

    pub fn line(&self) -> String {
        let mut spent = vec![self.of(|r| r[OURS]), self.of(|r| r[THEIRS])];
        if !self.has_hand() {
            return format!("| {} | {} | {} |", self.row.name, shown(self.to_theirs()), self.spans(&spent));
        }
        spent.push(self.of(|r| r[BY_HAND]));
        format!("| {} | {} | {} | {} |", self.row.name, shown(self.to_theirs()), shown(self.to_hand()), self.spans(&spent))
    }

    // Rust's time and what the rules demand beyond it, where they do.
    pub fn limit(&self) -> Option<String> {
        self.row.demanded?;
        let spent = [self.of(|r| r[OURS]), self.of(limit), self.of(|r| r[DEMANDED])];
        Some(format!("| {} | {} | {} | {} |", self.row.name, shown(self.of(|r| limit(r) / r[THEIRS])), shown(self.to_limit()), self.spans(&spent)))
    }

    pub fn short(&self) -> Vec<String> {
        let mut found = vec![(self.row.beside, over(self.to_theirs(), self.row.most), self.row.why)];
        if self.has_hand() {
            found.push(("by hand", over(self.to_hand(), [LEVEL; 3]), self.row.by_hand));
        }
        if self.row.demanded.is_some() {
            found.push(("the limit", over(self.to_limit(), [LEVEL; 3]), BEYOND));
        }
        found.into_iter().filter_map(|(beside, at, why)| at.map(|at| format!("| {} | {beside} | {at} | {why} |", self.row.name))).collect()
    }
}
