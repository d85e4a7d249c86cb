//! Writes the files on which the whole program is measured: rules and readings of one kind, drawn from a seed.
//!
//! usage: files KIND READINGS FOLDER, which writes FOLDER/rules.toml and FOLDER/readings.csv
//!
//! The kind `stream-SECONDS` has a rule with that window, or none where it is 0.

use std::fmt::Write;

/// The linear congruential generator of Knuth's MMIX.
struct Draws(u64);

impl Draws {
    fn below(&mut self, end: u64) -> u64 {
        self.0 = self.0.wrapping_mul(6364136223846793005).wrapping_add(1442695040888963407);
        (self.0 >> 33) % end
    }

    /// A whole number from -most to most.
    fn around(&mut self, most: i64) -> i64 {
        self.below(2 * most as u64 + 1) as i64 - most
    }
}

/// What stands before the seconds in the name of a kind.
const STREAM: &str = "stream-";

const FORMAT: &str = "[format]\ndecimals = 0\n";

const SPEED: &str = "[[speed]]\nsensor = \"level\"\nmin = -2\nmax = 2\nwindow = 10\n";

fn trust(moment: usize) -> String {
    format!("[[trust]]\nsensor = \"level\"\nfrom = {moment}\nto = {moment}\n")
}

fn rules(kind: &str, readings: usize) -> String {
    let mut text = format!("{FORMAT}\n{SPEED}");
    match kind {
        "stream-0" => text = String::from(FORMAT),
        _ if kind.starts_with(STREAM) => text = text.replace("window = 10", &kind.replace(STREAM, "window = ")),
        "two" => {
            let other = SPEED.replace("level", "other");
            text += &format!("\n{other}\n[[between]]\nfirst = \"level\"\nsecond = \"other\"\nmin = 0\nmax = 50\n");
        }
        "blocked" => text += &format!("\n{}\n{}", trust(0), trust(readings - 1)),
        "below" => text += "\n[[range]]\nsensor = \"level\"\nmin = 0\nmax = 1000000\n",
        _ => {}
    }
    text
}

/// A walk whose steps are at most 2, between 1,000 and 900,000.
fn walk(readings: usize, draws: &mut Draws) -> Vec<i64> {
    let mut level = 100_000;
    let mut values = Vec::with_capacity(readings);
    for _ in 0..readings {
        level = (level + draws.around(2)).clamp(1_000, 900_000);
        values.push(level);
    }
    values
}

/// Replaces a share of the readings, given in percent, by what lies within `most` of them.
fn disturb(values: &mut [i64], percent: u64, most: i64, draws: &mut Draws) {
    for value in values {
        if draws.below(100) < percent {
            *value += draws.around(most);
        }
    }
}

fn values(kind: &str, readings: usize, draws: &mut Draws) -> Vec<i64> {
    let mut values = walk(readings, draws);
    match kind {
        "spikes" | "two" => disturb(&mut values, 2, 500, draws),
        _ if kind.starts_with(STREAM) => disturb(&mut values, 2, 500, draws),
        "noise5" => disturb(&mut values, 5, 100, draws),
        "noise20" => disturb(&mut values, 20, 100, draws),
        // The ends are trusted, and lie further apart than the level may go.
        "blocked" => values[readings - 1] = values[0] + 2 * readings as i64,
        // The rule lets the level climb by 4,000 in the 2,000 readings after the step.
        "step" => values[readings / 2..].iter_mut().for_each(|value| *value += 4_000),
        "below" => (1..=5).for_each(|part| values[part * readings / 6] = -7),
        _ => {}
    }
    values
}

fn main() {
    let words: Vec<String> = std::env::args().collect();
    let [_, kind, readings, folder] = words.as_slice() else { panic!("usage: files KIND READINGS FOLDER") };
    let readings = readings.parse().expect("a number of readings");
    let mut draws = Draws(20150531);
    // Of two sensors each has half of the readings.
    let rows = if kind == "two" { readings / 2 } else { readings };
    let first = values(kind, rows, &mut draws);
    let mut text = String::from(if kind == "two" { "time,level,other\n" } else { "time,level\n" });
    for (moment, value) in first.iter().enumerate() {
        write!(text, "{moment},{value}").unwrap();
        if kind == "two" {
            write!(text, ",{}", value + 25 + draws.around(1)).unwrap();
        }
        text.push('\n');
    }
    std::fs::write(format!("{folder}/rules.toml"), rules(kind, rows)).expect("a folder that can be written");
    std::fs::write(format!("{folder}/readings.csv"), text).expect("a folder that can be written");
}
