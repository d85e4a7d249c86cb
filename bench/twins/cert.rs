//! The plain twin of `cert_format` and `cert_check`: it makes 200,000 rows of two sensors, which two equal `range` rules each
//! hold below all that was read, and the certificate of their repair: 400,000 set lines, and 800,000 flow lines of 1. It
//! measures how long that takes to be read, written, or checked, and prints the picoseconds for a line and a number that
//! depends on what came of it.

mod certs;
mod costs;
mod cutter;
mod judge;
mod maker;
mod number;
mod number_text;
mod reader;
mod rows;

use certs::{Cert, read_cert, write_cert};
use judge::{Accepted, check};
use maker::{MOST_UNITS, RangeRule, Rules, WeightRule, make};
use number_text::push_text_of;
use reader::{Form, read_table};
use rows::Table;
use std::time::Instant;

const ROWS: u32 = 200_000;
const LINES: u64 = 1_200_000;

/// The greatest value that the rules allow.
const MOST: i64 = -100;

/// The readings file: a time in seconds, and hundredths of both sensors.
fn file() -> Vec<u8> {
    let mut bytes = b"time,a,b\n".to_vec();
    let mut state: u64 = 1;
    for row in 0..ROWS {
        bytes.extend_from_slice(row.to_string().as_bytes());
        for _ in 0..2 {
            state = (state * 1_103_515_245 + 12_345) % (1 << 31);
            bytes.push(b',');
            push_text_of(&mut bytes, i128::from((state >> 8) % 100_000), 2);
        }
        bytes.push(b'\n');
    }
    bytes
}

/// Two equal `range` rules and a weight of 2 for each sensor.
fn rules() -> Rules {
    let mut rules = Rules { decimals: 2, ..Rules::default() };
    for name in [b"a", b"b"] {
        for _ in 0..2 {
            let sensor = name.to_vec();
            rules.ranges.push(RangeRule { sensor, min: -MOST_UNITS, max: MOST, from: i64::MIN, to: i64::MAX, price: 0 });
        }
        rules.weights.push(WeightRule { sensor: name.to_vec(), weight: 2, from: i64::MIN, to: i64::MAX });
    }
    rules
}

/// The text of the certificate.
fn text(table: &Table) -> Vec<u8> {
    let total: i64 = table.values.iter().map(|value| 2 * (value - MOST)).sum();
    let mut text = format!("screen-cert 1\nclaim repair\ntotal {total}\n");
    for place in &table.places {
        text += &format!("set {} {} {MOST}\n", place.row, place.col);
    }
    for (rule, col) in [(1, 2), (2, 2), (3, 3), (4, 3)] {
        for row in 1..=ROWS {
            text += &format!("flow {rule} {row} {row} {col} up 1\n");
        }
    }
    text += "end\n";
    text.into_bytes()
}

/// The size of a repair: its lines, and its values and amounts, added up.
fn size(cert: &Cert) -> u64 {
    let Cert::Repair { sets, flow, .. } = cert else { return 0 };
    let values: u64 = sets.iter().map(|set| set.value.unsigned_abs()).sum();
    let amounts: u64 = flow.iter().map(|item| item.amount.unsigned_abs()).sum();
    values + amounts + sets.len() as u64 + flow.len() as u64
}

fn main() {
    let name = std::env::args().nth(1).unwrap_or_default();
    let form = Form { sensors: &[b"a", b"a", b"b", b"b", b"a", b"b"], decimals: 2 };
    let table = read_table(&file(), &form).unwrap();
    let rules = rules();
    let text = text(&table);
    let (nanos, answer) = match name.as_str() {
        "cert-check" => {
            let bounds = make(&table, &rules).unwrap();
            let began = Instant::now();
            let accepted = check(&table, &rules, &bounds, &text).unwrap();
            let nanos = began.elapsed().as_nanos();
            let Accepted::Repair { series, flow, total, paid } = accepted else { panic!("no repair") };
            (nanos, (series.len() + flow.len()) as u64 + (total + paid) as u64)
        }
        "cert-read" => {
            let began = Instant::now();
            let cert = read_cert(&text).unwrap();
            (began.elapsed().as_nanos(), size(&cert))
        }
        _ => {
            let cert = read_cert(&text).unwrap();
            let began = Instant::now();
            let written = write_cert(&cert);
            let nanos = began.elapsed().as_nanos();
            assert!(written == text);
            (nanos, written.len() as u64)
        }
    };
    println!("{} {answer}", nanos as u64 * 1000 / LINES);
}
