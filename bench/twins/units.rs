//! Makes ten million short decimal texts of two decimals or fewer, reads each with two decimals by the plain twin of
//! `fix_point::units`, and prints the picoseconds for each text and the sum of the values.

mod number;

use number::{Extra, NumFault, units};
use std::time::Instant;

const TEXTS: usize = 10_000_000;

/// Texts such as `-123.45`, `123.4` and `123`, one after the other, and where each ends.
fn texts() -> (Vec<u8>, Vec<usize>) {
    let mut bytes = Vec::with_capacity(TEXTS * 8);
    let mut ends = Vec::with_capacity(TEXTS);
    let mut state: u64 = 1;
    for _ in 0..TEXTS {
        state = (state * 1_103_515_245 + 12_345) % (1 << 31);
        let number = (state >> 8) % 100_000;
        if state >> 30 == 1 {
            bytes.push(b'-');
        }
        let whole = number / 100;
        if whole >= 100 {
            bytes.push(b'0' + (whole / 100) as u8);
        }
        if whole >= 10 {
            bytes.push(b'0' + (whole / 10 % 10) as u8);
        }
        bytes.push(b'0' + (whole % 10) as u8);
        bytes.push(b'.');
        bytes.push(b'0' + (number / 10 % 10) as u8);
        bytes.push(b'0' + (number % 10) as u8);
        // A half of the texts have fewer decimals.
        bytes.truncate(bytes.len() - [3, 1, 0, 0][(state >> 28 & 3) as usize]);
        ends.push(bytes.len());
    }
    (bytes, ends)
}

fn main() {
    // One answer of each kind, so that no part is dropped by the compiler.
    let _ = (units(b"1e-9", 2, Extra::Round), NumFault::NotNumber);
    let (bytes, ends) = texts();
    let began = Instant::now();
    let mut sum: i64 = 0;
    let mut from = 0;
    for end in &ends {
        sum = sum.wrapping_add(units(&bytes[from..*end], 2, Extra::Refuse).unwrap_or(0));
        from = *end;
    }
    let nanos = began.elapsed().as_nanos() as u64;
    println!("{} {sum}", nanos * 1000 / TEXTS as u64);
}
