//! The plain twin of `series_csv`, of which files are read and written: it makes a readings file of 200,000 rows, of two
//! columns or of eight with three sensors, of which each misses every third reading. It reads it as a table, or writes the
//! table with the values that it read. Prints the picoseconds for a row, a sum that depends on all that was read or written,
//! and the bytes of the file.

mod cutter;
mod number;
mod number_text;
mod reader;
mod rows;
mod table_file;

use reader::{Form, read_table, table_text};
use std::time::Instant;
use table_file::{ROWS, file};

fn main() {
    let name = std::env::args().nth(1).unwrap_or_default();
    let wide = name.ends_with("-8");
    let bytes = file(if wide { 8 } else { 2 });
    let sensors: &[&[u8]] = if wide { &[b"a", b"b", b"c"] } else { &[b"a"] };
    let form = Form { sensors, decimals: 2 };
    let began = Instant::now();
    let table = read_table(&bytes, &form).unwrap();
    let mut nanos = began.elapsed().as_nanos() as u64;
    let mut sum = table.values.iter().fold(0i64, |sum, value| sum.wrapping_add(*value)) as u64;
    if name.starts_with("table-text") {
        let began = Instant::now();
        let text = table_text(&table, &form, &table.values);
        nanos = began.elapsed().as_nanos() as u64;
        sum = text.len() as u64;
    }
    println!("{} {sum} {}", nanos * 1000 / u64::from(ROWS), bytes.len());
}
