//! The second plain twin of `series_csv`: it does what `table.rs` does, on the same files, in the layout that is fastest.
//! It prints the same sums, the picoseconds for a row before them, and the bytes of the file after them.

mod cutter;
mod free_table;
mod free_text;
mod number;
mod number_text;
mod reader;
mod rows;
mod table_file;
mod words;

use free_table::{FreeTable, read_free};
use free_text::free_text;
use reader::{Form, TableFault, read_table, table_text};
use rows::Table;
use std::time::Instant;
use table_file::{ROWS, file};

/// A table that borrows the file, or one that the plain twin read.
enum AnyTable<'a> {
    Free(FreeTable<'a>),
    Owned(Table),
}

impl<'a> AnyTable<'a> {
    fn read(bytes: &'a [u8], form: &Form) -> Result<AnyTable<'a>, TableFault> {
        match read_free(bytes, form) {
            Some(table) => Ok(AnyTable::Free(table)),
            None => read_table(bytes, form).map(AnyTable::Owned),
        }
    }

    fn values(&self) -> &[i64] {
        match self {
            AnyTable::Free(table) => &table.values,
            AnyTable::Owned(table) => &table.values,
        }
    }

    fn text(&self, form: &Form, series: &[i64]) -> Vec<u8> {
        match self {
            AnyTable::Free(table) => free_text(table, form, series),
            AnyTable::Owned(table) => table_text(table, form, series),
        }
    }
}

fn main() {
    let name = std::env::args().nth(1).unwrap_or_default();
    let wide = name.ends_with("-8");
    let bytes = file(if wide { 8 } else { 2 });
    let sensors: &[&[u8]] = if wide { &[b"a", b"b", b"c"] } else { &[b"a"] };
    let form = Form { sensors, decimals: 2 };
    let began = Instant::now();
    let table = AnyTable::read(&bytes, &form).unwrap();
    let mut nanos = began.elapsed().as_nanos() as u64;
    let mut sum = table.values().iter().fold(0i64, |sum, value| sum.wrapping_add(*value)) as u64;
    if name.starts_with("table-text") {
        let began = Instant::now();
        let text = table.text(&form, table.values());
        nanos = began.elapsed().as_nanos() as u64;
        sum = text.len() as u64;
    }
    println!("{} {sum} {}", nanos * 1000 / u64::from(ROWS), bytes.len());
}
