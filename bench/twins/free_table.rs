//! A table in the layout that is fastest: it borrows the bytes of the file, and keeps where its rows and readings stand in
//! them. It is read in one pass, after one that counts the lines. A file that has quotes, carriage returns or a mark, or
//! that is refused, is left to the plain twin.
#![allow(dead_code)]

use crate::cutter::{Cutter, LONGEST};
use crate::number::{Extra, units};
use crate::reader::{Form, SEP, WHOLE, is_missing, read_header, ticks};
use crate::rows::Header;
use crate::words::{end_in, field_end, short_number, word_at};
use std::ops::Range;

const MOST_UNITS: i64 = 1_000_000_000_000_000;

/// Decimals with which no short number leaves the range of 64 bits.
const FEW_DECIMALS: usize = 9;

const TENS: [i64; FEW_DECIMALS + 1] =
    [1, 10, 100, 1000, 10_000, 100_000, 1_000_000, 10_000_000, 100_000_000, 1_000_000_000];

/// Where a row begins in the file, and how many readings stand before it.
#[derive(Clone, Copy)]
pub struct Row {
    pub from: u32,
    pub first: u32,
}

/// The cell of a reading: where it begins in its row, how long it is, and its column, counted from 0.
pub struct Cell {
    pub from: u16,
    pub len: u8,
    pub col: u8,
}

pub struct FreeTable<'a> {
    pub bytes: &'a [u8],
    pub header: Header,
    /// Where the header stands.
    pub header_from: usize,
    pub header_to: usize,
    /// The rows, and behind them one that would begin where the line after the last row does.
    pub rows: Vec<Row>,
    pub ticks: Vec<i64>,
    /// The cell of each reading, and its value.
    pub cells: Vec<Cell>,
    pub values: Vec<i64>,
}

/// The table of a file without quotes, carriage returns and a mark, unless it is refused.
pub fn read_free<'a>(bytes: &'a [u8], form: &Form) -> Option<FreeTable<'a>> {
    let lines = plain_lines(bytes)?;
    let header_from = bytes.iter().position(|byte| *byte != b'\n')?;
    let header_to = line_end(bytes, header_from);
    let header = plain_header(&bytes[header_from..header_to], form)?;
    let most = lines.min(WHOLE.rows as usize);
    let readings = (most * header.from_left.len()).min(WHOLE.readings as usize);
    let mut table = FreeTable {
        bytes,
        header_from,
        header_to,
        rows: Vec::with_capacity(most + 1),
        ticks: Vec::with_capacity(most),
        cells: Vec::with_capacity(readings),
        values: Vec::with_capacity(readings),
        header,
    };
    let (gaps, rest) = gaps(&table.header);
    let mut at = header_to + 1;
    let mut next = at;
    while at < bytes.len() {
        if bytes[at] != b'\n' {
            at = table.take_row(at, &gaps, rest, form.decimals)?;
            next = at + 1;
        }
        at += 1;
    }
    table.rows.push(Row { from: next as u32, first: table.values.len() as u32 });
    Some(table)
}

/// How many lines there are, unless a byte of them is a quote or a carriage return.
fn plain_lines(bytes: &[u8]) -> Option<usize> {
    if bytes.len() >= u32::MAX as usize {
        return None;
    }
    let mut lines = 1;
    let mut special = false;
    for piece in bytes.chunks(192) {
        let (mut feeds, mut others) = (0u8, 0u8);
        for byte in piece {
            feeds += u8::from(*byte == b'\n');
            others |= u8::from(*byte == b'"') | u8::from(*byte == b'\r');
        }
        lines += usize::from(feeds);
        special |= others != 0;
    }
    (!special).then_some(lines)
}

fn line_end(bytes: &[u8], from: usize) -> usize {
    bytes[from..].iter().position(|byte| *byte == b'\n').map_or(bytes.len(), |len| from + len)
}

/// The header of a line that does not begin as a mark does.
fn plain_header(line: &[u8], form: &Form) -> Option<Header> {
    if line[0] == 0xEF || line.len() >= LONGEST as usize {
        return None;
    }
    let mut cutter = Cutter::new(SEP);
    cutter.feed_slice(line).answer.ok()?;
    read_header(cutter.finish().ok()??, form).ok()
}

/// How many fields stand before each sensor column since the last one or the time, and how many stand after the last.
fn gaps(header: &Header) -> (Vec<u32>, u32) {
    let mut gaps = Vec::new();
    let mut last = header.time_col;
    for col in &header.from_left {
        gaps.push(col - last - 1);
        last = *col;
    }
    (gaps, header.fields.ends.len() as u32 - last)
}

/// A short number in units of so many decimals.
fn short_units(word: u64, len: usize, decimals: u32) -> Option<i64> {
    let (size, after) = short_number(word, len)?;
    Some(size * TENS.get((decimals as usize).checked_sub(after)?)?)
}

impl FreeTable<'_> {
    /// Where the bytes of a row stand, without its line feed. Empty lines may stand between it and the next one.
    pub fn range(&self, row: Row, next: Row) -> Range<usize> {
        let mut to = next.from as usize - 1;
        while self.bytes[to - 1] == b'\n' {
            to -= 1;
        }
        row.from as usize..to
    }

    /// Takes the row that begins at a place, unless it is refused, and gives where it ends.
    fn take_row(&mut self, from: usize, gaps: &[u32], rest: u32, decimals: u32) -> Option<usize> {
        self.rows.push(Row { from: from as u32, first: self.values.len() as u32 });
        let mut at = self.take_ticks(from)?;
        let mut col = 0;
        for gap in gaps {
            at = self.skip(at, *gap)?;
            col += gap + 1;
            at = self.take_cell(from, at, col as u8, decimals)?;
        }
        at = self.skip(at, rest)?;
        let is_row = self.bytes.get(at).is_none_or(|byte| *byte == b'\n')
            && at - from < LONGEST as usize
            && self.rows.len() <= WHOLE.rows as usize
            && self.values.len() as u64 <= WHOLE.readings;
        is_row.then_some(at)
    }

    /// Takes the time at a place, and gives where it ends.
    fn take_ticks(&mut self, from: usize) -> Option<usize> {
        let word = word_at(self.bytes, from);
        let len = end_in(word);
        let (time, to) = match short_units(word, len, 9) {
            Some(time) => (time, from + len),
            None => {
                let to = field_end(self.bytes, from);
                (ticks(&self.bytes[from..to]).ok()?, to)
            }
        };
        if self.ticks.last().is_some_and(|last| time <= *last) {
            return None;
        }
        self.ticks.push(time);
        Some(to)
    }

    /// Skips the separator and field at a place, and so many of them, and gives where they end.
    fn skip(&self, at: usize, count: u32) -> Option<usize> {
        let mut at = at;
        for _ in 0..count {
            at = field_end(self.bytes, self.field_after(at)?);
        }
        Some(at)
    }

    /// Where the field behind a separator begins.
    fn field_after(&self, at: usize) -> Option<usize> {
        (self.bytes.get(at) == Some(&SEP)).then_some(at + 1)
    }

    /// Takes the separator at a place and the reading behind it, if there is one, and gives where it ends.
    fn take_cell(&mut self, row: usize, at: usize, col: u8, decimals: u32) -> Option<usize> {
        let from = self.field_after(at)?;
        let word = word_at(self.bytes, from);
        let len = end_in(word);
        if len == 0 {
            return Some(from);
        }
        let (value, to) = match short_units(word, len, decimals) {
            Some(value) if (-MOST_UNITS..=MOST_UNITS).contains(&value) => (value, from + len),
            _ => {
                let to = field_end(self.bytes, from);
                let field = &self.bytes[from..to];
                if is_missing(field) {
                    return Some(to);
                }
                (units(field, decimals, Extra::Refuse).ok()?, to)
            }
        };
        self.cells.push(Cell { from: (from - row) as u16, len: (to - from) as u8, col });
        self.values.push(value);
        Some(to)
    }
}
