//! The plain twin of `series_rows` and `series_csv`: the same types, the same checks and the same texts, with no proof.
#![allow(dead_code)]

use crate::cutter::{Cutter, Fault, Fields};
use crate::number::{Extra, NumFault, scaled, units};
use crate::number_text::push_text_of;
use crate::rows::{Few, FileSize, Header, Reading, Row, Table};

pub const SEP: u8 = b',';
const MOST_COLUMNS: u32 = 256;

/// What the rules say of a file.
pub struct Form<'a> {
    /// The names of the sensors, in the order of the rules' numbers.
    pub sensors: &'a [&'a [u8]],
    pub decimals: u32,
}

/// How much a readings file may hold.
#[derive(Clone, Copy)]
pub struct Limits {
    pub rows: u32,
    pub readings: u64,
}

/// A table that is kept whole.
pub const WHOLE: Limits = Limits { rows: 200_000, readings: 400_000 };

/// A stream.
pub const ENDLESS: Limits = Limits { rows: 4_000_000_000, readings: u64::MAX };

/// What stands before a row: how many rows, with how many readings, and the time of the last.
#[derive(Clone, Copy, Default)]
pub struct Before {
    pub rows: u32,
    pub readings: u64,
    pub ticks: Option<i64>,
}

impl Before {
    pub fn after(self, row: &Row) -> Before {
        let readings = self.readings + row.readings.as_slice().len() as u64;
        Before { rows: self.rows + 1, readings, ticks: Some(row.ticks) }
    }
}

#[derive(Debug)]
pub enum Cause {
    NoHeader,
    TooManyColumns,
    NoSuchSensor,
    NameTwice,
    TooManyRows,
    Width,
    Time(NumFault),
    TimeNotRising,
    Value(NumFault),
    TooManyReadings,
    Cut(Fault),
}

/// A readings file that is refused: why, and in which row and column, each counted from 1.
#[derive(Debug)]
pub struct TableFault {
    pub cause: Cause,
    pub row: u32,
    pub col: u32,
}

impl TableFault {
    pub fn at(row: u32, col: u32, cause: Cause) -> TableFault {
        TableFault { cause, row, col }
    }
}

impl Fields {
    fn width(&self) -> u32 {
        self.ends.len() as u32
    }

    fn at(&self, i: usize) -> &[u8] {
        let from = if i == 0 { 0 } else { self.ends[i - 1] as usize };
        &self.bytes[from..self.ends[i] as usize]
    }
}

fn is_blank(byte: u8) -> bool {
    byte == b' ' || byte == b'\t'
}

fn trimmed(mut text: &[u8]) -> &[u8] {
    while let [byte, rest @ ..] = text {
        if !is_blank(*byte) {
            break;
        }
        text = rest;
    }
    while let [rest @ .., byte] = text {
        if !is_blank(*byte) {
            break;
        }
        text = rest;
    }
    text
}

/// The only column that bears the name of a sensor, besides the time column.
fn column_of(fields: &Fields, sensor: &[u8]) -> Result<u32, TableFault> {
    let mut found = 0;
    for i in 1..fields.width() {
        if trimmed(fields.at(i as usize)) == sensor {
            if found != 0 {
                return Err(TableFault::at(0, i + 1, Cause::NameTwice));
            }
            found = i + 1;
        }
    }
    if found == 0 {
        return Err(TableFault::at(0, 0, Cause::NoSuchSensor));
    }
    Ok(found)
}

pub fn read_header(fields: Fields, form: &Form) -> Result<Header, TableFault> {
    if fields.width() > MOST_COLUMNS {
        return Err(TableFault::at(0, 0, Cause::TooManyColumns));
    }
    let mut sensor_cols = Vec::new();
    for sensor in form.sensors {
        sensor_cols.push(column_of(&fields, sensor)?);
    }
    let mut from_left = sensor_cols.clone();
    from_left.sort_unstable();
    from_left.dedup();
    Ok(Header { fields, time_col: 1, sensor_cols, from_left })
}

pub fn ticks(field: &[u8]) -> Result<i64, Cause> {
    scaled(trimmed(field), 9, Extra::Refuse, 9_000_000_000_000_000_000).map_err(Cause::Time)
}

/// Whether a sensor has no reading in a field.
pub fn is_missing(field: &[u8]) -> bool {
    matches!(trimmed(field), b"" | b"NaN" | b"nan" | b"NA" | b"null")
}

/// The row of the fields, after what stands before it.
pub fn read_row(
    fields: Fields,
    form: &Form,
    header: &Header,
    limits: Limits,
    before: Before,
) -> Result<Row, TableFault> {
    let number = before.rows + 1;
    let refused = |col, cause| TableFault::at(number, col, cause);
    if before.rows >= limits.rows {
        return Err(refused(0, Cause::TooManyRows));
    }
    if fields.width() != header.fields.width() {
        return Err(refused(0, Cause::Width));
    }
    let time_col = header.time_col;
    let ticks = ticks(fields.at(time_col as usize - 1)).map_err(|cause| refused(time_col, cause))?;
    if before.ticks.is_some_and(|last| ticks <= last) {
        return Err(refused(time_col, Cause::TimeNotRising));
    }
    let mut row = Row { fields, ticks, time_col, readings: Few::new(), missing: Few::new() };
    for col in &header.from_left {
        let field = row.fields.at(*col as usize - 1);
        if is_missing(field) {
            row.missing.push(*col);
        } else {
            let read = units(field, form.decimals, Extra::Refuse);
            let value = read.map_err(|fault| refused(*col, Cause::Value(fault)))?;
            row.readings.push(Reading { col: *col, value });
        }
    }
    if before.readings + row.readings.as_slice().len() as u64 > limits.readings {
        return Err(refused(0, Cause::TooManyReadings));
    }
    Ok(row)
}

pub fn read_table(bytes: &[u8], form: &Form) -> Result<Table, TableFault> {
    let size = FileSize::of(bytes);
    let mut cutter = Cutter::new(SEP);
    let mut table = None;
    let mut rest = bytes;
    while !rest.is_empty() {
        let taken = cutter.feed_slice(rest);
        rest = &rest[taken.count..];
        match taken.answer {
            Ok(Some(fields)) => take(&mut table, fields, form, size)?,
            Ok(None) => {}
            Err(fault) => return Err(uncut(fault, &table)),
        }
    }
    match cutter.finish() {
        Ok(Some(fields)) => take(&mut table, fields, form, size)?,
        Ok(None) => {}
        Err(fault) => return Err(uncut(fault, &table)),
    }
    table.ok_or(TableFault::at(0, 0, Cause::NoHeader))
}

/// The refusal of a record that is not cut off.
fn uncut(fault: Fault, table: &Option<Table>) -> TableFault {
    let number = table.as_ref().map_or(0, |table| table.rows.len() as u32 + 1);
    TableFault::at(number, 0, Cause::Cut(fault))
}

fn take(table: &mut Option<Table>, fields: Fields, form: &Form, size: FileSize) -> Result<(), TableFault> {
    match table {
        None => {
            let header = read_header(fields, form)?;
            *table = Some(Table::with_room(header, size));
        }
        Some(table) => {
            let ticks = table.rows.last().map(|row| row.ticks);
            let before = Before { rows: table.rows.len() as u32, readings: table.values.len() as u64, ticks };
            table.push(read_row(fields, form, &table.header, WHOLE, before)?);
        }
    }
    Ok(())
}

fn holds_special(field: &[u8]) -> bool {
    field.iter().any(|b| *b == SEP || matches!(b, b'"' | b'\r' | b'\n'))
}

fn push_field(text: &mut Vec<u8>, field: &[u8], first: bool, width: u32) {
    let mark = first && field.starts_with(&[0xEF, 0xBB, 0xBF]);
    if !(holds_special(field) || mark || first && field.is_empty() && width == 1) {
        text.extend_from_slice(field);
        return;
    }
    text.push(b'"');
    for byte in field {
        if *byte == b'"' {
            text.push(b'"');
        }
        text.push(*byte);
    }
    text.push(b'"');
}

/// Adds the fields of a row, in which each reading is the text of its value.
pub fn push_row(text: &mut Vec<u8>, form: &Form, fields: &Fields, readings: &[Reading], values: &[i64]) {
    let mut next = 0;
    for i in 0..fields.width() {
        if i > 0 {
            text.push(SEP);
        }
        if next < readings.len() && readings[next].col == i + 1 {
            push_text_of(text, i128::from(values[next]), form.decimals);
            next += 1;
        } else {
            push_field(text, fields.at(i as usize), i == 0, fields.width());
        }
    }
    text.push(b'\n');
}

pub fn table_text(table: &Table, form: &Form, series: &[i64]) -> Vec<u8> {
    let mut text = Vec::with_capacity(table.size.text_room(table.values.len()));
    push_row(&mut text, form, &table.header.fields, &[], &[]);
    let mut rest = series;
    for row in &table.rows {
        let readings = row.readings.as_slice();
        let (values, others) = rest.split_at(readings.len());
        push_row(&mut text, form, &row.fields, readings, values);
        rest = others;
    }
    text
}
