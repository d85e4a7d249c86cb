//! The plain twins of the types of `series_rows` and `series_csv`: rows and tables, with no proof.
#![allow(dead_code)]

use crate::cutter::Fields;

/// How many values stand in place.
const INLINE: usize = 4;

#[derive(Clone, Copy, Default)]
pub struct Reading {
    pub col: u32,
    pub value: i64,
}

/// A few values in place, and more of them in a vector.
pub enum Few<T> {
    Inline(u32, [T; INLINE]),
    Heap(Vec<T>),
}

impl<T: Copy + Default> Few<T> {
    pub fn new() -> Few<T> {
        Few::Inline(0, [T::default(); INLINE])
    }

    pub fn push(&mut self, value: T) {
        match self {
            Few::Inline(len, values) if (*len as usize) < INLINE => {
                values[*len as usize] = value;
                *len += 1;
            }
            Few::Inline(_, values) => {
                let mut all = values.to_vec();
                all.push(value);
                *self = Few::Heap(all);
            }
            Few::Heap(values) => values.push(value),
        }
    }

    pub fn as_slice(&self) -> &[T] {
        match self {
            Few::Inline(len, values) => &values[..*len as usize],
            Few::Heap(values) => values,
        }
    }
}

pub struct Header {
    pub fields: Fields,
    pub time_col: u32,
    /// The column of each sensor, in the order of the rules' numbers.
    pub sensor_cols: Vec<u32>,
    pub from_left: Vec<u32>,
}

pub struct Row {
    pub fields: Fields,
    pub ticks: i64,
    pub time_col: u32,
    pub readings: Few<Reading>,
    pub missing: Few<u32>,
}

#[derive(Clone, Copy)]
pub struct Place {
    pub row: u32,
    pub col: u32,
}

/// The size of a readings file: its bytes, and those of them that are line feeds.
#[derive(Clone, Copy)]
pub struct FileSize {
    bytes: usize,
    line_feeds: usize,
}

impl FileSize {
    pub fn of(bytes: &[u8]) -> FileSize {
        let mut line_feeds = 0;
        for piece in bytes.chunks(192) {
            let mut count = 0u8;
            for byte in piece {
                count += u8::from(*byte == b'\n');
            }
            line_feeds += usize::from(count);
        }
        FileSize { bytes: bytes.len(), line_feeds }
    }

    pub fn row_room(self) -> usize {
        self.line_feeds.min(self.bytes / 2).min(200_000)
    }

    pub fn reading_room(self, columns: usize) -> usize {
        self.row_room().saturating_mul(columns).min(self.bytes / 2).min(400_000)
    }

    pub fn text_room(self, readings: usize) -> usize {
        readings.saturating_mul(18).saturating_add(self.bytes).saturating_add(1)
    }
}

pub struct Table {
    pub header: Header,
    pub rows: Vec<Row>,
    pub places: Vec<Place>,
    pub values: Vec<i64>,
    pub starts: Vec<u32>,
    pub size: FileSize,
}

impl Table {
    /// No row, with room for those of a file of that size.
    pub fn with_room(header: Header, size: FileSize) -> Table {
        let rows = size.row_room();
        let readings = size.reading_room(header.from_left.len());
        Table {
            header,
            rows: Vec::with_capacity(rows),
            places: Vec::with_capacity(readings),
            values: Vec::with_capacity(readings),
            starts: Vec::with_capacity(rows),
            size,
        }
    }

    pub fn push(&mut self, row: Row) {
        let number = self.rows.len() as u32 + 1;
        self.starts.push(self.values.len() as u32);
        for reading in row.readings.as_slice() {
            self.places.push(Place { row: number, col: reading.col });
            self.values.push(reading.value);
        }
        self.rows.push(row);
    }

    /// The number of the reading at a place, counted from 0.
    pub fn index(&self, place: Place) -> Option<u32> {
        let r = place.row.checked_sub(1)? as usize;
        let row = self.rows.get(r)?;
        let within = row.readings.as_slice().iter().position(|reading| reading.col == place.col)?;
        Some(self.starts[r] + within as u32)
    }
}
