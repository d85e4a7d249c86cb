//! The text of a table that keeps where its readings stand: what stands between them is copied from the file.

use crate::free_table::FreeTable;
use crate::number_text::push_text_of;
use crate::reader::Form;
use crate::words::short_text;

/// How many bytes are copied at once, of which those after a run are written over.
const STEP: usize = 32;

/// No number takes more bytes.
const LONGEST_NUMBER: usize = 22;

/// A text that grows in room that was taken at once.
struct Text<'a> {
    file: &'a [u8],
    room: Vec<u8>,
    len: usize,
    number: Vec<u8>,
}

impl Text<'_> {
    fn push(&mut self, bytes: &[u8]) {
        self.room[self.len..][..bytes.len()].copy_from_slice(bytes);
        self.len += bytes.len();
    }

    /// Adds a run of bytes of the file.
    fn push_run(&mut self, from: usize, to: usize) {
        let run = &self.file[from..];
        let (run_len, room) = (to - from, &mut self.room[self.len..]);
        match (run.first_chunk::<STEP>(), room.first_chunk_mut::<STEP>()) {
            (Some(run), Some(room)) if run_len <= STEP => *room = *run,
            _ => room[..run_len].copy_from_slice(&run[..run_len]),
        }
        self.len += run_len;
    }

    /// Adds the text of a value.
    fn push_number(&mut self, value: i64, decimals: u32) {
        let size = value.unsigned_abs();
        match self.room[self.len..].first_chunk_mut::<9>() {
            Some(room) if size < 10_000_000 && decimals <= 6 => {
                let (text, len) = short_text(size, decimals as usize);
                let sign = usize::from(value < 0);
                room[0] = b'-';
                room[sign..sign + 8].copy_from_slice(&text.to_le_bytes());
                self.len += sign + len;
            }
            _ => self.push_long(value, decimals),
        }
    }

    #[cold]
    fn push_long(&mut self, value: i64, decimals: u32) {
        let mut number = std::mem::take(&mut self.number);
        number.clear();
        push_text_of(&mut number, i128::from(value), decimals);
        self.push(&number);
        self.number = number;
    }
}

/// The text of the table, in which each reading is the text of its value in the series.
pub fn free_text(table: &FreeTable, form: &Form, series: &[i64]) -> Vec<u8> {
    let room = table.bytes.len() + 1 + series.len() * LONGEST_NUMBER + STEP;
    let mut text = Text { file: table.bytes, room: vec![0; room], len: 0, number: Vec::new() };
    let mut next = table.header_from;
    let mut end = table.header_to;
    let mut readings = table.cells.iter().zip(series);
    for (row, after) in table.rows.iter().zip(&table.rows[1..]) {
        let from = row.from as usize;
        // Empty lines are left out.
        if from != end + 1 {
            text.push_run(next, end + 1);
            next = from;
        }
        for (cell, value) in readings.by_ref().take((after.first - row.first) as usize) {
            let cell_from = from + usize::from(cell.from);
            text.push_run(next, cell_from);
            text.push_number(*value, form.decimals);
            next = cell_from + usize::from(cell.len);
        }
        end = table.range(*row, *after).end;
    }
    text.push_run(next, end);
    text.push(b"\n");
    text.room.truncate(text.len);
    text.room
}
