//! Cuts 100 MB of CSV with eight short columns by the plain twin of `record_cut::Cutter`. The text has the form that the
//! first word names, and is cut byte by byte or by slices. Prints the picoseconds for a byte and the number of fields and
//! of the bytes of first fields, added up.

mod cutter;

use cutter::{Cutter, Fields};
use std::time::Instant;

const BYTES: usize = 100_000_000;
const SLICE: usize = 65_536;

#[derive(Clone, Copy, PartialEq)]
enum Form {
    Plain,
    Quoted,
    CrLf,
}

fn text(form: Form) -> Vec<u8> {
    let mut bytes = Vec::with_capacity(BYTES + 100);
    let mut state: u64 = 1;
    let mut column = 0;
    while bytes.len() < BYTES || column != 0 {
        state = (state * 1_103_515_245 + 12_345) % (1 << 31);
        let number = (state >> 8) % 100_000;
        if form == Form::Quoted {
            bytes.push(b'"');
        }
        push_hundredths(&mut bytes, number);
        if form == Form::Quoted {
            bytes.push(b'"');
        }
        column += 1;
        if column == 8 {
            if form == Form::CrLf {
                bytes.push(b'\r');
            }
            bytes.push(b'\n');
            column = 0;
        } else {
            bytes.push(b',');
        }
    }
    bytes
}

fn push_hundredths(bytes: &mut Vec<u8>, number: u64) {
    if number >= 10_000 {
        bytes.push(digit(number / 10_000));
    }
    if number >= 1_000 {
        bytes.push(digit(number / 1_000));
    }
    bytes.push(digit(number / 100));
    bytes.push(b'.');
    bytes.push(digit(number / 10));
    bytes.push(digit(number));
}

fn digit(number: u64) -> u8 {
    b'0' + (number % 10) as u8
}

/// The number of fields and the length of the first.
fn size(fields: &Fields) -> usize {
    fields.ends.len() + fields.ends.first().map_or(0, |end| *end as usize)
}

fn cut_bytes(cutter: &mut Cutter, text: &[u8]) -> usize {
    let mut sum: usize = 0;
    for byte in text {
        if let Ok(Some(fields)) = cutter.feed(*byte) {
            sum += size(&fields);
        }
    }
    sum
}

fn cut_slices(cutter: &mut Cutter, text: &[u8]) -> usize {
    let mut sum: usize = 0;
    for slice in text.chunks(SLICE) {
        let mut rest = slice;
        while !rest.is_empty() {
            let taken = cutter.feed_slice(rest);
            if let Ok(Some(fields)) = &taken.answer {
                sum += size(fields);
            }
            rest = &rest[taken.count..];
        }
    }
    sum
}

fn main() {
    let name = std::env::args().nth(1).unwrap_or_default();
    let form = match name.split_once('-') {
        Some((_, "quoted")) => Form::Quoted,
        Some((_, "crlf")) => Form::CrLf,
        _ => Form::Plain,
    };
    let text = text(form);
    let began = Instant::now();
    let mut cutter = Cutter::new(b',');
    let mut sum = if name.starts_with("slices") {
        cut_slices(&mut cutter, &text)
    } else {
        cut_bytes(&mut cutter, &text)
    };
    if let Ok(Some(fields)) = cutter.finish() {
        sum += size(&fields);
    }
    let nanos = began.elapsed().as_nanos() as u64;
    println!("{} {sum}", nanos * 1000 / text.len() as u64);
}
