//! The plain twin of `cert_format`: certificates written and read, line by line, with no proof.
#![allow(dead_code)]

use crate::maker::{BoundName, Side};
use crate::number_text::{push_digits, push_text_of};
use crate::rows::Place;

const MOST_ROWS: u32 = 200_000;
const MOST_COLUMNS: u32 = 256;
const MOST_RULE: u32 = 1_000;
const MOST_AMOUNT: u128 = 1_000_000_000_000_000;

#[derive(Clone, Copy)]
pub struct SetLine {
    pub place: Place,
    pub value: i64,
}

#[derive(Clone, Copy)]
pub struct FlowItem {
    pub name: BoundName,
    pub amount: i64,
}

pub enum Cert {
    Repair { total: i128, sets: Vec<SetLine>, flow: Vec<FlowItem> },
    Priced { total: i128, paid: i128, sets: Vec<SetLine>, flow: Vec<FlowItem> },
    NoSeries { steps: Vec<BoundName> },
}

// ---- Writing.

pub fn write_cert(cert: &Cert) -> Vec<u8> {
    let mut text = Vec::new();
    match cert {
        Cert::Repair { total, sets, flow } => {
            text.extend_from_slice(b"screen-cert 1\nclaim repair\ntotal ");
            push_text_of(&mut text, *total, 0);
            push_lists(&mut text, sets, flow);
        }
        Cert::Priced { total, paid, sets, flow } => {
            text.extend_from_slice(b"screen-cert 2\nclaim repair\ntotal ");
            push_text_of(&mut text, *total, 0);
            text.extend_from_slice(b"\npaid ");
            push_text_of(&mut text, *paid, 0);
            push_lists(&mut text, sets, flow);
        }
        Cert::NoSeries { steps } => {
            text.extend_from_slice(b"screen-cert 1\nclaim none\n");
            for name in steps {
                text.extend_from_slice(b"step ");
                push_name(&mut text, *name);
                text.push(b'\n');
            }
        }
    }
    text.extend_from_slice(b"end\n");
    text
}

fn push_lists(text: &mut Vec<u8>, sets: &[SetLine], flow: &[FlowItem]) {
    text.push(b'\n');
    for set in sets {
        text.extend_from_slice(b"set ");
        push_number(text, set.place.row);
        push_number(text, set.place.col);
        if set.value < 0 {
            text.push(b'-');
        }
        push_digits(text, set.value.unsigned_abs());
        text.push(b'\n');
    }
    for item in flow {
        text.extend_from_slice(b"flow ");
        push_name(text, item.name);
        text.push(b' ');
        push_digits(text, item.amount as u64);
        text.push(b'\n');
    }
}

fn push_name(text: &mut Vec<u8>, name: BoundName) {
    push_number(text, name.rule);
    push_number(text, name.from_row);
    push_number(text, name.to_row);
    push_number(text, name.col);
    text.extend_from_slice(match name.side {
        Side::Up => b"up",
        Side::Down => b"down",
    });
}

fn push_number(text: &mut Vec<u8>, number: u32) {
    push_digits(text, u64::from(number));
    text.push(b' ');
}

// ---- Reading.

#[derive(Clone, Copy, PartialEq)]
enum Version {
    One,
    Two,
}

enum Line {
    Header(Version),
    ClaimRepair,
    ClaimNone,
    Total(i128),
    Paid(i128),
    Set(SetLine),
    Flow(FlowItem),
    Step(BoundName),
    End,
}

fn split_at(bytes: &[u8], byte: u8) -> Option<(&[u8], &[u8])> {
    let index = bytes.iter().position(|other| *other == byte)?;
    Some((&bytes[..index], &bytes[index + 1..]))
}

fn number_of(word: &[u8], most_digits: usize) -> Option<u128> {
    if word.is_empty() || word.len() > most_digits || (word.len() > 1 && word[0] == b'0') {
        return None;
    }
    let mut value = 0;
    for byte in word {
        if !byte.is_ascii_digit() {
            return None;
        }
        value = value * 10 + u128::from(*byte - b'0');
    }
    Some(value)
}

fn number_then(bytes: &[u8], least: u32, most: u32) -> Option<(u32, &[u8])> {
    let (word, rest) = split_at(bytes, b' ')?;
    let number = number_of(word, 10)?;
    (u128::from(least) <= number && number <= u128::from(most)).then_some((number as u32, rest))
}

fn value_spelled(word: &[u8]) -> Option<i64> {
    match word.strip_prefix(b"-") {
        None => Some(number_of(word, 18)? as i64),
        Some(digits) => number_of(digits, 18).filter(|size| *size != 0).map(|size| -(size as i64)),
    }
}

fn set_of(fields: &[u8]) -> Option<SetLine> {
    let (row, rest) = number_then(fields, 1, MOST_ROWS)?;
    let (col, rest) = number_then(rest, 1, MOST_COLUMNS)?;
    Some(SetLine { place: Place { row, col }, value: value_spelled(rest)? })
}

fn name_at(bytes: &[u8]) -> Option<(BoundName, &[u8])> {
    let (rule, rest) = number_then(bytes, 0, MOST_RULE)?;
    let (from_row, rest) = number_then(rest, 1, MOST_ROWS)?;
    let (to_row, rest) = number_then(rest, 1, MOST_ROWS)?;
    let (col, rest) = number_then(rest, 1, MOST_COLUMNS)?;
    let (side, rest) = match rest.strip_prefix(b"up") {
        Some(rest) => (Side::Up, rest),
        None => (Side::Down, rest.strip_prefix(b"down")?),
    };
    Some((BoundName { rule, from_row, to_row, col, side }, rest))
}

fn item_of(fields: &[u8]) -> Option<FlowItem> {
    let (name, rest) = name_at(fields)?;
    let amount = number_of(rest.strip_prefix(b" ")?, 16)?;
    (amount != 0 && amount <= MOST_AMOUNT).then_some(FlowItem { name, amount: amount as i64 })
}

fn step_of(fields: &[u8]) -> Option<BoundName> {
    let (name, rest) = name_at(fields)?;
    rest.is_empty().then_some(name)
}

fn line_of(bytes: &[u8]) -> Option<Line> {
    if let Some(fields) = bytes.strip_prefix(b"flow ") {
        return item_of(fields).map(Line::Flow);
    }
    if let Some(fields) = bytes.strip_prefix(b"set ") {
        return set_of(fields).map(Line::Set);
    }
    if let Some(fields) = bytes.strip_prefix(b"step ") {
        return step_of(fields).map(Line::Step);
    }
    if let Some(word) = bytes.strip_prefix(b"total ") {
        return number_of(word, 30).map(|number| Line::Total(number as i128));
    }
    if let Some(word) = bytes.strip_prefix(b"paid ") {
        return number_of(word, 30).map(|number| Line::Paid(number as i128));
    }
    match bytes {
        b"screen-cert 1" => Some(Line::Header(Version::One)),
        b"screen-cert 2" => Some(Line::Header(Version::Two)),
        b"claim repair" => Some(Line::ClaimRepair),
        b"claim none" => Some(Line::ClaimNone),
        b"end" => Some(Line::End),
        _ => None,
    }
}

/// What was read so far.
enum Draft {
    Empty,
    Headed(Version),
    Claimed(Version),
    Totalled(i128),
    Listed(Cert),
    Ended(Cert),
}

fn place_key(line: &SetLine) -> [u32; 2] {
    [line.place.row, line.place.col]
}

fn name_key(item: &FlowItem) -> [u32; 5] {
    let name = item.name;
    [name.rule, name.from_row, name.to_row, name.col, u32::from(name.side == Side::Down)]
}

/// Adds a set line or a flow line, if it follows those before it.
fn add_item(sets: &mut Vec<SetLine>, flow: &mut Vec<FlowItem>, line: Line) -> bool {
    match line {
        Line::Set(set) if flow.is_empty() && sets.last().is_none_or(|last| place_key(last) < place_key(&set)) => {
            sets.push(set);
            true
        }
        Line::Flow(item) if flow.last().is_none_or(|last| name_key(last) < name_key(&item)) => {
            flow.push(item);
            true
        }
        _ => false,
    }
}

fn add_line(cert: &mut Cert, line: Line) -> bool {
    match cert {
        Cert::Repair { sets, flow, .. } | Cert::Priced { sets, flow, .. } => add_item(sets, flow, line),
        Cert::NoSeries { steps } => {
            let Line::Step(name) = line else { return false };
            steps.push(name);
            true
        }
    }
}

fn next(draft: Draft, line: Line) -> Option<Draft> {
    match (draft, line) {
        (Draft::Empty, Line::Header(version)) => Some(Draft::Headed(version)),
        (Draft::Headed(version), Line::ClaimRepair) => Some(Draft::Claimed(version)),
        (Draft::Headed(Version::One), Line::ClaimNone) => Some(Draft::Listed(Cert::NoSeries { steps: Vec::new() })),
        (Draft::Claimed(Version::One), Line::Total(total)) => {
            Some(Draft::Listed(Cert::Repair { total, sets: Vec::new(), flow: Vec::new() }))
        }
        (Draft::Claimed(Version::Two), Line::Total(total)) => Some(Draft::Totalled(total)),
        (Draft::Totalled(total), Line::Paid(paid)) => {
            Some(Draft::Listed(Cert::Priced { total, paid, sets: Vec::new(), flow: Vec::new() }))
        }
        (Draft::Listed(Cert::NoSeries { steps }), Line::End) if steps.is_empty() => None,
        (Draft::Listed(cert), Line::End) => Some(Draft::Ended(cert)),
        _ => None,
    }
}

/// Takes a line, if it may come here.
fn take(draft: &mut Draft, line: Line) -> bool {
    match draft {
        Draft::Listed(cert) if !matches!(line, Line::End) => add_line(cert, line),
        _ => match next(std::mem::replace(draft, Draft::Empty), line) {
            Some(after) => {
                *draft = after;
                true
            }
            None => false,
        },
    }
}

/// The certificate, or the number of the first line that is not as a certificate has it.
pub fn read_cert(bytes: &[u8]) -> Result<Cert, u32> {
    let mut draft = Draft::Empty;
    let mut rest = bytes;
    let mut number = 1;
    while let Some((line, after)) = split_at(rest, b'\n') {
        if !line_of(line).is_some_and(|line| take(&mut draft, line)) {
            return Err(number);
        }
        rest = after;
        number += 1;
    }
    match draft {
        Draft::Ended(cert) if rest.is_empty() => Ok(cert),
        _ => Err(number),
    }
}
