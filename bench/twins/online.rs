//! The plain twin of the command `online`: the same method on the same types, with no proof. It repairs the readings that
//! come on standard input by speed rules, and writes what is ready after a piece before it reads the next one. A refusal
//! is told on standard error, and the status is then 4.
//!
//! usage: online DECIMALS HOLD [SENSOR MIN MAX PER WINDOW]... < READINGS, with numbers as in a rule file

mod cutter;
mod number;
mod number_text;
mod reader;
mod rows;
mod window;

use cutter::{Cutter, Fault, Fields};
use number::{Extra, scaled};
use reader::{Before, Cause, ENDLESS, Form, SEP, TableFault, push_row, read_header, read_row};
use rows::{Header, Row};
use std::collections::VecDeque;
use std::io::{Read, Write, stdin, stdout};
use std::process::ExitCode;
use window::{Key, Line, Window};

const PIECE: usize = 64 * 1024;
const MOST_UNITS: u64 = 1_000_000_000_000_000;

/// A speed rule: the lines of its rates, and its window in ticks.
struct SpeedRule {
    min: Line,
    max: Line,
    window: u64,
}

/// Speed rules, one for each sensor of the form, and how many rows may be held.
struct Rules<'a> {
    form: Form<'a>,
    speeds: Vec<SpeedRule>,
    hold: usize,
}

#[derive(Debug)]
#[allow(dead_code)]
enum OnlineFault {
    Table(TableFault),
    WindowFull { row: u32 },
    NoWholeStep { row: u32, col: u32 },
    LeavesRange { row: u32, col: u32 },
}

/// The least and the greatest whole step in the ticks that were asked for last.
#[derive(Clone, Copy)]
struct Step {
    dt: u64,
    least: i64,
    greatest: i64,
}

/// The repair of one column.
struct Track<'a> {
    col: u32,
    rule: &'a SpeedRule,
    window: Window,
    step: Step,
    /// The last reading that was repaired, with its result.
    last: Option<Key>,
    /// The time of the last reading that was accepted.
    seen: Option<i64>,
    /// How many of the rows that are held, from the oldest on, were looked at for the window.
    next: usize,
}

impl<'a> Track<'a> {
    fn new(col: u32, rule: &'a SpeedRule, room: usize) -> Track<'a> {
        let window = Window::with_room(room, rule.min, rule.max);
        let step = Step { dt: 0, least: 0, greatest: 0 };
        Track { col, rule, window, step, last: None, seen: None, next: 0 }
    }

    /// The whole steps from a time to a later one that is not beyond the window.
    fn step_between(&mut self, before: i64, now: i64) -> Option<Step> {
        let dt = now.abs_diff(before);
        if dt > self.rule.window {
            return None;
        }
        if dt != self.step.dt {
            let (least, greatest) = (self.rule.min.least_step(dt as i64), self.rule.max.greatest_step(dt as i64));
            self.step = Step { dt, least, greatest };
        }
        Some(self.step)
    }

    /// Whether no whole step leads to a reading from the one before.
    fn lacks_step(&mut self, now: i64) -> bool {
        let step = self.seen.and_then(|before| self.step_between(before, now));
        step.is_some_and(|step| step.least > step.greatest)
    }

    /// The result for a reading of the oldest row, which has left those that are held.
    fn repair(&mut self, held: &VecDeque<Row>, own: Key) -> i64 {
        self.window.remove(own.ticks);
        self.look(held, own.ticks);
        let median = self.window.median(own);
        let value = self.last.map_or(median, |last| self.clamped(median, last, own.ticks));
        self.last = Some(Key { value, ticks: own.ticks });
        value
    }

    /// A value, clamped to what the steps allow after the last result, if that is within the window.
    fn clamped(&mut self, value: i64, last: Key, ticks: i64) -> i64 {
        let step = self.step_between(last.ticks, ticks);
        step.map_or(value, |step| value.min(last.value + step.greatest).max(last.value + step.least))
    }

    /// Brings the readings of the rows within the window after a time into the window.
    fn look(&mut self, held: &VecDeque<Row>, ticks: i64) {
        while let Some(row) = held.get(self.next) {
            if row.ticks.abs_diff(ticks) > self.rule.window {
                return;
            }
            if let Some(reading) = row.readings.as_slice().iter().find(|reading| reading.col == self.col) {
                self.window.insert(Key { value: reading.value, ticks: row.ticks });
            }
            self.next += 1;
        }
    }
}

/// What the repair of a file keeps after its header.
struct Engine<'a> {
    rules: &'a Rules<'a>,
    header: Header,
    before: Before,
    /// The greatest window.
    most: u64,
    tracks: Vec<Track<'a>>,
    /// The rows that are held.
    held: VecDeque<Row>,
    /// How many rows were written.
    written: u32,
    /// The values of the row that is being repaired.
    values: Vec<i64>,
}

impl<'a> Engine<'a> {
    fn new(rules: &'a Rules<'a>, header: Header) -> Engine<'a> {
        let columns = header.sensor_cols.iter().zip(&rules.speeds);
        let tracks = columns.map(|(col, rule)| Track::new(*col, rule, rules.hold)).collect();
        let most = rules.speeds.iter().map(|rule| rule.window).max().unwrap_or(0);
        let held = VecDeque::with_capacity(rules.hold);
        Engine { rules, header, before: Before::default(), most, tracks, held, written: 0, values: Vec::new() }
    }

    /// Takes the next row, and writes those that become ready.
    fn take(&mut self, fields: Fields, out: &mut Vec<u8>) -> Result<(), OnlineFault> {
        let read = read_row(fields, &self.rules.form, &self.header, ENDLESS, self.before);
        let row = read.map_err(OnlineFault::Table)?;
        self.before = self.before.after(&row);
        self.accept(&row)?;
        while self.is_due(row.ticks) {
            self.write_oldest(out)?;
        }
        self.held.push_back(row);
        Ok(())
    }

    /// Refuses a row, or notes the times of its readings.
    fn accept(&mut self, row: &Row) -> Result<(), OnlineFault> {
        let number = self.before.rows;
        if self.held.len() == self.rules.hold && !self.is_due(row.ticks) {
            return Err(OnlineFault::WindowFull { row: number });
        }
        for reading in row.readings.as_slice() {
            let track = track_of(&mut self.tracks, reading.col);
            if track.is_some_and(|track| track.lacks_step(row.ticks)) {
                return Err(OnlineFault::NoWholeStep { row: number, col: reading.col });
            }
        }
        for reading in row.readings.as_slice() {
            if let Some(track) = track_of(&mut self.tracks, reading.col) {
                track.seen = Some(row.ticks);
            }
        }
        Ok(())
    }

    /// Whether a time lies beyond the greatest window past the oldest of the rows that are held.
    fn is_due(&self, now: i64) -> bool {
        self.held.front().is_some_and(|oldest| now.abs_diff(oldest.ticks) > self.most)
    }

    /// Writes the oldest row, repaired, if there is one.
    fn write_oldest(&mut self, out: &mut Vec<u8>) -> Result<(), OnlineFault> {
        let Some(row) = self.held.pop_front() else { return Ok(()) };
        self.written += 1;
        self.repair(&row);
        let readings = row.readings.as_slice();
        for (reading, value) in readings.iter().zip(&self.values) {
            if value.unsigned_abs() > MOST_UNITS {
                return Err(OnlineFault::LeavesRange { row: self.written, col: reading.col });
            }
        }
        push_row(out, &self.rules.form, &row.fields, readings, &self.values);
        Ok(())
    }

    /// Finds the values for the readings of a row that has left those that are held.
    fn repair(&mut self, row: &Row) {
        self.values.clear();
        for track in &mut self.tracks {
            track.next = track.next.saturating_sub(1);
        }
        let held = &self.held;
        for reading in row.readings.as_slice() {
            let own = Key { value: reading.value, ticks: row.ticks };
            let track = track_of(&mut self.tracks, reading.col);
            self.values.push(track.map_or(own.value, |track| track.repair(held, own)));
        }
    }
}

fn track_of<'t, 'a>(tracks: &'t mut [Track<'a>], col: u32) -> Option<&'t mut Track<'a>> {
    tracks.iter_mut().find(|track| track.col == col)
}

/// The online repair of a readings file, whose bytes are fed in pieces.
struct Online<'a> {
    rules: &'a Rules<'a>,
    cutter: Cutter,
    engine: Option<Engine<'a>>,
}

impl<'a> Online<'a> {
    fn feed(&mut self, bytes: &[u8], out: &mut Vec<u8>) -> Result<(), OnlineFault> {
        let mut rest = bytes;
        while !rest.is_empty() {
            let taken = self.cutter.feed_slice(rest);
            rest = &rest[taken.count..];
            self.take(taken.answer, out)?;
        }
        Ok(())
    }

    fn finish(&mut self, out: &mut Vec<u8>) -> Result<(), OnlineFault> {
        let last = self.cutter.finish();
        self.take(last, out)?;
        let Some(engine) = &mut self.engine else {
            return Err(OnlineFault::Table(TableFault::at(0, 0, Cause::NoHeader)));
        };
        while !engine.held.is_empty() {
            engine.write_oldest(out)?;
        }
        Ok(())
    }

    /// Takes the header or a row, if one was cut off.
    fn take(&mut self, cut: Result<Option<Fields>, Fault>, out: &mut Vec<u8>) -> Result<(), OnlineFault> {
        match (cut, &mut self.engine) {
            (Ok(None), _) => Ok(()),
            (Ok(Some(fields)), Some(engine)) => engine.take(fields, out),
            (Ok(Some(fields)), None) => {
                let header = read_header(fields, &self.rules.form).map_err(OnlineFault::Table)?;
                push_row(out, &self.rules.form, &header.fields, &[], &[]);
                self.engine = Some(Engine::new(self.rules, header));
                Ok(())
            }
            (Err(fault), engine) => {
                let row = engine.as_ref().map_or(0, |engine| engine.before.rows + 1);
                Err(OnlineFault::Table(TableFault::at(row, 0, Cause::Cut(fault))))
            }
        }
    }
}

/// The speed rule of the words after its sensor.
fn speed_rule(words: &[String], decimals: u32) -> SpeedRule {
    let [min, max, per, window] = words else { panic!("MIN, MAX, PER and WINDOW after a sensor") };
    let number = |word: &str, d| scaled(word.as_bytes(), d, Extra::Refuse, i64::MAX).expect("a number");
    let line = |word| Line::of_rate(number(word, 6), number(per, 0) as u32, decimals);
    SpeedRule { min: line(min), max: line(max), window: number(window, 9) as u64 }
}

fn repair_all(rules: &Rules) -> Result<(), OnlineFault> {
    let (mut readings, mut out) = (stdin().lock(), stdout().lock());
    let mut online = Online { rules, cutter: Cutter::new(SEP), engine: None };
    let mut piece = [0; PIECE];
    let mut text = Vec::new();
    loop {
        let count = readings.read(&mut piece).expect("readings");
        text.clear();
        let fed = if count == 0 { online.finish(&mut text) } else { online.feed(&piece[..count], &mut text) };
        out.write_all(&text).and_then(|()| out.flush()).expect("a place for the text");
        fed?;
        if count == 0 {
            return Ok(());
        }
    }
}

fn main() -> ExitCode {
    let words: Vec<String> = std::env::args().skip(1).collect();
    let [decimals, hold, speeds @ ..] = words.as_slice() else { panic!("usage: online DECIMALS HOLD [SENSOR ...]...") };
    let decimals = decimals.parse().expect("a number of decimals");
    let sensors: Vec<&[u8]> = speeds.chunks(5).map(|rule| rule[0].as_bytes()).collect();
    let rules = Rules {
        form: Form { sensors: &sensors, decimals },
        speeds: speeds.chunks(5).map(|rule| speed_rule(&rule[1..], decimals)).collect(),
        hold: hold.parse().expect("a number of rows"),
    };
    match repair_all(&rules) {
        Ok(()) => ExitCode::SUCCESS,
        Err(fault) => {
            eprintln!("{fault:?}");
            ExitCode::from(4)
        }
    }
}
