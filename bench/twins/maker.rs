//! The plain twin of `bound_maker`: the same types, rules of all kinds, the same bounds and the same costs, with no proof.
#![allow(dead_code)]

use crate::rows::{Place, Row, Table};

const MOST_BOUNDS: usize = 4_000_000;
pub const MOST_UNITS: i64 = 1_000_000_000_000_000;
pub const SECOND: i64 = 1_000_000_000;

// ---- Rules.

pub type Name = Vec<u8>;

#[derive(Clone, Copy)]
pub struct Rate {
    pub millionths: i64,
    pub per: u32,
}

pub struct SpeedRule {
    pub sensor: Name,
    pub min: Rate,
    pub max: Rate,
    pub window: i64,
    pub price: u32,
}

pub struct SwingRule {
    pub sensor: Name,
    pub most: i64,
    pub window: i64,
    pub price: u32,
}

pub struct DriftRule {
    pub sensor: Name,
    pub min: Rate,
    pub max: Rate,
    pub over: i64,
    pub window: i64,
    pub price: u32,
}

pub struct RangeRule {
    pub sensor: Name,
    pub min: i64,
    pub max: i64,
    pub from: i64,
    pub to: i64,
    pub price: u32,
}

pub struct TrustRule {
    pub sensor: Name,
    pub from: i64,
    pub to: i64,
}

pub struct WeightRule {
    pub sensor: Name,
    pub weight: u32,
    pub from: i64,
    pub to: i64,
}

pub struct BetweenRule {
    pub first: Name,
    pub second: Name,
    pub min: i64,
    pub max: i64,
    pub price: u32,
}

#[derive(Default)]
pub struct Rules {
    pub decimals: u32,
    pub speeds: Vec<SpeedRule>,
    pub swings: Vec<SwingRule>,
    pub drifts: Vec<DriftRule>,
    pub ranges: Vec<RangeRule>,
    pub trusts: Vec<TrustRule>,
    pub weights: Vec<WeightRule>,
    pub betweens: Vec<BetweenRule>,
}

#[derive(Clone, Copy)]
pub enum RuleAt<'a> {
    Speed(&'a SpeedRule),
    Swing(&'a SwingRule),
    Drift(&'a DriftRule),
    Range(&'a RangeRule),
    Trust(&'a TrustRule),
    Weight(&'a WeightRule),
    Between(&'a BetweenRule),
}

impl Rules {
    /// The rule of a number, counted from 1, kind after kind.
    pub fn rule_at(&self, number: u32) -> Option<RuleAt<'_>> {
        let mut place = (number as usize).checked_sub(1)?;
        if let Some(rule) = self.speeds.get(place) {
            return Some(RuleAt::Speed(rule));
        }
        place -= self.speeds.len();
        if let Some(rule) = self.swings.get(place) {
            return Some(RuleAt::Swing(rule));
        }
        place -= self.swings.len();
        if let Some(rule) = self.drifts.get(place) {
            return Some(RuleAt::Drift(rule));
        }
        place -= self.drifts.len();
        if let Some(rule) = self.ranges.get(place) {
            return Some(RuleAt::Range(rule));
        }
        place -= self.ranges.len();
        if let Some(rule) = self.trusts.get(place) {
            return Some(RuleAt::Trust(rule));
        }
        place -= self.trusts.len();
        if let Some(rule) = self.weights.get(place) {
            return Some(RuleAt::Weight(rule));
        }
        place -= self.weights.len();
        self.betweens.get(place).map(RuleAt::Between)
    }

    /// The price of a rule, and 0 where it has none.
    pub fn price_of(&self, number: u32) -> u32 {
        match self.rule_at(number) {
            Some(RuleAt::Speed(rule)) => rule.price,
            Some(RuleAt::Swing(rule)) => rule.price,
            Some(RuleAt::Drift(rule)) => rule.price,
            Some(RuleAt::Range(rule)) => rule.price,
            Some(RuleAt::Between(rule)) => rule.price,
            Some(RuleAt::Trust(_) | RuleAt::Weight(_)) | None => 0,
        }
    }
}

// ---- Bounds.

#[derive(Clone, Copy, PartialEq)]
pub enum Side {
    Up,
    Down,
}

#[derive(Clone, Copy)]
pub struct BoundName {
    pub rule: u32,
    pub from_row: u32,
    pub to_row: u32,
    pub col: u32,
    pub side: Side,
}

#[derive(Clone, Copy)]
pub enum End {
    Zero,
    At(Place),
}

#[derive(Clone, Copy)]
pub struct Bound {
    pub name: BoundName,
    pub first: End,
    pub second: End,
    pub limit: i64,
}

#[derive(Clone, Copy)]
pub struct Stamp {
    pub row: u32,
    pub ticks: i64,
    pub value: i64,
}

/// The greatest whole step of a rate in so many ticks.
pub fn floor_rate(rate: Rate, d: u32, dt: i64) -> i64 {
    let change = i128::from(rate.millionths) * 10i128.pow(d) * i128::from(dt);
    change.div_euclid(i128::from(rate.per) * 1_000_000_000_000_000) as i64
}

/// The least and the greatest whole step, which are kept for the next pair.
pub struct Steps {
    pub min: Rate,
    pub max: Rate,
    pub d: u32,
    pub dt: i64,
    pub least: i64,
    pub greatest: i64,
}

impl Steps {
    fn new(min: Rate, max: Rate, d: u32) -> Steps {
        Steps { min, max, d, dt: 0, least: 0, greatest: 0 }
    }

    fn step(&mut self, dt: i64) -> (i64, i64) {
        if dt != self.dt {
            let opposite = Rate { millionths: -self.min.millionths, per: self.min.per };
            self.least = -floor_rate(opposite, self.d, dt);
            self.greatest = floor_rate(self.max, self.d, dt);
            self.dt = dt;
        }
        (self.least, self.greatest)
    }
}

/// Adds the two bounds of a rise that is at least the one number and at most the other.
pub fn push_rise(bounds: &mut Vec<Bound>, rule: u32, from: Place, to: Place, least: i64, most: i64) {
    let name = BoundName { rule, from_row: from.row, to_row: to.row, col: from.col, side: Side::Up };
    bounds.push(Bound { name, first: End::At(from), second: End::At(to), limit: most });
    let name = BoundName { side: Side::Down, ..name };
    bounds.push(Bound { name, first: End::At(to), second: End::At(from), limit: -least });
}

/// Adds the two bounds of a value that is at least the one number and at most the other.
pub fn push_value(bounds: &mut Vec<Bound>, rule: u32, place: Place, least: i64, most: i64) {
    let name = BoundName { rule, from_row: place.row, to_row: place.row, col: place.col, side: Side::Up };
    bounds.push(Bound { name, first: End::Zero, second: End::At(place), limit: most });
    let name = BoundName { side: Side::Down, ..name };
    bounds.push(Bound { name, first: End::At(place), second: End::Zero, limit: -least });
}

/// The readings in a column.
pub fn gather(rows: &[Row], col: u32) -> Vec<Stamp> {
    let mut stamps = Vec::with_capacity(rows.len());
    for (row, number) in rows.iter().zip(1..) {
        if let Some(value) = reading_in(row, col) {
            stamps.push(Stamp { row: number, ticks: row.ticks, value });
        }
    }
    stamps
}

pub fn reading_in(row: &Row, col: u32) -> Option<i64> {
    let found = row.readings.as_slice().iter().find(|reading| reading.col == col);
    found.map(|reading| reading.value)
}

pub fn place(col: u32, stamp: Stamp) -> Place {
    Place { row: stamp.row, col }
}

/// Calls with each reading and those that are later by `least` to `most` ticks.
pub fn for_windows(stamps: &[Stamp], least: i64, most: i64, mut each: impl FnMut(Stamp, &[Stamp])) {
    let mut start = 0;
    let mut end = 0;
    for from in stamps {
        while start < stamps.len() && stamps[start].ticks - from.ticks < least {
            start += 1;
        }
        while end < stamps.len() && stamps[end].ticks - from.ticks <= most {
            end += 1;
        }
        each(*from, &stamps[start..end]);
    }
}

pub fn is_in_window(from: Stamp, to: Stamp, window: i64) -> bool {
    to.ticks - from.ticks <= window
}

/// A rule with its number, the columns of its sensors and the readings of the first.
pub struct Ruled<'a> {
    pub number: u32,
    pub rule: RuleAt<'a>,
    pub col: u32,
    pub second: u32,
    pub stamps: &'a [Stamp],
}

/// How many readings, or pairs of them, a rule speaks of.
pub fn count_rule(ruled: &Ruled, rows: &[Row]) -> usize {
    let in_time = |from, to| ruled.stamps.iter().filter(|stamp| from <= stamp.ticks && stamp.ticks <= to).count();
    let in_window = |least, most| {
        let mut count = 0;
        for_windows(ruled.stamps, least, most, |_, later| count += later.len());
        count
    };
    match ruled.rule {
        RuleAt::Speed(rule) if rule.price == 0 => {
            ruled.stamps.windows(2).filter(|pair| is_in_window(pair[0], pair[1], rule.window)).count()
        }
        RuleAt::Speed(rule) => in_window(1, rule.window),
        RuleAt::Swing(rule) => in_window(1, rule.window),
        RuleAt::Drift(rule) => in_window(rule.over, rule.window),
        RuleAt::Range(rule) => in_time(rule.from, rule.to),
        RuleAt::Trust(rule) => in_time(rule.from, rule.to),
        RuleAt::Weight(_) => 0,
        RuleAt::Between(_) => {
            let has_both = |row: &&Row| reading_in(row, ruled.col).is_some() && reading_in(row, ruled.second).is_some();
            rows.iter().filter(has_both).count()
        }
    }
}

/// Adds the bounds of a rule.
pub fn push_rule(bounds: &mut Vec<Bound>, ruled: &Ruled, d: u32, rows: &[Row]) {
    let Ruled { number, col, .. } = *ruled;
    match ruled.rule {
        RuleAt::Speed(rule) => {
            let mut steps = Steps::new(rule.min, rule.max, d);
            let mut push = |from: Stamp, to: Stamp| {
                let (least, greatest) = steps.step(to.ticks - from.ticks);
                push_rise(bounds, number, place(col, from), place(col, to), least, greatest);
            };
            if rule.price == 0 {
                for pair in ruled.stamps.windows(2) {
                    if is_in_window(pair[0], pair[1], rule.window) {
                        push(pair[0], pair[1]);
                    }
                }
            } else {
                for_windows(ruled.stamps, 1, rule.window, |from, later| later.iter().for_each(|to| push(from, *to)));
            }
        }
        RuleAt::Swing(rule) => for_windows(ruled.stamps, 1, rule.window, |from, later| {
            for to in later {
                push_rise(bounds, number, place(col, from), place(col, *to), -rule.most, rule.most);
            }
        }),
        RuleAt::Drift(rule) => for_windows(ruled.stamps, rule.over, rule.window, |from, later| {
            for to in later {
                let (least, greatest) = Steps::new(rule.min, rule.max, d).step(to.ticks - from.ticks);
                push_rise(bounds, number, place(col, from), place(col, *to), least, greatest);
            }
        }),
        RuleAt::Range(rule) => {
            for stamp in ruled.stamps {
                if rule.from <= stamp.ticks && stamp.ticks <= rule.to {
                    push_value(bounds, number, place(col, *stamp), rule.min, rule.max);
                }
            }
        }
        RuleAt::Trust(rule) => {
            for stamp in ruled.stamps {
                if rule.from <= stamp.ticks && stamp.ticks <= rule.to {
                    push_value(bounds, number, place(col, *stamp), stamp.value, stamp.value);
                }
            }
        }
        RuleAt::Weight(_) => {}
        RuleAt::Between(rule) => {
            for (row, number_of_row) in rows.iter().zip(1..) {
                if reading_in(row, col).is_some() && reading_in(row, ruled.second).is_some() {
                    let first = Place { row: number_of_row, col };
                    let second = Place { row: number_of_row, col: ruled.second };
                    push_rise(bounds, number, first, second, rule.min, rule.max);
                }
            }
        }
    }
}

/// All bounds that are made, or nothing where there are too many.
pub fn make(table: &Table, rules: &Rules) -> Option<Vec<Bound>> {
    let header = &table.header;
    let columns: Vec<_> = header.from_left.iter().map(|col| (*col, gather(&table.rows, *col))).collect();
    let mut ruled = Vec::new();
    let mut sensor = 0;
    let mut count = table.values.len();
    for number in 1.. {
        let Some(rule) = rules.rule_at(number) else { break };
        let col = header.sensor_cols[sensor];
        let second = header.sensor_cols.get(sensor + 1).copied().unwrap_or(0);
        sensor += if matches!(rule, RuleAt::Between(_)) { 2 } else { 1 };
        let stamps = columns.iter().find(|column| column.0 == col).map_or(&[][..], |column| &column.1[..]);
        let one = Ruled { number, rule, col, second, stamps };
        count += count_rule(&one, &table.rows);
        if 2 * count > MOST_BOUNDS {
            return None;
        }
        ruled.push(one);
    }
    let mut bounds = Vec::with_capacity(2 * count);
    for place in &table.places {
        push_value(&mut bounds, 0, *place, -MOST_UNITS, MOST_UNITS);
    }
    for one in &ruled {
        push_rule(&mut bounds, one, rules.decimals, &table.rows);
    }
    Some(bounds)
}

// ---- The test.

pub fn value_at(table: &Table, series: &[i64], end: End) -> i64 {
    match end {
        End::Zero => 0,
        End::At(place) => table.index(place).map_or(0, |i| series[i as usize]),
    }
}

/// The first bound without a price that the series does not obey.
pub fn first_broken(table: &Table, rules: &Rules, bounds: &[Bound], series: &[i64]) -> Option<BoundName> {
    let is_broken = |bound: &&Bound| {
        let rise = i128::from(value_at(table, series, bound.second)) - i128::from(value_at(table, series, bound.first));
        rules.price_of(bound.name.rule) == 0 && rise > i128::from(bound.limit)
    };
    bounds.iter().find(is_broken).map(|bound| bound.name)
}
