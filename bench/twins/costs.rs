//! The plain twin of what `bound_maker` tells of single bounds and readings: the bound of a name, weights, and costs.
#![allow(dead_code)]

use crate::maker::{
    Bound, BoundName, End, MOST_UNITS, Rate, RuleAt, Rules, Side, floor_rate, value_at,
};
use crate::rows::{Header, Place, Row, Table};

// ---- The bound of a name.

fn rise_bound(name: BoundName, from: Place, to: Place, least: i64, most: i64) -> Bound {
    match name.side {
        Side::Up => Bound { name, first: End::At(from), second: End::At(to), limit: most },
        Side::Down => Bound { name, first: End::At(to), second: End::At(from), limit: -least },
    }
}

fn value_bound(name: BoundName, least: i64, most: i64) -> Bound {
    let place = Place { row: name.from_row, col: name.col };
    match name.side {
        Side::Up => Bound { name, first: End::Zero, second: End::At(place), limit: most },
        Side::Down => Bound { name, first: End::At(place), second: End::Zero, limit: -least },
    }
}

/// The ticks and the value of a reading.
fn reading_at(table: &Table, row: u32, col: u32) -> Option<(i64, i64)> {
    let row = table.rows.get(row.checked_sub(1)? as usize)?;
    let reading = row.readings.as_slice().iter().find(|reading| reading.col == col)?;
    Some((row.ticks, reading.value))
}

/// The column of a rule's first sensor, and the next one.
fn columns(header: &Header, rules: &Rules, number: u32) -> Option<(u32, u32)> {
    let place = number.checked_sub(1)? as usize;
    let single = rules.speeds.len()
        + rules.swings.len()
        + rules.drifts.len()
        + rules.ranges.len()
        + rules.trusts.len()
        + rules.weights.len();
    let place = place + place.saturating_sub(single);
    let next = header.sensor_cols.get(place + 1).copied().unwrap_or(0);
    Some((*header.sensor_cols.get(place)?, next))
}

pub fn bound_of(table: &Table, rules: &Rules, name: BoundName) -> Option<Bound> {
    let is_one_row = name.from_row == name.to_row;
    if name.rule == 0 {
        table.index(Place { row: name.from_row, col: name.col })?;
        return is_one_row.then(|| value_bound(name, -MOST_UNITS, MOST_UNITS));
    }
    let rule = rules.rule_at(name.rule)?;
    let (col, second) = columns(&table.header, rules, name.rule)?;
    if col != name.col {
        return None;
    }
    match rule {
        RuleAt::Range(rule) if is_one_row => {
            let (ticks, _) = reading_at(table, name.from_row, col)?;
            (rule.from <= ticks && ticks <= rule.to).then(|| value_bound(name, rule.min, rule.max))
        }
        RuleAt::Trust(rule) if is_one_row => {
            let (ticks, value) = reading_at(table, name.from_row, col)?;
            (rule.from <= ticks && ticks <= rule.to).then(|| value_bound(name, value, value))
        }
        RuleAt::Between(rule) if is_one_row => {
            reading_at(table, name.from_row, col)?;
            reading_at(table, name.from_row, second)?;
            let from = Place { row: name.from_row, col };
            Some(rise_bound(name, from, Place { col: second, ..from }, rule.min, rule.max))
        }
        RuleAt::Range(_) | RuleAt::Trust(_) | RuleAt::Between(_) | RuleAt::Weight(_) => None,
        _ => bound_of_pair(table, rules.decimals, rule, name),
    }
}

fn bound_of_pair(table: &Table, d: u32, rule: RuleAt, name: BoundName) -> Option<Bound> {
    let (from_ticks, _) = reading_at(table, name.from_row, name.col)?;
    let (to_ticks, _) = reading_at(table, name.to_row, name.col)?;
    let dt = to_ticks - from_ticks;
    let opposite = |rate: Rate| Rate { millionths: -rate.millionths, per: rate.per };
    let steps = |min, max| (-floor_rate(opposite(min), d, dt), floor_rate(max, d, dt));
    let ((least, most), first, last) = match rule {
        RuleAt::Speed(rule) => (steps(rule.min, rule.max), 1, rule.window),
        RuleAt::Swing(rule) => ((-rule.most, rule.most), 1, rule.window),
        RuleAt::Drift(rule) => (steps(rule.min, rule.max), rule.over, rule.window),
        _ => return None,
    };
    let from = Place { row: name.from_row, col: name.col };
    let to = Place { row: name.to_row, col: name.col };
    (first <= dt && dt <= last).then(|| rise_bound(name, from, to, least, most))
}

// ---- Costs.

/// The weight of the last rule that covers a reading.
fn weight_in(header: &Header, rules: &Rules, row: &Row, col: u32) -> u32 {
    let first = rules.speeds.len() + rules.swings.len() + rules.drifts.len() + rules.ranges.len() + rules.trusts.len();
    let mut weight = 1;
    for (rule, sensor) in rules.weights.iter().zip(&header.sensor_cols[first..]) {
        if *sensor == col && rule.from <= row.ticks && row.ticks <= rule.to {
            weight = rule.weight;
        }
    }
    weight
}

pub fn weight_of(table: &Table, rules: &Rules, i: u32) -> u32 {
    let place = table.places[i as usize];
    weight_in(&table.header, rules, &table.rows[place.row as usize - 1], place.col)
}

pub fn change_of(table: &Table, rules: &Rules, series: &[i64]) -> u128 {
    let mut change = 0;
    let mut rest = series;
    for row in &table.rows {
        let readings = row.readings.as_slice();
        for (reading, value) in readings.iter().zip(rest) {
            let weight = weight_in(&table.header, rules, row, reading.col);
            change += u128::from(weight) * u128::from(value.abs_diff(reading.value));
        }
        rest = &rest[readings.len()..];
    }
    change
}

fn payment(table: &Table, rules: &Rules, series: &[i64], bound: &Bound) -> u128 {
    let rise = i128::from(value_at(table, series, bound.second)) - i128::from(value_at(table, series, bound.first));
    let units = (rise - i128::from(bound.limit)).max(0) as u128;
    u128::from(rules.price_of(bound.name.rule)) * units
}

pub fn cost_of(table: &Table, rules: &Rules, bounds: &[Bound], series: &[i64]) -> u128 {
    let paid: u128 = bounds.iter().map(|bound| payment(table, rules, series, bound)).sum();
    change_of(table, rules, series) + paid
}
