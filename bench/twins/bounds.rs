//! The plain twin of `bound_maker`, of which the bounds are made and tested: it makes a table of 200,000 readings a second
//! apart, and the bounds of a speed rule on neighbours, or of a swing rule whose window takes the most bounds that there may
//! be. It measures how long the bounds take, or how long it takes to find that no bound is broken. Prints the picoseconds for
//! a bound, and a sum that depends on all bounds, or the number of the bounds that are kept.

mod cutter;
mod maker;
mod rows;

use cutter::Fields;
use maker::{Bound, Rate, Rules, SECOND, Side, SpeedRule, SwingRule, first_broken, make};
use rows::{Few, FileSize, Header, Reading, Row, Table};
use std::time::Instant;

const ROWS: u32 = 200_000;

/// Readings of hundredths a second apart.
fn table() -> Table {
    let fields = Fields { bytes: b"timea".to_vec(), ends: vec![4, 5] };
    let header = Header { fields, time_col: 1, sensor_cols: vec![2], from_left: vec![2] };
    let mut table = Table::with_room(header, FileSize::of(&[]));
    let mut state: u64 = 1;
    for row in 0..ROWS {
        state = (state * 1_103_515_245 + 12_345) % (1 << 31);
        let value = ((state >> 8) % 100_000) as i64;
        let mut bytes = row.to_string().into_bytes();
        let time_end = bytes.len() as u32;
        bytes.extend_from_slice(format!("{}.{:02}", value / 100, value % 100).as_bytes());
        let ends = vec![time_end, bytes.len() as u32];
        bytes.shrink_to_fit();
        let mut readings = Few::new();
        readings.push(Reading { col: 2, value });
        table.push(Row {
            fields: Fields { bytes, ends },
            ticks: i64::from(row) * SECOND,
            time_col: 1,
            readings,
            missing: Few::new(),
        });
    }
    table
}

/// Rules that the readings keep.
fn rules(is_swing: bool) -> Rules {
    let sensor = b"a".to_vec();
    let mut rules = Rules { decimals: 2, ..Rules::default() };
    if is_swing {
        rules.swings.push(SwingRule { sensor, most: 100_000, window: 9 * SECOND, price: 0 });
    } else {
        let min = Rate { millionths: -1_000_000_000, per: 1 };
        let max = Rate { millionths: 1_000_000_000, per: 1 };
        rules.speeds.push(SpeedRule { sensor, min, max, window: 10 * SECOND, price: 0 });
    }
    rules
}

fn sum_of(bounds: &[Bound]) -> u64 {
    bounds.iter().fold(0u64, |sum, bound| {
        let rows = u64::from(bound.name.from_row) + 3 * u64::from(bound.name.to_row);
        sum.wrapping_add(bound.limit.unsigned_abs() + rows + u64::from(bound.name.side == Side::Up))
    })
}

fn main() {
    let name = std::env::args().nth(1).unwrap_or_default();
    let table = table();
    let rules = rules(name.ends_with("-swing"));
    let began = Instant::now();
    let bounds = make(&table, &rules).unwrap();
    let mut nanos = began.elapsed().as_nanos() as u64;
    let mut sum = sum_of(&bounds);
    if name.starts_with("broken") {
        let began = Instant::now();
        let broken = first_broken(&table, &rules, &bounds, &table.values);
        nanos = began.elapsed().as_nanos() as u64;
        sum = if broken.is_none() { bounds.len() as u64 } else { 0 };
    }
    println!("{} {sum}", nanos * 1000 / bounds.len() as u64);
}
