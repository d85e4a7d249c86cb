//! The plain twin of `cert_check`: the same checks in the same order, with no proof.
#![allow(dead_code)]

use crate::certs::{Cert, FlowItem, SetLine, read_cert};
use crate::costs::{bound_of, change_of, cost_of, weight_of};
use crate::maker::{Bound, BoundName, End, Rules, first_broken};
use crate::rows::Table;

#[derive(Debug)]
pub enum Fault {
    Syntax,
    SetOutside,
    UnknownBound,
    OverPrice,
    Broken,
    TotalWrong,
    PaidWrong,
    PullTooGreat,
    ValueDiffers,
    PricedStep,
    CycleOpen,
    CycleSum,
}

pub enum Accepted {
    Repair { series: Vec<i64>, flow: Vec<FlowItem>, total: i128, paid: i128 },
    NoSeries { cycle: Vec<BoundName> },
}

struct Claim {
    total: i128,
    paid: Option<i128>,
    sets: Vec<SetLine>,
    flow: Vec<FlowItem>,
}

/// What the flow pulls at each reading, and the sum of its limits.
struct Tally {
    pulls: Vec<i128>,
    limits: i128,
}

fn ensure(holds: bool, fault: Fault) -> Result<(), Fault> {
    if holds { Ok(()) } else { Err(fault) }
}

fn is_change(table: &Table, line: &SetLine) -> bool {
    table.index(line.place).is_some_and(|i| table.values[i as usize] != line.value)
}

fn tally_flow(table: &Table, rules: &Rules, flow: &[FlowItem]) -> Result<Tally, Fault> {
    let mut tally = Tally { pulls: vec![0; table.values.len()], limits: 0 };
    for item in flow {
        let bound = bound_of(table, rules, item.name).ok_or(Fault::UnknownBound)?;
        let amount = i128::from(item.amount);
        for (end, amount) in [(bound.first, amount), (bound.second, -amount)] {
            let End::At(place) = end else { continue };
            if let Some(i) = table.index(place) {
                tally.pulls[i as usize] += amount;
            }
        }
        tally.limits += amount * i128::from(bound.limit);
    }
    Ok(tally)
}

fn is_within_price(rules: &Rules, item: &FlowItem) -> bool {
    let price = rules.price_of(item.name.rule);
    price == 0 || item.amount <= i64::from(price)
}

fn series_with(table: &Table, sets: &[SetLine]) -> Vec<i64> {
    let mut series = table.values.clone();
    for line in sets {
        if let Some(i) = table.index(line.place) {
            series[i as usize] = line.value;
        }
    }
    series
}

fn dual_value(table: &Table, tally: &Tally) -> i128 {
    let pulled = |(pull, value): (&i128, &i64)| i128::from(*value) * pull;
    -tally.limits - tally.pulls.iter().zip(&table.values).map(pulled).sum::<i128>()
}

fn judge_repair(table: &Table, rules: &Rules, bounds: &[Bound], claim: Claim) -> Result<Accepted, Fault> {
    ensure(claim.sets.iter().all(|line| is_change(table, line)), Fault::SetOutside)?;
    let tally = tally_flow(table, rules, &claim.flow)?;
    ensure(claim.flow.iter().all(|item| is_within_price(rules, item)), Fault::OverPrice)?;
    let series = series_with(table, &claim.sets);
    ensure(first_broken(table, rules, bounds, &series).is_none(), Fault::Broken)?;
    let cost = cost_of(table, rules, bounds, &series) as i128;
    let paid = cost - change_of(table, rules, &series) as i128;
    ensure(claim.total == cost, Fault::TotalWrong)?;
    ensure(claim.paid.is_none_or(|given| given == paid), Fault::PaidWrong)?;
    let is_light = |(pull, i): (&i128, u32)| pull.unsigned_abs() <= u128::from(weight_of(table, rules, i));
    ensure(tally.pulls.iter().zip(0..).all(is_light), Fault::PullTooGreat)?;
    ensure(dual_value(table, &tally) == claim.total, Fault::ValueDiffers)?;
    Ok(Accepted::Repair { series, flow: claim.flow, total: claim.total, paid })
}

/// The number of a node, 0 for Zero.
fn node(table: &Table, end: End) -> usize {
    match end {
        End::Zero => 0,
        End::At(place) => table.index(place).map_or(0, |i| i as usize + 1),
    }
}

fn judge_cycle(table: &Table, rules: &Rules, steps: Vec<BoundName>) -> Result<Accepted, Fault> {
    let cycle: Option<Vec<_>> = steps.iter().map(|name| bound_of(table, rules, *name)).collect();
    let cycle = cycle.ok_or(Fault::UnknownBound)?;
    ensure(steps.iter().all(|name| rules.price_of(name.rule) == 0), Fault::PricedStep)?;
    let mut marks = vec![false; table.values.len() + 1];
    let mut last = cycle.last().map_or(0, |bound| node(table, bound.second));
    for bound in &cycle {
        let first = node(table, bound.first);
        ensure(first == last && !marks[first], Fault::CycleOpen)?;
        marks[first] = true;
        last = node(table, bound.second);
    }
    let sum: i128 = cycle.iter().map(|bound| i128::from(bound.limit)).sum();
    ensure(sum < 0, Fault::CycleSum)?;
    Ok(Accepted::NoSeries { cycle: steps })
}

pub fn check(table: &Table, rules: &Rules, bounds: &[Bound], bytes: &[u8]) -> Result<Accepted, Fault> {
    match read_cert(bytes).map_err(|_| Fault::Syntax)? {
        Cert::Repair { total, sets, flow } => {
            judge_repair(table, rules, bounds, Claim { total, paid: None, sets, flow })
        }
        Cert::Priced { total, paid, sets, flow } => {
            judge_repair(table, rules, bounds, Claim { total, paid: Some(paid), sets, flow })
        }
        Cert::NoSeries { steps } => judge_cycle(table, rules, steps),
    }
}
