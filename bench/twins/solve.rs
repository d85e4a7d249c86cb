//! The plain twin of a repair by `global_repair` and `path_flow`: files are read, bounds made, the network made and solved by
//! the same method, the greatest series found and the texts written, with no proof.
//!
//! usage: solve FOLDER, which reads FOLDER/rules.toml and FOLDER/readings.csv, and prints the nanoseconds that each part takes:
//! reading, bounds, network, solving, and the greatest series; then what the repair costs, or the bounds of a cycle, and how
//! often flow was changed.
//!
//! usage: solve FOLDER counts, which prints the nodes that the searches settled, and the arcs that they looked at.
//!
//! usage: solve FOLDER texts, which reads the repaired file and the certificate, FOLDER/out and FOLDER/cert, and prints the
//! nanoseconds that it takes to write both, and their bytes.

mod certs;
mod costs;
mod cutter;
mod maker;
mod network;
mod number;
mod number_text;
mod paths;
mod reader;
mod rows;
mod rules_text;

use certs::{FlowItem, read_cert, write_cert};
use costs::weight_of;
use maker::{Bound, BoundName, MOST_UNITS, RuleAt, Rules, make};
use network::{Network, Room, Tight, settle};
use paths::PathSolver;
use reader::{Form, read_table, table_text};
use rows::Table;
use rules_text::read_rules;
use std::time::Instant;

/// The sensors of the rules, in the order of their numbers.
fn sensors(rules: &Rules) -> Vec<&[u8]> {
    let mut sensors: Vec<&[u8]> = Vec::new();
    for number in 1.. {
        match rules.rule_at(number) {
            None => break,
            Some(RuleAt::Speed(rule)) => sensors.push(&rule.sensor),
            Some(RuleAt::Swing(rule)) => sensors.push(&rule.sensor),
            Some(RuleAt::Drift(rule)) => sensors.push(&rule.sensor),
            Some(RuleAt::Range(rule)) => sensors.push(&rule.sensor),
            Some(RuleAt::Trust(rule)) => sensors.push(&rule.sensor),
            Some(RuleAt::Weight(rule)) => sensors.push(&rule.sensor),
            Some(RuleAt::Between(rule)) => sensors.extend([&rule.first[..], &rule.second[..]]),
        }
    }
    sensors
}

/// What is found: a repair with its cost, or a cycle.
enum Outcome {
    Repaired { series: Vec<i64>, flow: Vec<FlowItem>, total: i128, paid: i128 },
    NoSeries { cycle: Vec<BoundName> },
}

struct Problem<'a> {
    table: &'a Table,
    weights: Vec<u32>,
    bounds: &'a [Bound],
    prices: Vec<u32>,
}

impl<'a> Problem<'a> {
    fn new(table: &'a Table, rules: &Rules, bounds: &'a [Bound]) -> Problem<'a> {
        let weights = (0..table.values.len() as u32).map(|i| weight_of(table, rules, i)).collect();
        let prices = bounds.iter().map(|bound| rules.price_of(bound.name.rule)).collect();
        Problem { table, weights, bounds, prices }
    }

    fn network(&self) -> Network {
        Network::new(&self.table.values, &self.weights, &self.prices, self.bounds, &self.table.places)
    }

    fn repaired(&self, net: &Network, room: &mut Room) -> Outcome {
        room.distances.fill(i128::from(MOST_UNITS));
        room.distances[0] = 0;
        settle(&Tight(net), room);
        let series: Vec<i64> = room.distances[1..].iter().map(|distance| *distance as i64).collect();
        let flows = &net.flows[..self.bounds.len()];
        let mut flow = Vec::with_capacity(flows.iter().filter(|amount| **amount != 0).count());
        for (bound, amount) in self.bounds.iter().zip(flows) {
            if *amount != 0 {
                flow.push(FlowItem { name: bound.name, amount: *amount });
            }
        }
        let change = |((value, weight), x): ((&i64, &u32), &i64)| i128::from(*weight) * i128::from(x.abs_diff(*value));
        let pairs = self.table.values.iter().zip(&self.weights).zip(&series);
        let total = net.value();
        let paid = total - pairs.map(change).sum::<i128>();
        Outcome::Repaired { series, flow, total, paid }
    }

    fn no_series(&self, room: &Room) -> Outcome {
        let cycle = room.cycle.iter().map(|number| self.bounds[*number as usize / 2].name).collect();
        Outcome::NoSeries { cycle }
    }
}

fn read(folder: &str, name: &str) -> Vec<u8> {
    std::fs::read(format!("{folder}/{name}")).unwrap_or_default()
}

fn rules_in(folder: &str) -> Rules {
    read_rules(std::str::from_utf8(&read(folder, "rules.toml")).unwrap())
}

fn measure_repair(folder: &str) {
    let bytes = read(folder, "readings.csv");
    let began = Instant::now();
    let rules = rules_in(folder);
    let form = Form { sensors: &sensors(&rules), decimals: rules.decimals };
    let table = read_table(&bytes, &form).unwrap();
    let reading = began.elapsed().as_nanos();
    let began = Instant::now();
    let bounds = make(&table, &rules).unwrap();
    let making = began.elapsed().as_nanos();
    let began = Instant::now();
    let problem = Problem::new(&table, &rules, &bounds);
    let mut net = problem.network();
    let mut room = Room::for_nodes(net.nodes());
    let mut solver = PathSolver::<false>::for_nodes(net.nodes());
    let building = began.elapsed().as_nanos();
    let began = Instant::now();
    let is_solved = solver.solve(&mut net, &mut room);
    let solving = began.elapsed().as_nanos();
    let began = Instant::now();
    let outcome = if is_solved { problem.repaired(&net, &mut room) } else { problem.no_series(&room) };
    let finding = began.elapsed().as_nanos();
    let answer = match outcome {
        Outcome::Repaired { series, flow, total, paid } => {
            assert!(series.len() == table.values.len() && flow.len() <= bounds.len() && paid <= total);
            total
        }
        Outcome::NoSeries { cycle } => cycle.len() as i128,
    };
    println!("{reading} {making} {building} {solving} {finding} {answer} {}", net.changes);
}

fn count_work(folder: &str) {
    let rules = rules_in(folder);
    let form = Form { sensors: &sensors(&rules), decimals: rules.decimals };
    let table = read_table(&read(folder, "readings.csv"), &form).unwrap();
    let bounds = make(&table, &rules).unwrap();
    let mut net = Problem::new(&table, &rules, &bounds).network();
    let mut solver = PathSolver::<true>::for_nodes(net.nodes());
    solver.solve(&mut net, &mut Room::for_nodes(table.values.len() as u32 + 1));
    println!("{} {}", solver.counts.settled, solver.counts.looks);
}

fn measure_texts(folder: &str) {
    let rules = rules_in(folder);
    let form = Form { sensors: &sensors(&rules), decimals: rules.decimals };
    let cert = read_cert(&read(folder, "cert")).unwrap();
    // Where no series obeys, no file was written.
    let table = read_table(&read(folder, "out"), &form);
    let began = Instant::now();
    let cert = write_cert(&cert);
    let text = table.map(|table| table_text(&table, &form, &table.values)).unwrap_or_default();
    println!("{} {}", began.elapsed().as_nanos(), cert.len() + text.len());
}

fn main() {
    let words: Vec<String> = std::env::args().collect();
    let words: Vec<&str> = words.iter().map(|word| word.as_str()).collect();
    match words.as_slice() {
        [_, folder] => measure_repair(folder),
        [_, folder, "counts"] => count_work(folder),
        [_, folder, "texts"] => measure_texts(folder),
        _ => panic!("usage: solve FOLDER [counts | texts]"),
    }
}
