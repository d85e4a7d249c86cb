//! The plain twin of `neg_cycle::settle`: the same sweeps over the same arcs and walks after the same sweeps, with
//! no proof, and without the ranks that the proof needs. It settles a chain of 400,000 nodes and prints the
//! picoseconds for each arc and the sum of the distances; with the word `blocked` the chain has a cycle of a
//! negative sum at its end, and the second number is its length.

use std::time::Instant;

const NODES: u32 = 400_000;

#[derive(Clone, Copy)]
struct Arc {
    tail: u32,
    head: u32,
    cost: i64,
}

#[derive(Clone, Copy)]
struct Parent {
    arc: u32,
    tail: u32,
}

fn next_hundredths(state: u64) -> (u64, u64) {
    let next = state.wrapping_mul(1_103_515_245).wrapping_add(12_345) % (1 << 31);
    (next, (next >> 8) % 100_000)
}

fn chain(blocked: bool) -> Vec<Arc> {
    let mut arcs = Vec::new();
    let mut state = 1;
    let mut push = |tail: u32, head: u32, cost: i64| {
        if tail < NODES && head < NODES {
            arcs.push(Arc { tail, head, cost });
        }
    };
    for node in 0..NODES {
        for step in 1..3 {
            let (next, number) = next_hundredths(state);
            state = next;
            push(node, node + step, (number % 500) as i64);
            push(node + step, node, (number / 500) as i64);
        }
    }
    if blocked {
        push(NODES - 2, NODES - 1, -1);
        push(NODES - 1, NODES - 2, 0);
    }
    arcs
}

struct Room {
    distances: Vec<i128>,
    parents: Vec<Option<Parent>>,
    marks: Vec<u32>,
}

fn relax(number: usize, arc: Arc, room: &mut Room) -> bool {
    let sum = room.distances[arc.tail as usize] + i128::from(arc.cost);
    let falls = sum < room.distances[arc.head as usize];
    if falls {
        room.distances[arc.head as usize] = sum;
        room.parents[arc.head as usize] = Some(Parent {
            arc: number as u32,
            tail: arc.tail,
        });
    }
    falls
}

/// The arcs of a cycle of parents, if there is one.
fn cycle_of(room: &mut Room) -> Option<Vec<u32>> {
    room.marks.fill(u32::MAX);
    for first in 0..NODES {
        let mut node = first;
        while room.marks[node as usize] == u32::MAX {
            room.marks[node as usize] = first;
            match room.parents[node as usize] {
                Some(parent) => node = parent.tail,
                None => break,
            }
        }
        if room.parents[node as usize].is_some() && room.marks[node as usize] == first {
            let mut arcs = Vec::new();
            let mut at = node;
            loop {
                let parent = room.parents[at as usize]?;
                arcs.push(parent.arc);
                at = parent.tail;
                if at == node {
                    arcs.reverse();
                    return Some(arcs);
                }
            }
        }
    }
    None
}

fn sweep(arcs: &[Arc], down: bool, room: &mut Room) -> bool {
    let mut changed = false;
    if down {
        for (number, arc) in arcs.iter().enumerate().rev() {
            changed |= relax(number, *arc, room);
        }
    } else {
        for (number, arc) in arcs.iter().enumerate() {
            changed |= relax(number, *arc, room);
        }
    }
    changed
}

fn settle(arcs: &[Arc], room: &mut Room) -> Option<Vec<u32>> {
    room.parents.fill(None);
    while sweep(arcs, false, room) && sweep(arcs, true, room) {
        if let Some(cycle) = cycle_of(room) {
            return Some(cycle);
        }
    }
    None
}

fn main() {
    let blocked = std::env::args().nth(1).as_deref() == Some("blocked");
    let arcs = chain(blocked);
    let mut distances = Vec::new();
    let mut state = 1;
    for _ in 0..NODES {
        let (next, number) = next_hundredths(state);
        state = next;
        distances.push((number % 100_000) as i128);
    }
    let mut room = Room {
        distances,
        parents: vec![None; NODES as usize],
        marks: vec![0; NODES as usize],
    };
    let began = Instant::now();
    let cycle = settle(&arcs, &mut room);
    let nanos = began.elapsed().as_nanos() as u64;
    let answer = match cycle {
        Some(cycle) => cycle.len() as i128,
        None => room.distances.iter().sum(),
    };
    println!("{} {answer}", nanos * 1000 / arcs.len() as u64);
}
