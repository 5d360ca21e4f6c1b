//! Runs under every single failure, the same by repeated steps, and steps with damaged tables.

use super::Plan;
use crate::compare::Comparer;
use crate::entries::{RunAsk, StepAsk};
use crate::make::{broken_set, careless_set, some_set};
use crate::model::file::file_of;
use crate::model::forward::Stand;
use crate::model::report::LONGEST_REPORT;
use crate::model::samples::{full_four, heavy_ring, ring, set, triangle};
use crate::model::{Network, MOST_NODES};
use crate::random::Random;

/// The asks of a set: nothing, every link and every node down × every source × every destination; `most` of them drawn by
/// chance where there are more.
fn asks(random: &mut Random, net: &Network, most: usize) -> Vec<RunAsk> {
    let (n, failures) = (net.n, 1 + net.m + net.n);
    let ask = |number: usize| {
        let (failure, failed) = match number / (n * n) {
            0 => (0, 0),
            link if link <= net.m => (1, link - 1),
            node => (2, node - 1 - net.m),
        };
        let (source, destination) = ((number / n % n) as u8, (number % n) as u8);
        RunAsk { source, destination, failure, failed: failed as u16 }
    };
    let all = failures * n * n;
    if all <= most {
        (0..all).map(ask).collect()
    } else {
        (0..most).map(|_| ask(random.below(all))).collect()
    }
}

/// The runs of an accepted set, all that are within the work.
pub fn every_run(comparer: &mut Comparer, random: &mut Random, file: &[u8], work: usize) {
    let Ok(sound) = comparer.sound(file) else {
        return;
    };
    let net = &sound.0;
    let most = work / ((net.k + 1) * net.n * net.n * net.n);
    for ask in asks(random, net, most) {
        // Exact room and a little more: the rest must stay as it was.
        let more = random.below(3);
        comparer.run(file, ask, net.tables_length() + more, net.trail_room() + random.below(4));
    }
}

/// The packets of an accepted set, each walked to its end by steps with the set's own tables.
pub fn every_walk(comparer: &mut Comparer, random: &mut Random, file: &[u8], most: usize) {
    let Ok(sound) = comparer.sound(file) else {
        return;
    };
    for ask in asks(random, &sound.0, most) {
        walk(comparer, file, &sound.1, ask, 2 * sound.0.n);
    }
}

/// Steps of one packet until it does not move any more, at most `most` of them.
fn walk(comparer: &mut Comparer, file: &[u8], tables: &[u8], ask: RunAsk, most: usize) {
    let RunAsk { source, destination, failure, failed } = ask;
    let mut next = StepAsk { place: source, destination, topology: 0, failure, failed };
    for _ in 0..most {
        match comparer.step(file, tables, next) {
            Ok(step) if step.stand == Stand::Moved => {
                next.place = step.packet.place as u8;
                next.topology = step.packet.topology as u8;
            }
            _ => return,
        }
    }
}

/// The small examples, then random sets of every size.
fn sets(random: &mut Random, rounds: usize) -> Vec<Vec<u8>> {
    let mut files = vec![set(&triangle(), &[1, 2, 3]), set(&ring(), &[1, 2, 3, 4]), set(&full_four(), &[1, 1, 2, 2])];
    for round in 0..rounds {
        let n = if round % 6 == 5 { random.between(9, MOST_NODES) } else { random.between(3, 8) };
        files.push(file_of(&some_set(random, n)));
    }
    files
}

pub fn runs(comparer: &mut Comparer, random: &mut Random, plan: &Plan) {
    for file in sets(random, 12 * plan.rounds) {
        every_run(comparer, random, &file, plan.run_work);
    }
}

pub fn walks(comparer: &mut Comparer, random: &mut Random, plan: &Plan) {
    for file in sets(random, 12 * plan.rounds) {
        every_walk(comparer, random, &file, plan.most_walks);
    }
}

/// Rings with one heavy link: a packet goes all the way around to find the last link down, and all the way back. Its run has
/// 2n - 3 hops, the most there are. Extra is n - 2 where the next hop is the destination and -(n - 2) from one end of the heavy
/// link to the other, the most and the least there are.
pub fn longest_trails(comparer: &mut Comparer, random: &mut Random, plan: &Plan) {
    for n in 3..=MOST_NODES {
        let graph = heavy_ring(n, 40);
        let file = comparer.build(&file_of(&graph), n as u8, 9_192).expect("a ring has a set of n topologies");
        let failed = graph.link_between(n - 2, n - 1).expect("the ring has this link") as u16;
        let ask = RunAsk { source: 0, destination: n as u8 - 1, failure: 1, failed };
        comparer.run(&file, ask, graph.tables_length() + n * n * n, 2 * n - 2);
        let sound = comparer.sound(&file).expect("the builder makes sound sets");
        walk(comparer, &file, &sound.1, ask, 2 * n);
        every_run(comparer, random, &file, plan.run_work / 8);
        comparer.report(&file, LONGEST_REPORT);
    }
}

/// Tables whose every entry is a neighbour by chance, or 255 for a node that has none.
pub fn neighbour_tables(random: &mut Random, net: &Network) -> Vec<u8> {
    let neighbours: Vec<Vec<usize>> = (0..net.n).map(|node| net.neighbours(node)).collect();
    let entry = |random: &mut Random, at: usize| {
        let around = &neighbours[at / net.n % net.n];
        if around.is_empty() {
            255
        } else {
            random.pick(around) as u8
        }
    };
    (0..net.tables_length()).map(|at| entry(random, at)).collect()
}

/// Packets of a set that may break the rules, walked a few steps by such tables: the step goes on where nothing else accepts.
pub fn some_walks(comparer: &mut Comparer, random: &mut Random, net: &Network, most: usize) {
    let file = file_of(net);
    let tables = neighbour_tables(random, net);
    for ask in asks(random, net, most) {
        walk(comparer, &file, &tables, ask, 4);
    }
}

/// One table byte changed in some way: to any byte, to another node, to the node itself, to 255.
fn damage_table(random: &mut Random, net: &Network, tables: &mut [u8]) {
    let at = random.below(tables.len());
    tables[at] = match random.below(5) {
        0 => random.byte(),
        1 => 255,
        2 => (at / net.n % net.n) as u8,
        _ => random.below(net.n) as u8,
    };
}

/// Tables with a few bytes changed, with many, and of chance throughout; sets that break the rules too, since the step does
/// not repeat 7 and 8.
pub fn damaged_tables(comparer: &mut Comparer, random: &mut Random, plan: &Plan) {
    for round in 0..60 * plan.rounds {
        let n = if round % 10 == 9 { random.between(9, MOST_NODES) } else { random.between(3, 7) };
        let net = match random.below(6) {
            0 => careless_set(random, n),
            1 => broken_set(random, n),
            _ => some_set(random, n),
        };
        let file = file_of(&net);
        let own = comparer.sound(&file).map(|sound| sound.1.clone());
        let careless = own.is_err();
        let mut tables = own.unwrap_or_else(|_| vec![0; net.tables_length()]);
        let changes = if careless || random.once_in(3) { tables.len() } else { random.between(1, 3 * n) };
        for _ in 0..changes {
            damage_table(random, &net, &mut tables);
        }
        for ask in asks(random, &net, 120) {
            walk(comparer, &file, &tables, ask, 4);
            // A packet that is in a backup topology from the start.
            let RunAsk { source, destination, failure, failed } = ask;
            let topology = random.between(0, net.k) as u8;
            let _ = comparer.step(&file, &tables, StepAsk { place: source, destination, topology, failure, failed });
        }
    }
}
