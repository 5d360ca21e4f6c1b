//! Arguments at their bounds and past them, and several reasons to refuse at once.

use super::lists::damage;
use super::Plan;
use crate::compare::Comparer;
use crate::entries::{RunAsk, StepAsk};
use crate::make::{any_graph, broken_set, one_topology_set, some_set};
use crate::model::file::{file_length, file_of, lists_needed, ListRooms, Lists};
use crate::model::report::LONGEST_REPORT;
use crate::model::samples::{full_four, set, triangle};
use crate::model::{Network, MOST_NODES};
use crate::random::Random;

/// Failures at their bounds: the kind, and the number under it.
fn failures(net: &Network) -> Vec<(u8, u16)> {
    let (n, m) = (net.n as u16, net.m as u16);
    let numbers = [0, 1, n - 1, n, n + 1, m - 1, m, m + 1, 255, 256, 257, 65_535];
    [0, 1, 2, 3, 4, 128, 255].iter().flat_map(|&kind| numbers.map(|number| (kind, number))).collect()
}

fn nodes(net: &Network) -> [u8; 6] {
    let n = net.n as u8;
    [0, 1, n - 1, n, 32, 255]
}

/// Every choice of arguments at their bounds for small sets, and choices by chance for others.
pub fn out_of_range(comparer: &mut Comparer, random: &mut Random, plan: &Plan) {
    for file in [set(&triangle(), &[1, 2, 3]), set(&full_four(), &[1, 1, 2, 2])] {
        every_choice(comparer, &file);
    }
    for round in 0..60 * plan.rounds {
        let n = if round % 10 == 9 { random.between(9, MOST_NODES) } else { random.between(3, 8) };
        let net = some_set(random, n);
        let file = file_of(&net);
        let Ok(sound) = comparer.sound(&file) else {
            continue;
        };
        for _ in 0..20 {
            let (failure, failed) = random.pick(&failures(&net));
            let (source, destination) = (random.pick(&nodes(&net)), random.pick(&nodes(&net)));
            let k = net.k as u8;
            let topology = random.pick(&[0, 1, k, k + 1, 255]);
            let step = StepAsk { place: source, destination, topology, failure, failed };
            let _ = comparer.step(&file, &sound.1, step);
            let ask = RunAsk { source, destination, failure, failed };
            comparer.run(&file, ask, net.tables_length(), net.trail_room());
        }
    }
}

fn every_choice(comparer: &mut Comparer, file: &[u8]) {
    let Ok(sound) = comparer.sound(file) else {
        return;
    };
    let (net, tables) = (&sound.0, &sound.1);
    let k = net.k as u8;
    for (failure, failed) in failures(net) {
        for source in nodes(net) {
            for destination in nodes(net) {
                let ask = RunAsk { source, destination, failure, failed };
                comparer.run(file, ask, net.tables_length(), net.trail_room());
                for topology in [0, 1, k, k + 1, 255] {
                    let ask = StepAsk { place: source, destination, topology, failure, failed };
                    let _ = comparer.step(file, tables, ask);
                }
            }
        }
    }
}

/// A file for the order of refusals: good, a graph alone, one that breaks the rules, or any of these with a byte changed.
fn some_file(random: &mut Random) -> (Network, Vec<u8>) {
    let n = random.between(3, 7);
    let net = match random.below(7) {
        0 | 1 => any_graph(random, n),
        2 | 3 => broken_set(random, n),
        4 => one_topology_set(random, n),
        _ => some_set(random, n),
    };
    let mut file = file_of(&net);
    if random.once_in(5) {
        let at = random.below(file.len());
        file[at] = random.byte();
    }
    (net, file)
}

/// A room: mostly enough, otherwise one under it, none, or any.
fn some_room(random: &mut Random, needed: usize) -> usize {
    match random.below(6) {
        0 => needed.saturating_sub(1),
        1 => 0,
        2 => random.below(needed + 1),
        _ => needed + random.below(3),
    }
}

/// Rooms for the reader's lists: half of the time enough of all, otherwise each by chance.
fn some_lists(random: &mut Random, needed: &ListRooms) -> ListRooms {
    if random.once_in(2) {
        return *needed;
    }
    ListRooms {
        a: some_room(random, needed.a),
        b: some_room(random, needed.b),
        weights: some_room(random, needed.weights),
        homes: some_room(random, needed.homes),
        rows: some_room(random, needed.rows),
    }
}

fn some_failure(random: &mut Random, net: &Network, source: u8) -> (u8, u16) {
    match random.below(4) {
        0 => random.pick(&failures(net)),
        1 => (2, source as u16),
        2 => (1, random.below(net.m) as u16),
        _ => (0, 0),
    }
}

/// Files, arguments, rooms and tables that are each good or bad by chance: the order of the refusals decides the answer.
pub fn order(comparer: &mut Comparer, random: &mut Random, plan: &Plan) {
    for _ in 0..1_500 * plan.rounds {
        let (net, file) = some_file(random);
        let longest = file_length(net.n, net.m, net.n);
        let cap = random.pick(&[0, 1, 2, 3, 4, 7, 32, 33, 255]);
        let room = some_room(random, longest);
        let _ = comparer.build(&file, cap, room);

        let needed = net.tables_length();
        let room = some_room(random, needed);
        let _ = comparer.tables(&file, room);

        let node =
            |random: &mut Random| if random.once_in(5) { random.pick(&nodes(&net)) } else { random.below(net.n) as u8 };
        let (source, destination) = (node(random), node(random));
        let (failure, failed) = some_failure(random, &net, source);
        let (tables_room, trail_room) = (some_room(random, needed), some_room(random, net.trail_room()));
        comparer.run(&file, RunAsk { source, destination, failure, failed }, tables_room, trail_room);

        let tables: Vec<u8> = (0..some_room(random, needed)).map(|_| random.below(net.n + 1) as u8).collect();
        let topology = if random.once_in(5) { random.byte() } else { random.between(0, net.k) as u8 };
        let ask = StepAsk { place: source, destination, topology, failure, failed };
        let _ = comparer.step(&file, &tables, ask);

        if random.once_in(4) {
            let room = some_room(random, LONGEST_REPORT);
            comparer.report(&file, room);
        }

        let rooms = some_lists(random, &lists_needed(net.n, net.m, net.k));
        let _ = comparer.read(&file, &rooms);

        let mut lists = Lists::of(&net);
        if random.once_in(3) {
            damage(random, &mut lists);
        }
        let room = some_room(random, file.len());
        let _ = comparer.write(&lists, room);
    }
}
