//! Sets that break the rules for backup topologies, given to every entry: 7 and 8 come after every record and before every other
//! reason to refuse, and the step, which gives neither, goes on.

use super::rooms::with_list;
use super::{every_entry, forwarding, Plan, AMPLE_LISTS, LONGEST_FILE, LONGEST_TABLES};
use crate::compare::Comparer;
use crate::entries::{RunAsk, StepAsk};
use crate::make::{any_graph, broken_set, one_topology_set, some_set};
use crate::model::file::{file_of, lists_needed, ListRooms, Lists};
use crate::model::report::LONGEST_REPORT;
use crate::model::{Network, MOST_NODES};
use crate::random::Random;

/// Rooms of every sort for lists that need this much: ample, exact, one list an entry short, one list not there, none there.
fn sorts_of_lists(exact: ListRooms) -> Vec<ListRooms> {
    let mut sorts = vec![AMPLE_LISTS, exact, ListRooms { a: 0, b: 0, weights: 0, homes: 0, rows: 0 }];
    for (list, needed) in [exact.a, exact.b, exact.weights, exact.homes, exact.rows].into_iter().enumerate() {
        sorts.push(with_list(exact, list, needed.saturating_sub(1)));
        sorts.push(with_list(exact, list, 0));
    }
    sorts
}

/// Asks of every sort: nothing and a link down; each argument out of range; the source down; both of these.
fn sorts_of_asks(net: &Network) -> Vec<RunAsk> {
    let (n, m) = (net.n as u8, net.m as u16);
    let good = RunAsk { source: 0, destination: n - 1, failure: 0, failed: 0 };
    let down = |failure, failed| RunAsk { failure, failed, ..good };
    vec![
        good,
        down(1, 0),
        RunAsk { source: n, ..good },
        RunAsk { destination: n, ..good },
        down(1, m),
        down(2, n as u16),
        down(3, 0),
        down(2, 0),
        RunAsk { destination: n, ..down(2, 0) },
    ]
}

/// Every entry with every sort of room and argument, of a network whose records are right: a graph alone, a sound set, or a set
/// that breaks the rules.
pub fn every_sort(comparer: &mut Comparer, random: &mut Random, net: &Network) {
    let file = file_of(net);
    for rooms in sorts_of_lists(lists_needed(net.n, net.m, net.k)) {
        let _ = comparer.read(&file, &rooms);
    }
    for room in [0, 1, file.len() - 1, file.len(), file.len() + 1, LONGEST_FILE] {
        let _ = comparer.write(&Lists::of(net), room);
    }
    for cap in [0, 1, net.k as u8, 32, 33, 255] {
        for room in [0, LONGEST_FILE] {
            let _ = comparer.build(&file, cap, room);
        }
    }
    let (needed, trail) = (net.tables_length(), net.trail_room());
    for room in [0, needed - 1, needed, LONGEST_TABLES] {
        let _ = comparer.tables(&file, room);
    }
    for room in [0, LONGEST_REPORT] {
        comparer.report(&file, room);
    }
    let tables = forwarding::neighbour_tables(random, net);
    for ask in sorts_of_asks(net) {
        for (tables_room, trail_room) in [(needed, trail), (0, 0), (needed - 1, trail), (needed, trail - 1)] {
            comparer.run(&file, ask, tables_room, trail_room);
        }
        let RunAsk { source: place, destination, failure, failed } = ask;
        for topology in [0, net.k as u8, net.k as u8 + 1] {
            for lent in [&tables[..], &tables[1..], &[], &vec![255; needed]] {
                let _ = comparer.step(&file, lent, StepAsk { place, destination, topology, failure, failed });
            }
        }
    }
}

/// The file of a set with its last record, a row, wrong in some way. Whatever rule topology 1 breaks, the record comes first.
fn with_wrong_row(random: &mut Random, net: &Network) -> Vec<u8> {
    let mut file = file_of(net);
    let row = file.len() - 2 * net.m - 3;
    match random.below(3) {
        0 => file[row + random.below(2)] ^= 1 << random.below(8),
        1 => file[row + 2] = random.pick(&[0, net.k as u8 - 1, net.k as u8 + 1, 255]),
        _ => {
            // A weight over wmax, or one where there is none; where wmax is the most there is, this can be right.
            let weight = row + 3 + 2 * random.below(net.m);
            file[weight..weight + 2].copy_from_slice(&net.wmax.saturating_add(1).to_be_bytes());
        }
    }
    file
}

/// One set that breaks the rules: as it is, by steps, and with its last record wrong as well.
fn one_broken(comparer: &mut Comparer, random: &mut Random, net: &Network) {
    every_sort(comparer, random, net);
    forwarding::some_walks(comparer, random, net, 30);
    let wrong = with_wrong_row(random, net);
    every_entry(comparer, random, &wrong);
}

/// Sets of every size that break the rules; among them graphs alone and sound sets, to which the same calls are made.
pub fn broken_rules(comparer: &mut Comparer, random: &mut Random, plan: &Plan) {
    for _ in 0..plan.rounds {
        for n in 3..=MOST_NODES {
            let net = broken_set(random, n);
            one_broken(comparer, random, &net);
        }
    }
    for _ in 0..120 * plan.rounds {
        let n = random.between(3, 8);
        let net = broken_set(random, n);
        one_broken(comparer, random, &net);
    }
    for _ in 0..20 * plan.rounds {
        let n = random.between(3, 8);
        for net in [any_graph(random, n), some_set(random, n)] {
            every_sort(comparer, random, &net);
        }
    }
}

/// Files with k = 1, of every size: everyone's home is 1 and no backbone is left, so nothing but the step takes them.
pub fn one_topology(comparer: &mut Comparer, random: &mut Random, plan: &Plan) {
    for _ in 0..plan.rounds {
        for n in 3..=MOST_NODES {
            let net = one_topology_set(random, n);
            one_broken(comparer, random, &net);
            // Another home than 1 is a wrong record.
            let mut file = file_of(&net);
            let home = 8 + 6 * net.m + 4 * random.below(n);
            file[home + 3] = random.pick(&[0, 2, 255]);
            every_entry(comparer, random, &file);
        }
    }
}
