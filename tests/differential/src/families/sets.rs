//! Sets and graphs as they should be, or wrong only by the rules for backup topologies.

use super::rules::every_sort;
use super::{every_entry, forwarding, Plan, AMPLE_LISTS, LONGEST_FILE, LONGEST_TABLES};
use crate::compare::Comparer;
use crate::make::{
    careless_set, far_set, fitting_homes, graph_of, largest_crowded_at, loose_graph, most_links, ringed_graph,
    set_with, some_links, some_set, tree_graph,
};
use crate::model::file::{file_of, judge, Lists};
use crate::model::report::LONGEST_REPORT;
use crate::model::samples::{full_four, ring, set, triangle, two_triangles};
use crate::model::{Network, MOST_LINKS, MOST_NODES, MOST_TOPOLOGIES};
use crate::random::Random;

/// Reading, tables, report, writing of one file, and its refusal by the builder. A set that breaks the rules is written from the
/// lists that its records make.
fn whole(comparer: &mut Comparer, file: &[u8]) {
    let _ = comparer.read(file, &AMPLE_LISTS);
    let _ = comparer.tables(file, LONGEST_TABLES);
    comparer.report(file, LONGEST_REPORT);
    if let Ok(net) = judge(file) {
        let _ = comparer.write(&Lists::of(&net), LONGEST_FILE);
    }
    let _ = comparer.build(file, 32, LONGEST_FILE);
}

/// P1 to P12, the unmarked examples and the triangle's report.
pub fn examples(comparer: &mut Comparer, random: &mut Random, plan: &Plan) {
    for (graph, cap) in [(triangle(), 3), (ring(), 4), (ring(), 3), (full_four(), 4), (two_triangles(), 5)] {
        let _ = comparer.build(&file_of(&graph), cap, LONGEST_FILE);
    }
    let sets = [
        set(&triangle(), &[1, 2, 3]),
        set(&ring(), &[1, 2, 3, 4]),
        set(&full_four(), &[1, 1, 2, 2]),
        set(&ring(), &[1, 2, 1, 3]),
        set(&full_four(), &[1, 1, 1, 2]),
    ];
    for file in sets {
        whole(comparer, &file);
        forwarding::every_run(comparer, random, &file, plan.run_work);
        let net = judge(&file).expect("the examples' records are right");
        every_sort(comparer, random, &net);
    }
    for graph in [triangle(), ring(), full_four(), two_triangles()] {
        every_sort(comparer, random, &graph);
    }
    let mut file = file_of(&triangle());
    for weight in [0, 3, 4] {
        file[13] = weight;
        every_entry(comparer, random, &file);
    }
    file[13] = 1;
    for n in [2, 33] {
        file[2] = n;
        every_entry(comparer, random, &file);
    }
    file[2] = 3;
    file.push(0);
    every_entry(comparer, random, &file);
}

/// Sets that the builder did not make: homes by chance, rows unlike topology 0, topologies nobody has as home. In the last ones
/// topology 0 goes far around, so that extra is often below zero.
pub fn random_sets(comparer: &mut Comparer, random: &mut Random, plan: &Plan) {
    for _ in 0..4 * plan.rounds {
        for n in 3..=MOST_NODES {
            let file = file_of(&some_set(random, n));
            whole(comparer, &file);
        }
    }
    for _ in 0..60 * plan.rounds {
        let n = random.between(3, 8);
        let file = file_of(&some_set(random, n));
        whole(comparer, &file);
    }
    for _ in 0..plan.rounds {
        for n in 3..=MOST_NODES {
            let m = some_links(random, n);
            let file = file_of(&far_set(random, n, m));
            whole(comparer, &file);
        }
    }
}

/// Sets whose homes were drawn without a look at the rules, in graphs of every kind: 7 and 8 at many topologies.
pub fn careless_sets(comparer: &mut Comparer, random: &mut Random, plan: &Plan) {
    for round in 0..300 * plan.rounds {
        let n = if round % 4 == 0 { random.between(3, MOST_NODES) } else { random.between(3, 9) };
        let net = if random.once_in(2) { careless_set(random, n) } else { one_node_moved(random, n) };
        whole(comparer, &file_of(&net));
        if random.once_in(6) {
            every_sort(comparer, random, &net);
        }
    }
}

/// A set that keeps the rules, then one node moved to another home: the refusal often comes at a later topology.
fn one_node_moved(random: &mut Random, n: usize) -> Network {
    let set = some_set(random, n);
    let mut homes = set.homes.clone();
    homes[random.below(n)] = random.between(1, set.k);
    let graph = graph_of(&set);
    set_with(random, &graph, set.k, homes)
}

/// The builder with every cap, and the sets that it made.
pub fn every_cap(comparer: &mut Comparer, random: &mut Random, plan: &Plan) {
    for round in 0..2 * plan.rounds {
        for n in 3..=MOST_NODES {
            // Large graphs take the longest to build; after the first round they come less often.
            if round > 0 && n > 12 && !random.once_in(3) {
                continue;
            }
            let m = some_links(random, n);
            let graph = file_of(&ringed_graph(random, n, m));
            let mut last = Vec::new();
            for cap in (0..=33).chain([64, 128, 255]) {
                if let Ok(file) = comparer.build(&graph, cap, LONGEST_FILE) {
                    last = file;
                }
            }
            whole(comparer, &last);
        }
    }
}

/// Graphs where removing some node disconnects the others, and near ones where it doesn't.
pub fn cut_nodes(comparer: &mut Comparer, random: &mut Random, plan: &Plan) {
    for round in 0..200 * plan.rounds {
        let n = if round % 4 == 0 { random.between(3, MOST_NODES) } else { random.between(3, 9) };
        let m = random.between(3, (n + n / 2).min(most_links(n)));
        let graph = match random.below(4) {
            0 => loose_graph(random, n, m),
            1 => ringed_graph(random, n, m),
            _ => tree_graph(random, n, m),
        };
        let file = file_of(&graph);
        for cap in [0, 1, 3, n as u8, 32, 33] {
            let _ = comparer.build(&file, cap, LONGEST_FILE);
        }
    }
}

/// 32 nodes, 128 links, 32 topologies, in several ways; weights as they come, the greatest among them.
pub fn largest(comparer: &mut Comparer, random: &mut Random, plan: &Plan) {
    for round in 0..3 * plan.rounds {
        let mut graph = ringed_graph(random, MOST_NODES, MOST_LINKS);
        if round % 3 == 0 {
            graph.wmax = 65_535;
            graph.weights = vec![65_535; MOST_LINKS];
        }
        let homes = if round % 2 == 0 { (1..=32).collect() } else { fitting_homes(random, &graph, 32) };
        let set = set_with(random, &graph, 32, homes);
        let file = file_of(&set);
        assert_eq!(file.len(), LONGEST_FILE);
        whole(comparer, &file);
        forwarding::every_run(comparer, random, &file, plan.run_work);
        forwarding::every_walk(comparer, random, &file, plan.most_walks / 4);
        if let Ok(built) = comparer.build(&file_of(&graph), 32, LONGEST_FILE) {
            whole(comparer, &built);
        }
    }
    // A ring of 32 nodes has the longest paths and needs a topology for each node.
    let ring = file_of(&ringed_graph(random, MOST_NODES, MOST_NODES));
    for cap in [31, 32] {
        if let Ok(file) = comparer.build(&ring, cap, LONGEST_FILE) {
            whole(comparer, &file);
            forwarding::every_run(comparer, random, &file, plan.run_work);
        }
    }
    // Extra of two digits below zero at the largest size.
    let far = far_set(random, MOST_NODES, MOST_LINKS);
    whole(comparer, &file_of(&far));
    // 7 or 8 at each of 32 topologies, with nothing wrong before it.
    for topology in 1..=MOST_TOPOLOGIES {
        let set = largest_crowded_at(random, topology);
        whole(comparer, &file_of(&set));
    }
}
