//! Random graphs and sets. Nothing here decides what is right; it only makes inputs of many shapes.

use crate::model::builder::keeps_rules;
use crate::model::rules::Standing;
use crate::model::{Network, LEAST_LINKS, MOST_LINKS, MOST_NODES, MOST_TOPOLOGIES};
use crate::random::Random;

/// How weights are chosen.
#[derive(Clone, Copy)]
pub enum Weights {
    Ones,
    Most,
    Any,
    /// Few different ones, so that many paths tie.
    Few,
}

/// A choice of wmax and of weights. The extremes come up often.
pub fn weighing(random: &mut Random) -> (u16, Weights) {
    let wmax = match random.below(6) {
        0 => 1,
        1 => 65_535,
        2 => random.between(1, 65_535) as u16,
        _ => random.between(1, 20) as u16,
    };
    (wmax, random.pick(&[Weights::Ones, Weights::Most, Weights::Any, Weights::Any, Weights::Few]))
}

pub fn weight(random: &mut Random, wmax: u16, weights: Weights) -> u16 {
    match weights {
        Weights::Ones => 1,
        Weights::Most => wmax,
        Weights::Any => random.between(1, wmax as usize) as u16,
        Weights::Few => random.between(1, wmax.min(3) as usize) as u16,
    }
}

pub fn most_links(n: usize) -> usize {
    MOST_LINKS.min(n * (n - 1) / 2)
}

/// A graph of these pairs with random weights, and random links added up to m of them.
fn graph_with(random: &mut Random, n: usize, m: usize, mut pairs: Vec<(usize, usize)>) -> Network {
    let every = (0..n).flat_map(|a| (a + 1..n).map(move |b| (a, b)));
    let mut others: Vec<(usize, usize)> = every.filter(|pair| !pairs.contains(pair)).collect();
    random.shuffle(&mut others);
    pairs.extend(others.into_iter().take(m.saturating_sub(pairs.len())));
    pairs.sort();
    let (wmax, weights) = weighing(random);
    let weights = pairs.iter().map(|_| weight(random, wmax, weights)).collect();
    Network { n, m: pairs.len(), k: 0, wmax, ends: pairs, weights, homes: vec![], rows: vec![] }
}

fn pair(u: usize, w: usize) -> (usize, usize) {
    (u.min(w), u.max(w))
}

fn shuffled_nodes(random: &mut Random, n: usize) -> Vec<usize> {
    let mut nodes: Vec<usize> = (0..n).collect();
    random.shuffle(&mut nodes);
    nodes
}

/// A graph that stays connected when any one node is removed: a ring through all nodes in random order, and m links in all.
pub fn ringed_graph(random: &mut Random, n: usize, m: usize) -> Network {
    let nodes = shuffled_nodes(random, n);
    let mut pairs: Vec<(usize, usize)> = (0..n).map(|at| pair(nodes[at], nodes[(at + 1) % n])).collect();
    pairs.sort();
    pairs.dedup();
    graph_with(random, n, m, pairs)
}

/// A ringed graph whose weights send packets far around: all links of the ring but its last weigh 1, all others wmax, which is n
/// or more. Topology 0 then keeps to the light links however near the destination is, and extra goes far below zero.
fn far_graph(random: &mut Random, n: usize, m: usize) -> Network {
    let nodes = shuffled_nodes(random, n);
    let light: Vec<(usize, usize)> = nodes.windows(2).map(|two| pair(two[0], two[1])).collect();
    let mut ring = light.clone();
    ring.push(pair(nodes[n - 1], nodes[0]));
    let mut graph = graph_with(random, n, m, ring);
    graph.wmax = random.pick(&[n as u16, 65_535]);
    graph.weights = graph.ends.iter().map(|ends| if light.contains(ends) { 1 } else { graph.wmax }).collect();
    graph
}

/// A connected graph, often with nodes whose removal disconnects it: a random tree, and m links in all.
pub fn tree_graph(random: &mut Random, n: usize, m: usize) -> Network {
    let nodes = shuffled_nodes(random, n);
    let pairs = (1..n).map(|at| pair(nodes[at], nodes[random.below(at)])).collect();
    graph_with(random, n, m.max(LEAST_LINKS), pairs)
}

/// A graph of m random links, often in several parts.
pub fn loose_graph(random: &mut Random, n: usize, m: usize) -> Network {
    graph_with(random, n, m, vec![])
}

/// A number of links for n nodes: sparse graphs are as likely as dense ones.
pub fn some_links(random: &mut Random, n: usize) -> usize {
    let most = most_links(n);
    match random.below(4) {
        0 => most,
        1 => random.between(n.min(most), most),
        _ => random.between(n.min(most), (2 * n).min(most)),
    }
    .max(LEAST_LINKS)
}

/// Homes that keep the rules where that is possible: each node, in random order, goes to a random topology that admits it.
/// This is not the builder's way, and it leaves topologies unused.
pub fn fitting_homes(random: &mut Random, graph: &Network, k: usize) -> Vec<usize> {
    let mut homes = vec![0; graph.n];
    for node in shuffled_nodes(random, graph.n) {
        let mut topologies: Vec<usize> = (1..=k).collect();
        random.shuffle(&mut topologies);
        let admits = |&topology: &usize| {
            let mut isolated: Vec<bool> = homes.iter().map(|&home| home == topology).collect();
            isolated[node] = true;
            keeps_rules(graph, &isolated)
        };
        let fitting = topologies.iter().copied().find(admits);
        homes[node] = fitting.unwrap_or(topologies[0]);
    }
    homes
}

/// Whether every topology that is somebody's home keeps the rules.
fn keep_rules(graph: &Network, homes: &[usize]) -> bool {
    homes.iter().all(|topology| {
        let isolated: Vec<bool> = homes.iter().map(|home| home == topology).collect();
        keeps_rules(graph, &isolated)
    })
}

pub fn any_homes(random: &mut Random, n: usize, k: usize) -> Vec<usize> {
    (0..n).map(|_| random.between(1, k)).collect()
}

/// The set with these homes. Its rows have weights of their own, unlike topology 0's.
pub fn set_with(random: &mut Random, graph: &Network, k: usize, homes: Vec<usize>) -> Network {
    let mut set = Network { k, homes, ..graph.clone() };
    for topology in 1..=k {
        let weights = random.pick(&[Weights::Ones, Weights::Most, Weights::Any, Weights::Few]);
        let row: Vec<u16> = (0..set.m)
            .map(|link| match set.standing(topology, link) {
                Standing::Normal => weight(random, set.wmax, weights),
                Standing::Restricted | Standing::Isolated => 0,
            })
            .collect();
        set.rows.push(row);
    }
    set
}

/// A set of n nodes, mostly one that meets the rules.
pub fn some_set(random: &mut Random, n: usize) -> Network {
    let m = some_links(random, n);
    let graph = ringed_graph(random, n, m);
    let k = random.between(1, n);
    let homes = fitting_homes(random, &graph, k);
    // A sparse graph needs more topologies than were drawn; with n of them every node fits.
    if keep_rules(&graph, &homes) || random.once_in(6) {
        return set_with(random, &graph, k, homes);
    }
    let homes = fitting_homes(random, &graph, n);
    set_with(random, &graph, n, homes)
}

/// A set of n nodes, m links and n topologies that meets the rules, where many paths of topology 0 are longer than the others.
pub fn far_set(random: &mut Random, n: usize, m: usize) -> Network {
    let graph = far_graph(random, n, m);
    let homes = fitting_homes(random, &graph, n);
    set_with(random, &graph, n, homes)
}

/// A graph of any kind: one that stays connected, one that some node cuts, or one in parts.
pub fn any_graph(random: &mut Random, n: usize) -> Network {
    let m = some_links(random, n);
    match random.below(3) {
        0 => ringed_graph(random, n, m),
        1 => tree_graph(random, n, m),
        _ => loose_graph(random, n, m),
    }
}

/// A set of n nodes whose homes were chosen without a look at the rules.
pub fn careless_set(random: &mut Random, n: usize) -> Network {
    let graph = any_graph(random, n);
    let k = random.between(1, n);
    let homes = any_homes(random, n, k);
    set_with(random, &graph, k, homes)
}

/// A set of n nodes and one topology, which is everyone's home.
pub fn one_topology_set(random: &mut Random, n: usize) -> Network {
    let graph = any_graph(random, n);
    set_with(random, &graph, 1, vec![1; n])
}

/// The graph of a set.
pub fn graph_of(set: &Network) -> Network {
    Network { k: 0, homes: vec![], rows: vec![], ..set.clone() }
}

/// Moves nodes into a topology, in random order, until a rule breaks there. To move a node away from a topology breaks nothing
/// there, so a set that met the rules breaks them at this topology alone.
fn crowd(random: &mut Random, graph: &Network, homes: &mut [usize], topology: usize) {
    for node in shuffled_nodes(random, graph.n) {
        homes[node] = topology;
        let isolated: Vec<bool> = homes.iter().map(|&home| home == topology).collect();
        if !keeps_rules(graph, &isolated) {
            return;
        }
    }
}

/// A set of the largest size that breaks the rules at this topology alone.
pub fn largest_crowded_at(random: &mut Random, topology: usize) -> Network {
    let graph = ringed_graph(random, MOST_NODES, MOST_LINKS);
    let mut homes = fitting_homes(random, &graph, MOST_TOPOLOGIES);
    crowd(random, &graph, &mut homes, topology);
    set_with(random, &graph, MOST_TOPOLOGIES, homes)
}

/// A set that mostly meets the rules except at one topology or two: the first, the last or any.
fn crowded_set(random: &mut Random, n: usize) -> Network {
    let set = some_set(random, n);
    let graph = graph_of(&set);
    let mut homes = set.homes;
    for _ in 0..random.between(1, 2) {
        let any = random.between(1, set.k);
        let topology = random.pick(&[1, set.k, any]);
        crowd(random, &graph, &mut homes, topology);
    }
    set_with(random, &graph, set.k, homes)
}

/// A set without one of its links: its homes and rows are what they were, and the backbones that needed the link are not.
fn set_without_link(random: &mut Random, mut set: Network) -> Network {
    if set.m > LEAST_LINKS {
        let link = random.below(set.m);
        set.m -= 1;
        set.ends.remove(link);
        set.weights.remove(link);
        for row in &mut set.rows {
            row.remove(link);
        }
    }
    set
}

/// A set of n nodes, right by its records, that mostly breaks the rules.
pub fn broken_set(random: &mut Random, n: usize) -> Network {
    match random.below(6) {
        0 => careless_set(random, n),
        1 => one_topology_set(random, n),
        2 => {
            let set = some_set(random, n);
            set_without_link(random, set)
        }
        _ => crowded_set(random, n),
    }
}
