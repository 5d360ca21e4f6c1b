//! Distances, next hops, alternates, and the tables' bytes.

use super::rules::{sound_set, Standing};
use super::{Network, Refusal};

/// The entry where there is no alternate.
pub const NO_ALTERNATE: u8 = 255;

/// A number for every two nodes; none where there is none.
pub type Pairs = Vec<Vec<Option<u64>>>;

/// The weight of a link in a topology, or none where the link is isolated and so never used.
pub fn weight_in(net: &Network, topology: usize, link: usize) -> Option<u64> {
    let row = if topology == 0 { &net.weights } else { &net.rows[topology - 1] };
    match net.standing(topology, link) {
        Standing::Normal => Some(row[link] as u64),
        Standing::Restricted => Some(2 * net.m as u64 * net.wmax as u64),
        Standing::Isolated => None,
    }
}

/// The weight of the usable link between every two nodes, both ways.
fn usable_links(net: &Network, topology: usize) -> Pairs {
    let mut pairs = vec![vec![None; net.n]; net.n];
    for (link, &(a, b)) in net.ends.iter().enumerate() {
        pairs[a][b] = weight_in(net, topology, link);
        pairs[b][a] = pairs[a][b];
    }
    pairs
}

/// The least total weight over all paths of usable links: the nodes are allowed as places between, one after another.
fn distances(links: &Pairs) -> Pairs {
    let n = links.len();
    let mut pairs = links.clone();
    for (node, row) in pairs.iter_mut().enumerate() {
        row[node] = Some(0);
    }
    for via in 0..n {
        for u in 0..n {
            for t in 0..n {
                let Some(through) = sum(pairs[u][via], pairs[via][t]) else {
                    continue;
                };
                if pairs[u][t].is_none_or(|least| through < least) {
                    pairs[u][t] = Some(through);
                }
            }
        }
    }
    pairs
}

fn sum(one: Option<u64>, other: Option<u64>) -> Option<u64> {
    one.zip(other).map(|(x, y)| x + y)
}

/// The next hop at u for t: the lowest-numbered neighbour whose link weight plus its distance to t equals u's distance.
fn next_hop(links: &Pairs, distance: &Pairs, u: usize, t: usize) -> u8 {
    if u == t {
        return u as u8;
    }
    assert!(distance[u][t].is_some(), "a sound set joins every two nodes in every topology");
    let mut nodes = 0..links.len();
    let lowest = nodes.find(|&w| sum(links[u][w], distance[w][t]) == distance[u][t]);
    lowest.expect("a least path has a first link") as u8
}

/// The alternate at u for v, by the distances in u's home topology; 255 where v is no neighbour or has the same home.
fn alternate(net: &Network, in_home: &Pairs, u: usize, v: usize) -> u8 {
    let neighbours = net.neighbours(u);
    if !neighbours.contains(&v) || net.homes[u] == net.homes[v] {
        return NO_ALTERNATE;
    }
    let restricted = |w: &usize| {
        let link = net.link_between(u, *w).expect("a neighbour has a link");
        net.standing(net.homes[u], link) == Standing::Restricted
    };
    let others = neighbours.into_iter().filter(|&w| w != v).filter(restricted);
    let nearest = others.min_by_key(|&w| (in_home[w][v].expect("a sound set joins every two nodes"), w));
    nearest.expect("an isolated node of a sound set has two restricted links") as u8
}

/// The tables of a set that meets the rules: by topology, node, destination; then alternates by node, neighbour.
pub fn tables_of(net: &Network) -> Vec<u8> {
    let links: Vec<Pairs> = (0..=net.k).map(|topology| usable_links(net, topology)).collect();
    let distance: Vec<Pairs> = links.iter().map(distances).collect();
    let mut bytes = Vec::new();
    for topology in 0..=net.k {
        for u in 0..net.n {
            for t in 0..net.n {
                bytes.push(next_hop(&links[topology], &distance[topology], u, t));
            }
        }
    }
    for u in 0..net.n {
        for v in 0..net.n {
            bytes.push(alternate(net, &distance[net.homes[u]], u, v));
        }
    }
    bytes
}

/// The tables of a set's file: 1 to 8, 13, 14.
pub fn tables(file: &[u8], room: usize) -> Result<Vec<u8>, Refusal> {
    let net = sound_set(file)?;
    if room < net.tables_length() {
        return Err((14, 0));
    }
    Ok(tables_of(&net))
}
