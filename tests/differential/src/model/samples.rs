//! The networks that 01's examples name, and the ring with one heavy link.

use super::builder::filled;
use super::file::file_of;
use super::Network;

/// A graph from its links: two ends and a weight each.
pub fn graph(n: usize, wmax: u16, links: &[(usize, usize, u16)]) -> Network {
    Network {
        n,
        m: links.len(),
        k: 0,
        wmax,
        ends: links.iter().map(|&(a, b, _)| (a, b)).collect(),
        weights: links.iter().map(|&(_, _, weight)| weight).collect(),
        homes: vec![],
        rows: vec![],
    }
}

pub fn triangle() -> Network {
    graph(3, 3, &[(0, 1, 1), (0, 2, 3), (1, 2, 1)])
}

pub fn ring() -> Network {
    graph(4, 1, &[(0, 1, 1), (0, 3, 1), (1, 2, 1), (2, 3, 1)])
}

pub fn full_four() -> Network {
    graph(4, 1, &[(0, 1, 1), (0, 2, 1), (0, 3, 1), (1, 2, 1), (1, 3, 1), (2, 3, 1)])
}

/// A ring of n nodes where link 0 to n - 1 weighs `heavy` and every other link 1. With n = 3 and 3 it is the triangle.
///
/// Where `heavy` is n or more, topology 0 never uses that link: its paths go by node numbers, n - 1 hops from one end to the
/// other, and every backup path goes over the heavy link.
pub fn heavy_ring(n: usize, heavy: u16) -> Network {
    let mut links: Vec<(usize, usize, u16)> = (1..n).map(|node| (node - 1, node, 1)).collect();
    links.insert(1, (0, n - 1, heavy));
    graph(n, heavy, &links)
}

/// Two triangles that share node 0.
pub fn two_triangles() -> Network {
    graph(5, 1, &[(0, 1, 1), (0, 2, 1), (0, 3, 1), (0, 4, 1), (1, 2, 1), (3, 4, 1)])
}

/// The file of a graph with these homes, its rows as the builder would fill them.
pub fn set(graph: &Network, homes: &[usize]) -> Vec<u8> {
    file_of(&filled(graph, homes.to_vec()))
}
