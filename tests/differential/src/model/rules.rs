//! The rules for a backup topology, and what a file must be for an entry that needs a set.

use super::file::{judge, take_in};
use super::{Network, Refusal};

/// How a link stands in a topology.
#[derive(Clone, Copy, Debug, PartialEq, Eq)]
pub enum Standing {
    Normal,
    Restricted,
    Isolated,
}

impl Network {
    /// A node is isolated in i exactly if its home is i. Homes are 1 to k, so nobody is isolated in topology 0.
    pub fn isolated(&self, topology: usize, node: usize) -> bool {
        topology > 0 && self.homes[node] == topology
    }

    pub fn standing(&self, topology: usize, link: usize) -> Standing {
        let (a, b) = self.ends[link];
        match (self.isolated(topology, a), self.isolated(topology, b)) {
            (true, true) => Standing::Isolated,
            (false, false) => Standing::Normal,
            _ => Standing::Restricted,
        }
    }

    /// The backbone of a topology: the nodes that are not isolated in it.
    pub fn backbone(&self, topology: usize) -> Vec<bool> {
        (0..self.n).map(|node| !self.isolated(topology, node)).collect()
    }
}

/// Whether the nodes marked in `inside` are at least one and connected by links with both ends among them.
pub fn connected(net: &Network, inside: &[bool]) -> bool {
    let Some(first) = inside.iter().position(|&is| is) else {
        return false;
    };
    let mut reached = vec![false; net.n];
    reached[first] = true;
    // Any path inside has fewer links than there are nodes, so n rounds over all links reach whatever can be reached.
    for _ in 0..net.n {
        for &(a, b) in &net.ends {
            if inside[a] && inside[b] && (reached[a] || reached[b]) {
                reached[a] = true;
                reached[b] = true;
            }
        }
    }
    reached == inside
}

/// Whether each node outside the backbone has at least two links into it.
pub fn two_links_each(net: &Network, backbone: &[bool]) -> bool {
    let mut restricted = vec![0; net.n];
    for &(a, b) in &net.ends {
        // Each link counts for the end outside, whichever of the two it is.
        if !backbone[a] && backbone[b] {
            restricted[a] += 1;
        }
        if !backbone[b] && backbone[a] {
            restricted[b] += 1;
        }
    }
    (0..net.n).all(|node| backbone[node] || restricted[node] >= 2)
}

/// The rules of every backup topology: for topologies 1 to k, 7 before 8. A graph alone has no topology to check.
pub fn judge_topologies(net: &Network) -> Result<(), Refusal> {
    for topology in 1..=net.k {
        let backbone = net.backbone(topology);
        // The links inside the backbone are exactly the normal ones.
        if !connected(net, &backbone) {
            return Err((7, topology as u32));
        }
        if !two_links_each(net, &backbone) {
            return Err((8, topology as u32));
        }
    }
    Ok(())
}

/// 13 where a graph alone stands for a set.
fn needs_set(net: Network) -> Result<Network, Refusal> {
    if net.k == 0 {
        return Err((13, 0));
    }
    Ok(net)
}

/// A set that meets the rules, for tables, run and report: 1 to 8, then 13. 02, request h: "13 now comes after them instead of
/// before".
pub fn sound_set(file: &[u8]) -> Result<Network, Refusal> {
    needs_set(take_in(file)?)
}

/// A set that may break the rules, for the single step: 1 to 6, then 13.
///
/// Reading: 01 says that "the single step doesn't repeat 7 and 8", and request h amends "builder, tables, run, report and
/// import" alone. So the step still takes a set that nothing else takes.
pub fn set_of(file: &[u8]) -> Result<Network, Refusal> {
    needs_set(judge(file)?)
}
