//! The builder: first fit of the nodes, in number order, into topologies counted from 1.

use super::file::{file_of, take_in};
use super::rules::{connected, two_links_each, Standing};
use super::{Network, Refusal, MOST_CAP};

/// From a graph's file to a set's file: 1 to 8, 13, 11, 9, 10, 14.
///
/// Reading: the builder takes its input in like every other caller, so a set that breaks the rules is 7 or 8 here, and only one
/// that meets them is "a set given to the builder".
pub fn build(graph: &[u8], cap: u8, room: usize) -> Result<Vec<u8>, Refusal> {
    let net = take_in(graph)?;
    if net.k > 0 {
        return Err((13, 0));
    }
    if !(1..=MOST_CAP).contains(&cap) {
        return Err((11, 0));
    }
    if !stays_connected(&net) {
        return Err((9, 0));
    }
    let homes = first_fit(&net, cap as usize).ok_or((10, 0))?;
    let file = file_of(&filled(&net, homes));
    if room < file.len() {
        return Err((14, 0));
    }
    Ok(file)
}

/// Whether removing any one node leaves the others connected.
///
/// Reading: "disconnects the others" means that the others are not connected once the node is gone, whether or not they were
/// before. So a graph in several parts is refusal 9 as well.
pub fn stays_connected(net: &Network) -> bool {
    (0..net.n).all(|gone| {
        let others: Vec<bool> = (0..net.n).map(|node| node != gone).collect();
        connected(net, &others)
    })
}

/// Whether a topology with these isolated nodes keeps the backbone rule and the two-link rule.
pub fn keeps_rules(net: &Network, isolated: &[bool]) -> bool {
    let backbone: Vec<bool> = isolated.iter().map(|&is| !is).collect();
    connected(net, &backbone) && two_links_each(net, &backbone)
}

/// The home of each node by first fit, or none where a node is admitted by no topology up to the cap.
fn first_fit(net: &Network, cap: usize) -> Option<Vec<usize>> {
    let mut homes: Vec<usize> = Vec::new();
    for node in 0..net.n {
        let home = (1..=cap).find(|&topology| {
            let mut isolated = vec![false; net.n];
            for (earlier, &home) in homes.iter().enumerate() {
                isolated[earlier] = home == topology;
            }
            isolated[node] = true;
            keeps_rules(net, &isolated)
        })?;
        homes.push(home);
    }
    Some(homes)
}

/// The set with these homes, k = the highest topology used, and rows equal to topology 0's weights on normal links.
pub fn filled(graph: &Network, homes: Vec<usize>) -> Network {
    let mut set = graph.clone();
    set.k = homes.iter().copied().max().unwrap_or(0);
    set.homes = homes;
    for topology in 1..=set.k {
        let row = (0..set.m).map(|link| match set.standing(topology, link) {
            Standing::Normal => set.weights[link],
            Standing::Restricted | Standing::Isolated => 0,
        });
        let row = row.collect();
        set.rows.push(row);
    }
    set
}
