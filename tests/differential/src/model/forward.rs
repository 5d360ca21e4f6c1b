//! Forwarding one hop, and forwarding to the end under one failure.

use super::distance::tables_of;
use super::rules::{set_of, sound_set};
use super::{Network, Refusal};

/// What is down.
#[derive(Clone, Copy, Debug, PartialEq, Eq)]
pub enum Failure {
    Nothing,
    Link(usize),
    Node(usize),
}

/// A packet: where it is, where it goes, and the topology it is forwarded in.
#[derive(Clone, Copy, Debug, PartialEq, Eq)]
pub struct Packet {
    pub place: usize,
    pub destination: usize,
    pub topology: usize,
}

/// How a packet stands after a step.
#[derive(Clone, Copy, Debug, PartialEq, Eq)]
pub enum Stand {
    Moved,
    Delivered,
    Dropped,
}

/// What one step gives: how the packet stands, the letter of its change of topology in this step, and the packet.
///
/// Reading: a packet dropped because the new neighbour is down too "keeps its place and topology", so it has not changed and
/// has no letter.
#[derive(Clone, Copy, Debug, PartialEq, Eq)]
pub struct Step {
    pub stand: Stand,
    pub kind: Option<char>,
    pub packet: Packet,
}

/// What a run gives.
#[derive(Clone, Debug, PartialEq, Eq)]
pub struct Run {
    pub stand: Stand,
    pub hops: usize,
    pub topology: usize,
    pub kind: Option<char>,
    pub tables: Vec<u8>,
    pub trail: Vec<u8>,
}

/// The failure by the kind and number that the C entry takes, or refusal 11.
///
/// Reading: where nothing is down the number names nothing, so every number is taken.
pub fn failure_of(net: &Network, kind: u8, number: u16) -> Result<Failure, Refusal> {
    let number = number as usize;
    match kind {
        0 => Ok(Failure::Nothing),
        1 if number < net.m => Ok(Failure::Link(number)),
        2 if number < net.n => Ok(Failure::Node(number)),
        _ => Err((11, 0)),
    }
}

/// Whether w and the link from u to it are up. A failed node has all its links down, so either end being it is enough.
fn up(net: &Network, failure: Failure, u: usize, w: usize) -> bool {
    match failure {
        Failure::Nothing => true,
        Failure::Link(link) => net.link_between(u, w) != Some(link),
        Failure::Node(node) => node != u && node != w,
    }
}

/// An entry of the tables that the step looks up: a neighbour of u, otherwise refusal 15.
///
/// Reading: a neighbour is a node joined to u by a link of the graph, isolated in the topology or not, since the step takes the
/// tables as they are.
fn neighbour_at(net: &Network, u: usize, entry: u8) -> Result<usize, Refusal> {
    let w = entry as usize;
    net.link_between(u, w).map(|_| w).ok_or((15, 0))
}

/// The rule of forwarding for one packet. Entries that the rule does not look up are not judged.
///
/// Reading: a packet that moves to its destination has moved; that it is delivered shows at the next step, where u = t.
pub fn forwarded(net: &Network, tables: &[u8], packet: Packet, failure: Failure) -> Result<Step, Refusal> {
    let Packet { place: u, destination: t, topology } = packet;
    if u == t {
        return Ok(Step { stand: Stand::Delivered, kind: None, packet });
    }
    let next_hop = |topology: usize| tables[(topology * net.n + u) * net.n + t];
    let moved = |kind, topology, to| {
        let packet = Packet { place: to, destination: t, topology };
        Ok(Step { stand: Stand::Moved, kind, packet })
    };
    let dropped = Step { stand: Stand::Dropped, kind: None, packet };

    let v = neighbour_at(net, u, next_hop(topology))?;
    if up(net, failure, u, v) {
        return moved(None, topology, v);
    }
    if topology != 0 {
        return Ok(dropped);
    }
    let around = neighbour_at(net, u, next_hop(net.homes[v]))?;
    let (kind, changed, to) = if around != v {
        (if t != v { 'T' } else { 'S' }, net.homes[v], around)
    } else {
        let alternate = tables[((net.k + 1) * net.n + u) * net.n + v];
        ('D', net.homes[u], neighbour_at(net, u, alternate)?)
    };
    if up(net, failure, u, to) {
        moved(Some(kind), changed, to)
    } else {
        Ok(dropped)
    }
}

/// One step by lent tables: 1 to 6, 13, 11, 12, 14, 15.
///
/// Reading: the tables' room is judged even where the packet is already there and no entry is looked up, since 01 asks for
/// what a buffer is to hold and not for what is used of it. In the same way 12 holds where the failed node is also the
/// destination, and the run asks for 2n - 2 bytes of trail however short the trail is.
pub fn step(file: &[u8], tables: &[u8], packet: Packet, kind: u8, number: u16) -> Result<Step, Refusal> {
    let net = set_of(file)?;
    step_in(&net, tables, packet, kind, number)
}

/// The step after 13, for a file that has been judged.
pub fn step_in(net: &Network, tables: &[u8], packet: Packet, kind: u8, number: u16) -> Result<Step, Refusal> {
    if packet.place >= net.n || packet.destination >= net.n || packet.topology > net.k {
        return Err((11, 0));
    }
    let failure = failure_of(net, kind, number)?;
    if failure == Failure::Node(packet.place) {
        return Err((12, 0));
    }
    if tables.len() < net.tables_length() {
        return Err((14, 0));
    }
    forwarded(net, tables, packet, failure)
}

/// What a run is asked: source, destination, the failure's kind and number, and the lengths of the lent room.
#[derive(Clone, Copy, Debug)]
pub struct Ask {
    pub source: usize,
    pub destination: usize,
    pub kind: u8,
    pub number: u16,
    pub tables_room: usize,
    pub trail_room: usize,
}

/// The full run: 1 to 8, 13, 11, 12, 14.
pub fn run(file: &[u8], ask: &Ask) -> Result<Run, Refusal> {
    let net = sound_set(file)?;
    let tables = tables_of(&net);
    run_in(&net, &tables, ask)
}

/// The run after 13, for a set that meets the rules and its own tables.
pub fn run_in(net: &Network, tables: &[u8], ask: &Ask) -> Result<Run, Refusal> {
    if ask.source >= net.n || ask.destination >= net.n {
        return Err((11, 0));
    }
    let failure = failure_of(net, ask.kind, ask.number)?;
    if failure == Failure::Node(ask.source) {
        return Err((12, 0));
    }
    if ask.tables_room < net.tables_length() || ask.trail_room < net.trail_room() {
        return Err((14, 0));
    }
    Ok(to_the_end(net, tables, ask.source, ask.destination, failure))
}

/// Steps of one packet from its source in topology 0 until it is delivered or dropped.
pub fn to_the_end(net: &Network, tables: &[u8], source: usize, destination: usize, failure: Failure) -> Run {
    let mut packet = Packet { place: source, destination, topology: 0 };
    let mut trail = vec![source as u8];
    let mut kind = None;
    loop {
        let step = forwarded(net, tables, packet, failure).expect("a set's own tables name neighbours");
        packet = step.packet;
        kind = kind.or(step.kind);
        if step.stand != Stand::Moved {
            let (hops, topology) = (trail.len() - 1, packet.topology);
            return Run { stand: step.stand, hops, topology, kind, tables: tables.to_vec(), trail };
        }
        trail.push(packet.place as u8);
        assert!(trail.len() <= net.trail_room(), "a run has at most 2n - 3 hops");
    }
}
