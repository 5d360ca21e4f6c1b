//! Document 01, as amended by requests a and h of document 02, in plain Rust: an implementation made from their text alone,
//! for comparison with the proved library.
//!
//! Nothing here is fast or clever. Every entry is a pure function: it takes what the caller lends (room only as a length) and
//! returns either the values and bytes that the entry gives, or the refusal. Where the documents leave a point open, a comment
//! that begins with "Reading" says what was decided and why.

pub mod builder;
pub mod distance;
pub mod file;
pub mod forward;
pub mod report;
pub mod rules;
pub mod samples;

#[cfg(test)]
mod examples;
#[cfg(test)]
mod extra;
#[cfg(test)]
mod refusals;
#[cfg(test)]
mod taking_in;

/// A refusal: its number in 01's table, and its place.
pub type Refusal = (u8, u32);

/// The bounds of 01, "Numbers that bound it".
pub const LEAST_NODES: usize = 3;
pub const MOST_NODES: usize = 32;
pub const LEAST_LINKS: usize = 3;
pub const MOST_LINKS: usize = 128;
pub const MOST_TOPOLOGIES: usize = 32;
pub const MOST_CAP: u8 = 32;

/// What a file says: a graph alone where k = 0, otherwise a set.
#[derive(Clone, Debug, PartialEq, Eq)]
pub struct Network {
    pub n: usize,
    pub m: usize,
    pub k: usize,
    pub wmax: u16,
    /// The two ends of each link, the lower first.
    pub ends: Vec<(usize, usize)>,
    /// The weights of topology 0, by link.
    pub weights: Vec<u16>,
    /// The home of each node; empty for a graph alone.
    pub homes: Vec<usize>,
    /// Row i - 1 holds the weights of topology i, by link.
    pub rows: Vec<Vec<u16>>,
}

impl Network {
    /// The number of the link that joins two nodes, if there is one.
    pub fn link_between(&self, u: usize, w: usize) -> Option<usize> {
        let ends = (u.min(w), u.max(w));
        self.ends.iter().position(|&pair| pair == ends)
    }

    /// The neighbours of a node in rising order. A link is listed under both its ends.
    pub fn neighbours(&self, u: usize) -> Vec<usize> {
        (0..self.n).filter(|&w| self.link_between(u, w).is_some()).collect()
    }

    /// The length of the tables: (k + 1) × n × n next hops, then n × n alternates.
    pub fn tables_length(&self) -> usize {
        (self.k + 1) * self.n * self.n + self.n * self.n
    }

    /// The room that the trail needs. 01: "a lent buffer of at least 2n - 2".
    pub fn trail_room(&self) -> usize {
        2 * self.n - 2
    }
}
