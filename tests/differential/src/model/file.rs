//! The house file: its judgement by refusals 1 to 6, the one operation that takes it in, its reader and its writer.

use super::rules::{judge_topologies, Standing};
use super::{Network, Refusal};
use super::{LEAST_LINKS, LEAST_NODES, MOST_LINKS, MOST_NODES, MOST_TOPOLOGIES};

const NETWORK_MARK: [u8; 2] = [0x4E, 0x57];
const LINK_MARK: [u8; 2] = [0x4C, 0x4B];
const HOME_MARK: [u8; 2] = [0x48, 0x4D];
const ROW_MARK: [u8; 2] = [0x42, 0x57];

const NETWORK_LENGTH: usize = 8;
const LINK_LENGTH: usize = 6;
const HOME_LENGTH: usize = 4;

fn number(file: &[u8], at: usize) -> u16 {
    u16::from_be_bytes([file[at], file[at + 1]])
}

/// The length that the counts give: of a graph alone with k = 0, otherwise of a set.
pub fn file_length(n: usize, m: usize, k: usize) -> usize {
    let graph = NETWORK_LENGTH + LINK_LENGTH * m;
    if k == 0 {
        graph
    } else {
        graph + HOME_LENGTH * n + k * (3 + 2 * m)
    }
}

/// Refusal 3 of the four counts.
///
/// Reading: m is judged by its own range 3 to 128 alone. More links than n nodes have pairs is not a count out of range; the
/// first link that cannot rise any more is then refusal 4.
fn judge_counts(n: usize, m: usize, k: usize, wmax: u16) -> Result<(), Refusal> {
    let good = (LEAST_NODES..=MOST_NODES).contains(&n)
        && (LEAST_LINKS..=MOST_LINKS).contains(&m)
        && k <= MOST_TOPOLOGIES
        && k <= n
        && wmax >= 1;
    if good {
        Ok(())
    } else {
        Err((3, 0))
    }
}

fn judge_mark(file: &[u8], at: usize, mark: [u8; 2]) -> Result<(), Refusal> {
    if [file[at], file[at + 1]] == mark {
        Ok(())
    } else {
        Err((2, at as u32))
    }
}

/// The judgement of a file's records in 01's order: under 8 bytes, header mark, counts, length, then each record in turn.
pub fn judge(file: &[u8]) -> Result<Network, Refusal> {
    if file.len() < NETWORK_LENGTH {
        return Err((1, 0));
    }
    judge_mark(file, 0, NETWORK_MARK)?;
    let (n, m, k) = (file[2] as usize, number(file, 3) as usize, file[5] as usize);
    let wmax = number(file, 6);
    judge_counts(n, m, k, wmax)?;
    if file.len() != file_length(n, m, k) {
        return Err((1, 0));
    }
    let mut net = Network { n, m, k, wmax, ends: vec![], weights: vec![], homes: vec![], rows: vec![] };
    let mut at = NETWORK_LENGTH;
    for _ in 0..m {
        judge_link(file, at, &mut net)?;
        at += LINK_LENGTH;
    }
    if k > 0 {
        for node in 0..n {
            judge_home(file, at, node, &mut net)?;
            at += HOME_LENGTH;
        }
    }
    for topology in 1..=k {
        judge_row(file, at, topology, &mut net)?;
        at += 3 + 2 * m;
    }
    Ok(net)
}

/// One link record: mark, then ends and order (4), then weight (5).
fn judge_link(file: &[u8], at: usize, net: &mut Network) -> Result<(), Refusal> {
    judge_mark(file, at, LINK_MARK)?;
    let (a, b) = (file[at + 2] as usize, file[at + 3] as usize);
    let rises = net.ends.last().is_none_or(|&before| before < (a, b));
    if !(a < b && b < net.n && rises) {
        return Err((4, at as u32));
    }
    let weight = number(file, at + 4);
    if weight < 1 || weight > net.wmax {
        return Err((5, at as u32));
    }
    net.ends.push((a, b));
    net.weights.push(weight);
    Ok(())
}

/// One home record: mark, then node and topology (6).
fn judge_home(file: &[u8], at: usize, node: usize, net: &mut Network) -> Result<(), Refusal> {
    judge_mark(file, at, HOME_MARK)?;
    let home = file[at + 3] as usize;
    if file[at + 2] as usize != node || home < 1 || home > net.k {
        return Err((6, at as u32));
    }
    net.homes.push(home);
    Ok(())
}

/// One row record: mark, then topology (6), then weights (5): 0 for each link that isn't normal, 1 to wmax for each that is.
fn judge_row(file: &[u8], at: usize, topology: usize, net: &mut Network) -> Result<(), Refusal> {
    judge_mark(file, at, ROW_MARK)?;
    if file[at + 2] as usize != topology {
        return Err((6, at as u32));
    }
    let row: Vec<u16> = (0..net.m).map(|link| number(file, at + 3 + 2 * link)).collect();
    for (link, &weight) in row.iter().enumerate() {
        let good = match net.standing(topology, link) {
            Standing::Normal => weight >= 1 && weight <= net.wmax,
            Standing::Restricted | Standing::Isolated => weight == 0,
        };
        if !good {
            return Err((5, at as u32));
        }
    }
    net.rows.push(row);
    Ok(())
}

/// 02, request h: "one operation takes bytes and gives either an accepted set or a refusal from 1 to 8 in 01's order".
///
/// Reading: 01's order puts 7 and 8 behind "each record in turn", so a wrong record comes before them even where it is the row
/// of a later topology. "A graph alone is still taken in, with no topology to check", so it may be in several parts.
pub fn take_in(file: &[u8]) -> Result<Network, Refusal> {
    let taken = judge(file)?;
    judge_topologies(&taken)?;
    Ok(taken)
}

/// The lengths of the five lists that the reader is lent.
#[derive(Clone, Copy, Debug)]
pub struct ListRooms {
    pub a: usize,
    pub b: usize,
    pub weights: usize,
    pub homes: usize,
    pub rows: usize,
}

/// What the lists are to hold by the counts.
///
/// Reading: a graph alone has no homes and no rows, so the reader asks for no room there and the writer for no entries. The
/// backup weights lie by topology, then link, as in the file.
pub fn lists_needed(n: usize, m: usize, k: usize) -> ListRooms {
    ListRooms { a: m, b: m, weights: m, homes: if k > 0 { n } else { 0 }, rows: k * m }
}

fn shorter(rooms: &ListRooms, needed: &ListRooms) -> bool {
    rooms.a < needed.a
        || rooms.b < needed.b
        || rooms.weights < needed.weights
        || rooms.homes < needed.homes
        || rooms.rows < needed.rows
}

/// The reader, which takes a file in into lent lists: 1 to 8, then 14.
///
/// Reading: in 01's order 14 comes after 7 and 8, and request h moves 13 alone. So lists that are too short for a set that breaks
/// the rules are not 14.
pub fn read(file: &[u8], rooms: &ListRooms) -> Result<Network, Refusal> {
    let net = take_in(file)?;
    if shorter(rooms, &lists_needed(net.n, net.m, net.k)) {
        return Err((14, 0));
    }
    Ok(net)
}

/// What the writer is lent: the counts in the file's widths, and the lists.
#[derive(Clone, Debug)]
pub struct Lists {
    pub n: u8,
    pub m: u16,
    pub k: u8,
    pub wmax: u16,
    pub a: Vec<u8>,
    pub b: Vec<u8>,
    pub weights: Vec<u16>,
    pub homes: Vec<u8>,
    pub rows: Vec<u16>,
}

impl Lists {
    /// The lists of what a file says.
    pub fn of(net: &Network) -> Lists {
        Lists {
            n: net.n as u8,
            m: net.m as u16,
            k: net.k as u8,
            wmax: net.wmax,
            a: net.ends.iter().map(|&(a, _)| a as u8).collect(),
            b: net.ends.iter().map(|&(_, b)| b as u8).collect(),
            weights: net.weights.clone(),
            homes: net.homes.iter().map(|&home| home as u8).collect(),
            rows: net.rows.concat(),
        }
    }
}

/// The writer: the number and place the reader would give for what it would write, 7 and 8 among them, then 14.
///
/// Reading: a list shorter than the counts need stands where the reader judges the length, after the counts (3) and before
/// every record, because without it there is nothing that could be written. The rules too are judged by what would be written:
/// a link past the counts joins nothing, and a home past them isolates nobody.
pub fn write(lists: &Lists, room: usize) -> Result<Vec<u8>, Refusal> {
    let (n, m, k) = (lists.n as usize, lists.m as usize, lists.k as usize);
    judge_counts(n, m, k, lists.wmax)?;
    let lent = ListRooms {
        a: lists.a.len(),
        b: lists.b.len(),
        weights: lists.weights.len(),
        homes: lists.homes.len(),
        rows: lists.rows.len(),
    };
    if shorter(&lent, &lists_needed(n, m, k)) {
        return Err((1, 0));
    }
    let file = written(lists);
    take_in(&file)?;
    if room < file.len() {
        return Err((14, 0));
    }
    Ok(file)
}

/// The bytes of the file that the counts and lists make, judged or not. Entries past the counts are not written.
pub fn written(lists: &Lists) -> Vec<u8> {
    let m = lists.m as usize;
    let mut file = Vec::new();
    file.extend(NETWORK_MARK);
    file.push(lists.n);
    file.extend(lists.m.to_be_bytes());
    file.push(lists.k);
    file.extend(lists.wmax.to_be_bytes());
    for link in 0..m {
        file.extend(LINK_MARK);
        file.extend([lists.a[link], lists.b[link]]);
        file.extend(lists.weights[link].to_be_bytes());
    }
    if lists.k > 0 {
        for node in 0..lists.n {
            file.extend(HOME_MARK);
            file.extend([node, lists.homes[node as usize]]);
        }
    }
    for topology in 1..=lists.k {
        file.extend(ROW_MARK);
        file.push(topology);
        let row = &lists.rows[(topology as usize - 1) * m..][..m];
        row.iter().for_each(|weight| file.extend(weight.to_be_bytes()));
    }
    file
}

/// The file of what a network says.
pub fn file_of(net: &Network) -> Vec<u8> {
    written(&Lists::of(net))
}
