//! The report's last column as 02's request a amends it: backup hops minus hops in topology 0, with its sign.

use super::builder::build;
use super::distance::tables_of;
use super::file::{file_of, judge};
use super::report::{report, LONGEST_REPORT};
use super::rules::sound_set;
use super::samples::{heavy_ring, triangle};
use super::Network;
use crate::make::{far_set, some_links, some_set};
use crate::random::Random;

/// What one line of a report says, as far as it is looked at here.
struct Line {
    node: usize,
    destination: usize,
    kind: char,
    hops: i32,
    extra: i32,
}

/// The lines between the first and the last. Each must be its own numbers and letter again, written without a plus, a zero in
/// front or a minus before 0.
fn lines(text: &str) -> Vec<Line> {
    let all: Vec<&str> = text.lines().collect();
    let between = &all[1..all.len() - 1];
    let line = |line: &&str| {
        let words: Vec<&str> = line.split(' ').collect();
        assert_eq!(words.len(), 8);
        let number = |at: usize| {
            let number: i32 = words[at].parse().unwrap();
            assert_eq!(number.to_string(), words[at]);
            number
        };
        let (node, destination) = (number(0) as usize, number(2) as usize);
        Line { node, destination, kind: words[3].parse().unwrap(), hops: number(6), extra: number(7) }
    };
    between.iter().map(line).collect()
}

fn report_of(set: &Network) -> String {
    report(&file_of(set), LONGEST_REPORT).unwrap()
}

/// The set that the builder makes of a ring with one heavy link.
fn built_ring(n: usize, heavy: u16) -> Network {
    judge(&build(&file_of(&heavy_ring(n, heavy)), n as u8, 10_000).unwrap()).unwrap()
}

#[test]
fn the_header_names_the_same_room() {
    assert_eq!(LONGEST_REPORT, 23_867);
}

/// The ring of 16 nodes, link 0-15 of weight 16 and all others of weight 1; cap 16. Two nodes in one topology would cut the ring
/// in two or, side by side, have one restricted link each; so node u has home u + 1. In topology 0 the way from 0 to 15 over
/// the light links weighs 15 and the heavy link 16: node 0 sends to 1, and it takes 15 hops.
///
/// With link 0-1 down, node 0 looks into 1's home, topology 2. Over 1, which is isolated there, the way has two restricted links
/// of 2 × 16 × 16 = 512 each; over the heavy link it weighs 16. So the next hop is 15 and not 1, and the destination is not 1:
/// kind T, topology 2, next 15, one hop. 1 - 15 = -14.
#[test]
fn a_minus_of_two_digits() {
    let set = built_ring(16, 16);
    assert_eq!(set.homes, (1..=16).collect::<Vec<usize>>());
    let text = report_of(&set);
    assert!(text.contains("\n0 1 15 T 2 15 1 -14\n"));
    // In the same way from 15 to 0: the next hop is 14, whose home is 15.
    assert!(text.contains("\n15 14 0 T 15 0 1 -14\n"));
    // From 0 to t the hops are t in topology 0 and 16 - t the other way: extra falls by 2 from t to t + 1.
    assert!(text.contains("\n0 1 7 T 2 15 9 2\n"));
    assert!(text.contains("\n0 1 8 T 2 15 8 0\n"));
    assert!(text.contains("\n0 1 9 T 2 15 7 -2\n"));
    assert!(text.contains("\n0 1 12 T 2 15 4 -8\n"));
    assert!(text.contains("\n0 1 13 T 2 15 3 -10\n"));
    // From 0 to 1, over the alternate 15 in topology 1: all the way around.
    assert!(text.contains("\n0 1 1 D 1 15 15 14\n"));
    assert_eq!(lines(&text).iter().map(|line| line.extra).min(), Some(-14));
}

/// Room is asked for what is printed, each minus sign a byte of it.
#[test]
fn minus_signs_need_room() {
    let file = file_of(&built_ring(16, 16));
    let length = report(&file, LONGEST_REPORT).unwrap().len();
    assert_eq!(report(&file, length).map(|text| text.len()), Ok(length));
    assert_eq!(report(&file, length - 1), Err((14, 0)));
}

/// Hops of a packet that follows the next hops of topology 0.
fn usual_hops(net: &Network, tables: &[u8], node: usize, destination: usize) -> i32 {
    let (mut at, mut hops) = (node, 0);
    while at != destination {
        at = tables[at * net.n + destination] as usize;
        hops += 1;
    }
    hops
}

/// The lines that were looked at: extra -10 or less, -9 to -1, 0, 1 or more; kind S, kind D.
#[derive(Default)]
struct Seen {
    below_ten: usize,
    below: usize,
    zero: usize,
    above: usize,
    kind_s: usize,
    kind_d: usize,
}

/// What follows from 01 and 02 for every accepted set.
///
/// In kind S the next hop v is the destination. In kind D too: in v's home, where v is isolated, no least path goes on from v,
/// since two restricted links weigh more than any way in the backbone. So the hops in topology 0 are 1. With the link to v down
/// the way has another node first: at least 2 hops, and extra is above zero.
///
/// Weights are at least 1, so a path by the next hops of one topology passes no node twice and has at most n - 1 hops. Nor does
/// the way of kind D have more: the alternate and v are in the backbone of the detecting node's home (with the same home the link
/// to v would be isolated there, and no next hop), a least path between them stays in it, and the node itself is outside. Node
/// and destination differ, so both counts are 1 to n - 1 and their difference is between -(n - 2) and n - 2.
fn keeps_the_law(net: &Network, seen: &mut Seen) {
    let (text, tables) = (report_of(net), tables_of(net));
    let lines = lines(&text);
    assert_eq!(lines.len(), net.n * (net.n - 1));
    let most = net.n as i32 - 2;
    for line in lines {
        let usual = usual_hops(net, &tables, line.node, line.destination);
        assert_eq!(line.extra, line.hops - usual);
        assert!(-most <= line.extra && line.extra <= most, "extra {} with {} nodes", line.extra, net.n);
        if line.kind != 'T' {
            assert_eq!(usual, 1);
            assert!(line.extra > 0, "extra {} in kind {}", line.extra, line.kind);
        }
        match line.extra {
            ..-9 => seen.below_ten += 1,
            -9..0 => seen.below += 1,
            0 => seen.zero += 1,
            1.. => seen.above += 1,
        }
        seen.kind_s += (line.kind == 'S') as usize;
        seen.kind_d += (line.kind == 'D') as usize;
    }
}

#[test]
fn extra_is_in_range_and_above_zero_in_s_and_d() {
    let mut random = Random::new(1, 0);
    let mut seen = Seen::default();
    for n in (3..=16).chain([24, 32]).chain([3, 4, 5, 6, 7, 8].repeat(20)) {
        let m = some_links(&mut random, n);
        for set in [some_set(&mut random, n), far_set(&mut random, n, m)] {
            if sound_set(&file_of(&set)).is_ok() {
                keeps_the_law(&set, &mut seen);
            }
        }
    }
    let Seen { below_ten, below, zero, above, kind_s, kind_d } = seen;
    assert!([below_ten, below, zero, above, kind_s, kind_d].iter().all(|&lines| lines > 100), "too little was seen");
}

/// A ring with one heavy link reaches both bounds, the triangle first.
#[test]
fn both_bounds_are_reached() {
    assert_eq!(heavy_ring(3, 3), triangle());
    for n in [3, 4, 5, 11, 12, 31, 32] {
        let set = built_ring(n, n as u16);
        keeps_the_law(&set, &mut Seen::default());
        let extras: Vec<i32> = lines(&report_of(&set)).iter().map(|line| line.extra).collect();
        let most = n as i32 - 2;
        assert!(extras.contains(&most) && extras.contains(&-most));
    }
}
