//! Reading and writing back, and the writing of lists with something wrong in them.

use super::{Plan, AMPLE_LISTS, LONGEST_FILE};
use crate::compare::Comparer;
use crate::make::{broken_set, careless_set, loose_graph, some_links, some_set};
use crate::model::file::{file_of, Lists};
use crate::model::{Network, MOST_NODES};
use crate::random::Random;

fn some_network(random: &mut Random, most: usize) -> Network {
    let n = random.between(3, most);
    let m = some_links(random, n);
    match random.below(5) {
        0 => loose_graph(random, n, m),
        1 => careless_set(random, n),
        2 => broken_set(random, n),
        _ => some_set(random, n),
    }
}

/// A file read, its lists written, and what was written read again. What is not taken in is not written either: the reader's
/// refusal is the writer's for the lists that the file's records make.
pub fn round_trips(comparer: &mut Comparer, random: &mut Random, plan: &Plan) {
    for round in 0..250 * plan.rounds {
        let net = some_network(random, if round % 4 == 0 { MOST_NODES } else { 8 });
        let file = file_of(&net);
        let read = comparer.read(&file, &AMPLE_LISTS);
        let written = comparer.write(&Lists::of(&net), LONGEST_FILE);
        assert_eq!(written.as_ref().err(), read.as_ref().err());
        if let (Ok(read), Ok(written)) = (read, written) {
            assert_eq!((&read, &written), (&net, &file));
            let _ = comparer.read(&written, &AMPLE_LISTS);
        }
    }
}

/// One thing changed in the counts or lists.
pub fn damage(random: &mut Random, lists: &mut Lists) {
    let node =
        |random: &mut Random, n: u8| if random.once_in(4) { random.byte() } else { random.below(n as usize + 1) as u8 };
    let n = lists.n;
    let weight = random.pick(&[0, 1, lists.wmax, lists.wmax.wrapping_add(1), 256, 65_535]);
    match random.below(12) {
        0 => lists.n = random.pick(&[0, 2, 3, 32, 33, 255, n.wrapping_add(1), n.wrapping_sub(1)]),
        1 => lists.m = random.pick(&[0, 2, 3, 128, 129, 256, 65_535, lists.m.wrapping_add(1), lists.m.wrapping_sub(1)]),
        2 => lists.k = random.pick(&[0, 1, 32, 33, 255, n, n.wrapping_add(1), lists.k.wrapping_add(1)]),
        3 => lists.wmax = random.pick(&[0, 1, 65_535, lists.wmax.wrapping_sub(1)]),
        4 => change(random, &mut lists.a, |random| node(random, n)),
        5 => change(random, &mut lists.b, |random| node(random, n)),
        6 => change(random, &mut lists.weights, |_| weight),
        7 | 8 => change(random, &mut lists.homes, |random| node(random, n)),
        9 | 10 => change(random, &mut lists.rows, |_| weight),
        _ => resize(random, lists),
    }
}

/// One entry of a list changed, if it has any.
fn change<T>(random: &mut Random, list: &mut [T], entry: impl Fn(&mut Random) -> T) {
    if !list.is_empty() {
        let at = random.below(list.len());
        list[at] = entry(random);
    }
}

/// One list made shorter or longer; what is past the counts is neither written nor compared.
fn resize(random: &mut Random, lists: &mut Lists) {
    let (by, longer) = (random.between(1, 3), random.once_in(2));
    let size = |length: usize| if longer { length + by } else { length.saturating_sub(by) };
    let (byte, word) = (random.byte(), random.below(65_536) as u16);
    match random.below(5) {
        0 => lists.a.resize(size(lists.a.len()), byte),
        1 => lists.b.resize(size(lists.b.len()), byte),
        2 => lists.weights.resize(size(lists.weights.len()), word),
        3 => lists.homes.resize(size(lists.homes.len()), byte),
        _ => lists.rows.resize(size(lists.rows.len()), word),
    }
}

/// Entries past the counts that would matter if they were not past them: links that join any two nodes, with their weights, and
/// homes of nodes that are not there.
fn add_past_the_counts(random: &mut Random, lists: &mut Lists) {
    let n = lists.n as usize;
    for _ in 0..random.between(1, 6) {
        if random.once_in(2) {
            let one = random.below(n);
            let other = (one + random.between(1, n - 1)) % n;
            lists.a.push(one.min(other) as u8);
            lists.b.push(one.max(other) as u8);
            lists.weights.push(1);
            lists.rows.extend(vec![1; lists.k as usize]);
        } else {
            lists.homes.push(random.between(1, lists.k.max(1) as usize) as u8);
        }
    }
}

/// Lists with one to three things changed; lists of sets that break the rules, whose rows are right, with up to two more things
/// wrong; entries past the counts, which must make no rule hold or break.
pub fn damaged_lists(comparer: &mut Comparer, random: &mut Random, plan: &Plan) {
    for round in 0..4_000 * plan.rounds {
        let most = if round % 8 == 0 { MOST_NODES } else { 6 };
        let unsound = random.once_in(3);
        let net = if unsound {
            let n = random.between(3, most);
            broken_set(random, n)
        } else {
            some_network(random, most)
        };
        let mut lists = Lists::of(&net);
        if random.once_in(4) {
            add_past_the_counts(random, &mut lists);
        }
        for _ in 0..if unsound { random.below(3) } else { random.between(1, 3) } {
            damage(random, &mut lists);
        }
        let _ = comparer.write(&lists, LONGEST_FILE);
        if random.once_in(3) {
            let length = file_of(&net).len();
            let around = random.between(length - 4, length + 1);
            let room = random.pick(&[0, around, around]);
            let _ = comparer.write(&lists, room);
        }
    }
}
