//! Lent room at every size around what is to be held; in sets that break the rules too, where 7 and 8 come before 14.

use super::Plan;
use crate::compare::Comparer;
use crate::entries::{RunAsk, StepAsk};
use crate::make::{broken_set, ringed_graph, some_links, some_set};
use crate::model::builder::build;
use crate::model::file::{file_of, judge, lists_needed, ListRooms, Lists};
use crate::model::report::{report, LONGEST_REPORT};
use crate::model::samples::{full_four, heavy_ring, ring, set, triangle};
use crate::model::{Network, MOST_NODES};
use crate::random::Random;

/// Sizes around a bound, and none at all.
fn around(needed: usize) -> Vec<usize> {
    let mut sizes = vec![0, 1, needed / 2];
    sizes.extend(needed.saturating_sub(4)..=needed + 4);
    sizes
}

pub fn short_rooms(comparer: &mut Comparer, random: &mut Random, plan: &Plan) {
    for file in [set(&triangle(), &[1, 2, 3]), set(&ring(), &[1, 2, 3, 4]), set(&full_four(), &[1, 1, 2, 2])] {
        set_rooms(comparer, random, &file);
    }
    // P10, P11 and everyone at home in one topology.
    for file in [set(&ring(), &[1, 2, 1, 3]), set(&full_four(), &[1, 1, 1, 2]), set(&triangle(), &[1, 1, 1])] {
        set_rooms(comparer, random, &file);
    }
    // Each minus sign and each second digit of the report asks for its byte of room.
    let homes: Vec<usize> = (1..=16).collect();
    set_rooms(comparer, random, &set(&heavy_ring(16, 16), &homes));
    for graph in [triangle(), ring(), full_four()] {
        graph_rooms(comparer, &graph);
    }
    for round in 0..10 * plan.rounds {
        let n = if round % 5 == 4 { random.between(9, MOST_NODES) } else { random.between(3, 8) };
        for net in [some_set(random, n), broken_set(random, n)] {
            set_rooms(comparer, random, &file_of(&net));
        }
        let m = some_links(random, n);
        let graph = ringed_graph(random, n, m);
        graph_rooms(comparer, &graph);
    }
}

/// The rooms of every entry that takes a set. The step is lent the set's own tables, or zeros where it breaks the rules.
fn set_rooms(comparer: &mut Comparer, random: &mut Random, file: &[u8]) {
    let net = &judge(file).expect("the records are right");
    let tables = comparer.sound(file).map_or(vec![], |sound| sound.1.clone());
    let (needed, trail) = (net.tables_length(), net.trail_room());
    for room in around(needed) {
        let _ = comparer.tables(file, room);
        let mut lent = tables.clone();
        lent.resize(room, 0);
        let (place, destination) = (random.below(net.n) as u8, random.below(net.n) as u8);
        let failed = random.below(net.m) as u16;
        // A packet already there asks for the tables' room as well: 14 comes before what the step does.
        for destination in [destination, place] {
            let ask = StepAsk { place, destination, topology: 0, failure: 1, failed };
            let _ = comparer.step(file, &lent, ask);
        }
        for trail_room in [trail - 1, trail, trail + 1] {
            let ask = RunAsk { source: place, destination, failure: 1, failed };
            comparer.run(file, ask, room, trail_room);
        }
    }
    for trail_room in around(trail) {
        // Even a trail of one node asks for 2n - 2.
        for destination in [0, net.n as u8 - 1] {
            let ask = RunAsk { source: 0, destination, failure: 0, failed: 0 };
            comparer.run(file, ask, needed, trail_room);
        }
    }
    let text = report(file, LONGEST_REPORT).map_or(LONGEST_REPORT, |text| text.len());
    for room in around(text) {
        comparer.report(file, room);
    }
    list_rooms(comparer, file, net);
}

/// The rooms of the builder, of the reader and of the writer for a graph.
fn graph_rooms(comparer: &mut Comparer, graph: &Network) {
    let file = file_of(graph);
    if let Ok(built) = build(&file, 32, usize::MAX) {
        for room in around(built.len()) {
            let _ = comparer.build(&file, 32, room);
        }
    }
    list_rooms(comparer, &file, graph);
}

/// Rooms of which one list, by its number, has another length.
pub fn with_list(mut rooms: ListRooms, list: usize, room: usize) -> ListRooms {
    *[&mut rooms.a, &mut rooms.b, &mut rooms.weights, &mut rooms.homes, &mut rooms.rows][list] = room;
    rooms
}

/// Each list of the reader around its bound while the others have enough, and the writer's room.
fn list_rooms(comparer: &mut Comparer, file: &[u8], net: &Network) {
    let exact = lists_needed(net.n, net.m, net.k);
    for list in 0..5 {
        let bound = [exact.a, exact.b, exact.weights, exact.homes, exact.rows][list];
        for room in around(bound) {
            let _ = comparer.read(file, &with_list(exact, list, room));
        }
    }
    for room in around(file.len()) {
        let _ = comparer.write(&Lists::of(net), room);
    }
}
