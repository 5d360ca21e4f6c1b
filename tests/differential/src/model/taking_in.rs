//! 02's request h: one operation takes a file in, 1 to 8; 13 comes after 7 and 8; and what each entry makes of it.

use super::builder::{build, filled};
use super::distance::tables;
use super::file::{file_of, judge, read, take_in, write, ListRooms, Lists};
use super::forward::{run, step, Ask, Packet, Stand, Step};
use super::report::{report, LONGEST_REPORT};
use super::samples::{full_four, graph, heavy_ring, ring, set, triangle, two_triangles};
use super::{Network, Refusal};
use crate::make::{broken_set, careless_set, largest_crowded_at, loose_graph, one_topology_set, some_links, some_set};
use crate::random::Random;

const AMPLE: usize = 65_536;

fn all_lists(room: usize) -> ListRooms {
    ListRooms { a: room, b: room, weights: room, homes: room, rows: room }
}

fn changed(file: &[u8], changes: &[(usize, u8)]) -> Vec<u8> {
    let mut file = file.to_vec();
    changes.iter().for_each(|&(at, byte)| file[at] = byte);
    file
}

/// The ring of six nodes, all weights 1.
fn ring_of_six() -> Network {
    heavy_ring(6, 1)
}

/// A triangle and a node without a link.
fn triangle_and_lone_node() -> Network {
    graph(4, 1, &[(0, 1, 1), (0, 2, 1), (1, 2, 1)])
}

/// P10 and P11: 7 and 8, each at topology 1.
fn p10() -> Vec<u8> {
    set(&ring(), &[1, 2, 1, 3])
}

fn p11() -> Vec<u8> {
    set(&full_four(), &[1, 1, 1, 2])
}

/// A run from 0 to 1 with nothing down.
fn plain_run(room: usize) -> Ask {
    Ask { source: 0, destination: 1, kind: 0, number: 0, tables_room: room, trail_room: room }
}

/// A step from 0 to 1 in topology 0 by these tables with nothing down.
fn plain_step(file: &[u8], tables: &[u8]) -> Result<Step, Refusal> {
    step(file, tables, Packet { place: 0, destination: 1, topology: 0 }, 0, 0)
}

/// The refusals of a file by every entry that takes a file in, with arguments in range and this much room.
fn refusals(file: &[u8], room: usize) -> [Refusal; 5] {
    [
        read(file, &all_lists(room)).unwrap_err(),
        build(file, 4, room).unwrap_err(),
        tables(file, room).unwrap_err(),
        run(file, &plain_run(room)).unwrap_err(),
        report(file, room).unwrap_err(),
    ]
}

/// Sets whose records are right and that break the rules, with the refusal of each.
fn unsound() -> Vec<(Vec<u8>, Refusal)> {
    let six = |homes: [usize; 6]| set(&ring_of_six(), &homes);
    vec![
        (p10(), (7, 1)),
        (p11(), (8, 1)),
        // 8 in topology 1, where 0 and 1 have one link each, comes before 7 in topology 2, which cuts 3 off.
        (six([1, 1, 2, 3, 2, 4]), (8, 1)),
        // 7 in topology 1, which cuts 1 off, comes before 8 in topology 2.
        (six([1, 3, 1, 2, 2, 4]), (7, 1)),
        // In one topology 7, where 2 is cut off, comes before 8, where 0 and 1 have one link each.
        (six([1, 1, 2, 1, 3, 4]), (7, 1)),
        // Everything is right up to the last topology.
        (six([1, 2, 3, 4, 5, 5]), (8, 5)),
        (six([1, 2, 3, 5, 4, 5]), (7, 5)),
        // A backbone of one node is neither empty nor in parts, but it gives nobody two links.
        (set(&triangle(), &[1, 1, 2]), (8, 1)),
        (set(&full_four(), &[2, 2, 1, 2]), (8, 2)),
        // Topology 1 is nobody's home and its backbone the whole graph; in topology 2 nobody is left.
        (set(&triangle(), &[2, 2, 2]), (7, 2)),
        // The whole graph as a backbone is judged too: here it is in two parts.
        (set(&triangle_and_lone_node(), &[2, 2, 3, 3]), (7, 1)),
        // The lone node is isolated in topology 1; the others are connected, but it has no restricted link.
        (set(&triangle_and_lone_node(), &[1, 2, 2, 1]), (8, 1)),
        (set(&triangle_and_lone_node(), &[2, 2, 2, 1]), (8, 1)),
    ]
}

#[test]
fn one_operation_gives_7_and_8_to_every_entry() {
    for (file, refusal) in unsound() {
        let net = judge(&file).expect("the records are right");
        assert_eq!(take_in(&file), Err(refusal));
        for room in [AMPLE, 0] {
            assert_eq!(refusals(&file, room), [refusal; 5]);
            assert_eq!(write(&Lists::of(&net), room), Err(refusal));
        }
    }
}

#[test]
fn a_topology_that_is_nobodys_home_is_taken_in() {
    // Topology 2 is nobody's home.
    let file = set(&full_four(), &[1, 1, 3, 3]);
    let net = read(&file, &all_lists(AMPLE)).unwrap();
    assert_eq!((net.k, &net.homes[..]), (3, &[1, 1, 3, 3][..]));
    assert_eq!(write(&Lists::of(&net), file.len()), Ok(file));
}

/// "A graph alone is still taken in, with no topology to check": not even where it is in parts or has a node that cuts it.
#[test]
fn a_graph_alone_is_taken_in() {
    for graph in [triangle(), two_triangles(), triangle_and_lone_node()] {
        let (file, m) = (file_of(&graph), graph.m);
        assert_eq!(take_in(&file), Ok(graph.clone()));
        let rooms = ListRooms { a: m, b: m, weights: m, homes: 0, rows: 0 };
        assert_eq!(read(&file, &rooms), Ok(graph.clone()));
        assert_eq!(read(&file, &ListRooms { b: m - 1, ..rooms }), Err((14, 0)));
        assert_eq!(write(&Lists::of(&graph), file.len()), Ok(file.clone()));
        assert_eq!(write(&Lists::of(&graph), file.len() - 1), Err((14, 0)));
        // Where a set is needed it is 13, before every argument and room.
        assert_eq!(tables(&file, 0), Err((13, 0)));
        assert_eq!(report(&file, 0), Err((13, 0)));
        let ask = Ask { source: 99, destination: 99, kind: 2, number: 99, tables_room: 0, trail_room: 0 };
        assert_eq!(run(&file, &ask), Err((13, 0)));
        assert_eq!(run(&file, &Ask { source: 0, destination: 1, number: 0, ..ask }), Err((13, 0)));
        let packet = Packet { place: 99, destination: 99, topology: 99 };
        assert_eq!(step(&file, &[], packet, 9, 99), Err((13, 0)));
    }
}

/// Every record is judged before any topology: 2, 5 and 6 of the last row come before 7 and 8 of topology 1.
#[test]
fn records_come_before_topologies() {
    // P10: homes begin at 32, 36, 40, 44; rows at 48, 59, 70. P11: homes at 44, 48, 52, 56; rows at 60, 75.
    for (file, home, last) in [(p10(), 44, 70), (p11(), 56, 75)] {
        let cases = [
            (vec![(home + 3, 0)], (6, home)),
            (vec![(home + 3, 9), (last + 2, 1)], (6, home)),
            (vec![(last + 2, 1), (last + 4, 9)], (6, last)),
            (vec![(last + 4, 9)], (5, last)),
            (vec![(last, 0), (last + 2, 0)], (2, last)),
        ];
        for (changes, (number, at)) in cases {
            let refusal = (number, at as u32);
            let file = changed(&file, &changes);
            assert_eq!(take_in(&file), Err(refusal));
            assert_eq!(refusals(&file, 0), [refusal; 5]);
            assert_eq!(plain_step(&file, &[]), Err(refusal));
        }
        let longer = [&file[..], &[0]].concat();
        assert_eq!(refusals(&longer, AMPLE), [(1, 0); 5]);
    }
}

/// The reader's 14 comes last, after 7 and 8, whichever list is too short.
#[test]
fn the_readers_room_comes_last() {
    let exact = |net: &Network| ListRooms { a: net.m, b: net.m, weights: net.m, homes: net.n, rows: net.k * net.m };
    let short = |exact: ListRooms| {
        [
            ListRooms { a: exact.a - 1, ..exact },
            ListRooms { b: exact.b - 1, ..exact },
            ListRooms { weights: exact.weights - 1, ..exact },
            ListRooms { homes: exact.homes - 1, ..exact },
            ListRooms { rows: exact.rows - 1, ..exact },
            all_lists(0),
        ]
    };
    let file = set(&full_four(), &[1, 1, 2, 2]);
    let net = judge(&file).unwrap();
    assert_eq!(read(&file, &exact(&net)), Ok(net.clone()));
    short(exact(&net)).iter().for_each(|rooms| assert_eq!(read(&file, rooms), Err((14, 0))));
    for (file, refusal) in unsound() {
        let net = judge(&file).unwrap();
        assert_eq!(read(&file, &exact(&net)), Err(refusal));
        short(exact(&net)).iter().for_each(|rooms| assert_eq!(read(&file, rooms), Err(refusal)));
    }
}

/// The writer: 3, 1, then 4 to 6 by record, then 7 and 8 by topology, then 14.
#[test]
fn the_writer_gives_7_and_8() {
    let of = |file: &[u8]| Lists::of(&judge(file).unwrap());
    for (file, refusal) in unsound() {
        let lists = of(&file);
        for room in [0, file.len() - 1, file.len(), AMPLE] {
            assert_eq!(write(&lists, room), Err(refusal));
        }
        let with = |change: &dyn Fn(&mut Lists)| {
            let mut lists = lists.clone();
            change(&mut lists);
            write(&lists, 0).unwrap_err()
        };
        let (m, homes) = (lists.m as usize, 8 + 6 * lists.m as u32);
        let last_row = homes + 4 * lists.n as u32 + (lists.k as u32 - 1) * (3 + 2 * lists.m as u32);
        assert_eq!(with(&|l| (l.wmax, l.homes) = (0, vec![])), (3, 0));
        assert_eq!(with(&|l| l.k = l.n + 1), (3, 0));
        assert_eq!(with(&|l| (l.homes, l.weights[0]) = (vec![], 0)), (1, 0));
        assert_eq!(with(&|l| l.rows.truncate(l.rows.len() - 1)), (1, 0));
        assert_eq!(with(&|l| (l.b[m - 1], l.weights[m - 1]) = (l.n, 0)), (4, homes - 6));
        assert_eq!(with(&|l| l.weights[m - 1] = 0), (5, homes - 6));
        assert_eq!(with(&|l| l.homes[0] = 0), (6, homes));
        let last = lists.rows.len() - 1;
        assert_eq!(with(&|l| l.rows[last] = l.wmax + 1), (5, last_row));
    }
    // The set P6 runs in, cut by its homes alone: with rows that suit the new homes nothing but a rule is broken.
    let ring = Lists { homes: vec![1, 2, 1, 4], ..of(&set(&ring(), &[1, 2, 3, 4])) };
    assert_eq!(write(&ring, AMPLE), Err((5, 48)), "row 1 still has a weight where node 2 is isolated");
    let suited = Lists { rows: vec![0, 0, 0, 0, 0, 1, 0, 1, 1, 1, 1, 1, 1, 0, 1, 0], ..ring };
    assert_eq!(write(&suited, AMPLE), Err((7, 1)));
}

/// "Entries past the counts are neither written nor compared": they join no backbone and isolate nobody.
#[test]
fn entries_past_the_counts_keep_and_break_no_rule() {
    // P10's backbone in topology 1 is 1 and 3. A link 1-3 past the counts does not connect it.
    let mut lists = Lists::of(&judge(&p10()).unwrap());
    lists.a.push(1);
    lists.b.push(3);
    lists.weights.push(1);
    lists.rows.extend([1; 8]);
    assert_eq!(write(&lists, AMPLE), Err((7, 1)));
    // P11's node 0 has one link into the backbone of topology 1. The same link once more is not a second one.
    let mut lists = Lists::of(&judge(&p11()).unwrap());
    lists.a.push(0);
    lists.b.push(3);
    lists.weights.push(1);
    assert_eq!(write(&lists, AMPLE), Err((8, 1)));
    // Homes past the counts would be nodes without links; all homes at 1 would be an empty backbone.
    let file = set(&ring(), &[1, 2, 3, 4]);
    let mut lists = Lists::of(&judge(&file).unwrap());
    lists.homes.extend([1, 2, 3, 4, 1]);
    assert_eq!(write(&lists, AMPLE), Ok(file));
    // Lists of a set, written as a graph alone: homes and rows are all past the counts.
    let as_graph = Lists { k: 0, ..Lists::of(&judge(&p10()).unwrap()) };
    assert_eq!(write(&as_graph, AMPLE), Ok(file_of(&ring())));
}

/// The builder: 7 and 8 of a set, 13 of a sound one, 11, 9, 10, 14.
#[test]
fn the_builder_takes_its_input_in() {
    for cap in [0, 1, 4, 32, 33, 255] {
        for (file, refusal) in unsound() {
            assert_eq!(build(&file, cap, 0), Err(refusal));
        }
        // In a sound set 13 comes before the cap (11) and the room.
        assert_eq!(build(&set(&ring(), &[1, 2, 3, 4]), cap, 0), Err((13, 0)));
        assert_eq!(build(&set(&triangle(), &[1, 2, 3]), cap, AMPLE), Err((13, 0)));
    }
    let (cut, parts) = (file_of(&two_triangles()), file_of(&triangle_and_lone_node()));
    // A graph that is cut or in parts is taken in: it is 9 and never 7. 11 before 9, 9 before 10 and 14, 10 before 14.
    for graph in [cut, parts] {
        assert_eq!(build(&graph, 0, 0), Err((11, 0)));
        assert_eq!(build(&graph, 33, 0), Err((11, 0)));
        assert_eq!(build(&graph, 1, 0), Err((9, 0)));
        assert_eq!(build(&graph, 32, AMPLE), Err((9, 0)));
    }
    assert_eq!(build(&file_of(&ring()), 3, 0), Err((10, 0)));
    assert_eq!(build(&file_of(&ring()), 4, 0), Err((14, 0)));
}

/// The run: 7 and 8, 13 (of a graph alone, above), 11, 12, 14. Each ask below has every later reason as well.
#[test]
fn the_run_refuses_in_order() {
    let bad = Ask { source: 0, destination: 99, kind: 2, number: 0, tables_room: 0, trail_room: 0 };
    let source_down = Ask { destination: 1, ..bad };
    let no_room = Ask { kind: 0, ..source_down };
    for (file, refusal) in unsound() {
        for ask in [bad, source_down, no_room] {
            assert_eq!(run(&file, &ask), Err(refusal));
        }
    }
    let file = set(&full_four(), &[1, 1, 2, 2]);
    assert_eq!(run(&file, &bad), Err((11, 0)), "destination");
    assert_eq!(run(&file, &Ask { destination: 1, kind: 3, ..bad }), Err((11, 0)), "failure");
    assert_eq!(run(&file, &source_down), Err((12, 0)));
    assert_eq!(run(&file, &no_room), Err((14, 0)));
    // Tables of 64 bytes and a trail of 6.
    assert_eq!(run(&file, &Ask { tables_room: 64, trail_room: 5, ..no_room }), Err((14, 0)));
    assert_eq!(run(&file, &Ask { tables_room: 63, trail_room: 6, ..no_room }), Err((14, 0)));
    assert_eq!(run(&file, &Ask { tables_room: 64, trail_room: 6, ..no_room }).unwrap().stand, Stand::Delivered);
}

#[test]
fn tables_and_report_refuse_in_order() {
    let file = set(&full_four(), &[1, 1, 2, 2]);
    assert_eq!(tables(&file, 63), Err((14, 0)));
    assert_eq!(tables(&file, 64).map(|tables| tables.len()), Ok(64));
    assert_eq!(report(&file, 0), Err((14, 0)));
    assert!(report(&file, LONGEST_REPORT).is_ok());
}

/// The step keeps its refusals, 1 to 6, 13, 11, 12, 14, 15, and gives neither 7 nor 8: in a set that breaks the rules it steps.
#[test]
fn the_step_steps_in_broken_sets() {
    // P10, the ring: from 0 to 2 by 1. Tables of (3 + 1) × 16 + 16 bytes, all of them 1 but what is set here.
    let file = p10();
    let own = vec![1; 80];
    let packet = Packet { place: 0, destination: 2, topology: 0 };
    let moved = step(&file, &own, packet, 0, 0).unwrap();
    assert_eq!((moved.stand, moved.kind, moved.packet.place), (Stand::Moved, None, 1));
    // Link 0-1 is link 0. With it down, the home of 1 is topology 2; there the entry at 0 for 2 is 3: kind T.
    let around = changed(&own, &[(2 * 16 + 2, 3)]);
    let moved = step(&file, &around, packet, 1, 0).unwrap();
    assert_eq!((moved.stand, moved.kind), (Stand::Moved, Some('T')));
    assert_eq!(moved.packet, Packet { place: 3, destination: 2, topology: 2 });
    // Where that entry is 1 again, the alternate at 0 for 1 leads on in 0's home, topology 1, whose backbone is in two parts.
    let alternate = changed(&own, &[(4 * 16 + 1, 3)]);
    let moved = step(&file, &alternate, packet, 2, 1).unwrap();
    assert_eq!((moved.kind, moved.packet), (Some('D'), Packet { place: 3, destination: 2, topology: 1 }));
    let dropped = step(&file, &own, Packet { topology: 3, ..packet }, 1, 0).unwrap();
    assert_eq!((dropped.stand, dropped.packet.topology), (Stand::Dropped, 3));

    for (file, _) in unsound() {
        let net = judge(&file).unwrap();
        let room = vec![255; net.tables_length()];
        let (out, there) = (Packet { place: 0, destination: 99, topology: 0 }, Packet { destination: 0, ..packet });
        assert_eq!(step(&file, &[], out, 2, 0), Err((11, 0)));
        assert_eq!(step(&file, &[], Packet { topology: net.k + 1, ..packet }, 2, 0), Err((11, 0)));
        assert_eq!(step(&file, &[], packet, 2, net.n as u16), Err((11, 0)));
        assert_eq!(step(&file, &[], packet, 2, 0), Err((12, 0)));
        assert_eq!(step(&file, &room[1..], packet, 0, 0), Err((14, 0)));
        assert_eq!(step(&file, &room, packet, 0, 0), Err((15, 0)));
        assert_eq!(step(&file, &room, there, 0, 0).unwrap().stand, Stand::Delivered);
    }
}

/// With k = 1 everyone's home is 1, so the backbone is empty: 7 at topology 1 for everything but the step, whatever the graph.
#[test]
fn one_topology_is_for_the_step_alone() {
    let mut random = Random::new(2, 0);
    for n in 3..=32 {
        for net in [filled(&heavy_ring(n, 2), vec![1; n]), one_topology_set(&mut random, n)] {
            let file = file_of(&net);
            assert_eq!((net.k, judge(&file).as_ref()), (1, Ok(&net)));
            for room in [0, AMPLE] {
                assert_eq!(refusals(&file, room), [(7, 1); 5]);
                assert_eq!(write(&Lists::of(&net), room), Err((7, 1)));
            }
            let packet = Packet { place: 0, destination: 0, topology: 1 };
            assert_eq!(step(&file, &vec![0; 3 * n * n], packet, 0, 0).unwrap().stand, Stand::Delivered);
            assert_eq!(step(&file, &vec![0; 3 * n * n - 1], packet, 0, 0), Err((14, 0)));
            // The one row holds 0 for every link, since all are isolated; and no other home is there.
            let row = file.len() - 2 * net.m - 3;
            assert_eq!(refusals(&changed(&file, &[(file.len() - 1, 1)]), 0), [(5, row as u32); 5]);
            let home = row - 4;
            assert_eq!(refusals(&changed(&file, &[(home + 3, 2)]), 0), [(6, home as u32); 5]);
        }
    }
    // A hop in the triangle's one topology: every home is 1, and the tables name the way.
    let file = set(&triangle(), &[1, 1, 1]);
    let moved = plain_step(&file, &[1; 27]).unwrap();
    assert_eq!((moved.stand, moved.packet.place), (Stand::Moved, 1));
}

/// At the largest size the place is the topology too: each of 32, up to the last bit of a word.
#[test]
fn the_place_is_the_topology_up_to_32() {
    let mut random = Random::new(4, 0);
    let mut seen = [0; 9];
    for topology in (1..=32).chain([32; 8]) {
        let net = largest_crowded_at(&mut random, topology);
        let (number, place) = take_in(&file_of(&net)).unwrap_err();
        assert_eq!(place as usize, topology);
        assert_eq!(write(&Lists::of(&net), 0), Err((number, place)));
        seen[number as usize] += 1;
    }
    assert!(seen[7] > 0 && seen[8] > 0, "too little was seen: {seen:?}");
}

/// What every network, right by its records, must show: reader and writer agree, each entry that needs a set accepts exactly what
/// is taken in, and the step refuses no set by 7 or 8.
#[test]
fn the_entries_agree_about_any_network() {
    let mut random = Random::new(3, 0);
    let mut seen = [0; 9];
    for round in 0..1_200 {
        let n = random.between(3, if round % 10 == 0 { 32 } else { 8 });
        let m = some_links(&mut random, n);
        let net = match round % 4 {
            0 => loose_graph(&mut random, n, m),
            1 => careless_set(&mut random, n),
            2 => broken_set(&mut random, n),
            _ => some_set(&mut random, n),
        };
        let file = file_of(&net);
        let taken = take_in(&file);
        seen[taken.as_ref().map_or_else(|refusal| refusal.0 as usize, |_| 0)] += 1;
        assert_eq!(read(&file, &all_lists(AMPLE)), taken);
        assert_eq!(write(&Lists::of(&net), AMPLE), taken.clone().map(|_| file.clone()));
        let stepped =
            step(&file, &vec![0; net.tables_length()], Packet { place: 0, destination: 0, topology: 0 }, 0, 0);
        if net.k == 0 {
            assert_eq!(taken.as_ref(), Ok(&net));
            assert_eq!(stepped, Err((13, 0)));
            continue;
        }
        assert_eq!(stepped.unwrap().stand, Stand::Delivered);
        let expected = taken.clone().map(|_| ());
        assert_eq!(tables(&file, AMPLE).map(|_| ()), expected);
        assert_eq!(run(&file, &plain_run(AMPLE)).map(|_| ()), expected);
        assert_eq!(report(&file, AMPLE).map(|_| ()), expected);
        assert_eq!(build(&file, 32, AMPLE), Err(taken.err().unwrap_or((13, 0))));
    }
    assert!([seen[0], seen[7], seen[8]].iter().all(|&sets| sets > 100), "too little was seen: {seen:?}");
}
