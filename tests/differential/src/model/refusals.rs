//! Each refusal's place and 01's order of refusals where request h leaves it as it was, and the laws that an accepted run must
//! keep.

use super::builder::build;
use super::distance::{tables, tables_of};
use super::file::{file_length, file_of, judge, read, write, ListRooms, Lists};
use super::forward::{run, step, Ask, Failure, Packet, Stand};
use super::rules::sound_set;
use super::samples::{full_four, graph, ring, set, triangle};
use super::Refusal;

fn changed(file: &[u8], changes: &[(usize, u8)]) -> Vec<u8> {
    let mut file = file.to_vec();
    changes.iter().for_each(|&(at, byte)| file[at] = byte);
    file
}

fn refused(file: &[u8], changes: &[(usize, u8)]) -> Refusal {
    judge(&changed(file, changes)).unwrap_err()
}

#[test]
fn the_longest_file() {
    assert_eq!(file_length(32, 128, 32), 9_192);
}

#[test]
fn records_are_judged_in_turn_and_marks_before_fields() {
    // Links begin at 8, 14, 20; homes at 26, 30, 34; rows at 38, 47, 56.
    let file = set(&triangle(), &[1, 2, 3]);
    assert_eq!(judge(&file[..7]).unwrap_err(), (1, 0));
    assert_eq!(refused(&file, &[(0, 0), (2, 99)]), (2, 0));
    assert_eq!(refused(&file, &[(2, 99)]), (3, 0));
    assert_eq!(refused(&file, &[(5, 4)]), (3, 0), "k is at most n");
    assert_eq!(refused(&file, &[(7, 0)]), (3, 0), "wmax is at least 1");
    assert_eq!(refused(&file, &[(5, 2), (8, 0)]), (1, 0), "the length comes before the records");
    assert_eq!(refused(&file, &[(15, 0), (16, 9)]), (2, 14));
    assert_eq!(refused(&file, &[(17, 1), (19, 0)]), (4, 14), "the same ends twice; 4 before 5");
    assert_eq!(refused(&file, &[(19, 4)]), (5, 14));
    assert_eq!(refused(&file, &[(32, 2)]), (6, 30), "homes go by node");
    assert_eq!(refused(&file, &[(33, 0)]), (6, 30));
    assert_eq!(refused(&file, &[(33, 4)]), (6, 30));
    assert_eq!(refused(&file, &[(49, 3), (51, 1)]), (6, 47), "6 before 5 in a row");
    assert_eq!(refused(&file, &[(51, 1)]), (5, 47), "a link that isn't normal holds 0");
    assert_eq!(refused(&file, &[(53, 0)]), (5, 47), "a normal link holds 1 to wmax");
    assert_eq!(refused(&file, &[(56, 0), (53, 0)]), (5, 47), "the earlier record first");
}

#[test]
fn the_builder_refuses_in_order() {
    let file = file_of(&ring());
    assert_eq!(build(&set(&ring(), &[1, 2, 3, 4]), 0, 0), Err((13, 0)));
    assert_eq!(build(&file, 0, 0), Err((11, 0)));
    assert_eq!(build(&file, 33, 0), Err((11, 0)));
    assert_eq!(build(&file, 3, 0), Err((10, 0)));
    let needed = file_length(4, 4, 4);
    assert_eq!(build(&file, 4, needed - 1), Err((14, 0)));
    assert_eq!(build(&file, 4, needed).map(|file| file.len()), Ok(needed));
    let apart = graph(4, 1, &[(0, 1, 1), (0, 2, 1), (1, 2, 1)]);
    assert_eq!(build(&file_of(&apart), 1, 0), Err((9, 0)));
}

#[test]
fn the_step_judges_only_what_it_looks_up() {
    let file = set(&full_four(), &[1, 1, 2, 2]);
    let own = tables(&file, 1_000).unwrap();
    let from = |destination, topology| Packet { place: 0, destination, topology };
    let ask = |tables: &[u8], packet, kind, number| step(&file, tables, packet, kind, number);
    assert_eq!(ask(&own[1..], from(2, 3), 2, 0), Err((11, 0)));
    assert_eq!(ask(&own[1..], from(2, 0), 2, 0), Err((12, 0)));
    assert_eq!(ask(&own[1..], from(2, 0), 0, 9), Err((14, 0)));
    let bad = vec![255; own.len()];
    assert_eq!(ask(&bad, from(2, 0), 0, 0), Err((15, 0)));
    assert_eq!(ask(&bad, from(0, 0), 0, 0).unwrap().stand, Stand::Delivered);
    // With link 0-2 down the alternate is looked up; with nothing down it isn't.
    let no_alternate = changed(&own, &[(3 * 16 + 2, 255)]);
    assert_eq!(ask(&no_alternate, from(2, 0), 1, 1), Err((15, 0)));
    assert_eq!(ask(&no_alternate, from(2, 0), 0, 0).unwrap().packet.place, 2);
    // The alternate is the dead neighbour itself: dropped, in its place and topology.
    let dead = ask(&changed(&own, &[(3 * 16 + 2, 2)]), from(2, 0), 1, 1).unwrap();
    assert_eq!((dead.stand, dead.kind, dead.packet), (Stand::Dropped, None, from(2, 0)));
}

#[test]
fn the_writer_answers_as_the_reader_would() {
    let lists = Lists::of(&judge(&set(&triangle(), &[1, 2, 3])).unwrap());
    let with = |change: &dyn Fn(&mut Lists)| {
        let mut lists = lists.clone();
        change(&mut lists);
        write(&lists, 0).unwrap_err()
    };
    assert_eq!(with(&|l| (l.n, l.a) = (2, vec![])), (3, 0));
    assert_eq!(with(&|l| (l.a[0], l.rows) = (9, vec![0; 8])), (1, 0));
    assert_eq!(with(&|l| (l.b[1], l.weights[1]) = (1, 0)), (4, 14));
    assert_eq!(with(&|l| l.weights[2] = 4), (5, 20));
    assert_eq!(with(&|l| l.homes[2] = 4), (6, 34));
    assert_eq!(with(&|l| l.rows[3] = 1), (5, 47));
    assert_eq!(with(&|l| l.rows.push(7)), (14, 0), "entries past the counts are not compared");
    let graph_alone = Lists { k: 0, homes: vec![], rows: vec![], ..lists.clone() };
    assert_eq!(write(&graph_alone, 26).map(|file| file.len()), Ok(26));
    let rooms = ListRooms { a: 3, b: 3, weights: 3, homes: 3, rows: 8 };
    assert_eq!(read(&set(&triangle(), &[1, 2, 3]), &rooms).unwrap_err(), (14, 0));
}

/// 01, "Forwarding": delivered past any one failure unless the destination is the failed node, within 2n - 3 hops.
#[test]
fn every_single_failure_is_gone_around() {
    for file in [set(&triangle(), &[1, 2, 3]), set(&ring(), &[1, 2, 3, 4]), set(&full_four(), &[1, 1, 2, 2])] {
        let net = sound_set(&file).unwrap();
        let failures = (0..net.m).map(Failure::Link).chain((0..net.n).map(Failure::Node));
        for (failure, source, destination) in
            failures.flat_map(|f| (0..net.n).flat_map(move |s| (0..net.n).map(move |t| (f, s, t))))
        {
            let (kind, number) = match failure {
                Failure::Link(link) => (1, link as u16),
                Failure::Node(node) => (2, node as u16),
                Failure::Nothing => (0, 0),
            };
            let ask = Ask { source, destination, kind, number, tables_room: 1_000, trail_room: 2 * net.n - 2 };
            let answer = run(&file, &ask);
            if failure == Failure::Node(source) {
                assert_eq!(answer, Err((12, 0)));
                continue;
            }
            let answer = answer.unwrap();
            let lost = failure == Failure::Node(destination);
            assert_eq!(answer.stand == Stand::Dropped, lost);
            assert!(answer.hops <= 2 * net.n - 3);
            assert_eq!(answer.tables, tables_of(&net));
        }
    }
}
