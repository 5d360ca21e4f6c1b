//! 01's examples, P1 to P12, the unmarked ones, and the triangle's report byte for byte, as 02's request a amends it.

use super::builder::build;
use super::file::{file_of, judge, read, take_in, write, ListRooms, Lists};
use super::forward::{run, Ask, Run, Stand};
use super::report::{report, LONGEST_REPORT};
use super::samples::{full_four, ring, set, triangle, two_triangles};
use super::{Network, Refusal};

const AMPLE: usize = 65_536;

fn built_homes(graph: &Network, cap: u8) -> Result<(usize, Vec<usize>), Refusal> {
    let file = build(&file_of(graph), cap, AMPLE)?;
    let set = take_in(&file).expect("the builder writes a set that can be taken in");
    Ok((set.k, set.homes))
}

/// A run with ample room; the failure by kind (0 nothing, 1 link, 2 node) and number.
fn run_of(file: &[u8], source: usize, destination: usize, kind: u8, number: u16) -> Result<Run, Refusal> {
    run(file, &Ask { source, destination, kind, number, tables_room: AMPLE, trail_room: AMPLE })
}

fn ends_of(run: &Run) -> (Stand, &[u8], usize, Option<char>) {
    assert_eq!(run.hops + 1, run.trail.len());
    (run.stand, &run.trail, run.topology, run.kind)
}

fn link(graph: &Network, a: usize, b: usize) -> u16 {
    graph.link_between(a, b).expect("the example names a link") as u16
}

#[test]
fn p1_to_p4_the_builder() {
    assert_eq!(built_homes(&triangle(), 3), Ok((3, vec![1, 2, 3])));
    assert_eq!(built_homes(&ring(), 4), Ok((4, vec![1, 2, 3, 4])));
    assert_eq!(built_homes(&ring(), 3), Err((10, 0)));
    assert_eq!(built_homes(&full_four(), 4), Ok((2, vec![1, 1, 2, 2])));
}

#[test]
fn p5_triangle_with_a_link_down() {
    let file = set(&triangle(), &[1, 2, 3]);
    let run = run_of(&file, 0, 2, 1, link(&triangle(), 1, 2)).unwrap();
    assert_eq!(ends_of(&run), (Stand::Delivered, &[0u8, 1, 0, 2][..], 2, Some('D')));
    assert_eq!(run.hops, 2 * 3 - 3);
}

#[test]
fn p6_ring_with_a_link_down() {
    let file = set(&ring(), &[1, 2, 3, 4]);
    let run = run_of(&file, 0, 2, 1, link(&ring(), 1, 2)).unwrap();
    assert_eq!(ends_of(&run), (Stand::Delivered, &[0u8, 1, 0, 3, 2][..], 2, Some('D')));
}

#[test]
fn p7_to_p9_full_four() {
    let file = set(&full_four(), &[1, 1, 2, 2]);
    let run = run_of(&file, 0, 2, 1, link(&full_four(), 0, 2)).unwrap();
    assert_eq!(ends_of(&run), (Stand::Delivered, &[0u8, 3, 2][..], 1, Some('D')));
    let run = run_of(&file, 0, 1, 1, link(&full_four(), 0, 1)).unwrap();
    assert_eq!(ends_of(&run), (Stand::Delivered, &[0u8, 2, 1][..], 1, Some('S')));
    let run = run_of(&file, 0, 2, 2, 2).unwrap();
    assert_eq!(ends_of(&run), (Stand::Dropped, &[0u8, 3][..], 1, Some('D')));
}

#[test]
fn p10_and_p11_the_rules() {
    assert_eq!(take_in(&set(&ring(), &[1, 2, 1, 3])), Err((7, 1)));
    assert_eq!(take_in(&set(&full_four(), &[1, 1, 1, 2])), Err((8, 1)));
}

#[test]
fn p12_a_packet_already_there() {
    let run = run_of(&set(&triangle(), &[1, 2, 3]), 0, 0, 0, 0).unwrap();
    assert_eq!(ends_of(&run), (Stand::Delivered, &[0u8][..], 0, None));
}

#[test]
fn two_triangles_sharing_one_node() {
    assert_eq!(built_homes(&two_triangles(), 5), Err((9, 0)));
}

#[test]
fn weights_counts_and_one_byte_over() {
    let mut file = file_of(&triangle());
    file[12..14].copy_from_slice(&[0, 0]);
    assert_eq!(judge(&file).unwrap_err(), (5, 8));
    file[12..14].copy_from_slice(&[0, 3]);
    assert!(judge(&file).is_ok(), "weight wmax is taken");
    file[12..14].copy_from_slice(&[0, 4]);
    assert_eq!(judge(&file).unwrap_err(), (5, 8));
    file[12..14].copy_from_slice(&[0, 1]);
    file.push(0);
    assert_eq!(judge(&file).unwrap_err(), (1, 0));
    file.pop();
    for n in [2, 33] {
        file[2] = n;
        assert_eq!(judge(&file).unwrap_err(), (3, 0));
    }
}

#[test]
fn the_triangles_file_and_report() {
    let file = set(&triangle(), &[1, 2, 3]);
    assert_eq!(file.len(), 65);
    assert_eq!(judge(&file).unwrap().rows, [[0, 0, 1], [0, 3, 0], [1, 0, 0]]);
    // 02, request a: the two T lines end in -1, every other line is 01's.
    let expected = "node via dest kind topology next hops extra\n\
        0 1 1 D 1 2 2 1\n\
        0 1 2 T 2 2 1 -1\n\
        1 0 0 D 2 2 2 1\n\
        1 2 2 D 2 0 2 1\n\
        2 1 0 T 2 0 1 -1\n\
        2 1 1 D 3 0 2 1\n\
        detections 6\n";
    assert_eq!(report(&file, LONGEST_REPORT).unwrap(), expected);
    assert_eq!(report(&file, expected.len()).unwrap(), expected);
    assert_eq!(report(&file, expected.len() - 1), Err((14, 0)));
}

#[test]
fn reading_and_writing_give_back_the_file() {
    for file in [set(&triangle(), &[1, 2, 3]), file_of(&ring()), set(&full_four(), &[1, 1, 2, 2])] {
        let ample = ListRooms { a: AMPLE, b: AMPLE, weights: AMPLE, homes: AMPLE, rows: AMPLE };
        let net = read(&file, &ample).unwrap();
        assert_eq!(write(&Lists::of(&net), file.len()), Ok(file.clone()));
        assert_eq!(write(&Lists::of(&net), file.len() - 1), Err((14, 0)));
    }
}
