//! The families of inputs.

mod arguments;
mod damage;
mod forwarding;
mod lists;
mod rooms;
mod rules;
mod sets;

use crate::compare::Comparer;
use crate::entries::{RunAsk, StepAsk};
use crate::model::file::{file_of, judge, ListRooms, Lists};
use crate::model::report::LONGEST_REPORT;
use crate::model::samples::{full_four, ring, set, triangle};
use crate::random::Random;

/// How much of each family is tried.
#[derive(Clone, Copy)]
pub struct Plan {
    /// Random inputs per family are this many times a family's own number.
    pub rounds: usize,
    /// Work for the runs of one set. Every run makes its own tables, so a run counts (k + 1) × n × n × n. Where all runs
    /// of a set are within this, all are tried; otherwise as many as are within it, drawn by chance.
    pub run_work: usize,
    /// Packets of one set that are walked by repeated steps; all of them where there are no more.
    pub most_walks: usize,
}

pub struct Family {
    pub name: &'static str,
    pub compare: fn(&mut Comparer, &mut Random, &Plan),
}

pub const FAMILIES: &[Family] = &[
    Family { name: "examples of 01", compare: sets::examples },
    Family { name: "random sets", compare: sets::random_sets },
    Family { name: "careless sets", compare: sets::careless_sets },
    Family { name: "builder at every cap", compare: sets::every_cap },
    Family { name: "builder, cut nodes", compare: sets::cut_nodes },
    Family { name: "largest sizes", compare: sets::largest },
    Family { name: "one byte changed", compare: damage::one_byte },
    Family { name: "truncated and extended", compare: damage::lengths },
    Family { name: "random bytes", compare: damage::random_bytes },
    Family { name: "swapped records", compare: damage::swapped_records },
    Family { name: "header counts", compare: damage::header_counts },
    Family { name: "several damages", compare: damage::several },
    Family { name: "runs, single failures", compare: forwarding::runs },
    Family { name: "longest trails", compare: forwarding::longest_trails },
    Family { name: "repeated steps", compare: forwarding::walks },
    Family { name: "damaged tables", compare: forwarding::damaged_tables },
    Family { name: "arguments out of range", compare: arguments::out_of_range },
    Family { name: "order of refusals", compare: arguments::order },
    Family { name: "short rooms", compare: rooms::short_rooms },
    Family { name: "round trips", compare: lists::round_trips },
    Family { name: "damaged lists", compare: lists::damaged_lists },
    Family { name: "broken rules", compare: rules::broken_rules },
    Family { name: "one topology", compare: rules::one_topology },
];

/// What the longest set and tables need.
const LONGEST_FILE: usize = 9_192;
const LONGEST_TABLES: usize = 34_816;

/// Ample for the tables of small sets, so that damage alone decides.
const SMALL_TABLES: usize = 1_200;

/// Ample room for the lists of any file.
const AMPLE_LISTS: ListRooms = ListRooms { a: 130, b: 129, weights: 131, homes: 33, rows: 4_100 };

/// Small files of every kind: graphs alone and sets, sound and unsound.
fn small_files() -> Vec<Vec<u8>> {
    vec![
        set(&triangle(), &[1, 2, 3]),
        set(&full_four(), &[1, 1, 2, 2]),
        set(&ring(), &[1, 2, 3, 4]),
        set(&ring(), &[1, 2, 1, 3]),
        // Topology 2 is nobody's home.
        set(&full_four(), &[1, 1, 3, 3]),
        file_of(&triangle()),
        file_of(&ring()),
        set(&full_four(), &[1, 1, 1, 2]),
        set(&triangle(), &[1, 1, 1]),
    ]
}

/// Every entry, once, with arguments that small sets accept; the writer where the file's records are right and so make lists.
fn every_entry(comparer: &mut Comparer, random: &mut Random, file: &[u8]) {
    let _ = comparer.build(file, random.between(1, 32) as u8, 300);
    let tables = comparer.tables(file, SMALL_TABLES).unwrap_or_else(|_| vec![1; SMALL_TABLES]);
    let place = random.below(3) as u8;
    let destination = random.below(3) as u8;
    let (failure, failed) = random.pick(&[(0, 0), (1, 0), (1, 1), (1, 2), (2, 0), (2, 1), (2, 2)]);
    let _ = comparer.step(file, &tables, StepAsk { place, destination, topology: 0, failure, failed });
    comparer.run(file, RunAsk { source: place, destination, failure, failed }, SMALL_TABLES, 70);
    comparer.report(file, LONGEST_REPORT);
    let _ = comparer.read(file, &AMPLE_LISTS);
    if let Ok(net) = judge(file) {
        let _ = comparer.write(&Lists::of(&net), LONGEST_FILE);
    }
}
