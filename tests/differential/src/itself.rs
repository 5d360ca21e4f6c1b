//! The model in the library's place: it shows that the harness finds nothing where there is nothing, and, with a fault put into
//! a copy of the model, that it finds what there is.

use crate::answer::{answer, read_value, run_value, step_value};
use crate::entries::{Counts, Entries, LentLists, RunAsk, StepAsk};
use crate::model::builder::build;
use crate::model::distance::tables;
use crate::model::file::{read, write, ListRooms, Lists};
use crate::model::forward::{run, step, Ask, Packet};
use crate::model::report::report;

pub struct Itself;

/// Puts bytes at the front of lent room and answers their length.
fn give(out: &mut [u8], bytes: &[u8]) -> u64 {
    out[..bytes.len()].copy_from_slice(bytes);
    bytes.len() as u64
}

impl Entries for Itself {
    fn build(&self, graph: &mut [u8], cap: u8, out: &mut [u8]) -> u64 {
        answer(build(graph, cap, out.len()).map(|bytes| give(out, &bytes)))
    }

    fn tables(&self, file: &mut [u8], lent: &mut [u8]) -> u64 {
        answer(tables(file, lent.len()).map(|bytes| give(lent, &bytes)))
    }

    fn step(&self, file: &mut [u8], tables: &mut [u8], ask: StepAsk) -> u64 {
        let StepAsk { place, destination, topology, failure, failed } = ask;
        let packet = Packet { place: place as usize, destination: destination as usize, topology: topology as usize };
        answer(step(file, tables, packet, failure, failed).map(|step| step_value(&step)))
    }

    fn run(&self, file: &mut [u8], ask: RunAsk, tables: &mut [u8], trail: &mut [u8]) -> u64 {
        let ask = Ask {
            source: ask.source as usize,
            destination: ask.destination as usize,
            kind: ask.failure,
            number: ask.failed,
            tables_room: tables.len(),
            trail_room: trail.len(),
        };
        answer(run(file, &ask).map(|run| {
            give(tables, &run.tables);
            give(trail, &run.trail);
            run_value(&run)
        }))
    }

    fn report(&self, file: &mut [u8], text: &mut [u8]) -> u64 {
        answer(report(file, text.len()).map(|report| give(text, report.as_bytes())))
    }

    fn read(&self, file: &mut [u8], lists: LentLists) -> u64 {
        let rooms = ListRooms {
            a: lists.a.len(),
            b: lists.b.len(),
            weights: lists.weights.len(),
            homes: lists.homes.len(),
            rows: lists.rows.len(),
        };
        answer(read(file, &rooms).map(|net| {
            let given = Lists::of(&net);
            give(lists.a, &given.a);
            give(lists.b, &given.b);
            give(lists.homes, &given.homes);
            lists.weights[..given.weights.len()].copy_from_slice(&given.weights);
            lists.rows[..given.rows.len()].copy_from_slice(&given.rows);
            read_value(&net)
        }))
    }

    fn write(&self, counts: Counts, lists: LentLists, out: &mut [u8]) -> u64 {
        let Counts { n, m, k, wmax } = counts;
        let lists = Lists {
            n,
            m,
            k,
            wmax,
            a: lists.a.to_vec(),
            b: lists.b.to_vec(),
            weights: lists.weights.to_vec(),
            homes: lists.homes.to_vec(),
            rows: lists.rows.to_vec(),
        };
        answer(write(&lists, out.len()).map(|bytes| give(out, &bytes)))
    }
}
