//! A stand-in for the proved library: the header's seven functions, answered by the model (or by a copy of it with a fault).
//!
//! It tries the harness itself through the same C interface that the library has. `faults.sh` builds it.

// The parts are the package's own files; this one uses fewer of their items than the harness does.
#![allow(dead_code)]

#[path = "../src/answer.rs"]
mod answer;
#[path = "../src/entries.rs"]
mod entries;
#[path = "../src/itself.rs"]
mod itself;
#[path = "../src/model/mod.rs"]
mod model;

use entries::{Counts, Entries, LentLists, RunAsk, StepAsk};
use itself::Itself;
use model::builder::filled;
use model::file::{judge, written, Lists};
use model::rules::judge_topologies;
use model::Refusal;

/// Whether the fault with this number is the one asked for. `faults.sed` puts the calls into a copy of the model.
fn fault(number: u32) -> bool {
    static ASKED: std::sync::OnceLock<u32> = std::sync::OnceLock::new();
    let asked = || std::env::var("FAULT").ok().and_then(|text| text.parse().ok()).unwrap_or(0);
    *ASKED.get_or_init(asked) == number
}

/// For a fault: whether the lists keep the rules once links past the counts are taken as links too.
fn joined_past_the_counts(lists: &Lists) -> bool {
    let Ok(mut net) = judge(&written(lists)) else {
        return false;
    };
    let past = lists.a.iter().zip(&lists.b).skip(net.m).map(|(&a, &b)| (a as usize, b as usize));
    let nodes = 0..net.n;
    net.ends.extend(past.filter(|(a, b)| nodes.contains(a) && nodes.contains(b)));
    judge_topologies(&net).is_ok()
}

/// For a fault: the refusal of a file whose first wrong record is a row, where each topology is judged as soon as its own row has
/// been. Where no topology before the wrong row breaks a rule, and for any other record, it is the refusal that came.
fn topologies_by_row(file: &[u8], refusal: Refusal) -> Refusal {
    if file.len() < 8 {
        return refusal;
    }
    let (n, m) = (file[2] as usize, u16::from_be_bytes([file[3], file[4]]) as usize);
    let (homes, rows) = (8 + 6 * m, 8 + 6 * m + 4 * n);
    let Some(into) = (refusal.1 as usize).checked_sub(rows) else {
        return refusal;
    };
    let graph = [&file[..5], &[0], &file[6..homes]].concat();
    let homes = file[homes..rows].chunks(4).map(|record| record[3] as usize).collect();
    let mut set = filled(&judge(&graph).expect("only a row is wrong"), homes);
    set.k = into / (3 + 2 * m);
    judge_topologies(&set).err().unwrap_or(refusal)
}

/// An answer, or a number that is no answer where a fault made the model stop.
fn answered(call: impl FnOnce() -> u64) -> u64 {
    std::panic::set_hook(Box::new(|_| ()));
    std::panic::catch_unwind(std::panic::AssertUnwindSafe(call)).unwrap_or(u64::MAX)
}

// Safety, for every function below: the caller keeps the header's terms, so each pointer and length is one lent buffer.
unsafe fn lent<'a, T>(at: *mut T, length: usize) -> &'a mut [T] {
    std::slice::from_raw_parts_mut(at, length)
}

#[no_mangle]
unsafe extern "C" fn burnishpeg_build(graph: *mut u8, graph_len: usize, cap: u8, out: *mut u8, out_len: usize) -> u64 {
    answered(|| Itself.build(lent(graph, graph_len), cap, lent(out, out_len)))
}

#[no_mangle]
unsafe extern "C" fn burnishpeg_tables(file: *mut u8, file_len: usize, tables: *mut u8, tables_len: usize) -> u64 {
    answered(|| Itself.tables(lent(file, file_len), lent(tables, tables_len)))
}

#[no_mangle]
unsafe extern "C" fn burnishpeg_step(
    file: *mut u8,
    file_len: usize,
    tables: *mut u8,
    tables_len: usize,
    place: u8,
    destination: u8,
    topology: u8,
    failure: u8,
    failed: u16,
) -> u64 {
    let ask = StepAsk { place, destination, topology, failure, failed };
    answered(|| Itself.step(lent(file, file_len), lent(tables, tables_len), ask))
}

#[no_mangle]
unsafe extern "C" fn burnishpeg_run(
    file: *mut u8,
    file_len: usize,
    source: u8,
    destination: u8,
    failure: u8,
    failed: u16,
    tables: *mut u8,
    tables_len: usize,
    trail: *mut u8,
    trail_len: usize,
) -> u64 {
    let ask = RunAsk { source, destination, failure, failed };
    answered(|| Itself.run(lent(file, file_len), ask, lent(tables, tables_len), lent(trail, trail_len)))
}

#[no_mangle]
unsafe extern "C" fn burnishpeg_report(file: *mut u8, file_len: usize, text: *mut u8, text_len: usize) -> u64 {
    answered(|| Itself.report(lent(file, file_len), lent(text, text_len)))
}

#[no_mangle]
unsafe extern "C" fn burnishpeg_read(
    file: *mut u8,
    file_len: usize,
    a: *mut u8,
    a_len: usize,
    b: *mut u8,
    b_len: usize,
    weights: *mut u16,
    weights_len: usize,
    homes: *mut u8,
    homes_len: usize,
    rows: *mut u16,
    rows_len: usize,
) -> u64 {
    let lists = LentLists {
        a: lent(a, a_len),
        b: lent(b, b_len),
        weights: lent(weights, weights_len),
        homes: lent(homes, homes_len),
        rows: lent(rows, rows_len),
    };
    answered(|| Itself.read(lent(file, file_len), lists))
}

#[no_mangle]
unsafe extern "C" fn burnishpeg_write(
    n: u8,
    m: u16,
    k: u8,
    wmax: u16,
    a: *mut u8,
    a_len: usize,
    b: *mut u8,
    b_len: usize,
    weights: *mut u16,
    weights_len: usize,
    homes: *mut u8,
    homes_len: usize,
    rows: *mut u16,
    rows_len: usize,
    out: *mut u8,
    out_len: usize,
) -> u64 {
    let lists = LentLists {
        a: lent(a, a_len),
        b: lent(b, b_len),
        weights: lent(weights, weights_len),
        homes: lent(homes, homes_len),
        rows: lent(rows, rows_len),
    };
    answered(|| Itself.write(Counts { n, m, k, wmax }, lists, lent(out, out_len)))
}
