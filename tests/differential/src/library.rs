//! The proved static library behind its C interface.

use crate::entries::{Counts, Entries, LentLists, RunAsk, StepAsk};

// The header's seven functions, in its order.
extern "C" {
    fn burnishpeg_build(graph: *const u8, graph_len: usize, cap: u8, out: *mut u8, out_len: usize) -> u64;
    fn burnishpeg_tables(file: *const u8, file_len: usize, tables: *mut u8, tables_len: usize) -> u64;
    fn burnishpeg_step(
        file: *const u8,
        file_len: usize,
        tables: *const u8,
        tables_len: usize,
        place: u8,
        destination: u8,
        topology: u8,
        failure: u8,
        failed: u16,
    ) -> u64;
    fn burnishpeg_run(
        file: *const u8,
        file_len: usize,
        source: u8,
        destination: u8,
        failure: u8,
        failed: u16,
        tables: *mut u8,
        tables_len: usize,
        trail: *mut u8,
        trail_len: usize,
    ) -> u64;
    fn burnishpeg_report(file: *const u8, file_len: usize, text: *mut u8, text_len: usize) -> u64;
    fn burnishpeg_read(
        file: *const u8,
        file_len: usize,
        a: *mut u8,
        a_len: usize,
        b: *mut u8,
        b_len: usize,
        weights: *mut u16,
        weights_len: usize,
        homes: *mut u8,
        homes_len: usize,
        rows: *mut u16,
        rows_len: usize,
    ) -> u64;
    fn burnishpeg_write(
        n: u8,
        m: u16,
        k: u8,
        wmax: u16,
        a: *const u8,
        a_len: usize,
        b: *const u8,
        b_len: usize,
        weights: *const u16,
        weights_len: usize,
        homes: *const u8,
        homes_len: usize,
        rows: *const u16,
        rows_len: usize,
        out: *mut u8,
        out_len: usize,
    ) -> u64;
}

pub struct Library;

// Safety, for every call below: each pointer and length is one slice, slices lent as `&mut` do not overlap, none is null, and
// the header says that the functions take any bytes and any numbers and keep nothing.
impl Entries for Library {
    fn build(&self, graph: &mut [u8], cap: u8, out: &mut [u8]) -> u64 {
        unsafe { burnishpeg_build(graph.as_mut_ptr(), graph.len(), cap, out.as_mut_ptr(), out.len()) }
    }

    fn tables(&self, file: &mut [u8], tables: &mut [u8]) -> u64 {
        unsafe { burnishpeg_tables(file.as_mut_ptr(), file.len(), tables.as_mut_ptr(), tables.len()) }
    }

    fn step(&self, file: &mut [u8], tables: &mut [u8], ask: StepAsk) -> u64 {
        let StepAsk { place, destination, topology, failure, failed } = ask;
        let (file, file_len) = (file.as_mut_ptr(), file.len());
        let (tables, tables_len) = (tables.as_mut_ptr(), tables.len());
        unsafe { burnishpeg_step(file, file_len, tables, tables_len, place, destination, topology, failure, failed) }
    }

    fn run(&self, file: &mut [u8], ask: RunAsk, tables: &mut [u8], trail: &mut [u8]) -> u64 {
        let RunAsk { source, destination, failure, failed } = ask;
        let (file, file_len) = (file.as_mut_ptr(), file.len());
        let (tables, tables_len) = (tables.as_mut_ptr(), tables.len());
        let (trail, trail_len) = (trail.as_mut_ptr(), trail.len());
        unsafe {
            burnishpeg_run(file, file_len, source, destination, failure, failed, tables, tables_len, trail, trail_len)
        }
    }

    fn report(&self, file: &mut [u8], text: &mut [u8]) -> u64 {
        unsafe { burnishpeg_report(file.as_mut_ptr(), file.len(), text.as_mut_ptr(), text.len()) }
    }

    fn read(&self, file: &mut [u8], lists: LentLists) -> u64 {
        let LentLists { a, b, weights, homes, rows } = lists;
        unsafe {
            burnishpeg_read(
                file.as_mut_ptr(),
                file.len(),
                a.as_mut_ptr(),
                a.len(),
                b.as_mut_ptr(),
                b.len(),
                weights.as_mut_ptr(),
                weights.len(),
                homes.as_mut_ptr(),
                homes.len(),
                rows.as_mut_ptr(),
                rows.len(),
            )
        }
    }

    fn write(&self, counts: Counts, lists: LentLists, out: &mut [u8]) -> u64 {
        let Counts { n, m, k, wmax } = counts;
        let LentLists { a, b, weights, homes, rows } = lists;
        unsafe {
            burnishpeg_write(
                n,
                m,
                k,
                wmax,
                a.as_mut_ptr(),
                a.len(),
                b.as_mut_ptr(),
                b.len(),
                weights.as_mut_ptr(),
                weights.len(),
                homes.as_mut_ptr(),
                homes.len(),
                rows.as_mut_ptr(),
                rows.len(),
                out.as_mut_ptr(),
                out.len(),
            )
        }
    }
}
