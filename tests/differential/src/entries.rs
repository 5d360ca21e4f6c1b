//! What is compared with the model: the entries of the header, lent slices instead of pointers and lengths.
//!
//! What the header lends as `const` is lent here as `&mut` too: the harness looks afterwards whether it was altered, and the
//! compiler must not take for granted that it was not.

/// The counts that the writer is given.
#[derive(Clone, Copy)]
pub struct Counts {
    pub n: u8,
    pub m: u16,
    pub k: u8,
    pub wmax: u16,
}

/// The lists that the reader fills and the writer reads.
pub struct LentLists<'a> {
    pub a: &'a mut [u8],
    pub b: &'a mut [u8],
    pub weights: &'a mut [u16],
    pub homes: &'a mut [u8],
    pub rows: &'a mut [u16],
}

/// What a step is asked, besides the file and the tables.
#[derive(Clone, Copy, Debug)]
pub struct StepAsk {
    pub place: u8,
    pub destination: u8,
    pub topology: u8,
    pub failure: u8,
    pub failed: u16,
}

/// What a run is asked, besides the file and the room.
#[derive(Clone, Copy, Debug)]
pub struct RunAsk {
    pub source: u8,
    pub destination: u8,
    pub failure: u8,
    pub failed: u16,
}

pub trait Entries {
    fn build(&self, graph: &mut [u8], cap: u8, out: &mut [u8]) -> u64;
    fn tables(&self, file: &mut [u8], tables: &mut [u8]) -> u64;
    fn step(&self, file: &mut [u8], tables: &mut [u8], ask: StepAsk) -> u64;
    fn run(&self, file: &mut [u8], ask: RunAsk, tables: &mut [u8], trail: &mut [u8]) -> u64;
    fn report(&self, file: &mut [u8], text: &mut [u8]) -> u64;
    fn read(&self, file: &mut [u8], lists: LentLists) -> u64;
    fn write(&self, counts: Counts, lists: LentLists, out: &mut [u8]) -> u64;
}
