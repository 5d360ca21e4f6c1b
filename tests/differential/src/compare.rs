//! One call at a time: the same input to the model and to the library, then their answers and every lent byte compared.

use std::rc::Rc;

use crate::answer::{answer, number_of, read_value, run_value, shown, step_value};
use crate::entries::{Counts, Entries, LentLists, RunAsk, StepAsk};
use crate::lent::Lent;
use crate::model::builder::build;
use crate::model::distance::tables_of;
use crate::model::file::{read, write, ListRooms, Lists};
use crate::model::forward::{run_in, step_in, Ask, Packet, Step};
use crate::model::report::report;
use crate::model::rules::{set_of, sound_set};
use crate::model::{Network, Refusal};

/// How many comparisons were made, and how many answers of each number were seen; 0 stands for accepted.
#[derive(Clone, Default)]
pub struct Tally {
    pub comparisons: u64,
    pub seen: [u64; 16],
}

/// Differences that are printed in full; the others are only counted.
const PRINTED: u64 = 5;

/// A set that meets the rules, with its tables.
type Sound = Result<Rc<(Network, Vec<u8>)>, Refusal>;

pub struct Comparer<'a> {
    entries: &'a dyn Entries,
    pub tally: Tally,
    pub differences: u64,
    calls: u64,
    // What the model says of the file last asked about. Many calls ask about one file.
    last_set: (Vec<u8>, Result<Rc<Network>, Refusal>),
    last_sound: (Vec<u8>, Sound),
}

pub fn hex(bytes: &[u8]) -> String {
    bytes.iter().map(|byte| format!("{byte:02x}")).collect()
}

fn words(list: &[u16]) -> String {
    list.iter().map(|word| format!("{word:04x} ")).collect()
}

impl<'a> Comparer<'a> {
    pub fn new(entries: &'a dyn Entries) -> Comparer<'a> {
        Comparer {
            entries,
            tally: Tally::default(),
            differences: 0,
            calls: 0,
            last_set: (vec![], Err((1, 0))),
            last_sound: (vec![], Err((1, 0))),
        }
    }

    /// The tally since this was last asked.
    pub fn take_tally(&mut self) -> Tally {
        std::mem::take(&mut self.tally)
    }

    fn salt(&mut self) -> u64 {
        self.calls += 1;
        self.calls
    }

    /// What the model says of a file for the step: 1 to 6, then 13.
    pub fn set(&mut self, file: &[u8]) -> Result<Rc<Network>, Refusal> {
        if self.last_set.0 != file {
            self.last_set = (file.to_vec(), set_of(file).map(Rc::new));
        }
        self.last_set.1.clone()
    }

    /// What the model says of a file where a sound set is needed, 1 to 8, then 13, with the tables.
    pub fn sound(&mut self, file: &[u8]) -> Sound {
        if self.last_sound.0 != file {
            let sound = sound_set(file).map(|net| {
                let tables = tables_of(&net);
                Rc::new((net, tables))
            });
            self.last_sound = (file.to_vec(), sound);
        }
        self.last_sound.1.clone()
    }

    /// Counts one comparison, and prints it where the answers or the lent bytes differ.
    fn conclude(&mut self, model: u64, library: u64, faults: &[Option<String>], input: impl Fn() -> String) {
        self.tally.comparisons += 1;
        if let Some(seen) = self.tally.seen.get_mut(number_of(model)) {
            *seen += 1;
        }
        let faults: Vec<&String> = faults.iter().flatten().collect();
        if model == library && faults.is_empty() {
            return;
        }
        self.differences += 1;
        if self.differences > PRINTED {
            return;
        }
        println!("difference in {}", input());
        println!("  model:   {}", shown(model));
        println!("  library: {}", shown(library));
        faults.iter().for_each(|fault| println!("  lent bytes: {fault}"));
    }

    pub fn build(&mut self, graph: &[u8], cap: u8, room: usize) -> Result<Vec<u8>, Refusal> {
        let model = build(graph, cap, room);
        let salt = self.salt();
        let (mut lent, mut out) = (Lent::of(graph, salt), Lent::room(room, salt + 1));
        let library = self.entries.build(lent.part(), cap, out.part());
        let given = model.as_deref().unwrap_or(&[]);
        let faults = [lent.fault("graph", &[]), out.fault("out", given)];
        let value = model.as_ref().map(|bytes| bytes.len() as u64).map_err(|&refusal| refusal);
        let input = || format!("build, cap {cap}, room {room}, graph {}", hex(graph));
        self.conclude(answer(value), library, &faults, input);
        model
    }

    pub fn tables(&mut self, file: &[u8], room: usize) -> Result<Vec<u8>, Refusal> {
        let model = self.sound(file).and_then(|sound| {
            let needed = sound.0.tables_length();
            (room >= needed).then(|| sound.1.clone()).ok_or((14, 0))
        });
        let salt = self.salt();
        let (mut lent, mut tables) = (Lent::of(file, salt), Lent::room(room, salt + 1));
        let library = self.entries.tables(lent.part(), tables.part());
        let given = model.as_deref().unwrap_or(&[]);
        let faults = [lent.fault("file", &[]), tables.fault("tables", given)];
        let value = model.as_ref().map(|bytes| bytes.len() as u64).map_err(|&refusal| refusal);
        self.conclude(answer(value), library, &faults, || format!("tables, room {room}, file {}", hex(file)));
        model
    }

    pub fn step(&mut self, file: &[u8], tables: &[u8], ask: StepAsk) -> Result<Step, Refusal> {
        let StepAsk { place, destination, topology, failure, failed } = ask;
        let packet = Packet { place: place as usize, destination: destination as usize, topology: topology as usize };
        let model = self.set(file).and_then(|net| step_in(&net, tables, packet, failure, failed));
        let salt = self.salt();
        let (mut lent, mut lent_tables) = (Lent::of(file, salt), Lent::of(tables, salt + 1));
        let library = self.entries.step(lent.part(), lent_tables.part(), ask);
        let faults = [lent.fault("file", &[]), lent_tables.fault("tables", &[])];
        let value = model.as_ref().map(step_value).map_err(|&refusal| refusal);
        let input = || format!("step, {ask:?}, tables {}, file {}", hex(tables), hex(file));
        self.conclude(answer(value), library, &faults, input);
        model
    }

    pub fn run(&mut self, file: &[u8], ask: RunAsk, tables_room: usize, trail_room: usize) {
        let whole = Ask {
            source: ask.source as usize,
            destination: ask.destination as usize,
            kind: ask.failure,
            number: ask.failed,
            tables_room,
            trail_room,
        };
        let model = self.sound(file).and_then(|sound| run_in(&sound.0, &sound.1, &whole));
        let salt = self.salt();
        let mut lent = Lent::of(file, salt);
        let (mut tables, mut trail) = (Lent::room(tables_room, salt + 1), Lent::room(trail_room, salt + 2));
        let library = self.entries.run(lent.part(), ask, tables.part(), trail.part());
        let given: (&[u8], &[u8]) = match &model {
            Ok(run) => (&run.tables, &run.trail),
            Err(_) => (&[], &[]),
        };
        let faults = [lent.fault("file", &[]), tables.fault("tables", given.0), trail.fault("trail", given.1)];
        let value = model.as_ref().map(run_value).map_err(|&refusal| refusal);
        let input = || format!("run, {ask:?}, tables room {tables_room}, trail room {trail_room}, file {}", hex(file));
        self.conclude(answer(value), library, &faults, input);
    }

    pub fn report(&mut self, file: &[u8], room: usize) {
        let model = report(file, room);
        let salt = self.salt();
        let (mut lent, mut text) = (Lent::of(file, salt), Lent::room(room, salt + 1));
        let library = self.entries.report(lent.part(), text.part());
        let given = model.as_deref().unwrap_or("").as_bytes();
        let faults = [lent.fault("file", &[]), text.fault("text", given)];
        let value = model.as_ref().map(|text| text.len() as u64).map_err(|&refusal| refusal);
        self.conclude(answer(value), library, &faults, || format!("report, room {room}, file {}", hex(file)));
    }

    pub fn read(&mut self, file: &[u8], rooms: &ListRooms) -> Result<Network, Refusal> {
        let model = read(file, rooms);
        let salt = self.salt();
        let mut lent = Lent::of(file, salt);
        let (mut a, mut b) = (Lent::<u8>::room(rooms.a, salt + 1), Lent::<u8>::room(rooms.b, salt + 2));
        let mut weights = Lent::<u16>::room(rooms.weights, salt + 3);
        let mut homes = Lent::<u8>::room(rooms.homes, salt + 4);
        let mut rows = Lent::<u16>::room(rooms.rows, salt + 5);
        let lists =
            LentLists { a: a.part(), b: b.part(), weights: weights.part(), homes: homes.part(), rows: rows.part() };
        let library = self.entries.read(lent.part(), lists);
        let given = model.as_ref().map(Lists::of).unwrap_or_else(|_| no_lists());
        let faults = [
            lent.fault("file", &[]),
            a.fault("a", &given.a),
            b.fault("b", &given.b),
            weights.fault("weights", &given.weights),
            homes.fault("homes", &given.homes),
            rows.fault("rows", &given.rows),
        ];
        let value = model.as_ref().map(read_value).map_err(|&refusal| refusal);
        self.conclude(answer(value), library, &faults, || format!("read, {rooms:?}, file {}", hex(file)));
        model
    }

    pub fn write(&mut self, lists: &Lists, room: usize) -> Result<Vec<u8>, Refusal> {
        let model = write(lists, room);
        let salt = self.salt();
        let (mut a, mut b) = (Lent::of(&lists.a, salt), Lent::of(&lists.b, salt + 1));
        let (mut weights, mut homes) = (Lent::of(&lists.weights, salt + 2), Lent::of(&lists.homes, salt + 3));
        let (mut rows, mut out) = (Lent::of(&lists.rows, salt + 4), Lent::room(room, salt + 5));
        let lent =
            LentLists { a: a.part(), b: b.part(), weights: weights.part(), homes: homes.part(), rows: rows.part() };
        let counts = Counts { n: lists.n, m: lists.m, k: lists.k, wmax: lists.wmax };
        let library = self.entries.write(counts, lent, out.part());
        let faults = [
            a.fault("a", &[]),
            b.fault("b", &[]),
            weights.fault("weights", &[]),
            homes.fault("homes", &[]),
            rows.fault("rows", &[]),
            out.fault("out", model.as_deref().unwrap_or(&[])),
        ];
        let value = model.as_ref().map(|bytes| bytes.len() as u64).map_err(|&refusal| refusal);
        self.conclude(answer(value), library, &faults, || shown_lists(lists, room));
        model
    }
}

fn no_lists() -> Lists {
    Lists { n: 0, m: 0, k: 0, wmax: 0, a: vec![], b: vec![], weights: vec![], homes: vec![], rows: vec![] }
}

fn shown_lists(lists: &Lists, room: usize) -> String {
    let counts = format!("n {}, m {}, k {}, wmax {}", lists.n, lists.m, lists.k, lists.wmax);
    let ends = format!("a {}, b {}", hex(&lists.a), hex(&lists.b));
    let homes = hex(&lists.homes);
    let (weights, rows) = (words(&lists.weights), words(&lists.rows));
    format!("write, room {room}, {counts}, {ends}, weights {weights}, homes {homes}, rows {rows}")
}
