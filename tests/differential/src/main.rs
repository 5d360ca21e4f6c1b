//! Compares the proved library with a model written from document 01, as amended by requests a and h of document 02, alone.

mod answer;
mod ask;
mod compare;
mod entries;
mod families;
mod itself;
mod lent;
#[cfg(feature = "library")]
mod library;
mod make;
mod model;
mod random;

use compare::{Comparer, Tally};
use entries::Entries;
use families::{Plan, FAMILIES};
use random::Random;

/// About 20 seconds at most.
const SHORT: Plan = Plan { rounds: 1, run_work: 40_000_000, most_walks: 1_500 };
/// One seed of the long run.
const LONG: Plan = Plan { rounds: 2, run_work: 200_000_000, most_walks: 8_000 };
const SHORT_SEEDS: std::ops::RangeInclusive<u64> = 1..=1;
const LONG_SEEDS: std::ops::RangeInclusive<u64> = 1..=12;

const USAGE: &str = "usage: differential short | long | seed N [itself]
  short   one seed, seconds
  long    twelve seeds, minutes
  seed N  one seed of the long run
  itself  compares the model with itself in place of the library
usage: differential answer [room N] CALL FILE
  prints the model's answer to one call; CALL is read | tables | report | build CAP | run SOURCE DESTINATION DOWN |
  step PLACE DESTINATION TOPOLOGY DOWN TABLES, where TABLES is a file, and DOWN is none | link N | node N
  room N  every lent list and buffer has N entries; without it there is ample room";

fn main() {
    let arguments: Vec<String> = std::env::args().skip(1).collect();
    let mut words: Vec<&str> = arguments.iter().map(String::as_str).collect();
    if let ["answer", ref call @ ..] = words[..] {
        println!("{}", ask::line(call, &bytes_of).unwrap_or_else(|| wrong_usage()));
        return;
    }
    let itself = words.last() == Some(&"itself");
    if itself {
        words.pop();
    }
    let (plan, seeds) = match words[..] {
        ["short"] => (SHORT, SHORT_SEEDS),
        ["long"] => (LONG, LONG_SEEDS),
        ["seed", number] => match number.parse() {
            Ok(seed) => (LONG, seed..=seed),
            Err(_) => wrong_usage(),
        },
        _ => wrong_usage(),
    };
    let differences = compare_all(chosen(itself), plan, seeds);
    std::process::exit(if differences == 0 { 0 } else { 1 });
}

fn bytes_of(name: &str) -> Vec<u8> {
    std::fs::read(name).unwrap_or_else(|why| {
        eprintln!("{name}: {why}");
        std::process::exit(2);
    })
}

fn wrong_usage() -> ! {
    eprintln!("{USAGE}");
    std::process::exit(2);
}

#[cfg(feature = "library")]
fn chosen(itself: bool) -> &'static dyn Entries {
    if itself {
        println!("the model in the library's place");
        &itself::Itself
    } else {
        &library::Library
    }
}

#[cfg(not(feature = "library"))]
fn chosen(_itself: bool) -> &'static dyn Entries {
    println!("the model in the library's place: this build has no library");
    &itself::Itself
}

/// Every family with every seed, up to the end of the first family with a difference. Each family has its own stream of a seed,
/// so that one can be changed without the others.
fn compare_all(entries: &dyn Entries, plan: Plan, seeds: std::ops::RangeInclusive<u64>) -> u64 {
    let mut comparer = Comparer::new(entries);
    let mut whole = Tally::default();
    'seeds: for seed in seeds {
        println!("seed {seed}");
        for (stream, family) in FAMILIES.iter().enumerate() {
            let mut random = Random::new(seed, stream as u64);
            (family.compare)(&mut comparer, &mut random, &plan);
            let tally = comparer.take_tally();
            println!("  {}: {}", family.name, shown(&tally));
            whole.comparisons += tally.comparisons;
            whole.seen.iter_mut().zip(tally.seen).for_each(|(sum, seen)| *sum += seen);
            if comparer.differences > 0 {
                break 'seeds;
            }
        }
    }
    println!("all families: {}", shown(&whole));
    println!("comparisons: {}, differences: {}", whole.comparisons, comparer.differences);
    comparer.differences
}

/// The number of comparisons, then how often the model accepted and how often it refused by each number.
fn shown(tally: &Tally) -> String {
    let refused = (1..16).filter(|&number| tally.seen[number] > 0);
    let numbers: Vec<String> = refused.map(|number| format!("{number}: {}", tally.seen[number])).collect();
    format!("{} comparisons; accepted {}; refused {}", tally.comparisons, tally.seen[0], numbers.join(", "))
}
