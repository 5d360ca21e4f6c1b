//! Files with something wrong in them.

use super::{every_entry, small_files, Plan, AMPLE_LISTS};
use crate::compare::Comparer;
use crate::make::{any_homes, broken_set, careless_set, loose_graph, set_with, some_set};
use crate::model::file::{file_length, file_of, judge};
use crate::model::{Network, MOST_NODES};
use crate::random::Random;

/// Every position of small files: every bit flipped, and some other bytes, given to every entry; in the smallest set and graph
/// all 256 bytes, given to the reader.
pub fn one_byte(comparer: &mut Comparer, random: &mut Random, plan: &Plan) {
    let files = small_files();
    for (number, file) in files.iter().enumerate() {
        for at in 0..file.len() {
            let before = file[at];
            let mut bytes: Vec<u8> = (0..8).map(|bit| before ^ (1 << bit)).collect();
            bytes.extend([0, 255, before.wrapping_add(1), before.wrapping_sub(1), random.byte()]);
            for byte in bytes {
                let mut damaged = file.clone();
                damaged[at] = byte;
                every_entry(comparer, random, &damaged);
            }
            if number == 0 || number == 5 {
                for byte in 0..=255 {
                    let mut damaged = file.clone();
                    damaged[at] = byte;
                    let _ = comparer.read(&damaged, &AMPLE_LISTS);
                }
            }
        }
    }
    for _ in 0..400 * plan.rounds {
        let n = random.between(3, MOST_NODES);
        let net = if random.once_in(3) { broken_set(random, n) } else { some_set(random, n) };
        let mut file = file_of(&net);
        let at = random.below(file.len());
        file[at] = if random.once_in(2) { file[at] ^ (1 << random.below(8)) } else { random.byte() };
        let _ = comparer.read(&file, &AMPLE_LISTS);
    }
}

/// Every length from nothing up to a few bytes over, and far over.
pub fn lengths(comparer: &mut Comparer, random: &mut Random, _plan: &Plan) {
    for file in small_files() {
        for length in 0..file.len() {
            every_entry(comparer, random, &file[..length]);
        }
        for more in (1..=9).chain([64, 9_192 - file.len(), 9_193 - file.len(), 20_000]) {
            let mut longer = file.clone();
            longer.extend((0..more).map(|_| random.byte()));
            every_entry(comparer, random, &longer);
        }
    }
}

/// Bytes by chance; behind a good header mark; behind a good header; and with good marks throughout.
pub fn random_bytes(comparer: &mut Comparer, random: &mut Random, plan: &Plan) {
    for _ in 0..400 * plan.rounds {
        let length = random.between(0, 120);
        let mut file: Vec<u8> = (0..length).map(|_| random.byte()).collect();
        every_entry(comparer, random, &file);
        if length >= 8 {
            file[..2].copy_from_slice(&[0x4E, 0x57]);
            every_entry(comparer, random, &file);
        }
        let (n, m) = (random.between(3, 6), random.between(3, 8));
        let k = random.between(0, n);
        let mut file: Vec<u8> = (0..file_length(n, m, k)).map(|_| random.byte()).collect();
        file[..8].copy_from_slice(&[0x4E, 0x57, n as u8, 0, m as u8, k as u8, random.byte(), random.byte()]);
        every_entry(comparer, random, &file);
        mark_records(&mut file, n, m, k);
        every_entry(comparer, random, &file);
    }
}

/// Puts the right mark before each record.
fn mark_records(file: &mut [u8], n: usize, m: usize, k: usize) {
    for at in record_starts(n, m, k) {
        let mark = if at < 8 + 6 * m {
            [0x4C, 0x4B]
        } else if at < 8 + 6 * m + 4 * n {
            [0x48, 0x4D]
        } else {
            [0x42, 0x57]
        };
        file[at..at + 2].copy_from_slice(&mark);
    }
}

/// The first byte of each record after the header.
fn record_starts(n: usize, m: usize, k: usize) -> Vec<usize> {
    let links = (0..m).map(|link| 8 + 6 * link);
    let homes = (0..if k > 0 { n } else { 0 }).map(|node| 8 + 6 * m + 4 * node);
    let rows = (0..k).map(|row| 8 + 6 * m + 4 * n + row * (3 + 2 * m));
    links.chain(homes).chain(rows).collect()
}

/// Two records of one kind change places; a record comes twice; two of different kinds change places.
pub fn swapped_records(comparer: &mut Comparer, random: &mut Random, plan: &Plan) {
    for _ in 0..120 * plan.rounds {
        let n = random.between(3, 7);
        let net = some_set(random, n);
        let (m, k) = (net.m, net.k);
        let file = file_of(&net);
        let mut starts = record_starts(n, m, k);
        starts.push(file.len());
        let mut records: Vec<Vec<u8>> = starts.windows(2).map(|pair| file[pair[0]..pair[1]].to_vec()).collect();
        let (one, other) = match random.below(4) {
            0 => (random.below(m), random.below(m)),
            1 => (m + random.below(n), m + random.below(n)),
            2 => (m + n + random.below(k), m + n + random.below(k)),
            _ => (random.below(records.len()), random.below(records.len())),
        };
        if random.once_in(3) {
            records[one] = records[other].clone();
        } else {
            records.swap(one, other);
        }
        let mut swapped = file[..8].to_vec();
        swapped.extend(records.concat());
        every_entry(comparer, random, &swapped);
    }
}

/// n, m, k and wmax at their bounds and past them, in files of the length that the counts give and of other lengths.
pub fn header_counts(comparer: &mut Comparer, random: &mut Random, _plan: &Plan) {
    let counts_n = [0, 1, 2, 3, 4, 31, 32, 33, 255];
    let counts_m = [0, 1, 2, 3, 4, 127, 128, 129, 255, 256, 259, 65_535];
    let counts_k = [0, 1, 2, 3, 4, 31, 32, 33, 255];
    for n in counts_n {
        for m in counts_m {
            for k in counts_k {
                for wmax in [0, 1, 255, 256, 65_535u16] {
                    let header = header(n, m, k, wmax);
                    let _ = comparer.read(&header, &AMPLE_LISTS);
                    let length = file_length(n as usize, m as usize, k as usize);
                    if length > 10_000 || (wmax > 1 && !random.once_in(4)) {
                        continue;
                    }
                    let mut file = header.to_vec();
                    file.resize(length, 0x4C);
                    let _ = comparer.read(&file, &AMPLE_LISTS);
                    file.pop();
                    let _ = comparer.read(&file, &AMPLE_LISTS);
                }
            }
        }
    }
    // Counts at their bounds in files that are good: the least and the most of each.
    for (n, m) in [(3, 3), (4, 3), (32, 3), (32, 31), (17, 128), (32, 128)] {
        good_at_bounds(comparer, random, n, m);
    }
}

fn header(n: u8, m: u16, k: u8, wmax: u16) -> [u8; 8] {
    let ([m1, m2], [w1, w2]) = (m.to_be_bytes(), wmax.to_be_bytes());
    [0x4E, 0x57, n, m1, m2, k, w1, w2]
}

/// Good files with these counts and k at 0, 1 and n, then each count one further.
fn good_at_bounds(comparer: &mut Comparer, random: &mut Random, n: usize, m: usize) {
    let graph = loose_graph(random, n, m);
    for k in [0, 1, n] {
        let homes = if k == 0 { vec![] } else { any_homes(random, n, k) };
        let file = file_of(&set_with(random, &graph, k, homes));
        assert!(judge(&file).is_ok());
        let _ = comparer.read(&file, &AMPLE_LISTS);
        for (at, step) in [(2, 1), (2, 255), (4, 1), (4, 255), (5, 1), (5, 255), (7, 255), (3, 1)] {
            let mut damaged = file.clone();
            damaged[at] = damaged[at].wrapping_add(step);
            let _ = comparer.read(&damaged, &AMPLE_LISTS);
        }
    }
}

/// Some fields of one record made wrong, each of them by chance: the order inside the record decides the answer.
fn damage_record(random: &mut Random, net: &Network, file: &mut [u8]) {
    let starts = record_starts(net.n, net.m, net.k);
    let number = random.below(starts.len());
    let at = starts[number];
    if random.once_in(4) {
        file[at + random.below(2)] ^= 1 << random.below(8);
    }
    let wrong_weight = random.pick(&[0, net.wmax.wrapping_add(1), 65_535]).to_be_bytes();
    if number < net.m {
        if random.once_in(2) {
            let (n, a, b) = (net.n as u8, file[at + 2], file[at + 3]);
            let ends = random.pick(&[(b, a), (a, a), (a, n), (n, n + 1), (a, 255), (0, 1), (0, b)]);
            (file[at + 2], file[at + 3]) = ends;
        }
        if random.once_in(2) {
            file[at + 4..at + 6].copy_from_slice(&wrong_weight);
        }
    } else if number < net.m + net.n {
        if random.once_in(2) {
            file[at + 2] = random.pick(&[0, file[at + 2].wrapping_add(1), file[at + 2].wrapping_sub(1), 255]);
        }
        if random.once_in(2) {
            file[at + 3] = random.pick(&[0, 1, net.k as u8, net.k as u8 + 1, 255]);
        }
    } else {
        if random.once_in(2) {
            file[at + 2] = random.pick(&[0, 1, file[at + 2].wrapping_add(1), net.k as u8 + 1, 255]);
        }
        if random.once_in(2) {
            let weight = at + 3 + 2 * random.below(net.m);
            file[weight..weight + 2].copy_from_slice(&wrong_weight);
        }
    }
}

/// One byte after the header changed, mostly by little.
fn damage_byte(random: &mut Random, n: usize, file: &mut [u8]) {
    let at = random.between(8, file.len() - 1);
    file[at] = match random.below(4) {
        0 => file[at].wrapping_add(1),
        1 => file[at].wrapping_sub(1),
        2 => random.below(n + 1) as u8,
        _ => random.byte(),
    };
}

/// Several fields of a record or two, or two to four bytes anywhere, wrong at once, mostly in sets that break the rules as well:
/// the order of the refusals decides.
pub fn several(comparer: &mut Comparer, random: &mut Random, plan: &Plan) {
    for _ in 0..700 * plan.rounds {
        let n = random.between(3, 6);
        let net = match random.below(3) {
            0 => some_set(random, n),
            1 => careless_set(random, n),
            _ => broken_set(random, n),
        };
        let mut file = file_of(&net);
        if random.once_in(3) {
            for _ in 0..random.between(2, 4) {
                damage_byte(random, n, &mut file);
            }
        } else {
            for _ in 0..random.between(1, 2) {
                damage_record(random, &net, &mut file);
            }
        }
        every_entry(comparer, random, &file);
    }
}
