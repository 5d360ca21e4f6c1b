//! The one 64-bit number that every C entry answers, as the header lays it out.

use crate::model::forward::{Run, Stand, Step};
use crate::model::{Network, Refusal};

const REFUSED: u64 = 1 << 63;

/// The answer for a value or a refusal. A refusal's bits besides bit 63, its number and its place are 0.
pub fn answer(outcome: Result<u64, Refusal>) -> u64 {
    match outcome {
        Ok(value) => value,
        Err((number, place)) => REFUSED | (number as u64) << 32 | place as u64,
    }
}

/// The refusal's number in an answer, or 0 where it was accepted.
pub fn number_of(answer: u64) -> usize {
    if answer & REFUSED == 0 {
        0
    } else {
        (answer >> 32 & 0xff) as usize
    }
}

pub fn shown(answer: u64) -> String {
    if answer & REFUSED == 0 {
        format!("accepted, value {answer:#x}")
    } else {
        format!("refused {} at {} ({answer:#x})", answer >> 32 & 0xff, answer as u32)
    }
}

/// Bytes from the lowest upwards.
fn packed(bytes: &[u8]) -> u64 {
    bytes.iter().rev().fold(0, |value, &byte| value << 8 | byte as u64)
}

fn stand_number(stand: Stand) -> u8 {
    match stand {
        Stand::Moved => 0,
        Stand::Delivered => 1,
        Stand::Dropped => 2,
    }
}

/// The letter of a change of topology; a dash where there is none.
fn letter(kind: Option<char>) -> u8 {
    kind.unwrap_or('-') as u8
}

pub fn step_value(step: &Step) -> u64 {
    let packet = step.packet;
    packed(&[
        stand_number(step.stand),
        letter(step.kind),
        packet.place as u8,
        packet.destination as u8,
        packet.topology as u8,
    ])
}

pub fn run_value(run: &Run) -> u64 {
    packed(&[stand_number(run.stand), run.hops as u8, run.topology as u8, letter(run.kind)])
}

pub fn read_value(net: &Network) -> u64 {
    net.n as u64 | (net.m as u64) << 8 | (net.k as u64) << 24 | (net.wmax as u64) << 32
}
