//! Arrivals: the bytes of a block and a verdict, from lawful ones to bytes that are no block at all.

use crate::drawing::draft::{self, bad_verdict, lawful, spoil, Draft};
use crate::drawing::random::Random;
use crate::model::sizes::{
    DIGEST_BYTES, HEADER_BYTES, MAX_BLOCK_BYTES, MAX_REFERENCES, MAX_REQUESTS, OUTCOMES_NUMBERS, REQUEST_BYTES,
};
use crate::model::table::Table;

/// A block's bytes, or others, and the link's verdict on them.
#[derive(Clone)]
pub struct Arrival {
    pub block: Vec<u8>,
    pub verdict: u8,
}

/// More than a block may have.
const MOST_RANDOM_BYTES: usize = 600;

/// An arrival that the table admits, unless it is full.
pub fn good(random: &Random, table: &Table) -> Arrival {
    arrival_of(lawful(random, table))
}

/// Any arrival. `earlier` are blocks that came before.
pub fn any(random: &Random, table: &Table, earlier: &[Vec<u8>]) -> Arrival {
    match random.below(16) {
        0..=4 => good(random, table),
        5..=10 => {
            let mut draft = lawful(random, table);
            spoil(random, table, &mut draft);
            arrival_of(draft)
        }
        11 => again(random, table, earlier),
        12 => {
            let mut again = again(random, table, earlier);
            damage(random, &mut again.block);
            again
        }
        13 => {
            let mut draft = lawful(random, table);
            if random.one_in(2) {
                spoil(random, table, &mut draft);
            }
            let mut arrival = arrival_of(draft);
            damage(random, &mut arrival.block);
            arrival
        }
        14 => Arrival { block: little_bytes(random), verdict: 1 },
        _ => {
            let length = random.between(0, MOST_RANDOM_BYTES);
            Arrival { block: random.bytes(length), verdict: 1 }
        }
    }
}

/// An arrival as long as a block may be.
pub fn longest(random: &Random, table: &Table) -> Arrival {
    arrival_of(draft::longest(random, table))
}

/// An arrival longer than a block may be, though it begins as one of the greatest length.
pub fn over_long(random: &Random, table: &Table) -> Arrival {
    let mut arrival = longest(random, table);
    let twice = 2 * MAX_BLOCK_BYTES;
    let any = random.between(MAX_BLOCK_BYTES + 1, 3 * MAX_BLOCK_BYTES);
    let length = random.pick(&[MAX_BLOCK_BYTES + 1, MAX_BLOCK_BYTES + 1, MAX_BLOCK_BYTES + 2, twice, twice + 1, any]);
    // Rarely as long as two bytes can say.
    let length = if random.one_in(16) { u16::MAX.into() } else { length };
    arrival.block.extend(random.bytes(length - MAX_BLOCK_BYTES));
    arrival
}

/// An arrival shorter than any block is.
pub fn short(random: &Random) -> Arrival {
    let length = random.below(HEADER_BYTES);
    Arrival { block: random.bytes(length), verdict: random.pick(&[1, 1, 0, random.byte()]) }
}

fn arrival_of(draft: Draft) -> Arrival {
    Arrival { block: draft.to_bytes(), verdict: draft.verdict }
}

/// A block that came before, if there is one.
fn again(random: &Random, table: &Table, earlier: &[Vec<u8>]) -> Arrival {
    let mut draft = lawful(random, table);
    if random.one_in(4) {
        bad_verdict(random, table, &mut draft);
    }
    let block = if earlier.is_empty() { draft.to_bytes() } else { earlier[random.below(earlier.len())].clone() };
    Arrival { block, verdict: draft.verdict }
}

/// Flips a bit, cuts, lengthens, or changes one of the two counts.
fn damage(random: &Random, block: &mut Vec<u8>) {
    match random.below(4) {
        0 => random.flip_bit(block),
        1 => {
            let most = random.pick(&[HEADER_BYTES, block.len()]);
            block.truncate(random.between(0, most));
        }
        2 => {
            let length = random.pick(&[1, REQUEST_BYTES, DIGEST_BYTES, random.between(1, 40)]);
            block.extend(random.bytes(length));
        }
        _ => {
            let at = random.pick(&[3, 4]);
            let most = random.pick(&[MAX_REFERENCES, MAX_REQUESTS]) as u8;
            let count = random.pick(&[0, 1, most, most + 1, 255, random.byte()]);
            if let Some(byte) = block.get_mut(at) {
                *byte = count;
            }
        }
    }
}

/// Two short lists of the right length with little in them, so that equal references, equal slots and bad requests
/// abound.
fn little_bytes(random: &Random) -> Vec<u8> {
    let (references, requests) = (random.between(0, 2), random.between(0, 3));
    let mut block = random.bytes(HEADER_BYTES);
    if random.one_in(2) {
        block[..3].fill(0);
    }
    block[3] = references as u8;
    block[4] = requests as u8;
    for _ in 0..references {
        block.extend([random.pick(&[0, 1]); DIGEST_BYTES]);
    }
    for _ in 0..REQUEST_BYTES * requests {
        block.push(random.pick(&[0, 1, 7, 8]));
    }
    block
}

/// How many numbers an arrival's outcomes have: mostly enough; sometimes just too few, or more.
pub fn some_room(random: &Random) -> usize {
    let few = [0, 1, OUTCOMES_NUMBERS / 2, OUTCOMES_NUMBERS - 2, OUTCOMES_NUMBERS - 1, OUTCOMES_NUMBERS - 1];
    let more = [OUTCOMES_NUMBERS + 1, OUTCOMES_NUMBERS + 2, random.between(OUTCOMES_NUMBERS, 3 * OUTCOMES_NUMBERS)];
    if random.one_in(16) {
        random.pick(&few)
    } else {
        random.pick(&[OUTCOMES_NUMBERS, OUTCOMES_NUMBERS, random.pick(&more)])
    }
}
