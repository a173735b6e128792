//! Listings: of whole streams, of damaged ones, and of bytes that are no stream.

use super::setups::some_setup;
use crate::comparing::compare::Compare;
use crate::comparing::difference::Difference;
use crate::drawing::cuts::{bytes_after, cut_in};
use crate::drawing::random::Random;
use crate::drawing::streams::Stream;
use crate::model::listing::{BEFORE_BLOCK, LENGTH_BYTES, SETUP_BYTES};
use crate::model::sizes::MAX_BLOCK_BYTES;
use crate::model::Model;

pub fn run(random: &Random, compare: &mut Compare) -> Result<(), Difference> {
    let input = some_input(random, compare.model);
    compare.listing(&input)
}

fn some_input(random: &Random, model: &Model) -> Vec<u8> {
    if random.one_in(12) {
        return no_stream(random);
    }
    let stream = Stream::drawn(random, model);
    if random.one_in(2) {
        stream.to_bytes()
    } else {
        damaged(random, stream)
    }
}

const MOST_RANDOM_BYTES: usize = 400;

/// Nothing, a part of a setup, any bytes, or bytes after a setup.
fn no_stream(random: &Random) -> Vec<u8> {
    let length = random.between(0, MOST_RANDOM_BYTES);
    match random.below(5) {
        0 => Vec::new(),
        1 => setup_bytes(random).into_iter().take(random.below(SETUP_BYTES)).collect(),
        2 => random.bytes(length),
        3 => [setup_bytes(random), random.bytes(length)].concat(),
        // Of such bytes most arrivals are short.
        _ => {
            let little = (0..length).map(|_| random.pick(&[0, 0, 0, 1, 4, 5]));
            setup_bytes(random).into_iter().chain(little).collect()
        }
    }
}

/// A setup that may be short, long or unlawful.
fn setup_bytes(random: &Random) -> Vec<u8> {
    let (sites, owners) = some_setup(random);
    [vec![sites], owners].concat()
}

// ---- Damage

/// A stream with one thing wrong.
fn damaged(random: &Random, mut stream: Stream) -> Vec<u8> {
    if random.one_in(3) {
        let mut bytes = stream.to_bytes();
        random.pick(&ANYWHERE)(random, &mut bytes);
        return bytes;
    }
    if random.one_in(6) {
        stream.setup = setup_bytes(random);
    } else {
        damage_arrival(random, &mut stream.arrivals);
    }
    stream.to_bytes()
}

type Damage = fn(&Random, &mut Vec<u8>);

/// Where the parts of a stream begin doesn't matter to these.
const ANYWHERE: [Damage; 4] = [cut, insert, remove, |random, bytes| random.flip_bit(bytes)];

/// Often in the setup.
fn cut(random: &Random, bytes: &mut Vec<u8>) {
    let most = random.pick(&[SETUP_BYTES, bytes.len()]);
    bytes.truncate(random.between(0, most));
}

const MOST_OTHER_BYTES: usize = 4;

fn insert(random: &Random, bytes: &mut Vec<u8>) {
    let at = random.between(0, bytes.len());
    let length = random.between(1, MOST_OTHER_BYTES);
    bytes.splice(at..at, random.bytes(length));
}

fn remove(random: &Random, bytes: &mut Vec<u8>) {
    let at = random.between(0, bytes.len());
    let end = bytes.len().min(at + random.between(1, MOST_OTHER_BYTES));
    bytes.drain(at..end);
}

/// Damages one arrival in what stands before its block, or at its end.
fn damage_arrival(random: &Random, arrivals: &mut Vec<Vec<u8>>) {
    if arrivals.is_empty() {
        return;
    }
    // The last one often: nothing that follows makes good what it lacks.
    let at = random.pick(&[arrivals.len() - 1, random.below(arrivals.len())]);
    match random.below(5) {
        0 | 1 => cut_in(random, arrivals, at, &[1, LENGTH_BYTES, BEFORE_BLOCK]),
        2 => random.flip_bit(&mut arrivals[at][..BEFORE_BLOCK]),
        _ => {
            let after = bytes_after(arrivals, at);
            other_length(random, &mut arrivals[at], after);
        }
    }
}

/// Another length before the same block. `after` is how many bytes follow the arrival.
fn other_length(random: &Random, arrival: &mut [u8], after: usize) {
    let (length, block) = arrival.split_first_chunk_mut::<LENGTH_BYTES>().expect("a length");
    let right = u16::from_be_bytes(*length);
    // To the input's end, and one byte beyond.
    let left = u16::try_from(block.len() - 1 + after).unwrap_or(u16::MAX);
    let most = MAX_BLOCK_BYTES as u16;
    let near = [right.wrapping_sub(1), right.wrapping_add(1), left, left.saturating_add(1)];
    let far = [0, most, most + 1, right.swap_bytes(), u16::MAX];
    *length = random.pick(&[random.pick(&near), random.pick(&near), random.pick(&far)]).to_be_bytes();
}
