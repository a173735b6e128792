//! Replays of short lists, whole and damaged, on any tables and records.

use crate::comparing::buffers::{Buffers, Sides};
use crate::comparing::compare::Compare;
use crate::comparing::difference::Difference;
use crate::drawing::arrivals::{any, good};
use crate::drawing::cuts::{bytes_after, cut_in};
use crate::drawing::random::Random;
use crate::drawing::record_contents;
use crate::drawing::table_damage::damaged;
use crate::drawing::tables;
use crate::drawing::target_places::some_target;
use crate::model::replay::{admission, interpretation, retiring, taking_back, BEFORE_BLOCK, WIDE_BYTES};
use crate::model::table::Table;

const MOST_CALLS: usize = 5;
const DAMAGES_A_LIST: usize = 6;
/// Lists that are no longer are cut at every place.
const SHORT_LIST_BYTES: usize = 100;

pub fn run(random: &Random, compare: &mut Compare) -> Result<(), Difference> {
    let table = some_table(random);
    let length = record_contents::some_length(random);
    let bytes = if random.one_in(6) { damaged(random, &table) } else { table.to_bytes() };
    let buffers = Buffers::new(bytes, record_contents::records(random, length));
    let calls = some_calls(random, &table);
    let whole = calls.concat();
    replay(random, compare, &buffers, &whole)?;
    for _ in 0..DAMAGES_A_LIST {
        replay(random, compare, &buffers, &damaged_list(random, &calls))?;
    }
    if whole.len() <= SHORT_LIST_BYTES && random.one_in(4) {
        for cut in 0..whole.len() {
            replay(random, compare, &buffers, &whole[..cut])?;
        }
    }
    Ok(())
}

/// Often an empty one, whose arrivals are short.
fn some_table(random: &Random) -> Table {
    if random.one_in(2) {
        tables::empty(random)
    } else {
        tables::in_form(random)
    }
}

/// Replays a list from the table and records given, which stay as they are.
fn replay(random: &Random, compare: &mut Compare, buffers: &Buffers, calls: &[u8]) -> Result<(), Difference> {
    let length = random.between(0, 2 * MOST_CALLS + 2);
    let answers: Vec<u64> = (0..length).map(|_| random.set()).collect();
    compare.replay(&mut Sides::new(buffers.clone()), calls, &answers)?;
    Ok(())
}

// ---- Lists

/// The calls, each in its own bytes.
fn some_calls(random: &Random, table: &Table) -> Vec<Vec<u8>> {
    let mut calls = Vec::new();
    let mut held = table.clone();
    let mut earlier = Vec::new();
    for _ in 0..random.between(1, MOST_CALLS) {
        match random.below(16) {
            0..=3 => calls.push(retiring()),
            4..=6 => calls.push(taking_back()),
            7..=11 => {
                let arrival = if random.one_in(3) { any(random, table, &earlier) } else { good(random, table) };
                calls.push(admission(arrival.verdict, &arrival.block));
                earlier.push(arrival.block);
                // As if it were admitted: so that its place is asked for.
                held.count = (held.count + 1).min(held.rows.len());
            }
            _ => calls.push(interpretation(some_target(random, &held))),
        }
    }
    calls
}

/// A list with one thing wrong.
fn damaged_list(random: &Random, calls: &[Vec<u8>]) -> Vec<u8> {
    let mut calls = calls.to_vec();
    let at = random.below(calls.len());
    let after = bytes_after(&calls, at);
    match random.below(6) {
        // Cut anywhere.
        0 => {
            let whole = calls.concat();
            return whole[..random.below(whole.len())].to_vec();
        }
        // Cut in a call's fixed part, or right before its end.
        1 => cut_in(random, &mut calls, at, &[1, 2, WIDE_BYTES, WIDE_BYTES + 1, BEFORE_BLOCK]),
        // Not a call, or another one.
        2 => calls[at][0] = random.pick(&[2, 3, 4, 4, 5, 128, 255, random.byte()]),
        // The one call taken for the other.
        3 => calls[at][0] ^= 1,
        4 if calls[at].len() > WIDE_BYTES => other_length(random, &mut calls[at], after),
        // Other bytes before a call.
        _ => {
            let length = random.between(1, 12);
            calls.insert(at, random.bytes(length));
        }
    }
    calls.concat()
}

/// Another block length; an interpretation gets another place by it. `after` is how many bytes follow the call.
fn other_length(random: &Random, call: &mut [u8], after: usize) {
    let at = if call[0] == 0 { 2 } else { 1 };
    let field: &mut [u8; WIDE_BYTES] = (&mut call[at..at + WIDE_BYTES]).try_into().expect("eight bytes");
    let length = u64::from_le_bytes(*field);
    let after = after as u64;
    let more = [1, after, after + 1, after + 2].map(|bytes| length.wrapping_add(bytes));
    // Sums with these go round, and their low bits are those of the right length.
    let huge =
        [u64::MAX, u64::MAX - 9, u64::MAX - 10, 1 << 63, length | 1 << 32, length | 1 << 63, length.swap_bytes()];
    *field = random.pick(&[length.wrapping_sub(1), random.pick(&more), random.pick(&huge), random.set()]).to_le_bytes();
}
