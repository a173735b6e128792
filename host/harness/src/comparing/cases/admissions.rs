//! Arrivals for one table: reached from a fresh one, any in form, or damaged.

use crate::comparing::buffers::{Buffers, Sides};
use crate::comparing::compare::Compare;
use crate::comparing::difference::Difference;
use crate::comparing::laws::{self, AdmissionTakenBack};
use crate::drawing::arrivals::{any, good, Arrival};
use crate::drawing::random::Random;
use crate::drawing::table_damage::damaged;
use crate::drawing::tables;
use crate::model::sha256::sha256;
use crate::model::sizes::{DIGEST_BYTES, PLACES, TABLE_BYTES};
use crate::model::table::Table;

/// A table without records.
fn sides(table: Vec<u8>) -> Sides {
    Sides::new(Buffers::new(table, Vec::new()))
}

/// Reads the block, takes its digest and admits it; taken back, it leaves the table as it was.
fn arrive(random: &Random, compare: &mut Compare, sides: &mut Sides, arrival: &Arrival) -> Result<(), Difference> {
    compare.read_block(&arrival.block)?;
    let any = random.between(0, 2 * DIGEST_BYTES);
    let length = random.pick(&[DIGEST_BYTES, DIGEST_BYTES, DIGEST_BYTES - 1, DIGEST_BYTES + 1, 0, any]);
    compare.digest(&arrival.block, &random.bytes(length))?;
    let before = sides.expected.table.clone();
    match compare.admit(sides, &arrival.block, arrival.verdict)?.refusal {
        0 => laws::check_taking_back(&AdmissionTakenBack::of(compare, before, &sides.expected.table)?),
        _ => Ok(()),
    }
}

/// How many arrivals come to a table that is full.
const ARRIVALS_WHEN_FULL: usize = 8;
const MANY_ARRIVALS: usize = 120;
const FEW_ARRIVALS: usize = 20;

/// From a fresh table on, one arrival after the other; many fill the table.
pub fn arrivals(random: &Random, compare: &mut Compare) -> Result<(), Difference> {
    let setup = tables::empty(random);
    let mut table = random.bytes(TABLE_BYTES);
    compare.fresh(setup.sites, &setup.owners, &mut table)?;
    let mut sides = sides(table);
    let most = if random.one_in(8) { MANY_ARRIVALS } else { random.between(1, FEW_ARRIVALS) };
    let mut earlier = Vec::new();
    let mut when_full = 0;
    for _ in 0..most {
        let held = Table::from_bytes(&sides.expected.table);
        let arrival = if random.one_in(3) { any(random, &held, &earlier) } else { good(random, &held) };
        arrive(random, compare, &mut sides, &arrival)?;
        if random.one_in(4) {
            compare.in_form(&sides.expected.table)?;
        }
        earlier.push(arrival.block);
        when_full += usize::from(held.count == PLACES);
        if when_full == ARRIVALS_WHEN_FULL {
            break;
        }
    }
    Ok(())
}

const ARRIVALS_A_TABLE: usize = 6;

/// An arrival for the table, and often its digest held at a place: so a held digest meets every other cause.
/// Sometimes one bit of it is other, and it isn't held.
fn arrival_and_digest(random: &Random, table: &mut Table) -> Arrival {
    let arrival = any(random, table, &[]);
    let mut digest = sha256(&arrival.block);
    if random.one_in(6) {
        digest = random.near(digest);
    }
    if table.count > 0 && random.one_in(3) && table.place_of(&digest).is_none() {
        let place = random.below(table.count);
        table.rows[place].digest = digest;
    }
    arrival
}

/// Most of these tables no calls reach.
pub fn tables_in_form(random: &Random, compare: &mut Compare) -> Result<(), Difference> {
    let mut table = tables::in_form(random);
    for _ in 0..random.between(1, ARRIVALS_A_TABLE) {
        let arrival = arrival_and_digest(random, &mut table);
        let mut sides = sides(table.to_bytes());
        compare.in_form(&sides.expected.table)?;
        arrive(random, compare, &mut sides, &arrival)?;
        table = Table::from_bytes(&sides.expected.table);
    }
    Ok(())
}

const DAMAGES_A_TABLE: usize = 4;

/// Each damage is done to the table as it was, so that mostly one thing is wrong.
pub fn damaged_tables(random: &Random, compare: &mut Compare) -> Result<(), Difference> {
    let mut table = tables::in_form(random);
    for _ in 0..DAMAGES_A_TABLE {
        let arrival = arrival_and_digest(random, &mut table);
        let mut bytes = damaged(random, &table);
        // Now and then two things.
        if random.one_in(8) {
            random.flip_bit(&mut bytes);
        }
        compare.in_form(&bytes)?;
        arrive(random, compare, &mut sides(bytes), &arrival)?;
    }
    Ok(())
}
