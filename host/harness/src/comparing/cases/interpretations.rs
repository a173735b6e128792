//! Single interpretations, on tables and records that mostly no calls reach.

use crate::comparing::buffers::{Buffers, Sides};
use crate::comparing::compare::Compare;
use crate::comparing::difference::Difference;
use crate::drawing::random::Random;
use crate::drawing::record_contents;
use crate::drawing::table_damage::damaged;
use crate::drawing::tables;
use crate::drawing::target_places::{open, some_target};
use crate::model::table::Table;

const CALLS_A_CASE: usize = 4;

pub fn run(random: &Random, compare: &mut Compare) -> Result<(), Difference> {
    let table = random_table(random);
    let length = record_contents::some_length(random);
    let records = if random.one_in(8) {
        record_contents::any_numbers(random, length)
    } else {
        record_contents::records(random, length)
    };
    let mut sides = Sides::new(Buffers::new(table, records));
    for _ in 0..CALLS_A_CASE {
        let held = Table::from_bytes(&sides.expected.table);
        compare.interpret(&mut sides, some_target(random, &held))?;
    }
    Ok(())
}

/// Mostly one in form, and mostly with a place that can be interpreted though it has references.
fn random_table(random: &Random) -> Vec<u8> {
    let mut table = tables::in_form(random);
    if table.count > 0 && !random.one_in(4) {
        let place = random.pick(&[table.count - 1, random.below(table.count)]);
        open(&mut table, place);
    }
    if random.one_in(4) {
        damaged(random, &table)
    } else {
        table.to_bytes()
    }
}
