//! Two tables and the lengths of three record buffers, of which a join refuses one or several, or none.

use crate::drawing::clashes::{other_block, other_setup};
use crate::drawing::random::Random;
use crate::drawing::record_contents::some_length;
use crate::drawing::table_damage::damaged;
use crate::drawing::tables_with_retirings::lose_parent;
use crate::model::sizes::{BUFFER_NUMBERS, TABLE_BYTES};
use crate::model::table::Table;

/// The tables and buffer lengths of a join that mostly is refused.
pub struct FaultyJoin {
    /// The left's bytes and the right's.
    pub tables: [Vec<u8>; 2],
    /// How many numbers the left's, the right's and the third record buffer have.
    pub lengths: [usize; 3],
}

impl FaultyJoin {
    pub fn drawn(random: &Random, tables: &[Table; 2]) -> FaultyJoin {
        // Often one thing, and often two, so that the order of checks shows.
        let one_in = random.pick(&[1, 2, 3, 6, 1000]);
        let mut tables = tables.clone();
        if random.one_in(one_in) {
            clash(random, &mut tables);
        }
        if random.one_in(2 * one_in) {
            let side = random.below(2);
            tables[side] = other_setup(random, &tables[side]);
        }
        if random.one_in(2 * one_in) {
            let [left, right] = random.pick(&[[true, false], [false, true], [true, true]]);
            let sides = tables.iter_mut().zip([left, right]).filter(|(_, retires)| *retires);
            sides.for_each(|(table, _)| retire(random, table));
        }
        let mut bytes = tables.each_ref().map(Table::to_bytes);
        if random.one_in(2 * one_in) {
            let side = random.below(2);
            bytes[side] =
                if random.one_in(3) { one_off(random, &tables[side]) } else { damaged(random, &tables[side]) };
        }
        let mut lengths = [BUFFER_NUMBERS; 3];
        if random.one_in(2 * one_in) {
            let near = random.pick(&[BUFFER_NUMBERS - 1, BUFFER_NUMBERS + 1]);
            lengths[random.below(3)] = random.pick(&[near, near, some_length(random)]);
            // All alike, now and then.
            if random.one_in(8) {
                lengths = [near; 3];
            }
        }
        FaultyJoin { tables: bytes, lengths }
    }
}

/// A block that both hold gets another field at one side; now and then several do.
fn clash(random: &Random, tables: &mut [Table; 2]) {
    for _ in 0..random.pick(&[1, 1, 1, 2, 4]) {
        let side = random.below(2);
        let [one, other] = [side, 1 - side].map(|side| &tables[side]);
        let both = (0..one.count).filter(|&place| other.place_of(&one.rows[place].digest).is_some());
        let both: Vec<usize> = both.collect();
        tables[side] = other_block(random, one, &both);
    }
}

/// The side has retired something, and now and then lacks a parent. Sometimes it is left with no block.
fn retire(random: &Random, table: &mut Table) {
    table.retired = 1;
    if random.one_in(4) {
        *table = Table { retired: 1, ..Table::empty(table.sites, table.owners) };
    } else if table.count > 0 && random.one_in(2) {
        lose_parent(table, random.below(table.count));
    }
}

/// A byte less than a table has, or one more.
fn one_off(random: &Random, table: &Table) -> Vec<u8> {
    let mut bytes = table.to_bytes();
    bytes.resize(random.pick(&[TABLE_BYTES - 1, TABLE_BYTES + 1]), 0);
    bytes
}
