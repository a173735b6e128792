//! Setups, lawful and not, for a table of the right length or another.

use crate::comparing::compare::Compare;
use crate::comparing::difference::Difference;
use crate::drawing::random::Random;
use crate::model::sizes::{SITE_COUNTS, SLOTS, TABLE_BYTES};

const SETUPS_A_CASE: usize = 8;

pub fn run(random: &Random, compare: &mut Compare) -> Result<(), Difference> {
    for _ in 0..SETUPS_A_CASE {
        let (sites, owners) = some_setup(random);
        let any = random.between(0, TABLE_BYTES + 100);
        let length = random.pick(&[TABLE_BYTES, TABLE_BYTES, TABLE_BYTES, TABLE_BYTES - 1, TABLE_BYTES + 1, 0, any]);
        let mut table = random.bytes(length);
        compare.fresh(sites, &owners, &mut table)?;
        compare.in_form(&table)?;
    }
    Ok(())
}

/// A site count and owners.
pub fn some_setup(random: &Random) -> (u8, Vec<u8>) {
    let sites = if random.one_in(3) { random.pick(&[0, 2, 3, 19, random.byte()]) } else { random.pick(&SITE_COUNTS) };
    (sites, some_owners(random, sites))
}

/// Mostly eight, mostly below n.
fn some_owners(random: &Random, sites: u8) -> Vec<u8> {
    let length = if random.one_in(4) { random.between(0, SLOTS + 2) } else { SLOTS };
    let mut owners: Vec<u8> = (0..length).map(|_| random.below(sites.max(1).into()) as u8).collect();
    if length > 0 && random.one_in(3) {
        let slot = random.below(length);
        owners[slot] = random.pick(&[sites, sites.saturating_add(1), 255, random.byte()]);
    }
    owners
}
