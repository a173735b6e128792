//! Random setups, and random tables in form, most of which no calls reach.

use crate::drawing::draft::{lineage, Lineage};
use crate::drawing::random::Random;
use crate::drawing::tables_with_retirings::aged;
use crate::model::sha256::Digest;
use crate::model::sizes::{DIGEST_BYTES, PLACES, SITE_COUNTS};
use crate::model::table::{places, Row, Table};

/// A lawful setup with no block held.
pub fn empty(random: &Random) -> Table {
    let sites = random.pick(&SITE_COUNTS);
    let owners = std::array::from_fn(|_| random.below(sites.into()) as u8);
    Table::empty(sites, owners)
}

/// A table in form, with 0 to 64 places. Full tables and nearly full ones come often, and so do such that have retired
/// something.
pub fn in_form(random: &Random) -> Table {
    let table = empty(random);
    sometimes_aged(random, grown(random, table, some_count(random)))
}

/// A table in form, which now and then becomes one that has retired something.
pub fn sometimes_aged(random: &Random, table: Table) -> Table {
    if random.one_in(3) {
        aged(random, table)
    } else {
        table
    }
}

/// A table in form with so many places, of the setup of an empty one.
pub fn grown(random: &Random, mut table: Table, count: usize) -> Table {
    let growth = Growth::drawn(random);
    while table.count < count {
        let lineage = lineage(random, &table);
        growth.add(random, &mut table, lineage);
    }
    table
}

pub fn some_count(random: &Random) -> usize {
    let any = random.between(0, PLACES);
    random.pick(&[PLACES, PLACES - 1, random.between(0, 3), any, any, any])
}

/// What the places of a table have besides their lineage.
pub struct Growth {
    zero_digest_at: usize,
    unmarked_one_in: usize,
}

impl Growth {
    pub fn drawn(random: &Random) -> Growth {
        let zero_digest_at = random.below(4 * PLACES);
        // Marks are many or few; a table with a mark wherever one may be shows more than one without.
        Growth { zero_digest_at, unmarked_one_in: random.pick(&[1, 2, 8, 64]) }
    }

    /// Adds a place, for which there is room.
    pub fn add(&self, random: &Random, table: &mut Table, (site, sequence, references): Lineage) {
        let markable = places(references).all(|place| table.rows[place].mark == 1);
        let digest = if table.count == self.zero_digest_at { [0; DIGEST_BYTES] } else { new_digest(random, table) };
        let requests = std::array::from_fn(|_| random.pick(&[0, 1, random.number()]));
        let mark = u8::from(markable && !random.one_in(self.unmarked_one_in));
        table.rows[table.count] = Row { digest, site, sequence, references, requests, mark };
        table.count += 1;
    }
}

/// A digest that isn't held; sometimes only one bit makes it so.
fn new_digest(random: &Random, table: &Table) -> Digest {
    loop {
        let mut digest = random.array();
        if table.count > 0 && random.one_in(4) {
            digest = random.near(random.pick(table.held()).digest);
        }
        // The zero digest has a place of its own, if any.
        if digest != [0; DIGEST_BYTES] && table.place_of(&digest).is_none() {
            return digest;
        }
    }
}
