//! Document 01, "The table", with what document 02 says of tables that have retired something: whether a table is in form,
//! as a list of named conditions.

use crate::model::setup::{owners_lawful, site_count_lawful};
use crate::model::sizes::{MAX_REFERENCES, PLACES, TABLE_BYTES};
use crate::model::table::{places, Row, Table};

/// One condition of a table's form, or of a shelf's.
pub struct Condition<Of> {
    pub name: &'static str,
    pub holds: fn(&Of) -> bool,
}

impl<Of> Clone for Condition<Of> {
    fn clone(&self) -> Self {
        Condition { name: self.name, holds: self.holds }
    }
}

/// All conditions must hold.
pub fn in_form<Of>(conditions: &[Condition<Of>], of: &Of) -> bool {
    conditions.iter().all(|condition| (condition.holds)(of))
}

pub const LENGTH: &str = "the buffer has a table's length";
pub const SITE_COUNT: &str = "the site count is lawful";
pub const OWNERS: &str = "owners are below n";
pub const RETIRED: &str = "whether something was retired is 0 or 1";
pub const COUNT: &str = "the count is up to 64";
pub const REST_ZERO: &str = "entries from the count on are zero";
pub const FEW_REFERENCES: &str = "at most 16 references a place";
pub const DIGESTS_DIFFER: &str = "digests are all different";
pub const SITES: &str = "sites are below n";
pub const LOWER: &str = "references are to lower places only";
pub const MARKS: &str = "a mark is 0 or 1";
pub const MARKS_CLOSED: &str = "an interpreted place has all its references interpreted";
pub const PARENT_RULE: &str = "the parent rule holds";

pub const DOCUMENT: [Condition<Table>; 13] = [
    Condition { name: LENGTH, holds: |table| table.length == TABLE_BYTES },
    Condition { name: SITE_COUNT, holds: |table| site_count_lawful(table.sites) },
    Condition { name: OWNERS, holds: |table| owners_lawful(table.sites, &table.owners) },
    Condition { name: RETIRED, holds: |table| table.retired <= 1 },
    Condition { name: COUNT, holds: |table| table.count <= PLACES },
    Condition { name: REST_ZERO, holds: |table| table.rest().iter().all(|row| *row == Row::default()) },
    Condition {
        name: FEW_REFERENCES,
        holds: |table| every(table, |_, row| places(row.references).count() <= MAX_REFERENCES),
    },
    Condition {
        name: DIGESTS_DIFFER,
        holds: |table| every(table, |place, row| !holds_digest(&table.rows[..place], row)),
    },
    Condition { name: SITES, holds: |table| every(table, |_, row| row.site < table.sites) },
    Condition {
        name: LOWER,
        holds: |table| every(table, |place, row| places(row.references).all(|lower| lower < place)),
    },
    Condition { name: MARKS, holds: |table| every(table, |_, row| row.mark <= 1) },
    Condition {
        name: MARKS_CLOSED,
        holds: |table| every(table, |_, row| row.mark == 0 || references_marked(table, row)),
    },
    Condition { name: PARENT_RULE, holds: |table| every(table, |_, row| parent_in_form(table, row)) },
];

/// The parent rule, or what stands in its place.
pub fn parent_in_form(table: &Table, row: &Row) -> bool {
    table.parent_rule(row.site, row.sequence, row.references) || lacks_parent(table, row)
}

/// "form allows a missing parent for interpreted places of such a table": no parent, not two. The sequence number isn't 0.
pub fn lacks_parent(table: &Table, row: &Row) -> bool {
    table.retired == 1 && row.mark == 1 && table.parents(row.site, row.sequence, row.references) == 0
}

/// Whether every place below the count, with its row, passes.
pub fn every(table: &Table, passes: impl Fn(usize, &Row) -> bool) -> bool {
    let mut held = table.held().iter().enumerate();
    held.all(|(place, row)| passes(place, row))
}

fn holds_digest(rows: &[Row], row: &Row) -> bool {
    rows.iter().any(|other| other.digest == row.digest)
}

fn references_marked(table: &Table, row: &Row) -> bool {
    places(row.references).all(|place| table.rows[place].mark != 0)
}
