//! Document 02, "Campaigns longer than 64 blocks": what a retiring is refused by, and the table and the records that it
//! leaves.

use crate::model::checks::Check;
use crate::model::record::part_of;
use crate::model::sizes::{BUFFER_NUMBERS, PLACES};
use crate::model::table::{Row, Table};

/// What retiring is given, with the answer of form.
pub struct RetiringInput {
    pub table: Table,
    pub in_form: bool,
    /// How many numbers the record buffer has.
    pub numbers: usize,
}

/// The rules. Each is a value, so that the self-test can change one.
pub struct Retiring {
    pub checks: Vec<Check<RetiringInput>>,
    /// The set of the places that a block refers to, after all have moved.
    pub references: fn(u64) -> u64,
    /// Whether the table has retired something, by what it had before.
    pub retired: fn(u8) -> u8,
    /// The table that is left of one.
    pub table: fn(&Retiring, &Table) -> Table,
    /// Moves the records for the table that is left.
    pub records: fn(&mut [u16], &Table),
}

/// "after 2, 12 and 13"
pub const CHECKS: [Check<RetiringInput>; 4] = [
    Check { number: 2, finds: |input| (!input.in_form).then_some(0) },
    Check { number: 12, finds: |input| (input.numbers != BUFFER_NUMBERS).then_some(0) },
    Check { number: 13, finds: |input| (input.table.count == 0).then_some(0) },
    Check { number: 29, finds: |input| (!may_be_retired(&input.table)).then_some(0) },
];

pub fn may_be_retired(table: &Table) -> bool {
    interpreted(table) && all_referring_interpreted(table) && followed(table)
}

/// "if it is interpreted"
pub fn interpreted(table: &Table) -> bool {
    table.rows[0].mark == 1
}

/// "every held block referring to it is interpreted"
pub fn all_referring_interpreted(table: &Table) -> bool {
    table.held().iter().all(|row| row.references & 1 == 0 || row.mark == 1)
}

/// "its site has a held, interpreted block of greater sequence number"
pub fn followed(table: &Table) -> bool {
    let first = table.rows[0];
    table.held().iter().any(|row| row.site == first.site && row.mark == 1 && row.sequence > first.sequence)
}

/// "move every other place .. down by one": place i + 1 becomes place i, and "references to it vanish from the sets".
pub fn references(set: u64) -> u64 {
    set >> 1
}

/// "move every other .. record down by one; the buffer from the new count on stays"
pub fn records(records: &mut [u16], left: &Table) {
    (0..left.count).for_each(|place| move_part(records, place));
}

/// The part of the place after it becomes a place's.
pub fn move_part(records: &mut [u16], place: usize) {
    let (to, from) = (part_of(place).expect("a place"), part_of(place + 1).expect("a place"));
    // Only a model without check 2 or 12 comes here with a buffer that hasn't got the parts.
    if from.end <= records.len() {
        records.copy_within(from, to.start);
    }
}

impl Retiring {
    pub fn document() -> Retiring {
        Retiring { checks: CHECKS.to_vec(), references, retired: |_| 1, table: Retiring::without_first, records }
    }

    /// The table without its first place. One that passes all checks has a place.
    pub fn without_first(&self, table: &Table) -> Table {
        let mut left = Table { count: table.count.saturating_sub(1), ..table.clone() };
        left.retired = (self.retired)(table.retired);
        for place in 0..PLACES {
            let row = table.rows.get(place + 1).filter(|_| place < left.count);
            left.rows[place] =
                row.map_or(Row::default(), |row| Row { references: (self.references)(row.references), ..*row });
        }
        left
    }
}
