//! Document 02, "Take back the last block": what a taking back is refused by, the table that it leaves, and which
//! blocks count after it.

use crate::model::checks::Check;
use crate::model::table::{Row, Table};

/// What a taking back is given, with the answer of form.
pub struct TakingBackInput {
    pub table: Table,
    pub in_form: bool,
}

/// The rules. Each is a value, so that the self-test can change one.
pub struct TakingBack {
    pub checks: Vec<Check<TakingBackInput>>,
    /// What is left of the row at the last place.
    pub row: fn(Row) -> Row,
    /// The table that is left of one.
    pub table: fn(&TakingBack, &Table) -> Table,
    /// What one in a list does to the records, by the place that was taken back: nothing, since it isn't lent them.
    pub records: fn(&mut [u16], usize),
    /// Whether a block counts for the statement about two sites, by how often a site admitted it and how many of these
    /// admissions it took back.
    pub counts: fn(usize, usize) -> bool,
}

/// "in that order after 2"
pub const CHECKS: [Check<TakingBackInput>; 3] = [
    Check { number: 2, finds: |input| (!input.in_form).then_some(0) },
    Check { number: 32, finds: |input| (input.table.count == 0).then_some(0) },
    Check { number: 33, finds: |input| last_interpreted(&input.table).then_some(0) },
];

/// "the last place is interpreted"
pub fn last_interpreted(table: &Table) -> bool {
    table.held().last().is_some_and(|row| row.mark == 1)
}

/// "a block counts only if some admission of it .. was not taken back"
pub fn counts(admitted: usize, taken_back: usize) -> bool {
    admitted > taken_back
}

impl TakingBack {
    pub fn document() -> TakingBack {
        let (row, table) = (|_| Row::default(), TakingBack::without_last);
        TakingBack { checks: CHECKS.to_vec(), row, table, records: |_, _| {}, counts }
    }

    /// "the table without it, all fields"
    pub fn without_last(&self, table: &Table) -> Table {
        // Only a model without check 32 comes here with no place, and one without check 2 with more than a table has.
        let mut left = Table { count: table.count.saturating_sub(1), ..table.clone() };
        if let Some(last) = left.rows.get_mut(left.count) {
            *last = (self.row)(*last);
        }
        left
    }
}
