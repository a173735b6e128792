//! Mistakes in taking back: in its checks and their order, in the table that it leaves, in what is answered, and in
//! which blocks count after it.

use super::{flip_last, value_beside, Mistake, Mutant};
use crate::model::form::{self, in_form};
use crate::model::record::part_of;
use crate::model::retiring;
use crate::model::sizes::{DIGEST_BYTES, PLACES, SLOTS, TABLE_BYTES};
use crate::model::table::{places, Row, Table, COUNT, RETIRED};
use crate::model::taking_back::{last_interpreted, TakingBack, TakingBackInput, CHECKS};

/// Each check left out; another value beside each refusal, and something written by it.
pub fn checks_exchanged() -> Vec<Mutant> {
    let mut mutants = Vec::new();
    for check in &CHECKS {
        let number = check.number;
        mutants.push(Mutant::with(format!("taking back without check {number}"), |m| m.taking_back(number, |_| None)));
        mutants.push(Mutant::with(format!("taking back: a value one more beside {number}"), |m| {
            m.after_taking_back(move |answer, _| value_beside(number, answer, answer.value + 1));
        }));
        mutants.push(Mutant::with(format!("taking back: {number} writes the table's last byte"), |m| {
            m.after_refused_taking_back(number, flip_last);
        }));
        mutants.push(Mutant::with(format!("taking back: {number} clears that something was retired"), |m| {
            m.after_refused_taking_back(number, |table| {
                if let Some(retired) = table.get_mut(RETIRED) {
                    *retired = 0;
                }
            });
        }));
    }
    mutants
}

impl Mutant {
    /// Does something to the table after a refusal of this number.
    fn after_refused_taking_back(&mut self, refusal: u8, change: fn(&mut [u8])) {
        self.after_taking_back(move |answer, table| {
            if answer.refusal == refusal {
                change(table);
            }
            answer
        });
    }
}

pub const AT_COUNT: &str = "taking back: 33 is looked for at the count";
pub const OF_FIRST: &str = "taking back: 33 where place 0 is interpreted";
pub const ALL_OPEN: &str = "taking back: 33 where any place is interpreted";
pub const ROW_STAYS: &str = "taking back: the row stays, the count alone changes";
pub const COUNT_STAYS: &str = "taking back: the row is zeroed, the count stays";
pub const REQUESTS_STAY: &str = "taking back: the requests stay";
pub const RETIRED_FORGOTTEN: &str = "taking back: that something was retired is forgotten";
pub const RETIRED_NOTED: &str = "taking back: it counts as a retiring";
pub const FIRST_TAKEN: &str = "taking back: place 0 leaves";
pub const TWO_TAKEN: &str = "taking back: two open places leave";
pub const PART_CLEARED: &str = "taking back: the part of the place is cleared in a list";
pub const STILL_COUNTS: &str = "taking back: a block that was taken back still counts";
pub const COUNTS_NO_MORE: &str = "taking back: a block that was ever taken back counts no more";

pub const MISTAKES: &[Mistake] = &[
    // Order and numbers. That 32 comes before 33 shows nowhere: a table without a block has no last place.
    ("taking back: 2 last", |m| m.model.taking_back.checks.rotate_left(1)),
    ("taking back: 32 before 2", |m| m.model.taking_back.checks.swap(0, 1)),
    ("taking back: 33 before 2", |m| m.model.taking_back.checks.rotate_right(1)),
    ("taking back: 32 and 33 exchanged", |m| {
        let checks = &mut m.model.taking_back.checks;
        (checks[1].number, checks[2].number) = (33, 32);
    }),
    ("taking back: 13 for no block", |m| m.model.taking_back.checks[1].number = 13),
    ("taking back: 14 for an interpreted place", |m| m.model.taking_back.checks[2].number = 14),
    // 2
    ("taking back: 2 only for another length", |m| {
        m.taking_back(2, |input| (input.table.length != TABLE_BYTES).then_some(0))
    }),
    ("taking back: only the places that stay need to be in form", |m| {
        m.taking_back(2, |TakingBackInput { table, .. }| {
            (!in_form(&form::DOCUMENT, &TakingBack::document().without_last(table))).then_some(0)
        })
    }),
    ("taking back: only the last place's mark needs to be in form", |m| {
        m.taking_back(2, |TakingBackInput { table, .. }| {
            let mark = table.held().last().map_or(0, |row| row.mark);
            (table.length != TABLE_BYTES || table.count > PLACES || mark > 1).then_some(0)
        })
    }),
    // 32
    ("taking back: 32 for a single block too", |m| m.taking_back(32, |input| (input.table.count <= 1).then_some(0))),
    ("taking back: 32 only where nothing was retired", |m| {
        m.taking_back(32, |TakingBackInput { table, .. }| (table.count == 0 && table.retired == 0).then_some(0))
    }),
    ("taking back: 32 for a full table too", |m| {
        m.taking_back(32, |TakingBackInput { table, .. }| (table.count == 0 || table.count == PLACES).then_some(0))
    }),
    // 33
    (OF_FIRST, |m| m.taking_back(33, |input| (input.table.rows[0].mark == 1).then_some(0))),
    (AT_COUNT, |m| {
        m.taking_back(33, |TakingBackInput { table, .. }| {
            table.rows.get(table.count).is_some_and(|row| row.mark == 1).then_some(0)
        })
    }),
    ("taking back: 33 where the place before the last is interpreted", |m| {
        m.taking_back(33, |TakingBackInput { table, .. }| {
            let before = table.held().iter().rev().nth(1);
            before.is_some_and(|row| row.mark == 1).then_some(0)
        })
    }),
    (ALL_OPEN, |m| {
        m.taking_back(33, |TakingBackInput { table, .. }| table.held().iter().any(|row| row.mark == 1).then_some(0))
    }),
    ("taking back: 33 only where every place is interpreted", |m| {
        m.taking_back(33, |TakingBackInput { table, .. }| table.held().iter().all(|row| row.mark == 1).then_some(0))
    }),
    ("taking back: 33 where the last place is not interpreted", |m| {
        m.taking_back(33, |TakingBackInput { table, .. }| (!last_interpreted(table)).then_some(0))
    }),
    ("taking back: 33 where the last place could be interpreted", |m| {
        m.taking_back(33, |TakingBackInput { table, .. }| {
            let open = |row: &Row| places(row.references).all(|lower| table.rows[lower].mark == 1);
            table.held().last().is_some_and(open).then_some(0)
        })
    }),
    ("taking back: 33 where the last place's site has an interpreted block", |m| {
        m.taking_back(33, |TakingBackInput { table, .. }| {
            let own = |site: u8| table.own(site).any(|place| table.rows[place].mark == 1);
            table.held().last().is_some_and(|row| own(row.site)).then_some(0)
        })
    }),
    ("taking back: 33 with the last place", |m| {
        m.taking_back(33, |TakingBackInput { table, .. }| last_interpreted(table).then(|| table.count - 1))
    }),
    ("taking back: in place of 33 the last open place leaves", |m| {
        m.taking_back(33, |TakingBackInput { table, .. }| table.held().iter().all(|row| row.mark == 1).then_some(0));
        m.model.taking_back.table = |_, table| {
            let mut left = table.clone();
            let open = table.held().iter().rposition(|row| row.mark == 0).unwrap_or(0);
            left.rows[open..].rotate_left(1);
            left.rows[PLACES - 1] = Row::default();
            left.count = table.count.saturating_sub(1);
            left
        };
    }),
    // The table
    (ROW_STAYS, |m| m.model.taking_back.row = |row| row),
    (COUNT_STAYS, |m| {
        m.model.taking_back.table = |rules, table| Table { count: table.count, ..rules.without_last(table) };
    }),
    ("taking back: the digest stays", |m| m.model.taking_back.row = |row| Row { digest: row.digest, ..Row::default() }),
    ("taking back: the digest's last byte stays", |m| {
        m.model.taking_back.row = |row| {
            let mut digest = [0; DIGEST_BYTES];
            digest[DIGEST_BYTES - 1] = row.digest[DIGEST_BYTES - 1];
            Row { digest, ..Row::default() }
        }
    }),
    ("taking back: the site stays", |m| m.model.taking_back.row = |row| Row { site: row.site, ..Row::default() }),
    ("taking back: the sequence number stays", |m| {
        m.model.taking_back.row = |row| Row { sequence: row.sequence, ..Row::default() }
    }),
    ("taking back: the sequence number's low byte stays", |m| {
        m.model.taking_back.row = |row| Row { sequence: row.sequence % 256, ..Row::default() }
    }),
    ("taking back: the references stay", |m| {
        m.model.taking_back.row = |row| Row { references: row.references, ..Row::default() }
    }),
    (REQUESTS_STAY, |m| m.model.taking_back.row = |row| Row { requests: row.requests, ..Row::default() }),
    ("taking back: the last request stays", |m| {
        m.model.taking_back.row = |row| {
            let mut requests = [0; SLOTS];
            requests[SLOTS - 1] = row.requests[SLOTS - 1];
            Row { requests, ..Row::default() }
        }
    }),
    ("taking back: the place is marked", |m| m.model.taking_back.row = |_| Row { mark: 1, ..Row::default() }),
    (RETIRED_FORGOTTEN, |m| {
        m.model.taking_back.table = |rules, table| Table { retired: 0, ..rules.without_last(table) };
    }),
    ("taking back: a table that holds nothing more has retired nothing", |m| {
        m.model.taking_back.table = |rules, table| {
            let left = rules.without_last(table);
            Table { retired: if left.count == 0 { 0 } else { left.retired }, ..left }
        };
    }),
    (RETIRED_NOTED, |m| {
        m.model.taking_back.table = |rules, table| Table { retired: 1, ..rules.without_last(table) };
    }),
    ("taking back: a table that holds nothing more is all zero", |m| {
        m.model.taking_back.table = |rules, table| match rules.without_last(table) {
            Table { count: 0, .. } => Table::empty(0, [0; SLOTS]),
            left => left,
        };
    }),
    (FIRST_TAKEN, |m| {
        m.model.taking_back.table = |_, table| {
            let mut left = table.clone();
            left.rows.rotate_left(1);
            left.rows.iter_mut().for_each(|row| row.references = retiring::references(row.references));
            left.rows[PLACES - 1] = Row::default();
            left.count = table.count.saturating_sub(1);
            left
        };
    }),
    ("taking back: the place after the last is zeroed", |m| {
        m.model.taking_back.table = |_, table| {
            let mut left = Table { count: table.count.saturating_sub(1), ..table.clone() };
            if let Some(row) = left.rows.get_mut(table.count) {
                *row = Row::default();
            }
            left
        };
    }),
    (TWO_TAKEN, |m| {
        m.model.taking_back.table = |rules, table| {
            let left = rules.without_last(table);
            if left.count == 0 || last_interpreted(&left) {
                left
            } else {
                rules.without_last(&left)
            }
        };
    }),
    ("taking back: all blocks that the last one's site has open leave, from the last on", |m| {
        m.model.taking_back.table = |rules, table| {
            let site = table.held().last().map(|row| row.site);
            let mut left = rules.without_last(table);
            while left.held().last().is_some_and(|row| Some(row.site) == site && row.mark == 0) {
                left = rules.without_last(&left);
            }
            left
        };
    }),
    ("taking back: what it refers to is unmarked", |m| {
        m.model.taking_back.table = |rules, table| {
            let mut left = rules.without_last(table);
            let references = table.held().last().map_or(0, |row| row.references);
            places(references).for_each(|lower| left.rows[lower].mark = 0);
            left
        };
    }),
    // What is answered
    ("taking back: the value is the place taken back", |m| {
        m.after_taking_back(|answer, table| value_beside(0, answer, table.get(COUNT).copied().unwrap_or(0).into()))
    }),
    ("taking back: the value is how many were held", |m| {
        m.after_taking_back(|answer, table| {
            value_beside(0, answer, usize::from(table.get(COUNT).copied().unwrap_or(0)) + 1)
        })
    }),
    // The records
    (PART_CLEARED, |m| {
        m.model.taking_back.records = |records, place| {
            if let Some(part) = part_of(place).and_then(|part| records.get_mut(part)) {
                part.fill(0);
            }
        }
    }),
];

/// Which blocks count. The library has no part in this: only the laws of two sites do.
pub const LEDGER_MISTAKES: &[Mistake] = &[
    (STILL_COUNTS, |m| m.model.taking_back.counts = |admitted, _| admitted > 0),
    (COUNTS_NO_MORE, |m| m.model.taking_back.counts = |_, taken_back| taken_back == 0),
];
