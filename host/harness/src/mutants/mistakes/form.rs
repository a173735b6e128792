//! Mistakes in form.

use super::{flip_last, Mistake, Mutant};
use crate::model::form::*;
use crate::model::setup::owners_lawful;
use crate::model::sizes::{DIGEST_BYTES, MAX_REFERENCES, MAX_REQUESTS, PLACES, SITE_COUNTS, TABLE_BYTES};
use crate::model::table::{places, Row, Table};

/// For each condition a mutant without it.
pub fn conditions_left_out() -> Vec<Mutant> {
    let mutant = |left_out: &Condition<Table>| {
        let name = left_out.name;
        Mutant::with(format!("form without: {name}"), |mutant| mutant.form(name, |_| true))
    };
    DOCUMENT.iter().map(mutant).collect()
}

pub const MISTAKES: &[Mistake] = &[
    ("form: a longer buffer passes", |m| m.form(LENGTH, |table| table.length >= TABLE_BYTES)),
    ("form: a shorter buffer passes", |m| m.form(LENGTH, |table| table.length <= TABLE_BYTES)),
    ("form: every n from 1 to 16 passes", |m| m.form(SITE_COUNT, |table| (1..=16).contains(&table.sites))),
    ("form: n 19 passes", |m| m.form(SITE_COUNT, |table| table.sites == 19 || SITE_COUNTS.contains(&table.sites))),
    ("form: n 16 doesn't pass", |m| m.form(SITE_COUNT, |table| SITE_COUNTS[..5].contains(&table.sites))),
    ("form: an owner may be n", |m| m.form(OWNERS, |table| owners_lawful(table.sites + 1, &table.owners))),
    ("form: the last owner isn't looked at", |m| {
        m.form(OWNERS, |table| owners_lawful(table.sites, &table.owners[..table.owners.len() - 1]))
    }),
    ("form: the count may be 65", |m| m.form(COUNT, |table| table.count <= PLACES + 1)),
    ("form: the count must be below 64", |m| m.form(COUNT, |table| table.count < PLACES)),
    ("form: digests from the count on aren't looked at", |m| {
        m.form(REST_ZERO, |table| rest_zero(table, |row| row.digest = Default::default()))
    }),
    ("form: sites from the count on aren't looked at", |m| {
        m.form(REST_ZERO, |table| rest_zero(table, |row| row.site = 0))
    }),
    ("form: sequence numbers from the count on aren't looked at", |m| {
        m.form(REST_ZERO, |table| rest_zero(table, |row| row.sequence = 0))
    }),
    ("form: references from the count on aren't looked at", |m| {
        m.form(REST_ZERO, |table| rest_zero(table, |row| row.references = 0))
    }),
    ("form: requests from the count on aren't looked at", |m| {
        m.form(REST_ZERO, |table| rest_zero(table, |row| row.requests = Default::default()))
    }),
    ("form: marks from the count on aren't looked at", |m| {
        m.form(REST_ZERO, |table| rest_zero(table, |row| row.mark = 0))
    }),
    ("form: the entry at the count isn't looked at", |m| {
        m.form(REST_ZERO, |table| table.rest().iter().skip(1).all(|row| *row == Row::default()))
    }),
    ("form: only the entry at the count is looked at", |m| {
        m.form(REST_ZERO, |table| table.rest().iter().take(1).all(|row| *row == Row::default()))
    }),
    ("form: the last entry isn't looked at", |m| {
        m.form(REST_ZERO, |table| table.rest().iter().rev().skip(1).all(|row| *row == Row::default()))
    }),
    ("form: 17 references pass", |m| {
        m.form(FEW_REFERENCES, |table| every(table, |_, row| places(row.references).count() <= MAX_REFERENCES + 1))
    }),
    ("form: 16 references don't pass", |m| {
        m.form(FEW_REFERENCES, |table| every(table, |_, row| places(row.references).count() < MAX_REFERENCES))
    }),
    ("form: only neighbours' digests are compared", |m| {
        m.form(DIGESTS_DIFFER, |table| table.held().windows(2).all(|rows| rows[0].digest != rows[1].digest))
    }),
    ("form: the last byte of digests isn't compared", |m| {
        m.form(DIGESTS_DIFFER, |table| parts_differ(table, 0, DIGEST_BYTES - 1))
    }),
    ("form: the first byte of digests isn't compared", |m| {
        m.form(DIGESTS_DIFFER, |table| parts_differ(table, 1, DIGEST_BYTES))
    }),
    ("form: a zero digest doesn't pass", |m| {
        m.form(DIGESTS_DIFFER, |table| {
            parts_differ(table, 0, DIGEST_BYTES) && every(table, |_, row| row.digest != [0; DIGEST_BYTES])
        })
    }),
    ("form: two zero digests pass", |m| {
        m.form(DIGESTS_DIFFER, |table| {
            let others = table.held().iter().filter(|row| row.digest != [0; DIGEST_BYTES]).copied();
            all_differ(others.map(|row| row.digest.to_vec()).collect())
        })
    }),
    ("form: a site may be n", |m| m.form(SITES, |table| every(table, |_, row| row.site <= table.sites))),
    ("form: sites are compared with 16", |m| m.form(SITES, |table| every(table, |_, row| row.site < 16))),
    ("form: a place may refer to itself", |m| {
        m.form(LOWER, |table| every(table, |place, row| places(row.references).all(|other| other <= place)))
    }),
    ("form: a place may refer to all below the count", |m| {
        m.form(LOWER, |table| every(table, |_, row| places(row.references).all(|other| other < table.count)))
    }),
    ("form: a place may refer from the count on", |m| {
        m.form(LOWER, |table| {
            every(table, |place, row| places(row.references).all(|other| other < place || other >= table.count))
        })
    }),
    ("form: mark 2 passes", |m| m.form(MARKS, |table| every(table, |_, row| row.mark <= 2))),
    ("form: mark 255 passes", |m| m.form(MARKS, |table| every(table, |_, row| row.mark <= 1 || row.mark == 255))),
    ("form: one interpreted reference is enough", |m| {
        m.form(MARKS_CLOSED, |table| {
            every(table, |_, row| row.mark == 0 || row.references == 0 || some_marked(table, row))
        })
    }),
    ("form: only the lowest reference's mark is looked at", |m| {
        m.form(MARKS_CLOSED, |table| {
            every(table, |_, row| {
                row.mark == 0 || places(row.references).take(1).all(|place| table.rows[place].mark != 0)
            })
        })
    }),
    ("form: an uninterpreted place has uninterpreted references", |m| {
        m.form(MARKS_CLOSED, |table| every(table, |_, row| row.mark != 0 || !some_marked(table, row)))
    }),
    ("form: two parents pass", |m| {
        m.form(PARENT_RULE, |table| parents(table, |_, row, count| row.sequence == 0 || count >= 1))
    }),
    ("form: no parent passes", |m| {
        m.form(PARENT_RULE, |table| parents(table, |_, row, count| row.sequence == 0 || count <= 1))
    }),
    ("form: a sequence number of low byte 0 needs no parent", |m| {
        m.form(PARENT_RULE, |table| parents(table, |_, row, count| row.sequence % 256 == 0 || count == 1))
    }),
    ("form: sequence 0 may not refer to its own site", |m| {
        m.form(PARENT_RULE, |table| {
            every(table, |_, row| parent_in_form(table, row) && (row.sequence != 0 || own(table, row) == 0))
        })
    }),
    ("form: no own block but the parent may be referred to", |m| {
        m.form(PARENT_RULE, |table| {
            every(table, |_, row| parent_in_form(table, row) && (row.sequence == 0 || own(table, row) <= 1))
        })
    }),
    ("form: any own block is a parent", |m| {
        m.form(PARENT_RULE, |table| parents(table, |table, row, _| row.sequence == 0 || own(table, row) >= 1))
    }),
    ("form: a parent may be another site's", |m| {
        m.form(PARENT_RULE, |table| {
            parents(table, |table, row, _| {
                let before = |place: usize| table.rows[place].sequence.checked_add(1) == Some(row.sequence);
                row.sequence == 0 || places(row.references).any(before)
            })
        })
    }),
    // Tables that have retired something
    ("form: the retired byte may be 2", |m| m.form(RETIRED, |table| table.retired <= 2)),
    ("form: the retired byte may be 255", |m| m.form(RETIRED, |table| table.retired <= 1 || table.retired == 255)),
    ("form: nothing may be retired", |m| m.form(RETIRED, |table| table.retired == 0)),
    ("form: something must be retired", |m| m.form(RETIRED, |table| table.retired == 1)),
    ("form: an empty table has retired nothing", |m| {
        m.form(RETIRED, |table| table.retired <= 1 && (table.retired == 0 || table.count > 0))
    }),
    ("form: a full table has retired nothing", |m| {
        m.form(RETIRED, |table| table.retired <= 1 && (table.retired == 0 || table.count < PLACES))
    }),
    ("form: where something was retired a parent is missing", |m| {
        m.form(RETIRED, |table| {
            let lacks = table.held().iter().any(|row| row.sequence != 0 && lacks_parent(table, row));
            table.retired == 0 || table.retired == 1 && lacks
        })
    }),
    ("form: a missing parent never passes", |m| m.form(PARENT_RULE, |table| lacking(table, |_, _, _| false))),
    ("form: a missing parent passes where nothing was retired", |m| {
        m.form(PARENT_RULE, |table| lacking(table, |_, _, row| row.mark == 1))
    }),
    ("form: a missing parent passes for a place that isn't interpreted", |m| {
        m.form(PARENT_RULE, |table| lacking(table, |table, _, _| table.retired == 1))
    }),
    ("form: a missing parent passes only for a place that isn't interpreted", |m| {
        m.form(PARENT_RULE, |table| lacking(table, |table, _, row| table.retired == 1 && row.mark == 0))
    }),
    ("form: a missing parent passes at place 0 alone", |m| {
        m.form(PARENT_RULE, |table| {
            lacking(table, |table, place, row| table.retired == 1 && row.mark == 1 && place == 0)
        })
    }),
    ("form: a missing parent passes only without references", |m| {
        m.form(PARENT_RULE, |table| {
            lacking(table, |table, _, row| table.retired == 1 && row.mark == 1 && row.references == 0)
        })
    }),
    ("form: a missing parent passes only where no own block is lower", |m| {
        m.form(PARENT_RULE, |table| {
            lacking(table, |table, place, row| {
                let own = table.rows[..place].iter().any(|lower| lower.site == row.site);
                table.retired == 1 && row.mark == 1 && !own
            })
        })
    }),
    ("form: two parents pass where something was retired", |m| {
        m.form(PARENT_RULE, |table| {
            parents(table, |table, row, count| {
                row.sequence == 0 || count == 1 || table.retired == 1 && row.mark == 1 && count == 2
            })
        })
    }),
    ("form: any number of parents passes where something was retired", |m| {
        m.form(PARENT_RULE, |table| {
            parents(table, |table, row, count| row.sequence == 0 || count == 1 || table.retired == 1)
        })
    }),
    ("form: forks don't pass", |m| {
        let differ = |table: &Table| {
            let names = table.held().iter().map(|row| [[row.site, 0], row.sequence.to_be_bytes()].concat());
            all_differ(names.collect())
        };
        m.model.form.push(Condition { name: "no forks", holds: differ });
    }),
    ("form: more requests than a block has don't pass", |m| {
        m.model.form.push(Condition {
            name: "few requests",
            holds: |table| every(table, |_, row| requested(row) <= MAX_REQUESTS),
        });
    }),
    ("form: a table of no places doesn't pass", |m| {
        m.model.form.push(Condition { name: "not empty", holds: |table| table.count > 0 });
    }),
    ("gt_in_form writes", |m| {
        m.after_form(|answer, table| {
            flip_last(table);
            answer
        })
    }),
];

/// How many slots a row has a request of.
fn requested(row: &Row) -> usize {
    row.requests.iter().filter(|&&number| number > 0).count()
}

/// Whether the rest is zero but for what is cleared.
fn rest_zero(table: &Table, clear: fn(&mut Row)) -> bool {
    table.rest().iter().all(|row| {
        let mut row = *row;
        clear(&mut row);
        row == Row::default()
    })
}

fn all_differ(items: Vec<Vec<u8>>) -> bool {
    (0..items.len()).all(|at| !items[..at].contains(&items[at]))
}

/// Whether the digests differ between these bytes.
fn parts_differ(table: &Table, from: usize, to: usize) -> bool {
    all_differ(table.held().iter().map(|row| row.digest[from..to].to_vec()).collect())
}

fn some_marked(table: &Table, row: &Row) -> bool {
    places(row.references).any(|place| table.rows[place].mark != 0)
}

/// Whether every row that doesn't lack its parent lawfully passes with the number of its parents.
fn parents(table: &Table, passes: fn(&Table, &Row, usize) -> bool) -> bool {
    every(table, |_, row| {
        let count = parent_count(table, row);
        row.sequence != 0 && lacks_parent(table, row) || passes(table, row, count)
    })
}

/// A block of sequence number 0 has none.
fn parent_count(table: &Table, row: &Row) -> usize {
    if row.sequence == 0 {
        0
    } else {
        table.parents(row.site, row.sequence, row.references)
    }
}

/// Whether every row keeps the parent rule, or lacks its parent and passes.
fn lacking(table: &Table, passes: fn(&Table, usize, &Row) -> bool) -> bool {
    every(table, |place, row| match parent_count(table, row) {
        0 => row.sequence == 0 || passes(table, place, row),
        count => count == 1,
    })
}

/// How many own blocks a row refers to.
fn own(table: &Table, row: &Row) -> usize {
    places(row.references).filter(|&place| table.rows[place].site == row.site).count()
}
