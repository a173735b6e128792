//! Mistakes in retiring: in its checks and their order, in the table and the records that it leaves, in what is answered.

use super::{flip_last, neighbours_swapped, value_beside, Mistake, Mutant};
use crate::model::admission::put;
use crate::model::record::part_of;
use crate::model::retiring::{
    all_referring_interpreted, followed, interpreted, may_be_retired, move_part, records, references, RetiringInput,
    CHECKS,
};
use crate::model::sizes::{BUFFER_NUMBERS, PART_NUMBERS, PLACES};
use crate::model::table::{Row, Table, COUNT, RETIRED};

/// Each check left out, each two neighbours swapped; another value beside each refusal, and something written by it.
pub fn checks_exchanged() -> Vec<Mutant> {
    let mut mutants = Vec::new();
    for check in &CHECKS {
        let number = check.number;
        mutants.push(Mutant::with(format!("retiring without check {number}"), |m| m.retiring(number, |_| None)));
        mutants.push(Mutant::with(format!("retiring: a value one more beside {number}"), |m| {
            m.after_retiring(move |answer, _, _| value_beside(number, answer, answer.value + 1));
        }));
        mutants.push(Mutant::with(format!("retiring: {number} writes the table's last byte"), |m| {
            m.after_refused_retiring(number, |table, _| flip_last(table));
        }));
        mutants.push(Mutant::with(format!("retiring: {number} sets that something was retired"), |m| {
            m.after_refused_retiring(number, |table, _| {
                if let Some(retired) = table.get_mut(RETIRED) {
                    *retired = 1;
                }
            });
        }));
        mutants.push(Mutant::with(format!("retiring: {number} moves the records"), |m| {
            m.after_refused_retiring(number, |_, numbers| move_part(numbers, 0));
        }));
    }
    mutants.extend(neighbours_swapped("retiring", |model| &mut model.retiring.checks));
    mutants
}

impl Mutant {
    /// Does something to the buffers after a refusal of this number.
    fn after_refused_retiring(&mut self, refusal: u8, change: fn(&mut [u8], &mut [u16])) {
        self.after_retiring(move |answer, table, records| {
            if answer.refusal == refusal {
                change(table, records);
            }
            answer
        });
    }
}

pub const NOT_INTERPRETED: &str = "retiring: place 0 needn't be interpreted";
pub const REFERRING_OPEN: &str = "retiring: a block that refers to it needn't be interpreted";
pub const NOT_FOLLOWED: &str = "retiring: its site needs no later block";
pub const FOLLOWED_BY_OPEN: &str = "retiring: a later block needn't be interpreted";
pub const FOLLOWED_BY_TWIN: &str = "retiring: a block of the same number is enough";
pub const FOLLOWED_BY_ANYONE: &str = "retiring: a later block of any site is enough";
pub const ONLY_ONCE: &str = "retiring: only once";
pub const NOTHING_REFERS: &str = "retiring: nothing may refer to it";
pub const REFERENCES_STAY: &str = "retiring: references aren't moved";
pub const FIRST_KEPT: &str = "retiring: references to place 0 are kept";
pub const RECORDS_STAY: &str = "retiring: records aren't moved";
pub const PARTS_FROM_LAST: &str = "retiring: parts are moved from the last on";
pub const LAST_PART_CLEARED: &str = "retiring: the last part is cleared";
pub const NOT_NOTED: &str = "retiring: that something was retired isn't noted";
pub const MARKS_LOST: &str = "retiring: the marks of the others are lost";
pub const LAST_LEAVES: &str = "retiring: the last place leaves";
pub const RETURNED_MARKED: &str = "admission: where something was retired a block is marked at once";

pub const MISTAKES: &[Mistake] = &[
    // Order
    ("retiring: 2 last", |m| m.model.retiring.checks.rotate_left(1)),
    ("retiring: 29 first", |m| m.model.retiring.checks.rotate_right(1)),
    ("retiring: 29 before 12", |m| m.model.retiring.checks[1..].rotate_right(1)),
    ("retiring: 13 before 2", |m| m.model.retiring.checks[..3].rotate_right(1)),
    // 12 and 13
    ("retiring: longer records pass", |m| m.retiring(12, |input| (input.numbers < BUFFER_NUMBERS).then_some(0))),
    ("retiring: records that have the table's places pass", |m| {
        m.retiring(12, |input| (input.numbers < PART_NUMBERS * input.table.count).then_some(0))
    }),
    ("retiring: 12 only where something is interpreted", |m| {
        m.retiring(12, |input| {
            let interpreted = input.table.held().iter().any(|row| row.mark == 1);
            (interpreted && input.numbers != BUFFER_NUMBERS).then_some(0)
        })
    }),
    ("retiring: 13 for a single block too", |m| m.retiring(13, |input| (input.table.count <= 1).then_some(0))),
    ("retiring: 13 only where nothing was retired", |m| {
        m.retiring(13, |input| (input.table.count == 0 && input.table.retired == 0).then_some(0))
    }),
    ("retiring: only a full table retires", |m| {
        m.retiring(29, |input| kept(input.table.count == PLACES && may_be_retired(&input.table)))
    }),
    (ONLY_ONCE, |m| m.retiring(29, |input| kept(input.table.retired == 0 && may_be_retired(&input.table)))),
    // 29
    (NOT_INTERPRETED, |m| {
        m.retiring(29, |RetiringInput { table, .. }| kept(all_referring_interpreted(table) && followed(table)))
    }),
    (REFERRING_OPEN, |m| m.retiring(29, |RetiringInput { table, .. }| kept(interpreted(table) && followed(table)))),
    (NOT_FOLLOWED, |m| {
        m.retiring(29, |RetiringInput { table, .. }| kept(interpreted(table) && all_referring_interpreted(table)))
    }),
    ("retiring: every held block must be interpreted", |m| {
        m.retiring(29, |RetiringInput { table, .. }| {
            kept(may_be_retired(table) && table.held().iter().all(|row| row.mark == 1))
        })
    }),
    ("retiring: one interpreted block that refers to it is enough", |m| {
        m.retiring(29, |RetiringInput { table, .. }| {
            let mut referring = table.held().iter().filter(|row| row.references & 1 == 1).peekable();
            let some = referring.peek().is_none() || referring.any(|row| row.mark == 1);
            kept(interpreted(table) && some && followed(table))
        })
    }),
    ("retiring: the last place isn't looked at", |m| {
        m.retiring(29, |RetiringInput { table, .. }| {
            let fewer = Table { count: table.count - 1, ..table.clone() };
            kept(interpreted(table) && all_referring_interpreted(&fewer) && followed(table))
        })
    }),
    ("retiring: a later block at the last place isn't seen", |m| {
        m.retiring(29, |RetiringInput { table, .. }| {
            let fewer = Table { count: table.count - 1, ..table.clone() };
            kept(interpreted(table) && all_referring_interpreted(table) && followed(&fewer))
        })
    }),
    (NOTHING_REFERS, |m| {
        m.retiring(29, |RetiringInput { table, .. }| {
            kept(may_be_retired(table) && table.held().iter().all(|row| row.references & 1 == 0))
        })
    }),
    ("retiring: the next block of its site must refer to it", |m| {
        m.retiring(29, |RetiringInput { table, .. }| {
            let child = |row: &Row| row.references & 1 == 1 && later(table, row);
            kept(may_be_retired(table) && table.held().iter().any(child))
        })
    }),
    (FOLLOWED_BY_OPEN, |m| m.retiring(29, |RetiringInput { table, .. }| followed_otherwise(table, later))),
    (FOLLOWED_BY_TWIN, |m| {
        m.retiring(29, |RetiringInput { table, .. }| {
            followed_otherwise(table, |table, row| {
                let first = &table.rows[0];
                row.site == first.site && row.mark == 1 && row.sequence >= first.sequence && row.digest != first.digest
            })
        })
    }),
    (FOLLOWED_BY_ANYONE, |m| {
        m.retiring(29, |RetiringInput { table, .. }| {
            followed_otherwise(table, |table, row| row.mark == 1 && row.sequence > table.rows[0].sequence)
        })
    }),
    ("retiring: any other block of its site is enough", |m| {
        m.retiring(29, |RetiringInput { table, .. }| {
            followed_otherwise(table, |table, row| {
                let first = &table.rows[0];
                row.site == first.site && row.mark == 1 && row.digest != first.digest
            })
        })
    }),
    ("retiring: the next number must follow", |m| {
        m.retiring(29, |RetiringInput { table, .. }| {
            followed_otherwise(table, |table, row| {
                let first = &table.rows[0];
                row.site == first.site && row.mark == 1 && first.sequence.checked_add(1) == Some(row.sequence)
            })
        })
    }),
    ("retiring: only low bytes of sequence numbers are compared", |m| {
        m.retiring(29, |RetiringInput { table, .. }| {
            followed_otherwise(table, |table, row| {
                let first = &table.rows[0];
                row.site == first.site && row.mark == 1 && row.sequence % 256 > first.sequence % 256
            })
        })
    }),
    ("retiring: a site that forked is kept", |m| {
        m.retiring(29, |RetiringInput { table, .. }| {
            let first = &table.rows[0];
            let twins = table.held().iter().filter(|row| (row.site, row.sequence) == (first.site, first.sequence));
            kept(may_be_retired(table) && twins.count() == 1)
        })
    }),
    ("retiring: 29 with the place of a block that isn't interpreted", |m| {
        m.retiring(29, |RetiringInput { table, .. }| {
            let open = table.held().iter().position(|row| row.mark == 0).unwrap_or(0);
            kept(may_be_retired(table)).map(|_| open)
        })
    }),
    // The table
    (REFERENCES_STAY, |m| m.model.retiring.references = |set| set),
    (FIRST_KEPT, |m| m.model.retiring.references = |set| references(set) | set & 1),
    ("retiring: references to place 0 vanish, the others stay", |m| m.model.retiring.references = |set| set & !1),
    ("retiring: the lowest reference vanishes", |m| {
        m.model.retiring.references = |set| references(set & set.wrapping_sub(1))
    }),
    ("retiring: references in the high half aren't moved", |m| {
        m.model.retiring.references = |set| set & 0xffff_ffff_0000_0000 | (set & 0xffff_ffff) >> 1
    }),
    ("retiring: references are moved byte by byte", |m| {
        m.model.retiring.references = |set| u64::from_le_bytes(set.to_le_bytes().map(|byte| byte >> 1))
    }),
    ("retiring: references are moved the other way", |m| m.model.retiring.references = |set| set << 1),
    (NOT_NOTED, |m| m.model.retiring.retired = |before| before),
    ("retiring: retirings are counted", |m| m.model.retiring.retired = |before| before + 1),
    ("retiring: a second retiring unsets it", |m| m.model.retiring.retired = |before| 1 - before.min(1)),
    (MARKS_LOST, |m| {
        m.model.retiring.table = |retiring, table| {
            let mut left = retiring.without_first(table);
            left.rows.iter_mut().for_each(|row| row.mark = 0);
            left
        };
    }),
    (LAST_LEAVES, |m| {
        m.model.retiring.table = |retiring, table| {
            let mut left = table.clone();
            left.count -= 1;
            left.retired = (retiring.retired)(table.retired);
            left.rows[left.count] = Row::default();
            left
        };
    }),
    ("retiring: the last row stays behind", |m| {
        m.model.retiring.table = |retiring, table| {
            let mut left = retiring.without_first(table);
            left.rows[left.count] = table.rows[left.count];
            left
        };
    }),
    ("retiring: the count stays", |m| {
        m.model.retiring.table = |retiring, table| Table { count: table.count, ..retiring.without_first(table) }
    }),
    ("retiring: the requests of the others stay behind", |m| {
        m.model.retiring.table = |retiring, table| {
            let mut left = retiring.without_first(table);
            for place in 0..left.count {
                left.rows[place].requests = table.rows[place].requests;
            }
            left
        };
    }),
    ("retiring: a block that lacks its parent now has number 0", |m| {
        m.model.retiring.table = |retiring, table| {
            let mut left = retiring.without_first(table);
            let first = table.rows[0];
            for row in left.rows.iter_mut().filter(|row| row.site == first.site) {
                if first.sequence.checked_add(1) == Some(row.sequence) {
                    row.sequence = 0;
                }
            }
            left
        };
    }),
    ("retiring: two blocks leave where they can", |m| {
        m.model.retiring.table = |retiring, table| {
            let left = retiring.without_first(table);
            if left.count > 0 && may_be_retired(&left) {
                retiring.without_first(&left)
            } else {
                left
            }
        };
    }),
    // The records
    (RECORDS_STAY, |m| m.model.retiring.records = |_, _| {}),
    (LAST_PART_CLEARED, |m| {
        m.model.retiring.records = |numbers, left| {
            records(numbers, left);
            numbers[part_of(left.count).expect("a place")].fill(0);
        }
    }),
    ("retiring: the buffer from the new count on is cleared", |m| {
        m.model.retiring.records = |numbers, left| {
            records(numbers, left);
            numbers[PART_NUMBERS * left.count..].fill(0);
        }
    }),
    ("retiring: the whole buffer moves", |m| {
        m.model.retiring.records = |numbers, _| numbers.copy_within(PART_NUMBERS.., 0)
    }),
    ("retiring: the first part comes last", |m| {
        m.model.retiring.records = |numbers, left| numbers[..PART_NUMBERS * (left.count + 1)].rotate_left(PART_NUMBERS)
    }),
    ("retiring: the last part isn't moved", |m| {
        m.model.retiring.records = |numbers, left| (1..left.count).for_each(|place| move_part(numbers, place - 1))
    }),
    ("retiring: one part too many is moved", |m| {
        m.model.retiring.records = |numbers, left| (0..=left.count).for_each(|place| move_part(numbers, place))
    }),
    ("retiring: the last number isn't moved", |m| {
        m.model.retiring.records = |numbers, left| {
            let last = PART_NUMBERS * left.count - 1;
            let kept = numbers[last];
            records(numbers, left);
            numbers[last] = kept;
        }
    }),
    ("retiring: parts of places that aren't interpreted stay", |m| {
        m.model.retiring.records = |numbers, left| {
            let marked = |place: &usize| left.rows[*place].mark == 1;
            (0..left.count).filter(marked).for_each(|place| move_part(numbers, place));
        }
    }),
    (PARTS_FROM_LAST, |m| {
        m.model.retiring.records = |numbers, left| {
            (0..left.count).rev().for_each(|place| move_part(numbers, place));
        }
    }),
    // What is answered
    ("retiring: the value is how many are left", |m| {
        m.after_retiring(|answer, table, _| value_beside(0, answer, table.get(COUNT).copied().unwrap_or(0).into()))
    }),
    // Blocks that come again
    (RETURNED_MARKED, |m| {
        m.model.put = |table, row| {
            let mark = table.retired;
            put(table, Row { mark, ..row });
        }
    }),
];

/// Check 29, by whether place 0 may be retired.
fn kept(may_be_retired: bool) -> Option<usize> {
    (!may_be_retired).then_some(0)
}

/// Whether a block is one of the site of place 0 with a greater number, interpreted or not.
fn later(table: &Table, row: &Row) -> bool {
    row.site == table.rows[0].site && row.sequence > table.rows[0].sequence
}

/// Check 29 with another rule for what follows place 0.
fn followed_otherwise(table: &Table, follows: fn(&Table, &Row) -> bool) -> Option<usize> {
    let followed = table.held().iter().any(|row| follows(table, row));
    kept(interpreted(table) && all_referring_interpreted(table) && followed)
}
