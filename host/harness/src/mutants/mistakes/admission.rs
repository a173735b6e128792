//! Mistakes in admission: in its checks, in their order, in what it writes and in what it leaves.

use super::{flip_last, neighbours_swapped, slots, value_beside, Mistake, Mutant};
use crate::model::admission::{put, row, AdmissionInput, CHECKS};
use crate::model::block::{self, Request};
use crate::model::sha256::{sha256, Digest};
use crate::model::sizes::{DIGEST_BYTES, MAX_REFERENCES, MAX_REQUESTS, PLACES, SLOTS};
use crate::model::table::{places, Row, Table};

/// Each check left out, each two neighbours swapped, another value beside each refusal, and each mistake in check 18.
pub fn checks_exchanged() -> Vec<Mutant> {
    let mut mutants = Vec::new();
    for check in &CHECKS {
        let number = check.number;
        mutants.push(Mutant::with(format!("admission without check {number}"), |m| m.admission(number, |_| None)));
        mutants.push(Mutant::with(format!("admission: a value one more beside {number}"), |m| {
            m.after_admission(move |answer, _, _| value_beside(number, answer, answer.value + 1));
        }));
    }
    for number in [6, 18, 7, 8, 9] {
        mutants.push(Mutant::with(format!("admission: value 0 beside {number}"), |m| {
            m.after_admission(move |answer, _, _| value_beside(number, answer, 0));
        }));
    }
    mutants.extend(neighbours_swapped("admission", |model| &mut model.admission));
    for (name, finds) in slots::mistakes() {
        mutants.push(Mutant::with(format!("admission: {name}"), |m| m.admission(18, finds)));
    }
    mutants
}

pub const MISTAKES: &[Mistake] = &[
    // Order
    ("admission: the reader's 6, 18 and 7 before 4 and 5", |m| m.model.admission[2..7].rotate_left(2)),
    ("admission: 18 before 5", |m| m.model.admission[3..6].rotate_right(1)),
    ("admission: 18 before all but 2", |m| m.model.admission[1..6].rotate_right(1)),
    ("admission: 18 after 7 and 8", |m| m.model.admission[5..8].rotate_left(1)),
    ("admission: 18 after 7, 8 and 9", |m| m.model.admission[5..9].rotate_left(1)),
    ("admission: 18 last", |m| m.model.admission[5..].rotate_left(1)),
    ("admission: 8 before the reader", |m| m.model.admission[1..8].rotate_right(1)),
    ("admission: 11 before 8", |m| m.model.admission[7..].rotate_right(1)),
    ("admission: 11 before all but 2", |m| m.model.admission[1..].rotate_right(1)),
    // Single checks
    ("admission: a site may be n", |m| {
        m.admission(4, |input| (block::site(&input.block) > input.table.sites).then_some(0))
    }),
    ("admission: sites are compared with 16", |m| {
        m.admission(4, |input| (block::site(&input.block) >= 16).then_some(0))
    }),
    ("admission: verdict 2 passes", |m| m.admission(5, |input| (![1, 2].contains(&input.verdict)).then_some(0))),
    ("admission: verdict 0 passes", |m| m.admission(5, |input| (input.verdict > 1).then_some(0))),
    ("admission: every verdict but 0 passes", |m| m.admission(5, |input| (input.verdict == 0).then_some(0))),
    ("admission: the verdict's low bit decides", |m| m.admission(5, |input| (input.verdict % 2 == 0).then_some(0))),
    ("admission: slot 8 passes", |m| {
        m.admission(6, |input| {
            let requests = block::requests(&input.block);
            requests.iter().position(|request| usize::from(request.slot) > SLOTS || request.number == 0)
        })
    }),
    ("admission: number 0 passes", |m| {
        m.admission(6, |input| {
            let requests = block::requests(&input.block);
            requests.iter().position(|request| usize::from(request.slot) >= SLOTS)
        })
    }),
    ("admission: a number of low byte 0 is refused", |m| {
        m.admission(6, |input| {
            let requests = block::requests(&input.block);
            requests.iter().position(|request| usize::from(request.slot) >= SLOTS || request.number % 256 == 0)
        })
    }),
    ("admission: the last bad request is named", |m| {
        m.admission(6, |input| {
            let requests = block::requests(&input.block);
            requests.iter().rposition(|request| usize::from(request.slot) >= SLOTS || request.number == 0)
        })
    }),
    (SLOT_TWICE_GETS_6, |m| m.admission(6, slots::bad_or_repeated)),
    ("admission: only neighbouring references are compared", |m| {
        m.admission(7, |input| {
            let references = block::references(&input.block);
            (1..references.len()).find(|&index| references[index] == references[index - 1])
        })
    }),
    ("admission: 7 names the earlier reference", |m| {
        m.admission(7, |input| {
            let references = block::references(&input.block);
            (0..references.len()).find(|&index| references[index + 1..].contains(&references[index]))
        })
    }),
    ("admission: 8 doesn't look at the last place", |m| {
        m.admission(8, |input| {
            let place = input.table.place_of(&input.digest)?;
            (place + 1 < input.table.count).then_some(place)
        })
    }),
    ("admission: 8 doesn't look at place 0", |m| {
        m.admission(8, |input| input.table.place_of(&input.digest).filter(|&place| place > 0))
    }),
    ("admission: 8 leaves out the digest's last byte", |m| {
        m.admission(8, |input| place_of_part(&input.table, &input.digest))
    }),
    ("admission: 9 leaves out the digest's last byte", |m| {
        m.admission(9, |input| {
            let missing = |reference: &Digest| place_of_part(&input.table, reference).is_none();
            block::references(&input.block).iter().position(missing)
        })
    }),
    ("admission: references are looked for from the count on too", |m| {
        m.admission(9, |input| {
            let found = |digest: &Digest| input.table.rows.iter().any(|row| row.digest == *digest);
            block::references(&input.block).iter().position(|reference| !found(reference))
        })
    }),
    ("admission: the last missing reference is named", |m| {
        m.admission(9, |input| {
            let missing = |reference: &Digest| input.table.place_of(reference).is_none();
            block::references(&input.block).iter().rposition(missing)
        })
    }),
    ("admission: the 16th reference isn't looked for", |m| {
        m.admission(9, |input| {
            let missing = |reference: &Digest| input.table.place_of(reference).is_none();
            block::references(&input.block).iter().take(MAX_REFERENCES - 1).position(missing)
        })
    }),
    ("admission: two parents pass", |m| {
        m.admission(10, |input| parents(input, |row, count| row.sequence == 0 || count >= 1))
    }),
    ("admission: no parent passes", |m| {
        m.admission(10, |input| parents(input, |row, count| row.sequence == 0 || count <= 1))
    }),
    ("admission: a sequence number of low byte 0 needs no parent", |m| {
        m.admission(10, |input| parents(input, |row, count| row.sequence % 256 == 0 || count == 1))
    }),
    ("admission: the parent's low byte decides", |m| {
        m.admission(10, |input| {
            let new = row(input);
            let old = |place: usize| &input.table.rows[place];
            let before = |old: &Row| old.site == new.site && old.sequence % 256 + 1 == new.sequence % 256;
            let count = places(new.references).filter(|&place| before(old(place))).count();
            (new.sequence != 0 && count != 1).then_some(0)
        })
    }),
    ("admission: sequence 0 may not refer to its own site", |m| {
        m.admission(10, |input| {
            let new = row(input);
            let rule = input.table.parent_rule(new.site, new.sequence, new.references);
            (!rule || new.sequence == 0 && own(input, &new) > 0).then_some(0)
        })
    }),
    ("admission: no own block but the parent may be referred to", |m| {
        m.admission(10, |input| {
            let new = row(input);
            let rule = input.table.parent_rule(new.site, new.sequence, new.references);
            (!rule || new.sequence > 0 && own(input, &new) > 1).then_some(0)
        })
    }),
    ("admission: any own block is a parent", |m| {
        m.admission(10, |input| {
            let new = row(input);
            (new.sequence > 0 && own(input, &new) == 0).then_some(0)
        })
    }),
    ("admission: a fork is refused", |m| {
        m.admission(10, |input| {
            let new = row(input);
            let rule = input.table.parent_rule(new.site, new.sequence, new.references);
            let twin = |old: &Row| old.site == new.site && old.sequence == new.sequence;
            (!rule || input.table.held().iter().any(twin)).then_some(0)
        })
    }),
    ("admission: 63 places are full", |m| m.admission(11, |input| (input.table.count >= PLACES - 1).then_some(0))),
    // What is written
    ("admission: the row is marked", |m| m.model.row = |input| Row { mark: 1, ..row(input) }),
    ("admission: only the first request counts", |m| {
        m.model.row = |input| Row { requests: requested(input, |all| all.truncate(1)), ..row(input) }
    }),
    ("admission: the fifth request doesn't count", |m| {
        m.model.row = |input| Row { requests: requested(input, |all| all.truncate(MAX_REQUESTS - 1)), ..row(input) }
    }),
    ("admission: requests stand by their index", |m| {
        m.model.row = |input| {
            let by_index = |all: &mut Vec<Request>| (0..).zip(all).for_each(|(index, request)| request.slot = index);
            Row { requests: requested(input, by_index), ..row(input) }
        }
    }),
    ("admission: slots in reverse", |m| {
        m.model.row = |input| {
            let mut new = row(input);
            new.requests.reverse();
            new
        }
    }),
    ("admission: request numbers low byte first", |m| {
        m.model.row = |input| Row { requests: row(input).requests.map(u16::swap_bytes), ..row(input) }
    }),
    ("admission: no requests", |m| m.model.row = |input| Row { requests: [0; SLOTS], ..row(input) }),
    ("admission: sequence number low byte first", |m| {
        m.model.row = |input| Row { sequence: row(input).sequence.swap_bytes(), ..row(input) }
    }),
    ("admission: the set's bytes in reverse", |m| {
        m.model.row = |input| Row { references: row(input).references.swap_bytes(), ..row(input) }
    }),
    ("admission: the bits of the set's bytes in reverse", |m| {
        m.model.row = |input| Row { references: row(input).references.reverse_bits().swap_bytes(), ..row(input) }
    }),
    ("admission: the set has 32 places", |m| {
        m.model.row = |input| Row { references: row(input).references & 0xffff_ffff, ..row(input) }
    }),
    ("admission: the parent isn't in the set", |m| {
        m.model.row = |input| {
            let new = row(input);
            let parent = |place: usize| {
                let old = &input.table.rows[place];
                old.site == new.site && old.sequence.checked_add(1) == Some(new.sequence)
            };
            let others = places(new.references).filter(|&place| !parent(place));
            Row { references: others.fold(0, |set, place| set | 1 << place), ..new }
        }
    }),
    ("admission: no site", |m| m.model.row = |input| Row { site: 0, ..row(input) }),
    ("admission: the digest leaves the last byte out", |m| {
        m.model.row = |input| Row { digest: sha256(&input.block[..input.block.len() - 1]), ..row(input) }
    }),
    ("admission: the count isn't raised", |m| {
        m.model.put = |table, row| {
            put(table, row);
            table.count -= 1;
        }
    }),
    ("admission: the row isn't written", |m| m.model.put = |table, _| table.count += 1),
    ("admission: rows are written from the end", |m| {
        m.model.put = |table, row| {
            if let Some(last) = (PLACES - 1).checked_sub(table.count) {
                table.rows[last] = row;
            }
            table.count += 1;
        }
    }),
    ("admission: a success clears row 0", |m| {
        m.model.put = |table, row| {
            table.rows[0] = Row::default();
            put(table, row);
        }
    }),
    ("admission: a success clears the marks", |m| {
        m.model.put = |table, row| {
            put(table, row);
            table.rows.iter_mut().for_each(|row| row.mark = 0);
        }
    }),
    // What is answered and left
    ("admission: a success answers the count", |m| {
        m.after_admission(|answer, _, _| value_beside(0, answer, answer.value + 1))
    }),
    ("admission: a success answers 0", |m| m.after_admission(|answer, _, _| value_beside(0, answer, 0))),
    ("admission: a refusal writes the table's last byte", |m| {
        m.after_admission(|answer, table, _| {
            if answer.refusal != 0 {
                flip_last(table);
            }
            answer
        })
    }),
    ("admission: refusal 10 leaves the digest written", |m| {
        m.after_admission(|answer, table, block| {
            if answer.refusal == 10 {
                let mut held = Table::from_bytes(table);
                if let Some(next) = held.rows.get_mut(held.count) {
                    next.digest = sha256(block);
                }
                held.write(table);
            }
            answer
        })
    }),
    ("admission: the block is written", |m| {
        m.after_admission(|answer, _, block| {
            flip_last(block);
            answer
        })
    }),
];

pub const SLOT_TWICE_GETS_6: &str = "admission: a slot requested twice gets 6";

/// The number in each slot, if the requests were so changed.
fn requested(input: &AdmissionInput, change: fn(&mut Vec<Request>)) -> [u16; SLOTS] {
    let mut all = block::requests(&input.block);
    change(&mut all);
    let mut requests = [0; SLOTS];
    all.iter().for_each(|request| requests[usize::from(request.slot)] = request.number);
    requests
}

/// The place that holds the digest, by all its bytes but the last.
fn place_of_part(table: &Table, digest: &Digest) -> Option<usize> {
    let part = |digest: &Digest| digest[..DIGEST_BYTES - 1].to_vec();
    table.held().iter().position(|row| part(&row.digest) == part(digest))
}

/// Check 10 by a rule about the number of parents.
fn parents(input: &AdmissionInput, passes: fn(&Row, usize) -> bool) -> Option<usize> {
    let new = row(input);
    let count = if new.sequence == 0 { 0 } else { input.table.parents(new.site, new.sequence, new.references) };
    (!passes(&new, count)).then_some(0)
}

/// How many own blocks a row refers to.
fn own(input: &AdmissionInput, row: &Row) -> usize {
    places(row.references).filter(|&place| input.table.rows[place].site == row.site).count()
}
