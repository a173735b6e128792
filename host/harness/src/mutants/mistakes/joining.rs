//! Mistakes in what a join is answered, and in what its refusals leave. Those about equal digests stand apart.

use super::{flip_last, neighbours_swapped, value_beside, JoinBuffers, Mistake, Mutant};
use crate::model::answer::Answer;
use crate::model::form::lacks_parent;
use crate::model::joining::{blocks, setups_differ, JoinInput, CHECKS};
use crate::model::sizes::{BUFFER_NUMBERS, PLACES, SLOTS};
use crate::model::table::{Table, COUNT};

/// Each check left out, each two neighbours swapped; another value beside each refusal, and something written by it.
pub fn checks_exchanged() -> Vec<Mutant> {
    let mut mutants = Vec::new();
    for check in &CHECKS {
        let number = check.number;
        mutants.push(Mutant::with(format!("join without check {number}"), |m| m.joining(number, |_| None)));
        mutants.push(Mutant::with(format!("join: a value one more beside {number}"), |m| {
            m.after_join(move |answer, _| value_beside(number, answer, answer.value + 1));
        }));
        mutants.push(Mutant::with(format!("join: {number} writes the left's last byte"), |m| {
            m.after_refused_join(number, |buffers| flip_last(buffers.left));
        }));
        mutants.push(Mutant::with(format!("join: {number} writes the third buffer's last number"), |m| {
            m.after_refused_join(number, |buffers| flip_last(buffers.third));
        }));
        mutants.push(Mutant::with(format!("join: {number} hands back the right's table"), |m| {
            m.after_refused_join(number, |buffers| {
                if buffers.left.len() == buffers.right.len() {
                    buffers.left.copy_from_slice(buffers.right);
                }
            });
        }));
    }
    mutants.extend(neighbours_swapped("join", |model| &mut model.joining.checks));
    mutants
}

impl Mutant {
    /// Exchanges a check of joining.
    pub fn joining(&mut self, number: u8, finds: fn(&JoinInput) -> Option<usize>) {
        super::exchange(&mut self.model.joining.checks, number, finds);
    }

    /// Does something to the buffers after a refusal of this number.
    fn after_refused_join(&mut self, refusal: u8, change: fn(&mut JoinBuffers)) {
        self.after_join(move |answer, mut buffers| {
            if answer.refusal == refusal {
                change(&mut buffers);
            }
            answer
        });
    }
}

pub const MISTAKES: &[Mistake] = &[
    // Order
    ("join: 2 after 12, 31 and 23", |m| m.model.joining.checks[..4].rotate_left(1)),
    ("join: 2 last", |m| m.model.joining.checks.rotate_left(1)),
    ("join: 25 first", |m| m.model.joining.checks.rotate_right(1)),
    ("join: 25 before 23", |m| m.model.joining.checks[3..].rotate_right(1)),
    ("join: 24 before 12", |m| m.model.joining.checks[1..5].rotate_right(1)),
    ("join: 31 first", |m| m.model.joining.checks[..3].rotate_right(1)),
    ("join: 31 after 24", |m| m.model.joining.checks[2..5].rotate_left(1)),
    ("join: 31 last", |m| m.model.joining.checks[2..].rotate_left(1)),
    ("join: the right's 2 after 12", |m| {
        m.joining(2, |input| {
            let lengths = input.numbers.iter().all(|&numbers| numbers == BUFFER_NUMBERS);
            (!input.left_in_form || !input.right_in_form && lengths).then_some(0)
        })
    }),
    ("join: the left's 2 after 12", |m| {
        m.joining(2, |input| {
            let lengths = input.numbers.iter().all(|&numbers| numbers == BUFFER_NUMBERS);
            (!input.right_in_form || !input.left_in_form && lengths).then_some(0)
        })
    }),
    // 2
    ("join: the left's form isn't asked", |m| m.joining(2, |input| (!input.right_in_form).then_some(0))),
    ("join: the right's form isn't asked", |m| m.joining(2, |input| (!input.left_in_form).then_some(0))),
    ("join: 2 only where neither table is in form", |m| {
        m.joining(2, |input| (!input.left_in_form && !input.right_in_form).then_some(0))
    }),
    // 12
    ("join: the left records' length isn't asked", |m| m.joining(12, |input| other_length(&input.numbers[1..]))),
    ("join: the right records' length isn't asked", |m| {
        m.joining(12, |input| other_length(&[input.numbers[0], input.numbers[2]]))
    }),
    ("join: the third buffer's length isn't asked", |m| m.joining(12, |input| other_length(&input.numbers[..2]))),
    ("join: 12 for the third buffer alone", |m| m.joining(12, |input| other_length(&input.numbers[2..]))),
    ("join: longer left records pass", |m| m.joining(12, |input| longer_passes(input, 0))),
    ("join: longer right records pass", |m| m.joining(12, |input| longer_passes(input, 1))),
    ("join: a longer third buffer passes", |m| m.joining(12, |input| longer_passes(input, 2))),
    ("join: left records that have the left's places pass", |m| {
        m.joining(12, |input| {
            let [left, right, third] = input.numbers;
            other_length(&[right, third]).or((left < BUFFER_NUMBERS / PLACES * input.left.count).then_some(0))
        })
    }),
    ("join: 12 only where a part is copied", |m| {
        m.joining(12, |input| {
            let interpreted = |table: &Table| table.held().iter().any(|row| row.mark == 1);
            (interpreted(&input.left) || interpreted(&input.right)).then(|| other_length(&input.numbers)).flatten()
        })
    }),
    ("join: the three lengths are compared with each other", |m| {
        m.joining(12, |input| input.numbers.iter().any(|&numbers| numbers != input.numbers[0]).then_some(0))
    }),
    // 31
    ("join: 31 for the left alone", |m| m.joining(31, |input| (input.left.retired == 1).then_some(0))),
    ("join: 31 for the right alone", |m| m.joining(31, |input| (input.right.retired == 1).then_some(0))),
    ("join: 31 where both have retired alone", |m| {
        m.joining(31, |input| (input.left.retired == 1 && input.right.retired == 1).then_some(0))
    }),
    ("join: 31 where one has retired alone", |m| {
        m.joining(31, |input| (input.left.retired != input.right.retired).then_some(0))
    }),
    ("join: 31 for a side that holds blocks alone", |m| {
        m.joining(31, |input| {
            [&input.left, &input.right].iter().any(|side| side.retired == 1 && side.count > 0).then_some(0)
        })
    }),
    ("join: 31 for a side that lacks a parent alone", |m| {
        m.joining(31, |input| [&input.left, &input.right].iter().any(|side| lacks_some_parent(side)).then_some(0))
    }),
    // 23
    ("join: n isn't compared", |m| m.joining(23, |input| (input.left.owners != input.right.owners).then_some(0))),
    ("join: owners aren't compared", |m| m.joining(23, |input| (input.left.sites != input.right.sites).then_some(0))),
    ("join: the last owner isn't compared", |m| m.joining(23, |input| first_owners(input, SLOTS - 1))),
    ("join: the first owner alone is compared", |m| m.joining(23, |input| first_owners(input, 1))),
    ("join: the first owner isn't compared", |m| {
        m.joining(23, |input| {
            let other = input.left.sites != input.right.sites || input.left.owners[1..] != input.right.owners[1..];
            other.then_some(0)
        })
    }),
    ("join: setups of empty sides aren't compared", |m| {
        m.joining(23, |input| (input.left.count > 0 && input.right.count > 0 && setups_differ(input)).then_some(0))
    }),
    ("join: an empty left takes any setup", |m| {
        m.joining(23, |input| (input.left.count > 0 && setups_differ(input)).then_some(0))
    }),
    ("join: an empty right has any setup", |m| {
        m.joining(23, |input| (input.right.count > 0 && setups_differ(input)).then_some(0))
    }),
    ("join: 23 with the slot of the other owner", |m| {
        m.joining(23, |input| {
            let other = |slot: &usize| input.left.owners[*slot] != input.right.owners[*slot];
            setups_differ(input).then(|| (0..SLOTS).find(other).unwrap_or(0))
        })
    }),
    // 25
    ("join: 64 blocks are too many", |m| m.joining(25, |input| (blocks(input).len() >= PLACES).then_some(0))),
    ("join: 65 blocks pass", |m| m.joining(25, |input| (blocks(input).len() > PLACES + 1).then_some(0))),
    ("join: blocks of both sides count twice", |m| {
        m.joining(25, |input| (input.left.count + input.right.count > PLACES).then_some(0))
    }),
    ("join: 25 for two full sides alone", |m| {
        m.joining(25, |input| (blocks(input).len() > PLACES && input.left.count == PLACES).then_some(0))
    }),
    ("join: a full left takes no right", |m| {
        m.joining(25, |input| {
            let full = input.left.count == PLACES && input.right.count > 0;
            (full || blocks(input).len() > PLACES).then_some(0)
        })
    }),
    ("join: 25 with how many blocks there are", |m| {
        m.joining(25, |input| Some(blocks(input).len()).filter(|&count| count > PLACES))
    }),
    ("join: 25 with how many are too many", |m| {
        m.joining(25, |input| blocks(input).len().checked_sub(PLACES).filter(|&more| more > 0))
    }),
    ("join: 25 with the left's count", |m| {
        m.joining(25, |input| (blocks(input).len() > PLACES).then_some(input.left.count))
    }),
    // What a refusal leaves
    ("join: 2 clears the left", |m| m.after_refused_join(2, |buffers| buffers.left.fill(0))),
    ("join: 12 clears the third buffer", |m| m.after_refused_join(12, |buffers| buffers.third.fill(0))),
    ("join: 24 leaves the left's records in the third buffer", |m| {
        m.after_refused_join(24, |buffers| buffers.third.copy_from_slice(buffers.left_records))
    }),
    ("join: 25 fills the left up", |m| m.after_refused_join(25, |buffers| buffers.left[COUNT] = PLACES as u8)),
    // Buffers that are only read
    ("join: the right's table is written", |m| {
        m.after_join(|answer, buffers| {
            flip_last(buffers.right);
            answer
        })
    }),
    ("join: the left records are written", |m| m.after_join(|answer, buffers| changed(answer, buffers.left_records))),
    ("join: the right records are written", |m| m.after_join(|answer, buffers| changed(answer, buffers.right_records))),
    ("join: the left records become those of both", |m| {
        m.after_join(|answer, buffers| {
            if answer.refusal == 0 {
                buffers.left_records.copy_from_slice(buffers.third);
            }
            answer
        })
    }),
];

/// The answer, with a number of records changed.
fn changed(answer: Answer, records: &mut [u16]) -> Answer {
    flip_last(records);
    answer
}

fn lacks_some_parent(table: &Table) -> bool {
    table.held().iter().any(|row| row.sequence != 0 && lacks_parent(table, row))
}

/// Check 12 for some of the buffers.
fn other_length(numbers: &[usize]) -> Option<usize> {
    numbers.iter().any(|&numbers| numbers != BUFFER_NUMBERS).then_some(0)
}

/// Check 12, but one of the buffers may be longer.
fn longer_passes(input: &JoinInput, buffer: usize) -> Option<usize> {
    let mut numbers = input.numbers;
    numbers[buffer] = numbers[buffer].min(BUFFER_NUMBERS);
    other_length(&numbers)
}

/// Check 23 for n and so many owners.
fn first_owners(input: &JoinInput, owners: usize) -> Option<usize> {
    let other = input.left.sites != input.right.sites || input.left.owners[..owners] != input.right.owners[..owners];
    other.then_some(0)
}
