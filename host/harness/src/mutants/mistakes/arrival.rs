//! Mistakes in what an arrival with a shelf is answered, and in what it leaves.

use super::{flip_last, neighbours_swapped, ArrivalBuffers, Mistake, Mutant};
use crate::model::answer::{Answer, ArrivalAnswer};
use crate::model::calls::Calls;
use crate::model::shelf::{entry_at, Entry, Shelf};
use crate::model::shelving::{instead_of_9, ArrivalInput, CHECKS};
use crate::model::sizes::{CAMPAIGNS, ENTRY_BYTES, MOST_HELD, OUTCOMES_NUMBERS, PLACES, SHELF_PLACES};
use crate::model::table::{Row, Table, COUNT};
use crate::model::Model;

/// Each check left out, each two neighbours swapped, and another value beside each refusal.
pub fn checks_exchanged() -> Vec<Mutant> {
    let mut mutants = Vec::new();
    for check in &CHECKS {
        let number = check.number;
        mutants.push(Mutant::with(format!("arrival without check {number}"), |m| m.arrival(number, |_| None)));
    }
    mutants.extend(neighbours_swapped("arrival", |model| &mut model.shelving.checks));
    for number in [2, 3, 4, 5, 6, 18, 7, 8, 9, 10, 11, 17, 19, 20, 21] {
        mutants.push(Mutant::with(format!("arrival: a value one more beside {number}"), |m| {
            m.arrival_value(number, |value| value + 1);
        }));
    }
    for number in [6, 18, 7, 8, 9, 17] {
        mutants.push(Mutant::with(format!("arrival: value 0 beside {number}"), |m| m.arrival_value(number, |_| 0)));
    }
    mutants
}

impl Mutant {
    /// Exchanges a check of an arrival.
    fn arrival(&mut self, number: u8, finds: fn(&ArrivalInput) -> Option<usize>) {
        super::exchange(&mut self.model.shelving.checks, number, finds);
    }

    /// Puts another value beside a refusal.
    fn arrival_value(&mut self, refusal: u8, value: fn(usize) -> usize) {
        self.after_arrival(move |answered, _| {
            let answer = super::value_beside(refusal, answered.answer, value(answered.answer.value));
            ArrivalAnswer { answer, ..answered }
        });
    }

    /// Does something to the buffers after a refusal of this number.
    fn after_refusal(&mut self, refusal: u8, change: fn(&mut ArrivalBuffers)) {
        self.after_arrival(move |answered, mut buffers| {
            if answered.answer.refusal == refusal {
                change(&mut buffers);
            }
            answered
        });
    }
}

pub const MISTAKES: &[Mistake] = &[
    // 21, 17 and 2
    ("arrival: campaign 4 passes", |m| m.arrival(21, |input| (usize::from(input.campaign) > CAMPAIGNS).then_some(0))),
    ("arrival: campaign 3 gets 21", |m| {
        m.arrival(21, |input| (usize::from(input.campaign) >= CAMPAIGNS - 1).then_some(0))
    }),
    ("arrival: the campaign's low bits are looked at", |m| {
        m.arrival(21, |input| (input.campaign & 7 >= CAMPAIGNS as u8).then_some(0))
    }),
    ("arrival: 21 after 2", |m| m.model.shelving.checks[..3].rotate_left(1)),
    ("arrival: 21 after admission's own", |m| {
        m.arrival(21, |input| {
            let admitted = [0, 9].contains(&input.admission.refusal);
            (admitted && usize::from(input.campaign) >= CAMPAIGNS).then_some(0)
        })
    }),
    ("arrival: 19 numbers are enough", |m| m.arrival(17, |input| short(input, OUTCOMES_NUMBERS - 1))),
    ("arrival: 18 numbers are enough", |m| m.arrival(17, |input| short(input, OUTCOMES_NUMBERS - 2))),
    ("arrival: 21 numbers are needed", |m| m.arrival(17, |input| short(input, OUTCOMES_NUMBERS + 1))),
    ("arrival: 10 numbers are enough", |m| m.arrival(17, |input| short(input, MOST_HELD))),
    ("arrival: two numbers for each waiting block are enough", |m| {
        m.arrival(17, |input| short(input, 2 * input.shelf.holds(input.campaign)))
    }),
    ("arrival: 17 only where the arrival is let in", |m| {
        m.arrival(17, |input| (input.admission.refusal == 0).then(|| short(input, OUTCOMES_NUMBERS)).flatten())
    }),
    ("arrival: 17 after all that comes before 9", |m| {
        m.arrival(17, |input| {
            let before_9 = [3, 4, 5, 6, 18, 7, 8].contains(&input.admission.refusal);
            (!before_9).then(|| short(input, OUTCOMES_NUMBERS)).flatten()
        })
    }),
    ("arrival: 17 after the table's 2", |m| {
        m.arrival(17, |input| (input.admission.refusal != 2).then(|| short(input, OUTCOMES_NUMBERS)).flatten())
    }),
    ("arrival: 17 after 19 and 20", |m| m.model.shelving.checks[1..].rotate_left(1)),
    ("arrival: 17 with the numbers that there are", |m| {
        m.arrival(17, |input| (input.room < OUTCOMES_NUMBERS).then_some(input.room))
    }),
    ("arrival: 17 with how many are missing", |m| {
        m.arrival(17, |input| (input.room < OUTCOMES_NUMBERS).then(|| OUTCOMES_NUMBERS - input.room))
    }),
    ("arrival: the shelf's 2 only where the arrival would get 9", |m| {
        m.arrival(2, |input| instead_of_9(input, !input.shelf_in_form))
    }),
    ("arrival: the shelf's 2 after admission's own", |m| {
        m.arrival(2, |input| (!input.shelf_in_form && [0, 9].contains(&input.admission.refusal)).then_some(0))
    }),
    // 20
    (FOR_ANY_CAMPAIGN, |m| {
        m.arrival(20, |input| {
            instead_of_9(input, input.shelf.waiting().iter().any(|entry| entry.block() == input.block))
        })
    }),
    ("arrival: 20 for bytes that wait for another campaign alone", |m| {
        m.arrival(20, |input| {
            let other = |entry: &Entry| entry.campaign != input.campaign && entry.block() == input.block;
            instead_of_9(input, input.shelf.waiting().iter().any(other))
        })
    }),
    ("arrival: 20 before admission's own", |m| {
        m.arrival(20, |input| input.shelf.waits(input.campaign, &input.block).then_some(0))
    }),
    ("arrival: 20 in the place of an admission too", |m| {
        m.arrival(20, |input| {
            let waits = input.shelf.waits(input.campaign, &input.block);
            (waits && [0, 9].contains(&input.admission.refusal)).then_some(0)
        })
    }),
    ("arrival: 20 before 8", |m| {
        m.arrival(20, |input| {
            let waits = input.shelf.waits(input.campaign, &input.block);
            (waits && [8, 9].contains(&input.admission.refusal)).then_some(0)
        })
    }),
    ("arrival: 20 before 10 and 11", |m| {
        m.arrival(20, |input| {
            let waits = input.shelf.waits(input.campaign, &input.block);
            (waits && (9..=11).contains(&input.admission.refusal)).then_some(0)
        })
    }),
    (LAST_COMPARED_ALONE, |m| {
        m.arrival(20, |input| {
            let last = input.shelf.of(input.campaign).last();
            instead_of_9(input, last.is_some_and(|entry| entry.block() == input.block))
        })
    }),
    ("arrival: 20 for a block of the same header", |m| {
        m.arrival(20, |input| {
            let same = |entry: &Entry| entry.block()[..5] == input.block[..5];
            instead_of_9(input, input.shelf.of(input.campaign).any(same))
        })
    }),
    ("arrival: 20 with the place on the shelf", |m| {
        m.arrival(20, |input| {
            let waiting = input.shelf.waiting();
            let same = |entry: &Entry| entry.campaign == input.campaign && entry.block() == input.block;
            instead_of_9(input, true).and(waiting.iter().position(same))
        })
    }),
    ("arrival: 20 with 9's index", |m| {
        m.arrival(20, |input| {
            let waits = input.shelf.waits(input.campaign, &input.block);
            instead_of_9(input, waits).map(|_| input.admission.value)
        })
    }),
    // 19
    ("arrival: 19 before admission's own", |m| m.arrival(19, |input| (!input.takes).then_some(0))),
    ("arrival: 19 for 10 and 11 too", |m| {
        m.arrival(19, |input| {
            let waits = (9..=11).contains(&input.admission.refusal);
            (waits && !input.takes).then_some(0)
        })
    }),
    ("arrival: 19 with 9's index", |m| {
        m.arrival(19, |input| instead_of_9(input, !input.takes).map(|_| input.admission.value))
    }),
    ("arrival: 19 with the free places", |m| {
        m.arrival(19, |input| instead_of_9(input, !input.takes).map(|_| input.shelf.free()))
    }),
    // What admission does
    ("arrival: every verdict passes", |m| {
        let model = Model::document();
        m.after_arrival(move |answered, ArrivalBuffers { table, shelf, campaign, block, outcomes }| {
            if answered.answer.refusal == 5 {
                model.arrive(table, shelf, campaign, block, 1, outcomes)
            } else {
                answered
            }
        })
    }),
    ("arrival: a slot requested twice passes", |m| m.model.admission.retain(|check| check.number != 18)),
    ("arrival: 9 before 18", |m| m.model.admission[5..9].rotate_left(1)),
    ("arrival: 11 in the place of 9", |m| {
        m.after_arrival(|answered, buffers| {
            let full = buffers.table.get(COUNT) == Some(&(PLACES as u8));
            if answered.answer.refusal == 9 && full {
                ArrivalAnswer::refused(Answer { refusal: 11, value: 0 })
            } else {
                answered
            }
        })
    }),
    ("arrival: the row is marked", |m| {
        m.after_arrival(|answered, buffers| {
            if answered.answer.refusal == 0 {
                change_row(buffers.table, answered.answer.value, |row| row.mark = 1);
            }
            answered
        })
    }),
    // What is left
    ("arrival: 19 leaves the block on the shelf", |m| m.after_refusal(19, put_on_shelf)),
    ("arrival: 18 leaves the block on the shelf", |m| m.after_refusal(18, put_on_shelf)),
    ("arrival: 20 moves the block behind all others", |m| {
        m.after_refusal(20, |buffers| {
            let mut shelf = Shelf::from_bytes(buffers.shelf);
            let entry = Entry::of(buffers.campaign, buffers.block);
            shelf.take(&entry);
            shelf.put(buffers.campaign, buffers.block);
            shelf.write(buffers.shelf);
        })
    }),
    ("arrival: 20 takes the block off the shelf", |m| {
        m.after_refusal(20, |buffers| {
            let mut shelf = Shelf::from_bytes(buffers.shelf);
            shelf.take(&Entry::of(buffers.campaign, buffers.block));
            shelf.write(buffers.shelf);
        })
    }),
    ("arrival: 2 empties the shelf", |m| m.after_refusal(2, |buffers| buffers.shelf.fill(0))),
    ("arrival: 2 clears the entries from the count on", |m| {
        m.after_refusal(2, |buffers| {
            let first = entry_at(buffers.shelf.first().copied().unwrap_or(0).into());
            if let Some(rest) = buffers.shelf.get_mut(first..) {
                rest.fill(0);
            }
        })
    }),
    ("arrival: 8 takes the block off the shelf", |m| {
        m.after_refusal(8, |buffers| {
            let mut shelf = Shelf::from_bytes(buffers.shelf);
            shelf.take(&Entry::of(buffers.campaign, buffers.block));
            shelf.write(buffers.shelf);
        })
    }),
    ("arrival: 9 writes the table's last byte", |m| m.after_refusal(9, |buffers| flip_last(buffers.table))),
    ("arrival: a refusal writes the table's last byte", |m| {
        m.after_arrival(|answered, buffers| {
            if answered.answer.refusal != 0 {
                flip_last(buffers.table);
            }
            answered
        })
    }),
    ("arrival: a refusal writes the shelf's last byte", |m| {
        m.after_arrival(|answered, buffers| {
            if ![0, 9].contains(&answered.answer.refusal) {
                flip_last(buffers.shelf);
            }
            answered
        })
    }),
    ("arrival: a full shelf's last entry isn't written", |m| {
        m.after_refusal(9, |buffers| {
            if buffers.shelf.first() == Some(&(SHELF_PLACES as u8)) {
                buffers.shelf[entry_at(SHELF_PLACES - 1)..].fill(0);
            }
        })
    }),
    ("arrival: the last entry's block is cut", |m| {
        m.after_refusal(9, |buffers| {
            let last = entry_at(buffers.shelf[0].into());
            buffers.shelf[last - ENTRY_BYTES + 256..last].fill(0);
        })
    }),
    ("arrival: the block is written", |m| {
        m.after_arrival(|answered, buffers| {
            flip_last(buffers.block);
            answered
        })
    }),
    ("arrival: 9 is answered 0", |m| {
        m.after_arrival(|answered, _| {
            let refusal = if answered.answer.refusal == 9 { 0 } else { answered.answer.refusal };
            ArrivalAnswer { answer: Answer { refusal, ..answered.answer }, ..answered }
        })
    }),
    ("arrival: a success answers 0", |m| m.arrival_value(0, |_| 0)),
    ("arrival: a success answers the count", |m| m.arrival_value(0, |value| value + 1)),
    ("arrival: a success answers the last place", |m| {
        m.after_arrival(|answered, buffers| {
            let count = buffers.table.get(COUNT).copied().unwrap_or(0);
            let answer = super::value_beside(0, answered.answer, usize::from(count).saturating_sub(1));
            ArrivalAnswer { answer, ..answered }
        })
    }),
];

pub const FOR_ANY_CAMPAIGN: &str = "arrival: 20 for bytes that wait for another campaign too";
pub const LAST_COMPARED_ALONE: &str = "arrival: 20 for the block that came last alone";

/// Changes what a table holds for a place.
pub fn change_row(table: &mut [u8], place: usize, change: fn(&mut Row)) {
    let mut held = Table::from_bytes(table);
    if let Some(row) = held.rows.get_mut(place) {
        change(row);
        held.write(table);
    }
}

fn put_on_shelf(buffers: &mut ArrivalBuffers) {
    let mut shelf = Shelf::from_bytes(buffers.shelf);
    shelf.put(buffers.campaign, buffers.block);
    shelf.write(buffers.shelf);
}

/// Check 17 with another limit.
fn short(input: &ArrivalInput, needed: usize) -> Option<usize> {
    (input.room < needed).then_some(OUTCOMES_NUMBERS)
}
