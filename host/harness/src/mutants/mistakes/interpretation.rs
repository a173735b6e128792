//! Mistakes in interpreting a place: in its checks, in what is written and in what is left.

use super::{flip_last, neighbours_swapped, value_beside, Mistake, Mutant};
use crate::model::interpretation::{not_interpreted, parent, write, InterpretationInput, CHECKS};
use crate::model::record::{part_of, record_at, Part, MADE};
use crate::model::sizes::{BUFFER_NUMBERS, PART_NUMBERS, PLACES, RECORD_NUMBERS, SLOTS};
use crate::model::table::{places, Row, Table};

/// Each check left out, another value beside each refusal, and neighbours swapped. Of the neighbours only those that
/// can meet: in a table in form, a place from the count on has no mark and no references, and one that is interpreted
/// has only interpreted references. So 13, 14 and 15 never meet, and in any order they answer the same.
pub fn checks_exchanged() -> Vec<Mutant> {
    let mut mutants = Vec::new();
    for check in &CHECKS {
        let number = check.number;
        mutants.push(Mutant::with(format!("interpretation without check {number}"), |m| {
            m.interpretation(number, |_| None);
        }));
        mutants.push(Mutant::with(format!("interpretation: a value one more beside {number}"), |m| {
            m.after_interpretation(move |answer, _, _, _| value_beside(number, answer, answer.value + 1));
        }));
    }
    let swapped = neighbours_swapped("interpretation", |model| &mut model.interpretation.checks);
    mutants.extend(swapped.into_iter().take(2));
    mutants
}

pub const MISTAKES: &[Mistake] = &[
    // Checks
    ("interpretation: 14 before 12", |m| m.model.interpretation.checks[1..4].rotate_right(1)),
    ("interpretation: 15 before 12", |m| m.model.interpretation.checks[1..5].rotate_right(1)),
    ("interpretation: 15 before 2", |m| m.model.interpretation.checks.rotate_right(1)),
    ("interpretation: a longer buffer passes", |m| {
        m.interpretation(12, |input| (input.numbers < BUFFER_NUMBERS).then_some(0))
    }),
    ("interpretation: a shorter buffer passes", |m| {
        m.interpretation(12, |input| (input.numbers > BUFFER_NUMBERS).then_some(0))
    }),
    ("interpretation: a buffer that reaches to the place passes", |m| {
        m.interpretation(12, |input| {
            let end = part_of(input.place).map_or(usize::MAX, |part| part.end);
            (input.numbers < end).then_some(0)
        })
    }),
    ("interpretation: a buffer that reaches to the count passes", |m| {
        m.interpretation(12, |input| (input.numbers < PART_NUMBERS * input.table.count).then_some(0))
    }),
    ("interpretation: the buffer's length is taken in bytes", |m| {
        m.interpretation(12, |input| (2 * input.numbers != BUFFER_NUMBERS).then_some(0))
    }),
    ("interpretation: the place may be the count", |m| {
        m.interpretation(13, |input| (input.place > input.table.count).then_some(0))
    }),
    ("interpretation: the last place is refused", |m| {
        m.interpretation(13, |input| (input.place >= input.table.count.saturating_sub(1)).then_some(0))
    }),
    ("interpretation: places are compared with 64", |m| {
        m.interpretation(13, |input| (input.place >= PLACES).then_some(0))
    }),
    ("interpretation: the place's low byte decides", |m| {
        m.interpretation(13, |input| (input.place % 256 >= input.table.count).then_some(0))
    }),
    ("interpretation: the place's low half decides", |m| {
        m.interpretation(13, |input| (input.place as u32 as usize >= input.table.count).then_some(0))
    }),
    ("interpretation: 15 names the highest place", |m| m.interpretation(15, |input| not_interpreted(input).last())),
    ("interpretation: 15 names the lowest reference", |m| {
        m.interpretation(15, |input| {
            let lowest = places(input.row()?.references).next();
            not_interpreted(input).next().and(lowest)
        })
    }),
    ("interpretation: 15 looks at all ancestors", |m| {
        m.interpretation(15, |input| {
            places(input.table.ancestors(input.place)).find(|&place| input.table.rows[place].mark == 0)
        })
    }),
    ("interpretation: 15 looks at the parent only", |m| m.interpretation(15, parent_not_interpreted)),
    ("interpretation: 15 doesn't look at the parent", |m| {
        m.interpretation(15, |input| {
            not_interpreted(input).find(|&place| parent(&input.table, input.place) != Some(place))
        })
    }),
    ("interpretation: 15 looks at all lower places", |m| {
        m.interpretation(15, |input| input.table.rows.iter().take(input.place).position(|row| row.mark == 0))
    }),
    // What is written
    ("interpretation: zeros are written", |m| {
        m.model.interpretation.write = |records, place, _| write(records, place, &[[0; RECORD_NUMBERS]; SLOTS])
    }),
    ("interpretation: nothing is written", |m| m.model.interpretation.write = |_, _, _| {}),
    ("interpretation: one number too many is written", |m| {
        m.model.interpretation.write = |records, place, part| {
            write(records, place, part);
            if let Some(next) = records.get_mut(PART_NUMBERS * (place + 1)) {
                *next = 0;
            }
        }
    }),
    ("interpretation: the number before the part is written", |m| {
        m.model.interpretation.write = |records, place, part| {
            write(records, place, part);
            if let Some(before) = (PART_NUMBERS * place).checked_sub(1) {
                records[before] = 0;
            }
        }
    }),
    ("interpretation: one number too few is written", |m| {
        m.model.interpretation.write = |records, place, part| {
            let last = part_of(place).map_or(0, |part| part.end - 1);
            let old = records[last];
            write(records, place, part);
            records[last] = old;
        }
    }),
    ("interpretation: slots in which nothing is made aren't written", |m| {
        m.model.interpretation.write = |records, place, part| {
            let mut written = *part;
            for (slot, record) in written.iter_mut().enumerate() {
                if record[MADE..] == [0; 4] {
                    *record = record_at(records, place, slot);
                }
            }
            write(records, place, &written);
        }
    }),
    ("interpretation: the last slot isn't written", |m| {
        m.model.interpretation.write = |records, place, part| {
            let mut written = *part;
            written[SLOTS - 1] = record_at(records, place, SLOTS - 1);
            write(records, place, &written);
        }
    }),
    ("interpretation: slots in reverse", |m| {
        m.model.interpretation.write = |records, place, part| {
            let mut written = *part;
            written.reverse();
            write(records, place, &written);
        }
    }),
    ("interpretation: slot after slot, then place after place", |m| m.model.interpretation.write = write_by_slots),
    ("interpretation: parts from the end of the buffer", |m| {
        m.model.interpretation.write = |records, place, part| write(records, PLACES - 1 - place, part)
    }),
    ("interpretation: what the block before has made is cleared", |m| {
        m.model.interpretation.write = |records, place, part| {
            write(records, place, part);
            if let Some(before) = place.checked_sub(1).and_then(part_of) {
                records[before].chunks_exact_mut(RECORD_NUMBERS).for_each(|record| record[MADE..].fill(0));
            }
        }
    }),
    // The mark
    ("interpretation: the place isn't marked", |m| m.model.interpretation.mark = |_, _| {}),
    ("interpretation: the mark is 2", |m| m.model.interpretation.mark = |table, place| table.rows[place].mark = 2),
    ("interpretation: the next place is marked too", |m| {
        m.model.interpretation.mark = |table, place| {
            table.rows[place..].iter_mut().take(2).for_each(|row| row.mark = 1);
        }
    }),
    ("interpretation: the references are unmarked", |m| {
        m.model.interpretation.mark = |table, place| {
            let references = table.rows[place].references;
            places(references).for_each(|lower| table.rows[lower].mark = 0);
            table.rows[place].mark = 1;
        }
    }),
    ("interpretation: the requests are cleared", |m| {
        m.model.interpretation.mark = |table, place| {
            let row = &mut table.rows[place];
            *row = Row { mark: 1, requests: [0; SLOTS], ..*row };
        }
    }),
    // What is answered and left
    ("interpretation: a success answers the place", |m| {
        m.after_interpretation(|answer, _, place, _| value_beside(0, answer, place))
    }),
    ("interpretation: value 0 beside 15", |m| m.after_interpretation(|answer, _, _, _| value_beside(15, answer, 0))),
    ("interpretation: a refusal writes the table's last byte", |m| {
        m.after_interpretation(|answer, table, _, _| {
            if answer.refusal != 0 {
                flip_last(table);
            }
            answer
        })
    }),
    ("interpretation: a refusal writes the buffer's first number", |m| {
        m.after_interpretation(|answer, _, _, records| {
            if let Some(first) = records.first_mut().filter(|_| answer.refusal != 0) {
                *first ^= 1;
            }
            answer
        })
    }),
    ("interpretation: refusal 15 clears the part", |m| {
        m.after_interpretation(|answer, _, place, records| {
            if answer.refusal == 15 {
                write(records, place, &[[0; RECORD_NUMBERS]; SLOTS]);
            }
            answer
        })
    }),
    ("interpretation: refusal 15 marks the place", |m| {
        m.after_interpretation(|answer, table, place, _| {
            if answer.refusal == 15 {
                let mut held = Table::from_bytes(table);
                held.rows[place].mark = 1;
                held.write(table);
            }
            answer
        })
    }),
];

fn parent_not_interpreted(input: &InterpretationInput) -> Option<usize> {
    input.row()?;
    parent(&input.table, input.place).filter(|&place| input.table.rows[place].mark == 0)
}

fn write_by_slots(records: &mut [u16], place: usize, part: &Part) {
    for (slot, record) in part.iter().enumerate() {
        let first = RECORD_NUMBERS * (PLACES * slot + place);
        if let Some(numbers) = records.get_mut(first..first + RECORD_NUMBERS) {
            numbers.copy_from_slice(record);
        }
    }
}
