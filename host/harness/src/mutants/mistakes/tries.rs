//! Mistakes in the tries after an admission: in what is tried, in which order, in what becomes of it and in how it is
//! listed.

use super::arrival::change_row;
use super::{ArrivalBuffers, Mistake};
use crate::model::answer::{Answer, ArrivalAnswer};
use crate::model::block;
use crate::model::shelf::{Entry, Shelf, NOTHING};
use crate::model::shelving::{note, outcome, tried, Outcome};
use crate::model::sizes::{CAMPAIGNS, MOST_HELD, PLACES, SHELF_PLACES, SLOTS};
use crate::model::table::Row;

pub const MISTAKES: &[Mistake] = &[
    // When
    (NO_TRIES, |m| m.model.shelving.tries_after = |_| false),
    (AFTER_EVERY_ARRIVAL, |m| m.model.shelving.tries_after = |_| true),
    ("tries: after a 9 too", |m| m.model.shelving.tries_after = |answer| [0, 9].contains(&answer.refusal)),
    ("tries: after an 8 too", |m| m.model.shelving.tries_after = |answer| [0, 8].contains(&answer.refusal)),
    ("tries: after a 10 too", |m| m.model.shelving.tries_after = |answer| [0, 10].contains(&answer.refusal)),
    ("tries: after an 11 too", |m| m.model.shelving.tries_after = |answer| [0, 11].contains(&answer.refusal)),
    ("tries: not after an arrival at place 0", |m| {
        m.model.shelving.tries_after = |answer| answer.refusal == 0 && answer.value > 0
    }),
    ("tries: not after an arrival at the last place", |m| {
        m.model.shelving.tries_after = |answer| answer.refusal == 0 && answer.value + 1 < PLACES
    }),
    // Passes. One more after a pass that lets none in would find all as it was.
    (ONE_PASS, |m| m.model.shelving.another = |_| false),
    ("tries: two passes at most", |m| m.model.shelving.another = |pass| pass.let_in > 0 && pass.number < 2),
    ("tries: three passes at most", |m| m.model.shelving.another = |pass| pass.let_in > 0 && pass.number < 3),
    ("tries: nine passes at most", |m| m.model.shelving.another = |pass| pass.let_in > 0 && pass.number < 9),
    ("tries: a pass that drops is the last", |m| {
        m.model.shelving.another = |pass| pass.let_in > 0 && pass.dropped == 0
    }),
    ("tries: a pass that lets only one in is the last", |m| m.model.shelving.another = |pass| pass.let_in > 1),
    ("tries: a pass ends with the first that is let in", |m| m.model.shelving.ends_pass = |answer| answer.refusal == 0),
    ("tries: a pass ends with the first that is dropped", |m| {
        m.model.shelving.ends_pass = |answer| ![0, 9].contains(&answer.refusal)
    }),
    (ENDS_WITH_9, |m| m.model.shelving.ends_pass = |answer| answer.refusal == 9),
    ("tries: a pass ends with the first 11", |m| m.model.shelving.ends_pass = |answer| answer.refusal == 11),
    // What is tried
    ("tries: the newest first", |m| {
        m.model.shelving.tried = |shelf, campaign| tried(shelf, campaign).into_iter().rev().collect()
    }),
    ("tries: by their bytes", |m| {
        m.model.shelving.tried = |shelf, campaign| by(shelf, campaign, |entry| entry.block().to_vec())
    }),
    ("tries: by their lengths", |m| {
        m.model.shelving.tried = |shelf, campaign| by(shelf, campaign, |entry| entry.length)
    }),
    ("tries: by their sites", |m| {
        m.model.shelving.tried = |shelf, campaign| by(shelf, campaign, |entry| block::site(entry.block()))
    }),
    ("tries: by their sequence numbers", |m| {
        m.model.shelving.tried = |shelf, campaign| by(shelf, campaign, |entry| block::sequence(entry.block()))
    }),
    ("tries: by how many references they have", |m| {
        m.model.shelving.tried = |shelf, campaign| by(shelf, campaign, |entry| block::reference_count(entry.block()))
    }),
    (ALL_CAMPAIGNS, |m| m.model.shelving.tried = |shelf, _| shelf.waiting().to_vec()),
    ("tries: what waits for the campaign, then what waits for others", |m| {
        m.model.shelving.tried = |shelf, campaign| {
            let others = shelf.waiting().iter().filter(|entry| entry.campaign != campaign).copied();
            tried(shelf, campaign).into_iter().chain(others).collect()
        }
    }),
    (NEXT_CAMPAIGN, |m| m.model.shelving.tried = |shelf, campaign| tried(shelf, (campaign + 1) % CAMPAIGNS as u8)),
    (SECOND_HALF_FIRST, |m| {
        m.model.shelving.tried = |shelf, campaign| {
            let (first, second) = shelf.waiting().split_at(shelf.waiting().len() / 2);
            let all = second.iter().chain(first);
            all.filter(|entry| entry.campaign == campaign).copied().collect()
        }
    }),
    ("tries: the first that waits isn't tried", |m| {
        m.model.shelving.tried = |shelf, campaign| tried(shelf, campaign).into_iter().skip(1).collect()
    }),
    ("tries: the last that waits isn't tried", |m| {
        m.model.shelving.tried = |shelf, campaign| {
            let mut all = tried(shelf, campaign);
            all.pop();
            all
        }
    }),
    ("tries: nine at most are tried in a pass", |m| {
        m.model.shelving.tried = |shelf, campaign| tried(shelf, campaign).into_iter().take(MOST_HELD - 1).collect()
    }),
    ("tries: the 16th place of the shelf isn't looked at", |m| {
        m.model.shelving.tried = |shelf, campaign| {
            let last = &shelf.entries[SHELF_PLACES - 1];
            tried(shelf, campaign).into_iter().filter(|entry| entry != last || *last == NOTHING).collect()
        }
    }),
    ("tries: only blocks of the oldest's site are tried", |m| {
        m.model.shelving.tried = |shelf, campaign| {
            let all = tried(shelf, campaign);
            let Some(site) = all.first().map(|entry| block::site(entry.block())) else { return all };
            all.into_iter().filter(|entry| block::site(entry.block()) == site).collect()
        }
    }),
    ("tries: with verdict 0", |m| m.model.shelving.verdict = 0),
    // What becomes of it
    ("tries: what is still refused with 9 is dropped", |m| {
        m.model.shelving.outcome = |answer| Some(outcome(answer).unwrap_or(Outcome { number: 9, place: 0 }))
    }),
    (NOTHING_DROPPED, |m| m.model.shelving.outcome = |answer| outcome(answer).filter(|ended| ended.number == 0)),
    ("tries: what is refused with 4 waits on", |m| m.model.shelving.outcome = |answer| unless(answer, 4)),
    ("tries: what is refused with 8 waits on", |m| m.model.shelving.outcome = |answer| unless(answer, 8)),
    ("tries: what is refused with 10 waits on", |m| m.model.shelving.outcome = |answer| unless(answer, 10)),
    ("tries: what is refused with 11 waits on", |m| m.model.shelving.outcome = |answer| unless(answer, 11)),
    (HELD_COUNTS_AS_LET_IN, |m| {
        m.model.shelving.outcome = |answer| match answer.refusal {
            8 => Some(Outcome { number: 0, place: answer.value }),
            _ => outcome(answer),
        }
    }),
    ("tries: what is dropped is listed with the value beside", |m| {
        m.model.shelving.outcome = |answer| outcome(answer).map(|ended| Outcome { place: answer.value, ..ended })
    }),
    ("tries: the rows of those let in are marked", |m| {
        m.after_arrival(|answered, buffers| {
            for_each_let_in(&answered, buffers, |row| row.mark = 1);
            answered
        })
    }),
    ("tries: those let in lose their requests", |m| {
        m.after_arrival(|answered, buffers| {
            for_each_let_in(&answered, buffers, |row| row.requests = [0; SLOTS]);
            answered
        })
    }),
    ("tries: those let in aren't held", |m| {
        m.after_arrival(|answered, buffers| {
            for_each_let_in(&answered, buffers, |row| *row = Row::default());
            answered
        })
    }),
    // Its place on the shelf
    (STAYS_ON_SHELF, |m| m.model.shelving.take = |_, _| {}),
    ("tries: the last block takes a free place", |m| {
        m.model.shelving.take = |shelf, entry| {
            if let Some(at) = shelf.waiting().iter().position(|other| other == entry) {
                let last = shelf.count - 1;
                shelf.entries[at] = shelf.entries[last];
                shelf.entries[last] = NOTHING;
                shelf.count = last;
            }
        }
    }),
    ("tries: a free place stays between the others", |m| {
        m.model.shelving.take = |shelf, entry| {
            if let Some(at) = shelf.waiting().iter().position(|other| other == entry) {
                shelf.entries[at] = NOTHING;
            }
        }
    }),
    ("tries: the last place isn't cleared", |m| {
        m.model.shelving.take = |shelf, entry| {
            let last = shelf.entries[shelf.count - 1];
            shelf.take(entry);
            shelf.entries[shelf.count] = last;
        }
    }),
    ("tries: the last place's campaign isn't cleared", |m| {
        m.model.shelving.take = |shelf, entry| {
            let campaign = shelf.entries[shelf.count - 1].campaign;
            shelf.take(entry);
            shelf.entries[shelf.count].campaign = campaign;
        }
    }),
    ("tries: a block moves up without what stands behind it", |m| {
        m.model.shelving.take = |shelf, entry| {
            let before = shelf.clone();
            shelf.take(entry);
            for (at, moved) in shelf.entries.iter_mut().enumerate().take(shelf.count) {
                let length = moved.block().len();
                moved.bytes[length..].copy_from_slice(&before.entries[at].bytes[length..]);
            }
        }
    }),
    ("tries: the same bytes for another campaign leave too", |m| {
        m.model.shelving.take = |shelf, entry| {
            for campaign in 0..CAMPAIGNS as u8 {
                shelf.take(&Entry { campaign, ..*entry });
            }
        }
    }),
    (FIRST_OF_EQUAL_BYTES, |m| {
        m.model.shelving.take = |shelf, entry| {
            let first = shelf.waiting().iter().find(|other| other.block() == entry.block()).copied();
            shelf.take(&first.unwrap_or(*entry));
        }
    }),
    // How it is listed
    (IN_REVERSE, |m| {
        m.model.shelving.note = |outcomes, ended| note(outcomes, &ended.iter().rev().copied().collect::<Vec<_>>())
    }),
    ("tries: those let in are listed first", |m| {
        m.model.shelving.note = |outcomes, ended| {
            let mut ended = ended.to_vec();
            ended.sort_by_key(|outcome| outcome.number != 0);
            note(outcomes, &ended);
        }
    }),
    ("tries: those dropped are listed by their numbers", |m| {
        m.model.shelving.note = |outcomes, ended| {
            let mut ended = ended.to_vec();
            ended.sort_by_key(|outcome| (outcome.number, outcome.place));
            note(outcomes, &ended);
        }
    }),
    (PLACE_FIRST, |m| {
        m.model.shelving.note = |outcomes, ended| {
            note(outcomes, ended);
            outcomes.chunks_exact_mut(2).take(ended.len()).for_each(<[u64]>::reverse);
        }
    }),
    ("tries: a place is listed one more", |m| {
        m.model.shelving.note = |outcomes, ended| {
            let one_more =
                |outcome: &Outcome| Outcome { place: outcome.place + usize::from(outcome.number == 0), ..*outcome };
            note(outcomes, &ended.iter().map(one_more).collect::<Vec<_>>());
        }
    }),
    ("tries: only those let in are listed", |m| {
        m.model.shelving.note = |outcomes, ended| {
            note(outcomes, &ended.iter().filter(|outcome| outcome.number == 0).copied().collect::<Vec<_>>())
        }
    }),
    ("tries: only those dropped are listed", |m| {
        m.model.shelving.note = |outcomes, ended| {
            note(outcomes, &ended.iter().filter(|outcome| outcome.number != 0).copied().collect::<Vec<_>>())
        }
    }),
    ("tries: the tenth isn't listed", |m| {
        m.model.shelving.note = |outcomes, ended| note(outcomes, &ended[..ended.len().min(MOST_HELD - 1)])
    }),
    (NOTHING_LISTED, |m| m.model.shelving.note = |_, _| {}),
    ("tries: listed from the outcomes' end", |m| {
        m.model.shelving.note = |outcomes, ended| {
            let first = outcomes.len().saturating_sub(2 * ended.len());
            note(&mut outcomes[first..], ended);
        }
    }),
    ("tries: numbers first, then places", |m| {
        m.model.shelving.note = |outcomes, ended| {
            let numbers = ended.iter().map(|outcome| u64::from(outcome.number));
            let places = ended.iter().map(|outcome| outcome.place as u64);
            outcomes.iter_mut().zip(numbers.chain(places)).for_each(|(to, number)| *to = number);
        }
    }),
    ("tries: the arrival is listed too", |m| {
        m.after_arrival(|answered, buffers| {
            if answered.answer.refusal != 0 {
                return answered;
            }
            let ended = answered.ended + 1;
            if let Some(pairs) = buffers.outcomes.get_mut(..2 * ended) {
                pairs.rotate_right(2);
                pairs[..2].copy_from_slice(&[0, answered.answer.value as u64]);
            }
            ArrivalAnswer { ended, ..answered }
        })
    }),
    ("tries: the outcomes after the last are zeroed", |m| {
        m.after_arrival(|answered, buffers| {
            if let Some(rest) = buffers.outcomes.get_mut(2 * answered.ended..) {
                rest.fill(0);
            }
            answered
        })
    }),
    ("tries: the number after the last outcome is written", |m| {
        m.after_arrival(|answered, buffers| {
            if let Some(next) = buffers.outcomes.get_mut(2 * answered.ended).filter(|_| answered.answer.refusal == 0) {
                *next ^= 1;
            }
            answered
        })
    }),
    ("tries: the numbers from 20 on are zeroed", |m| {
        m.after_arrival(|answered, buffers| {
            if let Some(rest) = buffers.outcomes.get_mut(2 * MOST_HELD..) {
                rest.fill(0);
            }
            answered
        })
    }),
    ("tries: a refusal clears the outcomes", |m| {
        m.after_arrival(|answered, buffers| {
            if answered.answer.refusal != 0 {
                buffers.outcomes.fill(0);
            }
            answered
        })
    }),
    ("tries: 17 writes what there is room for", |m| {
        m.after_arrival(|answered, buffers| {
            if let Some(first) = buffers.outcomes.first_mut().filter(|_| answered.answer.refusal == 17) {
                *first ^= 1;
            }
            answered
        })
    }),
    // How many ended
    ("tries: one more is counted", |m| m.after_arrival(|answered, _| counted(answered, answered.ended + 1))),
    ("tries: the arrival is counted", |m| {
        m.after_arrival(|answered, _| counted(answered, answered.ended + usize::from(answered.answer.refusal == 0)))
    }),
    ("tries: a waiting arrival is counted", |m| {
        m.after_arrival(|answered, _| counted(answered, answered.ended + usize::from(answered.answer.refusal == 9)))
    }),
    ("tries: the numbers written are counted", |m| {
        m.after_arrival(|answered, _| counted(answered, 2 * answered.ended))
    }),
    ("tries: none is counted", |m| m.after_arrival(|answered, _| counted(answered, 0))),
    ("tries: only those let in are counted", |m| {
        m.after_arrival(|answered, buffers| {
            let listed = buffers.outcomes.chunks_exact(2).take(answered.ended);
            counted(answered, listed.filter(|pair| pair[0] == 0).count())
        })
    }),
    ("tries: only those dropped are counted", |m| {
        m.after_arrival(|answered, buffers| {
            let listed = buffers.outcomes.chunks_exact(2).take(answered.ended);
            counted(answered, listed.filter(|pair| pair[0] != 0).count())
        })
    }),
];

pub const NO_TRIES: &str = "tries: none";
pub const AFTER_EVERY_ARRIVAL: &str = "tries: after every arrival";
pub const ONE_PASS: &str = "tries: one pass";
pub const ENDS_WITH_9: &str = "tries: a pass ends with the first 9";
pub const ALL_CAMPAIGNS: &str = "tries: what waits for any campaign";
pub const NEXT_CAMPAIGN: &str = "tries: what waits for the next campaign";
pub const SECOND_HALF_FIRST: &str = "tries: those in the second half of the shelf first";
pub const HELD_COUNTS_AS_LET_IN: &str = "tries: what is held already counts as let in";
pub const NOTHING_DROPPED: &str = "tries: nothing is dropped";
pub const STAYS_ON_SHELF: &str = "tries: what is let in or dropped stays on the shelf";
pub const FIRST_OF_EQUAL_BYTES: &str = "tries: the first of equal bytes leaves, whosever it is";
pub const IN_REVERSE: &str = "tries: listed in reverse";
pub const PLACE_FIRST: &str = "tries: place before number";
pub const NOTHING_LISTED: &str = "tries: nothing is listed";

/// What a pass tries, in another order.
fn by<K: Ord>(shelf: &Shelf, campaign: u8, key: fn(&Entry) -> K) -> Vec<Entry> {
    let mut all = tried(shelf, campaign);
    all.sort_by_key(key);
    all
}

/// A block refused with this number waits on.
fn unless(answer: Answer, number: u8) -> Option<Outcome> {
    outcome(answer).filter(|ended| ended.number != number)
}

/// Changes what the table holds for each block that is listed as let in.
fn for_each_let_in(answered: &ArrivalAnswer, buffers: ArrivalBuffers, change: fn(&mut Row)) {
    for listed in buffers.outcomes.chunks_exact(2).take(answered.ended) {
        if listed[0] == 0 {
            change_row(buffers.table, listed[1] as usize, change);
        }
    }
}

fn counted(answered: ArrivalAnswer, ended: usize) -> ArrivalAnswer {
    ArrivalAnswer { ended, ..answered }
}
