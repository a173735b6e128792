//! What must hold of an arrival with a shelf, by what was there before and after it.

use super::Law;
use crate::comparing::buffers::first_other;
use crate::comparing::facts::arrival::{ArrivalFacts, ArrivalTakenBack, PlainAdmissions};
use crate::model::answer::{Answer, ArrivalAnswer};
use crate::model::sha256::sha256;
use crate::model::shelf::Entry;
use crate::model::sizes::RESERVED;
use crate::model::table::Table;

pub const STAYS_IN_FORM: &str = "law: a shelf in form stays so";
pub const NEVER_19: &str = "law: a campaign that holds fewer than 2 places never gets 19";
pub const ONLY_BY_9: &str = "law: by a 9 the shelf changes and nothing else, by another refusal nothing";
pub const ACCOUNTED_FOR: &str = "law: what waited waits still or is listed, a 9 comes to wait, and nothing else does";
pub const TRIED_OUT: &str = "law: after an admission each block that still waits for the campaign gets 9";
pub const PLAIN: &str = "law: an arrival and its tries are plain admissions in the order made";
pub const ONE_BY_ONE: &str =
    "law: an arrival and all that it let in, taken back one by one, leave the table before it, all bytes";
pub const WAITS_NO_MORE: &str =
    "law: what was let in and taken back doesn't wait again: the same arrival then lets in nothing";

pub const LAWS: [Law<ArrivalFacts>; 8] = [
    // First, since only some arrivals are taken back: so wrong rules show whether each law says something by itself.
    Law { name: ONE_BY_ONE, broken: not_taken_back },
    Law { name: WAITS_NO_MORE, broken: waits_again },
    Law { name: STAYS_IN_FORM, broken: out_of_form },
    Law { name: NEVER_19, broken: too_soon },
    Law { name: ONLY_BY_9, broken: changed },
    Law { name: ACCOUNTED_FOR, broken: lost_or_invented },
    Law {
        name: TRIED_OUT,
        broken: |facts| facts.waiting_answers.iter().find(|answer| answer.refusal != 9).map(answer_text),
    },
    Law { name: PLAIN, broken: not_plain },
];

fn answer_text(answer: &Answer) -> String {
    format!("{answer:?}")
}

/// A call that isn't refused with 2 had a shelf in form, unless it was refused with 21 or 17, which come before 2.
fn out_of_form(facts: &ArrivalFacts) -> Option<String> {
    (facts.plain.is_some() && !facts.in_form).then(|| answer_text(&facts.answer))
}

fn too_soon(facts: &ArrivalFacts) -> Option<String> {
    let holds = facts.before.shelf.holds(facts.campaign);
    (facts.answer.refusal == 19 && holds < RESERVED).then(|| format!("it holds {holds}"))
}

fn changed(facts: &ArrivalFacts) -> Option<String> {
    let ArrivalFacts { before, after, answer, listed, .. } = facts;
    let table_stays = before.table == after.table;
    let shelf_stays = before.shelf.count == after.shelf.count && before.shelf.entries == after.shelf.entries;
    let lawful = match answer.refusal {
        0 => true,
        9 => table_stays && listed.is_empty(),
        _ => table_stays && shelf_stays && listed.is_empty(),
    };
    (!lawful).then(|| format!("{answer:?}, {} ended", listed.len()))
}

/// What waits keeps its order and a new block comes last; of the campaign's as many are gone as are listed.
fn lost_or_invented(facts: &ArrivalFacts) -> Option<String> {
    let ArrivalFacts { campaign, before, after, answer, listed, .. } = facts;
    let mut expected: Vec<Entry> = before.shelf.waiting().to_vec();
    if answer.refusal == 9 {
        expected.push(Entry::of(*campaign, &facts.arrival.block));
    }
    let wait = |entry: &Entry| after.shelf.waiting().contains(entry);
    let gone: Vec<Entry> = expected.iter().copied().filter(|entry| !wait(entry)).collect();
    expected.retain(wait);
    let new = expected != after.shelf.waiting();
    let others = gone.iter().any(|entry| entry.campaign != *campaign);
    let untold = gone.len() != listed.len() || facts.plain.as_ref().is_some_and(|plain| !plain.all_known);
    let waits = after.shelf.waits(*campaign, &facts.arrival.block);
    let not_kept = answer.refusal == 9 && !waits;
    (new || others || untold || not_kept)
        .then(|| format!("{answer:?}, {} gone, listed {listed:?}, {} wait", gone.len(), after.shelf.waiting().len()))
}

/// Plain admissions give the answer, the outcomes and the table of the arrival; 19 and 20 are in the place of a plain 9.
fn not_plain(facts: &ArrivalFacts) -> Option<String> {
    let PlainAdmissions { admissions, table, .. } = facts.plain.as_ref()?;
    let (first, tries) = admissions.split_first()?;
    let arrival = match facts.answer.refusal {
        19 | 20 => first.1.refusal == 9,
        _ => first.1 == facts.answer,
    };
    let as_listed = |answer: Answer, listed: [u64; 2]| match answer.refusal {
        0 => listed == [0, answer.value as u64],
        number => listed == [number.into(), 0],
    };
    let all = tries.len() == facts.listed.len()
        && tries.iter().zip(&facts.listed).all(|((_, answer), listed)| as_listed(*answer, *listed));
    let same = arrival && all && *table == facts.after.table;
    (!same).then(|| {
        let answers: Vec<Answer> = admissions.iter().map(|(_, answer)| *answer).collect();
        let held = Table::from_bytes(&facts.after.table).place_of(&sha256(&facts.arrival.block));
        format!("plainly {answers:?}, the arrival at {held:?}, listed {:?}", facts.listed)
    })
}

fn not_taken_back(facts: &ArrivalFacts) -> Option<String> {
    let ArrivalTakenBack { refusals, table, .. } = facts.taken_back.as_ref()?;
    let other = first_other("table", table, &facts.before.table);
    let refused = refusals.iter().any(|&refusal| refusal != 0);
    (refused || other.is_some()).then(|| format!("{refusals:?}, {other:?}"))
}

/// With fewer blocks held, each block that still waited gets 9, as it did when more were held.
fn waits_again(facts: &ArrivalFacts) -> Option<String> {
    let ArrivalTakenBack { second_answer, shelf, .. } = facts.taken_back.as_ref()?;
    let other = first_other("shelf", shelf, &facts.after.shelf.to_bytes());
    let alone = ArrivalAnswer { answer: facts.answer, ended: 0 };
    (*second_answer != alone || other.is_some()).then(|| format!("{second_answer:?}, {other:?}"))
}
