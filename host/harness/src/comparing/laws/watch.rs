//! What must hold of the watch and of building together, on one table in form.

use std::collections::BTreeSet;

use super::Law;
use crate::comparing::facts::watch::WatchAnswers;
use crate::model::answer::AncestorPlaces;
use crate::model::table::places;

pub const ONES: &str = "law: a count is the number of its mask's ones";
pub const THIRD: &str = "law: at most f are fewer than a third of n";
pub const MORE_BLOCKS: &str = "law: a site is named if it has more blocks than sequence numbers";
pub const LOWER: &str = "law: the ancestors of a place are lower places, so not itself";
pub const CLOSED: &str = "law: the ancestors of a place are its references and their ancestors";
pub const NAMED: &str = "law: whom the watch names gets 16 from building, others who are at the last number 30";

pub const LAWS: [Law<WatchAnswers>; 6] = [
    Law { name: ONES, broken: other_count },
    Law { name: THIRD, broken: not_a_third },
    Law { name: MORE_BLOCKS, broken: not_more_blocks },
    Law { name: LOWER, broken: |answers| wrong_place(answers, |_, place, found| found.places >> place != 0) },
    Law {
        name: CLOSED,
        broken: |answers| wrong_place(answers, |answers, place, found| found.places != closure(answers, place)),
    },
    Law { name: NAMED, broken: other_answer },
];

fn other_count(answers: &WatchAnswers) -> Option<String> {
    if answers.forked.count != answers.forked.sites.count_ones() {
        return Some(format!("{:?}", answers.forked));
    }
    wrong_place(answers, |_, _, found| found.count != found.places.count_ones())
}

/// n is 3f + 1, so k are at most f where 3k is below n.
fn not_a_third(answers: &WatchAnswers) -> Option<String> {
    let few = 3 * answers.forked.count < answers.table.sites.into();
    (answers.forked.at_most_f != few).then(|| format!("{:?} of {} sites", answers.forked, answers.table.sites))
}

/// A site has more blocks than sequence numbers only if it has some number twice.
fn not_more_blocks(answers: &WatchAnswers) -> Option<String> {
    let more = |site: u8| answers.table.own(site).count() > number_count(answers, site);
    let site = (0..answers.table.sites).find(|&site| named(answers, site) != more(site))?;
    Some(format!("site {site}, {:?}", answers.forked))
}

/// By the parent rule a site has a block of every sequence number up to its greatest; where something was retired, some may
/// be gone.
fn number_count(answers: &WatchAnswers, site: u8) -> usize {
    let numbers: BTreeSet<u16> = answers.table.own(site).map(|place| answers.table.rows[place].sequence).collect();
    match answers.table.retired {
        0 => numbers.last().map_or(0, |&greatest| usize::from(greatest) + 1),
        _ => numbers.len(),
    }
}

fn named(answers: &WatchAnswers, site: u8) -> bool {
    answers.forked.sites >> site & 1 == 1
}

/// The first place whose ancestors are wrong.
fn wrong_place(answers: &WatchAnswers, wrong: fn(&WatchAnswers, usize, &AncestorPlaces) -> bool) -> Option<String> {
    let place = (0..answers.ancestors.len()).find(|&place| wrong(answers, place, &answers.ancestors[place]))?;
    Some(format!("place {place}, {:?}", answers.ancestors[place]))
}

fn closure(answers: &WatchAnswers, place: usize) -> u64 {
    let references = answers.table.rows[place].references;
    places(references).fold(references, |set, lower| set | answers.ancestors[lower].places)
}

/// Room is there for any block, so nothing else is refused.
fn other_answer(answers: &WatchAnswers) -> Option<String> {
    let at_last = |site: u8| answers.table.own(site).any(|place| answers.table.rows[place].sequence == u16::MAX);
    let expected = |site: u8| match (named(answers, site), at_last(site)) {
        (true, _) => 16,
        (false, true) => 30,
        (false, false) => 0,
    };
    let site =
        (0..answers.table.sites).find(|&site| answers.build_answers[usize::from(site)].refusal != expected(site))?;
    Some(format!("site {site} gets {:?}, {:?}", answers.build_answers[usize::from(site)], answers.forked))
}
