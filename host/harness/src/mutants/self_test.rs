//! The self-test: a comparison that can't fail shows nothing. So mutants of the model take the library's place, and the
//! listing program's, and each must be found. Neither library nor program is called.

use std::ops::Range;

use super::{examples, mistakes};
use crate::comparing::cases::{
    first_difference, Cases, FoundDifference, Kind, GROUPS, JOINS, LASTING, LISTINGS, RETIRINGS, SHELVES, TAKINGS_BACK,
};
use crate::comparing::counts::Counts;
use crate::model::calls::Calls;
use crate::model::Model;

/// Says for each mutant after how many cases it was found. Whether all were.
pub fn run(cases: &Cases) -> bool {
    let model = Model::document();
    let failed = examples::failed(&model);
    if !failed.is_empty() {
        println!("the model fails the document's examples: {}", failed.join("; "));
        return false;
    }
    let listings = first(MOST_LISTINGS, cases, &LISTINGS);
    let groups = first(MOST_GROUPS, cases, &GROUPS);
    let shelves = first(MOST_SHELVES, cases, &SHELVES);
    let joins = first(MOST_JOINS, cases, &JOINS);
    let retirings = first(MOST_RETIRINGS, cases, &RETIRINGS);
    let takings_back = first(MOST_TAKINGS_BACK, cases, &TAKINGS_BACK);
    let lasting = first(MOST_LASTING, cases, &LASTING);
    // The other way round: what follows the rules must not be found to differ.
    for cases in [cases, &listings, &shelves, &joins, &retirings, &takings_back, &lasting] {
        if let Some(found) = find(&model, &model, &mut cases.clone()) {
            println!("the model differs from itself, case {}, kind {}: {}", found.case, found.kind, found.difference);
            return false;
        }
    }
    let mut tally = Tally::default();
    let by_cases = [
        (mistakes::all(), cases),
        (mistakes::of_listings(), &listings),
        (mistakes::of_shelves(), &shelves),
        (mistakes::of_joins(), &joins),
        (mistakes::of_retirings(), &retirings),
        (mistakes::of_takings_back(), &takings_back),
    ];
    for (mutants, cases) in by_cases {
        for mutant in mutants {
            let found = find(&mutant, &model, &mut cases.clone());
            tally.note(cases, found.map(|found| found.case), &mutant.name);
        }
    }
    let by_laws = [
        (mistakes::lawless(), cases),
        (mistakes::lawless_in_groups(), &groups),
        (mistakes::lawless_with_shelves(), &shelves),
        (mistakes::lawless_in_joins(), &joins),
        (mistakes::lawless_in_retirings(), &retirings),
        (mistakes::lawless_in_takings_back(), &takings_back),
        (mistakes::lawless_for_long(), &lasting),
    ];
    for (lawless, cases) in by_laws {
        for (mutant, law) in lawless {
            let name = format!("{law}: broken by {}", mutant.name);
            tally.note(cases, find_law(mutant.model(), law, cases), &name);
        }
    }
    println!("{} mutants found, {} survived", tally.found, tally.survived);
    tally.survived == 0
}

// How many cases there are at most of kinds that take longer, and whose mutants are found sooner.
const MOST_LISTINGS: u64 = 400;
const MOST_GROUPS: u64 = 1000;
const MOST_SHELVES: u64 = 1000;
const MOST_JOINS: u64 = 1000;
const MOST_RETIRINGS: u64 = 1500;
const MOST_TAKINGS_BACK: u64 = 1000;
const MOST_LASTING: u64 = 12;

/// The first of the cases, so many at most, all of one kind.
fn first(most: u64, cases: &Cases, kind: &'static Kind) -> Cases {
    let Range { start, end } = cases.numbers;
    Cases { seed: cases.seed, numbers: start..end.min(start.saturating_add(most)), kind: Some(kind) }
}

#[derive(Default)]
struct Tally {
    found: u64,
    survived: u64,
}

impl Tally {
    fn note(&mut self, cases: &Cases, found: Option<u64>, name: &str) {
        match found {
            Some(case) => {
                self.found += 1;
                println!("{:>6} cases  {name}", case - cases.numbers.start + 1);
            }
            None => {
                self.survived += 1;
                println!("SURVIVED      {name}");
            }
        }
    }
}

fn find(tested: &dyn Calls, model: &Model, cases: &mut Cases) -> Option<FoundDifference> {
    first_difference(tested, model, cases, &mut Counts::default())
}

/// The first case in which a law is broken, with the same rules on both sides. Other laws may be broken before.
fn find_law(rules: &Model, law: &str, cases: &Cases) -> Option<u64> {
    let mut cases = cases.clone();
    loop {
        let found = find(rules, rules, &mut cases)?;
        if found.difference.call == law {
            return Some(found.case);
        }
    }
}
