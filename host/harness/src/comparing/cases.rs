//! The cases: what is called in each, drawn from the case's own generator.

mod admissions;
mod builds;
mod campaigns;
mod groups;
mod interpretations;
mod joins;
mod listings;
mod long_campaigns;
mod replays;
mod retirings;
mod setups;
mod shelves;
mod takings_back;
mod watches;

use std::ops::Range;

use crate::comparing::compare::Compare;
use crate::comparing::counts::Counts;
use crate::comparing::difference::Difference;
use crate::drawing::random::Random;
use crate::model::calls::Calls;
use crate::model::Model;

/// A kind of cases, and how many of all cases are of it.
pub struct Kind {
    pub name: &'static str,
    shares: usize,
    run: fn(&Random, &mut Compare) -> Result<(), Difference>,
}

pub static KINDS: [Kind; 17] = [
    Kind { name: "setups", shares: 1, run: setups::run },
    Kind { name: "arrivals", shares: 2, run: admissions::arrivals },
    Kind { name: "tables", shares: 2, run: admissions::tables_in_form },
    Kind { name: "damaged", shares: 3, run: admissions::damaged_tables },
    Kind { name: "interpretations", shares: 3, run: interpretations::run },
    Kind { name: "campaigns", shares: 2, run: campaigns::run },
    Kind { name: "replays", shares: 2, run: replays::run },
    Kind { name: "watches", shares: 2, run: watches::run },
    Kind { name: "builds", shares: 2, run: builds::run },
    GROUPS,
    SHELVES,
    JOINS,
    RETIRINGS,
    TAKINGS_BACK,
    LASTING,
    Kind { name: "long", shares: 0, run: long_campaigns::run },
    Kind { name: "last", shares: 0, run: long_campaigns::to_the_end },
];

// The self-test names these. Of groups there are few cases, since they take long.
pub const GROUPS: Kind = Kind { name: "groups", shares: 1, run: groups::run };
pub const SHELVES: Kind = Kind { name: "shelves", shares: 2, run: shelves::run };
pub const JOINS: Kind = Kind { name: "joins", shares: 2, run: joins::run };

pub const RETIRINGS: Kind = Kind { name: "retirings", shares: 2, run: retirings::run };

pub const TAKINGS_BACK: Kind = Kind { name: "takings-back", shares: 1, run: takings_back::run };

/// Long campaigns, shorter than those of the kind `long`. They are run only where they are named: a case takes long.
pub const LASTING: Kind = Kind { name: "lasting", shares: 0, run: long_campaigns::shorter };

/// Listings are run only where they are named: a case takes a process, of a program that not every run has.
pub static LISTINGS: Kind = Kind { name: "listings", shares: 0, run: listings::run };

/// Which cases are run.
#[derive(Clone)]
pub struct Cases {
    pub seed: u64,
    pub numbers: Range<u64>,
    /// All cases are of this kind; if none is named, each is of a drawn one.
    pub kind: Option<&'static Kind>,
}

/// A case in which the two sides differ.
pub struct FoundDifference {
    pub case: u64,
    pub kind: &'static str,
    pub difference: Difference,
}

/// Runs the cases in turn up to the first in which the two sides differ, which it gives. The cases left are those after
/// it.
pub fn first_difference(
    tested: &dyn Calls,
    model: &Model,
    cases: &mut Cases,
    counts: &mut Counts,
) -> Option<FoundDifference> {
    for case in &mut cases.numbers {
        counts.cases += 1;
        let random = Random::for_case(cases.seed, case);
        // Drawn in any case: so a case is the same whether its kind was drawn or named.
        let drawn = drawn_kind(&random);
        let kind = cases.kind.unwrap_or(drawn);
        let mut compare = Compare { tested, model, counts };
        if let Err(difference) = (kind.run)(&random, &mut compare) {
            return Some(FoundDifference { case, kind: kind.name, difference });
        }
    }
    None
}

fn drawn_kind(random: &Random) -> &'static Kind {
    let shares = KINDS.iter().flat_map(|kind| std::iter::repeat_n(kind, kind.shares));
    let all: usize = KINDS.iter().map(|kind| kind.shares).sum();
    shares.clone().nth(random.below(all)).expect("as many as all shares")
}
