//! Document 01, "Watch for forks". It only looks at the table.

use crate::model::answer::{AncestorPlaces, ForkedSites};
use crate::model::checks::{first_refusal, Check};
use crate::model::setup::faults;
use crate::model::table::{Row, Table};

/// What the watch is given, with the answer of form.
pub struct WatchInput {
    pub table: Table,
    pub in_form: bool,
    /// Whose ancestors are asked for. Forks are asked for without a place.
    pub place: usize,
}

/// Whether two blocks make their site a forked one.
pub type Twins = fn(&Row, &Row) -> bool;

/// The rules. Each is a value, so that the self-test can change one.
pub struct Watch {
    pub fork_checks: Vec<Check<WatchInput>>,
    pub ancestor_checks: Vec<Check<WatchInput>>,
    pub twins: Twins,
    /// The mask of the forked sites.
    pub forked: fn(&Table, Twins) -> u16,
    /// The set of the ancestors of a place.
    pub ancestors: fn(&Table, usize) -> u64,
    /// The count of a mask's ones.
    pub ones: fn(u64) -> u32,
    /// Whether so many forked sites are at most f, for n sites.
    pub at_most_f: fn(u32, u8) -> bool,
}

/// "The first part checks 2"
pub const FORK_CHECKS: [Check<WatchInput>; 1] = [NOT_IN_FORM];

/// "the second 2 and then 13"
pub const ANCESTOR_CHECKS: [Check<WatchInput>; 2] =
    [NOT_IN_FORM, Check { number: 13, finds: |input| (input.place >= input.table.count).then_some(0) }];

const NOT_IN_FORM: Check<WatchInput> = Check { number: 2, finds: |input| (!input.in_form).then_some(0) };

impl Watch {
    pub fn document() -> Watch {
        Watch {
            fork_checks: FORK_CHECKS.to_vec(),
            ancestor_checks: ANCESTOR_CHECKS.to_vec(),
            twins,
            forked,
            ancestors: Table::ancestors,
            ones: u64::count_ones,
            at_most_f: |count, sites| count <= faults(sites),
        }
    }

    /// "Gives the mask of sites with two held blocks of one sequence number, its count of ones, and whether that is at
    /// most f."
    pub fn forks(&self, input: &WatchInput) -> ForkedSites {
        if let Some(answer) = first_refusal(&self.fork_checks, input) {
            return ForkedSites { refusal: answer.refusal, ..ForkedSites::default() };
        }
        let sites = (self.forked)(&input.table, self.twins);
        let count = (self.ones)(sites.into());
        ForkedSites { refusal: 0, sites, count, at_most_f: (self.at_most_f)(count, input.table.sites) }
    }

    /// "Also, for a place, the mask and count of all its ancestors, itself left out."
    pub fn ancestors(&self, input: &WatchInput) -> AncestorPlaces {
        if let Some(answer) = first_refusal(&self.ancestor_checks, input) {
            return AncestorPlaces { refusal: answer.refusal, ..AncestorPlaces::default() };
        }
        let places = (self.ancestors)(&input.table, input.place);
        AncestorPlaces { refusal: 0, places, count: (self.ones)(places) }
    }
}

/// "two held blocks of one sequence number": of one site, whether interpreted or not.
pub fn twins(one: &Row, other: &Row) -> bool {
    one.site == other.site && one.sequence == other.sequence
}

pub fn forked(table: &Table, twins: Twins) -> u16 {
    let held = table.held();
    let has_twin = |place: usize| held[..place].iter().any(|lower| twins(lower, &held[place]));
    let sites = (0..held.len()).filter(|&place| has_twin(place)).map(|place| held[place].site);
    sites.fold(0, |mask, site| mask | bit(site))
}

/// A site's bit in a mask. Only a model without check 2 comes here with a site that has none.
pub fn bit(site: u8) -> u16 {
    1u16.checked_shl(site.into()).unwrap_or(0)
}
