//! What must hold of the answers, whatever rules the model has: equal calls on both sides of the comparison don't show
//! it, since the model could be wrong itself. Each set of laws is about one thing.

mod arrivals;
mod building;
mod campaign_runs;
mod joins;
mod joins_by_calls;
mod ledger;
mod long_campaigns;
mod promise;
mod retiring;
mod taking_back;
mod two_ledgers;
mod two_sites;
mod watch;

use crate::comparing::difference::{shown, Difference};
use crate::comparing::facts::arrival::ArrivalFacts;
use crate::comparing::facts::join::{JoinFacts, ReachedJoin};
use crate::comparing::facts::long_campaign::LongCampaignFacts;
use crate::comparing::facts::two_sites::TwoSites;
use crate::comparing::facts::watch::WatchAnswers;
use crate::model::answer::Answer;

pub use arrivals::{ACCOUNTED_FOR, NEVER_19, ONE_BY_ONE, ONLY_BY_9, PLAIN, STAYS_IN_FORM, TRIED_OUT, WAITS_NO_MORE};
pub use building::{BuiltBlock, LET_IN, READS_BACK, REFERS, REST_STAYS};
pub use campaign_runs::{SharedAndAlone, ANSWERED_9, INDEPENDENT};
pub use joins::{AGAIN, IN_FORM, MARKED, PARTS, SAME_BLOCKS, STAYS_FIRST};
pub use joins_by_calls::{BY_CALLS, GOES_ON, SWAPPED};
pub use ledger::{SiteAfterCall, SAME_ANSWER, SAME_TABLE, WHOLE_HISTORY};
pub use long_campaigns::{ALL_DELIVERED, NEVER_REFUSED};
pub use promise::{SitePromises, DELIVERED, FULL, PASSED_ON};
pub use retiring::{RetiringFacts, KEEPS_THAT, NEVER_THE_LAST, NOTHING_OPEN, OTHERS_STAY, PARTS_MOVE, STILL_IN_FORM};
pub use taking_back::{AdmissionTakenBack, ExtendedList, AS_IF_NEVER, GIVES_BACK};
pub use two_ledgers::{TwoLedgers, COUNTED, EQUAL_EVER, ONE_NUMBER_EVER, REQUESTED_EVER, WATCHED_EVER};
pub use two_sites::{EQUAL_PARTS, ONE_NUMBER, REQUESTED, WATCHED};
pub use watch::{CLOSED, LOWER, MORE_BLOCKS, NAMED, ONES, THIRD};

/// A law says where it is broken, if it is.
struct Law<Of> {
    name: &'static str,
    broken: fn(&Of) -> Option<String>,
}

/// A law that is broken is reported like a difference.
fn check<Of>(laws: &[Law<Of>], of: &Of, inputs: impl Fn() -> Vec<(String, String)>) -> Result<(), Difference> {
    let broken = laws.iter().find_map(|law| (law.broken)(of).map(|what| (law.name, what)));
    match broken {
        None => Ok(()),
        Some((call, what)) => Err(Difference { call, what, inputs: inputs() }),
    }
}

/// Two sites after all their calls.
pub fn check_two_sites(two_sites: &TwoSites) -> Result<(), Difference> {
    let [one, other] = two_sites.sites.each_ref().map(|site| &site.buffers.table);
    check(&two_sites::laws(), two_sites, || vec![shown("one table", one), shown("other table", other)])
}

/// A retiring that was answered 0. Another law comes first with another number: so wrong rules show whether each says
/// something by itself.
pub fn check_retiring(facts: &RetiringFacts, first: usize) -> Result<(), Difference> {
    check(&from(first, retiring::laws()), facts, || vec![shown("table", &facts.before.table)])
}

/// A site after a call, by its ledger. Another law comes first with another number, as for a retiring.
pub fn check_site_after_call(site: &SiteAfterCall, first: usize) -> Result<(), Difference> {
    check(&from(first, ledger::laws()), site, || vec![shown("table", &site.buffers.table)])
}

fn from<Of, const N: usize>(first: usize, mut laws: [Law<Of>; N]) -> [Law<Of>; N] {
    laws.rotate_left(first % N);
    laws
}

/// An admission that was answered 0, and its taking back.
pub fn check_taking_back(taken_back: &AdmissionTakenBack) -> Result<(), Difference> {
    check(&taking_back::LAW_OF_ONE, taken_back, || vec![shown("table", &taken_back.before)])
}

/// A list with admissions put in that are taken back straight away.
pub fn check_extended_list(list: &ExtendedList) -> Result<(), Difference> {
    check(&taking_back::laws_of_lists(), list, || vec![shown("calls", &list.with.calls)])
}

/// Two sites, over every block that either ever admitted.
pub fn check_two_ledgers(two_ledgers: &TwoLedgers) -> Result<(), Difference> {
    let [one, other] = two_ledgers.sites.map(|site| &site.buffers().table);
    check(&two_ledgers::laws(), two_ledgers, || vec![shown("one table", one), shown("other table", other)])
}

/// The sites of a long campaign after all its calls.
pub fn check_long_campaign(long: &LongCampaignFacts) -> Result<(), Difference> {
    check(&long_campaigns::laws(), long, Vec::new)
}

/// A call of a long campaign, where none may be refused.
pub fn check_not_refused(call: &str, answer: Answer) -> Result<(), Difference> {
    match answer.refusal {
        0 => Ok(()),
        _ => Err(Difference { call: NEVER_REFUSED, what: format!("{call}: {answer:?}"), inputs: Vec::new() }),
    }
}

/// What the watch and building say of one table.
pub fn check_watch(answers: &WatchAnswers) -> Result<(), Difference> {
    check(&watch::LAWS, answers, || vec![shown("table", &answers.table.to_bytes())])
}

/// A block that was built.
pub fn check_built_block(built: &BuiltBlock) -> Result<(), Difference> {
    check(&building::laws(), built, || vec![shown("table", built.next.table), shown("block", built.block)])
}

/// What one site of a group holds.
pub fn check_promises(site: &SitePromises) -> Result<(), Difference> {
    check(&promise::laws(), site, || vec![shown("table", &site.held.table().to_bytes())])
}

/// An arrival with a shelf.
pub fn check_arrival(facts: &ArrivalFacts) -> Result<(), Difference> {
    let inputs = || {
        let ArrivalFacts { campaign, arrival, before, .. } = facts;
        let buffers = [shown("table", &before.table), shown("shelf", &before.shelf.to_bytes())];
        [&buffers[..], &[shown("campaign", &[*campaign]), shown("block", &arrival.block)]].concat()
    };
    check(&arrivals::LAWS, facts, inputs)
}

/// All calls of one campaign, among others and alone.
pub fn check_campaign_runs(runs: &SharedAndAlone) -> Result<(), Difference> {
    check(&campaign_runs::laws(), runs, || vec![shown("table", &runs.among_others.table)])
}

/// A join of any two sides.
pub fn check_join(facts: &JoinFacts) -> Result<(), Difference> {
    check(&joins::LAWS, facts, || both_tables(facts))
}

/// A second join with the same right.
pub fn check_second_join(facts: &JoinFacts) -> Result<(), Difference> {
    check(&joins::LAW_OF_AGAIN, facts, || both_tables(facts))
}

/// A join of two sides that calls reached.
pub fn check_reached_join(reached: &ReachedJoin) -> Result<(), Difference> {
    check(&joins_by_calls::laws(), reached, || both_tables(reached.join))
}

fn both_tables(facts: &JoinFacts) -> Vec<(String, String)> {
    vec![shown("left", &facts.left.table), shown("right", &facts.right.table)]
}
