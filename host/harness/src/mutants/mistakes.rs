//! Mutants: the model with one mistake in it, in the library's place. The comparison must find every one.
//!
//! A mistake is a rule of the model exchanged for a wrong one, or something done after a call to its answer or to the
//! buffers that it was lent.

mod admission;
mod arrival;
mod building;
mod clash;
mod form;
mod fresh;
mod interpretation;
mod join_results;
mod joining;
mod listing;
mod meaning;
mod process;
mod reading;
mod replay;
mod retiring;
mod shelf_form;
mod shelf_rule;
mod slots;
mod taking_back;
mod tries;
mod watch;

use std::ops::BitXorAssign;

use crate::comparing::laws::*;
use crate::model::admission::AdmissionInput;
use crate::model::answer::{AncestorPlaces, Answer, ArrivalAnswer, ForkedSites, Reading};
use crate::model::building::BuildingInput;
use crate::model::calls::Calls;
use crate::model::checks::Check;
use crate::model::exit::Exit;
use crate::model::interpretation::InterpretationInput;
use crate::model::process::Process;
use crate::model::retiring::RetiringInput;
use crate::model::table::Table;
use crate::model::taking_back::TakingBackInput;
use crate::model::watch::WatchInput;
use crate::model::{FreshInput, Model};

pub struct Mutant {
    pub name: String,
    model: Model,
    after_fresh: AfterCall,
    after_form: AfterForm,
    after_admission: AfterCall,
    after_interpretation: AfterInterpretation,
    after_retiring: AfterRetiring,
    after_taking_back: AfterTakingBack,
    after_forks: AfterForks,
    after_ancestors: AfterAncestors,
    after_building: AfterBuilding,
    after_replay: AfterReplay,
    after_shelf_form: AfterForm,
    after_arrival: AfterArrival,
    after_join: AfterJoin,
    after_reading: AfterReading,
    after_digest: AfterCall,
    after_listing: AfterListing,
}

// Each is given the answer and the buffers in their order, and gives the answer that goes out.
type AfterForm = Box<dyn Fn(bool, &mut [u8]) -> bool>;
type AfterReading = Box<dyn Fn(Reading, &mut [u8]) -> Reading>;
type AfterInterpretation = Box<dyn Fn(Answer, &mut [u8], usize, &mut [u16]) -> Answer>;
type AfterRetiring = Box<dyn Fn(Answer, &mut [u8], &mut [u16]) -> Answer>;
type AfterTakingBack = Box<dyn Fn(Answer, &mut [u8]) -> Answer>;
type AfterForks = Box<dyn Fn(ForkedSites, &mut [u8]) -> ForkedSites>;
type AfterAncestors = Box<dyn Fn(AncestorPlaces, &mut [u8], usize) -> AncestorPlaces>;
type AfterBuilding = Box<dyn Fn(Answer, BuildingBuffers) -> Answer>;
type AfterReplay = Box<dyn Fn(usize, &mut [u8], &mut [u16], &mut [u8], &mut [u64]) -> usize>;
type AfterArrival = Box<dyn Fn(ArrivalAnswer, ArrivalBuffers) -> ArrivalAnswer>;
type AfterJoin = Box<dyn Fn(Answer, JoinBuffers) -> Answer>;
type AfterListing = Box<dyn Fn(Exit, &[u8]) -> Exit>;
type AfterCall = Box<dyn Fn(Answer, &mut [u8], &mut [u8]) -> Answer>;

/// What building was given: two buffers that it reads, and the output.
struct BuildingBuffers<'a> {
    table: &'a mut [u8],
    site: u8,
    requests: &'a mut [u8],
    output: &'a mut [u8],
}

/// What an arrival with a shelf was given, as the call left it.
struct ArrivalBuffers<'a> {
    table: &'a mut [u8],
    shelf: &'a mut [u8],
    campaign: u8,
    block: &'a mut [u8],
    outcomes: &'a mut [u64],
}

/// What a join was given, as the call left it.
struct JoinBuffers<'a> {
    left: &'a mut [u8],
    right: &'a mut [u8],
    left_records: &'a mut [u16],
    right_records: &'a mut [u16],
    third: &'a mut [u16],
}

/// A mistake by its name.
type Mistake = (&'static str, fn(&mut Mutant));

/// The mutants that cases of all kinds find.
pub fn all() -> Vec<Mutant> {
    let mut mutants = form::conditions_left_out();
    mutants.extend(admission::checks_exchanged());
    mutants.extend(interpretation::checks_exchanged());
    mutants.extend(watch::checks_exchanged());
    mutants.extend(building::checks_exchanged());
    mutants.extend(reading::checks_exchanged());
    mutants.extend(mistaken(&mistakes()));
    mutants
}

/// The mutants that cases of listings find.
pub fn of_listings() -> Vec<Mutant> {
    mistaken(listing::MISTAKES)
}

/// The mutants that cases of shelves find.
pub fn of_shelves() -> Vec<Mutant> {
    let mut mutants = shelf_form::conditions_left_out();
    mutants.extend(arrival::checks_exchanged());
    mutants.extend(mistaken(&mistakes_with_shelves()));
    mutants
}

/// The mutants that cases of joins find.
pub fn of_joins() -> Vec<Mutant> {
    let mut mutants = joining::checks_exchanged();
    mutants.extend(mistaken(&mistakes_in_joins()));
    mutants
}

/// The mutants that cases of retirings find.
pub fn of_retirings() -> Vec<Mutant> {
    let mut mutants = retiring::checks_exchanged();
    mutants.extend(mistaken(retiring::MISTAKES));
    mutants
}

/// The mutants that cases of takings back find.
pub fn of_takings_back() -> Vec<Mutant> {
    let mut mutants = taking_back::checks_exchanged();
    mutants.extend(mistaken(taking_back::MISTAKES));
    mutants
}

fn mistaken(mistakes: &[Mistake]) -> Vec<Mutant> {
    mistakes.iter().map(|(name, make)| Mutant::with(name.to_string(), make)).collect()
}

/// Mutants that break a law about two sites, the watch or building when they stand on both sides, where no call differs,
/// each with the law.
pub fn lawless() -> Vec<(Mutant, &'static str)> {
    with_laws(&[
        (&[meaning::ARRIVAL_ORDER], EQUAL_PARTS),
        (&[meaning::STATE_OF_HIGHEST], EQUAL_PARTS),
        (&[meaning::STATE_OF_OTHER_BRANCH], EQUAL_PARTS),
        (&[process::DELIVERING_AT_SEND], ONE_NUMBER),
        (&[process::ECHO_QUORUM_F_PLUS_1, process::DELIVERY_AT_F_PLUS_1], ONE_NUMBER),
        (&[process::SEND_FROM_ANYONE, meaning::REQUEST_OF_ANYONE], REQUESTED),
        (&[watch::SITES_NOT_COMPARED], WATCHED),
        (&[watch::FOUR_BITS_COUNTED], ONES),
        (&[watch::FEWER_THAN_F], THIRD),
        (&[watch::NOBODY_NAMED], MORE_BLOCKS),
        (&[watch::ITSELF], LOWER),
        (&[watch::ONE_LEVEL], CLOSED),
        (&[building::GREATEST_TWINS_ALONE], NAMED),
        (&[building::SEQUENCE_OF_GREATEST], READS_BACK),
        (&[building::REQUESTS_IN_REVERSE], READS_BACK),
        (&[building::DESCENDING], REFERS),
        (&[building::EMPTY_BLOCK], REFERS),
        (&[building::REST_CLEARED], REST_STAYS),
        (&[building::WITHOUT_GREATEST], LET_IN),
        (&[building::SEVENTEEN_REFERENCES], LET_IN),
    ])
}

/// Mutants that break a law about groups when they stand on both sides, each with the law.
pub fn lawless_in_groups() -> Vec<(Mutant, &'static str)> {
    with_laws(&[
        (&[process::ECHO_QUORUM_2F_PLUS_2], DELIVERED),
        (&[process::ECHO_QUORUM_N_MINUS_1], DELIVERED),
        (&[process::DELIVERY_AT_2F_PLUS_2], DELIVERED),
        (&[process::NO_DELIVERY_WITH_READY], DELIVERED),
        (&[process::ECHOS_NOT_NOTED], DELIVERED),
        (&[process::LAST_SITE_NOT_COUNTED], DELIVERED),
        (&[process::SENDER_NOT_COUNTED], DELIVERED),
        (&[process::DELIVERY_NOT_MADE], DELIVERED),
        (&[process::SEND_FROM_ANYONE, meaning::REQUEST_OF_ANYONE], DELIVERED),
        (&[meaning::READYS_NOT_PASSED_ON], DELIVERED),
        (&[meaning::SECOND_SEND], DELIVERED),
        (&[meaning::SEND_OF_FIRST_BLOCK], DELIVERED),
        (&[meaning::ONLY_PARENT_HEARD], DELIVERED),
        (&[meaning::OWN_NOT_HEARD], DELIVERED),
        (&[meaning::LAST_REFERENCE_NOT_HEARD], DELIVERED),
        (&[meaning::PLACES_FROM_32_NOT_HEARD], DELIVERED),
        (&[meaning::SIXTEENTH_NOT_HEARD], DELIVERED),
        (&[meaning::ONE_BLOCK_OF_A_SENDER], DELIVERED),
        (&[meaning::LAST_MESSAGE_NOT_HEARD], DELIVERED),
        (&[meaning::DELIVERY_NOT_PASSED_ON], PASSED_ON),
        (&[building::PLACE_0_LEFT_OUT], FULL),
        (&[building::ONE_BLOCK_OF_A_SITE], FULL),
        (&[building::BELOW_PICKED_LEFT_OUT], FULL),
        (&[building::REFERRED_BY_ANYONE], FULL),
        (&[building::FORKED_LEFT_OUT], FULL),
        (&[building::DESCENDING], FULL),
        (&[building::HIGHEST_PICKED], FULL),
        (&[building::OTHERS_BY_SITE], FULL),
        (&[building::OTHERS_BY_SEQUENCE], FULL),
        (&[building::OTHERS_BY_DIGEST], FULL),
    ])
}

/// Mutants that break a law about arrivals with a shelf when they stand on both sides, each with the law.
pub fn lawless_with_shelves() -> Vec<(Mutant, &'static str)> {
    with_laws(&[
        (&[shelf_rule::OTHERS_NOT_COVERED], STAYS_IN_FORM),
        (&[shelf_rule::ANY_FREE_PLACE], STAYS_IN_FORM),
        (&[shelf_rule::NOT_AFTER_TAKING], STAYS_IN_FORM),
        (&[arrival::LAST_COMPARED_ALONE], STAYS_IN_FORM),
        (&[shelf_rule::OWN_LACK_TOO], NEVER_19),
        (&[shelf_rule::THREE_RESERVED], NEVER_19),
        (&[tries::AFTER_EVERY_ARRIVAL], ONLY_BY_9),
        (&[shelf_rule::NOTHING_WAITS], ACCOUNTED_FOR),
        (&[shelf_rule::FOR_CAMPAIGN_0], ACCOUNTED_FOR),
        (&[shelf_rule::OLDEST_PUSHED_OUT], ACCOUNTED_FOR),
        (&[shelf_rule::TAKEN_FROM_ANOTHER], ACCOUNTED_FOR),
        (&[tries::ALL_CAMPAIGNS], ACCOUNTED_FOR),
        (&[tries::STAYS_ON_SHELF], ACCOUNTED_FOR),
        (&[tries::FIRST_OF_EQUAL_BYTES], ACCOUNTED_FOR),
        (&[tries::NOTHING_LISTED], ACCOUNTED_FOR),
        (&[tries::PLACE_FIRST], ACCOUNTED_FOR),
        (&[tries::NO_TRIES], TRIED_OUT),
        (&[tries::ONE_PASS], TRIED_OUT),
        (&[tries::ENDS_WITH_9], TRIED_OUT),
        (&[tries::NOTHING_DROPPED], TRIED_OUT),
        (&[tries::IN_REVERSE], PLAIN),
        (&[tries::HELD_COUNTS_AS_LET_IN], PLAIN),
        (&[arrival::FOR_ANY_CAMPAIGN], INDEPENDENT),
        (&[shelf_rule::TAKEN_FROM_ANOTHER], INDEPENDENT),
        (&[tries::SECOND_HALF_FIRST], INDEPENDENT),
        (&[tries::ALL_CAMPAIGNS], INDEPENDENT),
        (&[tries::NEXT_CAMPAIGN], INDEPENDENT),
        (&[tries::FIRST_OF_EQUAL_BYTES], INDEPENDENT),
        (&[shelf_rule::NOTHING_WAITS], ANSWERED_9),
        (&[shelf_rule::OLDEST_PUSHED_OUT], ANSWERED_9),
        (&[tries::STAYS_ON_SHELF], ANSWERED_9),
        (&[tries::STAYS_ON_SHELF], WAITS_NO_MORE),
        (&[taking_back::ROW_STAYS], ONE_BY_ONE),
        (&[taking_back::ALL_OPEN], ONE_BY_ONE),
        (&[taking_back::FIRST_TAKEN], ONE_BY_ONE),
        (&[taking_back::TWO_TAKEN], ONE_BY_ONE),
        (&[taking_back::RETIRED_FORGOTTEN], ONE_BY_ONE),
    ])
}

/// Mutants that break a law about joins when they stand on both sides, each with the law.
pub fn lawless_in_joins() -> Vec<(Mutant, &'static str)> {
    with_laws(&[
        (&[join_results::NOT_RENUMBERED], IN_FORM),
        (&[join_results::NEW_REVERSED], IN_FORM),
        (&[join_results::HELD_TWICE], IN_FORM),
        (&[join_results::MARKS_OF_RIGHT], IN_FORM),
        (&[join_results::NEW_FIRST], STAYS_FIRST),
        (&[join_results::RIGHT_FIRST], STAYS_FIRST),
        (&[join_results::NEW_REVERSED], STAYS_FIRST),
        (&[join_results::LEFT_ALONE], STAYS_FIRST),
        (&[join_results::LAST_BYTE_LEFT_OUT], STAYS_FIRST),
        (&[join_results::NOT_RENUMBERED], SAME_BLOCKS),
        (&[join_results::NEW_REFERENCES_LOST], SAME_BLOCKS),
        (&[join_results::REQUESTS_LOST], SAME_BLOCKS),
        (&[join_results::MARKS_OF_LEFT], MARKED),
        (&[join_results::MARKS_OF_BOTH], MARKED),
        (&[join_results::NEW_NOT_MARKED], MARKED),
        (&[join_results::RIGHTS_PART], PARTS),
        (&[join_results::PART_OF_LEFT_ALONE], PARTS),
        (&[join_results::EMPTY_PART], PARTS),
        (&[join_results::OLD_PLACE_READ], PARTS),
        (&[join_results::HELD_TWICE], AGAIN),
        (&[join_results::LAST_BYTE_LEFT_OUT], AGAIN),
        (&[join_results::NOT_RENUMBERED], AGAIN),
        (&[join_results::NEW_REVERSED], GOES_ON),
        (&[join_results::NOT_RENUMBERED], GOES_ON),
        (&[join_results::LEFT_ALONE], GOES_ON),
        (&[join_results::MARKS_OF_LEFT], SWAPPED),
        (&[join_results::EMPTY_PART], SWAPPED),
        (&[join_results::PART_OF_LEFT_ALONE], SWAPPED),
        (&[join_results::NEW_REVERSED], BY_CALLS),
        (&[join_results::RIGHT_FIRST], BY_CALLS),
        (&[join_results::REQUESTS_LOST], BY_CALLS),
        (&[join_results::NEW_REFERENCES_LOST], BY_CALLS),
        (&[join_results::EMPTY_PART], EQUAL_PARTS),
        (&[join_results::PART_OF_LEFT_ALONE], EQUAL_PARTS),
        (&[join_results::OLD_PLACE_READ], EQUAL_PARTS),
        (&[join_results::NEW_REFERENCES_LOST], EQUAL_PARTS),
    ])
}

/// Mutants that break a law about retirings when they stand on both sides, each with the law.
pub fn lawless_in_retirings() -> Vec<(Mutant, &'static str)> {
    with_laws(&[
        (&[retiring::REFERENCES_STAY], STILL_IN_FORM),
        (&[retiring::REFERRING_OPEN], STILL_IN_FORM),
        (&[retiring::NOT_NOTED], STILL_IN_FORM),
        (&[retiring::NOT_NOTED], KEEPS_THAT),
        (&[retiring::FIRST_KEPT], OTHERS_STAY),
        (&[retiring::REFERENCES_STAY], OTHERS_STAY),
        (&[retiring::MARKS_LOST], OTHERS_STAY),
        (&[retiring::LAST_LEAVES], OTHERS_STAY),
        (&[retiring::RECORDS_STAY], PARTS_MOVE),
        (&[retiring::LAST_PART_CLEARED], PARTS_MOVE),
        (&[retiring::NOT_FOLLOWED], NEVER_THE_LAST),
        (&[retiring::FOLLOWED_BY_OPEN], NEVER_THE_LAST),
        (&[retiring::FOLLOWED_BY_TWIN], NEVER_THE_LAST),
        (&[retiring::FOLLOWED_BY_ANYONE], NEVER_THE_LAST),
        (&[retiring::NOT_INTERPRETED], NOTHING_OPEN),
        (&[retiring::REFERRING_OPEN], NOTHING_OPEN),
        (&[retiring::REFERRING_OPEN], SAME_ANSWER),
        (&[retiring::NOT_FOLLOWED], SAME_ANSWER),
        (&[retiring::NOT_NOTED], SAME_TABLE),
        (&[retiring::REFERENCES_STAY], SAME_TABLE),
        (&[retiring::FIRST_KEPT], SAME_TABLE),
        (&[retiring::MARKS_LOST], SAME_TABLE),
        (&[retiring::RETURNED_MARKED], SAME_TABLE),
        (&[retiring::RECORDS_STAY], WHOLE_HISTORY),
        (&[retiring::PARTS_FROM_LAST], WHOLE_HISTORY),
        (&[retiring::LAST_LEAVES], SAME_TABLE),
        (&[meaning::STATE_OF_HIGHEST], WHOLE_HISTORY),
        (&[retiring::RECORDS_STAY], EQUAL_EVER),
        (&[meaning::ARRIVAL_ORDER], EQUAL_EVER),
        (&[process::DELIVERING_AT_SEND], ONE_NUMBER_EVER),
        (&[process::ECHO_QUORUM_F_PLUS_1, process::DELIVERY_AT_F_PLUS_1], ONE_NUMBER_EVER),
        (&[process::SEND_FROM_ANYONE, meaning::REQUEST_OF_ANYONE], REQUESTED_EVER),
        (&[watch::SITES_NOT_COMPARED], WATCHED_EVER),
        (&[admission::SLOT_TWICE_GETS_6], SAME_ANSWER),
        (&[taking_back::AT_COUNT], SAME_ANSWER),
        (&[taking_back::OF_FIRST], SAME_ANSWER),
        (&[taking_back::ROW_STAYS], SAME_TABLE),
        (&[taking_back::COUNT_STAYS], SAME_TABLE),
        (&[taking_back::RETIRED_FORGOTTEN], SAME_TABLE),
        (&[taking_back::RETIRED_NOTED], SAME_TABLE),
        (&[taking_back::FIRST_TAKEN], SAME_TABLE),
        (&[taking_back::FIRST_TAKEN], COUNTED),
        (&[taking_back::STILL_COUNTS], COUNTED),
        (&[taking_back::COUNTS_NO_MORE], COUNTED),
        (&[taking_back::COUNTS_NO_MORE], WATCHED_EVER),
    ])
}

/// Mutants that break a law about takings back when they stand on both sides, each with the law.
pub fn lawless_in_takings_back() -> Vec<(Mutant, &'static str)> {
    with_laws(&[
        (&[taking_back::OF_FIRST], GIVES_BACK),
        (&[taking_back::ROW_STAYS], GIVES_BACK),
        (&[taking_back::COUNT_STAYS], GIVES_BACK),
        (&[taking_back::REQUESTS_STAY], GIVES_BACK),
        (&[taking_back::RETIRED_FORGOTTEN], GIVES_BACK),
        (&[taking_back::RETIRED_NOTED], GIVES_BACK),
        (&[taking_back::FIRST_TAKEN], GIVES_BACK),
        (&[taking_back::TWO_TAKEN], GIVES_BACK),
        (&[taking_back::OF_FIRST], AS_IF_NEVER),
        (&[taking_back::REQUESTS_STAY], AS_IF_NEVER),
        (&[taking_back::RETIRED_FORGOTTEN], AS_IF_NEVER),
        (&[taking_back::RETIRED_NOTED], AS_IF_NEVER),
        (&[taking_back::FIRST_TAKEN], AS_IF_NEVER),
        (&[taking_back::TWO_TAKEN], AS_IF_NEVER),
        (&[taking_back::PART_CLEARED], AS_IF_NEVER),
    ])
}

/// Mutants that break a law about long campaigns when they stand on both sides, each with the law.
pub fn lawless_for_long() -> Vec<(Mutant, &'static str)> {
    with_laws(&[
        (&[retiring::ONLY_ONCE], NEVER_REFUSED),
        (&[retiring::NOTHING_REFERS], NEVER_REFUSED),
        (&[retiring::REFERENCES_STAY], NEVER_REFUSED),
        (&[retiring::RECORDS_STAY], ALL_DELIVERED),
        (&[retiring::LAST_PART_CLEARED, retiring::PARTS_FROM_LAST], ALL_DELIVERED),
        (&[process::DELIVERY_AT_2F_PLUS_2], ALL_DELIVERED),
        (&[process::ECHOS_NOT_NOTED], ALL_DELIVERED),
        (&[taking_back::ALL_OPEN], NEVER_REFUSED),
        (&[taking_back::ROW_STAYS], NEVER_REFUSED),
    ])
}

/// Mutants by the names of their mistakes.
fn with_laws(names: &[(&[&str], &'static str)]) -> Vec<(Mutant, &'static str)> {
    names.iter().map(|(names, law)| (Mutant::of(names), *law)).collect()
}

fn mistakes() -> Vec<Mistake> {
    let tables = [form::MISTAKES, admission::MISTAKES, fresh::MISTAKES, reading::MISTAKES];
    let records = [process::MISTAKES, meaning::MISTAKES, interpretation::MISTAKES, replay::MISTAKES];
    let readers = [watch::FORK_MISTAKES, watch::ANCESTOR_MISTAKES, building::MISTAKES];
    [tables.concat(), records.concat(), readers.concat()].concat()
}

fn mistakes_in_joins() -> Vec<Mistake> {
    [joining::MISTAKES, clash::MISTAKES, join_results::MISTAKES].concat()
}

fn mistakes_with_shelves() -> Vec<Mistake> {
    [shelf_form::MISTAKES, arrival::MISTAKES, shelf_rule::MISTAKES, tries::MISTAKES].concat()
}

impl Mutant {
    /// A mutant with all mistakes of these names.
    fn of(names: &[&str]) -> Mutant {
        let make = |mutant: &mut Mutant| {
            let leaving = [retiring::MISTAKES, taking_back::MISTAKES, taking_back::LEDGER_MISTAKES].concat();
            let all = [mistakes(), mistakes_with_shelves(), mistakes_in_joins(), leaving].concat();
            for wanted in names {
                let (_, mistake) = all.iter().find(|(name, _)| name == wanted).expect("a mistake's name");
                mistake(mutant);
            }
        };
        Mutant::with(names.join("; "), make)
    }

    /// The rules that it follows.
    pub fn model(&self) -> &Model {
        &self.model
    }

    fn with(name: String, make: impl FnOnce(&mut Mutant)) -> Mutant {
        let mut mutant = Mutant {
            name,
            model: Model::document(),
            after_fresh: Box::new(|answer, _, _| answer),
            after_form: Box::new(|answer, _| answer),
            after_admission: Box::new(|answer, _, _| answer),
            after_interpretation: Box::new(|answer, _, _, _| answer),
            after_retiring: Box::new(|answer, _, _| answer),
            after_taking_back: Box::new(|answer, _| answer),
            after_forks: Box::new(|answer, _| answer),
            after_ancestors: Box::new(|answer, _, _| answer),
            after_building: Box::new(|answer, _| answer),
            after_replay: Box::new(|ran, _, _, _, _| ran),
            after_shelf_form: Box::new(|answer, _| answer),
            after_arrival: Box::new(|answer, _| answer),
            after_join: Box::new(|answer, _| answer),
            after_reading: Box::new(|reading, _| reading),
            after_digest: Box::new(|answer, _, _| answer),
            after_listing: Box::new(|exit, _| exit),
        };
        make(&mut mutant);
        mutant
    }

    /// Exchanges a check of `gt_fresh`.
    fn fresh(&mut self, number: u8, finds: fn(&FreshInput) -> Option<usize>) {
        exchange(&mut self.model.fresh, number, finds);
    }

    /// Exchanges a condition of form.
    fn form(&mut self, name: &str, holds: fn(&Table) -> bool) {
        let condition = self.model.form.iter_mut().find(|condition| condition.name == name);
        condition.expect("a condition of that name").holds = holds;
    }

    /// Exchanges a check of admission.
    fn admission(&mut self, number: u8, finds: fn(&AdmissionInput) -> Option<usize>) {
        exchange(&mut self.model.admission, number, finds);
    }

    /// Exchanges a check of interpretation.
    fn interpretation(&mut self, number: u8, finds: fn(&InterpretationInput) -> Option<usize>) {
        exchange(&mut self.model.interpretation.checks, number, finds);
    }

    /// Exchanges a check of retiring.
    fn retiring(&mut self, number: u8, finds: fn(&RetiringInput) -> Option<usize>) {
        exchange(&mut self.model.retiring.checks, number, finds);
    }

    /// Exchanges a check of taking back.
    fn taking_back(&mut self, number: u8, finds: fn(&TakingBackInput) -> Option<usize>) {
        exchange(&mut self.model.taking_back.checks, number, finds);
    }

    /// Exchanges a check of the ancestors.
    fn ancestors(&mut self, number: u8, finds: fn(&WatchInput) -> Option<usize>) {
        exchange(&mut self.model.watch.ancestor_checks, number, finds);
    }

    /// Exchanges a check of building.
    fn building(&mut self, number: u8, finds: fn(&BuildingInput) -> Option<usize>) {
        exchange(&mut self.model.building.checks, number, finds);
    }

    /// The rules of one slot's process.
    fn process(&mut self) -> &mut Process {
        &mut self.model.interpretation.process
    }

    /// Exchanges a check of the reader.
    fn reading(&mut self, number: u8, finds: fn(&[u8]) -> Option<usize>) {
        exchange(&mut self.model.reading, number, finds);
    }

    fn after_fresh(&mut self, after: impl Fn(Answer, &mut [u8], &mut [u8]) -> Answer + 'static) {
        self.after_fresh = Box::new(after);
    }

    fn after_form(&mut self, after: impl Fn(bool, &mut [u8]) -> bool + 'static) {
        self.after_form = Box::new(after);
    }

    fn after_admission(&mut self, after: impl Fn(Answer, &mut [u8], &mut [u8]) -> Answer + 'static) {
        self.after_admission = Box::new(after);
    }

    fn after_interpretation(&mut self, after: impl Fn(Answer, &mut [u8], usize, &mut [u16]) -> Answer + 'static) {
        self.after_interpretation = Box::new(after);
    }

    fn after_retiring(&mut self, after: impl Fn(Answer, &mut [u8], &mut [u16]) -> Answer + 'static) {
        self.after_retiring = Box::new(after);
    }

    fn after_taking_back(&mut self, after: impl Fn(Answer, &mut [u8]) -> Answer + 'static) {
        self.after_taking_back = Box::new(after);
    }

    fn after_forks(&mut self, after: impl Fn(ForkedSites, &mut [u8]) -> ForkedSites + 'static) {
        self.after_forks = Box::new(after);
    }

    fn after_ancestors(&mut self, after: impl Fn(AncestorPlaces, &mut [u8], usize) -> AncestorPlaces + 'static) {
        self.after_ancestors = Box::new(after);
    }

    fn after_building(&mut self, after: impl Fn(Answer, BuildingBuffers) -> Answer + 'static) {
        self.after_building = Box::new(after);
    }

    fn after_replay(&mut self, after: impl Fn(usize, &mut [u8], &mut [u16], &mut [u8], &mut [u64]) -> usize + 'static) {
        self.after_replay = Box::new(after);
    }

    fn after_shelf_form(&mut self, after: impl Fn(bool, &mut [u8]) -> bool + 'static) {
        self.after_shelf_form = Box::new(after);
    }

    fn after_arrival(&mut self, after: impl Fn(ArrivalAnswer, ArrivalBuffers) -> ArrivalAnswer + 'static) {
        self.after_arrival = Box::new(after);
    }

    fn after_join(&mut self, after: impl Fn(Answer, JoinBuffers) -> Answer + 'static) {
        self.after_join = Box::new(after);
    }

    fn after_digest(&mut self, after: impl Fn(Answer, &mut [u8], &mut [u8]) -> Answer + 'static) {
        self.after_digest = Box::new(after);
    }

    fn after_listing(&mut self, after: impl Fn(Exit, &[u8]) -> Exit + 'static) {
        self.after_listing = Box::new(after);
    }

    fn after_reading(&mut self, after: impl Fn(Reading, &mut [u8]) -> Reading + 'static) {
        self.after_reading = Box::new(after);
    }
}

fn exchange<Input: ?Sized>(checks: &mut [Check<Input>], number: u8, finds: fn(&Input) -> Option<usize>) {
    let check = checks.iter_mut().find(|check| check.number == number);
    check.expect("a check of that number").finds = finds;
}

/// For each two neighbouring checks of a call, a mutant in which they are swapped.
fn neighbours_swapped<Input: ?Sized>(call: &str, checks: fn(&mut Model) -> &mut Vec<Check<Input>>) -> Vec<Mutant> {
    let numbers: Vec<u8> = checks(&mut Model::document()).iter().map(|check| check.number).collect();
    let swapped = |first: usize| {
        let name = format!("{call}: checks {} and {} swapped", numbers[first], numbers[first + 1]);
        Mutant::with(name, |m| checks(&mut m.model).swap(first, first + 1))
    };
    (0..numbers.len() - 1).map(swapped).collect()
}

/// Writes a buffer: a bit of its last item is flipped, if it has one.
fn flip_last<Item: BitXorAssign + From<u8>>(buffer: &mut [Item]) {
    if let Some(last) = buffer.last_mut() {
        *last ^= Item::from(1);
    }
}

/// The answer with another value beside this refusal.
fn value_beside(refusal: u8, answer: Answer, value: usize) -> Answer {
    if answer.refusal == refusal {
        Answer { refusal, value }
    } else {
        answer
    }
}

impl Calls for Mutant {
    fn fresh(&self, sites: u8, owners: &mut [u8], table: &mut [u8]) -> Answer {
        let answer = self.model.fresh(sites, owners, table);
        (self.after_fresh)(answer, owners, table)
    }

    fn in_form(&self, table: &mut [u8]) -> bool {
        let answer = self.model.in_form(table);
        (self.after_form)(answer, table)
    }

    fn admit(&self, table: &mut [u8], block: &mut [u8], verdict: u8) -> Answer {
        let answer = self.model.admit(table, block, verdict);
        (self.after_admission)(answer, table, block)
    }

    fn interpret(&self, table: &mut [u8], place: usize, records: &mut [u16]) -> Answer {
        let answer = self.model.interpret(table, place, records);
        (self.after_interpretation)(answer, table, place, records)
    }

    fn retire(&self, table: &mut [u8], records: &mut [u16]) -> Answer {
        let answer = self.model.retire(table, records);
        (self.after_retiring)(answer, table, records)
    }

    fn take_back(&self, table: &mut [u8]) -> Answer {
        let answer = self.model.take_back(table);
        (self.after_taking_back)(answer, table)
    }

    fn forks(&self, table: &mut [u8]) -> ForkedSites {
        let answer = self.model.forks(table);
        (self.after_forks)(answer, table)
    }

    fn ancestors(&self, table: &mut [u8], place: usize) -> AncestorPlaces {
        let answer = self.model.ancestors(table, place);
        (self.after_ancestors)(answer, table, place)
    }

    fn build(&self, table: &mut [u8], site: u8, requests: &mut [u8], output: &mut [u8]) -> Answer {
        let answer = self.model.build(table, site, requests, output);
        (self.after_building)(answer, BuildingBuffers { table, site, requests, output })
    }

    fn replay(&self, table: &mut [u8], records: &mut [u16], calls: &mut [u8], answers: &mut [u64]) -> usize {
        let ran = self.model.replay(table, records, calls, answers);
        (self.after_replay)(ran, table, records, calls, answers)
    }

    fn shelf_in_form(&self, shelf: &mut [u8]) -> bool {
        let answer = self.model.shelf_in_form(shelf);
        (self.after_shelf_form)(answer, shelf)
    }

    fn arrive(
        &self,
        table: &mut [u8],
        shelf: &mut [u8],
        campaign: u8,
        block: &mut [u8],
        verdict: u8,
        outcomes: &mut [u64],
    ) -> ArrivalAnswer {
        let answer = self.model.arrive(table, shelf, campaign, block, verdict, outcomes);
        (self.after_arrival)(answer, ArrivalBuffers { table, shelf, campaign, block, outcomes })
    }

    fn join(
        &self,
        left: &mut [u8],
        right: &mut [u8],
        left_records: &mut [u16],
        right_records: &mut [u16],
        third: &mut [u16],
    ) -> Answer {
        let answer = self.model.join(left, right, left_records, right_records, third);
        (self.after_join)(answer, JoinBuffers { left, right, left_records, right_records, third })
    }

    fn read_block(&self, block: &mut [u8]) -> Reading {
        let reading = self.model.read_block(block);
        (self.after_reading)(reading, block)
    }

    fn digest(&self, message: &mut [u8], output: &mut [u8]) -> Answer {
        let answer = self.model.digest(message, output);
        (self.after_digest)(answer, message, output)
    }

    fn listing(&self, input: &[u8]) -> Exit {
        let exit = self.model.listing(input);
        (self.after_listing)(exit, input)
    }
}
