//! What arrivals with a shelf have met.

use std::fmt::{self, Display, Formatter};

use super::FormCounts;
use crate::comparing::facts::arrival::ArrivalFacts;
use crate::comparing::facts::campaign_run::{Call, CampaignRun};
use crate::model::shelf::Shelf;
use crate::model::shelf_form::DOCUMENT;
use crate::model::sizes::{CAMPAIGNS, MAX_BLOCK_BYTES, MOST_HELD, PLACES, SHELF_PLACES};
use crate::model::table::Table;

/// The numbers by which blocks that waited are dropped.
const DROPPED: [u64; 4] = [4, 8, 10, 11];

#[derive(Default)]
pub struct Shelves {
    pub shelves: FormCounts,
    /// Shelves of which each bit was changed in turn.
    pub every_bit: u64,
    /// Damaged shelves of which one condition of form alone doesn't hold, for each condition.
    one_broken: [u64; DOCUMENT.len()],
    /// Arrivals by how many blocks they let in: none, 1, and so on.
    let_in: [u64; MOST_HELD + 1],
    dropped: [u64; DROPPED.len()],
    let_in_and_dropped: u64,
    /// Longest blocks that were let in.
    longest_let_in: u64,
    two_passes: u64,
    five_passes: u64,
    ten_passes: u64,
    /// Shelves that an arrival left.
    full: u64,
    at_most: u64,
    for_two: u64,
    without_reference: ArrivalsWithoutReference,
    /// Campaigns whose calls were made once more alone.
    alone: u64,
    alone_refused_19: u64,
    alone_let_in: u64,
    alone_retired: u64,
    alone_took_back: u64,
}

/// Arrivals that lack a reference.
#[derive(Default)]
struct ArrivalsWithoutReference {
    below_two: u64,
    last_place: u64,
    full_table: u64,
    /// 19 for a campaign that holds 10 places, and for one that holds fewer.
    at_most: u64,
    for_others: u64,
    /// 20 where no place is left, so that it would be 19 for another block.
    no_place: u64,
    full_shelf: u64,
}

impl Shelves {
    pub fn damage(&mut self, shelf: &[u8]) {
        let shelf = Shelf::from_bytes(shelf);
        let broken = |condition: &usize| !(DOCUMENT[*condition].holds)(&shelf);
        let broken: Vec<usize> = (0..DOCUMENT.len()).filter(broken).collect();
        if let [one] = broken[..] {
            self.one_broken[one] += 1;
        }
    }

    pub fn arrival(&mut self, facts: &ArrivalFacts) {
        let after = &facts.after.shelf;
        let dropped = facts.dropped().count();
        if facts.answer.refusal == 0 {
            // More than a campaign can have waiting only wrong rules let in.
            self.let_in[facts.let_in().min(MOST_HELD)] += 1;
        }
        for (times, number) in self.dropped.iter_mut().zip(DROPPED) {
            *times += facts.dropped().filter(|&other| other == number).count() as u64;
        }
        self.let_in_and_dropped += u64::from(facts.let_in() > 0 && dropped > 0);
        let longest =
            facts.tries().filter(|(arrival, answer)| answer.refusal == 0 && arrival.block.len() == MAX_BLOCK_BYTES);
        self.longest_let_in += longest.count() as u64;
        self.two_passes += u64::from(facts.passes() >= 2);
        self.five_passes += u64::from(facts.passes() >= 5);
        self.ten_passes += u64::from(facts.passes() >= MOST_HELD);
        if facts.in_form {
            let mut held = (0..CAMPAIGNS as u8).map(|campaign| after.holds(campaign));
            self.full += u64::from(after.count == SHELF_PLACES);
            self.at_most += u64::from(held.any(|held| held == MOST_HELD));
            self.for_two += u64::from(for_two(after));
        }
        self.without_reference.note(facts);
    }

    /// What a campaign whose calls are made once more alone has met.
    pub fn replayed_alone(&mut self, run: &CampaignRun) {
        let arrivals = run.calls.iter().zip(&run.replies).filter(|(call, _)| matches!(call, Call::Arrival(..)));
        let met = |number: u8| u64::from(arrivals.clone().any(|(_, reply)| reply.answer.refusal == number));
        self.alone += 1;
        self.alone_refused_19 += met(19);
        self.alone_let_in += u64::from(run.replies.iter().any(|reply| !reply.listed.is_empty()));
        let passed = || run.calls.iter().zip(&run.replies).filter(|(_, reply)| reply.answer.refusal == 0);
        self.alone_retired += u64::from(passed().any(|(call, _)| matches!(call, Call::Retiring)));
        self.alone_took_back += u64::from(passed().any(|(call, _)| matches!(call, Call::TakingBack)));
    }
}

/// Whether the same bytes wait for two campaigns.
fn for_two(shelf: &Shelf) -> bool {
    let waiting = shelf.waiting();
    (0..waiting.len()).any(|later| waiting[..later].iter().any(|earlier| earlier.block() == waiting[later].block()))
}

impl ArrivalsWithoutReference {
    fn note(&mut self, facts: &ArrivalFacts) {
        let before = &facts.before.shelf;
        let holds = before.holds(facts.campaign);
        let spare = before.free().checked_sub(before.others_lack(facts.campaign));
        match facts.answer.refusal {
            9 => {
                let full = Table::from_bytes(&facts.before.table).count == PLACES;
                self.below_two += u64::from(holds < 2);
                self.last_place += u64::from(spare == Some(1));
                self.full_table += u64::from(full);
            }
            19 if holds == MOST_HELD => self.at_most += 1,
            19 => self.for_others += 1,
            20 => {
                self.no_place += u64::from(spare == Some(0));
                self.full_shelf += u64::from(before.count == SHELF_PLACES);
            }
            _ => {}
        }
    }
}

impl Display for Shelves {
    fn fmt(&self, to: &mut Formatter) -> fmt::Result {
        let mut line = |name: &str, times: u64| super::line(to, name, times);
        line("shelves in form", self.shelves.in_form)?;
        line("shelves not in form", self.shelves.not_in_form)?;
        line("shelves with each bit flipped in turn", self.every_bit)?;
        for (condition, times) in DOCUMENT.iter().zip(self.one_broken) {
            line(&format!("broken alone: {}", condition.name), times)?;
        }
        line("arrivals that let in no waiting block", self.let_in[0])?;
        for (blocks, times) in self.let_in.iter().enumerate().skip(1) {
            line(&format!("arrivals that let in {blocks} waiting"), *times)?;
        }
        for (number, times) in DROPPED.iter().zip(self.dropped) {
            line(&format!("waiting blocks dropped with {number}"), times)?;
        }
        line("arrivals that let some in and dropped others", self.let_in_and_dropped)?;
        line("waiting blocks of the greatest length let in", self.longest_let_in)?;
        line("arrivals that needed two passes or more", self.two_passes)?;
        line("arrivals that needed five passes or more", self.five_passes)?;
        line("arrivals that needed ten passes", self.ten_passes)?;
        line("full shelves", self.full)?;
        line("shelves with a campaign at 10", self.at_most)?;
        line("shelves with the same bytes for two campaigns", self.for_two)?;
        line("9 for a campaign that holds fewer than 2", self.without_reference.below_two)?;
        line("9 for the last place that others leave", self.without_reference.last_place)?;
        line("9 with a full table", self.without_reference.full_table)?;
        line("19 for a campaign at 10", self.without_reference.at_most)?;
        line("19 for what others lack", self.without_reference.for_others)?;
        line("20 where no place is left", self.without_reference.no_place)?;
        line("20 with a full shelf", self.without_reference.full_shelf)?;
        line("campaigns replayed alone", self.alone)?;
        line("campaigns replayed alone that got 19", self.alone_refused_19)?;
        line("campaigns replayed alone with waiting blocks ended", self.alone_let_in)?;
        line("campaigns replayed alone that retired", self.alone_retired)?;
        line("campaigns replayed alone that took back", self.alone_took_back)
    }
}
