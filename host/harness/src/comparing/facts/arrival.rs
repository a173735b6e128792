//! One arrival for a campaign with a shelf: what there was before and after it.

use crate::comparing::buffers::OutcomeNumbers;
use crate::drawing::arrivals::Arrival;
use crate::model::answer::{Answer, ArrivalAnswer};
use crate::model::calls::Calls;
use crate::model::sha256::sha256;
use crate::model::shelf::{Entry, Shelf};
use crate::model::table::Table;
use crate::model::Model;

/// The campaign's table and the shelf at some time.
pub struct TableAndShelf {
    pub table: Vec<u8>,
    pub shelf: Shelf,
}

/// An arrival, its answer and the outcomes that it listed, with the table and the shelf before and after it.
pub struct ArrivalFacts {
    pub campaign: u8,
    pub arrival: Arrival,
    pub before: TableAndShelf,
    pub after: TableAndShelf,
    pub answer: Answer,
    pub listed: Vec<OutcomeNumbers>,
    /// Whether the shelf that is left is in form.
    pub in_form: bool,
    /// The plain admissions that it comes to. None if it was refused before admission had its turn.
    pub plain: Option<PlainAdmissions>,
    /// If the arrival was let in: what admission answers to each block that still waits for the campaign.
    pub waiting_answers: Vec<Answer>,
    /// The arrival taken back, for some of those that were let in.
    pub taken_back: Option<ArrivalTakenBack>,
}

/// The admissions of an arrival made one by one and without a shelf: its own, then that of each block that was let in or dropped.
pub struct PlainAdmissions {
    pub admissions: Vec<(Arrival, Answer)>,
    pub table: Vec<u8>,
    /// Where each block that was let in or dropped stood among those that waited for the campaign.
    pub positions: Vec<usize>,
    /// Whether each outcome is that of a block that waits no more.
    pub all_known: bool,
}

/// What is left when an arrival and all that it let in are taken back, one by one, on copies, and it then comes once more.
pub struct ArrivalTakenBack {
    pub refusals: Vec<u8>,
    pub table: Vec<u8>,
    pub second_answer: ArrivalAnswer,
    /// The shelf that the second arrival left.
    pub shelf: Vec<u8>,
}

impl ArrivalFacts {
    /// In how many passes blocks were let in or dropped: one that stood before the one tried last is of another pass.
    pub fn passes(&self) -> usize {
        let positions = self.plain.as_ref().map_or(&[][..], |plain| &plain.positions);
        usize::from(!positions.is_empty()) + positions.windows(2).filter(|pair| pair[0] > pair[1]).count()
    }

    /// The blocks that were tried and didn't wait on, each with its answer.
    pub fn tries(&self) -> impl Iterator<Item = &(Arrival, Answer)> {
        self.plain.iter().flat_map(|plain| plain.admissions.iter().skip(1))
    }

    /// How many blocks that waited were let in.
    pub fn let_in(&self) -> usize {
        self.listed.iter().filter(|listed| listed[0] == 0).count()
    }

    /// By which numbers blocks that waited were dropped.
    pub fn dropped(&self) -> impl Iterator<Item = u64> + '_ {
        self.listed.iter().map(|listed| listed[0]).filter(|&number| number != 0)
    }
}

impl PlainAdmissions {
    pub fn of(
        model: &Model,
        before: &TableAndShelf,
        after: &TableAndShelf,
        campaign: u8,
        arrival: &Arrival,
        listed: &[OutcomeNumbers],
    ) -> PlainAdmissions {
        let table = before.table.clone();
        let mut plain = PlainAdmissions { admissions: Vec::new(), table, positions: Vec::new(), all_known: true };
        plain.admit(model, arrival.clone());
        let waiting: Vec<&[u8]> = before.shelf.of(campaign).map(Entry::block).collect();
        let mut gone: Vec<usize> = (0..waiting.len()).filter(|&at| !after.shelf.waits(campaign, waiting[at])).collect();
        let held = Table::from_bytes(&after.table);
        for &[number, place] in listed {
            // A block that was let in is known by its digest. One that was dropped gets its number now; of two it
            // doesn't matter which, since it would get that later too.
            let is_it = |at: &usize| match number {
                0 => held.place_of(&sha256(waiting[*at])) == Some(place as usize),
                _ => u64::from(model.admit(&mut plain.table.clone(), &mut waiting[*at].to_vec(), 1).refusal) == number,
            };
            let Some(index) = gone.iter().position(is_it) else {
                plain.all_known = false;
                break;
            };
            let at = gone.remove(index);
            plain.positions.push(at);
            plain.admit(model, Arrival { block: waiting[at].to_vec(), verdict: 1 });
        }
        plain
    }

    fn admit(&mut self, model: &Model, arrival: Arrival) {
        let answer = model.admit(&mut self.table, &mut arrival.block.clone(), arrival.verdict);
        self.admissions.push((arrival, answer));
    }
}
