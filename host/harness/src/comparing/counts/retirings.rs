//! What retirings have met.

use std::fmt::{self, Display, Formatter};

use super::Times;
use crate::comparing::laws::TwoLedgers;
use crate::model::answer::Answer;
use crate::model::retiring::{all_referring_interpreted, followed, interpreted};
use crate::model::sizes::{BUFFER_NUMBERS, PLACES, SLOTS};
use crate::model::table::{Row, Table};

#[derive(Default)]
pub struct Retirings {
    not_retired: Times<6>,
    lengths: Times<2>,
    emptied: Times<1>,
    retired: Times<6>,
    admitted: Times<4>,
    interpreted: Times<1>,
    campaigns: Times<6>,
}

const NOT_RETIRED: [&str; 6] = [
    "29 for a place 0 that isn't interpreted, alone",
    "29 for an open block that refers to place 0, alone",
    "29 for no later interpreted block, alone",
    "29 with a later block that isn't interpreted",
    "29 with a twin and no later block",
    "29 with later blocks of other sites",
];
const LENGTHS: [&str; 2] = ["12 for records to retire short by one", "12 for records to retire long by one"];
const EMPTIED: [&str; 1] = ["13 for an empty table that has retired something"];
const RETIRED: [&str; 6] = [
    "retirings of a full table",
    "retirings that leave one block",
    "retirings of a block that others refer to",
    "retirings of a block that is a parent",
    "retirings with an open block held",
    "retirings by a table that has retired before",
];
const ADMITTED: [&str; 4] = [
    "blocks that have left admitted again",
    "blocks that have left refused with 9",
    "blocks refused with 9 for one that has left",
    "blocks admitted that refer to one that came again",
];
const INTERPRETED: [&str; 1] = ["blocks that have left interpreted again"];
const CAMPAIGNS: [&str; 6] = [
    "campaigns with retirings at both sites",
    "campaigns with retirings and a delivery at both",
    "campaigns with other numbers of retirings",
    "campaigns with retirings and 1 to f forked sites",
    "campaigns with a forked site that no watch names",
    "campaigns with more than 64 blocks at a site",
];

/// What a campaign's site knows of a block that comes.
pub struct BlockHistory {
    /// The block was retired and isn't held.
    pub has_left: bool,
    /// An admission of the block was taken back.
    pub was_taken_back: bool,
    /// It refers to a block that was retired and isn't held.
    pub refers_to_lost: bool,
    /// It refers to a block that was retired and came again.
    pub refers_to_returned: bool,
}

impl Retirings {
    /// What a retiring was answered, by the table before it and how many numbers its records have.
    pub fn answer(&mut self, table: &Table, numbers: usize, answer: Answer) {
        match answer.refusal {
            0 => self.success(table),
            12 => self.lengths.note([numbers + 1 == BUFFER_NUMBERS, numbers == BUFFER_NUMBERS + 1]),
            13 => self.emptied.note([table.retired == 1]),
            29 => self.refusal_29(table),
            _ => {}
        }
    }

    fn refusal_29(&mut self, table: &Table) {
        let conditions = [interpreted(table), all_referring_interpreted(table), followed(table)];
        let first = table.rows[0];
        let others = || table.held().iter().skip(1);
        let later = |row: &Row| row.site == first.site && row.sequence > first.sequence;
        let not_followed = conditions == [true, true, false];
        self.not_retired.note([
            conditions == [false, true, true],
            conditions == [true, false, true],
            not_followed,
            not_followed && others().any(later),
            not_followed && others().any(|row| row.site == first.site && row.sequence == first.sequence),
            not_followed && others().any(|row| row.site != first.site && row.sequence > first.sequence),
        ]);
    }

    fn success(&mut self, table: &Table) {
        let first = table.rows[0];
        let referring = || table.held().iter().filter(|row| row.references & 1 == 1);
        let child = |row: &Row| row.site == first.site && Some(row.sequence) == first.sequence.checked_add(1);
        self.retired.note([
            table.count == PLACES,
            table.count == 2,
            referring().next().is_some(),
            referring().any(child),
            table.held().iter().any(|row| row.mark == 0),
            table.retired == 1,
        ]);
    }

    pub fn admission(&mut self, answer: Answer, history: &BlockHistory) {
        let BlockHistory { has_left, refers_to_lost, refers_to_returned, .. } = *history;
        let [admitted, not_held] = [0, 9].map(|refusal| answer.refusal == refusal);
        self.admitted.note([
            has_left && admitted,
            has_left && not_held,
            refers_to_lost && not_held,
            refers_to_returned && admitted,
        ]);
    }

    /// A place whose block may have been interpreted before it left.
    pub fn interpretation(&mut self, answer: Answer, before: bool) {
        self.interpreted.note([before && answer.refusal == 0]);
    }

    /// What a campaign came to.
    pub fn campaign(&mut self, two_ledgers: &TwoLedgers) {
        let [one, other] = two_ledgers.sites.map(|site| site.ledger.retirings());
        let both = one > 0 && other > 0;
        let delivers = (0..SLOTS).any(|slot| two_ledgers.sites.iter().all(|site| !site.delivered[slot].is_empty()));
        let named = two_ledgers.watch_answers[0].sites | two_ledgers.watch_answers[1].sites;
        self.campaigns.note([
            both,
            both && delivers,
            both && one != other,
            both && two_ledgers.forked() != 0 && two_ledgers.few_forked(),
            two_ledgers.forked() & !named != 0,
            two_ledgers.sites.iter().any(|site| site.ledger.counting().count() > PLACES),
        ]);
    }
}

impl Display for Retirings {
    fn fmt(&self, to: &mut Formatter) -> fmt::Result {
        self.not_retired.write(to, NOT_RETIRED)?;
        self.lengths.write(to, LENGTHS)?;
        self.emptied.write(to, EMPTIED)?;
        self.retired.write(to, RETIRED)?;
        self.admitted.write(to, ADMITTED)?;
        self.interpreted.write(to, INTERPRETED)?;
        self.campaigns.write(to, CAMPAIGNS)
    }
}
