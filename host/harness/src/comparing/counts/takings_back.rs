//! What takings back have met.

use std::fmt::{self, Display, Formatter};

use super::Times;
use crate::comparing::laws::TwoLedgers;
use crate::model::answer::Answer;
use crate::model::ledger::{forked, Ledger, LedgerBlock};
use crate::model::setup::faults;
use crate::model::sizes::{PLACES, SLOTS};
use crate::model::table::{places, Table};
use crate::model::taking_back::last_interpreted;

#[derive(Default)]
pub struct TakingsBack {
    out_of_form: Times<2>,
    empty: Times<2>,
    interpreted: Times<3>,
    passed: Times<6>,
    put_in: Times<2>,
    taken: Times<4>,
    admitted: Times<1>,
    of_shelf: Times<2>,
    by_keepers: Times<1>,
    campaigns: Times<6>,
}

const OUT_OF_FORM: [&str; 2] =
    ["2 for a table without a block to take back", "2 for a table whose last place is interpreted"];
const EMPTY: [&str; 2] =
    ["32 for a table that has retired nothing", "32 for an empty table that has retired something"];
const INTERPRETED: [&str; 3] = ["33 for a single block", "33 for a full table", "33 with an open block below the last"];
const PASSED: [&str; 6] = [
    "takings back from a full table",
    "takings back that leave no block",
    "takings back with an interpreted place below",
    "takings back of a block that could be interpreted",
    "takings back from a table that has retired something",
    "tables of several blocks taken back down to empty",
];
const PUT_IN: [&str; 2] =
    ["admissions put into lists with their takings back", "blocks put into lists that admit them next"];
const TAKEN: [&str; 4] = [
    "admissions taken back straight away",
    "blocks taken back after other calls",
    "blocks that came again after a retiring taken back",
    "blocks taken back that would have been a fork",
];
const ADMITTED: [&str; 1] = ["blocks admitted again after they were taken back"];
const OF_SHELF: [&str; 2] =
    ["blocks let in from the shelf taken back", "arrivals taken back with all that they let in"];
const BY_KEEPERS: [&str; 1] = ["takings back by sites that never retire"];
const CAMPAIGNS: [&str; 6] = [
    "campaigns with takings back at both sites",
    "campaigns with takings back and a delivery at both",
    "campaigns with takings back and retirings at both",
    "campaigns with a fork only in blocks taken back",
    "campaigns with f exceeded only by blocks taken back",
    "campaigns with a fork that one site took back",
];

/// What a campaign's site knows of the block at its last place, before a taking back.
pub struct LastBlockHistory {
    /// The call before was the block's admission.
    pub just_admitted: bool,
    /// The block was retired and has come again.
    pub has_returned: bool,
    /// Another block of its site and sequence number counts.
    pub is_twin: bool,
}

impl TakingsBack {
    /// What a taking back was answered, by the table before it and how many blocks were taken back from it before.
    pub fn answer(&mut self, table: &Table, taken: usize, answer: Answer) {
        match answer.refusal {
            0 => self.success(table, taken),
            2 => self.out_of_form.note([table.count == 0, last_interpreted(table)]),
            32 => self.empty.note([table.retired == 0, table.retired == 1]),
            33 => {
                let open_below = table.held().iter().any(|row| row.mark == 0);
                self.interpreted.note([table.count == 1, table.count == PLACES, open_below]);
            }
            _ => {}
        }
    }

    fn success(&mut self, table: &Table, taken: usize) {
        let marked = |place: usize| table.rows[place].mark == 1;
        let references = table.held().last().map_or(0, |row| row.references);
        self.passed.note([
            table.count == PLACES,
            table.count == 1,
            (0..table.count).any(marked),
            places(references).all(marked),
            table.retired == 1,
            table.count == 1 && taken > 0,
        ]);
    }

    /// An admission and its taking back were put into a list, which admits the same block next or not.
    pub fn put_in(&mut self, comes_again: bool) {
        self.put_in.note([true, comes_again]);
    }

    pub fn taking_back(&mut self, answer: Answer, history: &LastBlockHistory) {
        let LastBlockHistory { just_admitted, has_returned, is_twin } = *history;
        let passed = answer.refusal == 0;
        self.taken.note([passed && just_admitted, passed && !just_admitted, passed && has_returned, passed && is_twin]);
    }

    /// A block comes of which an admission was taken back.
    pub fn admission(&mut self, answer: Answer, was_taken_back: bool) {
        self.admitted.note([was_taken_back && answer.refusal == 0]);
    }

    /// A block that an arrival let in from the shelf, or the arrival itself after all that it let in.
    pub fn of_shelf(&mut self, answer: Answer, waited: bool) {
        self.of_shelf.note([waited && answer.refusal == 0, !waited && answer.refusal == 0]);
    }

    /// A taking back by a keeper that never retires.
    pub fn by_keeper(&mut self, answer: Answer) {
        self.by_keepers.note([answer.refusal == 0]);
    }

    /// What a campaign came to.
    pub fn campaign(&mut self, two_ledgers: &TwoLedgers) {
        let ledgers = two_ledgers.sites.map(|site| &site.ledger);
        let both = |of: fn(&Ledger) -> usize| ledgers.iter().all(|ledger| of(ledger) > 0);
        let take_back = both(Ledger::takings_back);
        let delivers = (0..SLOTS).any(|slot| two_ledgers.sites.iter().all(|site| !site.delivered[slot].is_empty()));
        let with_taken_back = forked(ledgers.iter().flat_map(|ledger| ledger.blocks()));
        let [one, other] = ledgers;
        self.campaigns.note([
            take_back,
            take_back && delivers,
            take_back && both(Ledger::retirings),
            with_taken_back & !two_ledgers.forked() != 0,
            two_ledgers.few_forked() && with_taken_back.count_ones() > faults(two_ledgers.site_count),
            fork_taken_back(one, other) || fork_taken_back(other, one),
        ]);
    }
}

/// Whether a ledger took back a block that counts in the other, and has another of its site and number.
fn fork_taken_back(ledger: &Ledger, other: &Ledger) -> bool {
    let counts = |block: &LedgerBlock| ledger.counting().any(|own| own.digest == block.digest);
    let taken = |block: &&LedgerBlock| ledger.was_taken_back(&block.digest) && !counts(block);
    other.counting().filter(taken).any(|block| ledger.counting().any(|own| own.is_twin_of(block)))
}

impl Display for TakingsBack {
    fn fmt(&self, to: &mut Formatter) -> fmt::Result {
        self.out_of_form.write(to, OUT_OF_FORM)?;
        self.empty.write(to, EMPTY)?;
        self.interpreted.write(to, INTERPRETED)?;
        self.passed.write(to, PASSED)?;
        self.put_in.write(to, PUT_IN)?;
        self.taken.write(to, TAKEN)?;
        self.admitted.write(to, ADMITTED)?;
        self.of_shelf.write(to, OF_SHELF)?;
        self.by_keepers.write(to, BY_KEEPERS)?;
        self.campaigns.write(to, CAMPAIGNS)
    }
}
