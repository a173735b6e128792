//! Calls on a site's table and on its ledger without bounds: each is made on both, and the laws are held against what comes of
//! it.

use std::collections::{HashMap, HashSet};

use crate::comparing::buffers::{Buffers, Sides};
use crate::comparing::compare::Compare;
use crate::comparing::difference::Difference;
use crate::comparing::facts::site::SiteWithLedger;
use crate::comparing::laws::{self, SiteAfterCall};
use crate::drawing::random::Random;
use crate::drawing::record_contents::any_numbers;
use crate::model::answer::Answer;
use crate::model::ledger::Ledger;
use crate::model::record::{part_at, Act};
use crate::model::sizes::{SLOTS, TABLE_BYTES};
use crate::model::table::Table;

impl SiteWithLedger {
    /// A site with a fresh table and any records.
    pub fn new(
        random: &Random,
        compare: &mut Compare,
        (sites, owners): (u8, [u8; SLOTS]),
        numbers: usize,
        first_law: Option<usize>,
    ) -> Result<SiteWithLedger, Difference> {
        let mut table = random.bytes(TABLE_BYTES);
        compare.fresh(sites, &owners, &mut table)?;
        Ok(SiteWithLedger {
            sides: Sides::new(Buffers::new(table, any_numbers(random, numbers))),
            ledger: Ledger::new(sites, owners, numbers, compare.model.taking_back.counts),
            first_law,
            parts: HashMap::new(),
            delivered: Default::default(),
            retired: HashSet::new(),
        })
    }

    pub fn admit(&mut self, compare: &mut Compare, bytes: &[u8], verdict: u8) -> Result<Answer, Difference> {
        let answer = compare.admit(&mut self.sides, bytes, verdict)?;
        let ledger_answer = self.ledger.admit(bytes, verdict);
        self.check(answer, ledger_answer)
    }

    pub fn interpret(&mut self, compare: &mut Compare, place: usize) -> Result<Answer, Difference> {
        let answer = compare.interpret(&mut self.sides, place)?;
        let ledger_answer = self.ledger.interpret(place);
        if answer.refusal == 0 && place < self.ledger.count() {
            self.note(compare, place);
        }
        self.check(answer, ledger_answer)
    }

    pub fn retire(&mut self, compare: &mut Compare) -> Result<Answer, Difference> {
        let first = Table::from_bytes(&self.buffers().table).rows[0].digest;
        let answer = compare.retire(&mut self.sides)?;
        let ledger_answer = self.ledger.retire();
        if answer.refusal == 0 {
            self.retired.insert(first);
        }
        self.check(answer, ledger_answer)
    }

    pub fn take_back(&mut self, compare: &mut Compare) -> Result<Answer, Difference> {
        let answer = compare.take_back(&mut self.sides)?;
        let ledger_answer = self.ledger.take_back();
        self.check(answer, ledger_answer)
    }

    /// Notes the part that was written for a place.
    fn note(&mut self, compare: &mut Compare, place: usize) {
        let part = part_at(&self.buffers().records, place);
        compare.counts.campaigns.acts(&part);
        for (numbers, record) in self.delivered.iter_mut().zip(&part) {
            numbers.extend(Some(record[Act::Deliver.so_far()]).filter(|&number| number != 0));
        }
        self.parts.insert(self.ledger.at(place).digest, part);
    }

    fn check(&self, answer: Answer, ledger_answer: Answer) -> Result<Answer, Difference> {
        if let Some(first) = self.first_law {
            laws::check_site_after_call(
                &SiteAfterCall { ledger: &self.ledger, buffers: self.buffers(), answer, ledger_answer },
                first,
            )?;
        }
        Ok(answer)
    }
}
