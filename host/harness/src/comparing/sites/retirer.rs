//! A keeper that retires: it gets the blocks of a campaign in an order of its own, interprets them by and by, and
//! retires now and then, sometimes sooner than is good for it. It takes blocks back too, those of wrong files among
//! them. Blocks that have left and blocks that were taken back come again. The list of its calls is kept, to be
//! replayed.

use crate::comparing::buffers::Buffers;
use crate::comparing::compare::{CallList, Compare};
use crate::comparing::counts::{BlockHistory, LastBlockHistory};
use crate::comparing::difference::Difference;
use crate::comparing::facts::site::SiteWithLedger;
use crate::comparing::laws::{self, AdmissionTakenBack};
use crate::drawing::arrivals::{any, good};
use crate::drawing::campaign::Campaign;
use crate::drawing::random::Random;
use crate::drawing::record_contents::some_length;
use crate::drawing::target_places::any_target;
use crate::model::answer::Answer;
use crate::model::block;
use crate::model::replay::{admission, interpretation, retiring, taking_back};
use crate::model::sha256::sha256;
use crate::model::sizes::{BUFFER_NUMBERS, PLACES};
use crate::model::table::Table;

pub struct Retirer<'a> {
    campaign: &'a Campaign,
    pub site: SiteWithLedger,
    calls: Vec<u8>,
    answers: Vec<Answer>,
    before: Buffers,
    /// Whether the last call admitted a block.
    just_admitted: bool,
    /// Whether each admission is taken back on a copy. Else wrong rules show whether the laws of what the lists leave
    /// say something by themselves.
    on_copies: bool,
}

struct Habits {
    most_calls: usize,
    /// Of so many calls one is a retiring, whether it can be or not; of so many that could be one, one is.
    retires_one_in: usize,
    /// How many blocks are held at least before one is retired where that can be.
    from: usize,
    /// Of so many calls one brings a block that has left.
    again_one_in: usize,
    interprets_one_in: usize,
    refused_one_in: usize,
    /// Of so many calls one takes back the last block, whether it can be or not; and one begins to load a wrong file.
    takes_back_one_in: usize,
    loads_one_in: usize,
}

impl Habits {
    fn drawn(random: &Random, campaign: &Campaign) -> Habits {
        let blocks = campaign.blocks.len();
        let sites = usize::from(campaign.sites);
        Habits {
            most_calls: random.pick(&[3 * blocks, 4 * blocks, random.between(0, 3 * blocks)]),
            retires_one_in: random.pick(&[1, 2, 4, 12]),
            // Who keeps the blocks of the last rounds loses nothing that others still refer to.
            from: random.pick(&[0, sites, 2 * sites, 3 * sites, PLACES]).min(PLACES),
            again_one_in: random.pick(&[6, 12, 1000]),
            interprets_one_in: random.pick(&[1, 1, 2, 4]),
            refused_one_in: random.pick(&[6, 12, 1000]),
            takes_back_one_in: random.pick(&[8, 24, 1000]),
            loads_one_in: random.pick(&[24, 48, 1000]),
        }
    }
}

impl<'a> Retirer<'a> {
    /// Makes all its calls, with the law that is held first against each of them, if any is.
    pub fn run(
        random: &Random,
        compare: &mut Compare,
        campaign: &'a Campaign,
        first_law: Option<usize>,
    ) -> Result<Retirer<'a>, Difference> {
        let habits = Habits::drawn(random, campaign);
        let numbers = if random.one_in(24) { some_length(random) } else { BUFFER_NUMBERS };
        let site = SiteWithLedger::new(random, compare, (campaign.sites, campaign.owners), numbers, first_law)?;
        let before = site.buffers().table_and_records();
        let on_copies = first_law.is_some() && random.one_in(2);
        let (calls, answers) = (Vec::new(), Vec::new());
        let mut retirer = Retirer { campaign, site, calls, answers, before, just_admitted: false, on_copies };
        while retirer.answers.len() < habits.most_calls {
            retirer.next_call(random, compare, &habits)?;
        }
        Ok(retirer)
    }

    /// Replays the whole list.
    pub fn replay(&self, random: &Random, compare: &mut Compare) -> Result<(), Difference> {
        let after = self.site.buffers().table_and_records();
        let list = CallList { before: &self.before, calls: &self.calls, answers: &self.answers, after: &after };
        let room = 2 * self.answers.len();
        let length = random.pick(&[room, room, room + 1, room.saturating_sub(1)]);
        let answers: Vec<u64> = (0..length).map(|_| random.set()).collect();
        compare.replay_call_list(&list, &answers)
    }

    // ---- Calls

    fn admit(&mut self, compare: &mut Compare, bytes: &[u8], verdict: u8) -> Result<Answer, Difference> {
        let history = self.block_history(bytes);
        let before = self.site.buffers().table.clone();
        self.calls.extend(admission(verdict, bytes));
        let answer = self.site.admit(compare, bytes, verdict)?;
        compare.counts.retirings.admission(answer, &history);
        compare.counts.takings_back.admission(answer, history.was_taken_back);
        self.note(answer);
        self.just_admitted = answer.refusal == 0;
        if self.just_admitted && self.on_copies {
            laws::check_taking_back(&AdmissionTakenBack::of(compare, before, &self.site.buffers().table)?)?;
        }
        Ok(answer)
    }

    fn note(&mut self, answer: Answer) {
        self.answers.push(answer);
        self.just_admitted = false;
    }

    fn block_history(&self, bytes: &[u8]) -> BlockHistory {
        let ledger = &self.site.ledger;
        let (digest, references) = (sha256(bytes), block::references(bytes));
        BlockHistory {
            has_left: ledger.is_gone(&digest),
            was_taken_back: ledger.was_taken_back(&digest),
            refers_to_lost: references.iter().any(|reference| ledger.is_gone(reference)),
            refers_to_returned: references.iter().any(|reference| ledger.has_returned(reference)),
        }
    }

    fn interpret(&mut self, compare: &mut Compare, place: usize) -> Result<(), Difference> {
        self.calls.extend(interpretation(place));
        let digest = (place < self.site.ledger.count()).then(|| self.site.ledger.at(place).digest);
        let again = digest.is_some_and(|digest| self.site.parts.contains_key(&digest));
        let answer = self.site.interpret(compare, place)?;
        compare.counts.retirings.interpretation(answer, again);
        self.note(answer);
        Ok(())
    }

    fn retire(&mut self, compare: &mut Compare) -> Result<(), Difference> {
        self.calls.extend(retiring());
        let before = Table::from_bytes(&self.site.buffers().table);
        let answer = self.site.retire(compare)?;
        compare.counts.retirings.answer(&before, self.site.buffers().records.len(), answer);
        self.note(answer);
        Ok(())
    }

    fn take_back(&mut self, compare: &mut Compare) -> Result<(), Difference> {
        self.calls.extend(taking_back());
        let history = self.last_block_history();
        let answer = self.site.take_back(compare)?;
        compare.counts.takings_back.taking_back(answer, &history);
        self.note(answer);
        Ok(())
    }

    fn last_block_history(&self) -> LastBlockHistory {
        let ledger = &self.site.ledger;
        let last = ledger.count().checked_sub(1).map(|place| ledger.at(place));
        LastBlockHistory {
            just_admitted: self.just_admitted,
            has_returned: last.is_some_and(|last| ledger.has_returned(&last.digest)),
            is_twin: last.is_some_and(|last| ledger.counting().any(|other| other.is_twin_of(last))),
        }
    }

    // ---- Which call comes next

    fn next_call(&mut self, random: &Random, compare: &mut Compare, habits: &Habits) -> Result<(), Difference> {
        let can = self.site.ledger.count() >= habits.from && self.site.ledger.may_retire();
        if can && random.one_in(habits.retires_one_in) || random.one_in(8 * habits.retires_one_in) {
            return self.retire(compare);
        }
        if random.one_in(habits.takes_back_one_in) {
            return self.take_back(compare);
        }
        if random.one_in(habits.loads_one_in) {
            return self.load_wrong_file(random, compare);
        }
        if random.one_in(habits.refused_one_in) {
            return self.odd_call(random, compare);
        }
        let open =
            if self.site.buffers().records.len() == BUFFER_NUMBERS { self.site.ledger.open() } else { Vec::new() };
        if !open.is_empty() && random.one_in(habits.interprets_one_in) {
            return self.interpret(compare, random.pick(&open));
        }
        let (ready, gone) = (self.ready(), self.retired_blocks());
        let again = !gone.is_empty() && random.one_in(habits.again_one_in);
        let block = match (ready.is_empty() || again, gone.is_empty()) {
            (false, _) => random.pick(&[ready[0], random.pick(&ready)]),
            (true, false) => random.pick(&gone),
            (true, true) if !open.is_empty() => return self.interpret(compare, random.pick(&open)),
            (true, true) => return self.odd_call(random, compare),
        };
        let campaign = self.campaign;
        self.admit(compare, &campaign.blocks[block].bytes, 1).map(|_| ())
    }

    /// The campaign's blocks that were never admitted, or were taken back, and whose references are all held.
    fn ready(&self) -> Vec<usize> {
        let ledger = &self.site.ledger;
        let new = |block: usize| {
            let digest = &self.campaign.blocks[block].digest;
            ledger.place_of(digest).is_none() && !ledger.is_gone(digest)
        };
        let held = |block: usize| ledger.place_of(&self.campaign.blocks[block].digest).is_some();
        let references =
            |block: usize| (0..block).filter(move |&other| self.campaign.blocks[block].references >> other & 1 == 1);
        (0..self.campaign.blocks.len()).filter(|&block| new(block) && references(block).all(held)).collect()
    }

    /// The campaign's blocks that have left.
    fn retired_blocks(&self) -> Vec<usize> {
        let has_left = |block: &usize| self.site.ledger.is_gone(&self.campaign.blocks[*block].digest);
        (0..self.campaign.blocks.len()).filter(has_left).collect()
    }

    /// Blocks of another file come and are taken back, the last one first. Many of them would be forks. Something may
    /// be retired meanwhile.
    fn load_wrong_file(&mut self, random: &Random, compare: &mut Compare) -> Result<(), Difference> {
        let mut admitted = 0;
        for _ in 0..random.between(1, 3) {
            let held = Table::from_bytes(&self.site.buffers().table);
            let answer = self.admit(compare, &good(random, &held).block, 1)?;
            admitted += usize::from(answer.refusal == 0);
        }
        if random.one_in(4) {
            self.retire(compare)?;
        }
        (0..admitted).try_for_each(|_| self.take_back(compare))
    }

    /// A call that is mostly refused.
    fn odd_call(&mut self, random: &Random, compare: &mut Compare) -> Result<(), Difference> {
        let campaign = self.campaign;
        match random.below(6) {
            0 | 1 => self.interpret(compare, any_target(random, self.site.ledger.count())),
            2 => {
                // A fork often, where it is admitted.
                let held = Table::from_bytes(&self.site.buffers().table);
                let arrival = any(random, &held, &[]);
                self.admit(compare, &arrival.block, arrival.verdict).map(|_| ())
            }
            _ => {
                let block = &campaign.blocks[random.below(campaign.blocks.len())];
                self.admit(compare, &block.bytes, random.pick(&[1, 1, 1, 0])).map(|_| ())
            }
        }
    }
}
