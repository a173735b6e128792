//! Long campaigns: sites that build by the rule and interpret everything, each with a table of 64 places and a ledger without
//! bounds. In each round every site builds a block, and gets those of the others in an order of its own. Each retires where
//! its table is full, or sooner. Now and then it takes a block back, which comes again.

use crate::comparing::buffers::NextBlock;
use crate::comparing::compare::Compare;
use crate::comparing::difference::Difference;
use crate::comparing::facts::long_campaign::LongCampaignFacts;
use crate::comparing::facts::site::SiteWithLedger;
use crate::comparing::laws;
use crate::drawing::random::Random;
use crate::model::block::{list_bytes, Request};
use crate::model::sizes::{BUFFER_NUMBERS, MAX_BLOCK_BYTES, PLACES, SLOTS};

/// How many rounds after its first request an owner asks once more, and for what.
const LATER: usize = 20;
const ASKED_LATER: u16 = 1;

/// Of so many blocks that come to a site, one is taken back first.
const TAKEN_BACK_ONE_IN: usize = 32;

pub struct LongCampaign<'a> {
    random: &'a Random,
    sites: u8,
    owners: [u8; SLOTS],
    /// What each slot's owner asks for, and in which round.
    numbers: [u16; SLOTS],
    asked_in: [usize; SLOTS],
    rounds: usize,
    controllers: Vec<Controller>,
    /// How many retirings there were with a full table.
    when_full: u64,
}

struct Controller {
    site: SiteWithLedger,
    /// The site retires until it holds fewer blocks than this.
    fewer_than: usize,
}

impl<'a> LongCampaign<'a> {
    /// A campaign of so many blocks at least, with the law that is held first against each call, if any is.
    pub fn new(
        random: &'a Random,
        compare: &mut Compare,
        blocks: usize,
        first_law: Option<usize>,
    ) -> Result<LongCampaign<'a>, Difference> {
        let sites: u8 = random.pick(&[1, 4, 4, 7]);
        let owners = std::array::from_fn(|_| random.below(sites.into()) as u8);
        let rounds = blocks.div_ceil(sites.into());
        // One slot after the other, over the whole run; the last in time to be delivered.
        let asked_in =
            std::array::from_fn(|slot| (slot * rounds / SLOTS + random.below(rounds / SLOTS)).min(rounds - 5));
        let numbers = std::array::from_fn(|_| random.number().max(ASKED_LATER + 1));
        let mut controllers = Vec::new();
        for _ in 0..sites {
            let site = SiteWithLedger::new(random, compare, (sites, owners), BUFFER_NUMBERS, first_law)?;
            // The blocks of the last three rounds stay: the others still refer to them.
            let fewer_than = random.pick(&[PLACES, PLACES, random.between(3 * usize::from(sites), PLACES)]);
            controllers.push(Controller { site, fewer_than });
        }
        Ok(LongCampaign { random, sites, owners, numbers, asked_in, rounds, controllers, when_full: 0 })
    }

    pub fn run(&mut self, compare: &mut Compare) -> Result<(), Difference> {
        for round in 0..self.rounds {
            let blocks: Result<Vec<Vec<u8>>, _> =
                (0..self.sites).map(|site| self.build(compare, site, round)).collect();
            let blocks = blocks?;
            for site in 0..self.sites {
                let mut order: Vec<usize> = (0..blocks.len()).collect();
                self.random.shuffle(&mut order);
                for block in order {
                    self.hold(compare, site, &blocks[block])?;
                }
            }
        }
        Ok(())
    }

    /// The sites after all calls.
    pub fn facts(&self) -> LongCampaignFacts<'_> {
        let sites = self.controllers.iter().map(|controller| &controller.site).collect();
        LongCampaignFacts { sites, numbers: self.numbers, when_full: self.when_full }
    }

    /// What a site builds in a round. Owners ask in theirs, and once more later, in vain.
    fn build(&self, compare: &mut Compare, site: u8, round: usize) -> Result<Vec<u8>, Difference> {
        let request = |slot: usize| {
            let number = match round.checked_sub(self.asked_in[slot])? {
                0 => self.numbers[slot],
                LATER => ASKED_LATER,
                _ => return None,
            };
            (self.owners[slot] == site).then_some(Request { slot: slot as u8, number })
        };
        let requests: Vec<Request> = (0..SLOTS).filter_map(request).collect();
        let next = NextBlock {
            table: &self.controllers[usize::from(site)].site.buffers().table,
            site,
            requests: &list_bytes(&requests),
        };
        let (answer, output) = compare.build(&next, &[0; MAX_BLOCK_BYTES])?;
        laws::check_not_refused("gt_build", answer)?;
        Ok(output[..answer.value].to_vec())
    }

    /// A block comes to a site, which makes room for it.
    fn hold(&mut self, compare: &mut Compare, site: u8, block: &[u8]) -> Result<(), Difference> {
        let Controller { site, fewer_than } = &mut self.controllers[usize::from(site)];
        while site.ledger.count() >= *fewer_than {
            self.when_full += u64::from(site.ledger.count() == PLACES);
            laws::check_not_refused("gt_retire", site.retire(compare)?)?;
        }
        if self.random.one_in(TAKEN_BACK_ONE_IN) {
            laws::check_not_refused("gt_admit", site.admit(compare, block, 1)?)?;
            laws::check_not_refused("gt_take_back", site.take_back(compare)?)?;
        }
        let admission = site.admit(compare, block, 1)?;
        laws::check_not_refused("gt_admit", admission)?;
        laws::check_not_refused("gt_interpret", site.interpret(compare, admission.value)?)
    }
}
