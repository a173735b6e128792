//! Long campaigns, of as many blocks as there is time for, and a site that goes on to the last sequence number.

use crate::comparing::buffers::{Buffers, NextBlock, Sides};
use crate::comparing::compare::Compare;
use crate::comparing::difference::Difference;
use crate::comparing::laws::{self, TwoLedgers};
use crate::comparing::sites::long_campaign::LongCampaign;
use crate::drawing::random::Random;
use crate::drawing::record_contents::any_numbers;
use crate::model::sizes::{BUFFER_NUMBERS, MAX_BLOCK_BYTES, SLOTS, TABLE_BYTES};

const MANY_BLOCKS: usize = 10_000;
const SOME_BLOCKS: usize = 300;

pub fn run(random: &Random, compare: &mut Compare) -> Result<(), Difference> {
    let first_law = Some(random.below(3));
    long_campaign(random, compare, MANY_BLOCKS, first_law)
}

/// Campaigns that are short enough for the self-test to run some for each mutant.
pub fn shorter(random: &Random, compare: &mut Compare) -> Result<(), Difference> {
    let first_law = random.pick(&[None, None, Some(0), Some(1), Some(2)]);
    long_campaign(random, compare, SOME_BLOCKS, first_law)
}

fn long_campaign(
    random: &Random,
    compare: &mut Compare,
    blocks: usize,
    first_law: Option<usize>,
) -> Result<(), Difference> {
    let mut long = LongCampaign::new(random, compare, blocks, first_law)?;
    long.run(compare)?;
    let facts = long.facts();
    compare.counts.long_campaigns.campaign(&facts);
    laws::check_long_campaign(&facts)?;
    let sites = [facts.sites[0], facts.sites[facts.sites.len() - 1]];
    let watch_answers = [compare.forks(&sites[0].buffers().table)?, compare.forks(&sites[1].buffers().table)?];
    laws::check_two_ledgers(&TwoLedgers { sites, site_count: facts.sites.len() as u8, watch_answers })
}

/// A site alone builds, and retires what it can, up to the number after which there is none.
pub fn to_the_end(random: &Random, compare: &mut Compare) -> Result<(), Difference> {
    let mut table = random.bytes(TABLE_BYTES);
    compare.fresh(1, &[0; SLOTS], &mut table)?;
    let mut sides = Sides::new(Buffers::new(table, any_numbers(random, BUFFER_NUMBERS)));
    let mut built: u32 = 0;
    while let Some(block) = next(compare, &sides)? {
        built += 1;
        let admission = compare.admit(&mut sides, &block, 1)?;
        laws::check_not_refused("gt_admit", admission)?;
        laws::check_not_refused("gt_interpret", compare.interpret(&mut sides, admission.value)?)?;
        if admission.value > 0 {
            laws::check_not_refused("gt_retire", compare.retire(&mut sides)?)?;
        }
    }
    compare.counts.long_campaigns.to_the_end(built == u32::from(u16::MAX) + 1);
    Ok(())
}

/// The site's next block; none if 30 is answered.
fn next(compare: &mut Compare, sides: &Sides) -> Result<Option<Vec<u8>>, Difference> {
    let next = NextBlock { table: &sides.expected.table, site: 0, requests: &[] };
    let (answer, output) = compare.build(&next, &[0; MAX_BLOCK_BYTES])?;
    if answer.refusal == 30 {
        return Ok(None);
    }
    laws::check_not_refused("gt_build", answer)?;
    Ok(Some(output[..answer.value].to_vec()))
}
