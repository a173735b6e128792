//! Campaigns of two keepers, who get the same blocks in different orders. Each call is compared, and then the whole
//! lists by replays. What the two come to must keep the laws, and a site can go on from there.

use super::builds::{next_block, some_list};
use crate::comparing::buffers::NextBlock;
use crate::comparing::compare::Compare;
use crate::comparing::difference::Difference;
use crate::comparing::facts::two_sites::TwoSites;
use crate::comparing::laws;
use crate::comparing::sites::keeper::Keeper;
use crate::drawing::campaign::Campaign;
use crate::drawing::random::Random;

pub fn run(random: &Random, compare: &mut Compare) -> Result<(), Difference> {
    let campaign = Campaign::drawn(random);
    let one = Keeper::run(random, compare, &campaign)?;
    let other = Keeper::run(random, compare, &campaign)?;
    let mut watch = |keeper: &Keeper| compare.forks(&keeper.buffers().table);
    let watch_answers = [watch(&one)?, watch(&other)?];
    let two_sites = TwoSites::of([(one.buffers(), watch_answers[0]), (other.buffers(), watch_answers[1])]);
    compare.counts.campaigns.campaign(&two_sites);
    laws::check_two_sites(&two_sites)?;
    for keeper in [one, other] {
        keeper.replay(random, compare)?;
        let site = random.below(campaign.sites.into()) as u8;
        next_block(random, compare, &NextBlock { table: &keeper.buffers().table, site, requests: &some_list(random) })?;
    }
    Ok(())
}
