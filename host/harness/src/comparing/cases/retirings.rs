//! Retirings: single ones, mostly on tables that no calls reach; and campaigns of two keepers that retire at different
//! times, each beside a ledger of every block ever admitted.

use super::builds::{next_block, some_list};
use crate::comparing::buffers::{Buffers, NextBlock, Sides};
use crate::comparing::compare::Compare;
use crate::comparing::difference::Difference;
use crate::comparing::laws::{self, RetiringFacts, TwoLedgers};
use crate::comparing::sites::retirer::Retirer;
use crate::drawing::campaign::Campaign;
use crate::drawing::random::Random;
use crate::drawing::record_contents::{any_numbers, some_length};
use crate::drawing::table_damage::damaged;
use crate::drawing::tables_to_retire;
use crate::model::sizes::BUFFER_NUMBERS;
use crate::model::table::Table;

pub fn run(random: &Random, compare: &mut Compare) -> Result<(), Difference> {
    if random.one_in(2) {
        by_hand(random, compare)
    } else {
        campaigns(random, compare)
    }
}

// ---- Any tables and records

const RETIRINGS_A_TABLE: usize = 3;

/// One after the other, up to a refusal.
fn by_hand(random: &Random, compare: &mut Compare) -> Result<(), Difference> {
    let table = tables_to_retire::drawn(random);
    let bytes = if random.one_in(6) { damaged(random, &table) } else { table.to_bytes() };
    let length = some_length(random);
    let mut sides = Sides::new(Buffers::new(bytes, any_numbers(random, length)));
    for _ in 0..RETIRINGS_A_TABLE {
        let before = sides.expected.table_and_records();
        let answer = compare.retire(&mut sides)?;
        compare.counts.retirings.answer(&Table::from_bytes(&before.table), length, answer);
        if answer.refusal != 0 {
            break;
        }
        let in_form = compare.in_form(&sides.expected.table)?;
        laws::check_retiring(
            &RetiringFacts { before: &before, after: &sides.tested, answer, in_form },
            random.below(8),
        )?;
    }
    Ok(())
}

// ---- Campaigns

/// Two controllers can be joined only where neither has retired.
fn join(random: &Random, compare: &mut Compare, [left, right]: [&Buffers; 2]) -> Result<(), Difference> {
    let mut sides = Sides::new(left.table_and_records());
    compare.join(&mut sides, right, &any_numbers(random, BUFFER_NUMBERS)).map(|_| ())
}

/// What the two come to must keep the laws, and a site can go on from there.
fn campaigns(random: &Random, compare: &mut Compare) -> Result<(), Difference> {
    let campaign = Campaign::drawn(random);
    if campaign.blocks.is_empty() {
        return Ok(());
    }
    let first_law = random.pick(&[None, Some(0), Some(1), Some(2)]);
    let one = Retirer::run(random, compare, &campaign, first_law)?;
    let other = Retirer::run(random, compare, &campaign, first_law)?;
    let mut watch = |retirer: &Retirer| compare.forks(&retirer.site.buffers().table);
    let watch_answers = [watch(&one)?, watch(&other)?];
    let two_ledgers = TwoLedgers { sites: [&one.site, &other.site], site_count: campaign.sites, watch_answers };
    compare.counts.retirings.campaign(&two_ledgers);
    compare.counts.takings_back.campaign(&two_ledgers);
    laws::check_two_ledgers(&two_ledgers)?;
    join(random, compare, [one.site.buffers(), other.site.buffers()])?;
    for retirer in [one, other] {
        retirer.replay(random, compare)?;
        let site = random.below(campaign.sites.into()) as u8;
        let table = &retirer.site.buffers().table;
        next_block(random, compare, &NextBlock { table, site, requests: &some_list(random) })?;
    }
    Ok(())
}
