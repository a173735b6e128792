//! What must hold of a long campaign of sites that build by the rule and interpret everything.

use std::collections::BTreeSet;

use super::Law;
use crate::comparing::facts::long_campaign::LongCampaignFacts;
use crate::model::sizes::SLOTS;

pub const NEVER_REFUSED: &str = "law: no call of a long campaign is refused, and a full table can retire";
pub const ALL_DELIVERED: &str =
    "law: every site of a long campaign delivers what each owner asked for first, and nothing else";

pub fn laws<'a>() -> [Law<LongCampaignFacts<'a>>; 1] {
    [Law { name: ALL_DELIVERED, broken: not_delivered }]
}

fn not_delivered(long: &LongCampaignFacts) -> Option<String> {
    let wrong = |site: usize, slot: usize| long.sites[site].delivered[slot] != BTreeSet::from([long.numbers[slot]]);
    let mut slots = (0..long.sites.len()).flat_map(|site| (0..SLOTS).map(move |slot| (site, slot)));
    let (site, slot) = slots.find(|&(site, slot)| wrong(site, slot))?;
    Some(format!("site {site}, slot {slot} has {:?}", long.sites[site].delivered[slot]))
}
