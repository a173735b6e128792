//! A long campaign of sites that build by the rule and interpret everything: what they came to.

use crate::comparing::facts::site::SiteWithLedger;
use crate::model::sizes::SLOTS;

/// The sites of a long campaign after all its calls, and what was asked for.
pub struct LongCampaignFacts<'a> {
    pub sites: Vec<&'a SiteWithLedger>,
    /// What each slot's owner asked for first.
    pub numbers: [u16; SLOTS],
    /// How many retirings there were with a full table.
    pub when_full: u64,
}
