//! What must hold of the blocks that one site holds: document 02's promise of arrival, and what its premises rest on.

use super::Law;
use crate::model::promise::{HeldBlocks, Promise};
use crate::model::record::{record_at, Act};
use crate::model::sizes::SLOTS;
use crate::model::table::places;

/// What a site holds, all of it interpreted, and what is promised there.
pub struct SitePromises<'a> {
    pub held: &'a HeldBlocks,
    /// The promise in each slot, if there is one.
    pub promises: &'a [Option<Promise>; SLOTS],
    pub records: &'a [u16],
    /// The mask of the sites that build by the building rule alone.
    pub by_rule: u16,
}

pub const FULL: &str = "law: a site that builds by the building rule alone is full wherever its blocks are held";
pub const DELIVERED: &str = "law: where the premises hold, the owner's first request is delivered by the last block";
pub const PASSED_ON: &str = "law: where the premises hold, the last block has that number as delivered";

pub fn laws<'a>() -> [Law<SitePromises<'a>>; 3] {
    [
        Law { name: FULL, broken: not_full },
        Law { name: DELIVERED, broken: |site| broken(site, delivered) },
        Law { name: PASSED_ON, broken: |site| broken(site, passed_on) },
    ]
}

fn not_full(site: &SitePromises) -> Option<String> {
    let missing = site.by_rule & !site.held.full();
    (missing != 0).then(|| format!("sites {missing:016b} aren't full, forked are {:016b}", site.held.forked()))
}

/// The first promise that isn't kept at one of its last blocks.
fn broken(site: &SitePromises, kept: fn(&SitePromises, usize, usize, u16) -> bool) -> Option<String> {
    (0..SLOTS).find_map(|slot| {
        let Promise { number, lasts } = *site.promises[slot].as_ref()?;
        let place = places(lasts).find(|&last| !kept(site, slot, last, number))?;
        Some(format!("{number} in slot {slot} by place {place}"))
    })
}

/// "v is delivered at that block or earlier in its chain"
fn delivered(site: &SitePromises, slot: usize, last: usize, number: u16) -> bool {
    places(site.held.chain(last)).any(|place| site.number(place, slot, Act::Deliver.made()) == number)
}

fn passed_on(site: &SitePromises, slot: usize, last: usize, number: u16) -> bool {
    site.number(last, slot, Act::Deliver.so_far()) == number
}

impl SitePromises<'_> {
    /// An entry of a record.
    pub fn number(&self, place: usize, slot: usize, entry: usize) -> u16 {
        record_at(self.records, place, slot)[entry]
    }
}
