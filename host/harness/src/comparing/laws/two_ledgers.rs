//! What must hold of two sites together over every block that counts: that either ever admitted and didn't take back,
//! retired ones too.

use std::collections::HashSet;

use super::Law;
use crate::comparing::facts::site::SiteWithLedger;
use crate::model::answer::ForkedSites;
use crate::model::ledger::forked;
use crate::model::record::Act;
use crate::model::setup::faults;
use crate::model::sha256::Digest;
use crate::model::sizes::SLOTS;
use crate::model::table::Table;

/// Two sites with their ledgers, after all their calls.
pub struct TwoLedgers<'a> {
    pub sites: [&'a SiteWithLedger; 2],
    /// The document's n.
    pub site_count: u8,
    /// What the watch says of each site's table.
    pub watch_answers: [ForkedSites; 2],
}

pub const EQUAL_EVER: &str = "law: a block that was ever interpreted at both sites had equal parts at both";
pub const ONE_NUMBER_EVER: &str =
    "law: where at most f sites forked over every block that counts, one number is delivered in a slot";
pub const REQUESTED_EVER: &str =
    "law: a number delivered in a block was requested by the owner in an ancestor, held or not";
pub const WATCHED_EVER: &str = "law: whom the watch names at one site has forked over every block that counts";
pub const COUNTED: &str =
    "law: the blocks that count are those that the table holds and those that left it from place 0";

pub fn laws<'a>() -> [Law<TwoLedgers<'a>>; 5] {
    [
        Law { name: EQUAL_EVER, broken: unequal_parts },
        Law { name: ONE_NUMBER_EVER, broken: two_numbers },
        Law {
            name: REQUESTED_EVER,
            broken: |two_ledgers| two_ledgers.sites.iter().find_map(|site| not_requested(site)),
        },
        Law { name: WATCHED_EVER, broken: named_in_vain },
        Law { name: COUNTED, broken: |two_ledgers| two_ledgers.sites.iter().find_map(|site| other_blocks(site)) },
    ]
}

impl TwoLedgers<'_> {
    /// The mask of the sites that forked.
    pub fn forked(&self) -> u16 {
        forked(self.sites.iter().flat_map(|site| site.ledger.counting()))
    }

    pub fn few_forked(&self) -> bool {
        self.forked().count_ones() <= faults(self.site_count)
    }
}

fn unequal_parts(two_ledgers: &TwoLedgers) -> Option<String> {
    let [one, other] = two_ledgers.sites;
    let differs = |digest| other.parts.get(digest).is_some_and(|part| *part != one.parts[digest]);
    let count = one.parts.keys().filter(|digest| differs(*digest)).count();
    (count > 0).then(|| format!("{count} blocks"))
}

fn two_numbers(two_ledgers: &TwoLedgers) -> Option<String> {
    if !two_ledgers.few_forked() {
        return None;
    }
    let delivered = |slot: usize| &two_ledgers.sites[0].delivered[slot] | &two_ledgers.sites[1].delivered[slot];
    let slot = (0..SLOTS).find(|&slot| delivered(slot).len() > 1)?;
    Some(format!("slot {slot} has {:?}", delivered(slot)))
}

/// "the owner requested it if an ancestor of that block, built by the owner, has it as the slot's counted request"
fn not_requested(site: &SiteWithLedger) -> Option<String> {
    site.ledger.counting().find_map(|block| {
        let part = site.parts.get(&block.digest)?;
        let number = |slot: usize| part[slot][Act::Deliver.so_far()];
        let slot = (0..SLOTS).find(|&slot| number(slot) != 0 && !block.requested[slot].contains(&number(slot)))?;
        Some(format!("{} in slot {slot}, by site {} at {}", number(slot), block.site, block.sequence))
    })
}

fn named_in_vain(two_ledgers: &TwoLedgers) -> Option<String> {
    let wrong = |answer: &&ForkedSites| {
        answer.sites & !two_ledgers.forked() != 0 || two_ledgers.few_forked() && !answer.at_most_f
    };
    let answer = two_ledgers.watch_answers.iter().find(wrong)?;
    Some(format!("{answer:?}, forked are {:016b}", two_ledgers.forked()))
}

fn other_blocks(site: &SiteWithLedger) -> Option<String> {
    let counting: HashSet<Digest> = site.ledger.counting().map(|block| block.digest).collect();
    let held = Table::from_bytes(&site.buffers().table);
    let mut kept: HashSet<Digest> = held.held().iter().map(|row| row.digest).collect();
    kept.extend(&site.retired);
    (counting != kept).then(|| format!("{} count, {} were kept", counting.len(), kept.len()))
}
