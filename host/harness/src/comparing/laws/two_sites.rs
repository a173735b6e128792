//! What must hold of two sites together, whatever the order of their calls: document 01's statement about two whole
//! lists.

use super::Law;
use crate::comparing::facts::two_sites::{different, Site, TwoSites};
use crate::model::record::Act;
use crate::model::sizes::SLOTS;
use crate::model::table::places;

pub const EQUAL_PARTS: &str = "law: a block interpreted at both sites has equal parts at both";
pub const ONE_NUMBER: &str = "law: where at most f sites forked, one number is delivered in a slot";
pub const REQUESTED: &str = "law: a delivered number was requested by the owner in an ancestor";
pub const WATCHED: &str = "law: whom the watch names at one site has forked in the two ledgers together";

pub fn laws<'a>() -> [Law<TwoSites<'a>>; 4] {
    [
        Law { name: EQUAL_PARTS, broken: unequal_parts },
        Law { name: ONE_NUMBER, broken: two_numbers },
        Law { name: REQUESTED, broken: |two_sites| two_sites.sites.iter().find_map(not_requested) },
        Law { name: WATCHED, broken: named_in_vain },
    ]
}

fn unequal_parts(two_sites: &TwoSites) -> Option<String> {
    let [one, other] = &two_sites.sites;
    let (place, its_place) =
        two_sites.interpreted_at_both().find(|&(place, its_place)| one.part(place) != other.part(its_place))?;
    Some(format!("place {place} at one, {its_place} at the other"))
}

fn two_numbers(two_sites: &TwoSites) -> Option<String> {
    if !two_sites.few_forked() {
        return None;
    }
    let delivered = |slot: usize| two_sites.numbers(slot, Act::Deliver);
    let slot = (0..SLOTS).find(|&slot| different(&delivered(slot)))?;
    Some(format!("slot {slot} has {:?}", delivered(slot)))
}

/// "the owner requested it if an ancestor of that block, built by the owner, has it as the slot's counted request"
fn not_requested(site: &Site) -> Option<String> {
    for place in site.interpreted() {
        let ancestors = site.table.ancestors(place);
        for slot in 0..SLOTS {
            let number = site.so_far(place, slot, Act::Deliver);
            let asks = |ancestor: usize| {
                let row = &site.table.rows[ancestor];
                row.site == site.table.owners[slot] && row.requests[slot] == number
            };
            if number != 0 && !places(ancestors).any(asks) {
                return Some(format!("place {place} has {number} delivered in slot {slot}"));
            }
        }
    }
    None
}

/// A table holds a part of the two ledgers' blocks. So where at most f forked, each watch says so.
fn named_in_vain(two_sites: &TwoSites) -> Option<String> {
    let wrong = |site: &&Site| {
        let watch_answer = &site.watch_answer;
        watch_answer.sites & !two_sites.forked() != 0 || two_sites.few_forked() && !watch_answer.at_most_f
    };
    let site = two_sites.sites.iter().find(wrong)?;
    Some(format!("{:?}, forked are {:016b}", site.watch_answer, two_sites.forked()))
}
