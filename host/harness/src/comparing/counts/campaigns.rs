//! What campaigns of two sites have met.

use std::fmt::{self, Display, Formatter};

use super::of_site_count;
use crate::comparing::facts::two_sites::{different, TwoSites};
use crate::model::record::{Act, Part, ACTS};
use crate::model::sizes::{SITE_COUNTS, SLOTS};

#[derive(Default)]
pub struct Campaigns {
    all: u64,
    /// Campaigns with forked sites, at most f of them; and with more.
    few_forked: u64,
    many_forked: u64,
    /// Campaigns with a slot delivered at some site, and at both.
    delivering: u64,
    delivering_at_both: u64,
    /// What the laws are about: with two numbers sent in a slot by at most f forked sites, and one delivered; and, with
    /// more forked sites, two delivered.
    put_to_the_test: u64,
    two_delivered: u64,
    interpreted_at_both: u64,
    /// For each number of sites all campaigns, and those that delivered.
    by_sites: [[u64; 2]; SITE_COUNTS.len()],
    acts: [u64; ACTS.len()],
}

impl Campaigns {
    /// What a block has made.
    pub fn acts(&mut self, part: &Part) {
        for (count, act) in self.acts.iter_mut().zip(ACTS) {
            *count += part.iter().filter(|record| record[act.made()] != 0).count() as u64;
        }
    }

    /// What a campaign came to.
    pub fn campaign(&mut self, two_sites: &TwoSites) {
        let few = two_sites.few_forked();
        let slots: [SlotNumbers; SLOTS] = std::array::from_fn(|slot| SlotNumbers::of(two_sites, slot));
        let some = |holds: fn(&SlotNumbers) -> bool| u64::from(slots.iter().any(holds));
        let delivers = some(|slot| !slot.delivered.is_empty());
        self.all += 1;
        self.few_forked += u64::from(few && two_sites.forked() != 0);
        self.many_forked += u64::from(!few);
        self.delivering += delivers;
        self.delivering_at_both += some(|slot| slot.delivered_at_both);
        self.put_to_the_test += u64::from(few) * some(|slot| different(&slot.sent) && !slot.delivered.is_empty());
        self.two_delivered += u64::from(!few) * some(|slot| different(&slot.delivered));
        self.interpreted_at_both += two_sites.interpreted_at_both().count() as u64;
        let [all, delivering] = of_site_count(&mut self.by_sites, two_sites.site_count());
        *all += 1;
        *delivering += delivers;
    }
}

/// The numbers of one slot, of both sites.
struct SlotNumbers {
    sent: Vec<u16>,
    delivered: Vec<u16>,
    delivered_at_both: bool,
}

impl SlotNumbers {
    fn of(two_sites: &TwoSites, slot: usize) -> SlotNumbers {
        let delivered_at_both = two_sites.sites.iter().all(|site| !site.numbers(slot, Act::Deliver).is_empty());
        let [sent, delivered] = [Act::Send, Act::Deliver].map(|act| two_sites.numbers(slot, act));
        SlotNumbers { sent, delivered, delivered_at_both }
    }
}

impl Display for Campaigns {
    fn fmt(&self, to: &mut Formatter) -> fmt::Result {
        let mut line = |name: &str, times: u64| super::line(to, name, times);
        line("campaigns", self.all)?;
        line("campaigns with 1 to f forked sites", self.few_forked)?;
        line("campaigns with more forked sites", self.many_forked)?;
        line("campaigns with a delivery", self.delivering)?;
        for (sites, [all, delivering]) in SITE_COUNTS.iter().zip(self.by_sites) {
            line(&format!("  n {sites}: with a delivery of {all}"), delivering)?;
        }
        line("campaigns with a slot delivered at both sites", self.delivering_at_both)?;
        line("  up to f forked: two numbers sent, one delivered", self.put_to_the_test)?;
        line("  more forked: two numbers delivered", self.two_delivered)?;
        line("blocks interpreted at both sites", self.interpreted_at_both)?;
        for (name, times) in ["SENDs", "ECHOs", "READYs", "deliveries"].iter().zip(self.acts) {
            line(&format!("{name} in campaigns"), times)?;
        }
        Ok(())
    }
}
