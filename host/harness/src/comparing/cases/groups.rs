//! Groups of sites that build by the rule: who is full, and what then has to be delivered. Each call is compared, and
//! what the sites hold must keep the laws, at the end and now and then before.

use crate::comparing::compare::Compare;
use crate::comparing::counts::PremisesMet;
use crate::comparing::difference::Difference;
use crate::comparing::laws::{self, SitePromises};
use crate::comparing::sites::group::Group;
use crate::drawing::random::Random;
use crate::model::promise::HeldBlocks;

pub fn run(random: &Random, compare: &mut Compare) -> Result<(), Difference> {
    let mut group = Group::new(random, compare)?;
    let mut met = PremisesMet::default();
    for round in 0..group.rounds() {
        group.round(compare, round)?;
        look_at(&group, random.below(group.sites.into()) as u8, &mut met)?;
    }
    group.settle(compare)?;
    for site in 0..group.sites {
        look_at(&group, site, &mut met)?;
    }
    compare.counts.groups.group(group.sites, &met);
    Ok(())
}

/// What a site holds.
fn look_at(group: &Group, site: u8, met: &mut PremisesMet) -> Result<(), Difference> {
    let (table, records) = group.table_and_records(site);
    let held = HeldBlocks::of(table);
    let promises = std::array::from_fn(|slot| held.promise(slot));
    let site_promises = SitePromises { held: &held, promises: &promises, records, by_rule: group.by_rule() };
    met.note(&site_promises);
    laws::check_promises(&site_promises)
}
