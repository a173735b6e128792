//! What groups of sites have met of the premises of arrival.

use std::fmt::{self, Display, Formatter};

use super::of_site_count;
use crate::comparing::laws::SitePromises;
use crate::model::promise::Promise;
use crate::model::record::Act;
use crate::model::sizes::{SITE_COUNTS, SLOTS};
use crate::model::table::places;

#[derive(Default)]
pub struct Groups {
    all: u64,
    met: u64,
    met_with_forks: u64,
    met_with_fewest: u64,
    /// For each number of sites all groups, those that met the premises, and those that met them with forked sites.
    by_sites: [[u64; 3]; SITE_COUNTS.len()],
    lasts: u64,
    delivering: u64,
}

/// How one group has met the premises of arrival, at some of its sites and at some time.
#[derive(Default)]
pub struct PremisesMet {
    any: bool,
    /// The premises were met where a forked site was among the blocks held.
    with_forks: bool,
    /// The premises were met where no more sites were full than have to be.
    with_fewest: bool,
    /// The last blocks, counted at each site, at each time and in each slot; and those that deliver themselves.
    lasts: u64,
    delivering: u64,
}

impl PremisesMet {
    /// What a site holds.
    pub fn note(&mut self, site: &SitePromises) {
        for slot in 0..SLOTS {
            if let Some(promise) = &site.promises[slot] {
                self.promise(site, slot, promise);
            }
        }
    }

    fn promise(&mut self, site: &SitePromises, slot: usize, promise: &Promise) {
        let held = site.held;
        self.any = true;
        self.with_forks |= held.forked() != 0;
        self.with_fewest |= held.full().count_ones() == held.enough();
        let delivers = |place: &usize| site.number(*place, slot, Act::Deliver.made()) != 0;
        self.lasts += places(promise.lasts).count() as u64;
        self.delivering += places(promise.lasts).filter(delivers).count() as u64;
    }
}

impl Groups {
    /// What a group of so many sites has met.
    pub fn group(&mut self, sites: u8, met: &PremisesMet) {
        self.all += 1;
        self.met += u64::from(met.any);
        self.met_with_forks += u64::from(met.with_forks);
        self.met_with_fewest += u64::from(met.with_fewest);
        self.lasts += met.lasts;
        self.delivering += met.delivering;
        let [all, any, with_forks] = of_site_count(&mut self.by_sites, sites);
        *all += 1;
        *any += u64::from(met.any);
        *with_forks += u64::from(met.with_forks);
    }
}

impl Display for Groups {
    fn fmt(&self, to: &mut Formatter) -> fmt::Result {
        let mut line = |name: &str, times: u64| super::line(to, name, times);
        line("groups", self.all)?;
        line("groups with the premises met at some site", self.met)?;
        line("  met with forked sites held there", self.met_with_forks)?;
        line("  met with just n - f full sites", self.met_with_fewest)?;
        for (sites, [all, met, with_forks]) in SITE_COUNTS.iter().zip(self.by_sites) {
            line(&format!("  n {sites}: met of {all}"), met)?;
            line(&format!("  n {sites}: met with forked sites held there"), with_forks)?;
        }
        line("last blocks in groups", self.lasts)?;
        line("last blocks that deliver themselves", self.delivering)
    }
}
