//! What long campaigns have met.

use std::fmt::{self, Display, Formatter};

use crate::comparing::facts::long_campaign::LongCampaignFacts;

#[derive(Default)]
pub struct LongCampaigns {
    campaigns: u64,
    sites: u64,
    blocks: u64,
    retirings: u64,
    when_full: u64,
    takings_back: u64,
    deliveries: u64,
    to_the_end: u64,
}

impl LongCampaigns {
    pub fn campaign(&mut self, facts: &LongCampaignFacts) {
        let sites = || facts.sites.iter();
        self.campaigns += 1;
        self.sites += sites().len() as u64;
        self.blocks += facts.sites[0].ledger.counting().count() as u64;
        self.retirings += sites().map(|site| site.ledger.retirings() as u64).sum::<u64>();
        self.when_full += facts.when_full;
        self.takings_back += sites().map(|site| site.ledger.takings_back() as u64).sum::<u64>();
        self.deliveries += sites().flat_map(|site| &site.delivered).map(|numbers| numbers.len() as u64).sum::<u64>();
    }

    /// A site alone came to 65,535, and then got 30.
    pub fn to_the_end(&mut self, ended: bool) {
        self.to_the_end += u64::from(ended);
    }
}

impl Display for LongCampaigns {
    fn fmt(&self, to: &mut Formatter) -> fmt::Result {
        let mut line = |name: &str, times: u64| super::line(to, name, times);
        line("long campaigns", self.campaigns)?;
        line("sites of long campaigns", self.sites)?;
        line("blocks of long campaigns", self.blocks)?;
        line("retirings in long campaigns", self.retirings)?;
        line("retirings in long campaigns with a full table", self.when_full)?;
        line("takings back in long campaigns", self.takings_back)?;
        line("slots delivered at sites of long campaigns", self.deliveries)?;
        line("sites that came to 65,535 and then got 30", self.to_the_end)
    }
}
