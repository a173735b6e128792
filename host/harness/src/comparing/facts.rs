//! What there was before and after some calls, put together for the laws and the counts to look at.

pub mod arrival;
pub mod campaign_run;
pub mod join;
pub mod long_campaign;
pub mod site;
pub mod two_sites;
pub mod watch;
