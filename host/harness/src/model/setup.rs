//! Document 01, "Setup and digest": a site count n and eight owners.

use crate::model::sizes::{SITE_COUNTS, SLOTS};

/// "n is 1, 4, 7, 10, 13 or 16".
pub fn site_count_lawful(sites: u8) -> bool {
    SITE_COUNTS.contains(&sites)
}

/// The document's f: "n = 3f + 1".
pub fn faults(sites: u8) -> u32 {
    u32::from(sites.saturating_sub(1)) / 3
}

/// "An owner is below n."
pub fn owners_lawful(sites: u8, owners: &[u8]) -> bool {
    owners.iter().all(|&owner| owner < sites)
}

pub fn lawful(sites: u8, owners: &[u8]) -> bool {
    owners.len() == SLOTS && site_count_lawful(sites) && owners_lawful(sites, owners)
}
