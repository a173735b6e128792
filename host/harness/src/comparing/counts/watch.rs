//! What the watch has met.

use std::cmp::Ordering;
use std::fmt::{self, Display, Formatter};

use crate::model::answer::{AncestorPlaces, ForkedSites};
use crate::model::setup::faults;
use crate::model::sizes::PLACES;
use crate::model::table::Table;

/// Tables in form, by what forked in them.
#[derive(Default)]
pub struct WatchedTables {
    none: u64,
    fewer_than_f: u64,
    f: u64,
    one_more_than_f: u64,
    more: u64,
    /// All forks are of sequence number 0; and all are below the site's greatest.
    first_alone: u64,
    lower_alone: u64,
    /// Places without ancestors, with some that they don't refer to, and with all that there can be.
    without_ancestors: u64,
    distant_ancestors: u64,
    most_ancestors: u64,
}

impl WatchedTables {
    pub fn forks(&mut self, table: &[u8], answer: ForkedSites) {
        if answer.refusal != 0 {
            return;
        }
        let table = Table::from_bytes(table);
        let most = faults(table.sites);
        match (answer.count, answer.count.cmp(&most)) {
            (0, _) => self.none += 1,
            (_, Ordering::Less) => self.fewer_than_f += 1,
            (_, Ordering::Equal) => self.f += 1,
            (count, _) if count == most + 1 => self.one_more_than_f += 1,
            _ => self.more += 1,
        }
        if answer.count > 0 {
            self.first_alone += u64::from(all_twins(&table, |_, sequence| sequence == 0));
            self.lower_alone += u64::from(all_twins(&table, |greatest, sequence| sequence < greatest));
        }
    }

    pub fn ancestors(&mut self, table: &[u8], place: usize, answer: AncestorPlaces) {
        if answer.refusal != 0 {
            return;
        }
        let references = Table::from_bytes(table).rows[place].references;
        self.without_ancestors += u64::from(answer.places == 0);
        self.distant_ancestors += u64::from(answer.places != references);
        self.most_ancestors += u64::from(answer.count as usize == PLACES - 1);
    }
}

/// Whether a condition holds of every number that a site has twice, with the greatest number of the site.
fn all_twins(table: &Table, holds: fn(u16, u16) -> bool) -> bool {
    (0..table.sites).all(|site| {
        let mut numbers: Vec<u16> = table.own(site).map(|place| table.rows[place].sequence).collect();
        numbers.sort_unstable();
        let greatest = numbers.last().copied().unwrap_or(0);
        numbers.windows(2).filter(|pair| pair[0] == pair[1]).all(|pair| holds(greatest, pair[0]))
    })
}

impl Display for WatchedTables {
    fn fmt(&self, to: &mut Formatter) -> fmt::Result {
        let mut line = |name: &str, times: u64| super::line(to, name, times);
        line("tables watched with no forked site", self.none)?;
        line("tables watched with forked sites, fewer than f", self.fewer_than_f)?;
        line("tables watched with f forked sites", self.f)?;
        line("tables watched with f + 1 forked sites", self.one_more_than_f)?;
        line("tables watched with more forked sites", self.more)?;
        line("tables watched with forks of sequence 0 alone", self.first_alone)?;
        line("tables watched with forks below the greatest alone", self.lower_alone)?;
        line("places without ancestors", self.without_ancestors)?;
        line("places with ancestors that they don't refer to", self.distant_ancestors)?;
        line("places with 63 ancestors", self.most_ancestors)
    }
}
