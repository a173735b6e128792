//! What the calls of two sites left, seen together.

use crate::comparing::buffers::Buffers;
use crate::model::answer::ForkedSites;
use crate::model::record::{part_of, record_at, Act};
use crate::model::setup::faults;
use crate::model::sha256::Digest;
use crate::model::table::Table;

/// One of the two sites: its buffers after all its calls.
pub struct Site<'a> {
    pub buffers: &'a Buffers,
    pub table: Table,
    /// What the watch says of the table.
    pub watch_answer: ForkedSites,
}

/// Two sites after all their calls.
pub struct TwoSites<'a> {
    pub sites: [Site<'a>; 2],
    /// The mask of the sites that forked.
    forked: u16,
}

impl Site<'_> {
    /// The places that are interpreted.
    pub fn interpreted(&self) -> impl Iterator<Item = usize> + '_ {
        (0..self.table.held().len()).filter(|&place| self.table.rows[place].mark == 1)
    }

    /// The numbers of the buffer that belong to a place.
    pub fn part(&self, place: usize) -> Option<&[u16]> {
        part_of(place).and_then(|part| self.buffers.records.get(part))
    }

    /// The number that was sent or delivered so far in a slot, by the record of a place.
    pub fn so_far(&self, place: usize, slot: usize, act: Act) -> u16 {
        record_at(&self.buffers.records, place, slot)[act.so_far()]
    }

    /// All numbers, not 0, that an interpreted block has sent or delivered so far in a slot.
    pub fn numbers(&self, slot: usize, act: Act) -> Vec<u16> {
        let all = self.interpreted().map(|place| self.so_far(place, slot, act));
        all.filter(|&number| number != 0).collect()
    }
}

impl<'a> TwoSites<'a> {
    pub fn of(sites: [(&'a Buffers, ForkedSites); 2]) -> TwoSites<'a> {
        let sites = sites.map(|(buffers, watch_answer)| Site {
            buffers,
            table: Table::from_bytes(&buffers.table),
            watch_answer,
        });
        let forked = forked(&sites);
        TwoSites { sites, forked }
    }

    /// The document's n.
    pub fn site_count(&self) -> u8 {
        self.sites[0].table.sites
    }

    pub fn forked(&self) -> u16 {
        self.forked
    }

    /// Whether at most f sites forked.
    pub fn few_forked(&self) -> bool {
        self.forked.count_ones() <= faults(self.site_count())
    }

    /// The blocks that are interpreted at both sites, by their places.
    pub fn interpreted_at_both(&self) -> impl Iterator<Item = (usize, usize)> + '_ {
        let [one, other] = &self.sites;
        one.interpreted().filter_map(|place| {
            let its_place = other.table.place_of(&one.table.rows[place].digest)?;
            (other.table.rows[its_place].mark == 1).then_some((place, its_place))
        })
    }

    /// What either site's interpreted blocks have sent or delivered so far in a slot.
    pub fn numbers(&self, slot: usize, act: Act) -> Vec<u16> {
        self.sites.each_ref().map(|site| site.numbers(slot, act)).concat()
    }
}

/// "A site forked if it has two different blocks of one sequence number in the two ledgers together."
fn forked(sites: &[Site; 2]) -> u16 {
    let mut blocks: Vec<(u8, u16, Digest)> = Vec::new();
    for site in sites {
        blocks.extend(site.table.held().iter().map(|row| (row.site, row.sequence, row.digest)));
    }
    blocks.sort_unstable();
    blocks.dedup();
    let twins = blocks.windows(2).filter(|pair| (pair[0].0, pair[0].1) == (pair[1].0, pair[1].1));
    twins.fold(0, |mask, pair| mask | 1 << pair[0].0)
}

/// Whether not all numbers are equal.
pub fn different(numbers: &[u16]) -> bool {
    numbers.iter().any(|number| *number != numbers[0])
}
