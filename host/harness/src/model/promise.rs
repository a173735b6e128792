//! Document 02, "A promise of arrival": its premises, over the blocks that one site holds.

use crate::model::interpretation::parent;
use crate::model::setup::faults;
use crate::model::sizes::{MAX_SITES, PLACES};
use crate::model::table::{places, Table};
use crate::model::watch::{bit, forked, twins};

/// The blocks that a site holds, by their places. The table is in form.
pub struct HeldBlocks {
    table: Table,
    // Sets of places, for each place.
    ancestors: [u64; PLACES],
    chains: [u64; PLACES],
    /// For each site the set of the places of its blocks.
    own: [u64; MAX_SITES],
    // Masks of sites.
    forked: u16,
    full: u16,
}

/// What is promised in a slot.
pub struct Promise {
    /// The owner's first counted request: the document's v.
    pub number: u16,
    /// The set of the places at which it must be delivered, or earlier in their chains.
    pub lasts: u64,
}

/// The sites of a mask, lowest first.
fn sites_of(mask: u16) -> impl Iterator<Item = u8> {
    (0..MAX_SITES as u8).filter(move |&site| mask & bit(site) != 0)
}

fn mask_of(sites: impl Iterator<Item = u8>) -> u16 {
    sites.fold(0, |mask, site| mask | bit(site))
}

fn set_of(places: impl Iterator<Item = usize>) -> u64 {
    places.fold(0, |set, place| set | 1 << place)
}

impl HeldBlocks {
    pub fn of(table: Table) -> HeldBlocks {
        let mut held = HeldBlocks {
            ancestors: std::array::from_fn(|place| table.ancestors(place)),
            chains: [0; PLACES],
            own: std::array::from_fn(|site| set_of(table.own(site as u8))),
            forked: forked(&table, twins),
            full: 0,
            table,
        };
        // Lower places first: a chain goes on with its parent's.
        for place in 0..held.table.held().len() {
            held.chains[place] = 1 << place | parent(&held.table, place).map_or(0, |parent| held.chain(parent));
        }
        held.full = mask_of((0..held.table.sites).filter(|&site| held.is_full(site)));
        held
    }

    pub fn table(&self) -> &Table {
        &self.table
    }

    /// "A block's chain is itself, its parent and so on."
    pub fn chain(&self, place: usize) -> u64 {
        self.chains[place]
    }

    /// The mask of the sites that forked, over the blocks held.
    pub fn forked(&self) -> u16 {
        self.forked
    }

    /// The mask of the full sites.
    pub fn full(&self) -> u16 {
        self.full
    }

    /// n - f
    pub fn enough(&self) -> u32 {
        u32::from(self.table.sites) - faults(self.table.sites)
    }

    /// The blocks of these sites.
    fn blocks_of(&self, sites: u16) -> u64 {
        sites_of(sites).fold(0, |set, site| set | self.own[usize::from(site)])
    }

    /// "full if it isn't forked and, for each of its blocks, every ancestor that an unforked site built is referred to
    /// directly by some block of that block's chain"
    fn is_full(&self, site: u8) -> bool {
        let of_unforked = self.blocks_of(!self.forked);
        let referred = |place| places(self.chain(place)).fold(0, |set, block| set | self.table.rows[block].references);
        let covered = |place: usize| self.ancestors[place] & of_unforked & !referred(place) == 0;
        self.forked & bit(site) == 0 && places(self.own[usize::from(site)]).all(covered)
    }

    /// "Above means having it among its ancestors": whether a block is above all of a set.
    fn above(&self, place: usize, set: u64) -> bool {
        set & !self.ancestors[place] == 0
    }

    /// "block A hold the owner's first counted request v of the slot": A's place, and v. The owner isn't forked, so its
    /// blocks stand in the order of their sequence numbers.
    fn first_request(&self, slot: usize) -> Option<(usize, u16)> {
        let owner = usize::from(self.table.owners[slot]);
        let mut requests = places(self.own[owner]).map(|place| (place, self.table.rows[place].requests[slot]));
        requests.find(|&(_, number)| number != 0)
    }

    /// For each of these sites a block above all of a set; none if one of the sites has none. It is the site's lowest:
    /// what is above a later one is above that one too, so wherever another choice leads, this one does.
    fn each_above(&self, sites: u16, set: u64) -> Option<u64> {
        let lowest = |site: u8| places(self.own[usize::from(site)]).find(|&place| self.above(place, set));
        sites_of(sites).try_fold(0, |blocks, site| Some(blocks | 1 << lowest(site)?))
    }

    /// "If each site of a set of n - f full sites has a block above A, each of them has a block above all of those, and
    /// a full site has a block above all of these": the blocks that are such a last one.
    fn lasts(&self, sites: u16, request: usize) -> u64 {
        let firsts = self.each_above(sites, 1 << request);
        let seconds = firsts.and_then(|firsts| self.each_above(sites, firsts));
        let above = |seconds| set_of(places(self.blocks_of(self.full)).filter(|&place| self.above(place, seconds)));
        seconds.map_or(0, above)
    }

    /// What is promised in a slot; none if the premises don't hold. "Let at least n - f sites be full, the owner among
    /// them".
    pub fn promise(&self, slot: usize) -> Option<Promise> {
        let (request, number) = self.first_request(slot)?;
        if self.full.count_ones() < self.enough() || self.full & bit(self.table.owners[slot]) == 0 {
            return None;
        }
        let firsts =
            std::array::from_fn(|site| self.each_above(self.full & bit(site as u8), 1 << request).unwrap_or(0));
        let mut lasts = 0;
        for place in places(self.blocks_of(self.full)) {
            if lasts >> place & 1 == 0 {
                // These sites are only proposed; what they lead to is found by the words above.
                lasts |= self.sites_below(place, &firsts).map_or(0, |sites| self.lasts(sites, request));
            }
        }
        (lasts != 0).then_some(Promise { number, lasts })
    }

    // ---- Which n - f sites

    /// A set of n - f full sites that makes a block a last one; none only if there is no such set. `firsts` has the
    /// first block of each full site, as a set, which is empty if the site has none. Of a site's blocks that the last
    /// one is above, the highest is above the most: so two sites can be in one set if each one's is above the other's
    /// first.
    fn sites_below(&self, last: usize, firsts: &[u64; MAX_SITES]) -> Option<u16> {
        let sees: [u16; MAX_SITES] = std::array::from_fn(|site| {
            let Some(highest) = (self.own[site] & self.ancestors[last]).checked_ilog2() else { return 0 };
            let seen = |first: u64| first != 0 && self.above(highest as usize, first);
            mask_of(sites_of(self.full).filter(|&other| seen(firsts[usize::from(other)])))
        });
        self.seeing_each_other(mask_of(sites_of(self.full).filter(|&site| sees[usize::from(site)] != 0)), &sees)
    }

    /// n - f of these sites, each of which sees all of them. If one doesn't see another, or itself, one of the two has
    /// to go, and both ways are tried. At most f can go, so these are few.
    fn seeing_each_other(&self, sites: u16, sees: &[u16; MAX_SITES]) -> Option<u16> {
        if sites.count_ones() < self.enough() {
            return None;
        }
        let unseen = |site: u8| sites_of(sites & !sees[usize::from(site)]).next();
        let Some((site, other)) = sites_of(sites).find_map(|site| Some((site, unseen(site)?))) else {
            return Some(mask_of(sites_of(sites).take(self.enough() as usize)));
        };
        let without = |site: u8| self.seeing_each_other(sites & !bit(site), sees);
        without(site).or_else(|| without(other))
    }
}
