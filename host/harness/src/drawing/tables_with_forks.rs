//! Random tables in form in which only some sites fork, and where they are told to. For the watch, how many they are
//! decides; for building, whether the builder is among them and what is left for it to refer to.

use crate::drawing::draft::lineage_of;
use crate::drawing::random::Random;
use crate::drawing::tables::{empty, some_count, sometimes_aged, Growth};
use crate::model::building::greatest;
use crate::model::setup::faults;
use crate::model::sizes::{MAX_REFERENCES, PLACES};
use crate::model::table::{places, Table};
use crate::model::watch::bit;

/// Which sequence numbers a forking site uses again.
#[derive(Clone, Copy)]
enum RepeatedSequence {
    First,
    Greatest,
    /// Any but the greatest, where there is another.
    Lower,
    Any,
}

struct Habits {
    /// The sites that fork, as a mask.
    forking: u16,
    repeats: RepeatedSequence,
    /// From this place on, of so many blocks of a forking site one has a sequence number again.
    from: usize,
    repeats_one_in: usize,
    /// Each block is one of these sites.
    sites: Vec<u8>,
}

impl Habits {
    /// For so many sites and places.
    fn drawn(random: &Random, n: u8, places: usize) -> Habits {
        let mut order: Vec<u8> = (0..n).collect();
        random.shuffle(&mut order);
        let few = faults(n) as usize;
        let count = random.pick(&[0, few, few, few + 1, few + 1, random.between(0, n.into())]);
        let forking = order[..count].iter().fold(0, |mask, &site| mask | bit(site));
        Habits {
            forking,
            repeats: random.pick(&[
                RepeatedSequence::First,
                RepeatedSequence::Greatest,
                RepeatedSequence::Lower,
                RepeatedSequence::Any,
            ]),
            from: random.pick(&[0, 0, random.between(0, places), places.saturating_sub(1)]),
            repeats_one_in: random.pick(&[1, 2, 4, 8]),
            sites: some_sites(random, order),
        }
    }

    fn forks(&self, site: u8) -> bool {
        self.forking & bit(site) != 0
    }

    /// The parent of a site's next block; none if that has sequence number 0.
    fn parent(&self, random: &Random, table: &Table, site: u8) -> Option<usize> {
        let last = greatest(table, site)?;
        if !self.forks(site) || table.count < self.from || !random.one_in(self.repeats_one_in) {
            return Some(last);
        }
        let most = table.rows[last].sequence;
        let repeats = match self.repeats {
            RepeatedSequence::First => 0,
            RepeatedSequence::Greatest => most,
            RepeatedSequence::Lower => random.below(usize::from(most).max(1)) as u16,
            RepeatedSequence::Any => random.between(0, most.into()) as u16,
        };
        let parents = |place: &usize| table.rows[*place].sequence + 1 == repeats;
        let parents: Vec<usize> = table.own(site).filter(parents).collect();
        (!parents.is_empty()).then(|| random.pick(&parents))
    }
}

/// Mostly all of them, sometimes few; now and then one builds often and another nothing.
fn some_sites(random: &Random, mut order: Vec<u8>) -> Vec<u8> {
    random.shuffle(&mut order);
    if order.len() > 1 && random.one_in(3) {
        order.pop();
    }
    if random.one_in(3) {
        order.truncate(random.between(1, order.len()));
    }
    if random.one_in(3) {
        let often = random.pick(&order);
        order.resize(2 * order.len(), often);
    }
    order
}

/// A table in form, and a site that builds: mostly one that doesn't fork, often one without a held block.
pub fn drawn(random: &Random) -> (Table, u8) {
    let mut table = empty(random);
    let near = random.between(MAX_REFERENCES - 2, MAX_REFERENCES + 2);
    let count = random.pick(&[some_count(random), some_count(random), PLACES, near]);
    let habits = Habits::drawn(random, table.sites, count);
    let growth = Growth::drawn(random);
    while table.count < count {
        let site = random.pick(&habits.sites);
        let parent = habits.parent(random, &table, site);
        let lineage = lineage_of(random, &table, site, parent);
        growth.add(random, &mut table, lineage);
    }
    let builder = some_builder(random, &table, &habits);
    (sometimes_aged(random, table), builder)
}

fn some_builder(random: &Random, table: &Table, habits: &Habits) -> u8 {
    let sites = 0..table.sites;
    let faithful: Vec<u8> = sites.clone().filter(|&site| !habits.forks(site)).collect();
    let silent: Vec<u8> = sites.filter(|&site| table.own(site).next().is_none()).collect();
    let any = random.below(table.sites.into()) as u8;
    match random.below(8) {
        0 => any,
        1 if !silent.is_empty() => random.pick(&silent),
        _ if !faithful.is_empty() => random.pick(&faithful),
        _ => any,
    }
}

// ---- What is left to refer to

/// How many blocks of others a builder has left: around the most that a block refers to, or none.
pub fn some_left(random: &Random) -> usize {
    let near = [MAX_REFERENCES - 2, MAX_REFERENCES - 1, MAX_REFERENCES, MAX_REFERENCES + 1, MAX_REFERENCES + 2];
    random.pick(&[0, 0, 1, random.pick(&near), random.pick(&near), random.pick(&near), random.below(PLACES)])
}

/// The places of other sites' blocks that no block of the site refers to.
pub fn places_left(table: &Table, site: u8) -> Vec<usize> {
    let referred = |place: usize| table.own(site).any(|own| table.rows[own].references >> place & 1 == 1);
    (0..table.held().len()).filter(|&place| table.rows[place].site != site && !referred(place)).collect()
}

/// Changes the references of a site's blocks to others, so that so many are left for it to refer to, as nearly as can
/// be. A table in form stays so.
pub fn leave(random: &Random, table: &mut Table, site: u8, wanted: usize) {
    let own: Vec<usize> = table.own(site).collect();
    let mut left = places_left(table, site);
    random.shuffle(&mut left);
    for &place in left.iter().skip(wanted) {
        refer(random, table, &own, place);
    }
    let mut others: Vec<usize> = (0..table.count).filter(|&place| table.rows[place].site != site).collect();
    others.retain(|place| !left.contains(place));
    random.shuffle(&mut others);
    for &place in others.iter().take(wanted.saturating_sub(left.len())) {
        own.iter().for_each(|&own| table.rows[own].references &= !(1 << place));
    }
    unmark(table);
}

/// Lets one of the own places refer to a place, if one can.
fn refer(random: &Random, table: &mut Table, own: &[usize], place: usize) {
    let room = |own: usize| places(table.rows[own].references).count() < MAX_REFERENCES;
    let able: Vec<usize> = own.iter().copied().filter(|&own| own > place && room(own)).collect();
    if !able.is_empty() {
        table.rows[random.pick(&able)].references |= 1 << place;
    }
}

/// Takes away the marks of places that refer to one without a mark.
fn unmark(table: &mut Table) {
    for place in 0..table.count {
        let marked = |lower: usize| table.rows[lower].mark == 1;
        if !places(table.rows[place].references).all(marked) {
            table.rows[place].mark = 0;
        }
    }
}
