//! Random shelves in form, most of which no calls reach. How many places the campaigns hold is often at an edge of the
//! shelf rule.

use crate::drawing::draft::{lawful, longest_lawful, site_from_n_on, spoil, Draft};
use crate::drawing::feed::{lacking, with, Feed};
use crate::drawing::random::Random;
use crate::model::block;
use crate::model::shelf::Shelf;
use crate::model::sizes::{CAMPAIGNS, MOST_HELD, PLACES, RESERVED, SHELF_PLACES};
use crate::model::table::Table;

/// How many places each campaign holds.
pub type PlaceCounts = [usize; CAMPAIGNS];

/// How many places are left over if each campaign gets what it lacks; none if there aren't as many.
fn left_over(holds: &PlaceCounts) -> Option<usize> {
    let spoken_for = holds.iter().map(|&held| held.max(RESERVED)).sum();
    SHELF_PLACES.checked_sub(spoken_for)
}

/// Few and many. Often as many that there is no further place, or just one.
pub fn some_holds(random: &Random) -> PlaceCounts {
    loop {
        let some = || random.pick(&[0, 1, RESERVED, 3, MOST_HELD - 1, MOST_HELD, random.between(0, MOST_HELD)]);
        let mut holds: PlaceCounts = std::array::from_fn(|_| some());
        let Some(left) = left_over(&holds) else { continue };
        if random.one_in(2) {
            let one = &mut holds[random.below(CAMPAIGNS)];
            let more = left.saturating_sub(random.pick(&[0, 0, 1, 2]));
            // More than 10 are never left for one, since the others have 2 each.
            *one = (*one).max(RESERVED) + more;
        }
        return holds;
    }
}

/// A shelf on which campaigns hold so many places. What waits fits the table, or the table as it will be; some of it
/// came in batches, and some waits for two campaigns.
pub fn holding(random: &Random, holds: &PlaceCounts, table: &Table, ahead: &Table) -> Shelf {
    let mut order: Vec<u8> = (0..CAMPAIGNS).flat_map(|campaign| vec![campaign as u8; holds[campaign]]).collect();
    random.shuffle(&mut order);
    let mut ahead = ahead.clone();
    let mut feeds: [Feed; CAMPAIGNS] = Default::default();
    let batches_one_in = random.pick(&[1, 2, 4]);
    let mut shelf = Shelf::empty();
    for campaign in order {
        let block = loop {
            let block = if shelf.count > 0 && random.one_in(8) {
                random.pick(shelf.waiting()).block().to_vec()
            } else if random.one_in(batches_one_in) {
                feeds[usize::from(campaign)].next(random, &ahead)
            } else {
                some_block(random, table, &mut ahead)
            };
            if block::accepted(&block) && !shelf.waits(campaign, &block) {
                break block;
            }
        };
        shelf.put(campaign, &block);
    }
    shelf
}

/// A block that the reader accepts. One that could be admitted is then taken for admitted, so that others refer to it.
pub fn some_block(random: &Random, table: &Table, ahead: &mut Table) -> Vec<u8> {
    loop {
        let block = match random.below(10) {
            0..=4 => {
                let block = lawful(random, ahead).to_bytes();
                *ahead = with(ahead, &block);
                block
            }
            5 => lacking(random, table),
            6 => longest_lawful(random, ahead).to_bytes(),
            // Of a site that isn't known, which no calls let wait.
            7 => Draft { site: site_from_n_on(random, table), ..lawful(random, ahead) }.to_bytes(),
            // Without a parent, and mostly without anything else that is missing.
            8 => Draft { sequence: random.number().max(PLACES as u16), ..lawful(random, table) }.to_bytes(),
            _ => {
                let mut draft = lawful(random, ahead);
                spoil(random, table, &mut draft);
                draft.to_bytes()
            }
        };
        if block::accepted(&block) {
            return block;
        }
    }
}
