//! Arrivals with a shelf: of a controller's four campaigns, on shelves that mostly no calls reach, and on damaged ones.

use crate::comparing::buffers::{Buffers, Sides};
use crate::comparing::compare::arrival::arrival_facts;
use crate::comparing::compare::Compare;
use crate::comparing::difference::Difference;
use crate::comparing::laws;
use crate::comparing::sites::controller::Controller;
use crate::drawing::arrivals::{any, good, some_room, Arrival};
use crate::drawing::feed::{lacking, with};
use crate::drawing::random::Random;
use crate::drawing::shelf_damage::damaged;
use crate::drawing::shelves::{holding, some_holds};
use crate::drawing::table_damage;
use crate::drawing::tables;
use crate::model::sha256::sha256;
use crate::model::shelf::{Entry, Shelf};
use crate::model::sizes::{CAMPAIGNS, MAX_REFERENCES, OUTCOMES_NUMBERS, PLACES};
use crate::model::table::Table;

pub fn run(random: &Random, compare: &mut Compare) -> Result<(), Difference> {
    match random.below(8) {
        0..=2 => Controller::new(random, compare)?.run(compare),
        3..=5 => shelves_in_form(random, compare),
        _ => damaged_shelves(random, compare),
    }
}

/// A campaign's table, an arrival for it, and a shelf.
struct ShelfCase {
    campaign: u8,
    table: Table,
    arrival: Arrival,
    shelf: Shelf,
}

impl ShelfCase {
    fn drawn(random: &Random) -> ShelfCase {
        let holds = some_holds(random);
        // Often the one that has the most waiting.
        let busiest = (0..CAMPAIGNS).max_by_key(|&campaign| holds[campaign]).expect("four campaigns");
        let campaign = random.pick(&[busiest, random.below(CAMPAIGNS)]) as u8;
        let empty = tables::empty(random);
        let mut table = tables::sometimes_aged(random, tables::grown(random, empty, some_count(random)));
        // What waits may refer to the arrival, if it is one that is let in.
        let (arrival, ahead) = if random.one_in(6) {
            (any(random, &table, &[]), table.clone())
        } else {
            let arrival = good(random, &table);
            let ahead = with(&table, &arrival.block);
            (arrival, ahead)
        };
        let shelf = holding(random, &holds, &table, &ahead);
        if random.one_in(4) {
            hold_one(random, &mut table, &shelf, campaign);
        }
        ShelfCase { campaign, table, arrival, shelf }
    }

    fn sides(&self, shelf: Vec<u8>) -> Sides {
        Sides::new(Buffers { table: self.table.to_bytes(), shelf, ..Buffers::default() })
    }
}

/// Small tables take less time. Full ones, and those that will be full, drop what waits.
fn some_count(random: &Random) -> usize {
    match random.below(8) {
        0 | 1 => PLACES - random.pick(&[0, 1, 1, 2, 3, 6]),
        2 => random.between(MAX_REFERENCES, PLACES),
        _ => random.between(0, 12),
    }
}

/// The table comes to hold the digest of a block that waits for the campaign.
fn hold_one(random: &Random, table: &mut Table, shelf: &Shelf, campaign: u8) {
    let waiting: Vec<Entry> = shelf.of(campaign).copied().collect();
    if table.count > 0 && !waiting.is_empty() {
        let digest = sha256(random.pick(&waiting).block());
        if table.place_of(&digest).is_none() {
            table.rows[random.below(table.count)].digest = digest;
        }
    }
}

const ARRIVALS_A_SHELF: usize = 3;

/// The arrival that what waits was drawn for, and others before it.
fn shelves_in_form(random: &Random, compare: &mut Compare) -> Result<(), Difference> {
    let case = ShelfCase::drawn(random);
    let mut sides = case.sides(case.shelf.to_bytes());
    for _ in 0..random.below(ARRIVALS_A_SHELF) {
        arrive(random, compare, &mut sides, case.campaign, &other_arrival(random, &case), some_room(random))?;
    }
    arrive(random, compare, &mut sides, case.campaign, &case.arrival, some_room(random))
}

/// A block arrives, and the laws are held against what comes of it.
fn arrive(
    random: &Random,
    compare: &mut Compare,
    sides: &mut Sides,
    campaign: u8,
    arrival: &Arrival,
    room: usize,
) -> Result<(), Difference> {
    let facts = arrival_facts(random, compare, sides, campaign, arrival, room)?;
    laws::check_arrival(&facts)
}

/// Mostly one that comes to wait, if there is a place.
fn other_arrival(random: &Random, case: &ShelfCase) -> Arrival {
    let own: Vec<Entry> = case.shelf.of(case.campaign).copied().collect();
    let waiting = random.pick(&[&own, &own, case.shelf.waiting()]);
    match random.below(6) {
        0 => any(random, &case.table, &[]),
        1..=3 if !waiting.is_empty() => Arrival { block: random.pick(waiting).block().to_vec(), verdict: 1 },
        _ => Arrival { block: lacking(random, &case.table), verdict: 1 },
    }
}

const DAMAGES_A_SHELF: usize = 6;
/// Of so many cases of damage one flips every bit of a shelf, which takes long.
const EVERY_BIT_ONE_IN: usize = 400;

/// Each damage is done to the shelf as it was, so that mostly one thing is wrong.
fn damaged_shelves(random: &Random, compare: &mut Compare) -> Result<(), Difference> {
    let case = ShelfCase::drawn(random);
    if random.one_in(EVERY_BIT_ONE_IN) {
        return every_bit(compare, case.shelf.to_bytes());
    }
    for _ in 0..DAMAGES_A_SHELF {
        let mut bytes = damaged(random, &case.shelf, &case.table);
        // Now and then two things.
        if random.one_in(12) {
            random.flip_bit(&mut bytes);
        }
        compare.shelf_in_form(&bytes)?;
        compare.counts.shelves.damage(&bytes);
        let mut sides = case.sides(bytes);
        if random.one_in(8) {
            let table = table_damage::damaged(random, &case.table);
            sides.each(|buffers| buffers.table.clone_from(&table));
        }
        let campaign = if random.one_in(8) { random.byte() } else { case.campaign };
        let arrival = if random.one_in(2) { &case.arrival } else { &other_arrival(random, &case) };
        // So few often, that this meets the shelf's damage and the table's.
        let room = if random.one_in(4) { random.below(OUTCOMES_NUMBERS) } else { some_room(random) };
        arrive(random, compare, &mut sides, campaign, arrival, room)?;
    }
    Ok(())
}

/// The shelf with each of its bits changed in turn.
fn every_bit(compare: &mut Compare, mut shelf: Vec<u8>) -> Result<(), Difference> {
    for at in 0..shelf.len() {
        for bit in 0..8 {
            shelf[at] ^= 1 << bit;
            compare.shelf_in_form(&shelf)?;
            shelf[at] ^= 1 << bit;
        }
    }
    compare.counts.shelves.every_bit += 1;
    Ok(())
}
