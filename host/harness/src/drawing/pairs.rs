//! Pairs of controllers of one setup: which blocks of a pool each of them holds, in which order, and which of these it
//! has interpreted.

use crate::drawing::campaign::Campaign;
use crate::drawing::pool::{first, hull, pool, set_of, some_of, some_order, MOST_BLOCKS};
use crate::drawing::random::Random;
use crate::model::block;
use crate::model::replay::{admission, interpretation};
use crate::model::sizes::PLACES;
use crate::model::table::{Row, Table};

/// What one controller holds, by the pool's blocks.
pub struct Share {
    /// The blocks that it holds, in the order of its places.
    pub held: Vec<usize>,
    /// The blocks that it has interpreted, in an order in which that could be.
    pub interpreted: Vec<usize>,
}

pub struct Pair {
    pub pool: Campaign,
    pub left: Share,
    pub right: Share,
}

/// How many blocks two controllers hold together. Often as many as a table holds, or just more.
pub fn some_union(random: &Random) -> usize {
    let edge = random.pick(&[PLACES - 1, PLACES, PLACES, PLACES + 1, PLACES + 1, PLACES + 2]);
    random.pick(&[edge, edge, random.between(0, 3), random.between(0, PLACES), random.between(PLACES, MOST_BLOCKS)])
}

impl Pair {
    /// Two controllers that hold so many blocks together, if that can be.
    pub fn drawn(random: &Random, union: usize) -> Pair {
        let spare = random.pick(&[0, 0, 4]).min(MOST_BLOCKS - union);
        let (pool, apart) = pool(random, union + spare);
        let all = set_of(&some_of(random, &pool.blocks, first(pool.blocks.len()), union));
        let (left, right) = two_sets(random, &pool, all, apart);
        let [left, right] = [left, right].map(|set| Share::drawn(random, &pool, set));
        Pair { pool, left, right }
    }
}

/// Overlapping sets, or one inside the other, or with nothing in common, or equal, or empty.
fn two_sets(random: &Random, pool: &Campaign, all: u128, apart: usize) -> (u128, u128) {
    let blocks = &pool.blocks;
    let count = all.count_ones() as usize;
    let some = || set_of(&some_of(random, blocks, all, random.between(0, count)));
    match random.below(10) {
        0 => (all, all),
        1 => (all, some()),
        2 => (some(), all),
        3 => random.pick(&[(0, all), (all, 0)]),
        4 | 5 if apart > 0 => {
            let one = all & first(apart);
            random.pick(&[(one, all & !one), (all & !one, one)])
        }
        _ => {
            let left = some();
            (left, hull(blocks, all & !left) | random.pick(&[0, some()]))
        }
    }
}

impl Share {
    /// A share of as many blocks of a set as a table holds.
    fn drawn(random: &Random, pool: &Campaign, set: u128) -> Share {
        let held = some_of(random, &pool.blocks, set, PLACES);
        let count = random.pick(&[0, held.len(), random.between(0, held.len())]);
        let interpreted = some_of(random, &pool.blocks, set_of(&held), count);
        Share { held, interpreted }
    }

    /// A share of all blocks of a set, in any order, all interpreted.
    pub fn whole(random: &Random, pool: &Campaign, set: u128) -> Share {
        let held = some_order(random, &pool.blocks, set);
        Share { interpreted: held.clone(), held }
    }

    /// The table that the layout has for it.
    pub fn table(&self, pool: &Campaign) -> Table {
        let mut table = Table::empty(pool.sites, pool.owners);
        table.count = self.held.len();
        for (place, &index) in self.held.iter().enumerate() {
            let built = &pool.blocks[index];
            let lower = (0..place).filter(|&lower| built.references >> self.held[lower] & 1 == 1);
            table.rows[place] = Row {
                digest: built.digest,
                site: built.site,
                sequence: built.sequence,
                references: lower.fold(0, |set, lower| set | 1 << lower),
                requests: block::counted_requests(&built.bytes),
                mark: u8::from(self.interpreted.contains(&index)),
            };
        }
        table
    }

    /// The list of calls that comes to it on an empty table.
    pub fn calls(&self, random: &Random, pool: &Campaign) -> Vec<u8> {
        let place_of = |block: usize| self.held.iter().position(|&other| other == block).expect("it is held");
        let mut open = self.interpreted.iter().map(|&block| place_of(block)).peekable();
        let mut calls = Vec::new();
        for (place, &index) in self.held.iter().enumerate() {
            calls.extend(admission(1, &pool.blocks[index].bytes));
            while !random.one_in(3) {
                let Some(next) = open.next_if(|&next| next <= place) else { break };
                calls.extend(interpretation(next));
            }
        }
        calls.extend(open.flat_map(interpretation));
        calls
    }
}
