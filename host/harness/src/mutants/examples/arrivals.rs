//! Small arrivals with a shelf, worked out by hand from document 02. The blocks are those of a chain of one site, each
//! referring to the one before, for n 1.

use super::{chain, chained, requesting};
use crate::model::calls::Calls;
use crate::model::sha256::sha256;
use crate::model::sizes::{CAMPAIGNS, PLACES, SHELF_BYTES, SLOTS, TABLE_BYTES};
use crate::model::table::Table;

pub fn all(calls: &dyn Calls) -> Vec<(&'static str, bool)> {
    let new = || Follower::new(calls);
    vec![
        ("a child before its parent: 9, then both are let in", child_first(new())),
        ("where a waiting block stands", where_it_stands(new())),
        ("a chain of eleven, the last first: one in each pass", whole_chain(new(), |blocks| blocks.reverse())),
        ("a chain of eleven, the first last: all in one pass", whole_chain(new(), |blocks| blocks.rotate_left(1))),
        ("in the order they came, pass after pass", pass_after_pass(new())),
        ("ten wait: 19, and what waits gets 20", ten_wait(new())),
        ("ten wait, and two for each of the others", sixteen_wait(new())),
        ("three of each, then one more: 19 for the others' places", three_of_each(new())),
        ("the same bytes for two campaigns", for_two(new())),
        ("a slot twice and a missing reference: 18, and nothing waits", slot_twice(new())),
        ("without a parent: dropped with 10", no_parent(new())),
        ("admitted meanwhile: dropped with 8", held_meanwhile(new())),
        ("the table is full: dropped with 11", full_table(new())),
        ("no try after a refused arrival", refused_arrival(new())),
        ("what was let in and taken back doesn't wait again", taken_back(new())),
        ("campaign 4: 21, whatever else", campaign_4(new())),
        ("19 numbers for outcomes: 17, before 2", nineteen_numbers(new())),
        ("a shelf of a byte too few: 2", short_shelf(new())),
    ]
}

/// Four campaigns of one setup.
struct Follower<'a> {
    calls: &'a dyn Calls,
    tables: [Vec<u8>; CAMPAIGNS],
    shelf: Vec<u8>,
    room: usize,
}

/// Refusal, value and the outcomes that are listed.
type ArrivalReply = (u8, usize, Vec<(u64, u64)>);

fn refused(number: u8, value: usize) -> ArrivalReply {
    (number, value, Vec::new())
}

/// At a place, with others let in at these.
fn let_in(place: usize, others: std::ops::Range<u64>) -> ArrivalReply {
    (0, place, others.map(|place| (0, place)).collect())
}

impl<'a> Follower<'a> {
    fn new(calls: &'a dyn Calls) -> Follower<'a> {
        let mut table = vec![0; TABLE_BYTES];
        calls.fresh(1, &mut [0; SLOTS], &mut table);
        let tables = std::array::from_fn(|_| table.clone());
        Follower { calls, tables, shelf: vec![0; SHELF_BYTES], room: 20 }
    }

    fn arrive(&mut self, campaign: u8, block: &[u8]) -> ArrivalReply {
        let table = &mut self.tables[usize::from(campaign) % CAMPAIGNS];
        let mut outcomes = vec![99; self.room];
        let arrival = self.calls.arrive(table, &mut self.shelf, campaign, &mut block.to_vec(), 1, &mut outcomes);
        let listed = outcomes.chunks_exact(2).take(arrival.ended).map(|pair| (pair[0], pair[1])).collect();
        (arrival.answer.refusal, arrival.answer.value, listed)
    }

    /// Whether each gets 9, with the index of its only reference.
    fn all_wait(&mut self, campaign: u8, blocks: &[Vec<u8>]) -> bool {
        blocks.iter().all(|block| self.arrive(campaign, block) == refused(9, 0))
    }

    fn admit(&mut self, block: &[u8]) {
        self.calls.admit(&mut self.tables[0], &mut block.to_vec(), 1);
    }

    fn nothing_waits(&self) -> bool {
        self.shelf.iter().all(|&byte| byte == 0)
    }

    /// The places of blocks in the table of campaign 0.
    fn places(&self, blocks: &[Vec<u8>]) -> Vec<Option<usize>> {
        let table = Table::from_bytes(&self.tables[0]);
        blocks.iter().map(|block| table.place_of(&sha256(block))).collect()
    }
}

fn child_first(mut follower: Follower) -> bool {
    let blocks = chain(2);
    follower.arrive(0, &blocks[1]) == refused(9, 0)
        && follower.arrive(0, &blocks[0]) == let_in(0, 1..2)
        && follower.nothing_waits()
}

/// A block with one reference has 37 bytes. For campaign 2.
fn where_it_stands(mut follower: Follower) -> bool {
    let block = &chain(2)[1];
    let expected = [&[1, 2, 0, 37][..], block, &vec![0; SHELF_BYTES - 41]].concat();
    follower.arrive(2, block) == refused(9, 0) && follower.shelf == expected
}

fn whole_chain(mut follower: Follower, order: fn(&mut [Vec<u8>])) -> bool {
    let blocks = chain(11);
    let mut coming = blocks.clone();
    order(&mut coming);
    let places: Vec<Option<usize>> = (0..11).map(Some).collect();
    follower.all_wait(0, &coming[..10])
        && follower.arrive(0, &coming[10]) == let_in(0, 1..11)
        && follower.nothing_waits()
        && follower.places(&blocks) == places
}

/// The third of a chain, then another second, then its second: the third is let in by the second pass.
fn pass_after_pass(mut follower: Follower) -> bool {
    let blocks = chain(3);
    let another = [&[0, 0, 1, 1, 1][..], &sha256(&blocks[0]), &[5, 0, 9]].concat();
    let coming = [blocks[2].clone(), another, blocks[1].clone()];
    follower.all_wait(0, &coming)
        && follower.arrive(0, &blocks[0]) == let_in(0, 1..4)
        && follower.places(&coming) == [Some(3), Some(1), Some(2)]
}

fn ten_wait(mut follower: Follower) -> bool {
    let blocks = chain(12);
    follower.all_wait(0, &blocks[2..])
        && follower.arrive(0, &blocks[1]) == refused(19, 0)
        && blocks[2..].iter().all(|block| follower.arrive(0, block) == refused(20, 0))
        && follower.arrive(0, &blocks[0]) == let_in(0, 0..0)
        && follower.arrive(0, &blocks[1]) == let_in(1, 2..12)
}

fn sixteen_wait(mut follower: Follower) -> bool {
    let blocks = chain(12);
    follower.all_wait(0, &blocks[1..11])
        && (1..4).all(|campaign| {
            follower.all_wait(campaign, &blocks[1..3])
                && follower.arrive(campaign, &blocks[3]) == refused(19, 0)
                && follower.arrive(campaign, &blocks[1]) == refused(20, 0)
        })
        && follower.shelf[0] == 16
}

/// With three of campaigns 0 to 2 there are seven places, of which campaign 3 lacks two. Campaign 0 takes five more.
fn three_of_each(mut follower: Follower) -> bool {
    let blocks = chain(12);
    (0..3).all(|campaign| follower.all_wait(campaign, &blocks[1..4]))
        && follower.all_wait(0, &blocks[4..9])
        && (0..3).all(|campaign| follower.arrive(campaign, &blocks[9]) == refused(19, 0))
        && follower.all_wait(3, &blocks[1..3])
        && follower.arrive(3, &blocks[3]) == refused(19, 0)
}

fn for_two(mut follower: Follower) -> bool {
    let blocks = chain(2);
    follower.all_wait(0, &blocks[1..])
        && follower.all_wait(1, &blocks[1..])
        && follower.arrive(0, &blocks[0]) == let_in(0, 1..2)
        && follower.arrive(1, &blocks[1]) == refused(20, 0)
        && follower.arrive(1, &blocks[0]) == let_in(0, 1..2)
        && follower.nothing_waits()
}

fn slot_twice(mut follower: Follower) -> bool {
    let block = [&[0, 0, 1, 1, 2][..], &sha256(&chain(1)[0]), &[5, 0, 9, 5, 0, 8]].concat();
    follower.arrive(0, &block) == refused(18, 1) && follower.nothing_waits()
}

/// Sequence 2, but it refers to the block of sequence 0.
fn no_parent(mut follower: Follower) -> bool {
    let blocks = chain(2);
    let third = chained(2, &blocks[..1]);
    follower.all_wait(0, &[third, blocks[1].clone()])
        && follower.arrive(0, &blocks[0]) == (0, 0, vec![(10, 0), (0, 1)])
        && follower.nothing_waits()
}

fn held_meanwhile(mut follower: Follower) -> bool {
    let blocks = chain(2);
    let waits = follower.all_wait(0, &blocks[1..]);
    follower.admit(&blocks[0]);
    waits && follower.arrive(0, &blocks[1]) == (0, 1, vec![(8, 0)]) && follower.nothing_waits()
}

fn full_table(mut follower: Follower) -> bool {
    let blocks = chain(PLACES + 2);
    blocks[..PLACES - 1].iter().for_each(|block| follower.admit(block));
    follower.all_wait(0, &[blocks[PLACES + 1].clone(), blocks[PLACES].clone()])
        && follower.arrive(0, &blocks[PLACES - 1]) == (0, PLACES - 1, vec![(11, 0)])
        && follower.arrive(0, &blocks[PLACES]) == refused(11, 0)
        && follower.arrive(0, &blocks[PLACES + 1]) == refused(20, 0)
}

fn refused_arrival(mut follower: Follower) -> bool {
    let blocks = chain(2);
    let waits = follower.all_wait(0, &blocks[1..]);
    follower.admit(&blocks[0]);
    waits
        && follower.arrive(0, &blocks[0]) == refused(8, 0)
        && follower.shelf[0] == 1
        && follower.arrive(0, &requesting(&[(0, 7)])) == let_in(1, 2..3)
}

/// Both in reverse; then the first is let in alone.
fn taken_back(mut follower: Follower) -> bool {
    let blocks = chain(2);
    let before = follower.tables[0].clone();
    follower.all_wait(0, &blocks[1..])
        && follower.arrive(0, &blocks[0]) == let_in(0, 1..2)
        && (0..2).all(|_| follower.calls.take_back(&mut follower.tables[0]).refusal == 0)
        && follower.tables[0] == before
        && follower.nothing_waits()
        && follower.arrive(0, &blocks[0]) == let_in(0, 0..0)
        && follower.nothing_waits()
}

fn campaign_4(mut follower: Follower) -> bool {
    follower.room = 0;
    follower.shelf[0] = 17;
    [4, 5, 128, 255].iter().all(|&campaign| follower.arrive(campaign, &[]) == refused(21, 0))
}

fn nineteen_numbers(mut follower: Follower) -> bool {
    let blocks = chain(2);
    follower.room = 19;
    let short = follower.arrive(0, &blocks[0]) == refused(17, 20) && follower.arrive(0, &blocks[1]) == refused(17, 20);
    follower.shelf[0] = 17;
    let before_2 = follower.arrive(0, &blocks[0]) == refused(17, 20);
    follower.room = 20;
    short && before_2 && follower.arrive(0, &blocks[0]) == refused(2, 0)
}

fn short_shelf(mut follower: Follower) -> bool {
    follower.shelf.pop();
    follower.arrive(0, &chain(1)[0]) == refused(2, 0)
}
