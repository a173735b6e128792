//! Pools of blocks, from which two controllers get theirs: those of a campaign and others, as many as are wanted. And
//! sets of such blocks: bit i is block i.

use crate::drawing::campaign::{Campaign, CampaignBlock};
use crate::drawing::draft::{some_requests, Draft};
use crate::drawing::random::Random;
use crate::model::sha256::sha256;
use crate::model::sizes::{DIGEST_BYTES, MAX_REFERENCES};

/// A pool has at most as many blocks as a set has bits.
pub const MOST_BLOCKS: usize = u128::BITS as usize;

/// A campaign's blocks, or the first of them, and others up to so many in all. With how many of the first ones no later
/// one has anything to do.
pub fn pool(random: &Random, count: usize) -> (Campaign, usize) {
    let mut pool = Campaign::drawn(random);
    let drawn = pool.blocks.len();
    pool.blocks.truncate(random.pick(&[0, drawn, random.between(0, drawn)]).min(count));
    let apart = if random.one_in(3) { pool.blocks.len().max(count / 2) } else { 0 };
    while pool.blocks.len() < count {
        let from = if pool.blocks.len() < apart { 0 } else { apart };
        if let Some(block) = another(random, &pool, from) {
            pool.blocks.push(block);
        }
    }
    (pool, apart)
}

/// A block that refers to none before the one named; unless it would be an old one once more.
fn another(random: &Random, pool: &Campaign, from: usize) -> Option<CampaignBlock> {
    let blocks = &pool.blocks;
    let site = random.below(pool.sites.into()) as u8;
    let own: Vec<usize> = (from..blocks.len()).filter(|&block| blocks[block].site == site).collect();
    let parent = own.last().filter(|_| !random.one_in(3)).map(|&last| random.pick(&[last, random.pick(&own)]));
    let sequence = parent.map_or(0, |parent| blocks[parent].sequence + 1);
    let second_parent = |block: &usize| blocks[*block].site == site && blocks[*block].sequence + 1 == sequence;
    let mut references: Vec<usize> = (from..blocks.len()).filter(|block| !second_parent(block)).collect();
    random.shuffle(&mut references);
    let most = MAX_REFERENCES - usize::from(parent.is_some());
    // Few mostly: where each block rests on nearly all others, two sides can't hold different ones.
    references.truncate(random.pick(&[0, 1, 1, 2, 3, random.between(0, most), most]));
    references.extend(parent);
    random.shuffle(&mut references);
    let draft = Draft {
        site,
        sequence,
        references: references.iter().map(|&block| blocks[block].digest).collect(),
        requests: some_requests(random),
        verdict: 1,
    };
    let bytes = draft.to_bytes();
    let digest = sha256(&bytes);
    let references = set_of(&references);
    let new = blocks.iter().all(|block| block.digest != digest);
    new.then_some(CampaignBlock { bytes, references, digest, site, sequence })
}

/// Other digests for some blocks: one that is nearly another's, or zero. No calls reach tables with such blocks.
pub fn exchange_digests(random: &Random, pool: &mut Campaign) {
    let count = pool.blocks.len();
    for _ in 0..random.pick(&[0, 1, 3]).min(count) {
        let near = random.near(pool.blocks[random.below(count)].digest);
        let digest = random.pick(&[near, near, [0; DIGEST_BYTES]]);
        if pool.blocks.iter().all(|block| block.digest != digest) {
            pool.blocks[random.below(count)].digest = digest;
        }
    }
}

pub fn set_of(blocks: &[usize]) -> u128 {
    blocks.iter().fold(0, |set, block| set | 1 << block)
}

pub fn has(set: u128, block: usize) -> bool {
    set >> block & 1 == 1
}

/// The set of the first so many blocks.
pub fn first(count: usize) -> u128 {
    (0..count).fold(0, |set, block| set | 1 << block)
}

/// The set with all that its blocks rest on.
pub fn hull(blocks: &[CampaignBlock], set: u128) -> u128 {
    // References are to earlier ones, so one pass from the last on finds all.
    (0..blocks.len()).rev().fold(set, |set, block| if has(set, block) { set | blocks[block].references } else { set })
}

/// The blocks of a set, which has all that they rest on, in an order in which they could come.
pub fn some_order(random: &Random, blocks: &[CampaignBlock], set: u128) -> Vec<usize> {
    let manner = random.below(3);
    let mut order = Vec::new();
    let mut come = 0;
    loop {
        let could_come = |block: &usize| has(set & !come, *block) && blocks[*block].references & !come == 0;
        let ready: Vec<usize> = (0..blocks.len()).filter(could_come).collect();
        let (Some(&first), Some(&last)) = (ready.first(), ready.last()) else { return order };
        let next = [first, last, random.pick(&ready)][manner];
        order.push(next);
        come |= 1 << next;
    }
}

/// So many blocks of a set at most, with all that they rest on.
pub fn some_of(random: &Random, blocks: &[CampaignBlock], set: u128, most: usize) -> Vec<usize> {
    let mut order = some_order(random, blocks, set);
    order.truncate(most);
    order
}
