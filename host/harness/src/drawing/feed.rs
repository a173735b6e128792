//! Blocks on their way to a table: drawn on top of it, and brought out of order.

use crate::drawing::draft::{self, lawful, longest_lawful, missing_reference, some_requests, spoil, Draft};
use crate::drawing::random::Random;
use crate::model::admission::{put, row, AdmissionInput};
use crate::model::block;
use crate::model::sha256::{sha256, Digest};
use crate::model::sizes::{MAX_REFERENCES, MOST_HELD, PLACES};
use crate::model::table::Table;

/// The blocks that have still to come, the next one last.
#[derive(Default)]
pub struct Feed {
    to_come: Vec<Vec<u8>>,
}

/// Two more than a campaign can have waiting.
const MOST_BLOCKS: usize = MOST_HELD + 2;

impl Feed {
    pub fn is_empty(&self) -> bool {
        self.to_come.is_empty()
    }

    /// Adds blocks that come after all others, and out of order.
    pub fn add(&mut self, random: &Random, mut blocks: Vec<Vec<u8>>) {
        out_of_order(random, &mut blocks);
        blocks.reverse();
        self.to_come.splice(..0, blocks);
    }

    /// The next block; of a new batch on top of the table, if all others have come.
    pub fn next(&mut self, random: &Random, table: &Table) -> Vec<u8> {
        if self.is_empty() {
            self.add(random, batch(random, table));
        }
        self.to_come.pop().expect("a batch has blocks")
    }
}

/// Some blocks of which later ones mostly refer to earlier ones.
pub fn batch(random: &Random, table: &Table) -> Vec<Vec<u8>> {
    // As many as can wait and one that lets them in, which is held or among them.
    let count = random.pick(&[2, 4, random.between(2, MOST_BLOCKS), MOST_HELD, MOST_HELD + 1, MOST_BLOCKS]);
    let mut blocks = match random.below(4) {
        0 => chain(random, table, count),
        1 => across(random, table, count),
        2 => fan(random, table, count),
        _ => web(random, table, count),
    };
    if random.one_in(6) {
        let at = random.below(blocks.len());
        blocks[at] = spoiled(random, table);
    }
    blocks
}

fn out_of_order(random: &Random, blocks: &mut [Vec<u8>]) {
    match random.below(6) {
        0 | 1 => blocks.reverse(),
        // What the others need comes last.
        2 => blocks.rotate_left(1),
        3 => blocks.rotate_left(blocks.len() / 2),
        4 => random.shuffle(blocks),
        _ => {}
    }
}

/// Blocks of one site, each on top of the one before.
fn chain(random: &Random, table: &Table, count: usize) -> Vec<Vec<u8>> {
    let site = random.below(table.sites.into()) as u8;
    let last = table.own(site).last().map(|place| &table.rows[place]);
    // There are numbers for all of them.
    let last = last.filter(|row| usize::from(u16::MAX - row.sequence) > count);
    let mut sequence = last.map_or(0, |row| row.sequence + 1);
    let mut references: Vec<_> = last.map(|row| row.digest).into_iter().collect();
    let next = |_| {
        let draft =
            Draft { site, sequence, references: references.clone(), requests: some_requests(random), verdict: 1 };
        let block = draft.to_bytes();
        references = vec![sha256(&block)];
        sequence += 1;
        block
    };
    (0..count).map(next).collect()
}

/// Blocks of any sites, each the first of a branch and referring to the one before.
fn across(random: &Random, table: &Table, count: usize) -> Vec<Vec<u8>> {
    let mut blocks = vec![lawful(random, table).to_bytes()];
    while blocks.len() < count {
        let before = sha256(&blocks[blocks.len() - 1]);
        blocks.push(first_of_branch(random, table, before));
    }
    blocks
}

fn first_of_branch(random: &Random, table: &Table, reference: Digest) -> Vec<u8> {
    let site = random.below(table.sites.into()) as u8;
    Draft { site, sequence: 0, references: vec![reference], requests: some_requests(random), verdict: 1 }.to_bytes()
}

/// A block, and others that refer to it and to nothing else that is new: they may be more than the table has room for.
fn fan(random: &Random, table: &Table, count: usize) -> Vec<Vec<u8>> {
    let root = lawful(random, table).to_bytes();
    let ahead = with(table, &root);
    let digest = sha256(&root);
    let child = || {
        let mut draft = lawful(random, &ahead);
        if !draft.references.contains(&digest) {
            draft.references.truncate(MAX_REFERENCES - 1);
            draft.references.push(digest);
        }
        random.shuffle(&mut draft.references);
        if random.one_in(4) {
            // Without a parent. This shows once all references are held.
            draft.sequence = random.pick(&[draft.sequence.wrapping_add(1), draft.sequence.wrapping_add(2), 256, 65535]);
        }
        draft.to_bytes()
    };
    let children = (1..count).map(|_| child());
    std::iter::once(root).chain(children).collect()
}

/// Each on top of the table and of those before it.
fn web(random: &Random, table: &Table, count: usize) -> Vec<Vec<u8>> {
    let mut ahead = table.clone();
    let mut blocks = Vec::new();
    let long_one_in = random.pick(&[2, 8, 1000]);
    for _ in 0..count {
        let long = random.one_in(long_one_in);
        let draft = if long { longest_lawful(random, &ahead) } else { lawful(random, &ahead) };
        let block = draft.to_bytes();
        ahead = with(&ahead, &block);
        blocks.push(block);
    }
    blocks
}

fn spoiled(random: &Random, table: &Table) -> Vec<u8> {
    let mut draft = lawful(random, table);
    spoil(random, table, &mut draft);
    draft.to_bytes()
}

/// The table as if the block were admitted to it; a full one as it is.
pub fn with(table: &Table, block: &[u8]) -> Table {
    let mut after = table.clone();
    if table.count < PLACES {
        let input = AdmissionInput {
            table: table.clone(),
            in_form: true,
            block: block.to_vec(),
            digest: sha256(block),
            verdict: 1,
        };
        put(&mut after, row(&input));
    }
    after
}

/// A block that refers to one that never comes. Sometimes it is as long as a block may be.
pub fn lacking(random: &Random, table: &Table) -> Vec<u8> {
    if random.one_in(6) {
        return draft::longest(random, table).to_bytes();
    }
    loop {
        let mut draft = lawful(random, table);
        missing_reference(random, table, &mut draft);
        let block = draft.to_bytes();
        // The missing one may be there twice.
        if block::accepted(&block) {
            return block;
        }
    }
}
