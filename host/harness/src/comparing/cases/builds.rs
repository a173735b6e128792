//! Blocks that sites build, mostly on tables that no calls reach. Each is then admitted.

use crate::comparing::buffers::{Buffers, NextBlock, Sides};
use crate::comparing::compare::Compare;
use crate::comparing::difference::Difference;
use crate::comparing::laws::{self, BuiltBlock};
use crate::drawing::draft::{bad_request, repeated_slot, site_from_n_on, some_requests};
use crate::drawing::random::Random;
use crate::drawing::table_damage::damaged;
use crate::drawing::tables;
use crate::drawing::tables_with_forks::{self, leave, some_left};
use crate::drawing::tables_with_retirings::at_end;
use crate::model::block::{self, list_bytes};
use crate::model::sha256::sha256;
use crate::model::sizes::{HEADER_BYTES, MAX_BLOCK_BYTES, MAX_REQUEST_LIST_BYTES, REQUEST_BYTES, SLOTS};
use crate::model::table::Table;

const BUILDS_A_CASE: usize = 3;

pub fn run(random: &Random, compare: &mut Compare) -> Result<(), Difference> {
    let (mut table, builder) = some_table(random);
    for _ in 0..BUILDS_A_CASE {
        let site = some_site(random, &table, builder);
        if random.one_in(2) {
            leave(random, &mut table, site, some_left(random));
        }
        if random.one_in(6) {
            table = at_end(random, table, site);
        }
        let bytes = if random.one_in(6) { damaged(random, &table) } else { table.to_bytes() };
        let after = next_block(random, compare, &NextBlock { table: &bytes, site, requests: &some_list(random) })?;
        // Often the next block is built on top of this one.
        if let Some(after) = after.filter(|_| random.one_in(2)) {
            table = Table::from_bytes(&after);
        }
    }
    Ok(())
}

/// A table, and a site that builds on it.
fn some_table(random: &Random) -> (Table, u8) {
    if random.one_in(4) {
        let table = tables::in_form(random);
        let site = random.below(table.sites.into()) as u8;
        (table, site)
    } else {
        tables_with_forks::drawn(random)
    }
}

fn some_site(random: &Random, table: &Table, builder: u8) -> u8 {
    match random.below(8) {
        0 => site_from_n_on(random, table),
        1 => random.below(table.sites.into()) as u8,
        _ => builder,
    }
}

// ---- Requests

/// A list as it should be, or one with faults: in its requests, in its length, in both.
pub fn some_list(random: &Random) -> Vec<u8> {
    let mut requests = some_requests(random);
    for _ in 0..random.pick(&[0, 0, 0, 1, 2]) {
        random.pick(&[bad_request, repeated_slot])(random, &mut requests);
    }
    let mut list = list_bytes(&requests);
    if random.one_in(5) {
        other_length(random, &mut list);
    }
    list
}

/// No whole number of requests, or too many. What is added makes good requests, bad ones, or any.
fn other_length(random: &Random, list: &mut Vec<u8>) {
    let most = MAX_REQUEST_LIST_BYTES;
    let near = [list.len() + 1, list.len() + 2, list.len().saturating_sub(1), list.len().saturating_sub(2)];
    let beyond = [most + 1, most + 2, most + REQUEST_BYTES, most + REQUEST_BYTES, REQUEST_BYTES * SLOTS, 2 * most];
    // In one byte these lengths, or these counts of requests, are those of a short list.
    let round = [256 + REQUEST_BYTES, 256 + 2 * REQUEST_BYTES, 256 * REQUEST_BYTES, 257 * REQUEST_BYTES];
    let length = random.pick(&[random.pick(&near), random.pick(&beyond), random.pick(&beyond), random.pick(&round)]);
    list.resize(length, random.pick(&[1, 1, 0, random.byte()]));
}

// ---- Building and admitting

/// Asks for a site's next block with outputs of several lengths. If it is built, the table with it in place is given
/// back.
pub fn next_block(random: &Random, compare: &mut Compare, next: &NextBlock) -> Result<Option<Vec<u8>>, Difference> {
    // No output at all is refused with the length needed, unless another cause comes before.
    let (asked, _) = compare.build(next, &[])?;
    let needed = if asked.refusal == 17 { asked.value } else { random.between(HEADER_BYTES, MAX_BLOCK_BYTES) };
    if random.one_in(2) {
        let short = random.pick(&[needed - 1, needed - 1, random.below(needed)]);
        let (answer, _) = compare.build(next, &random.bytes(short))?;
        compare.counts.built_blocks.short_output(short, answer);
    }
    let longer = [needed + 1, needed + random.between(1, 100), needed.max(MAX_BLOCK_BYTES)];
    let room = random.pick(&[needed, needed, random.pick(&longer)]);
    let output = random.bytes(room);
    let Some(admitted) = build_and_admit(compare, next, &output)? else { return Ok(None) };
    if random.one_in(8) {
        if let Some(table) = holding(random, next.table, &admitted.block) {
            build_and_admit(compare, &NextBlock { table: &table, ..*next }, &output)?;
        }
    }
    Ok(Some(admitted.table))
}

/// A block, and the table that it was admitted to.
struct BlockAndTable {
    block: Vec<u8>,
    table: Vec<u8>,
}

/// Builds a block into an output. If that isn't refused, the block is read and admitted to a copy of the table.
fn build_and_admit(
    compare: &mut Compare,
    next: &NextBlock,
    output: &[u8],
) -> Result<Option<BlockAndTable>, Difference> {
    let (answer, after) = compare.build(next, output)?;
    compare.counts.built_blocks.answer(next, answer, output.len());
    if answer.refusal != 0 {
        return Ok(None);
    }
    let block = &after[..answer.value];
    compare.read_block(block)?;
    let mut sides = Sides::new(Buffers::new(next.table.to_vec(), Vec::new()));
    let admission = compare.admit(&mut sides, block, 1)?;
    compare.counts.built_blocks.admission(admission);
    laws::check_built_block(&BuiltBlock { next, block, before: output, after: &after, admission })?;
    Ok(Some(BlockAndTable { block: block.to_vec(), table: sides.expected.table }))
}

/// The table with the block's digest held at some place that the block doesn't refer to: so the same block is built.
fn holding(random: &Random, table: &[u8], block: &[u8]) -> Option<Vec<u8>> {
    let mut table = Table::from_bytes(table);
    let references = block::references(block);
    let free = |place: &usize| !references.contains(&table.rows[*place].digest);
    let free: Vec<usize> = (0..table.held().len()).filter(free).collect();
    if free.is_empty() {
        return None;
    }
    table.rows[random.pick(&free)].digest = sha256(block);
    Some(table.to_bytes())
}
