//! Joins of two controllers: of tables and records that calls reached, and of others, some with something wrong.

use crate::comparing::buffers::{Buffers, Sides};
use crate::comparing::compare::join::join_facts;
use crate::comparing::compare::Compare;
use crate::comparing::difference::Difference;
use crate::comparing::facts::join::{JoinFacts, ReachedJoin};
use crate::comparing::facts::two_sites::TwoSites;
use crate::comparing::laws;
use crate::drawing::join_faults::FaultyJoin;
use crate::drawing::pairs::{some_union, Pair, Share};
use crate::drawing::pool::{exchange_digests, first, has, set_of, some_order};
use crate::drawing::random::Random;
use crate::drawing::record_contents::{any_numbers, records};
use crate::model::replay::{admission, interpretation};
use crate::model::sizes::{BUFFER_NUMBERS, PLACES};
use crate::model::table::Table;

pub fn run(random: &Random, compare: &mut Compare) -> Result<(), Difference> {
    match random.below(8) {
        0..=2 => reached_sides(random, compare),
        _ => by_hand(random, compare),
    }
}

// ---- Tables and records that calls reached

/// Two sites get their blocks, and are joined. The joined site goes on, and agrees with one that got all blocks.
fn reached_sides(random: &Random, compare: &mut Compare) -> Result<(), Difference> {
    // Small ones take less time.
    let union = if random.one_in(4) { some_union(random).min(PLACES + 4) } else { random.between(0, 24) };
    let pair = Pair::drawn(random, union);
    let left = grown(random, compare, &pair, &pair.left)?;
    let right = grown(random, compare, &pair, &pair.right)?;
    let facts = join_facts(compare, left, right, any_numbers(random, BUFFER_NUMBERS))?;
    // Sometimes the laws that come first aren't held against it: so wrong rules show whether later ones say something by
    // themselves.
    let from = random.below(3);
    if from == 0 {
        check(random, &facts)?;
    }
    if facts.answer.refusal != 0 {
        return Ok(());
    }
    let swapped = join_facts(compare, facts.right.clone(), facts.left.clone(), facts.third.clone())?;
    let by_calls = by_calls(compare, &pair, &facts)?;
    let ahead = ahead(random, &pair);
    let (site, later_refusals) = later_calls(compare, &pair, &facts, &ahead)?;
    if from <= 1 {
        laws::check_reached_join(&ReachedJoin { join: &facts, swapped, by_calls, later_refusals })?;
    }
    let all = set_of(&ahead) | set_of(&pair.left.held) | set_of(&pair.right.held);
    let other = grown(random, compare, &pair, &Share::whole(random, &pair.pool, all))?;
    let watch_answers = [compare.forks(&site.table)?, compare.forks(&other.table)?];
    let two_sites = TwoSites::of([(&site, watch_answers[0]), (&other, watch_answers[1])]);
    compare.counts.joins.site_after_join(&two_sites);
    laws::check_two_sites(&two_sites)
}

/// What a list of calls leaves of a table and records. With the refusals.
fn buffers_after(
    compare: &mut Compare,
    table: Vec<u8>,
    records: Vec<u16>,
    calls: &[u8],
) -> Result<(Buffers, Vec<u64>), Difference> {
    let mut sides = Sides::new(Buffers::new(table, records));
    // A refusal and a value for each call, of which there are two for each place at most.
    let ran = compare.replay(&mut sides, calls, &[0; 4 * PLACES])?;
    let refusals = sides.expected.answers.chunks_exact(2).take(ran).map(|pair| pair[0]).collect();
    Ok((Buffers::new(sides.expected.table, sides.expected.records), refusals))
}

fn empty(pair: &Pair) -> Vec<u8> {
    Table::empty(pair.pool.sites, pair.pool.owners).to_bytes()
}

/// A controller that came to its share by calls.
fn grown(random: &Random, compare: &mut Compare, pair: &Pair, share: &Share) -> Result<Buffers, Difference> {
    let calls = share.calls(random, &pair.pool);
    let (buffers, _) = buffers_after(compare, empty(pair), any_numbers(random, BUFFER_NUMBERS), &calls)?;
    Ok(buffers)
}

/// What calls leave that bring the blocks of the result in its order, with the third buffer as records.
fn by_calls(compare: &mut Compare, pair: &Pair, facts: &JoinFacts) -> Result<Option<Buffers>, Difference> {
    let after = Table::from_bytes(&facts.after.table);
    let mut calls = Vec::new();
    for row in after.held() {
        let Some(built) = pair.pool.blocks.iter().find(|built| built.digest == row.digest) else { return Ok(None) };
        calls.extend(admission(1, &built.bytes));
    }
    let interpreted = (0..after.held().len()).filter(|&place| after.rows[place].mark == 1);
    calls.extend(interpreted.flat_map(interpretation));
    let (buffers, _) = buffers_after(compare, empty(pair), facts.third.clone(), &calls)?;
    Ok(Some(buffers))
}

/// Blocks that neither side holds, as many as there is room for, in an order in which they could come.
fn ahead(random: &Random, pair: &Pair) -> Vec<usize> {
    let held = set_of(&pair.left.held) | set_of(&pair.right.held);
    let mut ahead = some_order(random, &pair.pool.blocks, first(pair.pool.blocks.len()));
    ahead.retain(|&block| !has(held, block));
    ahead.truncate(PLACES.saturating_sub(held.count_ones() as usize));
    ahead
}

/// The joined site interprets what isn't interpreted yet, and gets the blocks ahead. With the refusals.
fn later_calls(
    compare: &mut Compare,
    pair: &Pair,
    facts: &JoinFacts,
    ahead: &[usize],
) -> Result<(Buffers, Vec<u64>), Difference> {
    let after = Table::from_bytes(&facts.after.table);
    let open = (0..after.held().len()).filter(|&place| after.rows[place].mark == 0);
    let mut calls: Vec<u8> = open.flat_map(interpretation).collect();
    for (place, &block) in (after.count..).zip(ahead) {
        calls.extend(admission(1, &pair.pool.blocks[block].bytes));
        calls.extend(interpretation(place));
    }
    buffers_after(compare, facts.after.table.clone(), facts.after.records.clone(), &calls)
}

// ---- Any tables and records

const JOINS_A_PAIR: usize = 3;

/// Tables in form that mostly no calls reach, with any records. Each join has the same two at first, and mostly
/// something is done to them.
fn by_hand(random: &Random, compare: &mut Compare) -> Result<(), Difference> {
    let mut pair = Pair::drawn(random, some_union(random));
    exchange_digests(random, &mut pair.pool);
    let tables = [&pair.left, &pair.right].map(|share| share.table(&pair.pool));
    let numbers = if random.one_in(2) { any_numbers } else { records };
    for _ in 0..JOINS_A_PAIR {
        let FaultyJoin { tables: [left_table, right_table], lengths } = FaultyJoin::drawn(random, &tables);
        let [left, right, third] = lengths.map(|length| numbers(random, length));
        let facts = join_facts(compare, Buffers::new(left_table, left), Buffers::new(right_table, right), third)?;
        check(random, &facts)?;
    }
    Ok(())
}

/// Holds the laws of any join against it, in one order or the other.
fn check(random: &Random, facts: &JoinFacts) -> Result<(), Difference> {
    if random.one_in(2) {
        laws::check_second_join(facts)?;
    }
    laws::check_join(facts)?;
    laws::check_second_join(facts)
}
