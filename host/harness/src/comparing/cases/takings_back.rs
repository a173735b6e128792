//! Takings back: single ones, mostly on tables that no calls reach; and lists of calls into which admissions are put,
//! each taken back straight away.

use crate::comparing::buffers::{Buffers, Sides};
use crate::comparing::compare::Compare;
use crate::comparing::difference::Difference;
use crate::comparing::laws::{self, AdmissionTakenBack, ExtendedList};
use crate::drawing::arrivals::good;
use crate::drawing::random::Random;
use crate::drawing::record_contents::any_numbers;
use crate::drawing::table_damage::damaged;
use crate::drawing::tables;
use crate::drawing::target_places::some_target;
use crate::model::calls::Calls;
use crate::model::form::{self, in_form};
use crate::model::replay::{admission, interpretation, retiring, taking_back, BEFORE_BLOCK};
use crate::model::sizes::{BUFFER_NUMBERS, PLACES};
use crate::model::table::Table;
use crate::model::Model;

pub fn run(random: &Random, compare: &mut Compare) -> Result<(), Difference> {
    if random.one_in(2) {
        by_hand(random, compare)
    } else {
        lists(random, compare)
    }
}

// ---- Any tables

/// One after the other, up to a refusal; before them now and then an admission.
fn by_hand(random: &Random, compare: &mut Compare) -> Result<(), Difference> {
    let table = if random.one_in(4) { tables::in_form(random) } else { some_table(random) };
    let bytes = if random.one_in(4) { damaged(random, &table) } else { table.to_bytes() };
    let mut sides = Sides::new(Buffers::new(bytes.clone(), Vec::new()));
    if random.one_in(2) {
        let arrival = good(random, &table);
        if compare.admit(&mut sides, &arrival.block, arrival.verdict)?.refusal == 0 {
            laws::check_taking_back(&AdmissionTakenBack::of(compare, bytes, &sides.expected.table)?)?;
        }
    }
    for taken in 0..random.pick(&[2, 2, 4, PLACES + 1]) {
        let before = Table::from_bytes(&sides.expected.table);
        let answer = compare.take_back(&mut sides)?;
        compare.counts.takings_back.answer(&before, taken, answer);
        if answer.refusal != 0 {
            break;
        }
    }
    Ok(())
}

/// One in form, mostly with open places at the end, if it is in form then.
fn some_table(random: &Random) -> Table {
    let mut table = tables::in_form(random);
    if random.one_in(4) {
        table.retired = 1;
    }
    let last = table.count.saturating_sub(1);
    let from = random.pick(&[0, last, last, random.between(0, last), table.count]);
    let mut open = table.clone();
    open.rows[from..].iter_mut().for_each(|row| row.mark = 0);
    if in_form(&form::DOCUMENT, &open) {
        open
    } else {
        table
    }
}

// ---- Lists

/// A call of a list, and whether it was put in.
struct Step {
    call: Vec<u8>,
    put_in: bool,
}

const MOST_CALLS: usize = 8;

/// The table and records that a list leaves must be those that it leaves with more in it.
fn lists(random: &Random, compare: &mut Compare) -> Result<(), Difference> {
    let table = if random.one_in(2) { tables::empty(random) } else { some_table(random) };
    let start = Buffers::new(table.to_bytes(), any_numbers(random, BUFFER_NUMBERS));
    let mut steps = some_steps(random, compare.model, &start);
    let without = left_by(compare, &start, &steps)?;
    for _ in 0..random.between(1, 3) {
        put_in(random, compare, &start, &mut steps);
    }
    let with = left_by(compare, &start, &steps)?;
    let put_in = steps.iter().map(|step| step.put_in).collect();
    laws::check_extended_list(&ExtendedList { without: &without, with: &with, put_in })
}

/// Mostly calls that aren't refused.
fn some_steps(random: &Random, model: &Model, start: &Buffers) -> Vec<Step> {
    let mut steps = Vec::new();
    let mut buffers = start.clone();
    for _ in 0..random.between(0, MOST_CALLS) {
        let held = Table::from_bytes(&buffers.table);
        let call = match random.below(8) {
            0 => retiring(),
            1 => taking_back(),
            2..=4 => interpretation(some_target(random, &held)),
            _ => admission(1, &good(random, &held).block),
        };
        replay(model, &mut buffers, &call);
        steps.push(Step { call, put_in: false });
    }
    steps
}

fn replay(model: &Model, buffers: &mut Buffers, calls: &[u8]) {
    model.replay(&mut buffers.table, &mut buffers.records, &mut calls.to_vec(), &mut []);
}

fn whole(steps: &[Step]) -> Vec<u8> {
    steps.iter().flat_map(|step| step.call.clone()).collect()
}

fn left_by(compare: &mut Compare, start: &Buffers, steps: &[Step]) -> Result<Buffers, Difference> {
    let mut sides = Sides::new(start.clone());
    compare.replay(&mut sides, &whole(steps), &vec![0; 2 * steps.len()])?;
    Ok(sides.tested)
}

/// Puts an admission and its taking back into a list, between any two calls, if the table there takes the block. Often
/// it is the block that the next call admits too.
fn put_in(random: &Random, compare: &mut Compare, start: &Buffers, steps: &mut Vec<Step>) {
    let at = random.between(0, steps.len());
    let mut buffers = start.clone();
    replay(compare.model, &mut buffers, &whole(&steps[..at]));
    let next = steps.get(at).and_then(|step| step.call.get(BEFORE_BLOCK..)).filter(|_| random.one_in(2));
    let comes_again = next.is_some();
    let mut block = next.map_or_else(|| good(random, &Table::from_bytes(&buffers.table)).block, <[u8]>::to_vec);
    if compare.model.admit(&mut buffers.table, &mut block, 1).refusal == 0 {
        let calls = [admission(1, &block), taking_back()];
        steps.splice(at..at, calls.map(|call| Step { call, put_in: true }));
        compare.counts.takings_back.put_in(comes_again);
    }
}
