//! Small takings back, worked out by hand from document 02. Site 0 owns all slots.

use super::holder::Holder;
use super::{chain, forks_and_child, requesting};
use crate::model::calls::Calls;
use crate::model::ledger::{forked, Ledger};
use crate::model::sizes::{BUFFER_NUMBERS, PLACES, SLOTS};
use crate::model::table::Table;
use crate::model::taking_back::counts;

pub fn all(calls: &dyn Calls) -> Vec<(&'static str, bool)> {
    let new = |sites| Holder::new(calls, sites);
    let open = |blocks| holding(new(1), blocks);
    let first_interpreted = |blocks| interpreted(open(blocks), 0);
    vec![
        ("nothing to take back: 32", taken_back(&mut new(4)) == (32, 0)),
        ("nothing to take back where something was retired: 32", {
            taken_back(&mut new(4).changed(|table| table.retired = 1)) == (32, 0)
        }),
        ("nothing to take back, and not in form: 2", {
            taken_back(&mut new(4).changed(|table| table.retired = 2)) == (2, 0)
        }),
        ("an interpreted block: 33", taken_back(&mut first_interpreted(1)) == (33, 0)),
        ("an interpreted block, and not in form: 2", {
            taken_back(&mut first_interpreted(1).changed(|table| table.retired = 2)) == (2, 0)
        }),
        ("an open block above an interpreted one, then 33", open_above(first_interpreted(2))),
        ("an interpreted block above an open one: 33", interpreted_above(new(4)) == (33, 0)),
        ("64 blocks down to the empty table, then 32", down_to_empty(new(1))),
        ("the same block again, at the same place", same_again(open(3))),
        ("a block that refers to the one taken back: 9", refers_to_taken(open(2)) == (9, 0)),
        ("after a retiring the table stays one that has retired", after_retiring(new(1))),
        ("a fork that was taken back is none", {
            let ledger = ledger(|ledger| {
                fork(ledger);
                ledger.take_back();
            });
            forked(ledger.counting()) == 0
        }),
        ("a fork that was taken back and came again is one", {
            let ledger = ledger(|ledger| {
                fork(ledger);
                ledger.take_back();
                fork(ledger);
            });
            forked(ledger.counting()) == 1
        }),
        ("a fork that one site took back and another holds is one", {
            let one = ledger(|ledger| {
                fork(ledger);
                ledger.take_back();
            });
            let other = ledger(fork);
            forked(one.counting().chain(other.counting())) == 1
        }),
        ("a block that was retired, came again and was taken back counts", forked(returned().counting()) == 1),
    ]
}

fn taken_back(holder: &mut Holder) -> (u8, usize) {
    let answer = holder.calls.take_back(&mut holder.table);
    (answer.refusal, answer.value)
}

/// With a chain of so many blocks, none of them interpreted.
fn holding(mut holder: Holder, blocks: usize) -> Holder {
    for block in chain(blocks) {
        holder.admit(&block);
    }
    holder
}

fn interpreted(mut holder: Holder, place: usize) -> Holder {
    holder.interpret(place);
    holder
}

fn open_above(mut holder: Holder) -> bool {
    taken_back(&mut holder) == (0, 0) && taken_back(&mut holder) == (33, 0)
}

/// A block of site 1 that isn't interpreted, and then one of site 0 that is.
fn interpreted_above(mut holder: Holder) -> (u8, usize) {
    holder.block(1, 0, &[], None);
    holder.block(0, 0, &[], None);
    taken_back(&mut holder.changed(|table| table.rows[0].mark = 0))
}

/// Each time the table is the one before the block came.
fn down_to_empty(mut holder: Holder) -> bool {
    let mut before = Vec::new();
    for block in chain(PLACES) {
        before.push(holder.table.clone());
        holder.admit(&block);
    }
    before.iter().rev().all(|table| taken_back(&mut holder) == (0, 0) && holder.table == *table)
        && taken_back(&mut holder) == (32, 0)
}

fn same_again(mut holder: Holder) -> bool {
    let before = holder.table.clone();
    let last = chain(3).remove(2);
    taken_back(&mut holder) == (0, 0) && holder.admit(&last) == (0, 2) && holder.table == before
}

fn refers_to_taken(mut holder: Holder) -> (u8, usize) {
    taken_back(&mut holder);
    holder.admit(&chain(3)[2])
}

/// The second of a chain is left, and a third comes and is taken back.
fn after_retiring(holder: Holder) -> bool {
    let mut holder = interpreted(interpreted(holding(holder, 2), 0), 1);
    holder.calls.retire(&mut holder.table, &mut holder.records);
    let before = holder.table.clone();
    holder.admit(&chain(3)[2]) == (0, 1)
        && taken_back(&mut holder) == (0, 0)
        && holder.table == before
        && Table::from_bytes(&before).retired == 1
}

/// A ledger of n 1 after some calls.
fn ledger(calls: fn(&mut Ledger)) -> Ledger {
    let mut ledger = Ledger::new(1, [0; SLOTS], BUFFER_NUMBERS, counts);
    calls(&mut ledger);
    ledger
}

/// Two blocks of sequence number 0 come; one that is held already is refused.
fn fork(ledger: &mut Ledger) {
    forks_and_child()[..2].iter().for_each(|block| _ = ledger.admit(block, 1));
}

/// The first of a chain of two is retired, comes again and is taken back; then another block of its number comes.
fn returned() -> Ledger {
    ledger(|ledger| {
        let blocks = chain(2);
        for (place, block) in blocks.iter().enumerate() {
            ledger.admit(block, 1);
            ledger.interpret(place);
        }
        ledger.retire();
        ledger.admit(&blocks[0], 1);
        ledger.take_back();
        ledger.admit(&requesting(&[(0, 42)]), 1);
    })
}
