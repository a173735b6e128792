//! Small retirings, worked out by hand from document 02. Site 0 owns all slots.

use super::holder::Holder;
use crate::model::calls::Calls;
use crate::model::record::part_of;
use crate::model::sizes::{BUFFER_NUMBERS, PART_NUMBERS, PLACES};
use crate::model::table::{Row, Table};

pub fn all(calls: &dyn Calls) -> Vec<(&'static str, bool)> {
    let new = |sites| Holder::new(calls, sites);
    let two = || chain(new(1), 2);
    vec![
        ("an empty table: 13", retired(&mut new(4)) == (13, 0)),
        ("a single block: 29", retired(&mut chain(new(1), 1)) == (29, 0)),
        ("a chain of two: the second is left", chain_of_two(two())),
        ("and then no more: 29", retired(&mut after(two(), 1)) == (29, 0)),
        ("the first isn't interpreted: 29", retired(&mut two().changed(|table| unmark(table, &[0, 1]))) == (29, 0)),
        ("the second isn't interpreted: 29", retired(&mut two().changed(|table| unmark(table, &[1]))) == (29, 0)),
        ("another site's open block refers to it: 29", open_reference(new(4)) == (29, 0)),
        ("another site's open block doesn't refer to it", open_beside(new(4)) == (0, 0)),
        ("later blocks of another site alone: 29", later_of_another(new(4)) == (29, 0)),
        ("a twin alone: 29", twins(new(4)) == (29, 0)),
        ("a table not in form: 2", retired(&mut two().changed(|table| table.retired = 2)) == (2, 0)),
        ("a number too few, and not in form: 2", short(two().changed(|table| table.retired = 2)) == (2, 0)),
        ("a number too few: 12", short(two()) == (12, 0)),
        ("a number too few, and no block: 12", short(new(4)) == (12, 0)),
        ("the records move, and the last part stays", records_move(chain(new(1), 4))),
        ("64 blocks: 63 are left, and another comes", one_more(chain(new(1), PLACES as u16))),
        ("a block that refers to the one that left: 9", refers_to_lost(after(two(), 1)) == (9, 0)),
        ("the one that left comes again, open", comes_again(after(two(), 1))),
        ("the delivery is that of the chain of four", delivery(calls) == [7, 0, 0, 7]),
        (
            "a missing parent of an open place: not in form",
            !in_form(after(two(), 1).changed(|table| unmark(table, &[0]))),
        ),
        ("a missing parent where nothing was retired: not in form", {
            !in_form(after(two(), 1).changed(|table| table.retired = 0))
        }),
        ("sequence 65,534: the last number comes", last_numbers(new(1), u16::MAX - 1) == (0, Some(u16::MAX))),
        ("sequence 65,535: 30", last_numbers(new(1), u16::MAX) == (30, None)),
        ("a left that has retired: 31", joined(&after(two(), 1), &two()) == (31, 0)),
        ("a right that has retired: 31", joined(&two(), &after(two(), 1)) == (31, 0)),
        ("a right that has retired, of another n: 31", joined(&new(4), &after(two(), 1)) == (31, 0)),
    ]
}

fn retired(holder: &mut Holder) -> (u8, usize) {
    let answer = holder.calls.retire(&mut holder.table, &mut holder.records);
    (answer.refusal, answer.value)
}

/// A chain of site 0, of which the first block requests 7 in slot 0.
fn chain(mut holder: Holder, blocks: u16) -> Holder {
    for sequence in 0..blocks {
        let parent: Vec<usize> = sequence.checked_sub(1).map(usize::from).into_iter().collect();
        holder.block(0, sequence, &parent, (sequence == 0).then_some(7));
    }
    holder
}

fn after(mut holder: Holder, retirings: usize) -> Holder {
    for _ in 0..retirings {
        retired(&mut holder);
    }
    holder
}

fn unmark(table: &mut Table, places: &[usize]) {
    places.iter().for_each(|&place| table.rows[place].mark = 0);
}

fn in_form(mut holder: Holder) -> bool {
    holder.calls.in_form(&mut holder.table)
}

/// It lacks its parent now, and all rows after it are zero.
fn chain_of_two(mut holder: Holder) -> bool {
    let before = Table::from_bytes(&holder.table);
    let answer = retired(&mut holder);
    let left = Table::from_bytes(&holder.table);
    let second = Row { references: 0, ..before.rows[1] };
    let rest = left.rows[1..].iter().all(|row| *row == Row::default());
    answer == (0, 0) && (left.retired, left.count) == (1, 1) && left.rows[0] == second && rest && in_form(holder)
}

/// A chain of two, and a block of site 1 that refers to its first and isn't interpreted.
fn open_reference(holder: Holder) -> (u8, usize) {
    let mut holder = chain(holder, 2);
    holder.block(1, 0, &[0], None);
    retired(&mut holder.changed(|table| unmark(table, &[2])))
}

fn open_beside(holder: Holder) -> (u8, usize) {
    let mut holder = chain(holder, 2);
    holder.block(1, 0, &[1], None);
    retired(&mut holder.changed(|table| unmark(table, &[2])))
}

fn later_of_another(mut holder: Holder) -> (u8, usize) {
    holder.block(0, 0, &[], None);
    let first = holder.block(1, 0, &[0], None);
    holder.block(1, 1, &[first], None);
    retired(&mut holder)
}

fn twins(mut holder: Holder) -> (u8, usize) {
    holder.block(2, 0, &[], Some(1));
    holder.block(2, 0, &[], Some(2));
    retired(&mut holder)
}

fn short(mut holder: Holder) -> (u8, usize) {
    holder.records.truncate(BUFFER_NUMBERS - 1);
    retired(&mut holder)
}

fn records_move(mut holder: Holder) -> bool {
    let before = holder.records.clone();
    let answer = retired(&mut holder);
    let moved = 3 * PART_NUMBERS;
    answer == (0, 0)
        && holder.records[..moved] == before[PART_NUMBERS..PART_NUMBERS + moved]
        && holder.records[moved..] == before[moved..]
}

fn one_more(mut holder: Holder) -> bool {
    let answer = retired(&mut holder);
    holder.blocks.remove(0);
    let left = Table::from_bytes(&holder.table).count;
    let place = holder.block(0, PLACES as u16, &[left - 1], None);
    let table = Table::from_bytes(&holder.table);
    answer == (0, 0)
        && (left, place) == (PLACES - 1, PLACES - 1)
        && (table.count, table.rows[place].mark) == (PLACES, 1)
}

/// The second of the chain again as a block of site 0 that refers to the first.
fn refers_to_lost(mut holder: Holder) -> (u8, usize) {
    let mut twin = holder.blocks[1].clone();
    twin[4] = 1;
    twin.extend([1, 0, 1]);
    holder.admit(&twin)
}

/// At the next place, unmarked; the block that names it doesn't refer to it again.
fn comes_again(mut holder: Holder) -> bool {
    let first = holder.blocks[0].clone();
    let answer = holder.admit(&first);
    let table = Table::from_bytes(&holder.table);
    answer == (0, 1) && (table.rows[1].mark, table.rows[0].references) == (0, 0) && in_form(holder)
}

/// Document 01's chain of four, where each block is retired as soon as it can be: what the last one has sent and delivered.
fn delivery(calls: &dyn Calls) -> [u16; 4] {
    let whole = chain(Holder::new(calls, 1), 4);
    let mut holder = Holder::new(calls, 1);
    for block in &whole.blocks {
        let (_, place) = holder.admit(block);
        holder.interpret(place);
        retired(&mut holder);
    }
    let made = part_of(0).expect("a place").start + 36;
    [holder.records[3], holder.records[made], holder.records[made + 1], holder.records[made + 3]]
}

/// A site at a sequence number, which builds: the refusal, and the number that it gets.
fn last_numbers(holder: Holder, sequence: u16) -> (u8, Option<u16>) {
    let holder = after(chain(holder, 2), 1);
    let mut table = Table::from_bytes(&holder.table);
    table.rows[0].sequence = sequence;
    let mut output = [0; 64];
    let answer = holder.calls.build(&mut table.to_bytes(), 0, &mut [], &mut output);
    (answer.refusal, (answer.refusal == 0).then(|| u16::from_be_bytes([output[1], output[2]])))
}

fn joined(left: &Holder, right: &Holder) -> (u8, usize) {
    let [mut one, mut other] = [left, right].map(|holder| holder.table.clone());
    let [mut left_records, mut right_records] = [left, right].map(|holder| holder.records.clone());
    let mut third = vec![0; BUFFER_NUMBERS];
    let answer = left.calls.join(&mut one, &mut other, &mut left_records, &mut right_records, &mut third);
    (answer.refusal, answer.value)
}
