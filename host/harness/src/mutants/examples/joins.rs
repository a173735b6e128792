//! Small joins, worked out by hand from document 02. Site 0 owns all slots.

use super::holder::Holder;
use crate::model::calls::Calls;
use crate::model::record::part_of;
use crate::model::sizes::{BUFFER_NUMBERS, PLACES, SLOTS};
use crate::model::table::{Row, Table};

pub fn all(calls: &dyn Calls) -> Vec<(&'static str, bool)> {
    let new = |sites| Holder::new(calls, sites);
    vec![
        ("two empty sides: none held", joined(&new(4), &new(4)).0 == (0, 0)),
        ("an empty left, 13 blocks: the right's table and records", same_as_right(new(4), calls)),
        ("five blocks, 13 blocks: the right's table and records", same_as_right(first_of_thirteen(calls, 5), calls)),
        ("13 blocks, five blocks: the left's table and records", nothing_new(calls)),
        ("a reference moves to where its block stands", reference_moves(new(4), new(4))),
        ("interpreted at the right alone: its part", interpreted_at_right(new(1), new(1))),
        ("interpreted at neither: the third buffer's part stays", interpreted_at_neither(new(1), new(1))),
        ("interpreted at both: the left's part", interpreted_at_both(new(1), new(1))),
        ("32 and 32 other blocks: 64", joined(&row_of(new(4), 0, 32), &row_of(new(4), 1, 32)).0 == (0, 64)),
        ("32 and 33 other blocks: 25", joined(&row_of(new(4), 0, 32), &row_of(new(4), 1, 33)).0 == (25, 0)),
        ("64 blocks and the same: 64", joined(&row_of(new(4), 0, 64), &row_of(new(4), 0, 64)).0 == (0, 64)),
        ("n 4 and 7: 23", joined(&new(4), &new(7)).0 == (23, 0)),
        ("another owner of slot 7: 23", joined(&changed(new(4), |table| table.owners[7] = 3), &new(4)).0 == (23, 0)),
        ("other requests at places 1 and 2: 24 with 1", other_requests(new(4), new(4)) == (24, 1)),
        ("not in form before another length: 2", lengths(new(4), |table| table.count = 65, 1) == (2, 0)),
        ("another length before another setup: 12", lengths(new(4), |table| table.owners[0] = 1, 1) == (12, 0)),
        ("the right length and another setup: 23", lengths(new(4), |table| table.owners[0] = 1, 0) == (23, 0)),
    ]
}

/// What the third buffer has before.
const UNTOUCHED: u16 = 77;

/// The answer, the left's table and the third buffer.
fn joined(left: &Holder, right: &Holder) -> ((u8, usize), Table, Vec<u16>) {
    let mut table = left.table.clone();
    let mut third = vec![UNTOUCHED; BUFFER_NUMBERS];
    let [mut left_records, mut right_records] = [left, right].map(|holder| holder.records.clone());
    let mut right_table = right.table.clone();
    let answer = left.calls.join(&mut table, &mut right_table, &mut left_records, &mut right_records, &mut third);
    ((answer.refusal, answer.value), Table::from_bytes(&table), third)
}

/// The first so many of the thirteen blocks.
fn first_of_thirteen(calls: &dyn Calls, count: usize) -> Holder<'_> {
    let thirteen = Holder::with_thirteen_blocks(calls);
    let mut few = Holder::new(calls, 4);
    for (place, block) in thirteen.blocks[..count].iter().enumerate() {
        calls.admit(&mut few.table, &mut block.clone(), 1);
        few.interpret(place);
    }
    few
}

/// The parts of thirteen places, and nothing else.
fn thirteen_parts(thirteen: &Holder, third: &[u16]) -> bool {
    let end = part_of(12).expect("a place").end;
    third[..end] == thirteen.records[..end] && third[end..].iter().all(|&number| number == UNTOUCHED)
}

fn same_as_right(left: Holder, calls: &dyn Calls) -> bool {
    let right = Holder::with_thirteen_blocks(calls);
    let (answer, table, third) = joined(&left, &right);
    answer == (0, 13) && table.to_bytes() == right.table && thirteen_parts(&right, &third)
}

fn nothing_new(calls: &dyn Calls) -> bool {
    let left = Holder::with_thirteen_blocks(calls);
    let (answer, table, third) = joined(&left, &first_of_thirteen(calls, 5));
    answer == (0, 13) && table.to_bytes() == left.table && thirteen_parts(&left, &third)
}

/// The left holds a block of site 1, the right two of site 0, the second on top of the first.
fn reference_moves(mut left: Holder, mut right: Holder) -> bool {
    left.block(1, 0, &[], None);
    let first = right.block(0, 0, &[], None);
    right.block(0, 1, &[first], Some(7));
    let (answer, table, _) = joined(&left, &right);
    let [one, two] = [0, 1].map(|place| Table::from_bytes(&right.table).rows[place]);
    answer == (0, 3) && table.rows[1] == one && table.rows[2] == Row { references: 0b10, ..two }
}

/// The holder with one block, which isn't interpreted.
fn with_open_block(mut holder: Holder) -> Holder {
    holder.block(0, 0, &[], Some(7));
    changed(holder, |table| table.rows[0].mark = 0)
}

fn interpreted_at_right(left: Holder, mut right: Holder) -> bool {
    right.block(0, 0, &[], Some(7));
    let left = with_open_block(left);
    let (answer, table, third) = joined(&Holder { records: vec![5; BUFFER_NUMBERS], ..left }, &right);
    // The SEND of 7 in slot 0.
    answer == (0, 1) && table.to_bytes() == right.table && third[0] == 7 && third[1..4] == [0, 0, 0]
}

fn interpreted_at_neither(left: Holder, right: Holder) -> bool {
    let (left, right) = (with_open_block(left), with_open_block(right));
    let (answer, table, third) = joined(&left, &right);
    answer == (0, 1) && table.to_bytes() == left.table && third == vec![UNTOUCHED; BUFFER_NUMBERS]
}

/// With numbers in the buffers that no calls reach.
fn interpreted_at_both(mut left: Holder, mut right: Holder) -> bool {
    left.block(0, 0, &[], Some(7));
    right.block(0, 0, &[], Some(7));
    let of = |holder, number| Holder { records: vec![number; BUFFER_NUMBERS], ..holder };
    let (answer, _, third) = joined(&of(left, 5), &of(right, 6));
    let part = part_of(0).expect("a place");
    answer == (0, 1) && third[..part.end].iter().all(|&number| number == 5) && third[part.end] == UNTOUCHED
}

/// With so many blocks of a site, all of sequence number 0.
fn row_of(mut holder: Holder, site: u8, count: usize) -> Holder {
    for number in 1..=count.min(PLACES) as u16 {
        holder.block(site, 0, &[], Some(number));
    }
    holder
}

fn changed<'a>(holder: Holder<'a>, change: fn(&mut Table)) -> Holder<'a> {
    let mut table = Table::from_bytes(&holder.table);
    change(&mut table);
    Holder { table: table.to_bytes(), ..holder }
}

/// Three blocks of site 0 at both sides, of which the last two have another request at the right.
fn other_requests(left: Holder, right: Holder) -> (u8, usize) {
    let right = changed(row_of(right, 0, 3), |table| {
        table.rows[1].requests[SLOTS - 1] = 1;
        table.rows[2].requests[0] = 0;
    });
    joined(&row_of(left, 0, 3), &right).0
}

/// Two empty sides: something is wrong with the right's table, and its records have so many numbers too few.
fn lengths(holder: Holder, change: fn(&mut Table), few: usize) -> (u8, usize) {
    let left = Holder::new(holder.calls, 4);
    let mut right = changed(holder, change);
    right.records.truncate(BUFFER_NUMBERS - few);
    joined(&left, &right).0
}
