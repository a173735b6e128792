//! What must hold of a join, by what was there before and after it. Blocks go by their digests.

use super::Law;
use crate::comparing::buffers::Buffers;
use crate::comparing::facts::join::JoinFacts;
use crate::model::joining::referred;
use crate::model::record::part_of;
use crate::model::sha256::Digest;
use crate::model::table::{Row, Table};

pub const IN_FORM: &str = "law: a joined table is in form";
pub const STAYS_FIRST: &str = "law: the left's blocks keep their places, then come the right's others in their order";
pub const SAME_BLOCKS: &str = "law: a joined table holds the blocks of both sides as they were, and no others";
pub const MARKED: &str = "law: a block is interpreted in the result exactly where either side has interpreted it";
pub const PARTS: &str = "law: an interpreted block has its part of the left, else of the right, and all else stays";
pub const AGAIN: &str = "law: the same right joined once more changes nothing";

pub const LAWS: [Law<JoinFacts>; 5] = [
    Law { name: IN_FORM, broken: |facts| (facts.answer.refusal == 0 && !facts.in_form).then(|| answer_text(facts)) },
    Law { name: STAYS_FIRST, broken: |facts| Tables::of(facts).and_then(|tables| out_of_order(&tables)) },
    Law { name: SAME_BLOCKS, broken: |facts| Tables::of(facts).and_then(|tables| other_blocks(facts, &tables)) },
    Law { name: MARKED, broken: |facts| Tables::of(facts).and_then(|tables| wrong_mark(&tables)) },
    Law { name: PARTS, broken: |facts| Tables::of(facts).and_then(|tables| wrong_part(facts, &tables)) },
];

/// The law of a second join stands alone, since rules that break it mostly break one of the other laws of joins too.
pub const LAW_OF_AGAIN: [Law<JoinFacts>; 1] = [Law { name: AGAIN, broken: changed_again }];

fn answer_text(facts: &JoinFacts) -> String {
    format!("{:?}", facts.answer)
}

/// The two tables, and the one that they came to.
struct Tables {
    left: Table,
    right: Table,
    after: Table,
}

impl Tables {
    /// The tables of a join that was answered 0.
    fn of(facts: &JoinFacts) -> Option<Tables> {
        let table = |buffers: &Buffers| Table::from_bytes(&buffers.table);
        let JoinFacts { left, right, after, .. } = facts;
        (facts.answer.refusal == 0).then(|| Tables { left: table(left), right: table(right), after: table(after) })
    }
}

fn digests(table: &Table) -> Vec<Digest> {
    table.held().iter().map(|row| row.digest).collect()
}

fn out_of_order(tables: &Tables) -> Option<String> {
    let mut expected = digests(&tables.left);
    expected.extend(digests(&tables.right).iter().filter(|digest| tables.left.place_of(digest).is_none()));
    let found = digests(&tables.after);
    let place = (0..found.len().max(expected.len())).find(|&place| found.get(place) != expected.get(place))?;
    Some(format!("place {place} of {}", found.len()))
}

/// Each block of a side is held with the same fields, and each held block is one of a side.
fn other_blocks(facts: &JoinFacts, tables: &Tables) -> Option<String> {
    let Tables { left, right, after } = tables;
    let kept = |side: &Table, row: &Row| {
        let place = after.place_of(&row.digest);
        place.is_some_and(|place| fields(after, &after.rows[place]) == fields(side, row))
    };
    let lost = [left, right].iter().any(|side| side.held().iter().any(|row| !kept(side, row)));
    let invented = after.held().iter().any(|row| [left, right].iter().all(|side| side.place_of(&row.digest).is_none()));
    let told = facts.answer.value == after.count;
    (lost || invented || !told).then(|| format!("{}, {} held", answer_text(facts), after.count))
}

/// All that is held of a block but its mark, without places.
fn fields<'a>(table: &Table, row: &'a Row) -> (u8, u16, &'a [u16], Vec<Digest>) {
    (row.site, row.sequence, &row.requests, referred(table, row))
}

/// The place at which a side has interpreted a block.
fn interpreted(side: &Table, row: &Row) -> Option<usize> {
    side.place_of(&row.digest).filter(|&place| side.rows[place].mark == 1)
}

fn wrong_mark(tables: &Tables) -> Option<String> {
    let Tables { left, right, after } = tables;
    let marked = |row: &Row| interpreted(left, row).or(interpreted(right, row)).is_some();
    let place = after.held().iter().position(|row| (row.mark == 1) != marked(row))?;
    Some(format!("place {place}"))
}

fn wrong_part(facts: &JoinFacts, tables: &Tables) -> Option<String> {
    let mut expected = facts.third.clone();
    for (place, row) in tables.after.held().iter().enumerate() {
        let left = interpreted(&tables.left, row).map(|at| (&facts.left.records, at));
        let right = interpreted(&tables.right, row).map(|at| (&facts.right.records, at));
        if let Some((records, at)) = left.or(right) {
            let [to, from] = [place, at].map(|place| part_of(place).expect("a place of a table"));
            expected[to].copy_from_slice(&records[from]);
        }
    }
    let number = (0..expected.len()).find(|&number| facts.after.records[number] != expected[number])?;
    Some(format!("number {number}"))
}

fn changed_again(facts: &JoinFacts) -> Option<String> {
    let (answer, after) = facts.second.as_ref()?;
    let stays = after.table == facts.after.table && after.records == facts.after.records;
    (*answer != facts.answer || !stays).then(|| format!("{}, then {answer:?}", answer_text(facts)))
}
