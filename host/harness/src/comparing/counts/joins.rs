//! What joins have met.

use std::fmt::{self, Display, Formatter};

use super::Times;
use crate::comparing::facts::join::JoinFacts;
use crate::comparing::facts::two_sites::TwoSites;
use crate::model::joining::{
    at_left, at_right, blocks, clashes, in_both, others, referred, rows, Block, JoinInput, SharedBlock,
};
use crate::model::record::{part_at, Act};
use crate::model::sizes::{BUFFER_NUMBERS, PLACES, SLOTS, TABLE_BYTES};
use crate::model::table::{Row, Table};

#[derive(Default)]
pub struct Joins {
    sides: Times<9>,
    results: Times<4>,
    blocks: Times<6>,
    setups: Times<2>,
    clashes: Times<8>,
    lengths: Times<10>,
    gone_on: Times<2>,
}

const SIDES: [&str; 9] = [
    "joins of overlapping sides",
    "joins of a right inside the left",
    "joins of a left inside the right",
    "joins of equal sides",
    "joins of sides with nothing in common",
    "joins of an empty left",
    "joins of an empty right",
    "joins of two empty sides",
    "joins of two full sides",
];
const RESULTS: [&str; 4] =
    ["joins to 63 blocks", "joins to 64 blocks", "25 for 65 blocks", "25 for 66 blocks or more, two sides not full"];
const BLOCKS: [&str; 6] = [
    "joins with a block interpreted at the left alone",
    "joins with a block interpreted at the right alone",
    "joins with a block interpreted at both sides",
    "joins with a block interpreted at neither side",
    "joins with a new block whose references move",
    "joins with other parts at the two sides",
];
const SETUPS: [&str; 2] = ["23 for n alone", "23 for one owner alone"];
const CLASHES: [&str; 8] = [
    "24 for the site alone",
    "24 for the sequence number alone",
    "24 for one request alone",
    "24 for a reference more at the left",
    "24 for a reference more at the right",
    "24 for as many other references",
    "24 for several blocks",
    "24 where the result would be too great",
];
const LENGTHS: [&str; 10] = [
    "2 for a left short by one",
    "2 for a left long by one",
    "2 for a right short by one",
    "2 for a right long by one",
    "12 for left records short by one",
    "12 for left records long by one",
    "12 for right records short by one",
    "12 for right records long by one",
    "12 for a third buffer short by one",
    "12 for a third buffer long by one",
];
const GONE_ON: [&str; 2] = ["joined sites that went on", "joined sites that went on and delivered"];

impl Joins {
    pub fn join(&mut self, facts: &JoinFacts) {
        let numbers = [&facts.left.records, &facts.right.records, &facts.third].map(Vec::len);
        let [left, right] = [&facts.left.table, &facts.right.table].map(|bytes| Table::from_bytes(bytes));
        let input = JoinInput { left, right, left_in_form: true, right_in_form: true, numbers };
        match facts.answer.refusal {
            0 => {
                self.sides.note(sides(&input));
                self.blocks.note(marks_and_parts(&input, facts));
                self.result(blocks(&input).len(), &input);
            }
            2 | 12 => self.lengths.note(lengths(&input)),
            23 => self.setups.note(setups(&input)),
            24 => self.clashes.note(clashing(&input)),
            _ => self.result(blocks(&input).len(), &input),
        }
    }

    fn result(&mut self, count: usize, input: &JoinInput) {
        let not_full = input.left.count < PLACES && input.right.count < PLACES;
        self.results.note([count == PLACES - 1, count == PLACES, count == PLACES + 1, count > PLACES + 1 && not_full]);
    }

    /// A joined site, and one that got all blocks.
    pub fn site_after_join(&mut self, two_sites: &TwoSites) {
        let delivered = (0..SLOTS).any(|slot| !two_sites.sites[0].numbers(slot, Act::Deliver).is_empty());
        self.gone_on.note([true, delivered]);
    }
}

fn sides(input: &JoinInput) -> [bool; 9] {
    let [left, right, both] = [input.left.count, input.right.count, in_both(input).count()];
    [
        both > 0 && both < left && both < right,
        both > 0 && both < left && both == right,
        both > 0 && both == left && both < right,
        both > 0 && both == left && both == right,
        both == 0 && left > 0 && right > 0,
        left == 0 && right > 0,
        left > 0 && right == 0,
        left == 0 && right == 0,
        left == PLACES && right == PLACES,
    ]
}

fn marks_and_parts(input: &JoinInput, facts: &JoinFacts) -> [bool; 6] {
    let marks = |block: &Block| (at_left(input, *block).is_some(), at_right(input, *block).is_some());
    let blocks = blocks(input);
    let some = |wanted: (bool, bool)| blocks.iter().any(|block| marks(block) == wanted);
    let after = Table::from_bytes(&facts.after.table);
    let moves = |(block, row): (&Block, &Row)| match block {
        Block { left: None, right: Some(place) } => input.right.rows[*place].references != row.references,
        _ => false,
    };
    let other_parts = |block: &Block| match block {
        Block { left: Some(left), right: Some(right) } if marks(block) == (true, true) => {
            part_at(&facts.left.records, *left) != part_at(&facts.right.records, *right)
        }
        _ => false,
    };
    [
        some((true, false)),
        some((false, true)),
        some((true, true)),
        some((false, false)),
        blocks.iter().zip(after.held()).any(moves),
        blocks.iter().any(other_parts),
    ]
}

fn setups(input: &JoinInput) -> [bool; 2] {
    let owners = (0..SLOTS).filter(|&slot| input.left.owners[slot] != input.right.owners[slot]).count();
    let sites = input.left.sites != input.right.sites;
    [sites && owners == 0, !sites && owners == 1]
}

fn clashing(input: &JoinInput) -> [bool; 8] {
    let all: Vec<SharedBlock> = in_both(input).filter(|&both| others(input, both)).collect();
    let too_great = blocks(input).len() > PLACES;
    let [both] = all[..] else { return [false, false, false, false, false, false, true, too_great] };
    let [left, right] = rows(input, both);
    let [site, sequence] = [left.site != right.site, left.sequence != right.sequence];
    let requests = (0..SLOTS).filter(|&slot| left.requests[slot] != right.requests[slot]).count();
    let [more, fewer] = [referred(&input.left, left), referred(&input.right, right)];
    let references = more != fewer;
    let references_alone = references && !site && !sequence && requests == 0;
    [
        site && !sequence && requests == 0 && !references,
        sequence && !site && requests == 0 && !references,
        requests == 1 && !site && !sequence && !references,
        references_alone && fewer.iter().all(|digest| more.contains(digest)),
        references_alone && more.iter().all(|digest| fewer.contains(digest)),
        references_alone && more.len() == fewer.len(),
        clashes(input, others).count() > 1,
        too_great,
    ]
}

/// Of the five lengths, the only one that is wrong.
fn lengths(input: &JoinInput) -> [bool; 10] {
    let [left, right, third] = input.numbers;
    let rights = [TABLE_BYTES, TABLE_BYTES, BUFFER_NUMBERS, BUFFER_NUMBERS, BUFFER_NUMBERS];
    let found = [input.left.length, input.right.length, left, right, third];
    let wrong = (0..rights.len()).filter(|&at| found[at] != rights[at]).count();
    let off = |at: usize| {
        let (at, longer) = (at / 2, at % 2 == 1);
        wrong == 1 && if longer { found[at] == rights[at] + 1 } else { found[at] + 1 == rights[at] }
    };
    std::array::from_fn(off)
}

impl Display for Joins {
    fn fmt(&self, to: &mut Formatter) -> fmt::Result {
        self.sides.write(to, SIDES)?;
        self.results.write(to, RESULTS)?;
        self.blocks.write(to, BLOCKS)?;
        self.setups.write(to, SETUPS)?;
        self.clashes.write(to, CLASHES)?;
        self.lengths.write(to, LENGTHS)?;
        self.gone_on.write(to, GONE_ON)
    }
}
