//! Document 01, "Building", with the repeated slot and the last sequence number of document 02: a site's next block. The
//! table is only read.

use crate::model::block::{self, list_of, repeated_slot_in, Request};
use crate::model::checks::Check;
use crate::model::sha256::Digest;
use crate::model::sizes::{MAX_REFERENCES, MAX_REQUEST_LIST_BYTES, REQUEST_BYTES};
use crate::model::table::{places, Row, Table};

/// What building is given, with the answer of form and the block that the rules give.
pub struct BuildingInput {
    pub table: Table,
    pub in_form: bool,
    pub site: u8,
    pub requests: Vec<u8>,
    pub block: Vec<u8>,
    /// How many bytes the output has.
    pub room: usize,
}

/// The rules. Each is a value, so that the self-test can change one.
pub struct Building {
    pub checks: Vec<Check<BuildingInput>>,
    /// The place of a site's greatest block; none if the site has no held block.
    pub greatest: fn(&Table, u8) -> Option<usize>,
    /// The next sequence number after the greatest block's.
    pub sequence: fn(Option<u16>) -> u16,
    /// The set of the places that a site has referred to.
    pub referred: fn(&Table, u8) -> u64,
    /// The places of other sites' blocks that a site can still refer to, by those that it has referred to.
    pub others: fn(&Table, u8, u64) -> Vec<usize>,
    /// The places that the block refers to in their order: of the greatest block, of the others, and how many at most.
    pub references: fn(Option<usize>, Vec<usize>, usize) -> Vec<usize>,
    pub most_references: usize,
    pub requests: fn(&[u8]) -> Vec<Request>,
    /// Writes the block to the front of the output, which has room for it.
    pub write: fn(&mut [u8], &[u8]),
}

/// "Checks 2, 4, 3, 6, 16, 17", with 18 "straight after 6" and 30 "straight after 16".
pub const CHECKS: [Check<BuildingInput>; 8] = [
    Check { number: 2, finds: |input| (!input.in_form).then_some(0) },
    Check { number: 4, finds: |input| (input.site >= input.table.sites).then_some(0) },
    Check { number: 3, finds: |input| long_or_cut(&input.requests).then_some(0) },
    Check { number: 6, finds: |input| list_of(&input.requests).iter().position(Request::bad) },
    Check { number: 18, finds: |input| repeated_slot_in(&list_of(&input.requests)) },
    Check { number: 16, finds: |input| shared_sequence(&input.table, input.site).then_some(0) },
    Check { number: 30, finds: |input| past_last_sequence(&input.table, input.site).then_some(0) },
    Check { number: 17, finds: |input| (input.room < input.block.len()).then_some(input.block.len()) },
];

/// A request list over its limit "or no multiple of 3".
pub fn long_or_cut(requests: &[u8]) -> bool {
    requests.len() > MAX_REQUEST_LIST_BYTES || cut(requests)
}

pub fn cut(requests: &[u8]) -> bool {
    !requests.chunks_exact(REQUEST_BYTES).remainder().is_empty()
}

/// "two held blocks of the site share a sequence number": any two, not only the greatest.
pub fn shared_sequence(table: &Table, site: u8) -> bool {
    let mut numbers: Vec<u16> = own_rows(table, site).map(|row| row.sequence).collect();
    let all = numbers.len();
    numbers.sort_unstable();
    numbers.dedup();
    numbers.len() < all
}

/// "building past sequence 65,535"
pub fn past_last_sequence(table: &Table, site: u8) -> bool {
    own_rows(table, site).any(|row| row.sequence == u16::MAX)
}

impl Building {
    pub fn document() -> Building {
        Building {
            checks: CHECKS.to_vec(),
            greatest,
            sequence,
            referred,
            others,
            references,
            most_references: MAX_REFERENCES,
            requests: list_of,
            write: |output, block| output[..block.len()].copy_from_slice(block),
        }
    }

    /// The block of a site that it builds next, for any table.
    pub fn block(&self, table: &Table, site: u8, requests: &[u8]) -> Vec<u8> {
        let greatest = (self.greatest)(table, site);
        let others = (self.others)(table, site, (self.referred)(table, site));
        let references = (self.references)(greatest, others, self.most_references);
        let sequence = (self.sequence)(greatest.map(|place| table.rows[place].sequence));
        let references: Vec<Digest> = references.into_iter().map(|place| table.rows[place].digest).collect();
        block::to_bytes(site, sequence, &references, &(self.requests)(requests))
    }
}

pub fn own_rows(table: &Table, site: u8) -> impl Iterator<Item = &Row> {
    table.own(site).map(|place| &table.rows[place])
}

/// "its greatest block": the one of the greatest sequence number.
pub fn greatest(table: &Table, site: u8) -> Option<usize> {
    table.own(site).max_by_key(|&place| table.rows[place].sequence)
}

/// "sequence 0 if the site has no held block, else one more than its greatest". After 65,535 there is none, and check 30
/// refuses.
pub fn sequence(greatest: Option<u16>) -> u16 {
    greatest.map_or(0, |sequence| sequence.wrapping_add(1))
}

/// The places that some "held block of this site refers to directly".
pub fn referred(table: &Table, site: u8) -> u64 {
    own_rows(table, site).fold(0, |set, row| set | row.references)
}

/// "in place order every block of another site" that isn't referred to yet.
pub fn others(table: &Table, site: u8, referred: u64) -> Vec<usize> {
    places(!referred).filter(|&place| place < table.count && table.rows[place].site != site).collect()
}

/// "its greatest block first, then" the others, "up to 16 in all".
pub fn references(greatest: Option<usize>, others: Vec<usize>, most: usize) -> Vec<usize> {
    greatest.into_iter().chain(others).take(most).collect()
}
