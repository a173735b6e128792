//! Document 01, "The table" and "What is turned down": the checks of admission, and what it puts into the table.

use crate::model::block;
use crate::model::checks::Check;
use crate::model::sha256::Digest;
use crate::model::sizes::PLACES;
use crate::model::table::{Row, Table};

/// What admission is given, with the answer of form and the block's digest.
pub struct AdmissionInput {
    pub table: Table,
    pub in_form: bool,
    pub block: Vec<u8>,
    pub digest: Digest,
    pub verdict: u8,
}

/// "Admission takes a table, block bytes and a link verdict, checks 2 to 11 in that order", and 18 "straight after 6".
pub const CHECKS: [Check<AdmissionInput>; 11] = [
    Check { number: 2, finds: |input| (!input.in_form).then_some(0) },
    Check { number: 3, finds: |input| block::misshapen(&input.block) },
    Check { number: 4, finds: site_unknown },
    Check { number: 5, finds: |input| (input.verdict != 1).then_some(0) },
    Check { number: 6, finds: |input| block::bad_request(&input.block) },
    Check { number: 18, finds: |input| block::repeated_slot(&input.block) },
    Check { number: 7, finds: |input| block::repeated_reference(&input.block) },
    Check { number: 8, finds: digest_held },
    Check { number: 9, finds: reference_not_held },
    Check { number: 10, finds: parent_rule_broken },
    Check { number: 11, finds: |input| (input.table.count >= PLACES).then_some(0) },
];

/// "site not below n"
fn site_unknown(input: &AdmissionInput) -> Option<usize> {
    (block::site(&input.block) >= input.table.sites).then_some(0)
}

/// "digest held", with its place.
fn digest_held(input: &AdmissionInput) -> Option<usize> {
    input.table.place_of(&input.digest)
}

/// "reference not held", with the index of the first such.
fn reference_not_held(input: &AdmissionInput) -> Option<usize> {
    let references = block::references(&input.block);
    references.iter().position(|reference| input.table.place_of(reference).is_none())
}

fn parent_rule_broken(input: &AdmissionInput) -> Option<usize> {
    let Row { site, sequence, references, .. } = row(input);
    (!input.table.parent_rule(site, sequence, references)).then_some(0)
}

/// The set of the places that the block refers to.
fn places_referred_to(input: &AdmissionInput) -> u64 {
    let references = block::references(&input.block);
    let places = references.iter().filter_map(|reference| input.table.place_of(reference));
    places.fold(0, |set, place| set | 1 << place)
}

/// What the table holds of an admitted block, "uninterpreted".
pub fn row(input: &AdmissionInput) -> Row {
    Row {
        digest: input.digest,
        site: block::site(&input.block),
        sequence: block::sequence(&input.block),
        references: places_referred_to(input),
        requests: block::counted_requests(&input.block),
        mark: 0,
    }
}

/// "puts the block at the next place"
pub fn put(table: &mut Table, row: Row) {
    // Only a model without check 11 comes here with a full table.
    if let Some(next) = table.rows.get_mut(table.count) {
        *next = row;
    }
    table.count += 1;
}
