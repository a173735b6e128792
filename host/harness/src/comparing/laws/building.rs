//! What must hold of a block that was built, by what it says and not by how it was made.

use super::Law;
use crate::comparing::buffers::NextBlock;
use crate::drawing::tables_with_forks::places_left;
use crate::model::answer::Answer;
use crate::model::block;
use crate::model::sha256::sha256;
use crate::model::sizes::{MAX_REFERENCES, PLACES, REQUEST_BYTES};
use crate::model::table::Table;

/// A block, the output that it was built into, and what admission answered to it on that table.
pub struct BuiltBlock<'a> {
    pub next: &'a NextBlock<'a>,
    pub block: &'a [u8],
    pub before: &'a [u8],
    pub after: &'a [u8],
    pub admission: Answer,
}

pub const READS_BACK: &str = "law: a built block reads back to its site, its next number and the requests";
pub const REFERS: &str = "law: a built block refers to the one before, then in place order to what is left";
pub const REST_STAYS: &str = "law: the block stands in front, and the output's bytes after it stay";
pub const LET_IN: &str = "law: a built block is refused only by 11 where 64 are held, or by 8 where its digest is";

pub fn laws<'a>() -> [Law<BuiltBlock<'a>>; 4] {
    [
        Law { name: LET_IN, broken: refused },
        Law { name: READS_BACK, broken: other_fields },
        Law { name: REFERS, broken: other_references },
        Law { name: REST_STAYS, broken: rest_changed },
    ]
}

/// Where nothing was retired, a site that didn't fork has as many blocks as sequence numbers, so their count is the next one.
fn next_sequence(table: &Table, site: u8) -> usize {
    if table.retired == 0 {
        return table.own(site).count();
    }
    table.own(site).map(|place| usize::from(table.rows[place].sequence) + 1).max().unwrap_or(0)
}

fn other_fields(built: &BuiltBlock) -> Option<String> {
    let NextBlock { table, site, requests } = *built.next;
    let fields = block::fields(built.block);
    let table = Table::from_bytes(table);
    let next = next_sequence(&table, site);
    let same = block::misshapen(built.block).is_none()
        && fields.site == site
        && usize::from(fields.sequence) == next
        && fields.requests == requests.len() / REQUEST_BYTES
        && built.block.ends_with(requests);
    (!same).then(|| format!("{fields:?}, next is {next}"))
}

fn other_references(built: &BuiltBlock) -> Option<String> {
    let table = Table::from_bytes(built.next.table);
    let site = built.next.site;
    let digests = block::references(built.block);
    let found: Option<Vec<usize>> = digests.iter().map(|digest| table.place_of(digest)).collect();
    let Some(found) = found else { return Some("a reference isn't held".to_string()) };
    // The site's block of the sequence number before.
    let before = |place: &usize| usize::from(table.rows[*place].sequence) + 1 == next_sequence(&table, site);
    let wanted = table.own(site).filter(before).chain(places_left(&table, site));
    let wanted: Vec<usize> = wanted.take(MAX_REFERENCES).collect();
    (found != wanted).then(|| format!("places {found:?}, in place of {wanted:?}"))
}

fn rest_changed(built: &BuiltBlock) -> Option<String> {
    let BuiltBlock { block, before, after, .. } = built;
    let stays =
        after.len() == before.len() && after.starts_with(block) && after[block.len()..] == before[block.len()..];
    (!stays).then(|| format!("{} bytes after the block", after.len() - block.len()))
}

fn refused(built: &BuiltBlock) -> Option<String> {
    let table = Table::from_bytes(built.next.table);
    let held = table.place_of(&sha256(built.block));
    let lawful = match (held, built.admission.refusal) {
        (Some(place), 8) => built.admission.value == place,
        (None, 11) => table.count == PLACES,
        (None, 0) => table.count < PLACES && built.admission.value == table.count,
        _ => false,
    };
    (!lawful).then(|| format!("{:?} with {} held", built.admission, table.count))
}
