//! What must hold of a site after each call, by its ledger of every block ever admitted.

use super::Law;
use crate::comparing::buffers::Buffers;
use crate::model::answer::Answer;
use crate::model::ledger::Ledger;
use crate::model::record::part_at;

/// A site after a call: the buffers that the call left and its answer, and the ledger with its own answer.
pub struct SiteAfterCall<'a> {
    pub ledger: &'a Ledger,
    pub buffers: &'a Buffers,
    pub answer: Answer,
    pub ledger_answer: Answer,
}

pub const SAME_ANSWER: &str = "law: a call is answered by the ledger's own places and marks";
pub const SAME_TABLE: &str = "law: a table has what stands at the ledger's places, and whether something was retired";
pub const WHOLE_HISTORY: &str = "law: at every marked place the part is what the whole history gives";

pub fn laws<'a>() -> [Law<SiteAfterCall<'a>>; 3] {
    [
        Law { name: WHOLE_HISTORY, broken: other_part },
        Law { name: SAME_TABLE, broken: other_table },
        Law { name: SAME_ANSWER, broken: other_answer },
    ]
}

fn other_answer(site: &SiteAfterCall) -> Option<String> {
    let SiteAfterCall { answer, ledger_answer, .. } = site;
    (answer != ledger_answer).then(|| format!("{answer:?}, by the ledger {ledger_answer:?}"))
}

fn other_table(site: &SiteAfterCall) -> Option<String> {
    let expected = site.ledger.table().to_bytes();
    let at = (0..expected.len()).find(|&at| site.buffers.table.get(at) != Some(&expected[at]))?;
    Some(format!("byte {at} is {:?}, by the ledger {}", site.buffers.table.get(at), expected[at]))
}

fn other_part(site: &SiteAfterCall) -> Option<String> {
    let SiteAfterCall { ledger, buffers, .. } = site;
    let other = |place: &usize| ledger.marked(*place) && part_at(&buffers.records, *place) != ledger.at(*place).meaning;
    let place = (0..ledger.count()).find(other)?;
    Some(format!("place {place}, with {} blocks retired", ledger.retirings()))
}
