//! What must hold of all calls of one campaign, from a start with an empty shelf.

use super::Law;
use crate::comparing::facts::campaign_run::{Call, CampaignRun, Reply};
use crate::model::sha256::{sha256, Digest};
use crate::model::table::Table;

/// A campaign's calls made among those of other campaigns, and made once more alone.
pub struct SharedAndAlone<'a> {
    pub among_others: &'a CampaignRun,
    pub alone: &'a CampaignRun,
}

pub const INDEPENDENT: &str = "law: a campaign alone comes to the same, told which of its blocks the shelf took";
pub const ANSWERED_9: &str = "law: what was answered 9 waits or ended as listed, and nothing else did";

pub fn laws<'a>() -> [Law<SharedAndAlone<'a>>; 2] {
    [Law { name: INDEPENDENT, broken: depends_on_others }, Law { name: ANSWERED_9, broken: lost_or_invented }]
}

fn depends_on_others(runs: &SharedAndAlone) -> Option<String> {
    let SharedAndAlone { among_others, alone } = runs;
    let calls = 0..among_others.replies.len();
    if let Some(call) = calls.clone().find(|&call| among_others.replies[call] != alone.replies[call]) {
        return Some(format!(
            "call {call} of {} got {:?}, alone {:?}",
            calls.end, among_others.replies[call], alone.replies[call]
        ));
    }
    let what = [
        (among_others.table != alone.table, "another table"),
        (among_others.records != alone.records, "other records"),
        (among_others.waiting != alone.waiting, "other blocks wait"),
    ];
    what.iter().find(|(differs, _)| *differs).map(|(_, what)| what.to_string())
}

/// As many ended or wait as got 9; those that wait did get it, and so did those that were let in and are still held, by
/// their digests.
fn lost_or_invented(runs: &SharedAndAlone) -> Option<String> {
    let CampaignRun { calls, replies, table, waiting, .. } = runs.among_others;
    let answered_9 = calls.iter().zip(replies).filter_map(|(call, reply)| match call {
        Call::Arrival(arrival, _) if reply.answer.refusal == 9 => Some(arrival.block.clone()),
        _ => None,
    });
    let answered_9: Vec<Vec<u8>> = answered_9.collect();
    let digests: Vec<Digest> = answered_9.iter().map(|block| sha256(block)).collect();
    let listed: Vec<[u64; 2]> = replies.iter().flat_map(|reply| reply.listed.clone()).collect();
    let held = Table::from_bytes(table);
    let known = |place: usize| held.held().get(place).is_some_and(|row| digests.contains(&row.digest));
    let lawful = answered_9.len() == waiting.len() + listed.len()
        && waiting.iter().all(|block| answered_9.contains(block))
        && let_in(runs.among_others).into_iter().all(known);
    (!lawful).then(|| format!("{} got 9, {} wait, {listed:?} ended", answered_9.len(), waiting.len()))
}

/// The places at which blocks that were let in from the shelf stand at the end.
fn let_in(run: &CampaignRun) -> Vec<usize> {
    let mut standing: Vec<usize> = Vec::new();
    // How many blocks are held: admissions tell it, and none was let in before the first one.
    let mut count = 0;
    let passed = run.calls.iter().zip(&run.replies).filter(|(_, reply)| reply.answer.refusal == 0);
    for (call, Reply { answer, listed }) in passed {
        match call {
            Call::Arrival(..) | Call::Admission(_) => {
                let places = listed.iter().filter(|listed| listed[0] == 0).map(|listed| listed[1] as usize);
                count = answer.value + 1 + places.clone().count();
                standing.extend(places);
            }
            Call::Interpretation(_) => {}
            Call::Retiring => {
                count = count.saturating_sub(1);
                standing = standing.iter().filter_map(|place| place.checked_sub(1)).collect();
            }
            Call::TakingBack => {
                count = count.saturating_sub(1);
                standing.retain(|&place| place < count);
            }
        }
    }
    standing
}
