//! Small tables on which a site builds its next block, worked out by hand from document 01.

use super::holder::Holder;
use crate::model::calls::Calls;
use crate::model::sizes::{MAX_BLOCK_BYTES, MAX_REQUEST_LIST_BYTES as MOST, REQUEST_BYTES};

pub fn all(calls: &dyn Calls) -> Vec<(&'static str, bool)> {
    let new = |sites| Holder::new(calls, sites);
    let thirteen = Holder::with_thirteen_blocks(calls);
    vec![
        ("empty table, the shortest block", new(4).builds(2, &[]) == Ok(vec![2, 0, 0, 0, 0])),
        ("empty table, two requests", new(4).builds(2, &[7, 1, 2, 0, 0, 9]) == Ok(TWO_REQUESTS.to_vec())),
        ("13 blocks, site 1: own last, then the others' last", {
            // Site 1 has 2, 6 and 10. They refer to 0, to 1 to 4 and to 5 to 8.
            thirteen.builds(1, &[]) == Ok(thirteen.bytes([1, 0, 3, 4, 0], &[10, 9, 11, 12], &[]))
        }),
        ("13 blocks, site 0, and a request", {
            thirteen.builds(0, &[0, 0, 43]) == Ok(thirteen.bytes([0, 0, 4, 4, 1], &[9, 10, 11, 12], &[0, 0, 43]))
        }),
        ("an ancestor that isn't referred to directly", ancestor(new(4))),
        ("a block that an older own block refers to", older(new(4))),
        ("nothing left but the own last", nothing_left(new(4))),
        ("17 blocks of others: the first 16", seventeen(new(4))),
        ("an own block and 17 of others: the own one and the first 15", own_and_seventeen(new(4))),
        ("a site that is n: 4", thirteen.builds(4, &[]) == Err((4, 0))),
        ("a site that is n, and a list too long: 4", thirteen.builds(4, &[1; MOST + 1]) == Err((4, 0))),
        ("a byte more than the longest list: 3", thirteen.builds(0, &[1; MOST + 1]) == Err((3, 0))),
        ("a request more, all of them bad: 3", thirteen.builds(0, &[0; MOST + REQUEST_BYTES]) == Err((3, 0))),
        ("the longest list", thirteen.builds(0, &[4, 0, 1, 3, 0, 1, 7, 0, 1, 0, 0, 1, 5, 0, 1]).is_ok()),
        ("the longest list, of one slot: 18", thirteen.builds(0, &[1; MOST]) == Err((18, 1))),
        ("slot 8 in the second request: 6", thirteen.builds(0, &[7, 0, 1, 8, 0, 1]) == Err((6, 1))),
        ("number 0 in the first request: 6", thirteen.builds(0, &[7, 0, 0, 8, 0, 1]) == Err((6, 0))),
        ("a slot twice: 18", new(1).builds(0, &[3, 0, 1, 5, 0, 1, 3, 0, 2]) == Err((18, 2))),
        ("a slot twice, and number 0 after it: 6", new(1).builds(0, &[3, 0, 1, 3, 0, 2, 4, 0, 0]) == Err((6, 2))),
        ("a fork under the greatest block: 16", fork(new(4)).builds(2, &[]) == Err((16, 0))),
        ("a fork under the greatest block, and a slot twice: 18", {
            fork(new(4)).builds(2, &[3, 0, 1, 3, 0, 2]) == Err((18, 1))
        }),
        ("a fork under the greatest block, and slot 8: 6", fork(new(4)).builds(2, &[8, 0, 1]) == Err((6, 0))),
        ("a fork of another site", fork(new(4)).builds(1, &[]).is_ok()),
        ("outputs of 7, 8 and 9 bytes for 8", outputs(new(1))),
    ]
}

const TWO_REQUESTS: [u8; 11] = [2, 0, 0, 0, 2, 7, 1, 2, 0, 0, 9];

const UNTOUCHED: u8 = 0xa5;

impl Holder<'_> {
    /// The site's next block, or what it is refused with.
    fn builds(&self, site: u8, requests: &[u8]) -> Result<Vec<u8>, (u8, usize)> {
        let mut output = [UNTOUCHED; MAX_BLOCK_BYTES];
        let answer = self.calls.build(&mut self.table.clone(), site, &mut requests.to_vec(), &mut output);
        if answer.refusal == 0 {
            Ok(output[..answer.value].to_vec())
        } else {
            Err((answer.refusal, answer.value))
        }
    }

    /// The bytes of a block: its head, references to these places, requests.
    fn bytes(&self, head: [u8; 5], places: &[usize], requests: &[u8]) -> Vec<u8> {
        let references: Vec<u8> = places.iter().flat_map(|&place| self.digest(place)).collect();
        [&head[..], &references, requests].concat()
    }
}

/// Site 0 refers to place 1, which refers to place 0: that is an ancestor, but still picked.
fn ancestor(mut holder: Holder) -> bool {
    let first = holder.block(1, 0, &[], None);
    let second = holder.block(2, 0, &[first], None);
    let own = holder.block(0, 0, &[second], None);
    holder.builds(0, &[]) == Ok(holder.bytes([0, 0, 1, 2, 0], &[own, first], &[]))
}

/// Sequence 0 refers to place 0, sequence 1 doesn't: it isn't picked again.
fn older(mut holder: Holder) -> bool {
    let first = holder.block(1, 0, &[], None);
    let own = holder.block(0, 0, &[first], None);
    let other = holder.block(2, 0, &[first], None);
    let last = holder.block(0, 1, &[own], None);
    holder.builds(0, &[]) == Ok(holder.bytes([0, 0, 2, 2, 0], &[last, other], &[]))
}

fn nothing_left(mut holder: Holder) -> bool {
    let other = holder.block(3, 0, &[], None);
    let own = holder.block(2, 0, &[other], None);
    holder.builds(2, &[]) == Ok(holder.bytes([2, 0, 1, 1, 0], &[own], &[]))
}

/// Forks of site 1, all of sequence 0.
fn of_others(holder: &mut Holder, count: u16) -> Vec<usize> {
    (1..=count).map(|number| holder.block(1, 0, &[], Some(number))).collect()
}

fn seventeen(mut holder: Holder) -> bool {
    let others = of_others(&mut holder, 17);
    holder.builds(3, &[]) == Ok(holder.bytes([3, 0, 0, 16, 0], &others[..16], &[]))
}

fn own_and_seventeen(mut holder: Holder) -> bool {
    let others = of_others(&mut holder, 17);
    let own = holder.block(3, 0, &[], None);
    let places = [&[own], &others[..15]].concat();
    holder.builds(3, &[]) == Ok(holder.bytes([3, 0, 1, 16, 0], &places, &[]))
}

/// Site 2 has sequence 0, 1, 1 and 2.
fn fork(mut holder: Holder) -> Holder {
    let first = holder.block(2, 0, &[], None);
    let second = holder.block(2, 1, &[first], None);
    holder.block(2, 1, &[first], Some(42));
    holder.block(2, 2, &[second], None);
    holder
}

/// A block of 8 bytes: too little room, just enough, and a byte that stays.
fn outputs(holder: Holder) -> bool {
    let built = |room: usize| {
        let mut output = vec![UNTOUCHED; room];
        let answer = holder.calls.build(&mut holder.table.clone(), 0, &mut [6, 1, 2], &mut output);
        (answer.refusal, answer.value, output)
    };
    let block = [0, 0, 0, 0, 1, 6, 1, 2];
    built(7) == (17, 8, vec![UNTOUCHED; 7])
        && built(8) == (0, 8, block.to_vec())
        && built(9) == (0, 8, [&block[..], &[UNTOUCHED]].concat())
}
