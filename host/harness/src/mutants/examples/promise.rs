//! Small tables of which document 02's "A promise of arrival" says something, or nothing, worked out by hand. Site 0
//! requests 42; in each round after that a block of each site refers to all of the round before. For n 4 three sites
//! are enough.

use super::holder::Holder;
use crate::model::calls::Calls;
use crate::model::promise::HeldBlocks;
use crate::model::table::Table;

pub fn all(calls: &dyn Calls) -> Vec<(&'static str, bool)> {
    let new = |sites| Holder::new(calls, sites);
    let four = || new(4);
    vec![
        (
            "13 blocks: promised by the last four",
            promised(&Holder::with_thirteen_blocks(calls)) == by(&[9, 10, 11, 12]),
        ),
        ("nine of them: nothing promised", promised(&rounds(four(), &[0, 1, 2, 3], 2)) == NOTHING),
        ("n 1, four blocks: promised by the last", promised(&rounds(new(1), &[0], 3)) == by(&[3])),
        ("n 1, three blocks: nothing promised", promised(&rounds(new(1), &[0], 2)) == NOTHING),
        // Which sites
        ("three sites: promised", promised(&rounds(four(), &[0, 1, 2], 3)) == by(&[7, 8, 9])),
        ("three sites without the owner: promised", promised(&rounds(four(), &[1, 2, 3], 3)) == by(&[7, 8, 9])),
        ("two sites: nothing promised", promised(&rounds(four(), &[0, 1], 6)) == NOTHING),
        ("three sites, the third stays out of a round: nothing promised", third_stays_out(four()) == NOTHING),
        ("a site whose first block nobody sees isn't needed", first_unseen(four()) == by(&[8])),
        ("the fourth site refers to all blocks: promised by it", fourth(four(), &[0, 1, 2, 3, 4, 5, 6]) == by(&[7])),
        ("it leaves one out: nothing promised", fourth(four(), &[0, 1, 2, 4, 5, 6]) == NOTHING),
        // Forks
        ("the fourth site forks: promised", twice(four(), 3) == by(&[7, 8, 9])),
        ("one of three sites forks: nothing promised", twice(four(), 2) == NOTHING),
        ("the owner forks: nothing promised", twice(four(), 0) == NOTHING),
        ("only the owner refers to a block: nothing promised", overlooked(four(), 1) == NOTHING),
        ("that block is one of a fork: promised", overlooked(four(), 2) == by(&[9, 10, 11])),
        // Which request
        ("the owner's second request isn't promised", second_request(four()) == by(&[7, 8, 9])),
        ("another's request isn't promised", other_request(four()) == by(&[8, 9, 10])),
    ]
}

/// A number of slot 0, and the set of the places by which it must be delivered.
type SlotPromise = Option<(u16, u64)>;
const NOTHING: SlotPromise = None;

fn by(places: &[usize]) -> SlotPromise {
    Some((42, places.iter().fold(0, |set, place| set | 1 << place)))
}

fn promised(holder: &Holder) -> SlotPromise {
    let promise = HeldBlocks::of(Table::from_bytes(&holder.table)).promise(0)?;
    Some((promise.number, promise.lasts))
}

/// A block of each of these sites, which haven't forked.
fn round(holder: &mut Holder, sites: &[u8], below: &[usize]) -> Vec<usize> {
    let next = |holder: &Holder, site: u8| Table::from_bytes(&holder.table).own(site).count() as u16;
    sites.iter().map(|&site| holder.block(site, next(holder, site), below, None)).collect()
}

fn rounds_on(holder: &mut Holder, sites: &[u8], below: Vec<usize>, count: usize) {
    (0..count).fold(below, |below, _| round(holder, sites, &below));
}

/// The owner's request at place 0, and rounds of these sites.
fn rounds<'a>(mut holder: Holder<'a>, sites: &[u8], count: usize) -> Holder<'a> {
    let first = holder.block(0, 0, &[], Some(42));
    rounds_on(&mut holder, sites, vec![first], count);
    holder
}

fn third_stays_out(holder: Holder) -> SlotPromise {
    let mut holder = rounds(holder, &[0, 1, 2], 1);
    let seconds = round(&mut holder, &[0, 1], &[1, 2, 3]);
    rounds_on(&mut holder, &[0, 1], seconds, 3);
    promised(&holder)
}

/// That of the owner is at place 1. The others refer to their own first blocks, and site 1 to the second ones.
fn first_unseen(holder: Holder) -> SlotPromise {
    let mut holder = rounds(holder, &[0, 1, 2, 3], 1);
    let seconds = round(&mut holder, &[1, 2, 3], &[2, 3, 4]);
    round(&mut holder, &[1], &seconds);
    promised(&holder)
}

/// Two rounds of three sites, and a block of the fourth that refers to these places.
fn fourth(holder: Holder, places: &[usize]) -> SlotPromise {
    let mut holder = rounds(holder, &[0, 1, 2], 2);
    round(&mut holder, &[3], places);
    promised(&holder)
}

/// Three rounds of three sites, and two more blocks of a site, of sequence 0.
fn twice(holder: Holder, site: u8) -> SlotPromise {
    let mut holder = rounds(holder, &[0, 1, 2], 3);
    for number in [43, 44] {
        holder.block(site, 0, &[], Some(number));
    }
    promised(&holder)
}

/// So many blocks of site 3, all of sequence 0. The owner's first block refers to one of them, and nobody else does.
fn overlooked(mut holder: Holder, count: u16) -> SlotPromise {
    let others: Vec<usize> = (43..43 + count).map(|number| holder.block(3, 0, &[], Some(number))).collect();
    let first = holder.block(0, 0, &others[..1], Some(42));
    rounds_on(&mut holder, &[0, 1, 2], vec![first], 3);
    promised(&holder)
}

fn second_request(holder: Holder) -> SlotPromise {
    let mut holder = rounds(holder, &[1, 2], 1);
    let second = holder.block(0, 1, &[0], Some(43));
    rounds_on(&mut holder, &[0, 1, 2], vec![1, 2, second], 2);
    promised(&holder)
}

fn other_request(mut holder: Holder) -> SlotPromise {
    let other = holder.block(1, 0, &[], Some(43));
    let first = holder.block(0, 0, &[], Some(42));
    rounds_on(&mut holder, &[0, 1, 2], vec![other, first], 3);
    promised(&holder)
}
