//! Document 01, "One slot's process": the entries of a record; and where the records lie in the lent buffer.

use std::ops::Range;

use crate::model::sizes::{MAX_SITES, PART_NUMBERS, RECORD_NUMBERS, SLOTS};

pub type Record = [u16; RECORD_NUMBERS];

/// The records of one place, slot after slot.
pub type Part = [Record; SLOTS];

/// What a process does. All but a delivery are messages. They stand in the order of their entries, which for messages
/// is the order in which they are heard too.
#[derive(Clone, Copy, Debug, PartialEq, Eq, PartialOrd, Ord)]
pub enum Act {
    Send,
    Echo,
    Ready,
    Deliver,
}

pub const ACTS: [Act; 4] = [Act::Send, Act::Echo, Act::Ready, Act::Deliver];
pub const MESSAGES: [Act; 3] = [Act::Send, Act::Echo, Act::Ready];

const ECHO_HEARD: usize = 4;
const READY_HEARD: usize = 20;
/// The first entry of what is made in this block; those before it pass on to the next.
pub const MADE: usize = 36;

const _: () = assert!(ECHO_HEARD == ACTS.len());
const _: () = assert!(READY_HEARD == ECHO_HEARD + MAX_SITES);
const _: () = assert!(MADE == READY_HEARD + MAX_SITES);
const _: () = assert!(RECORD_NUMBERS == MADE + ACTS.len());

impl Act {
    /// Its entry of 0 to 3.
    pub fn so_far(self) -> usize {
        self as usize
    }

    /// Its entry of 36 to 39.
    pub fn made(self) -> usize {
        MADE + self as usize
    }

    /// The entries, one for each site, of what was heard. A SEND is noted nowhere, and a delivery isn't heard.
    pub fn heard(self) -> Option<Range<usize>> {
        match self {
            Act::Echo => Some(ECHO_HEARD..READY_HEARD),
            Act::Ready => Some(READY_HEARD..MADE),
            Act::Send | Act::Deliver => None,
        }
    }
}

/// The numbers of the buffer that belong to a place: "place after place". None if no buffer could have them.
pub fn part_of(place: usize) -> Option<Range<usize>> {
    let first = place.checked_mul(PART_NUMBERS)?;
    Some(first..first.checked_add(PART_NUMBERS)?)
}

/// The record of a place and a slot: "slot after slot". Zeros if the buffer hasn't got it.
pub fn record_at(records: &[u16], place: usize, slot: usize) -> Record {
    let part = part_of(place).and_then(|part| records.get(part));
    let record = part.and_then(|part| part.chunks_exact(RECORD_NUMBERS).nth(slot));
    record.map_or([0; RECORD_NUMBERS], |record| record.try_into().expect("a record's numbers"))
}

/// All records of a place.
pub fn part_at(records: &[u16], place: usize) -> Part {
    std::array::from_fn(|slot| record_at(records, place, slot))
}
