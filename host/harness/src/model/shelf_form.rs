//! Document 02, "Four campaigns, sixteen waiting places": whether a shelf is in form, as a list of named conditions.

use crate::model::block;
use crate::model::form::Condition;
use crate::model::shelf::{Entry, Shelf, NOTHING};
use crate::model::sizes::{CAMPAIGNS, MAX_BLOCK_BYTES, MOST_HELD, RESERVED, SHELF_BYTES, SHELF_PLACES};

pub const LENGTH: &str = "the buffer has a shelf's length";
pub const COUNT: &str = "the count is up to 16";
pub const REST_ZERO: &str = "entries from the count on are zero";
pub const BLOCK_LENGTH: &str = "a waiting block fits its entry";
pub const READ: &str = "the reader accepts each waiting block";
pub const ZEROS_BEHIND: &str = "behind a block there are zeros";
pub const CAMPAIGN: &str = "campaigns are up to 3";
pub const DIFFERENT: &str = "no campaign has the same bytes waiting twice";
pub const MOST: &str = "no campaign holds more than 10 places";
pub const COVERED: &str = "the free places cover what the campaigns lack of their 2";

pub const DOCUMENT: [Condition<Shelf>; 10] = [
    Condition { name: LENGTH, holds: |shelf| shelf.length == SHELF_BYTES },
    Condition { name: COUNT, holds: |shelf| shelf.count <= SHELF_PLACES },
    Condition { name: REST_ZERO, holds: |shelf| shelf.rest().iter().all(|entry| *entry == NOTHING) },
    Condition { name: BLOCK_LENGTH, holds: |shelf| every(shelf, |entry| entry.length as usize <= MAX_BLOCK_BYTES) },
    Condition { name: READ, holds: |shelf| every(shelf, |entry| block::accepted(entry.block())) },
    Condition { name: ZEROS_BEHIND, holds: |shelf| every(shelf, |entry| entry.behind().iter().all(|&byte| byte == 0)) },
    Condition { name: CAMPAIGN, holds: |shelf| every(shelf, |entry| usize::from(entry.campaign) < CAMPAIGNS) },
    Condition { name: DIFFERENT, holds: |shelf| !some_pair(shelf, same) },
    Condition { name: MOST, holds: |shelf| (0..CAMPAIGNS as u8).all(|campaign| shelf.holds(campaign) <= MOST_HELD) },
    Condition { name: COVERED, holds: |shelf| shelf.free() >= lack(shelf, CAMPAIGNS, RESERVED) },
];

/// Whether every entry below the count passes.
pub fn every(shelf: &Shelf, passes: fn(&Entry) -> bool) -> bool {
    shelf.waiting().iter().all(passes)
}

/// Whether two waiting blocks, the earlier one first, are so.
pub fn some_pair(shelf: &Shelf, are: fn(&Entry, &Entry) -> bool) -> bool {
    let waiting = shelf.waiting();
    (0..waiting.len()).any(|later| waiting[..later].iter().any(|earlier| are(earlier, &waiting[later])))
}

fn same(one: &Entry, other: &Entry) -> bool {
    one.campaign == other.campaign && one.block() == other.block()
}

/// What so many campaigns lack of so many places each.
pub fn lack(shelf: &Shelf, campaigns: usize, places: usize) -> usize {
    (0..campaigns as u8).map(|campaign| shelf.lacks(campaign, places)).sum()
}
