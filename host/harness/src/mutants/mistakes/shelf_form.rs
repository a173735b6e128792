//! Mistakes in a shelf's form.

use super::{flip_last, slots, Mistake, Mutant};
use crate::model::block;
use crate::model::form::Condition;
use crate::model::shelf::{Entry, Shelf, NOTHING};
use crate::model::shelf_form::*;
use crate::model::sizes::{CAMPAIGNS, HEADER_BYTES, MAX_BLOCK_BYTES, MOST_HELD, RESERVED, SHELF_BYTES, SHELF_PLACES};

/// For each condition a mutant without it. There is none without the limit of 10: where one campaign holds more, the
/// free places don't cover what the others lack.
pub fn conditions_left_out() -> Vec<Mutant> {
    let mutant = |left_out: &Condition<Shelf>| {
        let name = left_out.name;
        Mutant::with(format!("shelf form without: {name}"), |mutant| mutant.shelf_form(name, |_| true))
    };
    DOCUMENT.iter().filter(|condition| condition.name != MOST).map(mutant).collect()
}

impl Mutant {
    /// Exchanges a condition of a shelf's form.
    fn shelf_form(&mut self, name: &str, holds: fn(&Shelf) -> bool) {
        let condition = self.model.shelving.form.iter_mut().find(|condition| condition.name == name);
        condition.expect("a condition of that name").holds = holds;
    }

    /// Adds a condition.
    fn shelf_form_too(&mut self, holds: fn(&Shelf) -> bool) {
        self.model.shelving.form.push(Condition { name: "one more", holds });
    }
}

pub const MISTAKES: &[Mistake] = &[
    ("shelf form: a longer buffer passes", |m| m.shelf_form(LENGTH, |shelf| shelf.length >= SHELF_BYTES)),
    ("shelf form: a shorter buffer passes", |m| m.shelf_form(LENGTH, |shelf| shelf.length <= SHELF_BYTES)),
    ("shelf form: the count may be 17", |m| m.shelf_form(COUNT, |shelf| shelf.count <= SHELF_PLACES + 1)),
    ("shelf form: the count must be below 16", |m| m.shelf_form(COUNT, |shelf| shelf.count < SHELF_PLACES)),
    ("shelf form: an empty shelf doesn't pass", |m| m.shelf_form_too(|shelf| shelf.count > 0)),
    // The rest
    ("shelf form: campaigns from the count on aren't looked at", |m| {
        m.shelf_form(REST_ZERO, |shelf| rest_zero(shelf, |entry| entry.campaign = 0))
    }),
    ("shelf form: lengths from the count on aren't looked at", |m| {
        m.shelf_form(REST_ZERO, |shelf| rest_zero(shelf, |entry| entry.length = 0))
    }),
    ("shelf form: blocks from the count on aren't looked at", |m| {
        m.shelf_form(REST_ZERO, |shelf| rest_zero(shelf, |entry| entry.bytes = NOTHING.bytes))
    }),
    ("shelf form: the last byte of entries from the count on isn't looked at", |m| {
        m.shelf_form(REST_ZERO, |shelf| rest_zero(shelf, |entry| entry.bytes[MAX_BLOCK_BYTES - 1] = 0))
    }),
    ("shelf form: the entry at the count isn't looked at", |m| {
        m.shelf_form(REST_ZERO, |shelf| shelf.rest().iter().skip(1).all(|entry| *entry == NOTHING))
    }),
    ("shelf form: only the entry at the count is looked at", |m| {
        m.shelf_form(REST_ZERO, |shelf| shelf.rest().iter().take(1).all(|entry| *entry == NOTHING))
    }),
    ("shelf form: the last entry isn't looked at", |m| {
        m.shelf_form(REST_ZERO, |shelf| shelf.rest().iter().rev().skip(1).all(|entry| *entry == NOTHING))
    }),
    // Blocks
    ("shelf form: a byte more than the longest block passes", |m| {
        m.shelf_form(BLOCK_LENGTH, |shelf| every(shelf, |entry| usize::from(entry.length) <= MAX_BLOCK_BYTES + 1))
    }),
    ("shelf form: the longest block doesn't pass", |m| {
        m.shelf_form(BLOCK_LENGTH, |shelf| every(shelf, |entry| usize::from(entry.length) < MAX_BLOCK_BYTES))
    }),
    ("shelf form: a length of 5 doesn't pass", |m| {
        m.shelf_form_too(|shelf| every(shelf, |entry| usize::from(entry.length) > HEADER_BYTES))
    }),
    ("shelf form: the reader's 3 isn't asked for", |m| {
        m.shelf_form(READ, |shelf| every(shelf, |entry| accepted_without(entry, 3)))
    }),
    ("shelf form: the reader's 6 isn't asked for", |m| {
        m.shelf_form(READ, |shelf| every(shelf, |entry| accepted_without(entry, 6)))
    }),
    ("shelf form: the reader's 18 isn't asked for", |m| {
        m.shelf_form(READ, |shelf| every(shelf, |entry| accepted_without(entry, 18)))
    }),
    ("shelf form: the reader's 7 isn't asked for", |m| {
        m.shelf_form(READ, |shelf| every(shelf, |entry| accepted_without(entry, 7)))
    }),
    ("shelf form: only the first block is read", |m| {
        m.shelf_form(READ, |shelf| shelf.waiting().iter().take(1).all(accepted))
    }),
    ("shelf form: the last block isn't read", |m| {
        m.shelf_form(READ, |shelf| shelf.waiting().iter().rev().skip(1).all(accepted))
    }),
    ("shelf form: only neighbouring slots are compared", |m| {
        m.shelf_form(READ, |shelf| {
            every(shelf, |entry| accepted_without(entry, 18) && slots::neighbours_compared(entry.block()).is_none())
        })
    }),
    ("shelf form: slots must rise", |m| {
        m.shelf_form_too(|shelf| every(shelf, |entry| slots::falling_refused(entry.block()).is_none()))
    }),
    ("shelf form: a site of 16 or more doesn't pass", |m| {
        m.shelf_form_too(|shelf| every(shelf, |entry| block::site(entry.block()) < 16))
    }),
    ("shelf form: a block without references doesn't pass", |m| {
        m.shelf_form_too(|shelf| every(shelf, |entry| block::reference_count(entry.block()) > 0))
    }),
    ("shelf form: the byte behind a block isn't looked at", |m| {
        m.shelf_form(ZEROS_BEHIND, |shelf| every(shelf, |entry| entry.behind().iter().skip(1).all(|&byte| byte == 0)))
    }),
    ("shelf form: only the byte behind a block is looked at", |m| {
        m.shelf_form(ZEROS_BEHIND, |shelf| every(shelf, |entry| entry.behind().iter().take(1).all(|&byte| byte == 0)))
    }),
    ("shelf form: an entry's last byte isn't looked at", |m| {
        m.shelf_form(ZEROS_BEHIND, |shelf| {
            every(shelf, |entry| entry.behind().iter().rev().skip(1).all(|&byte| byte == 0))
        })
    }),
    // Campaigns
    ("shelf form: campaign 4 passes", |m| {
        m.shelf_form(CAMPAIGN, |shelf| every(shelf, |entry| usize::from(entry.campaign) <= CAMPAIGNS))
    }),
    ("shelf form: campaign 3 doesn't pass", |m| {
        m.shelf_form(CAMPAIGN, |shelf| every(shelf, |entry| usize::from(entry.campaign) < CAMPAIGNS - 1))
    }),
    ("shelf form: the campaign's low bits are looked at", |m| {
        m.shelf_form(CAMPAIGN, |shelf| every(shelf, |entry| entry.campaign & 7 < CAMPAIGNS as u8))
    }),
    ("shelf form: campaigns must not fall", |m| {
        m.shelf_form_too(|shelf| shelf.waiting().windows(2).all(|pair| pair[0].campaign <= pair[1].campaign))
    }),
    ("shelf form: the same bytes may not wait for two campaigns", |m| {
        m.shelf_form(DIFFERENT, |shelf| !some_pair(shelf, |one, other| one.block() == other.block()))
    }),
    ("shelf form: only neighbours are compared", |m| {
        m.shelf_form(DIFFERENT, |shelf| {
            shelf
                .waiting()
                .windows(2)
                .all(|pair| pair[0].campaign != pair[1].campaign || pair[0].block() != pair[1].block())
        })
    }),
    ("shelf form: only the first is compared with the others", |m| {
        m.shelf_form(DIFFERENT, |shelf| {
            let Some((first, others)) = shelf.waiting().split_first() else { return true };
            others.iter().all(|other| other != first)
        })
    }),
    ("shelf form: the first byte of blocks isn't compared", |m| {
        m.shelf_form(DIFFERENT, |shelf| !same_part(shelf, |block| &block[block.len().min(1)..]))
    }),
    ("shelf form: the last byte of blocks isn't compared", |m| {
        m.shelf_form(DIFFERENT, |shelf| !same_part(shelf, |block| &block[..block.len().saturating_sub(1)]))
    }),
    ("shelf form: only the headers of blocks are compared", |m| {
        m.shelf_form(DIFFERENT, |shelf| !same_part(shelf, |block| &block[..block.len().min(HEADER_BYTES)]))
    }),
    // Limits
    ("shelf form: a campaign may hold 9 at most", |m| {
        m.shelf_form(MOST, |shelf| (0..CAMPAIGNS as u8).all(|campaign| shelf.holds(campaign) < MOST_HELD))
    }),
    ("shelf form: the free places cover what campaigns lack of 1", |m| {
        m.shelf_form(COVERED, |shelf| shelf.free() >= lack(shelf, CAMPAIGNS, RESERVED - 1))
    }),
    ("shelf form: the free places cover what campaigns lack of 3", |m| {
        m.shelf_form(COVERED, |shelf| shelf.free() >= lack(shelf, CAMPAIGNS, RESERVED + 1))
    }),
    ("shelf form: the free places cover what campaigns 0 to 2 lack", |m| {
        m.shelf_form(COVERED, |shelf| shelf.free() >= lack(shelf, CAMPAIGNS - 1, RESERVED))
    }),
    ("shelf form: the free places cover what five campaigns lack", |m| {
        m.shelf_form(COVERED, |shelf| shelf.free() >= lack(shelf, CAMPAIGNS + 1, RESERVED))
    }),
    ("shelf form: the free places cover more than the campaigns lack", |m| {
        m.shelf_form(COVERED, |shelf| shelf.free() > lack(shelf, CAMPAIGNS, RESERVED))
    }),
    ("shelf form: the free places cover all but one of what the campaigns lack", |m| {
        m.shelf_form(COVERED, |shelf| shelf.free() + 1 >= lack(shelf, CAMPAIGNS, RESERVED))
    }),
    ("shelf form: a campaign that holds none lacks none", |m| {
        m.shelf_form(COVERED, |shelf| shelf.free() >= lack_of(shelf, |held| if held == 1 { 1 } else { 0 }))
    }),
    ("shelf form: a campaign that holds one lacks none", |m| {
        m.shelf_form(COVERED, |shelf| shelf.free() >= lack_of(shelf, |held| if held == 0 { 2 } else { 0 }))
    }),
    ("shelf form: a campaign that holds one lacks two", |m| {
        m.shelf_form(COVERED, |shelf| shelf.free() >= lack_of(shelf, |held| if held < 2 { 2 } else { 0 }))
    }),
    ("gt_shelf_in_form writes", |m| {
        m.after_shelf_form(|answer, shelf| {
            flip_last(shelf);
            answer
        })
    }),
];

/// Whether the rest is zero but for what is cleared.
fn rest_zero(shelf: &Shelf, clear: fn(&mut Entry)) -> bool {
    shelf.rest().iter().all(|entry| {
        let mut entry = *entry;
        clear(&mut entry);
        entry == NOTHING
    })
}

fn accepted(entry: &Entry) -> bool {
    block::accepted(entry.block())
}

/// Whether the reader accepts a block, if it didn't check this number.
fn accepted_without(entry: &Entry, number: u8) -> bool {
    let checks = block::CHECKS.iter().filter(|check| check.number != number);
    checks.map(|check| (check.finds)(entry.block())).all(|found| found.is_none())
}

/// Whether two blocks that wait for a campaign are the same in a part.
fn same_part(shelf: &Shelf, part: fn(&[u8]) -> &[u8]) -> bool {
    let waiting = shelf.waiting();
    let same = |one: &Entry, other: &Entry| one.campaign == other.campaign && part(one.block()) == part(other.block());
    (0..waiting.len()).any(|later| waiting[..later].iter().any(|earlier| same(earlier, &waiting[later])))
}

/// What the campaigns lack, by how many places one holds.
fn lack_of(shelf: &Shelf, lacks: fn(usize) -> usize) -> usize {
    (0..CAMPAIGNS as u8).map(|campaign| lacks(shelf.holds(campaign))).sum()
}
