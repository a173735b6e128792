//! Shelves in plain bytes, in form or not by document 02. The block is the shortest one, of another sequence number at
//! each place.

use crate::model::calls::Calls;
use crate::model::sizes::{ENTRY_BYTES as ENTRY, SHELF_BYTES as SHELF};

pub fn all(calls: &dyn Calls) -> Vec<(&'static str, bool)> {
    let in_form = |mut shelf: Vec<u8>| calls.shelf_in_form(&mut shelf);
    let of = |holds: [u8; 4]| in_form(shelf(holds));
    let with = |at: usize, byte: u8| in_form(changed(at, byte));
    vec![
        ("the empty shelf", of([0, 0, 0, 0])),
        ("a byte fewer, a byte more", !in_form(vec![0; SHELF - 1]) && !in_form(vec![0; SHELF + 1])),
        ("one block of each campaign", of([1, 1, 1, 1])),
        ("ten of one campaign", of([10, 0, 0, 0]) && of([0, 0, 0, 10])),
        ("eleven of one campaign", !of([11, 0, 0, 0])),
        ("ten, and two of each other", of([10, 2, 2, 2]) && of([2, 2, 10, 2])),
        ("ten, three and two: two are lacking and one is free", !of([10, 3, 2, 0])),
        ("ten, two, two and one", of([10, 2, 2, 1])),
        ("six and six, four are free", of([6, 6, 0, 0])),
        ("seven and six: one place short", !of([7, 6, 0, 0]) && !of([7, 6, 1, 0]) && !of([7, 6, 1, 1])),
        ("four of each", of([4, 4, 4, 4])),
        ("count 17", !with(0, 17)),
        ("a count that leaves a block out", !with(0, 3)),
        ("a count that takes an empty place in", !with(0, 5)),
        ("campaign 4", !with(1, 4)),
        ("a length of 4, of 6", !with(3, 4) && !with(3, 6)),
        ("a length of 261", !with(2, 1)),
        ("a reference count of 1", !with(7, 1)),
        ("site 255", with(4, 255)),
        ("two slots, and one twice", in_form(requesting(4, 3)) && !in_form(requesting(3, 3))),
        ("a byte behind a block", !with(9, 1) && !with(ENTRY, 1)),
        ("a byte in an empty place", !with(1 + 4 * ENTRY, 1) && !with(SHELF - 1, 1)),
        ("the same bytes for two campaigns", with(6, 1)),
        ("the same bytes twice for one campaign", !in_form(twice())),
    ]
}

/// Campaigns that hold so many places each, one after the other.
fn shelf(holds: [u8; 4]) -> Vec<u8> {
    let mut shelf = vec![0; SHELF];
    for (campaign, held) in holds.iter().enumerate() {
        for _ in 0..*held {
            let place = shelf[0];
            let at = 1 + ENTRY * usize::from(place);
            shelf[at] = campaign as u8;
            // Length, then site, sequence number and two counts.
            shelf[at + 1..at + 8].copy_from_slice(&[0, 5, 0, 0, place, 0, 0]);
            shelf[0] += 1;
        }
    }
    shelf
}

/// One block of each campaign, and one byte changed.
fn changed(at: usize, byte: u8) -> Vec<u8> {
    let mut shelf = shelf([1, 1, 1, 1]);
    shelf[at] = byte;
    shelf
}

/// One block, with number 1 in two slots.
fn requesting(one: u8, other: u8) -> Vec<u8> {
    let mut shelf = vec![0; SHELF];
    shelf[..15].copy_from_slice(&[1, 0, 0, 11, 0, 0, 0, 0, 2, one, 0, 1, other, 0, 1]);
    shelf
}

/// Two of one campaign. The low byte of the second one's sequence number tells them apart.
fn twice() -> Vec<u8> {
    let mut shelf = shelf([2, 0, 0, 0]);
    shelf[1 + ENTRY + 5] = 0;
    shelf
}
