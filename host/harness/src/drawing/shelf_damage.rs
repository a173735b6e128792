//! Damaged shelves: a shelf in form with one thing changed. Some stay in form; the model says which.

use crate::drawing::draft::longest;
use crate::drawing::random::Random;
use crate::drawing::shelves::{holding, some_block};
use crate::model::shelf::{entry_at, Entry, Shelf};
use crate::model::sizes::{
    CAMPAIGNS, ENTRY_BYTES, HEADER_BYTES, MAX_BLOCK_BYTES, MOST_HELD, REQUEST_BYTES, RESERVED, SHELF_BYTES,
    SHELF_PLACES,
};
use crate::model::table::Table;

/// The shelf's bytes with a change, of any kind. New blocks are drawn for the table.
pub fn damaged(random: &Random, shelf: &Shelf, table: &Table) -> Vec<u8> {
    match random.below(12) {
        0 => {
            let mut bytes = shelf.to_bytes();
            random.flip_bit(&mut bytes);
            bytes
        }
        1 => {
            // A bit of what waits.
            let mut bytes = shelf.to_bytes();
            random.flip_bit(&mut bytes[..entry_at(shelf.count)]);
            bytes
        }
        2 => other_length(random, shelf),
        3 => random_bytes(random, shelf),
        _ => {
            let mut shelf = shelf.clone();
            random.pick(&DAMAGES)(random, &mut shelf, table);
            shelf.to_bytes()
        }
    }
}

fn other_length(random: &Random, shelf: &Shelf) -> Vec<u8> {
    let mut bytes = shelf.to_bytes();
    let any = random.between(0, 2 * SHELF_BYTES);
    let one_entry = [SHELF_BYTES - ENTRY_BYTES, SHELF_BYTES + ENTRY_BYTES];
    let length =
        random.pick(&[0, 1, SHELF_BYTES - 1, SHELF_BYTES - 1, SHELF_BYTES + 1, one_entry[0], one_entry[1], any]);
    bytes.resize(length, random.pick(&[0, random.byte()]));
    bytes
}

/// Random bytes; sometimes under a count that is lawful.
fn random_bytes(random: &Random, shelf: &Shelf) -> Vec<u8> {
    let mut bytes = random.bytes(SHELF_BYTES);
    if random.one_in(2) {
        bytes[0] = shelf.count as u8;
    }
    bytes
}

// ---- Single things. A shelf without what a change needs stays as it is.

type Damage = fn(&Random, &mut Shelf, &Table);

const DAMAGES: [Damage; 21] = [
    count,
    count_beyond,
    rest,
    rest,
    too_long,
    other_block_length,
    behind,
    behind,
    campaign,
    campaign_beyond,
    twice,
    for_another_too,
    nearly_twice,
    nearly_twice,
    eleven,
    one_short,
    gap,
    bad_request,
    repeated_slot,
    repeated_reference,
    exchanged,
];

/// An entry that waits, if there is one. Often the last.
fn some_entry<'a>(random: &Random, shelf: &'a mut Shelf) -> Option<&'a mut Entry> {
    let count = shelf.count;
    (count > 0).then(|| &mut shelf.entries[random.pick(&[count - 1, random.below(count)])])
}

fn change(random: &Random, shelf: &mut Shelf, change: fn(&Random, &mut Entry)) {
    if let Some(entry) = some_entry(random, shelf) {
        change(random, entry);
    }
}

/// One more takes in an entry that is no block, and one fewer leaves a block behind the count.
fn count(random: &Random, shelf: &mut Shelf, _: &Table) {
    shelf.count = random.pick(&[shelf.count + 1, shelf.count.saturating_sub(1), random.byte().into()]);
}

/// With 16 entries that are as they should be.
fn count_beyond(random: &Random, shelf: &mut Shelf, table: &Table) {
    let mut holds = [RESERVED; CAMPAIGNS];
    holds[random.below(CAMPAIGNS)] = MOST_HELD;
    *shelf = holding(random, &holds, table, table);
    shelf.count = random.pick(&[SHELF_PLACES + 1, SHELF_PLACES + 1, 32, 255, random.between(SHELF_PLACES, 255)]);
}

/// A byte of an entry from the count on.
fn rest(random: &Random, shelf: &mut Shelf, _: &Table) {
    if shelf.count == SHELF_PLACES {
        return;
    }
    let last = SHELF_PLACES - 1;
    let entry = &mut shelf.entries[random.pick(&[shelf.count, last, random.between(shelf.count, last)])];
    let byte = random.byte().max(1);
    match random.below(5) {
        0 => entry.campaign = random.pick(&[1, byte]),
        1 => entry.length = random.pick(&[1, 5, 256, byte.into()]),
        2 => entry.bytes[0] = byte,
        3 => entry.bytes[MAX_BLOCK_BYTES - 1] = byte,
        _ => entry.bytes[random.below(MAX_BLOCK_BYTES)] = byte,
    }
}

/// A block that fills its entry, with a greater length.
fn too_long(random: &Random, shelf: &mut Shelf, table: &Table) {
    let block = longest(random, table).to_bytes();
    if let Some(entry) = some_entry(random, shelf) {
        *entry = Entry::of(entry.campaign, &block);
        let most = MAX_BLOCK_BYTES as u16;
        entry.length = random.pick(&[most + 1, most + 1, most + 256, 65535, random.number().max(most)]);
    }
}

fn other_block_length(random: &Random, shelf: &mut Shelf, _: &Table) {
    change(random, shelf, |random, entry| {
        let old = entry.length;
        let others = [old.wrapping_add(1), old.wrapping_sub(1), old ^ 256, old.swap_bytes(), 0, 4, random.number()];
        entry.length = random.pick(&others);
    });
}

/// A byte behind the block.
fn behind(random: &Random, shelf: &mut Shelf, _: &Table) {
    change(random, shelf, |random, entry| {
        let first = usize::from(entry.length);
        if first < MAX_BLOCK_BYTES {
            let last = MAX_BLOCK_BYTES - 1;
            let at = random.pick(&[first, last, random.between(first, last)]);
            entry.bytes[at] = random.byte().max(1);
        }
    });
}

/// Another that is up to 3: mostly in form still.
fn campaign(random: &Random, shelf: &mut Shelf, _: &Table) {
    change(random, shelf, |random, entry| entry.campaign = random.below(CAMPAIGNS) as u8);
}

fn campaign_beyond(random: &Random, shelf: &mut Shelf, _: &Table) {
    change(random, shelf, |random, entry| {
        let most = CAMPAIGNS as u8;
        entry.campaign = random.pick(&[most, most, most + entry.campaign, 128, 255, random.byte().max(most)]);
    });
}

/// In the place of another that waits for the same campaign: so nothing else breaks.
fn twice(random: &Random, shelf: &mut Shelf, _: &Table) {
    if let Some((one, other)) = two_of_a_campaign(random, shelf) {
        shelf.entries[other] = shelf.entries[one];
    }
}

fn two_of_a_campaign(random: &Random, shelf: &Shelf) -> Option<(usize, usize)> {
    let campaign = random.below(CAMPAIGNS) as u8;
    let mut own: Vec<usize> = (0..shelf.count).filter(|&at| shelf.entries[at].campaign == campaign).collect();
    random.shuffle(&mut own);
    (own.len() > 1).then(|| (own[0], own[1]))
}

/// Equal bytes may wait for two campaigns.
fn for_another_too(random: &Random, shelf: &mut Shelf, _: &Table) {
    if shelf.count > 1 {
        let [one, other] = [0, 1].map(|_| random.below(shelf.count));
        let campaign = shelf.entries[other].campaign;
        shelf.entries[other] = Entry { campaign, ..shelf.entries[one] };
    }
}

/// Different in one bit alone, which the reader mostly doesn't mind: that is different.
fn nearly_twice(random: &Random, shelf: &mut Shelf, _: &Table) {
    if let Some((one, other)) = two_of_a_campaign(random, shelf) {
        let mut near = shelf.entries[one];
        let length = usize::from(near.length);
        let at = random.pick(&[0, 2, length - 1, length - 1]);
        near.bytes[at] ^= random.pick(&[1, 2, 128]);
        shelf.entries[other] = near;
    }
}

/// One more than a campaign may hold.
fn eleven(random: &Random, shelf: &mut Shelf, table: &Table) {
    fill(random, shelf, table, |shelf, campaign| shelf.holds(campaign) <= MOST_HELD);
}

/// One more than leaves the others what they lack.
fn one_short(random: &Random, shelf: &mut Shelf, table: &Table) {
    fill(random, shelf, table, |shelf, campaign| shelf.free() >= shelf.others_lack(campaign));
}

/// New blocks come to wait for a campaign as long as this holds and there are places.
fn fill(random: &Random, shelf: &mut Shelf, table: &Table, more: fn(&Shelf, u8) -> bool) {
    let campaign = random.below(CAMPAIGNS) as u8;
    while shelf.free() > 0 && more(shelf, campaign) {
        let block = some_block(random, table, &mut table.clone());
        if !shelf.waits(campaign, &block) {
            shelf.put(campaign, &block);
        }
    }
}

/// An entry of nothing among the others.
fn gap(random: &Random, shelf: &mut Shelf, _: &Table) {
    change(random, shelf, |_, entry| *entry = Entry::of(entry.campaign, &[]));
}

/// A request that the reader refuses, at the end.
fn bad_request(random: &Random, shelf: &mut Shelf, _: &Table) {
    change(random, shelf, |random, entry| {
        let mut block = entry.block().to_vec();
        if block[4] > 0 {
            let length = block.len();
            let (slot, low) = random.pick(&[(8, 1), (255, 1), (0, 0)]);
            block[length - 3..].copy_from_slice(&[slot, 0, low]);
            *entry = Entry::of(entry.campaign, &block);
        }
    });
}

/// The last request gets the slot of an earlier one.
fn repeated_slot(random: &Random, shelf: &mut Shelf, _: &Table) {
    change(random, shelf, |random, entry| {
        let requests = usize::from(entry.bytes[4]);
        if requests > 1 {
            let last = usize::from(entry.length) - REQUEST_BYTES;
            entry.bytes[last] = entry.bytes[last - REQUEST_BYTES * random.between(1, requests - 1)];
        }
    });
}

fn repeated_reference(random: &Random, shelf: &mut Shelf, _: &Table) {
    change(random, shelf, |_, entry| {
        if entry.bytes[3] > 1 {
            entry.bytes.copy_within(HEADER_BYTES..HEADER_BYTES + 32, HEADER_BYTES + 32);
        }
    });
}

/// Another order is in form too.
fn exchanged(random: &Random, shelf: &mut Shelf, _: &Table) {
    if shelf.count > 1 {
        shelf.entries.swap(random.below(shelf.count), random.below(shelf.count));
    }
}
