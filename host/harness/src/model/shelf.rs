//! Document 02, "Four campaigns, sixteen waiting places": a shelf as plain fields, from bytes and to bytes.
//!
//! Any bytes can be taken as a shelf; what a short buffer lacks reads as 0. Whether it is in form is said elsewhere.

use crate::model::sizes::{CAMPAIGNS, ENTRY_BYTES, MAX_BLOCK_BYTES, RESERVED, SHELF_BYTES, SHELF_PLACES};

/// What stands at one place of the shelf.
#[derive(Clone, Copy, PartialEq, Eq)]
pub struct Entry {
    pub campaign: u8,
    /// As the entry has it, which may be more than a block's bytes.
    pub length: u16,
    /// The block, and what stands behind it.
    pub bytes: [u8; MAX_BLOCK_BYTES],
}

pub const NOTHING: Entry = Entry { campaign: 0, length: 0, bytes: [0; MAX_BLOCK_BYTES] };

impl Entry {
    pub fn of(campaign: u8, block: &[u8]) -> Entry {
        // Only a model without check 3 comes here with more bytes than a block has.
        let length = block.len().min(MAX_BLOCK_BYTES);
        let mut entry = Entry { campaign, length: length as u16, ..NOTHING };
        entry.bytes[..length].copy_from_slice(&block[..length]);
        entry
    }

    fn block_bytes(&self) -> usize {
        usize::from(self.length).min(MAX_BLOCK_BYTES)
    }

    pub fn block(&self) -> &[u8] {
        &self.bytes[..self.block_bytes()]
    }

    /// What stands behind the block.
    pub fn behind(&self) -> &[u8] {
        &self.bytes[self.block_bytes()..]
    }
}

#[derive(Clone)]
pub struct Shelf {
    /// Of the buffer that it was read from.
    pub length: usize,
    pub count: usize,
    pub entries: [Entry; SHELF_PLACES],
}

impl Shelf {
    pub fn empty() -> Shelf {
        Shelf { length: SHELF_BYTES, count: 0, entries: [NOTHING; SHELF_PLACES] }
    }

    /// What waits, in the order in which it came.
    pub fn waiting(&self) -> &[Entry] {
        &self.entries[..self.count.min(SHELF_PLACES)]
    }

    /// The entries from the count on.
    pub fn rest(&self) -> &[Entry] {
        &self.entries[self.count.min(SHELF_PLACES)..]
    }

    /// What waits for a campaign.
    pub fn of(&self, campaign: u8) -> impl Iterator<Item = &Entry> {
        self.waiting().iter().filter(move |entry| entry.campaign == campaign)
    }

    /// The blocks that wait for a campaign, in the order in which they came.
    pub fn blocks(&self, campaign: u8) -> Vec<Vec<u8>> {
        self.of(campaign).map(|entry| entry.block().to_vec()).collect()
    }

    /// How many places a campaign holds.
    pub fn holds(&self, campaign: u8) -> usize {
        self.of(campaign).count()
    }

    pub fn free(&self) -> usize {
        SHELF_PLACES.saturating_sub(self.count)
    }

    /// "what the others lack of their 2"
    pub fn others_lack(&self, campaign: u8) -> usize {
        let others = (0..CAMPAIGNS as u8).filter(|&other| other != campaign);
        others.map(|other| self.lacks(other, RESERVED)).sum()
    }

    /// What a campaign lacks of so many places.
    pub fn lacks(&self, campaign: u8, places: usize) -> usize {
        places.saturating_sub(self.holds(campaign))
    }

    /// "its bytes already wait for that campaign"
    pub fn waits(&self, campaign: u8, block: &[u8]) -> bool {
        self.of(campaign).any(|entry| entry.block() == block)
    }

    /// A block comes to wait, behind all others.
    pub fn put(&mut self, campaign: u8, block: &[u8]) {
        // Only a model without check 19, or with another, comes here with a full shelf.
        if let Some(next) = self.entries.get_mut(self.count) {
            *next = Entry::of(campaign, block);
            self.count += 1;
        }
    }

    /// "A place is free again once its block is let in or dropped." Those behind it move up.
    pub fn take(&mut self, entry: &Entry) {
        if let Some(at) = self.waiting().iter().position(|other| other == entry) {
            self.entries[at..].rotate_left(1);
            self.entries[SHELF_PLACES - 1] = NOTHING;
            self.count -= 1;
        }
    }

    pub fn from_bytes(bytes: &[u8]) -> Shelf {
        let byte = |at: usize| bytes.get(at).copied().unwrap_or(0);
        let mut shelf = Shelf { length: bytes.len(), count: byte(0).into(), ..Shelf::empty() };
        for (index, entry) in shelf.entries.iter_mut().enumerate() {
            let at = entry_at(index);
            entry.campaign = byte(at);
            entry.length = u16::from_be_bytes([byte(at + 1), byte(at + 2)]);
            let block = bytes.get(at + 3..).unwrap_or(&[]);
            let block = &block[..block.len().min(MAX_BLOCK_BYTES)];
            entry.bytes[..block.len()].copy_from_slice(block);
        }
        shelf
    }

    pub fn to_bytes(&self) -> Vec<u8> {
        let mut bytes = vec![0; SHELF_BYTES];
        bytes[0] = self.count as u8;
        for (index, entry) in self.entries.iter().enumerate() {
            let at = entry_at(index);
            bytes[at] = entry.campaign;
            bytes[at + 1..at + 3].copy_from_slice(&entry.length.to_be_bytes());
            bytes[at + 3..at + ENTRY_BYTES].copy_from_slice(&entry.bytes);
        }
        bytes
    }

    /// Writes the shelf over the bytes of a buffer; the bytes after a shelf's stay.
    pub fn write(&self, buffer: &mut [u8]) {
        let bytes = self.to_bytes();
        let length = bytes.len().min(buffer.len());
        buffer[..length].copy_from_slice(&bytes[..length]);
    }
}

/// Where an entry begins.
pub fn entry_at(index: usize) -> usize {
    1 + ENTRY_BYTES * index
}
