//! Document 01, "The table": a table as plain fields, from bytes and to bytes.
//!
//! Any bytes can be taken as a table; what a short buffer lacks reads as 0. Whether it is in form is said elsewhere.

use crate::model::sha256::Digest;
use crate::model::sizes::{DIGEST_BYTES, HEAD_BYTES, PLACES, ROW_BYTES, SLOTS, TABLE_BYTES};

/// What is held for one place.
#[derive(Clone, Copy, Debug, Default, PartialEq, Eq)]
pub struct Row {
    pub digest: Digest,
    pub site: u8,
    pub sequence: u16,
    /// A set of places: bit i is place i.
    pub references: u64,
    /// 0 if none.
    pub requests: [u16; SLOTS],
    /// 1 if interpreted, else 0.
    pub mark: u8,
}

#[derive(Clone)]
pub struct Table {
    /// Of the buffer that it was read from.
    pub length: usize,
    pub sites: u8,
    pub owners: [u8; SLOTS],
    /// 1 if the table has retired something, else 0.
    pub retired: u8,
    pub count: usize,
    pub rows: [Row; PLACES],
}

/// The places of a set, lowest first.
pub fn places(set: u64) -> impl Iterator<Item = usize> {
    let mut left = set;
    std::iter::from_fn(move || {
        let lowest = left.trailing_zeros() as usize;
        // Takes the lowest one out.
        left &= left.wrapping_sub(1);
        (lowest < PLACES).then_some(lowest)
    })
}

impl Table {
    /// The table of a setup with no block held.
    pub fn empty(sites: u8, owners: [u8; SLOTS]) -> Table {
        Table { length: TABLE_BYTES, sites, owners, retired: 0, count: 0, rows: [Row::default(); PLACES] }
    }

    /// The rows of the places below the count.
    pub fn held(&self) -> &[Row] {
        &self.rows[..self.count.min(PLACES)]
    }

    /// The rows from the count on.
    pub fn rest(&self) -> &[Row] {
        &self.rows[self.count.min(PLACES)..]
    }

    /// The place that holds the digest.
    pub fn place_of(&self, digest: &Digest) -> Option<usize> {
        self.held().iter().position(|row| row.digest == *digest)
    }

    /// The places that hold a site's blocks, lowest first.
    pub fn own(&self, site: u8) -> impl DoubleEndedIterator<Item = usize> + '_ {
        (0..self.held().len()).filter(move |&place| self.rows[place].site == site)
    }

    /// "any other has among its references exactly one block of its own site with the sequence number one less":
    /// how many there are. The sequence number isn't 0.
    pub fn parents(&self, site: u8, sequence: u16, references: u64) -> usize {
        places(references)
            .map(|place| &self.rows[place])
            .filter(|row| row.site == site && row.sequence == sequence - 1)
            .count()
    }

    /// "a block of sequence 0 has no parent; any other has ... exactly one".
    pub fn parent_rule(&self, site: u8, sequence: u16, references: u64) -> bool {
        sequence == 0 || self.parents(site, sequence, references) == 1
    }

    /// The set of the places that a place refers to, and of those that they refer to; itself left out. None for a place
    /// that no table has.
    pub fn ancestors(&self, place: usize) -> u64 {
        let mut set = self.rows.get(place).map_or(0, |row| row.references);
        // References are to lower places, so one pass from the highest down finds all.
        for lower in (0..place.min(PLACES)).rev() {
            if set >> lower & 1 == 1 {
                set |= self.rows[lower].references;
            }
        }
        set
    }

    pub fn from_bytes(bytes: &[u8]) -> Table {
        let mut whole = [0; TABLE_BYTES];
        let length = bytes.len().min(TABLE_BYTES);
        whole[..length].copy_from_slice(&bytes[..length]);
        let (head, rows) = whole.split_at(HEAD_BYTES);
        Table {
            length: bytes.len(),
            sites: head[0],
            owners: part(head, OWNERS),
            retired: head[RETIRED],
            count: head[COUNT].into(),
            rows: std::array::from_fn(|place| Row::from_bytes(&part(rows, ROW_BYTES * place))),
        }
    }

    pub fn to_bytes(&self) -> Vec<u8> {
        let mut bytes = vec![0; TABLE_BYTES];
        let (head, rows) = bytes.split_at_mut(HEAD_BYTES);
        head[0] = self.sites;
        head[OWNERS..RETIRED].copy_from_slice(&self.owners);
        head[RETIRED] = self.retired;
        head[COUNT] = self.count as u8;
        for (bytes, row) in rows.chunks_exact_mut(ROW_BYTES).zip(&self.rows) {
            // The bytes are zero already.
            if *row != Row::default() {
                bytes.copy_from_slice(&row.to_bytes());
            }
        }
        bytes
    }

    /// Writes the table over the bytes of a buffer; the bytes after a table's stay.
    pub fn write(&self, buffer: &mut [u8]) {
        let bytes = self.to_bytes();
        let length = bytes.len().min(buffer.len());
        buffer[..length].copy_from_slice(&bytes[..length]);
    }
}

// Where a table's fields begin that stand before its rows.
const OWNERS: usize = 1;
pub const RETIRED: usize = OWNERS + SLOTS;
pub const COUNT: usize = RETIRED + 1;
const _: () = assert!(COUNT + 1 == HEAD_BYTES);

// Where a row's fields begin.
const SITE: usize = DIGEST_BYTES;
const SEQUENCE: usize = SITE + 1;
const REFERENCES: usize = SEQUENCE + 2;
const REQUESTS: usize = REFERENCES + PLACES / 8;
const MARK: usize = REQUESTS + 2 * SLOTS;
const _: () = assert!(MARK + 1 == ROW_BYTES);

impl Row {
    fn from_bytes(bytes: &[u8; ROW_BYTES]) -> Row {
        Row {
            digest: part(bytes, 0),
            site: bytes[SITE],
            sequence: u16::from_be_bytes(part(bytes, SEQUENCE)),
            // Low byte first, and in a byte the low bit first.
            references: u64::from_le_bytes(part(bytes, REFERENCES)),
            requests: std::array::from_fn(|slot| u16::from_be_bytes(part(bytes, REQUESTS + 2 * slot))),
            mark: bytes[MARK],
        }
    }

    fn to_bytes(self) -> [u8; ROW_BYTES] {
        let mut bytes = [0; ROW_BYTES];
        bytes[..SITE].copy_from_slice(&self.digest);
        bytes[SITE] = self.site;
        bytes[SEQUENCE..REFERENCES].copy_from_slice(&self.sequence.to_be_bytes());
        bytes[REFERENCES..REQUESTS].copy_from_slice(&self.references.to_le_bytes());
        for (bytes, number) in bytes[REQUESTS..MARK].chunks_exact_mut(2).zip(self.requests) {
            bytes.copy_from_slice(&number.to_be_bytes());
        }
        bytes[MARK] = self.mark;
        bytes
    }
}

/// N bytes, from one on.
fn part<const N: usize>(bytes: &[u8], at: usize) -> [u8; N] {
    bytes[at..at + N].try_into().expect("as many bytes")
}
