//! The document's numbers, each behind one name.

/// What n may be.
pub const SITE_COUNTS: [u8; 6] = [1, 4, 7, 10, 13, 16];
pub const MAX_SITES: usize = 16;
pub const SLOTS: usize = 8;

pub const DIGEST_BYTES: usize = 32;
pub const HEADER_BYTES: usize = 5;
pub const REQUEST_BYTES: usize = 3;
pub const MAX_REFERENCES: usize = 16;
pub const MAX_REQUESTS: usize = 5;
pub const MAX_REQUEST_LIST_BYTES: usize = REQUEST_BYTES * MAX_REQUESTS;
pub const MAX_BLOCK_BYTES: usize = HEADER_BYTES + DIGEST_BYTES * MAX_REFERENCES + MAX_REQUEST_LIST_BYTES;

pub const PLACES: usize = 64;
pub const HEAD_BYTES: usize = 1 + SLOTS + 1 + 1;
pub const ROW_BYTES: usize = DIGEST_BYTES + 1 + 2 + PLACES / 8 + 2 * SLOTS + 1;
pub const TABLE_BYTES: usize = HEAD_BYTES + PLACES * ROW_BYTES;

/// Numbers of a record: four sent so far, two heard from each site, four made in the block.
pub const RECORD_NUMBERS: usize = 4 + 2 * MAX_SITES + 4;
/// Numbers that belong to one place: a record for each slot.
pub const PART_NUMBERS: usize = SLOTS * RECORD_NUMBERS;
pub const BUFFER_NUMBERS: usize = PLACES * PART_NUMBERS;

/// Campaigns that share a shelf.
pub const CAMPAIGNS: usize = 4;
pub const SHELF_PLACES: usize = 16;
/// How many places of the shelf a campaign may always hold, and how many at most.
pub const RESERVED: usize = 2;
pub const MOST_HELD: usize = 10;
/// A campaign, a length and a block.
pub const ENTRY_BYTES: usize = 1 + 2 + MAX_BLOCK_BYTES;
pub const SHELF_BYTES: usize = 1 + SHELF_PLACES * ENTRY_BYTES;
/// Two for each block that may wait for a campaign.
pub const OUTCOMES_NUMBERS: usize = 2 * MOST_HELD;

// The sums as the documents give them.
const _: () = assert!(ROW_BYTES == 60);
const _: () = assert!(TABLE_BYTES == 3851);
const _: () = assert!(RECORD_NUMBERS == 40);
const _: () = assert!(PART_NUMBERS == 320);
const _: () = assert!(BUFFER_NUMBERS == 20_480);
const _: () = assert!(OUTCOMES_NUMBERS == 20);
