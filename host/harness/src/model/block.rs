//! Document 01, "The block": its fields, its bytes, and the reader's checks 3, 6 and 7, with 18 of document 02.
//!
//! The fields are there for any bytes: of a list that is cut there are the whole items, of a missing byte a 0. So the
//! checks can be made in any order, which the self-test needs; the document's order refuses such bytes first.

use crate::model::answer::Fields;
use crate::model::checks::{first_refusal, Check};
use crate::model::sha256::Digest;
use crate::model::sizes::{DIGEST_BYTES, HEADER_BYTES, MAX_REFERENCES, MAX_REQUESTS, REQUEST_BYTES, SLOTS};

/// "Reading checks 3, 6 and 7", and 18 "straight after 6".
pub const CHECKS: [Check<[u8]>; 4] = [
    Check { number: 3, finds: misshapen },
    Check { number: 6, finds: bad_request },
    Check { number: 18, finds: repeated_slot },
    Check { number: 7, finds: repeated_reference },
];

#[derive(Clone, Copy, PartialEq, Eq)]
pub struct Request {
    pub slot: u8,
    pub number: u16,
}

impl Request {
    /// "slot, number (high byte first)"
    fn from_bytes(bytes: &[u8]) -> Request {
        Request { slot: bytes[0], number: u16::from_be_bytes([bytes[1], bytes[2]]) }
    }

    /// "slot over 7, or number 0"
    pub fn bad(&self) -> bool {
        usize::from(self.slot) >= SLOTS || self.number == 0
    }
}

/// The requests of a list that stands alone.
pub fn list_of(requests: &[u8]) -> Vec<Request> {
    requests.chunks_exact(REQUEST_BYTES).map(Request::from_bytes).collect()
}

/// A list of requests as bytes.
pub fn list_bytes(requests: &[Request]) -> Vec<u8> {
    requests.iter().flat_map(|request| [&[request.slot][..], &request.number.to_be_bytes()].concat()).collect()
}

/// A block of these fields. Its lists may be longer than a block's are.
pub fn to_bytes(site: u8, sequence: u16, references: &[Digest], requests: &[Request]) -> Vec<u8> {
    let mut bytes = vec![site];
    bytes.extend(sequence.to_be_bytes());
    bytes.push(references.len() as u8);
    bytes.push(requests.len() as u8);
    bytes.extend(references.iter().flatten());
    bytes.extend(list_bytes(requests));
    bytes
}

fn byte(block: &[u8], at: usize) -> u8 {
    block.get(at).copied().unwrap_or(0)
}

pub fn site(block: &[u8]) -> u8 {
    byte(block, 0)
}

/// High byte first.
pub fn sequence(block: &[u8]) -> u16 {
    u16::from_be_bytes([byte(block, 1), byte(block, 2)])
}

/// The document's p.
pub fn reference_count(block: &[u8]) -> usize {
    byte(block, 3).into()
}

/// The document's r.
pub fn request_count(block: &[u8]) -> usize {
    byte(block, 4).into()
}

/// "The reference list begins at byte 5 and the request list where it ends."
fn requests_at(block: &[u8]) -> usize {
    HEADER_BYTES + DIGEST_BYTES * reference_count(block)
}

fn items(block: &[u8], at: usize, size: usize, count: usize) -> impl Iterator<Item = &[u8]> {
    let list = block.get(at..).unwrap_or(&[]);
    list.chunks_exact(size).take(count)
}

pub fn references(block: &[u8]) -> Vec<Digest> {
    items(block, HEADER_BYTES, DIGEST_BYTES, reference_count(block))
        .map(|item| item.try_into().expect("a digest's bytes"))
        .collect()
}

pub fn requests(block: &[u8]) -> Vec<Request> {
    items(block, requests_at(block), REQUEST_BYTES, request_count(block)).map(Request::from_bytes).collect()
}

/// The number requested in each slot, 0 if none. A block that the reader accepts has at most one request of a slot.
pub fn counted_requests(block: &[u8]) -> [u16; SLOTS] {
    let requests = requests(block);
    std::array::from_fn(|slot| {
        requests.iter().find(|request| usize::from(request.slot) == slot).map_or(0, |request| request.number)
    })
}

pub fn fields(block: &[u8]) -> Fields {
    Fields {
        site: site(block),
        sequence: sequence(block),
        references: reference_count(block),
        requests: request_count(block),
    }
}

/// 3: a block under 5 bytes, `p` or `r` over its limit, or a wrong length.
pub fn misshapen(block: &[u8]) -> Option<usize> {
    let wrong = block.len() < HEADER_BYTES
        || reference_count(block) > MAX_REFERENCES
        || request_count(block) > MAX_REQUESTS
        || block.len() != requests_at(block) + REQUEST_BYTES * request_count(block);
    wrong.then_some(0)
}

/// 6: "slot over 7, or number 0", with the index of the first such request.
pub fn bad_request(block: &[u8]) -> Option<usize> {
    requests(block).iter().position(Request::bad)
}

/// 18: "a slot equal to an earlier one in the same block, with the index of the first such request".
pub fn repeated_slot(block: &[u8]) -> Option<usize> {
    repeated_slot_in(&requests(block))
}

/// The same in a list that stands alone.
pub fn repeated_slot_in(requests: &[Request]) -> Option<usize> {
    let slots: Vec<u8> = requests.iter().map(|request| request.slot).collect();
    first_repeated(&slots)
}

/// 7: "a reference equal to an earlier one", with the index of the first such.
pub fn repeated_reference(block: &[u8]) -> Option<usize> {
    first_repeated(&references(block))
}

/// The index of the first item that is equal to an earlier one.
fn first_repeated<T: PartialEq>(items: &[T]) -> Option<usize> {
    (0..items.len()).find(|&index| items[..index].contains(&items[index]))
}

/// Whether the reader accepts it.
pub fn accepted(block: &[u8]) -> bool {
    first_refusal(&CHECKS, block).is_none()
}
