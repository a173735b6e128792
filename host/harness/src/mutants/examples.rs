//! Document 01's own examples, as far as these calls go, further small ones worked out by hand from it and from
//! document 02, and published vectors of the digest. The self-test asks them of the model, which nothing else there
//! would contradict.

mod arrivals;
mod building;
mod holder;
mod interpretation;
mod joins;
mod listing;
mod lists;
mod promise;
mod retiring;
mod shelf_forms;
mod taking_back;
mod watch;

use crate::drawing::draft::Draft;
use crate::model::block::Request;
use crate::model::calls::Calls;
use crate::model::sha256::sha256;
use crate::model::sizes::{DIGEST_BYTES, MAX_REFERENCES, MAX_REQUESTS, PLACES, SLOTS, TABLE_BYTES};

/// The names of the examples that come out otherwise.
pub fn failed(calls: &dyn Calls) -> Vec<&'static str> {
    let mut examples = vec![
        ("digest of no bytes", digest(calls, b"") == NO_BYTES_DIGEST),
        ("digest of abc", digest(calls, b"abc") == ABC_DIGEST),
        ("digest of 56 bytes", digest(calls, FIFTY_SIX_BYTES) == FIFTY_SIX_BYTES_DIGEST),
        ("4 bytes: 3", read(calls, &[0; 4]) == 3),
        ("5 bytes, p and r 0: read", read(calls, &[0; 5]) == 0),
        ("the longest block: read", read(calls, &most_of_both(MAX_REQUESTS)) == 0),
        ("a request more: 3", read(calls, &most_of_both(MAX_REQUESTS + 1)) == 3),
        ("a byte more: 3", read(calls, &[most_of_both(MAX_REQUESTS), vec![0]].concat()) == 3),
        ("slots 3 and 3: 18 with 1", reads(calls, &[(3, 1), (3, 2)], 0) == (18, 1)),
        ("slots 0, 3, 3 and 0: 18 with 2", reads(calls, &[(0, 1), (3, 1), (3, 2), (0, 2)], 0) == (18, 2)),
        ("slots 0, 1, 2, 3 and 0: 18 with 4", reads(calls, &FIFTH_IS_FIRST, 0) == (18, 4)),
        ("slot 7 twice with one number: 18 with 1", reads(calls, &[(7, 9), (7, 9)], 0) == (18, 1)),
        ("five slots with one number: read", reads(calls, &[(7, 9), (0, 9), (3, 9), (6, 9), (1, 9)], 0) == (0, 0)),
        (
            "slots 3 and 3, and number 0 in the fifth request: 6",
            reads(calls, &[(3, 1), (3, 1), (0, 1), (1, 1), (2, 0)], 0) == (6, 4),
        ),
        ("slot 8 twice: 6", reads(calls, &[(8, 1), (8, 1)], 0) == (6, 0)),
        ("two equal references, and slot 0 in the fifth request: 18", reads(calls, &FIFTH_IS_FIRST, 2) == (18, 4)),
        ("two equal references: 7", reads(calls, &FIFTH_IS_FIRST[..4], 2) == (7, 1)),
        ("admission of slots 3 and 3: 18 with 1", admitted(calls, &[requesting(&[(3, 1), (3, 2)])]) == [(18, 1)]),
        ("sequence 1 without references: 10", admitted(calls, &[chained(1, &[])]) == [(10, 0)]),
        (
            "sequence 1 with both forks of sequence 0: 10",
            admitted(calls, &forks_and_child()) == [(0, 0), (0, 1), (10, 0)],
        ),
        (
            "64th block admitted, 65th 11",
            admitted(calls, &chain(PLACES + 1))[PLACES - 1..] == [(0, PLACES - 1), (11, 0)],
        ),
        ("65th that repeats a held one 8", admitted(calls, &full_and_again(5)).last() == Some(&(8, 5))),
    ];
    examples.extend(interpretation::all(calls));
    examples.extend(lists::all(calls));
    examples.extend(watch::all(calls));
    examples.extend(building::all(calls));
    examples.extend(listing::all(calls));
    examples.extend(promise::all(calls));
    examples.extend(shelf_forms::all(calls));
    examples.extend(arrivals::all(calls));
    examples.extend(joins::all(calls));
    examples.extend(retiring::all(calls));
    examples.extend(taking_back::all(calls));
    examples.into_iter().filter(|(_, holds)| !holds).map(|(name, _)| name).collect()
}

const NO_BYTES_DIGEST: &str = "e3b0c44298fc1c149afbf4c8996fb92427ae41e4649b934ca495991b7852b855";
const ABC_DIGEST: &str = "ba7816bf8f01cfea414140de5dae2223b00361a396177a9cb410ff61f20015ad";
const FIFTY_SIX_BYTES: &[u8] = b"abcdbcdecdefdefgefghfghighijhijkijkljklmklmnlmnomnopnopq";
const FIFTY_SIX_BYTES_DIGEST: &str = "248d6a61d20638b8e5c026930c3e6039a33ce45964ff2167f6ecedd419db06c1";

/// In hexadecimal.
fn digest(calls: &dyn Calls, message: &[u8]) -> String {
    let mut output = [0; DIGEST_BYTES];
    calls.digest(&mut message.to_vec(), &mut output);
    output.iter().map(|byte| format!("{byte:02x}")).collect()
}

fn read(calls: &dyn Calls, block: &[u8]) -> u8 {
    calls.read_block(&mut block.to_vec()).answer.refusal
}

const FIFTH_IS_FIRST: [(u8, u16); 5] = [(0, 1), (1, 1), (2, 1), (3, 1), (0, 2)];

/// The answer to a block with these requests, slot and number, and so many references, all equal.
fn reads(calls: &dyn Calls, requests: &[(u8, u16)], references: usize) -> (u8, usize) {
    let references = vec![[0; DIGEST_BYTES]; references];
    let mut block = Draft { site: 0, sequence: 0, references, requests: listed(requests), verdict: 1 }.to_bytes();
    let answer = calls.read_block(&mut block).answer;
    (answer.refusal, answer.value)
}

fn listed(requests: &[(u8, u16)]) -> Vec<Request> {
    requests.iter().map(|&(slot, number)| Request { slot, number }).collect()
}

/// A block with as many references as a block can have, and so many requests.
fn most_of_both(requests: usize) -> Vec<u8> {
    let references = (0..MAX_REFERENCES).map(|i| [i as u8; DIGEST_BYTES]).collect();
    let requests = (0..requests).map(|slot| Request { slot: slot as u8, number: 1 }).collect();
    Draft { site: 0, sequence: 0, references, requests, verdict: 1 }.to_bytes()
}

/// A block of site 0 that refers to these blocks.
fn chained(sequence: u16, before: &[Vec<u8>]) -> Vec<u8> {
    let references = before.iter().map(|block| sha256(block)).collect();
    Draft { site: 0, sequence, references, requests: Vec::new(), verdict: 1 }.to_bytes()
}

/// A block of site 0 that refers to nothing, with these requests: slot and number.
fn requesting(requests: &[(u8, u16)]) -> Vec<u8> {
    Draft { site: 0, sequence: 0, references: Vec::new(), requests: listed(requests), verdict: 1 }.to_bytes()
}

/// Blocks of site 0, each referring to the one before.
fn chain(length: usize) -> Vec<Vec<u8>> {
    chain_from(chained(0, &[]), length)
}

fn chain_from(first: Vec<u8>, length: usize) -> Vec<Vec<u8>> {
    let mut blocks = vec![first];
    while blocks.len() < length {
        let last = &blocks[blocks.len() - 1..];
        blocks.push(chained(blocks.len() as u16, last));
    }
    blocks
}

fn forks_and_child() -> Vec<Vec<u8>> {
    let forks = vec![requesting(&[(0, 42)]), requesting(&[(0, 43)])];
    let child = chained(1, &forks);
    [forks, vec![child]].concat()
}

fn full_and_again(place: usize) -> Vec<Vec<u8>> {
    let mut blocks = chain(PLACES);
    blocks.push(blocks[place].clone());
    blocks
}

/// The answers to these blocks in turn, for n 1.
fn admitted(calls: &dyn Calls, blocks: &[Vec<u8>]) -> Vec<(u8, usize)> {
    let mut table = vec![0; TABLE_BYTES];
    calls.fresh(1, &mut [0; SLOTS], &mut table);
    let answers = blocks.iter().map(|block| calls.admit(&mut table, &mut block.clone(), 1));
    answers.map(|answer| (answer.refusal, answer.value)).collect()
}
