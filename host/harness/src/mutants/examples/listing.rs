//! Document 01's listing, and small ones worked out from it by hand. All owners are site 0.

use super::holder::Holder;
use super::{chain_from, requesting};
use crate::model::calls::Calls;
use crate::model::exit::Exit;
use crate::model::listing::arrival_bytes;
use crate::model::sizes::MAX_BLOCK_BYTES;

/// Setups for n 1 and n 4.
const ONE: [u8; 9] = [1, 0, 0, 0, 0, 0, 0, 0, 0];
const FOUR: [u8; 9] = [4, 0, 0, 0, 0, 0, 0, 0, 0];

const UNLAWFUL: &str = "- - - - - - 1\n";
const FIRST_REFUSED: &str = "0 - - - - - 3\n";

pub fn all(calls: &dyn Calls) -> Vec<(&'static str, bool)> {
    let lists = |input: &[u8], lines| lists(calls, input, lines);
    let one = |arrivals: &[u8]| [&ONE[..], arrivals].concat();
    let chain = arrivals(&chain_from(requesting(&[(0, 7)]), 4));
    let first = arrivals(&[requesting(&[(0, 7)])]);
    let [longer, longer_still] = [MAX_BLOCK_BYTES + 1, 65535].map(|length| arrival_bytes(0, &vec![0; length]));
    let two_slots = arrivals(&chain_from(requesting(&[(5, 7), (2, 9)]), 5));
    let thirteen = [&FOUR[..], &arrivals(&Holder::with_thirteen_blocks(calls).blocks)].concat();
    vec![
        ("the document's listing", lists(&one(&[&chain[..], &first].concat()), "3 3 0 3 0 7 0\n4 - - - - - 8\n")),
        (
            "13 blocks: four deliveries",
            lists(&thirteen, "9 9 0 3 0 42 0\n10 10 1 2 0 42 0\n11 11 2 2 0 42 0\n12 12 3 2 0 42 0\n"),
        ),
        ("two slots: the lower first, and once", lists(&one(&two_slots), "3 3 0 3 2 9 0\n3 3 0 3 5 7 0\n")),
        ("a slot twice: 18", lists(&one(&arrivals(&[requesting(&[(5, 7), (5, 9)])])), "0 - - - - - 18\n")),
        ("no bytes: 1", lists(&[], UNLAWFUL)),
        ("eight bytes: 1", lists(&ONE[..8], UNLAWFUL)),
        ("n 2: 1, and the end", lists(&[&[2], &ONE[1..], &chain].concat(), UNLAWFUL)),
        ("n 1, the last owner 1: 1", lists(&[1, 0, 0, 0, 0, 0, 0, 0, 1], UNLAWFUL)),
        ("a setup and nothing more: no line", lists(&ONE, "")),
        ("a block and nothing more: no line", lists(&one(&first), "")),
        ("one byte: 3", lists(&one(&[0]), FIRST_REFUSED)),
        ("a length without a verdict: 3", lists(&one(&[0, 0]), FIRST_REFUSED)),
        ("no bytes of a block, twice: 3 each", lists(&one(&[0, 0, 1, 0, 0, 1]), "0 - - - - - 3\n1 - - - - - 3\n")),
        ("a block without its last byte, verdict 0: 3", lists(&one(&[0, 5, 0, 9, 0, 0, 0]), FIRST_REFUSED)),
        ("a block of site 9, verdict 0: 4", lists(&one(&[0, 5, 0, 9, 0, 0, 0, 0]), "0 - - - - - 4\n")),
        (
            "a byte more than the longest block: 3, and the next",
            lists(&one(&[&longer[..], &chain].concat()), "0 - - - - - 3\n4 3 0 3 0 7 0\n"),
        ),
        (
            "65,535 bytes: 3, and the next",
            lists(&one(&[&longer_still[..], &chain].concat()), "0 - - - - - 3\n4 3 0 3 0 7 0\n"),
        ),
        ("all but the last of those bytes: 3, and the end", lists(&one(&longer[..longer.len() - 1]), FIRST_REFUSED)),
    ]
}

/// Each with verdict 1.
fn arrivals(blocks: &[Vec<u8>]) -> Vec<u8> {
    blocks.iter().flat_map(|block| arrival_bytes(1, block)).collect()
}

/// Whether a program that ended well wrote the names and these lines.
fn lists(calls: &dyn Calls, input: &[u8], lines: &str) -> bool {
    let output = ["arrival place site seq slot number refusal\n", lines].concat();
    calls.listing(input).other(&Exit::well(output.into_bytes())).is_none()
}
