//! Small tables that are watched, worked out by hand from document 01.

use super::holder::Holder;
use crate::model::answer::{AncestorPlaces, ForkedSites};
use crate::model::calls::Calls;
use crate::model::sizes::TABLE_BYTES;

pub fn all(calls: &dyn Calls) -> Vec<(&'static str, bool)> {
    let new = |sites| Holder::new(calls, sites);
    let thirteen = Holder::with_thirteen_blocks(calls);
    let zeros = Holder { table: vec![0; TABLE_BYTES], ..new(1) };
    let chain = chain(new(1));
    vec![
        // Forks. f is 0, 1, 2 and 5 for n 1, 4, 7 and 16.
        ("empty table: nobody forked", forks(&new(4)) == named(0, 0, true)),
        ("13 blocks: nobody forked", forks(&thirteen) == named(0, 0, true)),
        ("n 4, site 0 forks", forks(&with_blocks(new(4), &[0, 0])) == named(0b1, 1, true)),
        ("n 4, sites 0 and 3 fork", forks(&with_blocks(new(4), &[3, 0, 3, 0])) == named(0b1001, 2, false)),
        ("n 7, sites 0 and 3 fork", forks(&with_blocks(new(7), &[3, 0, 3, 0])) == named(0b1001, 2, true)),
        ("n 1, site 0 forks", forks(&with_blocks(new(1), &[0, 0])) == named(0b1, 1, false)),
        ("n 16, three blocks of site 15", forks(&with_blocks(new(16), &[15, 15, 15])) == named(0x8000, 1, true)),
        ("n 4, one block of each site: nobody forked", forks(&with_blocks(new(4), &[0, 1, 2, 3])) == named(0, 0, true)),
        ("sequence 1 twice below sequence 2", forks(&fork_below(new(4))) == named(0b100, 1, true)),
        ("all zeros, forks: 2", forks(&zeros) == ForkedSites { refusal: 2, ..ForkedSites::default() }),
        // Ancestors
        ("13 blocks: nine below the last", ancestors(&thirteen, 12) == found(0x1ff, 9)),
        ("13 blocks: five below the first READY", ancestors(&thirteen, 5) == found(0x1f, 5)),
        ("13 blocks: one below the first ECHO", ancestors(&thirteen, 1) == found(1, 1)),
        ("13 blocks: none below the first", ancestors(&thirteen, 0) == found(0, 0)),
        ("13 blocks, ancestors of place 13: 13", ancestors(&thirteen, 13) == refused(13)),
        ("13 blocks, ancestors of place 2^32: 13", ancestors(&thirteen, 1 << 32) == refused(13)),
        ("chain of four: three below the last", ancestors(&chain, 3) == found(0b111, 3)),
        ("empty table, ancestors of place 0: 13", ancestors(&new(1), 0) == refused(13)),
        ("all zeros, ancestors of place 0: 2", ancestors(&zeros, 0) == refused(2)),
    ]
}

fn named(sites: u16, count: u32, at_most_f: bool) -> ForkedSites {
    ForkedSites { refusal: 0, sites, count, at_most_f }
}

fn found(places: u64, count: u32) -> AncestorPlaces {
    AncestorPlaces { refusal: 0, places, count }
}

fn refused(refusal: u8) -> AncestorPlaces {
    AncestorPlaces { refusal, ..AncestorPlaces::default() }
}

/// With blocks of these sites, all of sequence number 0 and different.
fn with_blocks<'a>(mut holder: Holder<'a>, sites: &[u8]) -> Holder<'a> {
    for (number, &site) in (42..).zip(sites) {
        holder.block(site, 0, &[], Some(number));
    }
    holder
}

fn forks(holder: &Holder) -> ForkedSites {
    holder.calls.forks(&mut holder.table.clone())
}

fn ancestors(holder: &Holder, place: usize) -> AncestorPlaces {
    holder.calls.ancestors(&mut holder.table.clone(), place)
}

fn chain(mut holder: Holder) -> Holder {
    holder.block(0, 0, &[], Some(7));
    for place in 0..3 {
        holder.block(0, place as u16 + 1, &[place], None);
    }
    holder
}

/// The two blocks of sequence 1 aren't neighbours, and the greatest isn't one of them.
fn fork_below(mut holder: Holder) -> Holder {
    let first = holder.block(2, 0, &[], None);
    let second = holder.block(2, 1, &[first], None);
    holder.block(2, 2, &[second], None);
    holder.block(2, 1, &[first], Some(42));
    holder
}
