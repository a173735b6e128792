//! A small seeded generator (splitmix64), so that every case can be run again.

use std::cell::Cell;

use crate::model::sha256::Digest;
use crate::model::sizes::DIGEST_BYTES;

/// The state is a cell, so that one draw can stand among the arguments of another.
pub struct Random {
    state: Cell<u64>,
}

fn mixed(number: u64) -> u64 {
    let number = (number ^ (number >> 30)).wrapping_mul(0xbf58_476d_1ce4_e5b9);
    let number = (number ^ (number >> 27)).wrapping_mul(0x94d0_49bb_1331_11eb);
    number ^ (number >> 31)
}

impl Random {
    /// The generator of one case. It depends on nothing that other cases draw.
    pub fn for_case(seed: u64, case: u64) -> Random {
        Random { state: Cell::new(mixed(mixed(seed).wrapping_add(case))) }
    }

    fn next(&self) -> u64 {
        self.state.set(self.state.get().wrapping_add(0x9e37_79b9_7f4a_7c15));
        mixed(self.state.get())
    }

    /// A number below the bound, which isn't 0.
    pub fn below(&self, bound: usize) -> usize {
        ((u128::from(self.next()) * bound as u128) >> 64) as usize
    }

    /// A number from the first to the last, both included.
    pub fn between(&self, first: usize, last: usize) -> usize {
        first + self.below(last - first + 1)
    }

    pub fn one_in(&self, times: usize) -> bool {
        self.below(times) == 0
    }

    /// One of the items, of which there is at least one.
    pub fn pick<T: Copy>(&self, items: &[T]) -> T {
        items[self.below(items.len())]
    }

    pub fn byte(&self) -> u8 {
        self.next() as u8
    }

    pub fn number(&self) -> u16 {
        self.next() as u16
    }

    pub fn set(&self) -> u64 {
        self.next()
    }

    pub fn array<const N: usize>(&self) -> [u8; N] {
        std::array::from_fn(|_| self.byte())
    }

    pub fn bytes(&self, length: usize) -> Vec<u8> {
        (0..length).map(|_| self.byte()).collect()
    }

    pub fn shuffle<T>(&self, items: &mut [T]) {
        for last in (1..items.len()).rev() {
            items.swap(last, self.below(last + 1));
        }
    }

    /// The digest with one bit changed, often in the first or the last byte.
    pub fn near(&self, digest: Digest) -> Digest {
        let mut near = digest;
        let at = self.pick(&[0, DIGEST_BYTES - 1, self.below(DIGEST_BYTES)]);
        near[at] ^= 1 << self.below(8);
        near
    }

    /// Changes one bit, if there is one.
    pub fn flip_bit(&self, bytes: &mut [u8]) {
        if !bytes.is_empty() {
            let at = self.below(bytes.len());
            bytes[at] ^= 1 << self.below(8);
        }
    }
}
