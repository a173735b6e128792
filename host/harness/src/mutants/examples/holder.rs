//! A table and its records, for examples. Blocks go by their places.

use crate::drawing::draft::Draft;
use crate::model::block::Request;
use crate::model::calls::Calls;
use crate::model::sha256::{sha256, Digest};
use crate::model::sizes::{BUFFER_NUMBERS, SLOTS, TABLE_BYTES};
use crate::model::table::Table;

/// A table, its records and the blocks held. Site 0 owns all slots.
pub struct Holder<'a> {
    pub calls: &'a dyn Calls,
    pub table: Vec<u8>,
    pub records: Vec<u16>,
    /// The bytes of the block at each place.
    pub blocks: Vec<Vec<u8>>,
}

impl<'a> Holder<'a> {
    pub fn new(calls: &'a dyn Calls, sites: u8) -> Holder<'a> {
        let mut table = vec![0; TABLE_BYTES];
        calls.fresh(sites, &mut [0; SLOTS], &mut table);
        Holder { calls, table, records: vec![0; BUFFER_NUMBERS], blocks: Vec::new() }
    }

    /// A holder for n 4, with thirteen blocks.
    pub fn with_thirteen_blocks(calls: &'a dyn Calls) -> Holder<'a> {
        let mut holder = Holder::new(calls, 4);
        holder.thirteen_blocks();
        holder
    }

    pub fn interpret(&mut self, place: usize) -> (u8, usize) {
        let answer = self.calls.interpret(&mut self.table, place, &mut self.records);
        (answer.refusal, answer.value)
    }

    pub fn admit(&mut self, bytes: &[u8]) -> (u8, usize) {
        let answer = self.calls.admit(&mut self.table, &mut bytes.to_vec(), 1);
        (answer.refusal, answer.value)
    }

    /// The holder with a change that no call makes.
    pub fn changed(self, change: fn(&mut Table)) -> Holder<'a> {
        let mut table = Table::from_bytes(&self.table);
        change(&mut table);
        Holder { table: table.to_bytes(), ..self }
    }

    /// Admits a block and interprets it.
    pub fn block(&mut self, site: u8, sequence: u16, places: &[usize], number: Option<u16>) -> usize {
        let references = places.iter().map(|&place| self.digest(place)).collect();
        let requests = number.map(|number| Request { slot: 0, number }).into_iter().collect();
        let bytes = Draft { site, sequence, references, requests, verdict: 1 }.to_bytes();
        self.admit(&bytes);
        self.blocks.push(bytes);
        let place = self.blocks.len() - 1;
        self.interpret(place);
        place
    }

    pub fn digest(&self, place: usize) -> Digest {
        sha256(&self.blocks[place])
    }

    /// "owner 0 requests 42; four blocks refer to it, four to all of those, four to all of these". The places of the
    /// first one and of each four.
    pub fn thirteen_blocks(&mut self) -> [Vec<usize>; 4] {
        let first = vec![self.block(0, 0, &[], Some(42))];
        let mut round = |references: &[usize], round: u16| -> Vec<usize> {
            // Site 0 has a block more than the others.
            (0..4).map(|site| self.block(site, round + u16::from(site == 0), references, None)).collect()
        };
        let echoes = round(&first, 0);
        let readies = round(&echoes, 1);
        let deliveries = round(&readies, 2);
        [first, echoes, readies, deliveries]
    }
}
