//! A site's ledger without bounds: every block that was ever admitted with its mark, which of them stand at which
//! places, which of them count, and what each of them means by the whole history. It goes by the blocks' bytes alone
//! and has neither table nor records.

use std::collections::HashMap;

use crate::model::answer::Answer;
use crate::model::block;
use crate::model::interpretation::{hear, order, send};
use crate::model::process::{Message, Process, Slot};
use crate::model::record::{Part, Record, MADE, MESSAGES};
use crate::model::sha256::{sha256, Digest};
use crate::model::sizes::{BUFFER_NUMBERS, PLACES, RECORD_NUMBERS, SLOTS};
use crate::model::table::{Row, Table};
use crate::model::watch::bit;

/// A block that was ever admitted to the ledger.
pub struct LedgerBlock {
    pub digest: Digest,
    pub site: u8,
    pub sequence: u16,
    requests: [u16; SLOTS],
    /// The blocks that it refers to, by their numbers among those ever admitted.
    references: Vec<usize>,
    /// Its records, "from the setup and the bytes of the block and its ancestors alone".
    pub meaning: Part,
    /// The numbers that the owner of each slot requests in its ancestors.
    pub requested: [Vec<u16>; SLOTS],
    /// How often it was admitted, how many of these admissions were taken back, and whether it was ever retired.
    admitted: usize,
    taken_back: usize,
    retired: bool,
}

impl LedgerBlock {
    fn is_parent_of(&self, site: u8, sequence: u16) -> bool {
        self.site == site && self.sequence.checked_add(1) == Some(sequence)
    }

    /// Whether the two are a fork.
    pub fn is_twin_of(&self, other: &LedgerBlock) -> bool {
        (self.site, self.sequence) == (other.site, other.sequence) && self.digest != other.digest
    }
}

/// What stands at a place: a block, by its number among those ever admitted, and whether it is interpreted.
#[derive(Clone, Copy)]
struct LedgerPlace {
    block: usize,
    marked: bool,
}

pub struct Ledger {
    sites: u8,
    owners: [u8; SLOTS],
    /// How many numbers the record buffer has.
    numbers: usize,
    /// Each once, in the order in which they first came.
    blocks: Vec<LedgerBlock>,
    by_digest: HashMap<Digest, usize>,
    places: Vec<LedgerPlace>,
    retirings: usize,
    /// Whether a block counts, by how often it was admitted and taken back.
    counts: fn(usize, usize) -> bool,
}

fn refused(refusal: u8, value: usize) -> Answer {
    Answer { refusal, value }
}

impl Ledger {
    pub fn new(sites: u8, owners: [u8; SLOTS], numbers: usize, counts: fn(usize, usize) -> bool) -> Ledger {
        let (blocks, by_digest) = (Vec::new(), HashMap::new());
        Ledger { sites, owners, numbers, blocks, by_digest, places: Vec::new(), retirings: 0, counts }
    }

    // ---- The calls, by the checks of the documents on the ledger's own places and marks

    pub fn admit(&mut self, bytes: &[u8], verdict: u8) -> Answer {
        let digest = sha256(bytes);
        if let Some(refusal) = self.not_admitted(bytes, &digest, verdict) {
            return refusal;
        }
        // The same bytes once more are the same block, at a new place.
        let block = self.by_digest.get(&digest).copied().unwrap_or_else(|| self.add_block(bytes, digest));
        self.blocks[block].admitted += 1;
        self.places.push(LedgerPlace { block, marked: false });
        Answer::success(self.places.len() - 1)
    }

    fn not_admitted(&self, bytes: &[u8], digest: &Digest, verdict: u8) -> Option<Answer> {
        let (site, sequence, references) = (block::site(bytes), block::sequence(bytes), block::references(bytes));
        if block::misshapen(bytes).is_some() {
            return Some(refused(3, 0));
        }
        if site >= self.sites {
            return Some(refused(4, 0));
        }
        if verdict != 1 {
            return Some(refused(5, 0));
        }
        if let Some(index) = block::bad_request(bytes) {
            return Some(refused(6, index));
        }
        if let Some(index) = block::repeated_slot(bytes) {
            return Some(refused(18, index));
        }
        if let Some(index) = block::repeated_reference(bytes) {
            return Some(refused(7, index));
        }
        if let Some(place) = self.place_of(digest) {
            return Some(refused(8, place));
        }
        if let Some(index) = references.iter().position(|reference| self.place_of(reference).is_none()) {
            return Some(refused(9, index));
        }
        let parent = |reference: &&Digest| self.blocks[self.by_digest[*reference]].is_parent_of(site, sequence);
        if sequence != 0 && references.iter().filter(parent).count() != 1 {
            return Some(refused(10, 0));
        }
        (self.places.len() == PLACES).then(|| refused(11, 0))
    }

    pub fn interpret(&mut self, place: usize) -> Answer {
        if self.numbers != BUFFER_NUMBERS {
            return refused(12, 0);
        }
        if place >= self.places.len() {
            return refused(13, 0);
        }
        if self.places[place].marked {
            return refused(14, 0);
        }
        if let Some(lower) = self.unmarked_below(place) {
            return refused(15, lower);
        }
        self.places[place].marked = true;
        Answer::success(0)
    }

    pub fn retire(&mut self) -> Answer {
        if self.numbers != BUFFER_NUMBERS {
            return refused(12, 0);
        }
        if self.places.is_empty() {
            return refused(13, 0);
        }
        if !self.may_retire() {
            return refused(29, 0);
        }
        let left = self.places.remove(0);
        self.blocks[left.block].retired = true;
        self.retirings += 1;
        Answer::success(0)
    }

    /// "the ledger then loses that last place"
    pub fn take_back(&mut self) -> Answer {
        let Some(&LedgerPlace { block, marked }) = self.places.last() else { return refused(32, 0) };
        if marked {
            return refused(33, 0);
        }
        self.places.pop();
        self.blocks[block].taken_back += 1;
        Answer::success(0)
    }

    /// "if it is interpreted, every held block referring to it is interpreted, and its site has a held, interpreted block
    /// of greater sequence number"
    pub fn may_retire(&self) -> bool {
        let Some(first) = self.places.first() else { return false };
        let leaving = &self.blocks[first.block];
        let held = || self.places.iter().map(|place| (&self.blocks[place.block], place.marked));
        let follows = |block: &LedgerBlock| block.site == leaving.site && block.sequence > leaving.sequence;
        first.marked
            && held().all(|(block, marked)| marked || !block.references.contains(&first.block))
            && held().any(|(block, marked)| marked && follows(block))
    }

    // ---- What stands where

    pub fn count(&self) -> usize {
        self.places.len()
    }

    pub fn place_of(&self, digest: &Digest) -> Option<usize> {
        let block = *self.by_digest.get(digest)?;
        self.places.iter().position(|place| place.block == block)
    }

    pub fn at(&self, place: usize) -> &LedgerBlock {
        &self.blocks[self.places[place].block]
    }

    pub fn marked(&self, place: usize) -> bool {
        self.places[place].marked
    }

    /// Whether the block at a place refers to that at another.
    fn refers(&self, place: usize, other: usize) -> bool {
        self.at(place).references.contains(&self.places[other].block)
    }

    /// The lowest place that a place refers to and that isn't marked.
    fn unmarked_below(&self, place: usize) -> Option<usize> {
        (0..place).find(|&lower| !self.marked(lower) && self.refers(place, lower))
    }

    /// The places that can be interpreted.
    pub fn open(&self) -> Vec<usize> {
        let open = |place: &usize| !self.marked(*place) && self.unmarked_below(*place).is_none();
        (0..self.count()).filter(open).collect()
    }

    /// The table that the layout has for it. A place refers to lower ones only: a block that has left and come again stands
    /// above all that were there.
    pub fn table(&self) -> Table {
        let mut table = Table::empty(self.sites, self.owners);
        table.retired = u8::from(self.retirings > 0);
        table.count = self.count();
        for place in 0..self.count() {
            let LedgerBlock { digest, site, sequence, requests, .. } = *self.at(place);
            let lower = (0..place).filter(|&lower| self.refers(place, lower));
            let references = lower.fold(0, |set, lower| set | 1 << lower);
            let mark = u8::from(self.marked(place));
            table.rows[place] = Row { digest, site, sequence, references, requests, mark };
        }
        table
    }

    // ---- Every block ever admitted

    fn block(&self, digest: &Digest) -> Option<&LedgerBlock> {
        self.by_digest.get(digest).map(|&block| &self.blocks[block])
    }

    /// Whether a block was retired and isn't held now.
    pub fn is_gone(&self, digest: &Digest) -> bool {
        self.block(digest).is_some_and(|block| block.retired) && self.place_of(digest).is_none()
    }

    /// Whether a block was retired and is held again.
    pub fn has_returned(&self, digest: &Digest) -> bool {
        self.block(digest).is_some_and(|block| block.retired) && self.place_of(digest).is_some()
    }

    /// Whether an admission of a block was taken back.
    pub fn was_taken_back(&self, digest: &Digest) -> bool {
        self.block(digest).is_some_and(|block| block.taken_back > 0)
    }

    pub fn retirings(&self) -> usize {
        self.retirings
    }

    pub fn takings_back(&self) -> usize {
        self.blocks.iter().map(|block| block.taken_back).sum()
    }

    /// Every block that was ever admitted, also those that were taken back.
    pub fn blocks(&self) -> &[LedgerBlock] {
        &self.blocks
    }

    /// The blocks that count for the statement about two sites.
    pub fn counting(&self) -> impl Iterator<Item = &LedgerBlock> {
        self.blocks.iter().filter(|block| (self.counts)(block.admitted, block.taken_back))
    }

    fn add_block(&mut self, bytes: &[u8], digest: Digest) -> usize {
        let mut block = LedgerBlock {
            digest,
            site: block::site(bytes),
            sequence: block::sequence(bytes),
            requests: block::counted_requests(bytes),
            references: block::references(bytes).iter().map(|other| self.by_digest[other]).collect(),
            meaning: [[0; RECORD_NUMBERS]; SLOTS],
            requested: Default::default(),
            admitted: 0,
            taken_back: 0,
            retired: false,
        };
        let referred: Vec<&LedgerBlock> = block.references.iter().map(|&other| &self.blocks[other]).collect();
        let meaning = std::array::from_fn(|slot| self.record(&block, &referred, slot));
        let requested = std::array::from_fn(|slot| self.requested(&referred, slot));
        (block.meaning, block.requested) = (meaning, requested);
        self.blocks.push(block);
        self.by_digest.insert(digest, self.blocks.len() - 1);
        self.blocks.len() - 1
    }

    /// A slot's record, by the meanings of the blocks referred to.
    fn record(&self, block: &LedgerBlock, referred: &[&LedgerBlock], slot: usize) -> Record {
        let process = Process::document();
        let parent = referred.iter().find(|other| other.is_parent_of(block.site, block.sequence));
        let mut record = parent.map_or([0; RECORD_NUMBERS], |parent| parent.meaning[slot]);
        record[MADE..].fill(0);
        if block.site == self.owners[slot] && block.requests[slot] != 0 {
            send(&mut record, block.requests[slot], &process);
        }
        let made = |other: &&LedgerBlock| {
            let (sender, made) = (other.site, other.meaning[slot]);
            MESSAGES.map(|kind| Message { kind, sender, number: made[kind.made()] })
        };
        let mut messages: Vec<Message> = referred.iter().flat_map(made).filter(|message| message.number != 0).collect();
        order(&mut messages);
        let whose = Slot { sites: self.sites, owner: self.owners[slot], builder: block.site };
        hear(&process, &mut record, &whose, &messages);
        record
    }

    fn requested(&self, referred: &[&LedgerBlock], slot: usize) -> Vec<u16> {
        let own = |other: &&&LedgerBlock| other.site == self.owners[slot] && other.requests[slot] != 0;
        let direct = referred.iter().filter(own).map(|other| other.requests[slot]);
        let mut requested: Vec<u16> =
            referred.iter().flat_map(|other| other.requested[slot].clone()).chain(direct).collect();
        requested.sort_unstable();
        requested.dedup();
        requested
    }
}

/// The mask of the sites with "two different blocks of one sequence number" among these.
pub fn forked<'a>(blocks: impl Iterator<Item = &'a LedgerBlock>) -> u16 {
    let mut first: HashMap<(u8, u16), Digest> = HashMap::new();
    blocks.fold(0, |mask, block| {
        let other = *first.entry((block.site, block.sequence)).or_insert(block.digest) != block.digest;
        mask | if other { bit(block.site) } else { 0 }
    })
}
