//! Blocks that fit a table: drawn lawful, then faulty in ways that meet the checks one by one or together.

use crate::drawing::random::Random;
use crate::model::block::{self, Request};
use crate::model::sha256::Digest;
use crate::model::sizes::{DIGEST_BYTES, MAX_REFERENCES, MAX_REQUESTS, SLOTS};
use crate::model::table::{places, Row, Table};

/// A block's fields, and the verdict that it comes with.
pub struct Draft {
    pub site: u8,
    pub sequence: u16,
    pub references: Vec<Digest>,
    pub requests: Vec<Request>,
    pub verdict: u8,
}

impl Draft {
    pub fn to_bytes(&self) -> Vec<u8> {
        block::to_bytes(self.site, self.sequence, &self.references, &self.requests)
    }
}

/// 0, 1 and the most often, since mistakes lie there.
fn some_count(random: &Random, most: usize) -> usize {
    let any = random.between(0, most);
    random.pick(&[0, 1, most, any, any, any])
}

/// A number that isn't 0, with both bytes telling.
fn some_number(random: &Random) -> u16 {
    let any = random.number().max(1);
    random.pick(&[1, 255, 256, 65535, any, any])
}

// ---- Lawful

/// A site, a sequence number and a set of places that keep the parent rule on top of the table's places.
pub type Lineage = (u8, u16, u64);

/// The lineage of a block of any site, which often forks.
pub fn lineage(random: &Random, table: &Table) -> Lineage {
    let site = random.below(table.sites.into()) as u8;
    let own: Vec<usize> = table.own(site).collect();
    // The last own block often, so that chains grow long; any other one makes a fork.
    let parent = match own.last() {
        Some(&last) if !random.one_in(4) => Some(if random.one_in(3) { random.pick(&own) } else { last }),
        _ => None,
    };
    lineage_of(random, table, site, parent)
}

/// The lineage of a site's block on top of another of its own; without one, of sequence number 0. Nothing comes on top of
/// the last number.
pub fn lineage_of(random: &Random, table: &Table, site: u8, parent: Option<usize>) -> Lineage {
    let parent = parent.filter(|&place| table.rows[place].sequence < u16::MAX);
    let sequence = parent.map_or(0, |place| table.rows[place].sequence + 1);
    let second_parent = |place: usize| {
        let row = &table.rows[place];
        row.site == site && sequence > 0 && row.sequence == sequence - 1
    };
    let mut others: Vec<usize> = (0..table.count).filter(|&place| !second_parent(place)).collect();
    random.shuffle(&mut others);
    let room = MAX_REFERENCES - usize::from(parent.is_some());
    others.truncate(some_count(random, room));
    let set = others.iter().chain(&parent).fold(0, |set, place| set | 1 << place);
    (site, sequence, set)
}

/// A block that the table admits, unless it is full.
pub fn lawful(random: &Random, table: &Table) -> Draft {
    let (site, sequence, set) = lineage(random, table);
    let mut references: Vec<Digest> = places(set).map(|place| table.rows[place].digest).collect();
    random.shuffle(&mut references);
    Draft { site, sequence, references, requests: some_requests(random), verdict: 1 }
}

/// A block of the greatest length. A table that holds few blocks doesn't have all its references.
pub fn longest(random: &Random, table: &Table) -> Draft {
    let mut draft = lawful(random, table);
    fill_references(random, &mut draft, MAX_REFERENCES);
    fill_requests(random, &mut draft.requests, MAX_REQUESTS);
    draft
}

/// A lawful block with as many references to held blocks as a block may have: the table admits it if it holds enough.
pub fn longest_lawful(random: &Random, table: &Table) -> Draft {
    let mut draft = lawful(random, table);
    let parent = |row: &Row| row.site == draft.site && row.sequence.checked_add(1) == Some(draft.sequence);
    let others = table.held().iter().filter(|row| !parent(row) && !draft.references.contains(&row.digest));
    let others: Vec<Digest> = others.map(|row| row.digest).collect();
    draft.references.extend(others.iter().take(MAX_REFERENCES - draft.references.len()));
    fill_requests(random, &mut draft.requests, MAX_REQUESTS);
    draft
}

fn fill_references(random: &Random, draft: &mut Draft, count: usize) {
    while draft.references.len() < count {
        draft.references.push(random.array());
    }
}

/// Adds requests of further slots, in any order, until there are so many; no more than there are slots.
fn fill_requests(random: &Random, requests: &mut Vec<Request>, count: usize) {
    let mut slots: Vec<u8> = (0..SLOTS as u8).filter(|slot| requests.iter().all(|other| other.slot != *slot)).collect();
    random.shuffle(&mut slots);
    slots.truncate(count.saturating_sub(requests.len()));
    requests.extend(slots.into_iter().map(|slot| Request { slot, number: some_number(random) }));
}

/// As many requests as a block may have, of different slots.
pub fn some_requests(random: &Random) -> Vec<Request> {
    let mut requests = Vec::new();
    fill_requests(random, &mut requests, some_count(random, MAX_REQUESTS));
    requests
}

// ---- Faults. Each breaks one rule, where the draft and the table have what it takes.

type Fault = fn(&Random, &Table, &mut Draft);

// Some stand here twice: they are the ones that other faults most often come before.
const FAULTS: [Fault; 16] = [
    bad_site,
    bad_verdict,
    |random, _, draft| bad_request(random, &mut draft.requests),
    |random, _, draft| bad_request(random, &mut draft.requests),
    |random, _, draft| repeated_slot(random, &mut draft.requests),
    |random, _, draft| repeated_slot(random, &mut draft.requests),
    repeated_reference,
    repeated_reference,
    missing_reference,
    missing_reference,
    other_sequence,
    other_sequence,
    lost_reference,
    second_parent,
    second_parent,
    long_list,
];

/// One to four faults.
pub fn spoil(random: &Random, table: &Table, draft: &mut Draft) {
    for _ in 0..random.pick(&[1, 1, 2, 3, 4]) {
        random.pick(&FAULTS)(random, table, draft);
    }
}

/// Puts an item into a list: between two others, or in the place of one, as it must be where the list is full.
/// The last index comes often, since mistakes lie there.
fn put_in<T>(random: &Random, list: &mut Vec<T>, most: usize, item: T) {
    if list.is_empty() || list.len() < most && random.one_in(2) {
        let at = random.pick(&[list.len(), random.between(0, list.len())]);
        list.insert(at, item);
    } else {
        let at = random.pick(&[list.len() - 1, random.below(list.len())]);
        list[at] = item;
    }
}

fn bad_site(random: &Random, table: &Table, draft: &mut Draft) {
    draft.site = site_from_n_on(random, table);
}

pub fn site_from_n_on(random: &Random, table: &Table) -> u8 {
    let n = table.sites;
    random.pick(&[n, n, n + 1, 255, random.byte().max(n)])
}

pub fn bad_verdict(random: &Random, _: &Table, draft: &mut Draft) {
    draft.verdict = random.pick(&[0, 2, 3, 129, 255, random.byte()]);
}

pub fn bad_request(random: &Random, requests: &mut Vec<Request>) {
    let slot = random.below(SLOTS) as u8;
    let beyond = random.pick(&[SLOTS as u8, SLOTS as u8, 255, random.byte().max(SLOTS as u8)]);
    let number = some_number(random);
    let (slot, number) = random.pick(&[(slot, 0), (beyond, number), (beyond, 0)]);
    put_in(random, requests, MAX_REQUESTS, Request { slot, number });
}

/// With another number or the same.
pub fn repeated_slot(random: &Random, requests: &mut Vec<Request>) {
    fill_requests(random, requests, 1);
    let Request { slot, number } = random.pick(requests);
    let number = random.pick(&[number, some_number(random)]);
    put_in(random, requests, MAX_REQUESTS, Request { slot, number });
}

fn repeated_reference(random: &Random, _: &Table, draft: &mut Draft) {
    if draft.references.is_empty() {
        draft.references.push(random.array());
    }
    let reference = random.pick(&draft.references);
    put_in(random, &mut draft.references, MAX_REFERENCES, reference);
}

pub fn missing_reference(random: &Random, table: &Table, draft: &mut Draft) {
    // A zero digest is what entries from the count on hold.
    let mut reference = random.pick(&[random.array(), [0; DIGEST_BYTES]]);
    if table.count > 0 && random.one_in(2) {
        reference = random.near(random.pick(table.held()).digest);
    }
    put_in(random, &mut draft.references, MAX_REFERENCES, reference);
}

fn other_sequence(random: &Random, _: &Table, draft: &mut Draft) {
    let old = draft.sequence;
    let any = random.number();
    // The same low byte under another high byte, and the other way round, tell whether both are looked at.
    let others = [old.wrapping_add(1), old.wrapping_sub(1), old ^ 256, old.swap_bytes(), 0, 1, 65535, any];
    draft.sequence = random.pick(&others);
}

/// Without the parent, if it was that one.
fn lost_reference(random: &Random, _: &Table, draft: &mut Draft) {
    if !draft.references.is_empty() {
        let at = random.below(draft.references.len());
        draft.references.remove(at);
    }
}

fn second_parent(random: &Random, table: &Table, draft: &mut Draft) {
    let parent = |row: &&Row| row.site == draft.site && row.sequence.checked_add(1) == Some(draft.sequence);
    let parents = table.held().iter().filter(parent);
    let new = parents.map(|row| row.digest).filter(|digest| !draft.references.contains(digest));
    let new: Vec<Digest> = new.collect();
    if !new.is_empty() {
        draft.references.push(random.pick(&new));
        random.shuffle(&mut draft.references);
    }
}

/// One reference or one request more than a block may have.
fn long_list(random: &Random, _: &Table, draft: &mut Draft) {
    if random.one_in(2) {
        fill_references(random, draft, MAX_REFERENCES + 1);
    } else {
        fill_requests(random, &mut draft.requests, MAX_REQUESTS + 1);
    }
}
