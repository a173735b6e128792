//! A group of sites, each with a table of its own. Most build by the building rule alone, from what they hold, and hand
//! on all of it. Some choose what they refer to and are full all the same. Others fork, and show each version of a
//! block to some of the sites; or overlook blocks that they hold; or build nothing.

use crate::comparing::buffers::{Buffers, NextBlock, Sides};
use crate::comparing::compare::Compare;
use crate::comparing::difference::Difference;
use crate::drawing::campaign::requests_of;
use crate::drawing::draft::{lineage_of, Draft, Lineage};
use crate::drawing::random::Random;
use crate::drawing::record_contents::any_numbers;
use crate::drawing::tables_with_forks::places_left;
use crate::model::block::{self, list_bytes, Request};
use crate::model::setup::faults;
use crate::model::sha256::{sha256, Digest};
use crate::model::sizes::{BUFFER_NUMBERS, MAX_BLOCK_BYTES, MAX_REFERENCES, PLACES, SLOTS, TABLE_BYTES};
use crate::model::table::{places, Table};
use crate::model::watch::bit;

pub struct Group<'a> {
    random: &'a Random,
    habits: Habits,
    pub sites: u8,
    owners: [u8; SLOTS],
    /// All blocks that were built, each referring to earlier ones only. They are no more than a table holds.
    blocks: Vec<GroupBlock>,
    /// The controller of each site.
    controllers: Vec<Controller>,
}

/// A block that a site of the group built.
struct GroupBlock {
    bytes: Vec<u8>,
    digest: Digest,
    /// The blocks that it refers to: bit i is block i.
    references: u64,
    /// The sites that it can come to, as a mask: those that it is shown to, and all once a site holds it that hands on.
    comes_to: u16,
}

/// What a site has.
struct Controller {
    manner: Manner,
    sides: Sides,
    // Sets of blocks: bit i is block i.
    held: u64,
    /// Only wrong rules refuse one.
    refused: u64,
    /// One, unless the site has forked.
    branches: Vec<Branch>,
}

/// How a site builds.
#[derive(Clone, Copy, PartialEq)]
enum Manner {
    ByRule,
    Choosing,
    Forking,
    Overlooking,
    Silent,
}

#[derive(Clone, Copy)]
struct Branch {
    /// The last block of the branch.
    head: Option<usize>,
    /// The sites that its next blocks are shown to, as a mask.
    shown_to: u16,
}

/// A site with so many branches doesn't fork again.
const MOST_BRANCHES: usize = 3;

struct Habits {
    rounds: usize,
    /// Whether in the first round only owners build.
    owners_first: bool,
    /// Whether sites get the blocks of earlier rounds only, not those of the same round.
    in_step: bool,
    /// In one of so many rounds a site gets nothing and builds nothing.
    idle_one_in: usize,
    /// Of so many blocks that could come to a site, one comes later.
    late_one_in: usize,
    /// Whether all blocks come to all sites at the end, as far as they are handed on.
    settles: bool,
    /// In one of so many rounds a forking site forks.
    forks_one_in: usize,
    /// What is asked for.
    numbers: [u16; 3],
}

impl Habits {
    fn drawn(random: &Random, sites: u8) -> Habits {
        // A table is full after few rounds of many sites, so little of them may be lost.
        let many = sites > 7;
        Habits {
            rounds: if many { random.pick(&[4, 5, 6]) } else { random.pick(&[5, 6, 7, 8]) },
            owners_first: many || random.one_in(2),
            in_step: random.one_in(2),
            idle_one_in: if many { random.pick(&[12, 40, 1000]) } else { random.pick(&[6, 12, 1000]) },
            late_one_in: if many { random.pick(&[16, 64, 1000]) } else { random.pick(&[6, 16, 1000]) },
            settles: !random.one_in(4),
            forks_one_in: random.pick(&[1, 2, 4]),
            numbers: [random.pick(&[1, 42, 256]), random.pick(&[2, 43, 65535]), random.number().max(1)],
        }
    }
}

/// The manner of each site. Those that may not be full are none, at most f, or one more.
fn manners(random: &Random, sites: u8) -> Vec<Manner> {
    let faults = faults(sites) as usize;
    let others = random.pick(&[0, faults.min(1), faults, faults, faults, faults, faults, faults + 1]);
    let kinds = random.pick(&[
        &[Manner::Forking][..],
        &[Manner::Forking],
        &[Manner::Forking],
        &[Manner::Forking, Manner::Overlooking],
        &[Manner::Forking, Manner::Overlooking, Manner::Silent],
        &[Manner::Silent],
    ]);
    let mut manners: Vec<Manner> = (0..others).map(|_| random.pick(kinds)).collect();
    let choosing = if random.one_in(3) { random.between(0, usize::from(sites) - others) } else { 0 };
    manners.resize(others + choosing, Manner::Choosing);
    manners.resize(sites.into(), Manner::ByRule);
    random.shuffle(&mut manners);
    manners
}

/// Mostly sites that build by the rule, where there are any. Often one site owns all slots.
fn owners(random: &Random, manners: &[Manner]) -> [u8; SLOTS] {
    let by_rule = |site: &u8| manners[usize::from(*site)] == Manner::ByRule;
    let mut sites: Vec<u8> = (0..manners.len() as u8).filter(by_rule).collect();
    if sites.is_empty() || random.one_in(8) {
        sites = (0..manners.len() as u8).collect();
    }
    if random.one_in(2) {
        sites = vec![random.pick(&sites)];
    }
    std::array::from_fn(|_| random.pick(&sites))
}

impl<'a> Group<'a> {
    /// A group with fresh tables and any records.
    pub fn new(random: &'a Random, compare: &mut Compare) -> Result<Group<'a>, Difference> {
        // Those with few sites take less time.
        let few = random.pick(&[1, 4, 4, 4, 4, 4, 4, 4, 4, 7, 7, 10]);
        let sites = if random.one_in(20) { random.pick(&[13, 16]) } else { few };
        let manners = manners(random, sites);
        let owners = owners(random, &manners);
        let mut controllers = Vec::new();
        for manner in manners {
            let mut table = random.bytes(TABLE_BYTES);
            compare.fresh(sites, &owners, &mut table)?;
            let sides = Sides::new(Buffers::new(table, any_numbers(random, BUFFER_NUMBERS)));
            let branches = vec![Branch { head: None, shown_to: u16::MAX }];
            controllers.push(Controller { manner, sides, held: 0, refused: 0, branches });
        }
        let habits = Habits::drawn(random, sites);
        Ok(Group { random, habits, sites, owners, blocks: Vec::new(), controllers })
    }

    pub fn rounds(&self) -> usize {
        self.habits.rounds
    }

    /// The mask of the sites that build by the rule.
    pub fn by_rule(&self) -> u16 {
        let by_rule = |site: &u8| self.controllers[usize::from(*site)].manner == Manner::ByRule;
        (0..self.sites).filter(by_rule).fold(0, |mask, site| mask | bit(site))
    }

    /// A site's table by the model, and its records by what is compared with the model.
    pub fn table_and_records(&self, site: u8) -> (Table, &[u16]) {
        (self.table(site), &self.controllers[usize::from(site)].sides.tested.records)
    }

    fn table(&self, site: u8) -> Table {
        Table::from_bytes(&self.controllers[usize::from(site)].sides.expected.table)
    }

    /// Each site has its turn: blocks come to it, and then it builds.
    pub fn round(&mut self, compare: &mut Compare, round: usize) -> Result<(), Difference> {
        let mut order: Vec<u8> = (0..self.sites).collect();
        self.random.shuffle(&mut order);
        let before = self.blocks.len();
        for site in order {
            if self.random.one_in(self.habits.idle_one_in) {
                continue;
            }
            let known = if self.habits.in_step { before } else { self.blocks.len() };
            let now = |_: &usize| !self.random.one_in(self.habits.late_one_in);
            self.receive(compare, site, (0..known).filter(now).collect())?;
            if round > 0 || !self.habits.owners_first || self.owners.contains(&site) {
                self.turn(compare, site, round)?;
            }
        }
        Ok(())
    }

    /// The end.
    pub fn settle(&mut self, compare: &mut Compare) -> Result<(), Difference> {
        if self.habits.settles {
            for site in 0..self.sites {
                self.receive(compare, site, (0..self.blocks.len()).collect())?;
            }
        }
        Ok(())
    }

    // ---- What comes to a site

    /// Of these blocks those come to a site that can, in any order in which references come first.
    fn receive(&mut self, compare: &mut Compare, site: u8, blocks: Vec<usize>) -> Result<(), Difference> {
        loop {
            let Controller { held, refused, .. } = self.controllers[usize::from(site)];
            let can_come = |&block: &usize| {
                let built = &self.blocks[block];
                let to_come = (held | refused) >> block & 1 == 0 && built.comes_to & bit(site) != 0;
                to_come && built.references & !held == 0
            };
            let ready: Vec<usize> = blocks.iter().copied().filter(can_come).collect();
            if ready.is_empty() {
                return Ok(());
            }
            self.hold(compare, site, self.random.pick(&ready))?;
        }
    }

    /// Admits a block to a site's table and interprets it.
    fn hold(&mut self, compare: &mut Compare, site: u8, block: usize) -> Result<(), Difference> {
        let controller = &mut self.controllers[usize::from(site)];
        let built = &mut self.blocks[block];
        let answer = compare.admit(&mut controller.sides, &built.bytes, 1)?;
        if answer.refusal != 0 {
            controller.refused |= 1 << block;
            return Ok(());
        }
        compare.interpret(&mut controller.sides, answer.value)?;
        controller.held |= 1 << block;
        if controller.manner != Manner::Forking {
            built.comes_to = u16::MAX;
        }
        Ok(())
    }

    // ---- What a site builds

    /// A block on top of a branch; two where the site forks.
    fn turn(&mut self, compare: &mut Compare, site: u8, round: usize) -> Result<(), Difference> {
        let index = usize::from(site);
        let manner = self.controllers[index].manner;
        if manner == Manner::Silent {
            return Ok(());
        }
        let forks = manner == Manner::Forking && self.random.one_in(self.habits.forks_one_in);
        for branch in self.branches(site, forks) {
            let Branch { head, shown_to } = self.controllers[index].branches[branch];
            let requests = requests_of(self.random, &self.owners, &self.habits.numbers, site, round);
            let bytes = match manner {
                Manner::ByRule => self.build(compare, site, &requests)?,
                _ => Some(self.draft(site, head, requests)),
            };
            if let Some(block) = bytes.and_then(|bytes| self.issue(bytes, shown_to)) {
                self.hold(compare, site, block)?;
                self.controllers[index].branches[branch].head = Some(block);
            }
        }
        Ok(())
    }

    /// The branch that a site goes on with. Where it forks there are two in its place, each shown to some of the sites
    /// that saw the one.
    fn branches(&mut self, site: u8, forks: bool) -> Vec<usize> {
        let branches = &mut self.controllers[usize::from(site)].branches;
        let branch = self.random.below(branches.len());
        if !forks || branches.len() == MOST_BRANCHES {
            return vec![branch];
        }
        let Branch { head, shown_to } = branches[branch];
        let some = self.random.number();
        branches[branch].shown_to &= some;
        branches.push(Branch { head, shown_to: shown_to & !some });
        vec![branch, branches.len() - 1]
    }

    /// The block that the building rule gives. None if it is refused: only wrong rules do so.
    fn build(&mut self, compare: &mut Compare, site: u8, requests: &[Request]) -> Result<Option<Vec<u8>>, Difference> {
        let table = &self.controllers[usize::from(site)].sides.expected.table;
        let next = NextBlock { table, site, requests: &list_bytes(requests) };
        let (answer, output) = compare.build(&next, &[0; MAX_BLOCK_BYTES])?;
        Ok((answer.refusal == 0).then(|| output[..answer.value].to_vec()))
    }

    /// A block on top of another that doesn't come from the building rule.
    fn draft(&self, site: u8, head: Option<usize>, requests: Vec<Request>) -> Vec<u8> {
        let table = self.table(site);
        let parent = head.and_then(|head| table.place_of(&self.blocks[head].digest));
        let (site, sequence, set) = match self.controllers[usize::from(site)].manner {
            Manner::Choosing => chosen(self.random, &table, site, parent),
            Manner::Forking if self.random.one_in(2) => chosen(self.random, &table, site, parent),
            _ => lineage_of(self.random, &table, site, parent),
        };
        let mut references: Vec<Digest> = places(set).map(|place| table.rows[place].digest).collect();
        self.random.shuffle(&mut references);
        Draft { site, sequence, references, requests, verdict: 1 }.to_bytes()
    }

    /// Puts a block among the others, unless there are enough or it is one of them.
    fn issue(&mut self, bytes: Vec<u8>, shown_to: u16) -> Option<usize> {
        let digest = sha256(&bytes);
        let number_of = |digest: &Digest| self.blocks.iter().position(|block| block.digest == *digest);
        if self.blocks.len() == PLACES || number_of(&digest).is_some() {
            return None;
        }
        let references = block::references(&bytes).iter().filter_map(number_of).fold(0, |set, block| set | 1 << block);
        self.blocks.push(GroupBlock { bytes, digest, references, comes_to: shown_to });
        Some(self.blocks.len() - 1)
    }
}

/// The lineage of a site's next block that refers to some of what is left: to a block only where all that this one
/// refers to is referred to as well, or was before. So the site stays full, unless it forks.
fn chosen(random: &Random, table: &Table, site: u8, parent: Option<usize>) -> Lineage {
    let sequence = parent.map_or(0, |place| table.rows[place].sequence + 1);
    let mut known = table.own(site).fold(0, |set, own| set | table.rows[own].references | 1 << own);
    let mut set: u64 = parent.map_or(0, |place| 1 << place);
    for place in places_left(table, site) {
        let fits = (set.count_ones() as usize) < MAX_REFERENCES && table.rows[place].references & !known == 0;
        if fits && !random.one_in(8) {
            set |= 1 << place;
            known |= 1 << place;
        }
    }
    (site, sequence, set)
}
