//! Campaigns: blocks of several sites, some of which fork, each referring to most of the latest blocks of the others.

use crate::drawing::draft::Draft;
use crate::drawing::random::Random;
use crate::model::block::Request;
use crate::model::setup::faults;
use crate::model::sha256::{sha256, Digest};
use crate::model::sizes::{MAX_REFERENCES, MAX_REQUESTS, PLACES, SLOTS};

/// A block of a campaign, with what the drawing of further blocks needs of it.
pub struct CampaignBlock {
    pub bytes: Vec<u8>,
    /// The blocks that it refers to: bit i is block i.
    pub references: u128,
    pub digest: Digest,
    pub site: u8,
    pub sequence: u16,
}

pub struct Campaign {
    pub sites: u8,
    pub owners: [u8; SLOTS],
    /// Each refers to earlier ones only.
    pub blocks: Vec<CampaignBlock>,
}

/// Some campaigns have more blocks than a table holds.
const MOST_BLOCKS: usize = PLACES + 6;
// Sets of blocks have a bit for each.
const _: () = assert!(MOST_BLOCKS <= u128::BITS as usize);

/// A site with so many branches doesn't fork again.
const MOST_BRANCHES: usize = 3;

/// How the sites of a campaign behave.
struct Habits {
    rounds: usize,
    most_blocks: usize,
    /// Of so many latest blocks one isn't referred to.
    overlooked_one_in: usize,
    /// In one of so many rounds a site builds nothing.
    idle_one_in: usize,
    /// Whether blocks refer to those of the round before only, not to those of their own round.
    in_step: bool,
    /// The sites that fork, as a mask.
    forking: u16,
    /// Of so many looks at another site's branches one isn't at the same branch as ever.
    mixed_one_in: usize,
    /// What is asked for. The same numbers come again, from other sites and in other branches.
    numbers: [u16; 3],
}

/// The last block of each branch of a site.
type Heads = Vec<usize>;

struct Builder<'a> {
    random: &'a Random,
    habits: Habits,
    campaign: Campaign,
    /// The heads of each site.
    heads: Vec<Heads>,
}

/// A block that is to be built.
struct Plan<'a> {
    site: u8,
    parent: Option<usize>,
    sequence: u16,
    round: usize,
    /// What can be referred to, of each site.
    latest: &'a [Heads],
    /// Which branch of a forked site is looked at.
    view: usize,
}

impl Campaign {
    pub fn drawn(random: &Random) -> Campaign {
        // Those with few sites come to deliveries in few blocks, and so take less time.
        let few = random.pick(&[1, 1, 4, 4, 4, 4, 4, 4, 7, 7, 7, 10]);
        let sites = if random.one_in(16) { random.pick(&[13, 16]) } else { few };
        let some_site = || random.below(sites.into()) as u8;
        let owner = some_site();
        let one_owner = random.one_in(2);
        let owners = std::array::from_fn(|_| if one_owner { owner } else { some_site() });
        let mut builder = Builder {
            random,
            habits: Habits::drawn(random, sites, owners[0]),
            campaign: Campaign { sites, owners, blocks: Vec::new() },
            heads: vec![Heads::new(); sites.into()],
        };
        for round in 0..builder.habits.rounds {
            builder.round(round);
        }
        builder.campaign
    }
}

impl Habits {
    fn drawn(random: &Random, sites: u8, owner: u8) -> Habits {
        Habits {
            // A delivery needs four rounds, if they are in step.
            rounds: if sites > 4 { random.pick(&[4, 4, 5]) } else { random.pick(&[4, 5, 5, 6, 7]) },
            most_blocks: random.pick(&[PLACES, PLACES, PLACES, MOST_BLOCKS]),
            overlooked_one_in: random.pick(&[3, 5, 8, 16]),
            idle_one_in: random.pick(&[4, 8, 16]),
            in_step: random.one_in(2),
            forking: forking(random, sites, owner),
            mixed_one_in: random.pick(&[3, 8, 64]),
            numbers: [random.pick(&[1, 42, 256]), random.pick(&[2, 43, 65535]), random.number().max(1)],
        }
    }
}

/// None, at most f, or more. The owner is often among them: from its forks come two numbers.
fn forking(random: &Random, sites: u8, owner: u8) -> u16 {
    let faults = faults(sites) as usize;
    let count = random.pick(&[0, faults.min(1), faults, faults, faults + 1]);
    let mut order: Vec<u8> = (0..sites).collect();
    random.shuffle(&mut order);
    if random.one_in(2) {
        order.retain(|&site| site != owner);
        order.insert(0, owner);
    }
    order[..count].iter().fold(0, |mask, site| mask | 1 << site)
}

impl Builder<'_> {
    fn round(&mut self, round: usize) {
        let before = self.heads.clone();
        let mut order: Vec<u8> = (0..self.campaign.sites).collect();
        self.random.shuffle(&mut order);
        for site in order {
            if round == 0 || !self.random.one_in(self.habits.idle_one_in) {
                let latest = if self.habits.in_step { before.clone() } else { self.heads.clone() };
                self.turn(site, round, &latest);
            }
        }
    }

    /// A site's part of a round: a block on top of each of its branches, or two where it forks.
    fn turn(&mut self, site: u8, round: usize, latest: &[Heads]) {
        let random = self.random;
        let forking = self.habits.forking >> site & 1 == 1;
        let heads = std::mem::take(&mut self.heads[usize::from(site)]);
        let few = heads.len() < MOST_BRANCHES;
        let mut tops: Vec<Option<usize>> = heads.into_iter().map(Some).collect();
        if tops.is_empty() {
            tops.push(None);
        }
        for (branch, top) in tops.into_iter().enumerate() {
            // Each branch has its own view of the other sites, and so has each site that doesn't fork.
            let view = if forking { branch } else { site.into() };
            // Those who fork do it from the start, mostly.
            let twice = forking && few && (random.one_in(4) || round == 0 && !random.one_in(3));
            let sequence = top.map_or(0, |block| self.campaign.blocks[block].sequence + 1);
            let plan = |view| Plan { site, parent: top, sequence, round, latest, view };
            let views = view..=view + usize::from(twice);
            let built: Heads = views.filter_map(|view| self.build(&plan(view))).collect();
            // A branch that didn't grow keeps its head.
            let heads = if built.is_empty() { top.into_iter().collect() } else { built };
            self.heads[usize::from(site)].extend(heads);
        }
    }

    /// A new block, unless there are enough or it would be an old one once more.
    fn build(&mut self, plan: &Plan) -> Option<usize> {
        let blocks = &self.campaign.blocks;
        let references = self.references(plan);
        let draft = Draft {
            site: plan.site,
            sequence: plan.sequence,
            references: references.iter().map(|&block| blocks[block].digest).collect(),
            requests: requests_of(self.random, &self.campaign.owners, &self.habits.numbers, plan.site, plan.round),
            verdict: 1,
        };
        let bytes = draft.to_bytes();
        let digest = sha256(&bytes);
        if blocks.len() == self.habits.most_blocks || blocks.iter().any(|block| block.digest == digest) {
            return None;
        }
        let references = references.iter().fold(0, |set, block| set | 1 << block);
        let built = CampaignBlock { bytes, references, digest, site: plan.site, sequence: plan.sequence };
        self.campaign.blocks.push(built);
        Some(self.campaign.blocks.len() - 1)
    }

    /// The parent, most of the others' latest blocks, and sometimes an older block. In any order.
    fn references(&self, plan: &Plan) -> Vec<usize> {
        let random = self.random;
        let blocks = &self.campaign.blocks;
        let mut references = Vec::new();
        for (site, heads) in plan.latest.iter().enumerate() {
            if site != usize::from(plan.site) && !heads.is_empty() && !random.one_in(self.habits.overlooked_one_in) {
                self.look_at(heads, plan.view, &mut references);
            }
        }
        if !blocks.is_empty() && random.one_in(4) {
            references.push(random.below(blocks.len()));
        }
        let parent = |block: &usize| blocks[*block].site == plan.site && blocks[*block].sequence + 1 == plan.sequence;
        // No second parent; the one that there is comes last, so that it isn't cut off.
        references.retain(|block| !parent(block));
        references.sort_unstable();
        references.dedup();
        random.shuffle(&mut references);
        references.truncate(MAX_REFERENCES - usize::from(plan.parent.is_some()));
        references.extend(plan.parent);
        random.shuffle(&mut references);
        references
    }

    /// What is seen of another site: mostly the same branch each time, sometimes any, sometimes all.
    fn look_at(&self, heads: &Heads, view: usize, references: &mut Vec<usize>) {
        if !self.random.one_in(self.habits.mixed_one_in) {
            references.push(heads[view % heads.len()]);
        } else if self.random.one_in(2) {
            references.push(self.random.pick(heads));
        } else {
            references.extend(heads);
        }
    }
}

/// What a site asks for in a round. Owners ask early, and now and then again. Others ask too, in vain.
pub fn requests_of(random: &Random, owners: &[u8; SLOTS], numbers: &[u16], site: u8, round: usize) -> Vec<Request> {
    let request = |slot: u8| Request { slot, number: random.pick(numbers) };
    let asks = |slot: &u8| match (owners[usize::from(*slot)] == site, round) {
        (true, 0) => !random.one_in(4),
        (true, 1) => random.one_in(3),
        (true, _) => random.one_in(8),
        (false, _) => random.one_in(16),
    };
    let mut requests: Vec<Request> = (0..SLOTS as u8).filter(asks).map(request).collect();
    random.shuffle(&mut requests);
    requests.truncate(MAX_REQUESTS);
    requests
}
