//! A controller that follows four campaigns, each with a table and records of its own, and keeps one shelf for all.
//! Blocks come out of order, again, for the wrong campaign or spoiled; other calls come in between.

use crate::comparing::buffers::{Buffers, Sides};
use crate::comparing::compare::arrival::arrival_facts;
use crate::comparing::compare::campaign_alone::alone;
use crate::comparing::compare::{CallList, Compare};
use crate::comparing::difference::Difference;
use crate::comparing::facts::arrival::ArrivalFacts;
use crate::comparing::facts::campaign_run::{Call, CampaignRun, Reply};
use crate::comparing::laws::{self, SharedAndAlone};
use crate::drawing::arrivals::{any, some_room, Arrival};
use crate::drawing::feed::{batch, lacking, Feed};
use crate::drawing::random::Random;
use crate::drawing::record_contents::any_numbers;
use crate::drawing::tables;
use crate::drawing::target_places::some_target;
use crate::model::answer::Answer;
use crate::model::block;
use crate::model::replay::{admission, interpretation, retiring, taking_back};
use crate::model::shelf::Shelf;
use crate::model::sizes::{BUFFER_NUMBERS, CAMPAIGNS, PLACES, TABLE_BYTES};
use crate::model::table::Table;

pub struct Controller<'a> {
    random: &'a Random,
    habits: Habits,
    /// The shelf, between calls.
    shelf: Sides,
    campaigns: Vec<FollowedCampaign>,
    /// What came so far, for any campaign.
    earlier: Vec<Vec<u8>>,
}

/// One of the campaigns that the controller follows.
struct FollowedCampaign {
    sites: u8,
    start: Buffers,
    sides: Sides,
    feed: Feed,
    calls: Vec<Call>,
    replies: Vec<Reply>,
    /// The campaign's calls as a list of plain ones, a block let in from the shelf being an admission of its own.
    list: Vec<u8>,
    answers: Vec<Answer>,
}

struct Habits {
    calls: usize,
    /// Each call is for one of these campaigns.
    turns: Vec<u8>,
    /// For each campaign: of so many arrivals one lacks a reference that never comes.
    floods_one_in: [usize; CAMPAIGNS],
    /// What comes for the first of these campaigns comes for the second too.
    twins: Option<(u8, u8)>,
    /// Of so many calls one is no arrival of the campaign's next block.
    odd_one_in: usize,
    /// Of so many arrivals that let waiting blocks in, one is taken back with these, or with some of them.
    takes_back_one_in: usize,
    /// Whether the laws about one arrival are held against each. Else only those about all calls of a campaign are,
    /// which otherwise come last: so wrong rules show whether these say something by themselves.
    each_by_itself: bool,
}

impl Habits {
    fn drawn(random: &Random, campaigns: &[FollowedCampaign]) -> Habits {
        let mut order: Vec<u8> = (0..CAMPAIGNS as u8).collect();
        random.shuffle(&mut order);
        // One, or two, may be busier than the others.
        let mut turns = order.clone();
        for &busy in &order[..random.pick(&[0, 1, 2, 2])] {
            turns.extend([busy; 6]);
        }
        // The second has at least as many sites, so that it knows all of the first.
        order[..2].sort_by_key(|&campaign: &u8| campaigns[usize::from(campaign)].sites);
        Habits {
            calls: random.pick(&[16, 32, 32, 64, 100]),
            turns,
            floods_one_in: std::array::from_fn(|_| random.pick(&[2, 12, 1000, 1000, 1000])),
            twins: random.one_in(2).then_some((order[0], order[1])),
            odd_one_in: random.pick(&[3, 5, 12, 100]),
            takes_back_one_in: random.pick(&[2, 4, 1000]),
            each_by_itself: !random.one_in(3),
        }
    }
}

impl<'a> Controller<'a> {
    /// A controller with an empty shelf, and with fresh tables but for some that are nearly full, or that can retire.
    pub fn new(random: &'a Random, compare: &mut Compare) -> Result<Controller<'a>, Difference> {
        let mut campaigns = Vec::new();
        for _ in 0..CAMPAIGNS {
            let empty = tables::empty(random);
            let sites = empty.sites;
            let mut table = random.bytes(TABLE_BYTES);
            compare.fresh(sites, &empty.owners, &mut table)?;
            if random.one_in(8) {
                table = tables::grown(random, empty, PLACES - random.pick(&[0, 1, 2, 4, 8])).to_bytes();
            } else if random.one_in(3) {
                table = interpreted_table(random, empty).to_bytes();
            }
            let start = Buffers::new(table, any_numbers(random, BUFFER_NUMBERS));
            campaigns.push(FollowedCampaign::new(sites, start));
        }
        let shelf = Buffers { shelf: Shelf::empty().to_bytes(), ..Buffers::default() };
        let (habits, shelf) = (Habits::drawn(random, &campaigns), Sides::new(shelf));
        Ok(Controller { random, habits, shelf, campaigns, earlier: Vec::new() })
    }

    pub fn run(&mut self, compare: &mut Compare) -> Result<(), Difference> {
        for _ in 0..self.habits.calls {
            self.call(compare)?;
        }
        let one = self.random.below(CAMPAIGNS) as u8;
        let looked_at = if self.habits.each_by_itself { vec![one] } else { (0..CAMPAIGNS as u8).collect() };
        looked_at.into_iter().try_for_each(|campaign| self.look_back(compare, campaign))
    }

    fn followed(&mut self, campaign: u8) -> &mut FollowedCampaign {
        &mut self.campaigns[usize::from(campaign)]
    }

    fn table(&self, campaign: u8) -> Table {
        Table::from_bytes(&self.campaigns[usize::from(campaign)].sides.expected.table)
    }

    fn waiting(&self) -> Shelf {
        Shelf::from_bytes(&self.shelf.expected.shelf)
    }

    // ---- Which call comes next

    fn call(&mut self, compare: &mut Compare) -> Result<(), Difference> {
        let random = self.random;
        let campaign = random.pick(&self.habits.turns);
        let table = self.table(campaign);
        if random.one_in(self.habits.odd_one_in) {
            return self.odd_call(compare, campaign, &table);
        }
        if random.one_in(self.habits.floods_one_in[usize::from(campaign)]) {
            let block = lacking(random, &table);
            self.arrive(compare, campaign, &Arrival { block, verdict: 1 })?;
        } else {
            let block = self.next_block(campaign, &table);
            let answer = self.arrive(compare, campaign, &Arrival { block: block.clone(), verdict: 1 })?;
            // Nothing was done with it, so that it can still come.
            if [17, 19].contains(&answer.refusal) && !random.one_in(4) {
                self.followed(campaign).feed.add(random, vec![block]);
            }
        }
        Ok(())
    }

    fn next_block(&mut self, campaign: u8, table: &Table) -> Vec<u8> {
        let random = self.random;
        let twin = self.habits.twins.filter(|(one, _)| *one == campaign).map(|(_, another)| another);
        if let Some(twin) = twin.filter(|_| self.followed(campaign).feed.is_empty()) {
            let blocks = batch(random, table);
            self.followed(twin).feed.add(random, blocks.clone());
            self.followed(campaign).feed.add(random, blocks);
        }
        self.followed(campaign).feed.next(random, table)
    }

    fn odd_call(&mut self, compare: &mut Compare, campaign: u8, table: &Table) -> Result<(), Difference> {
        let random = self.random;
        match random.below(15) {
            10..=12 => self.retire(compare, campaign),
            13 | 14 => self.take_back(compare, campaign).map(|_| ()),
            0..=3 => self.interpret(compare, campaign, some_target(random, table)),
            4 | 5 => {
                let block = self.again(campaign).unwrap_or_else(|| lacking(random, table));
                let verdict = if random.one_in(6) { random.pick(&[0, 2, 255]) } else { 1 };
                self.arrive(compare, campaign, &Arrival { block, verdict }).map(|_| ())
            }
            6 => self.arrive(compare, campaign, &any(random, table, &self.earlier)).map(|_| ()),
            7 => self.arrive_for_none(compare, campaign),
            // Past the shelf, unless it would be lost by that. What waits for such a block isn't tried.
            8 => {
                let arrival = Arrival { block: self.next_block(campaign, table), verdict: 1 };
                if block::references(&arrival.block).iter().all(|reference| table.place_of(reference).is_some()) {
                    self.admit(compare, campaign, arrival)
                } else {
                    self.arrive(compare, campaign, &arrival).map(|_| ())
                }
            }
            _ => {
                let block = self.again(campaign).unwrap_or_else(|| lacking(random, table));
                self.admit(compare, campaign, Arrival { block, verdict: 1 })
            }
        }
    }

    /// A block that came before: mostly one that waits, for the same campaign or for another.
    fn again(&self, campaign: u8) -> Option<Vec<u8>> {
        let random = self.random;
        let shelf = self.waiting();
        let own = shelf.blocks(campaign);
        let all: Vec<Vec<u8>> = shelf.waiting().iter().map(|entry| entry.block().to_vec()).collect();
        let from = random.pick(&[&own, &own, &all, &self.earlier]);
        (!from.is_empty()).then(|| from[random.below(from.len())].clone())
    }

    // ---- Calls

    fn arrive(&mut self, compare: &mut Compare, campaign: u8, arrival: &Arrival) -> Result<Answer, Difference> {
        let random = self.random;
        let followed = &mut self.campaigns[usize::from(campaign)];
        let room = some_room(random);
        followed.sides.swap_shelf(&mut self.shelf);
        let facts = arrival_facts(random, compare, &mut followed.sides, campaign, arrival, room)?;
        followed.sides.swap_shelf(&mut self.shelf);
        if self.habits.each_by_itself {
            laws::check_arrival(&facts)?;
        }
        let answer = facts.answer;
        let let_in = facts.tries().filter(|(_, answer)| answer.refusal == 0).map(|(arrival, _)| arrival.block.clone());
        let let_in: Vec<Vec<u8>> = let_in.collect();
        followed.note_arrival(facts, room);
        self.earlier.push(arrival.block.clone());
        if !let_in.is_empty() && random.one_in(self.habits.takes_back_one_in) {
            self.take_back_some(compare, campaign, arrival, let_in)?;
        }
        Ok(answer)
    }

    /// Some of the blocks that an arrival let in are taken back, or all and the arrival too. They may come again.
    fn take_back_some(
        &mut self,
        compare: &mut Compare,
        campaign: u8,
        arrival: &Arrival,
        let_in: Vec<Vec<u8>>,
    ) -> Result<(), Difference> {
        let random = self.random;
        let blocks = [vec![arrival.block.clone()], let_in].concat();
        let kept = random.pick(&[0, 0, random.below(blocks.len())]);
        for at in (kept..blocks.len()).rev() {
            let answer = self.take_back(compare, campaign)?;
            // The arrival came first, and all others had waited.
            compare.counts.takings_back.of_shelf(answer, at > 0);
        }
        if random.one_in(2) {
            self.followed(campaign).feed.add(random, blocks[kept..].to_vec());
        }
        Ok(())
    }

    /// An arrival for a campaign that there isn't, with the table of one that there is.
    fn arrive_for_none(&mut self, compare: &mut Compare, campaign: u8) -> Result<(), Difference> {
        let random = self.random;
        let table = self.table(campaign);
        let arrival = any(random, &table, &self.earlier);
        let followed = &mut self.campaigns[usize::from(campaign)];
        let beyond = [4, 4, 5, campaign + 4, campaign | 128, 255, random.byte().max(4)];
        followed.sides.swap_shelf(&mut self.shelf);
        let facts =
            arrival_facts(random, compare, &mut followed.sides, random.pick(&beyond), &arrival, some_room(random))?;
        followed.sides.swap_shelf(&mut self.shelf);
        laws::check_arrival(&facts)
    }

    fn admit(&mut self, compare: &mut Compare, campaign: u8, arrival: Arrival) -> Result<(), Difference> {
        let followed = self.followed(campaign);
        let answer = compare.admit(&mut followed.sides, &arrival.block, arrival.verdict)?;
        followed.list.extend(admission(arrival.verdict, &arrival.block));
        followed.note(Call::Admission(arrival), answer);
        Ok(())
    }

    fn interpret(&mut self, compare: &mut Compare, campaign: u8, place: usize) -> Result<(), Difference> {
        let followed = self.followed(campaign);
        let answer = compare.interpret(&mut followed.sides, place)?;
        followed.list.extend(interpretation(place));
        followed.note(Call::Interpretation(place), answer);
        Ok(())
    }

    /// What waits isn't tried after a retiring.
    fn retire(&mut self, compare: &mut Compare, campaign: u8) -> Result<(), Difference> {
        let followed = self.followed(campaign);
        let answer = compare.retire(&mut followed.sides)?;
        followed.list.extend(retiring());
        followed.note(Call::Retiring, answer);
        Ok(())
    }

    /// What waits isn't tried after a taking back.
    fn take_back(&mut self, compare: &mut Compare, campaign: u8) -> Result<Answer, Difference> {
        let followed = self.followed(campaign);
        let answer = compare.take_back(&mut followed.sides)?;
        followed.list.extend(taking_back());
        followed.note(Call::TakingBack, answer);
        Ok(answer)
    }

    // ---- Looking back

    /// One campaign's calls once more: alone with a shelf of its own, and as a list of plain calls.
    fn look_back(&mut self, compare: &mut Compare, campaign: u8) -> Result<(), Difference> {
        let waiting = self.waiting().blocks(campaign);
        let number = self.random.below(CAMPAIGNS) as u8;
        let followed = self.followed(campaign);
        let run = followed.campaign_run(waiting);
        let alone = alone(compare, &followed.start, &run, number)?;
        compare.counts.shelves.replayed_alone(&run);
        laws::check_campaign_runs(&SharedAndAlone { among_others: &run, alone: &alone })?;
        let after = followed.sides.expected.table_and_records();
        let FollowedCampaign { start: before, list: calls, answers, .. } = &*followed;
        compare.replay_call_list(&CallList { before, calls, answers, after: &after }, &vec![0; 2 * answers.len()])
    }
}

/// A table whose places are all interpreted.
fn interpreted_table(random: &Random, empty: Table) -> Table {
    let mut table = tables::grown(random, empty, random.between(2, PLACES));
    (0..table.count).for_each(|place| table.rows[place].mark = 1);
    tables::sometimes_aged(random, table)
}

impl FollowedCampaign {
    fn new(sites: u8, start: Buffers) -> FollowedCampaign {
        FollowedCampaign {
            sites,
            sides: Sides::new(start.clone()),
            start,
            feed: Feed::default(),
            calls: Vec::new(),
            replies: Vec::new(),
            list: Vec::new(),
            answers: Vec::new(),
        }
    }

    fn note(&mut self, call: Call, answer: Answer) {
        self.calls.push(call);
        self.replies.push(Reply { answer, listed: Vec::new() });
        self.answers.push(answer);
    }

    fn note_arrival(&mut self, facts: ArrivalFacts, room: usize) {
        for (arrival, answer) in facts.plain.into_iter().flat_map(|plain| plain.admissions) {
            self.list.extend(admission(arrival.verdict, &arrival.block));
            self.answers.push(answer);
        }
        self.calls.push(Call::Arrival(facts.arrival, room));
        self.replies.push(Reply { answer: facts.answer, listed: facts.listed });
    }

    /// The campaign's calls and what they left, with the blocks that wait.
    fn campaign_run(&self, waiting: Vec<Vec<u8>>) -> CampaignRun {
        let Buffers { table, records, .. } = self.sides.expected.table_and_records();
        CampaignRun { calls: self.calls.clone(), replies: self.replies.clone(), table, records, waiting }
    }
}
