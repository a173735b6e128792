//! A keeper of a table: it gets the blocks of a campaign in an order of its own and interprets them by and by. It takes
//! some back, which come again. Calls that are refused come in between. The list of its calls is kept, to be replayed.

use crate::comparing::buffers::{Buffers, Sides};
use crate::comparing::compare::{CallList, Compare};
use crate::comparing::difference::Difference;
use crate::drawing::arrivals::any;
use crate::drawing::campaign::Campaign;
use crate::drawing::random::Random;
use crate::drawing::record_contents::{any_numbers, some_length};
use crate::drawing::target_places::any_target;
use crate::model::answer::Answer;
use crate::model::record::part_at;
use crate::model::replay::{admission, interpretation, taking_back};
use crate::model::sizes::{BUFFER_NUMBERS, TABLE_BYTES};
use crate::model::table::Table;

pub struct Keeper<'a> {
    campaign: &'a Campaign,
    sides: Sides,
    /// The block at each place; none for one that isn't of the campaign.
    held: Vec<Option<usize>>,
    // Sets of blocks: bit i is block i.
    admitted: u128,
    interpreted: u128,
    /// The blocks that come no more: the table is full.
    given_up: u128,
    calls: Vec<u8>,
    answers: Vec<Answer>,
    stages: Vec<Stage>,
}

/// How far the list of calls was at some time, and the buffers then.
struct Stage {
    bytes: usize,
    calls: usize,
    buffers: Buffers,
}

/// No keeper needs so many; one that found no end would otherwise go on for ever.
const ENOUGH_CALLS: usize = 1000;

struct Habits {
    /// The order in which blocks come that could be admitted.
    order: Order,
    /// Of so many calls that could be an interpretation, one is.
    interprets_one_in: usize,
    /// Of so many calls one is mostly refused.
    refused_one_in: usize,
    /// Of so many calls one takes back the last block, whether it can be or not.
    takes_back_one_in: usize,
    most_calls: usize,
    /// A stage comes after so many calls.
    stage_at: usize,
}

#[derive(Clone, Copy)]
enum Order {
    AsBuilt,
    LatestFirst,
    Any,
}

impl Habits {
    fn drawn(random: &Random, campaign: &Campaign) -> Habits {
        let calls = 2 * campaign.blocks.len();
        Habits {
            order: random.pick(&[Order::AsBuilt, Order::LatestFirst, Order::Any, Order::Any]),
            interprets_one_in: random.pick(&[1, 2, 4, 1000]),
            refused_one_in: random.pick(&[3, 6, 12, 1000]),
            takes_back_one_in: random.pick(&[8, 24, 1000, 1000]),
            most_calls: if random.one_in(4) { random.between(0, calls) } else { ENOUGH_CALLS },
            stage_at: random.between(0, 2 * calls),
        }
    }
}

impl<'a> Keeper<'a> {
    /// Makes all its calls.
    pub fn run(random: &Random, compare: &mut Compare, campaign: &'a Campaign) -> Result<Keeper<'a>, Difference> {
        let habits = Habits::drawn(random, campaign);
        let mut keeper = Keeper::new(random, compare, campaign)?;
        while keeper.answers.len() < habits.most_calls {
            if random.one_in(habits.refused_one_in) {
                keeper.odd_call(random, compare)?;
            } else if random.one_in(habits.takes_back_one_in) {
                keeper.take_back(compare)?;
            } else if !keeper.next_call(random, compare, &habits)? {
                break;
            }
            if keeper.answers.len() == habits.stage_at {
                keeper.stage();
            }
        }
        keeper.stage();
        Ok(keeper)
    }

    /// A keeper with a fresh table and any records.
    fn new(random: &Random, compare: &mut Compare, campaign: &'a Campaign) -> Result<Keeper<'a>, Difference> {
        let mut table = random.bytes(TABLE_BYTES);
        compare.fresh(campaign.sites, &campaign.owners, &mut table)?;
        let length = if random.one_in(16) { some_length(random) } else { BUFFER_NUMBERS };
        let mut keeper = Keeper {
            campaign,
            sides: Sides::new(Buffers::new(table, any_numbers(random, length))),
            held: Vec::new(),
            admitted: 0,
            interpreted: 0,
            given_up: 0,
            calls: Vec::new(),
            answers: Vec::new(),
            stages: Vec::new(),
        };
        keeper.stage();
        Ok(keeper)
    }

    /// The buffers as the calls so far have left them.
    pub fn buffers(&self) -> &Buffers {
        &self.sides.expected
    }

    fn stage(&mut self) {
        let buffers = self.buffers().table_and_records();
        self.stages.push(Stage { bytes: self.calls.len(), calls: self.answers.len(), buffers });
    }

    /// Replays the list from stage to stage.
    pub fn replay(&self, random: &Random, compare: &mut Compare) -> Result<(), Difference> {
        for (from, to) in self.stages.iter().zip(self.stages.iter().skip(1)) {
            let answers = &self.answers[from.calls..to.calls];
            let calls = &self.calls[from.bytes..to.bytes];
            let list = CallList { before: &from.buffers, calls, answers, after: &to.buffers };
            let room = 2 * answers.len();
            let length = random.pick(&[room, room, room + 1, room.saturating_sub(1), random.between(0, room + 3)]);
            let before: Vec<u64> = (0..length).map(|_| random.set()).collect();
            compare.replay_call_list(&list, &before)?;
        }
        Ok(())
    }

    // ---- Calls

    /// Admits bytes, which are those of a block of the campaign or others.
    fn admit(
        &mut self,
        compare: &mut Compare,
        bytes: &[u8],
        verdict: u8,
        block: Option<usize>,
    ) -> Result<(), Difference> {
        self.calls.extend(admission(verdict, bytes));
        let answer = compare.admit(&mut self.sides, bytes, verdict)?;
        self.answers.push(answer);
        let set = block.map_or(0, |block| 1 << block);
        match answer.refusal {
            0 => {
                self.held.push(block);
                self.admitted |= set;
            }
            // Other bytes that came may have been this block's.
            8 => {
                self.held[answer.value] = block.or(self.held[answer.value]);
                self.admitted |= set;
            }
            11 => self.given_up |= set,
            _ => {}
        }
        Ok(())
    }

    fn interpret(&mut self, compare: &mut Compare, place: usize) -> Result<(), Difference> {
        self.calls.extend(interpretation(place));
        let answer = compare.interpret(&mut self.sides, place)?;
        self.answers.push(answer);
        if answer.refusal == 0 {
            compare.counts.campaigns.acts(&part_at(&self.buffers().records, place));
        }
        // 14: it was interpreted before it was known as a block of the campaign.
        if [0, 14].contains(&answer.refusal) {
            self.interpreted |= self.held[place].map_or(0, |block| 1 << block);
        }
        Ok(())
    }

    fn take_back(&mut self, compare: &mut Compare) -> Result<(), Difference> {
        self.calls.extend(taking_back());
        let answer = compare.take_back(&mut self.sides)?;
        compare.counts.takings_back.by_keeper(answer);
        self.answers.push(answer);
        if answer.refusal == 0 {
            let block = self.held.pop().flatten();
            self.admitted &= !block.map_or(0, |block| 1 << block);
        }
        Ok(())
    }

    // ---- Which call comes next

    /// An interpretation, or an admission that is refused only if the table is full. Whether there was one.
    fn next_call(&mut self, random: &Random, compare: &mut Compare, habits: &Habits) -> Result<bool, Difference> {
        let ready = self.ready();
        // With a buffer of another length no place is ever interpreted.
        let open = if self.buffers().records.len() == BUFFER_NUMBERS { self.open() } else { Vec::new() };
        if !open.is_empty() && (ready.is_empty() || random.one_in(habits.interprets_one_in)) {
            self.interpret(compare, random.pick(&open))?;
            return Ok(true);
        }
        let (Some(&first), Some(&last)) = (ready.first(), ready.last()) else { return Ok(false) };
        let block = match habits.order {
            Order::AsBuilt => first,
            Order::LatestFirst => last,
            Order::Any => random.pick(&ready),
        };
        let campaign = self.campaign;
        self.admit(compare, &campaign.blocks[block].bytes, 1, Some(block))?;
        Ok(true)
    }

    /// The blocks that have still to come and whose references are all held.
    fn ready(&self) -> Vec<usize> {
        let to_come = |block: &usize| (self.admitted | self.given_up) >> block & 1 == 0;
        let known = |block: &usize| self.campaign.blocks[*block].references & !self.admitted == 0;
        (0..self.campaign.blocks.len()).filter(to_come).filter(known).collect()
    }

    /// The places of the campaign's blocks that can be interpreted.
    fn open(&self) -> Vec<usize> {
        let open = |block: usize| {
            let references = self.campaign.blocks[block].references;
            self.interpreted >> block & 1 == 0 && references & !self.interpreted == 0
        };
        let place_open = |place: &usize| self.held[*place].is_some_and(open);
        (0..self.held.len()).filter(place_open).collect()
    }

    /// A call that is mostly refused.
    fn odd_call(&mut self, random: &Random, compare: &mut Compare) -> Result<(), Difference> {
        let campaign = self.campaign;
        if campaign.blocks.is_empty() || random.one_in(3) {
            return self.interpret(compare, any_target(random, self.held.len()));
        }
        let block = random.below(campaign.blocks.len());
        let bytes = &campaign.blocks[block].bytes;
        match random.below(10) {
            0..=2 => self.admit(compare, bytes, random.pick(&[0, 2, 255]), Some(block)),
            // Few, since those that are admitted are often a fork.
            3 => {
                let held = Table::from_bytes(&self.buffers().table);
                let arrival = any(random, &held, &[]);
                self.admit(compare, &arrival.block, arrival.verdict, None)
            }
            // Held already, or without its references, or admitted.
            _ => self.admit(compare, bytes, 1, Some(block)),
        }
    }
}
