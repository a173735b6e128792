//! Streams for the listing program: a setup and arrivals. The blocks of a campaign come in turn, with odd arrivals in
//! between and more blocks after them.

use crate::drawing::arrivals::{any, good, longest, over_long, short, Arrival};
use crate::drawing::campaign::Campaign;
use crate::drawing::random::Random;
use crate::drawing::tables;
use crate::model::calls::Calls;
use crate::model::listing::arrival_bytes;
use crate::model::sizes::{MAX_BLOCK_BYTES, PLACES};
use crate::model::table::Table;
use crate::model::Model;

pub struct Stream {
    pub setup: Vec<u8>,
    /// Each in its own bytes.
    pub arrivals: Vec<Vec<u8>>,
}

struct Habits {
    /// The blocks of the campaign come in any order. Those that come too early are lost.
    shuffled: bool,
    /// Before a block, one in so many times an odd arrival comes; and then perhaps another.
    odd_one_in: usize,
    /// How many more blocks come after the campaign's.
    more: usize,
    /// How many arrivals come before all others that are no blocks at all.
    shorts: usize,
}

const FEW: usize = 8;
/// So many arrivals don't count in one byte.
const MANY_SHORTS: usize = 260;

/// Knows by the model what the program holds, and so what fits.
struct Sender<'a> {
    random: &'a Random,
    model: &'a Model,
    campaign: &'a Campaign,
    table: Vec<u8>,
    earlier: Vec<Vec<u8>>,
    arrivals: Vec<Vec<u8>>,
}

impl Stream {
    pub fn drawn(random: &Random, model: &Model) -> Stream {
        let campaign = some_campaign(random);
        let table = Table::empty(campaign.sites, campaign.owners).to_bytes();
        let habits = Habits::drawn(random, &campaign);
        let mut sender =
            Sender { random, model, campaign: &campaign, table, earlier: Vec::new(), arrivals: Vec::new() };
        sender.send_all(&habits);
        Stream { setup: [&[campaign.sites][..], &campaign.owners].concat(), arrivals: sender.arrivals }
    }

    pub fn to_bytes(&self) -> Vec<u8> {
        [&self.setup[..], &self.arrivals.concat()].concat()
    }
}

/// Sometimes one without blocks: its setup may be any, and all that comes are other arrivals.
fn some_campaign(random: &Random) -> Campaign {
    if random.one_in(4) {
        let Table { sites, owners, .. } = tables::empty(random);
        Campaign { sites, owners, blocks: Vec::new() }
    } else {
        Campaign::drawn(random)
    }
}

impl Habits {
    fn drawn(random: &Random, campaign: &Campaign) -> Habits {
        let few = random.between(1, FEW);
        let fewest = if campaign.blocks.is_empty() { few } else { 0 };
        Habits {
            shuffled: random.one_in(16),
            odd_one_in: random.pick(&[3, 6, 12, 1000]),
            // Sometimes so many that the table is full before the last.
            more: random.pick(&[fewest, fewest, fewest, few, few, PLACES + FEW]),
            shorts: if random.one_in(32) { MANY_SHORTS } else { 0 },
        }
    }
}

impl Sender<'_> {
    fn send_all(&mut self, habits: &Habits) {
        for _ in 0..habits.shorts {
            self.send(short(self.random));
        }
        let mut order: Vec<usize> = (0..self.campaign.blocks.len()).collect();
        if habits.shuffled {
            self.random.shuffle(&mut order);
        }
        for block in order {
            self.odd_ones(habits);
            self.send(Arrival { block: self.campaign.blocks[block].bytes.clone(), verdict: 1 });
        }
        for _ in 0..habits.more {
            self.odd_ones(habits);
            self.send(good(self.random, &self.held()));
        }
        self.odd_ones(habits);
    }

    fn held(&self) -> Table {
        Table::from_bytes(&self.table)
    }

    fn send(&mut self, mut arrival: Arrival) {
        self.arrivals.push(arrival_bytes(arrival.verdict, &arrival.block));
        self.model.admit(&mut self.table, &mut arrival.block, arrival.verdict);
        // An over-long one doesn't come again: made longer still, its length might not fit into two bytes.
        if arrival.block.len() <= MAX_BLOCK_BYTES {
            self.earlier.push(arrival.block);
        }
    }

    fn odd_ones(&mut self, habits: &Habits) {
        while self.random.one_in(habits.odd_one_in) {
            let arrival = self.odd_one();
            self.send(arrival);
        }
    }

    /// An arrival that is mostly refused.
    fn odd_one(&self) -> Arrival {
        let random = self.random;
        match random.below(8) {
            0 => short(random),
            1 => longest(random, &self.held()),
            2 => over_long(random, &self.held()),
            3..=5 if !self.campaign.blocks.is_empty() => self.out_of_turn(),
            _ => any(random, &self.held(), &self.earlier),
        }
    }

    /// A block of the campaign that is held already, or comes without its references, or with another verdict.
    fn out_of_turn(&self) -> Arrival {
        let block = self.random.below(self.campaign.blocks.len());
        let verdict = self.random.pick(&[1, 1, 1, 0, 2, 255]);
        Arrival { block: self.campaign.blocks[block].bytes.clone(), verdict }
    }
}
