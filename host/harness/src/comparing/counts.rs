//! What a run has met, so that its summary shows whether the cases reach what they should.

mod building;
mod campaigns;
mod groups;
mod joins;
mod listings;
mod long_campaigns;
mod retirings;
mod shelves;
mod takings_back;
mod watch;

use std::fmt::{self, Display, Formatter};

use building::BuiltBlocks;
use campaigns::Campaigns;
use groups::Groups;
use joins::Joins;
use listings::Listings;
use long_campaigns::LongCampaigns;
use retirings::Retirings;
use shelves::Shelves;
use takings_back::TakingsBack;
use watch::WatchedTables;

use crate::model::sizes::SITE_COUNTS;

pub use groups::PremisesMet;
pub use retirings::BlockHistory;
pub use takings_back::LastBlockHistory;

/// The calls whose answers are counted.
#[derive(Clone, Copy)]
pub enum Call {
    Admit,
    Interpret,
    Retire,
    TakeBack,
    Forks,
    Ancestors,
    Build,
    Arrive,
    Join,
}

/// Each with its name and the refusal numbers that it answers, in the order of the summary.
const CALLS: [(Call, &str, &[u8]); 9] = [
    (Call::Admit, "gt_admit", &[0, 2, 3, 4, 5, 6, 7, 8, 9, 10, 11, 18]),
    (Call::Interpret, "gt_interpret", &[0, 2, 12, 13, 14, 15]),
    (Call::Retire, "gt_retire", &[0, 2, 12, 13, 29]),
    (Call::TakeBack, "gt_take_back", &[0, 2, 32, 33]),
    (Call::Forks, "gt_forks", &[0, 2]),
    (Call::Ancestors, "gt_ancestors", &[0, 2, 13]),
    (Call::Build, "gt_build", &[0, 2, 3, 4, 6, 16, 17, 18, 30]),
    (Call::Arrive, "gt_arrive", &[0, 2, 3, 4, 5, 6, 7, 8, 9, 10, 11, 17, 18, 19, 20, 21]),
    (Call::Join, "gt_join", &[0, 2, 12, 23, 24, 25, 31]),
];

/// How often a call gave each answer, by its refusal number.
struct AnswerCounts([u64; REFUSALS]);

/// Refusal numbers end at 33.
const REFUSALS: usize = 34;

impl Default for AnswerCounts {
    fn default() -> Self {
        AnswerCounts([0; REFUSALS])
    }
}

impl AnswerCounts {
    fn note(&mut self, refusal: u8) {
        self.0[usize::from(refusal)] += 1;
    }

    fn all(&self) -> u64 {
        self.0.iter().sum()
    }
}

/// A line of the summary, in the parts of this module.
fn line(to: &mut Formatter, name: &str, times: u64) -> fmt::Result {
    writeln!(to, "{name:<52} {times:>8}")
}

/// A list of names, with how often each was met.
struct Times<const N: usize>([u64; N]);

impl<const N: usize> Times<N> {
    fn note(&mut self, met: [bool; N]) {
        self.0.iter_mut().zip(met).for_each(|(times, met)| *times += u64::from(met));
    }

    fn write(&self, to: &mut Formatter, names: [&str; N]) -> fmt::Result {
        names.iter().zip(self.0).try_for_each(|(name, times)| line(to, name, times))
    }
}

impl<const N: usize> Default for Times<N> {
    fn default() -> Self {
        Times([0; N])
    }
}

/// How many tables, or shelves, were in form, and how many weren't.
#[derive(Default)]
pub struct FormCounts {
    in_form: u64,
    not_in_form: u64,
}

impl FormCounts {
    pub fn note(&mut self, in_form: bool) {
        self.in_form += u64::from(in_form);
        self.not_in_form += u64::from(!in_form);
    }
}

/// The count of a number of sites, of those that a setup can have.
fn of_site_count<T>(counts: &mut [T; SITE_COUNTS.len()], sites: u8) -> &mut T {
    let index = SITE_COUNTS.iter().position(|&count| count == sites);
    &mut counts[index.expect("a lawful setup")]
}

#[derive(Default)]
pub struct Counts {
    pub cases: u64,
    pub fresh: u64,
    pub tables: FormCounts,
    pub reading: u64,
    pub digest: u64,
    pub campaigns: Campaigns,
    pub groups: Groups,
    pub watched_tables: WatchedTables,
    pub built_blocks: BuiltBlocks,
    pub shelves: Shelves,
    pub joins: Joins,
    pub retirings: Retirings,
    pub takings_back: TakingsBack,
    pub long_campaigns: LongCampaigns,
    pub listings: Listings,
    /// The answers of each call.
    answers: [AnswerCounts; CALLS.len()],
    replays: u64,
    /// The calls that ran in replays.
    replayed_calls: u64,
}

impl Counts {
    pub fn answer(&mut self, call: Call, refusal: u8) {
        self.answers[call as usize].note(refusal);
    }

    pub fn replay(&mut self, calls: usize) {
        self.replays += 1;
        self.replayed_calls += calls as u64;
    }
}

impl Display for Counts {
    fn fmt(&self, to: &mut Formatter) -> fmt::Result {
        // A run of listings makes no calls, and a run of calls lists nothing.
        if self.listings.any() {
            return self.listings.fmt(to);
        }
        writeln!(to, "gt_fresh      {:>8} calls", self.fresh)?;
        writeln!(to, "gt_in_form    {:>8} calls", self.tables.in_form + self.tables.not_in_form)?;
        for (call, name, _) in CALLS {
            writeln!(to, "{name:<13} {:>8} calls", self.answers[call as usize].all())?;
        }
        writeln!(to, "gt_replay     {:>8} calls of {} in all", self.replays, self.replayed_calls)?;
        writeln!(to, "gt_read_block {:>8} calls", self.reading)?;
        writeln!(to, "gt_digest     {:>8} calls", self.digest)?;
        for (call, name, numbers) in CALLS {
            for &number in numbers {
                let times = self.answers[call as usize].0[usize::from(number)];
                writeln!(to, "{name} answered {number:>2} {times:>8} times")?;
            }
        }
        writeln!(to, "tables in form     {:>8}", self.tables.in_form)?;
        writeln!(to, "tables not in form {:>8}", self.tables.not_in_form)?;
        write!(to, "{}{}{}{}", self.campaigns, self.watched_tables, self.built_blocks, self.groups)?;
        write!(to, "{}{}{}{}{}", self.shelves, self.joins, self.retirings, self.takings_back, self.long_campaigns)
    }
}
