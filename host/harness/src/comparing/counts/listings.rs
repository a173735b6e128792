//! What listings have met.

use std::fmt::{self, Display, Formatter};

use super::{of_site_count, AnswerCounts};
use crate::model::listing::{first, Line, StreamArrival, LENGTH_BYTES, SETUP_BYTES};
use crate::model::sizes::{HEADER_BYTES, MAX_BLOCK_BYTES, PLACES, SITE_COUNTS};

#[derive(Default)]
pub struct Listings {
    all: u64,
    /// Inputs without a lawful setup: of no bytes, with a short one, with an unlawful one.
    empty: u64,
    short_setup: u64,
    unlawful_setup: u64,
    without_arrival: u64,
    /// For each number of sites all listings, and those with a delivery.
    by_sites: [[u64; 2]; SITE_COUNTS.len()],
    several_slots: u64,
    several_sites: u64,
    /// Listings with deliveries in two blocks of one site and sequence number.
    both_branches: u64,
    full_table: u64,
    many_arrivals: u64,
    /// Inputs of more bytes than a pipe holds.
    long: u64,
    cut: CutInputs,
    arrivals: Arrivals,
    deliveries: u64,
    /// Deliveries that come after another of the same block.
    deliveries_again: u64,
}

/// Inputs that end in an arrival.
#[derive(Default)]
struct CutInputs {
    in_length: u64,
    before_verdict: u64,
    in_block: u64,
    in_over_long: u64,
}

#[derive(Default)]
struct Arrivals {
    answers: AnswerCounts,
    over_long: u64,
    short: u64,
    /// Arrivals of the longest block, not refused with 3.
    longest: u64,
    /// Arrivals refused with 8 while the table is full.
    held_in_full_table: u64,
}

/// More than one byte can count.
const MANY_ARRIVALS: usize = 256;
const PIPE_BYTES: usize = 65_536;

/// What admission answers to the arrivals of a listing: its table is in form.
const ANSWERS: &[u8] = &[0, 3, 4, 5, 6, 7, 8, 9, 10, 11, 18];

impl Listings {
    pub fn any(&self) -> bool {
        self.all > 0
    }

    /// An input and the lines that it gives.
    pub fn listing(&mut self, input: &[u8], lines: &[Line]) {
        self.all += 1;
        self.long += u64::from(input.len() > PIPE_BYTES);
        let (setup, arrivals) = input.split_at(input.len().min(SETUP_BYTES));
        if setup.len() < SETUP_BYTES {
            self.empty += u64::from(input.is_empty());
            self.short_setup += u64::from(!input.is_empty());
        } else if lines.first().is_some_and(|line| line.refusal == 1) {
            self.unlawful_setup += 1;
        } else {
            self.lawful(setup[0], arrivals, lines);
        }
    }

    fn lawful(&mut self, sites: u8, arrivals: &[u8], lines: &[Line]) {
        let deliveries: Vec<&Line> = lines.iter().filter(|line| line.refusal == 0).collect();
        let [all, delivering] = of_site_count(&mut self.by_sites, sites);
        *all += 1;
        *delivering += u64::from(!deliveries.is_empty());
        self.without_arrival += u64::from(arrivals.is_empty());
        self.deliveries += deliveries.len() as u64;
        let some = |are: fn(&Line, &Line) -> bool| u64::from(some_pair(&deliveries, are));
        self.several_slots += some(|one, other| one.slot != other.slot);
        self.several_sites += some(|one, other| one.site != other.site);
        self.both_branches +=
            some(|one, other| (one.site, one.sequence) == (other.site, other.sequence) && one.place != other.place);
        let again = deliveries.windows(2).filter(|pair| pair[0].arrival == pair[1].arrival);
        self.deliveries_again += again.count() as u64;
        self.note_arrivals(arrivals, lines);
    }

    fn note_arrivals(&mut self, arrivals: &[u8], lines: &[Line]) {
        let mut rest = arrivals;
        let (mut number, mut held) = (0, 0);
        while let Some((arrival, after)) = first(rest) {
            let line = lines.iter().find(|line| line.arrival == Some(number));
            let refusal = line.map_or(0, |line| line.refusal);
            self.arrivals.note(&arrival, refusal, held == PLACES);
            if let StreamArrival::Cut = arrival {
                self.cut.note(rest);
            }
            held += usize::from(refusal == 0);
            number += 1;
            rest = after;
        }
        self.full_table += u64::from(held == PLACES);
        self.many_arrivals += u64::from(number > MANY_ARRIVALS);
    }
}

/// Whether there are two lines of which something holds.
fn some_pair(lines: &[&Line], holds: fn(&Line, &Line) -> bool) -> bool {
    lines.iter().any(|one| lines.iter().any(|other| holds(one, other)))
}

impl Arrivals {
    fn note(&mut self, arrival: &StreamArrival, refusal: u8, full: bool) {
        self.answers.note(refusal);
        self.held_in_full_table += u64::from(full && refusal == 8);
        match arrival {
            StreamArrival::Block { block, .. } => {
                self.short += u64::from(block.len() < HEADER_BYTES);
                self.longest += u64::from(block.len() == MAX_BLOCK_BYTES && refusal != 3);
            }
            StreamArrival::OverLong => self.over_long += 1,
            StreamArrival::Cut => {}
        }
    }
}

impl CutInputs {
    /// What there is of the arrival.
    fn note(&mut self, bytes: &[u8]) {
        let length = bytes.first_chunk::<LENGTH_BYTES>().map(|length| u16::from_be_bytes(*length));
        let count = match length {
            None => &mut self.in_length,
            Some(_) if bytes.len() == LENGTH_BYTES => &mut self.before_verdict,
            Some(length) if usize::from(length) > MAX_BLOCK_BYTES => &mut self.in_over_long,
            Some(_) => &mut self.in_block,
        };
        *count += 1;
    }
}

impl Display for Listings {
    fn fmt(&self, to: &mut Formatter) -> fmt::Result {
        let mut line = |name: &str, times: u64| super::line(to, name, times);
        line("listings", self.all)?;
        line("listings of no bytes", self.empty)?;
        line("listings of a short setup", self.short_setup)?;
        line("listings of an unlawful setup", self.unlawful_setup)?;
        line("listings without an arrival", self.without_arrival)?;
        line("listings with a delivery", self.by_sites.iter().map(|[_, delivering]| delivering).sum())?;
        for (sites, [all, delivering]) in SITE_COUNTS.iter().zip(self.by_sites) {
            line(&format!("  n {sites}: with a delivery of {all}"), delivering)?;
        }
        line("listings with deliveries in several slots", self.several_slots)?;
        line("listings with deliveries at several sites", self.several_sites)?;
        line("listings with deliveries in both branches of a fork", self.both_branches)?;
        line("listings with a full table", self.full_table)?;
        line("listings with more than 256 arrivals", self.many_arrivals)?;
        line("listings of more than 65,536 bytes", self.long)?;
        line("listings cut in a length", self.cut.in_length)?;
        line("listings cut before a verdict", self.cut.before_verdict)?;
        line("listings cut in a block", self.cut.in_block)?;
        line("listings cut in an over-long arrival", self.cut.in_over_long)?;
        line("arrivals listed", self.arrivals.answers.all())?;
        for &number in ANSWERS {
            line(&format!("arrivals answered {number}"), self.arrivals.answers.0[usize::from(number)])?;
        }
        line("arrivals answered 8 with a full table", self.arrivals.held_in_full_table)?;
        line("arrivals over-long", self.arrivals.over_long)?;
        line("arrivals of 0 to 4 bytes", self.arrivals.short)?;
        line("arrivals of the greatest length not answered 3", self.arrivals.longest)?;
        line("deliveries listed", self.deliveries)?;
        line("deliveries after another in the same block", self.deliveries_again)
    }
}
