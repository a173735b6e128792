//! Mistakes of a listing program: in reading its input, in counting, in what it lists and in how it writes that.

use super::Mistake;
use crate::model::answer::Answer;
use crate::model::exit::Exit;
use crate::model::interpretation::parent;
use crate::model::listing::{
    deliveries, deliveries_by, delivery_line, first, first_of_length, refusal_line, setup, text, FirstArrival, Line,
    Setup, StreamArrival, BEFORE_BLOCK, LENGTH_BYTES, NAMES, SETUP_BYTES,
};
use crate::model::record::Act;
use crate::model::sizes::{MAX_BLOCK_BYTES, SLOTS};

pub const MISTAKES: &[Mistake] = &[
    // The setup
    ("listing: a short setup is filled up with zeros", |m| {
        m.model.listing.setup = |input| {
            let (Setup { sites, mut owners }, rest) = setup(input);
            owners.resize(SLOTS, 0);
            (Setup { sites, owners }, rest)
        }
    }),
    ("listing: a short setup has no line", |m| {
        m.after_listing(|exit, input| if input.len() < SETUP_BYTES { Exit::well(NAMES.into()) } else { exit })
    }),
    ("listing: an input of no bytes has no names", |m| {
        m.after_listing(|exit, input| if input.is_empty() { Exit::well(Vec::new()) } else { exit })
    }),
    ("listing: owners in reverse", |m| {
        m.model.listing.setup = |input| {
            let (Setup { sites, mut owners }, rest) = setup(input);
            owners.reverse();
            (Setup { sites, owners }, rest)
        }
    }),
    ("listing: seven owners", |m| {
        m.model.listing.setup = |input| {
            let (mut setup, _) = setup(input);
            if setup.owners.len() == SLOTS {
                setup.owners[SLOTS - 1] = setup.owners[0];
            }
            (setup, input.get(SETUP_BYTES - 1..).unwrap_or(&[]))
        }
    }),
    // Where arrivals begin and end
    ("listing: one byte of a length has no line", |m| {
        m.model.listing.first = |input| first(input).filter(|_| input.len() > 1)
    }),
    ("listing: a length without a verdict has no line", |m| {
        m.model.listing.first = |input| first(input).filter(|_| input.len() != LENGTH_BYTES)
    }),
    ("listing: a cut arrival has no line", |m| {
        m.model.listing.first = |input| first(input).filter(|(arrival, _)| !matches!(arrival, StreamArrival::Cut))
    }),
    ("listing: a cut arrival that is over-long has no line", |m| {
        m.model.listing.first =
            |input| first(input).filter(|(arrival, _)| !matches!(arrival, StreamArrival::Cut) || !over_long(input))
    }),
    ("listing: a cut block is admitted with the bytes that are left", |m| {
        m.model.listing.first = |input| match first(input)? {
            (StreamArrival::Cut, rest) if input.len() >= BEFORE_BLOCK && !over_long(input) => {
                Some((StreamArrival::Block { verdict: input[LENGTH_BYTES], block: &input[BEFORE_BLOCK..] }, rest))
            }
            other => Some(other),
        }
    }),
    ("listing: an arrival that ends the input is taken as cut", |m| {
        m.model.listing.first = |input| match first(input)? {
            (StreamArrival::Block { .. }, []) => Some((StreamArrival::Cut, &[])),
            other => Some(other),
        }
    }),
    ("listing: the length low byte first", |m| {
        m.model.listing.first = |input| first_of_length(input, u16::from_le_bytes)
    }),
    ("listing: the length of one byte", |m| {
        m.model.listing.first = |input| first_of_length(input, |[_, low]| low.into())
    }),
    ("listing: the length with the verdict counted", |m| {
        m.model.listing.first = |input| first_of_length(input, |length| u16::from_be_bytes(length).saturating_sub(1))
    }),
    ("listing: the verdict before the length", |m| m.model.listing.first = verdict_first),
    ("listing: the verdict isn't looked at", |m| {
        m.model.listing.first = |input| match first(input)? {
            (StreamArrival::Block { block, .. }, rest) => Some((StreamArrival::Block { verdict: 1, block }, rest)),
            other => Some(other),
        }
    }),
    // Over-long arrivals
    ("listing: of an over-long arrival one byte too few is skipped", |m| {
        m.model.listing.first = |input| skipping(input, |skipped| skipped - 1)
    }),
    ("listing: of an over-long arrival nothing but length and verdict is skipped", |m| {
        m.model.listing.first = |input| skipping(input, |_| BEFORE_BLOCK)
    }),
    ("listing: of an over-long arrival the longest block's bytes are skipped", |m| {
        m.model.listing.first = |input| skipping(input, |_| BEFORE_BLOCK + MAX_BLOCK_BYTES)
    }),
    ("listing: an over-long arrival is the end", |m| {
        m.model.listing.first = |input| match first(input)? {
            (StreamArrival::OverLong, _) => Some((StreamArrival::OverLong, &[])),
            other => Some(other),
        }
    }),
    ("listing: a length from 32,768 on is the end", |m| {
        m.model.listing.first = |input| match first(input)? {
            (StreamArrival::OverLong, _) if input[0] >= 128 => Some((StreamArrival::OverLong, &[])),
            other => Some(other),
        }
    }),
    ("listing: the longest block is over-long", |m| {
        m.model.listing.first = |input| match first(input)? {
            (StreamArrival::Block { block, .. }, rest) if block.len() == MAX_BLOCK_BYTES => {
                Some((StreamArrival::OverLong, rest))
            }
            other => Some(other),
        }
    }),
    ("listing: of a byte more than the longest block the last is left out", |m| {
        m.model.listing.first = |input| as_far_as_it_fits(input, MAX_BLOCK_BYTES + 1)
    }),
    ("listing: an over-long arrival is a block as far as it fits", |m| {
        m.model.listing.first = |input| as_far_as_it_fits(input, usize::MAX)
    }),
    // Going on and counting
    ("listing: an unlawful setup isn't the end", |m| m.model.listing.goes_on = |_| true),
    ("listing: a refused arrival is the end", |m| m.model.listing.goes_on = |refusal| refusal == 0),
    ("listing: an arrival that is no block is the end", |m| {
        m.model.listing.goes_on = |refusal| ![1, 3].contains(&refusal)
    }),
    ("listing: a full table is the end", |m| m.model.listing.goes_on = |refusal| ![1, 11].contains(&refusal)),
    ("listing: arrivals count from 1", |m| m.model.listing.text = |line| counted(line, |arrival| arrival + 1)),
    ("listing: arrivals count in one byte", |m| m.model.listing.text = |line| counted(line, |arrival| arrival % 256)),
    ("listing: over-long arrivals don't count", |m| {
        m.model.listing.next = |number, arrival, _| number + usize::from(!matches!(arrival, StreamArrival::OverLong))
    }),
    ("listing: arrivals of no bytes don't count", |m| {
        m.model.listing.next =
            |number, arrival, _| number + usize::from(!matches!(arrival, StreamArrival::Block { block: [], .. }))
    }),
    ("listing: refused arrivals don't count", |m| {
        m.model.listing.next = |number, _, refusal| number + usize::from(refusal == 0)
    }),
    ("listing: admitted arrivals don't count", |m| {
        m.model.listing.next = |number, _, refusal| number + usize::from(refusal != 0)
    }),
    // What is interpreted
    ("listing: blocks of a second site aren't interpreted", |m| {
        m.model.listing.due = |table, place| Some(place).filter(|_| table.rows[place].site == table.rows[0].site)
    }),
    ("listing: a block is interpreted when the next one is admitted", |m| {
        m.model.listing.due = |_, place| place.checked_sub(1)
    }),
    ("listing: the last place isn't interpreted", |m| {
        m.model.listing.due = |table, place| Some(place).filter(|_| place + 1 < table.rows.len())
    }),
    // Deliveries
    ("listing: what is delivered so far is listed in every block", |m| {
        m.model.listing.deliveries = |part| deliveries_by(part, Act::Deliver.so_far())
    }),
    ("listing: READYs are listed", |m| m.model.listing.deliveries = |part| deliveries_by(part, Act::Ready.made())),
    ("listing: higher slot first", |m| {
        m.model.listing.deliveries = |part| deliveries(part).into_iter().rev().collect()
    }),
    ("listing: one delivery a block", |m| {
        m.model.listing.deliveries = |part| deliveries(part).into_iter().take(1).collect()
    }),
    ("listing: slot 7 isn't looked at", |m| {
        m.model.listing.deliveries =
            |part| deliveries(part).into_iter().filter(|delivery| delivery.slot < SLOTS - 1).collect()
    }),
    // Their lines
    ("listing: the number's low byte", |m| {
        m.model.listing.text = |line| text(&Line { number: line.number.map(|number| number & 255), ..*line })
    }),
    ("listing: the parent's place", |m| {
        m.model.listing.delivery_line =
            |table, place, delivery| Line { place: parent(table, place), ..delivery_line(table, place, delivery) }
    }),
    ("listing: the parent's sequence number", |m| {
        m.model.listing.delivery_line = |table, place, delivery| Line {
            sequence: parent(table, place).map(|parent| table.rows[parent].sequence),
            ..delivery_line(table, place, delivery)
        }
    }),
    ("listing: the owner in place of the site", |m| {
        m.model.listing.delivery_line = |table, place, delivery| Line {
            site: Some(table.owners[delivery.slot]),
            ..delivery_line(table, place, delivery)
        }
    }),
    ("listing: the arrival's number in place of the place", |m| {
        m.model.listing.text = |line| text(&Line { place: line.place.and(line.arrival), ..*line })
    }),
    // The lines of refused arrivals
    ("listing: a refused arrival's line has its site", |m| {
        m.model.listing.refusal_line = |table, arrival, answer| {
            let site = match arrival {
                StreamArrival::Block { block, .. } => block.first().copied(),
                StreamArrival::OverLong | StreamArrival::Cut => None,
            };
            Line { site, ..refusal_line(table, arrival, answer) }
        }
    }),
    ("listing: a refused arrival's line has the place that it would have had", |m| {
        m.model.listing.refusal_line =
            |table, arrival, answer| Line { place: Some(table.count), ..refusal_line(table, arrival, answer) }
    }),
    ("listing: beside 8 stands the place", |m| {
        m.model.listing.refusal_line = |table, arrival, answer| {
            let place = (answer.refusal == 8).then_some(answer.value);
            Line { place, ..refusal_line(table, arrival, answer) }
        }
    }),
    ("listing: an over-long arrival is refused with 11 by a full table", |m| {
        m.model.listing.refusal_line = |table, arrival, answer| {
            let full = table.held().len() == table.rows.len() && matches!(arrival, StreamArrival::OverLong);
            let refusal = if full { 11 } else { answer.refusal };
            refusal_line(table, arrival, Answer { refusal, ..answer })
        }
    }),
    ("listing: a slot requested twice passes", |m| m.model.admission.retain(|check| check.number != 18)),
    ("listing: 7 before 18", |m| m.model.admission.swap(5, 6)),
    ("listing: 18 is listed as 6", |m| {
        m.model.listing.refusal_line = |table, arrival, answer| {
            let refusal = if answer.refusal == 18 { 6 } else { answer.refusal };
            refusal_line(table, arrival, Answer { refusal, ..answer })
        }
    }),
    ("listing: beside 18 stands the index", |m| {
        m.model.listing.refusal_line = |table, arrival, answer| {
            let slot = (answer.refusal == 18).then_some(answer.value);
            Line { slot, ..refusal_line(table, arrival, answer) }
        }
    }),
    // How it is written, and how it ends
    ("listing: 0 in place of -", |m| m.model.listing.text = |line| text(line).replace('-', "0")),
    ("listing: a space at a line's end", |m| m.model.listing.text = |line| text(line).replace('\n', " \n")),
    ("listing: no names", |m| m.after_listing(|exit, _| Exit { output: exit.output[NAMES.len()..].to_vec(), ..exit })),
    ("listing: the last line has no line feed", |m| {
        m.after_listing(|exit, _| Exit { output: exit.output[..exit.output.len() - 1].to_vec(), ..exit })
    }),
    ("listing: status 1 after an unlawful setup", |m| {
        m.after_listing(|exit, _| {
            let unlawful = exit.output.ends_with(b"- 1\n");
            Exit { status: Some(unlawful.into()), ..exit }
        })
    }),
    ("listing: standard error names the last refusal", |m| {
        m.after_listing(|exit, _| {
            let last = exit.output.split_inclusive(|&byte| byte == b'\n').next_back().unwrap_or(&[]);
            let errors = if last.ends_with(b" 0\n") { Vec::new() } else { last.to_vec() };
            Exit { errors, ..exit }
        })
    }),
];

/// Whether the first arrival has a length that no block has, as far as its bytes are there.
fn over_long(input: &[u8]) -> bool {
    input.first_chunk().is_some_and(|length| usize::from(u16::from_be_bytes(*length)) > MAX_BLOCK_BYTES)
}

fn verdict_first(input: &[u8]) -> FirstArrival<'_> {
    let [verdict, high, low, rest @ ..] = input else { return first(input) };
    let length = u16::from_be_bytes([*high, *low]).into();
    match rest.split_at_checked(length) {
        None => Some((StreamArrival::Cut, &[])),
        Some((_, rest)) if length > MAX_BLOCK_BYTES => Some((StreamArrival::OverLong, rest)),
        Some((block, rest)) => Some((StreamArrival::Block { verdict: *verdict, block }, rest)),
    }
}

/// The first arrival; one that is over-long takes another number of bytes.
fn skipping(input: &[u8], bytes: fn(usize) -> usize) -> FirstArrival<'_> {
    match first(input)? {
        (StreamArrival::OverLong, rest) => Some((StreamArrival::OverLong, &input[bytes(input.len() - rest.len())..])),
        other => Some(other),
    }
}

/// The first arrival; one that is over-long, but has no more bytes than these, is a block as far as
/// one can go.
fn as_far_as_it_fits(input: &[u8], most: usize) -> FirstArrival<'_> {
    match first(input)? {
        (StreamArrival::OverLong, rest) if input.len() - rest.len() - BEFORE_BLOCK <= most => {
            let block = &input[BEFORE_BLOCK..BEFORE_BLOCK + MAX_BLOCK_BYTES];
            Some((StreamArrival::Block { verdict: input[LENGTH_BYTES], block }, rest))
        }
        other => Some(other),
    }
}

/// A line with its arrival counted otherwise.
fn counted(line: &Line, number: fn(usize) -> usize) -> String {
    text(&Line { arrival: line.arrival.map(number), ..*line })
}
