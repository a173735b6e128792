//! The calls of one campaign made once more with a shelf of its own, as if there were no other campaign. All that it is
//! told of the others is which of its blocks the shelf took.

use crate::comparing::buffers::{Buffers, Sides};
use crate::comparing::compare::Compare;
use crate::comparing::difference::Difference;
use crate::comparing::facts::campaign_run::{Call, CampaignRun, Reply};
use crate::drawing::arrivals::Arrival;
use crate::model::answer::{Answer, ArrivalAnswer};
use crate::model::shelf::Shelf;

/// Makes the calls of a campaign once more, from where it started. It may get another number, which isn't to matter.
pub fn alone(compare: &mut Compare, start: &Buffers, run: &CampaignRun, number: u8) -> Result<CampaignRun, Difference> {
    let shelf = Shelf::empty().to_bytes();
    let mut sides = Sides::new(Buffers { shelf, ..start.clone() });
    let mut replies = Vec::new();
    for (call, reply) in run.calls.iter().zip(&run.replies) {
        replies.push(match call {
            Call::Arrival(arrival, room) => {
                let taken = reply.answer.refusal == 9;
                arrive(compare, &mut sides, number, arrival, *room, taken)?
            }
            Call::Admission(arrival) => plain(compare.admit(&mut sides, &arrival.block, arrival.verdict)?),
            Call::Interpretation(place) => plain(compare.interpret(&mut sides, *place)?),
            Call::Retiring => plain(compare.retire(&mut sides)?),
            Call::TakingBack => plain(compare.take_back(&mut sides)?),
        });
    }
    let Buffers { table, records, shelf, .. } = sides.expected;
    let waiting = Shelf::from_bytes(&shelf).blocks(number);
    Ok(CampaignRun { calls: run.calls.clone(), replies, table, records, waiting })
}

fn plain(answer: Answer) -> Reply {
    Reply { answer, listed: Vec::new() }
}

/// Where the shelf would take the block, but is told not to, the answer is 19.
fn arrive(
    compare: &mut Compare,
    sides: &mut Sides,
    number: u8,
    arrival: &Arrival,
    room: usize,
    taken: bool,
) -> Result<Reply, Difference> {
    let before = sides.expected.shelf.clone();
    let outcomes = vec![0; room];
    let ArrivalAnswer { answer, ended } = compare.arrive(sides, number, &arrival.block, arrival.verdict, &outcomes)?;
    if answer.refusal == 9 && !taken {
        sides.each(|buffers| buffers.shelf.clone_from(&before));
        return Ok(plain(Answer { refusal: 19, value: 0 }));
    }
    Ok(Reply { answer, listed: sides.expected.first_outcomes(ended) })
}
