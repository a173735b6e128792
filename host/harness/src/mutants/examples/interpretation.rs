//! Document 01, "Small skies to try": those in which blocks are interpreted.

use super::holder::Holder;
use crate::model::calls::Calls;
use crate::model::record::{record_at, ACTS};

pub fn all(calls: &dyn Calls) -> Vec<(&'static str, bool)> {
    let new = |sites| Holder::new(calls, sites);
    vec![
        ("empty table, interpret place 0: 13", new(1).interpret(0) == (13, 0)),
        ("four-block chain: SEND, ECHO, READY, delivery", chain(new(1))),
        ("13 blocks: ECHO, READY, delivery", thirteen_blocks(&mut new(4))),
        ("two ECHOs heard: no READY; three: READY", two_and_three_echoes(new(4))),
        ("READY from two sites: READY; from three: delivery", two_and_three_readies(new(4))),
        ("a fork: ECHO 42 from one who sees both, ECHO 43 from one who sees 43", fork(new(4))),
        ("a request by another than the owner: nothing sent", other_than_owner(new(4))),
        ("the owner's second request: no SEND", second_request(new(4))),
    ]
}

/// What is made in slot 0 of a block: SEND, ECHO, READY, delivery.
type ActNumbers = [u16; ACTS.len()];
const NOTHING: ActNumbers = [0; ACTS.len()];

impl Holder<'_> {
    fn made(&self, place: usize) -> ActNumbers {
        let record = record_at(&self.records, place, 0);
        ACTS.map(|act| record[act.made()])
    }

    /// A block with no request, and what it makes.
    fn made_by(&mut self, site: u8, sequence: u16, places: &[usize]) -> ActNumbers {
        let place = self.block(site, sequence, places, None);
        self.made(place)
    }
}

fn chain(mut holder: Holder) -> bool {
    holder.block(0, 0, &[], Some(7));
    for sequence in 1..4 {
        holder.block(0, sequence, &[usize::from(sequence) - 1], None);
    }
    [0, 1, 2, 3].map(|place| holder.made(place)) == [[7, 0, 0, 0], [0, 7, 0, 0], [0, 0, 7, 0], [0, 0, 0, 7]]
}

fn thirteen_blocks(holder: &mut Holder) -> bool {
    let [first, echoes, readies, deliveries] = holder.thirteen_blocks();
    let all = |places: &[usize], made: ActNumbers| places.iter().all(|&place| holder.made(place) == made);
    all(&first, [42, 0, 0, 0])
        && all(&echoes, [0, 42, 0, 0])
        && all(&readies, [0, 0, 42, 0])
        && all(&deliveries, [0, 0, 0, 42])
        && deliveries.last() == Some(&12)
}

fn two_and_three_echoes(mut holder: Holder) -> bool {
    let send = holder.block(0, 0, &[], Some(42));
    let echoes = [(0, 1), (1, 0), (2, 0)].map(|(site, sequence)| holder.block(site, sequence, &[send], None));
    let two = holder.block(3, 0, &echoes[..2], None);
    holder.made(two) == NOTHING && holder.made_by(3, 1, &[two, echoes[2]]) == [0, 0, 42, 0]
}

/// New blocks of site 3, without its old ones: so it has heard no ECHO.
fn two_and_three_readies(mut holder: Holder) -> bool {
    thirteen_blocks(&mut holder);
    let readies = [5, 6, 7];
    let two = holder.block(3, 0, &readies[..2], None);
    holder.made(two) == [0, 0, 42, 0]
        && holder.made_by(3, 1, &[two, readies[2]]) == [0, 0, 0, 42]
        && holder.made_by(3, 0, &readies) == [0, 0, 42, 42]
}

fn fork(mut holder: Holder) -> bool {
    let forks = [42, 43].map(|number| holder.block(0, 0, &[], Some(number)));
    holder.made_by(1, 0, &forks) == [0, 42, 0, 0] && holder.made_by(2, 0, &forks[1..]) == [0, 43, 0, 0]
}

fn other_than_owner(mut holder: Holder) -> bool {
    let place = holder.block(1, 0, &[], Some(42));
    holder.made(place) == NOTHING && holder.made_by(2, 0, &[place]) == NOTHING
}

fn second_request(mut holder: Holder) -> bool {
    let first = holder.block(0, 0, &[], Some(42));
    let second = holder.block(0, 1, &[first], Some(43));
    holder.made(first) == [42, 0, 0, 0] && holder.made(second) == [0, 42, 0, 0]
}
