//! One arrival for a campaign with a shelf, with what is looked at besides.

use crate::comparing::buffers::{Buffers, Sides};
use crate::comparing::compare::Compare;
use crate::comparing::difference::Difference;
use crate::comparing::facts::arrival::{ArrivalFacts, ArrivalTakenBack, PlainAdmissions, TableAndShelf};
use crate::drawing::arrivals::Arrival;
use crate::drawing::random::Random;
use crate::model::answer::Answer;
use crate::model::calls::Calls;
use crate::model::shelf::{Entry, Shelf};
use crate::model::sizes::OUTCOMES_NUMBERS;

/// Of so many arrivals that are let in, one is taken back.
const TAKEN_BACK_ONE_IN: usize = 3;

/// A block arrives, with so many numbers for outcomes, of any content.
pub fn arrival_facts(
    random: &Random,
    compare: &mut Compare,
    sides: &mut Sides,
    campaign: u8,
    arrival: &Arrival,
    room: usize,
) -> Result<ArrivalFacts, Difference> {
    let before = table_and_shelf(sides);
    let outcomes: Vec<u64> = (0..room).map(|_| random.pick(&[0, random.below(64) as u64, random.set()])).collect();
    let answered = compare.arrive(sides, campaign, &arrival.block, arrival.verdict, &outcomes)?;
    let after = table_and_shelf(sides);
    let answer = answered.answer;
    let listed = sides.expected.first_outcomes(answered.ended);
    let in_form = compare.shelf_in_form(&sides.expected.shelf)?;
    let model = compare.model;
    let reached = ![21, 17, 2].contains(&answer.refusal);
    let plain = reached.then(|| PlainAdmissions::of(model, &before, &after, campaign, arrival, &listed));
    let admits = |entry: &Entry| model.admit(&mut after.table.clone(), &mut entry.block().to_vec(), 1);
    let waiting_answers = if answer.refusal == 0 { after.shelf.of(campaign).map(admits).collect() } else { Vec::new() };
    let arrival = arrival.clone();
    let mut facts = ArrivalFacts {
        campaign,
        arrival,
        before,
        after,
        answer,
        listed,
        in_form,
        plain,
        waiting_answers,
        taken_back: None,
    };
    if answer.refusal == 0 && random.one_in(TAKEN_BACK_ONE_IN) {
        facts.taken_back = Some(ArrivalTakenBack::of(compare, &facts)?);
    }
    compare.counts.shelves.arrival(&facts);
    Ok(facts)
}

fn table_and_shelf(sides: &Sides) -> TableAndShelf {
    TableAndShelf { table: sides.expected.table.clone(), shelf: Shelf::from_bytes(&sides.expected.shelf) }
}

impl ArrivalTakenBack {
    fn of(compare: &mut Compare, facts: &ArrivalFacts) -> Result<ArrivalTakenBack, Difference> {
        let ArrivalFacts { campaign, arrival, after, .. } = facts;
        let (table, shelf) = (after.table.clone(), after.shelf.to_bytes());
        let mut sides = Sides::new(Buffers { table, shelf, ..Buffers::default() });
        let taken: Result<Vec<Answer>, _> = (0..=facts.let_in()).map(|_| compare.take_back(&mut sides)).collect();
        let refusals = taken?.iter().map(|answer| answer.refusal).collect();
        let table = sides.tested.table.clone();
        let second_answer =
            compare.arrive(&mut sides, *campaign, &arrival.block, arrival.verdict, &[0; OUTCOMES_NUMBERS])?;
        Ok(ArrivalTakenBack { refusals, table, second_answer, shelf: sides.tested.shelf })
    }
}
