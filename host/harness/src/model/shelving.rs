//! Document 02, "Four campaigns, sixteen waiting places": what an arrival comes to, and what becomes of blocks that
//! wait.

use crate::model::answer::Answer;
use crate::model::checks::Check;
use crate::model::form::Condition;
use crate::model::shelf::{Entry, Shelf};
use crate::model::shelf_form;
use crate::model::sizes::{CAMPAIGNS, MOST_HELD, OUTCOMES_NUMBERS};

/// What an arrival is given, with the answers of form, of admission and of the shelf rule.
pub struct ArrivalInput {
    pub campaign: u8,
    pub shelf: Shelf,
    pub shelf_in_form: bool,
    pub block: Vec<u8>,
    /// What admission to the campaign's table answers to the block.
    pub admission: Answer,
    /// Whether the campaign takes a further place on the shelf.
    pub takes: bool,
    /// How many numbers the outcomes have.
    pub room: usize,
}

/// What became of a block that waited, as it is listed: 0 and the place of one that was let in, or the number and 0 of
/// one that was dropped.
#[derive(Clone, Copy, Debug, PartialEq, Eq)]
pub struct Outcome {
    pub number: u8,
    pub place: usize,
}

/// The pass that has just ended.
pub struct Pass {
    pub number: usize,
    /// How many blocks it let in, and how many it dropped.
    pub let_in: usize,
    pub dropped: usize,
}

/// The rules. Each is a value, so that the self-test can change one.
pub struct Shelving {
    pub form: Vec<Condition<Shelf>>,
    /// The checks of an arrival: those before admission's own, then 20 and 19, which stand in the place of its 9.
    pub checks: Vec<Check<ArrivalInput>>,
    /// The shelf rule: whether a campaign takes a further place.
    pub takes: fn(&Shelf, u8) -> bool,
    /// A block of a campaign comes to wait.
    pub put: fn(&mut Shelf, u8, &[u8]),
    /// Whether waiting blocks are tried after an arrival that got this answer.
    pub tries_after: fn(Answer) -> bool,
    /// What a pass tries, in its order.
    pub tried: fn(&Shelf, u8) -> Vec<Entry>,
    /// The verdict that a try has.
    pub verdict: u8,
    /// What becomes of a block by the answer to its try; none if it waits on.
    pub outcome: fn(Answer) -> Option<Outcome>,
    /// Frees the place of a block that is let in or dropped.
    pub take: fn(&mut Shelf, &Entry),
    /// Whether the pass ends with a try that got this answer, though blocks are left in it.
    pub ends_pass: fn(Answer) -> bool,
    /// Whether another pass follows.
    pub another: fn(&Pass) -> bool,
    /// Lists what became of blocks, in the order tried.
    pub note: fn(&mut [u64], &[Outcome]),
}

/// 21 "checked first"; 17 and 2 before admission's own; then "where an arrival would get 9, instead of it 20 ... else
/// 19".
pub const CHECKS: [Check<ArrivalInput>; 5] = [
    Check { number: 21, finds: |input| (usize::from(input.campaign) >= CAMPAIGNS).then_some(0) },
    Check { number: 17, finds: |input| (input.room < OUTCOMES_NUMBERS).then_some(OUTCOMES_NUMBERS) },
    Check { number: 2, finds: |input| (!input.shelf_in_form || input.admission.refusal == 2).then_some(0) },
    Check { number: 20, finds: |input| instead_of_9(input, input.shelf.waits(input.campaign, &input.block)) },
    Check { number: 19, finds: |input| instead_of_9(input, !input.takes) },
];

/// What is found where the arrival would get 9 and this holds.
pub fn instead_of_9(input: &ArrivalInput, holds: bool) -> Option<usize> {
    (input.admission.refusal == 9 && holds).then_some(0)
}

/// "It takes a further one exactly when it holds fewer than 10 and the free places then still cover what the others
/// lack of their 2."
pub fn takes(shelf: &Shelf, campaign: u8) -> bool {
    shelf.holds(campaign) < MOST_HELD && shelf.free() > shelf.others_lack(campaign)
}

impl Shelving {
    pub fn document() -> Shelving {
        Shelving {
            form: shelf_form::DOCUMENT.to_vec(),
            checks: CHECKS.to_vec(),
            takes,
            put: Shelf::put,
            tries_after: |answer| answer.refusal == 0,
            tried,
            verdict: 1,
            outcome,
            take: Shelf::take,
            ends_pass: |_| false,
            another: |pass| pass.let_in > 0,
            note,
        }
    }

    /// "the campaign's waiting blocks are tried in passes, in the order they came, until a pass admits none"
    pub fn tries(&self, shelf: &mut Shelf, campaign: u8, mut admit: impl FnMut(&[u8]) -> Answer) -> Vec<Outcome> {
        let mut ended = Vec::new();
        let mut number = 0;
        loop {
            number += 1;
            let mut pass = Pass { number, let_in: 0, dropped: 0 };
            for entry in (self.tried)(shelf, campaign) {
                let answer = admit(entry.block());
                pass.let_in += usize::from(answer.refusal == 0);
                if let Some(outcome) = (self.outcome)(answer) {
                    (self.take)(shelf, &entry);
                    pass.dropped += usize::from(outcome.number != 0);
                    ended.push(outcome);
                }
                if (self.ends_pass)(answer) {
                    break;
                }
            }
            if !(self.another)(&pass) {
                return ended;
            }
        }
    }
}

pub fn tried(shelf: &Shelf, campaign: u8) -> Vec<Entry> {
    shelf.of(campaign).copied().collect()
}

/// "one refused by another number than 9 is dropped"
pub fn outcome(answer: Answer) -> Option<Outcome> {
    match answer.refusal {
        9 => None,
        0 => Some(Outcome { number: 0, place: answer.value }),
        number => Some(Outcome { number, place: 0 }),
    }
}

/// "The answer lists, in the order tried, the place of each block let in and the number of each dropped."
pub fn note(outcomes: &mut [u64], ended: &[Outcome]) {
    for (pair, outcome) in outcomes.chunks_exact_mut(2).zip(ended) {
        pair.copy_from_slice(&[outcome.number.into(), outcome.place as u64]);
    }
}
