//! Wrong ways to look for a slot that is requested twice, for each call that does.

use crate::model::admission::AdmissionInput;
use crate::model::block::{self, list_of, repeated_slot_in, Request};
use crate::model::building::BuildingInput;
use crate::model::sizes::{MAX_REQUESTS, SLOTS};

/// What has a list of requests: a block's bytes, and what admission and building are given.
pub trait Requesting {
    fn list(&self) -> Vec<Request>;
}

impl Requesting for [u8] {
    fn list(&self) -> Vec<Request> {
        block::requests(self)
    }
}

impl Requesting for AdmissionInput {
    fn list(&self) -> Vec<Request> {
        block::requests(&self.block)
    }
}

impl Requesting for BuildingInput {
    fn list(&self) -> Vec<Request> {
        list_of(&self.requests)
    }
}

/// A wrong check 18 by the name of its mistake.
type WrongCheck<Input> = (&'static str, fn(&Input) -> Option<usize>);

pub fn mistakes<Input: Requesting + ?Sized>() -> Vec<WrongCheck<Input>> {
    vec![
        ("18 names the earlier request", |input| {
            let all = input.list();
            let slot = all[repeated_slot_in(&all)?].slot;
            all.iter().position(|request| request.slot == slot)
        }),
        ("18 names the last such request", |input| {
            let all = input.list();
            (0..all.len()).rfind(|&index| has(&all[..index], all[index].slot))
        }),
        ("18 names the slot", |input| {
            let all = input.list();
            repeated_slot_in(&all).map(|index| all[index].slot.into())
        }),
        ("only neighbouring slots are compared", neighbours_compared),
        ("slots are compared with the first alone", |input| {
            first(input, |before, request| before.first().is_some_and(|first| first.slot == request.slot))
        }),
        ("numbers are compared in place of slots", |input| {
            first(input, |before, request| before.iter().any(|earlier| earlier.number == request.number))
        }),
        ("18 for a slot with the same number alone", |input| {
            first(input, |before, request| before.iter().any(|earlier| earlier == request))
        }),
        ("18 for a slot with another number alone", |input| {
            first(input, |before, request| has(before, request.slot) && !before.contains(request))
        }),
        ("the fifth slot isn't compared", |input| {
            first(input, |before, request| before.len() + 1 < MAX_REQUESTS && has(before, request.slot))
        }),
        ("slot 0 requested twice passes", |input| {
            first(input, |before, request| request.slot != 0 && has(before, request.slot))
        }),
        ("slot 7 requested twice passes", |input| {
            first(input, |before, request| usize::from(request.slot) + 1 != SLOTS && has(before, request.slot))
        }),
        ("18 for a slot requested three times alone", |input| {
            first(input, |before, request| before.iter().filter(|earlier| earlier.slot == request.slot).count() > 1)
        }),
        ("slots must rise", falling_refused),
    ]
}

pub fn neighbours_compared<Input: Requesting + ?Sized>(input: &Input) -> Option<usize> {
    first(input, |before, request| before.last().is_some_and(|last| last.slot == request.slot))
}

pub fn falling_refused<Input: Requesting + ?Sized>(input: &Input) -> Option<usize> {
    first(input, |before, request| before.last().is_some_and(|last| last.slot >= request.slot))
}

/// Check 6 with this cause among its own.
pub fn bad_or_repeated<Input: Requesting + ?Sized>(input: &Input) -> Option<usize> {
    first(input, |before, request| request.bad() || has(before, request.slot))
}

/// The index of the first request of which something holds, by those before it.
fn first<Input: Requesting + ?Sized>(input: &Input, holds: fn(&[Request], &Request) -> bool) -> Option<usize> {
    let all = input.list();
    (0..all.len()).find(|&index| holds(&all[..index], &all[index]))
}

fn has(requests: &[Request], slot: u8) -> bool {
    requests.iter().any(|request| request.slot == slot)
}
