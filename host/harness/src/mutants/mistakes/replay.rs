//! Mistakes in replaying a list of calls.

use super::{flip_last, Mistake};
use crate::model::replay::{first, note, wide, Call, FirstCall, WIDE_BYTES};

pub const MISTAKES: &[Mistake] = &[
    // Reading the list
    ("replay: a cut admission runs with the bytes that are left", |m| m.model.replay.first = cut_block_runs),
    ("replay: a cut place is filled up with zeros", |m| m.model.replay.first = cut_place_runs),
    ("replay: an interpretation without a place is of place 0", |m| {
        m.model.replay.first = |list| match list {
            [1] => Some((Call::Interpretation { place: 0 }, &[])),
            _ => first(list),
        }
    }),
    ("replay: one call too many runs", |m| {
        m.model.replay.first = |list| match first(list) {
            // Whatever ends the list is an admission still.
            None if !list.is_empty() => Some((Call::Admission { verdict: 1, block: &list[1..] }, &[])),
            other => other,
        }
    }),
    ("replay: a call that ends the list is taken as cut", |m| {
        m.model.replay.first = |list| first(list).filter(|(_, rest)| !rest.is_empty())
    }),
    ("replay: an admission that ends the list is taken as cut", |m| {
        m.model.replay.first = |list| first(list).filter(|(_, rest)| !rest.is_empty() || list[0] == 1)
    }),
    ("replay: an empty block ends the list", |m| {
        m.model.replay.first = |list| first(list).filter(|(call, _)| !matches!(call, Call::Admission { block: [], .. }))
    }),
    ("replay: another first byte is skipped", |m| {
        m.model.replay.first = |list| {
            let others = list.iter().take_while(|&&byte| byte > 3).count();
            first(&list[others..])
        }
    }),
    ("replay: another first byte is an interpretation", |m| {
        m.model.replay.first = |list| match list {
            [4..=255, rest @ ..] => {
                wide(rest).map(|(place, rest)| (Call::Interpretation { place: place as usize }, rest))
            }
            _ => first(list),
        }
    }),
    ("replay: the first byte's low bit decides", |m| {
        m.model.replay.first = |list| match list {
            [which, ..] if which % 2 == 1 => {
                wide(&list[1..]).map(|(place, rest)| (Call::Interpretation { place: place as usize }, rest))
            }
            _ => first(list),
        }
    }),
    ("replay: a retiring ends the list", |m| {
        m.model.replay.first = |list| first(list).filter(|(call, _)| !matches!(call, Call::Retiring))
    }),
    ("replay: a retiring has a place like an interpretation", |m| {
        m.model.replay.first = |list| match list {
            [2, rest @ ..] => wide(rest).map(|(_, rest)| (Call::Retiring, rest)),
            _ => first(list),
        }
    }),
    ("replay: a retiring has a verdict", |m| {
        m.model.replay.first = |list| match list {
            [2, rest @ ..] => rest.split_first().map(|(_, rest)| (Call::Retiring, rest)),
            _ => first(list),
        }
    }),
    ("replay: a retiring that ends the list is taken as cut", |m| {
        m.model.replay.first =
            |list| first(list).filter(|(call, rest)| !matches!(call, Call::Retiring) || !rest.is_empty())
    }),
    ("replay: a retiring is an interpretation of place 0", |m| {
        m.model.replay.first = |list| match first(list)? {
            (Call::Retiring, rest) => Some((Call::Interpretation { place: 0 }, rest)),
            other => Some(other),
        }
    }),
    ("replay: all bytes from 2 on are retirings", |m| {
        m.model.replay.first = |list| match list {
            [2..=255, rest @ ..] => Some((Call::Retiring, rest)),
            _ => first(list),
        }
    }),
    ("replay: all retirings in a row are one", |m| {
        m.model.replay.first = |list| match first(list)? {
            (Call::Retiring, rest) => {
                let more = rest.iter().take_while(|&&byte| byte == 2).count();
                Some((Call::Retiring, &rest[more..]))
            }
            other => Some(other),
        }
    }),
    ("replay: a taking back ends the list", |m| {
        m.model.replay.first = |list| first(list).filter(|(call, _)| !matches!(call, Call::TakingBack))
    }),
    ("replay: a taking back has a place like an interpretation", |m| {
        m.model.replay.first = |list| match list {
            [3, rest @ ..] => wide(rest).map(|(_, rest)| (Call::TakingBack, rest)),
            _ => first(list),
        }
    }),
    ("replay: a taking back has a verdict", |m| {
        m.model.replay.first = |list| match list {
            [3, rest @ ..] => rest.split_first().map(|(_, rest)| (Call::TakingBack, rest)),
            _ => first(list),
        }
    }),
    ("replay: a taking back that ends the list is taken as cut", |m| {
        m.model.replay.first =
            |list| first(list).filter(|(call, rest)| !matches!(call, Call::TakingBack) || !rest.is_empty())
    }),
    ("replay: a taking back is a retiring", |m| {
        m.model.replay.first = |list| match first(list)? {
            (Call::TakingBack, rest) => Some((Call::Retiring, rest)),
            other => Some(other),
        }
    }),
    ("replay: a retiring is a taking back", |m| {
        m.model.replay.first = |list| match first(list)? {
            (Call::Retiring, rest) => Some((Call::TakingBack, rest)),
            other => Some(other),
        }
    }),
    ("replay: all bytes from 3 on are takings back", |m| {
        m.model.replay.first = |list| match list {
            [3..=255, rest @ ..] => Some((Call::TakingBack, rest)),
            _ => first(list),
        }
    }),
    ("replay: 4 is a taking back too", |m| {
        m.model.replay.first = |list| match list {
            [4, rest @ ..] => Some((Call::TakingBack, rest)),
            _ => first(list),
        }
    }),
    ("replay: all takings back in a row are one", |m| {
        m.model.replay.first = |list| match first(list)? {
            (Call::TakingBack, rest) => {
                let more = rest.iter().take_while(|&&byte| byte == 3).count();
                Some((Call::TakingBack, &rest[more..]))
            }
            other => Some(other),
        }
    }),
    ("replay: the length is taken high byte first", |m| {
        m.model.replay.first = |list| match list {
            [0, verdict, rest @ ..] => {
                let (length, rest) = wide(rest)?;
                let (block, rest) = rest.split_at_checked(length.swap_bytes().try_into().ok()?)?;
                Some((Call::Admission { verdict: *verdict, block }, rest))
            }
            _ => first(list),
        }
    }),
    ("replay: the length is taken from four bytes", |m| {
        m.model.replay.first = |list| match list {
            [0, verdict, rest @ ..] => {
                let (length, rest) = wide(rest)?;
                let (block, rest) = rest.split_at_checked(length as u32 as usize)?;
                Some((Call::Admission { verdict: *verdict, block }, rest))
            }
            _ => first(list),
        }
    }),
    ("replay: the place is taken high byte first", |m| {
        m.model.replay.first = |list| other_place(list, u64::swap_bytes)
    }),
    ("replay: the place is taken from one byte", |m| {
        m.model.replay.first = |list| other_place(list, |place| place % 256)
    }),
    ("replay: the place is taken from four bytes", |m| {
        m.model.replay.first = |list| other_place(list, |place| place % (1 << 32))
    }),
    ("replay: the verdict isn't looked at", |m| {
        m.model.replay.first = |list| match first(list)? {
            (Call::Admission { block, .. }, rest) => Some((Call::Admission { verdict: 1, block }, rest)),
            other => Some(other),
        }
    }),
    // Going on
    ("replay: a refused call ends the list", |m| m.model.replay.goes_on = |_, answer, _| answer.refusal == 0),
    ("replay: a table out of form ends the list", |m| m.model.replay.goes_on = |_, answer, _| answer.refusal != 2),
    ("replay: a full buffer of answers ends the list", |m| m.model.replay.goes_on = |ran, _, room| 2 * ran < room),
    // Answers
    ("replay: half an answer is written", |m| {
        m.model.replay.note = |answers, index, answer| {
            note(answers, index, answer);
            if let Some(refusal) = answers.get_mut(2 * index) {
                *refusal = answer.refusal.into();
            }
        }
    }),
    ("replay: the last answer that fits isn't written", |m| {
        m.model.replay.note = |answers, index, answer| {
            if 2 * index + 2 < answers.len() {
                note(answers, index, answer);
            }
        }
    }),
    ("replay: value before refusal", |m| {
        m.model.replay.note = |answers, index, answer| {
            note(answers, index, answer);
            if let Some(pair) = answers.chunks_exact_mut(2).nth(index) {
                pair.reverse();
            }
        }
    }),
    ("replay: answers of refused calls aren't written", |m| {
        m.model.replay.note = |answers, index, answer| {
            if answer.refusal == 0 {
                note(answers, index, answer);
            }
        }
    }),
    ("replay: answers are written from the end", |m| {
        m.model.replay.note = |answers, index, answer| {
            if let Some(last) = (answers.len() / 2).checked_sub(index + 1) {
                note(answers, last, answer);
            }
        }
    }),
    ("replay: the elements after the last answer are zeroed", |m| {
        m.after_replay(|ran, _, _, _, answers| {
            if let Some(rest) = answers.get_mut(2 * ran..) {
                rest.fill(0);
            }
            ran
        })
    }),
    ("replay: an odd last element is zeroed", |m| {
        m.after_replay(|ran, _, _, _, answers| {
            if answers.len() % 2 == 1 {
                *answers.last_mut().expect("an odd length") = 0;
            }
            ran
        })
    }),
    // What is answered and left
    ("replay: one call more is counted", |m| m.after_replay(|ran, _, _, _, _| ran + 1)),
    ("replay: only calls whose answer fits are counted", |m| {
        m.after_replay(|ran, _, _, _, answers| ran.min(answers.len() / 2))
    }),
    ("replay: only calls that aren't refused are counted", |m| {
        m.after_replay(|ran, _, _, _, answers| {
            let refused = answers.chunks_exact(2).take(ran).filter(|pair| pair[0] != 0).count();
            ran - refused
        })
    }),
    ("replay: the calls are written", |m| {
        m.after_replay(|ran, _, _, calls, _| {
            calls.fill(0);
            ran
        })
    }),
    ("replay: the table's last byte is written", |m| {
        m.after_replay(|ran, table, _, _, _| {
            flip_last(table);
            ran
        })
    }),
    ("replay: the records' last number is written", |m| {
        m.after_replay(|ran, _, records, _, _| {
            flip_last(records);
            ran
        })
    }),
];

fn cut_block_runs(list: &[u8]) -> FirstCall<'_> {
    match list {
        [0, verdict, rest @ ..] => {
            let (length, rest) = wide(rest)?;
            let length = usize::try_from(length).unwrap_or(usize::MAX).min(rest.len());
            let (block, rest) = rest.split_at(length);
            Some((Call::Admission { verdict: *verdict, block }, rest))
        }
        _ => first(list),
    }
}

fn cut_place_runs(list: &[u8]) -> FirstCall<'_> {
    match list {
        [1, rest @ ..] if rest.len() < WIDE_BYTES => {
            let mut bytes = [0; WIDE_BYTES];
            bytes[..rest.len()].copy_from_slice(rest);
            Some((Call::Interpretation { place: u64::from_le_bytes(bytes) as usize }, &[]))
        }
        _ => first(list),
    }
}

/// The first call of a list; an interpretation is of a place that is read otherwise.
fn other_place(list: &[u8], read: fn(u64) -> u64) -> FirstCall<'_> {
    match first(list)? {
        (Call::Interpretation { place }, rest) => {
            Some((Call::Interpretation { place: read(place as u64) as usize }, rest))
        }
        other => Some(other),
    }
}
