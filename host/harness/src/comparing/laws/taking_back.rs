//! What must hold of an admission that is taken back straight away: alone, and anywhere in a list of calls.

use super::Law;
use crate::comparing::buffers::{first_other, Buffers};
use crate::model::answer::Answer;

/// The table before an admission, and what a taking back straight after it answered and left.
pub struct AdmissionTakenBack {
    pub before: Vec<u8>,
    pub answer: Answer,
    pub after: Vec<u8>,
}

/// The buffers that a list of calls left, and those that it left with admissions put in, each taken back straight away.
pub struct ExtendedList<'a> {
    pub without: &'a Buffers,
    pub with: &'a Buffers,
    /// Which calls of the longer list were put in.
    pub put_in: Vec<bool>,
}

pub const GIVES_BACK: &str = "law: straight after an admission a taking back gives the table before it, all bytes";
pub const AS_IF_NEVER: &str =
    "law: an admission and its taking back in a list leave table, records and later answers as without both";

pub const LAW_OF_ONE: [Law<AdmissionTakenBack>; 1] = [Law { name: GIVES_BACK, broken: not_given_back }];

pub fn laws_of_lists<'a>() -> [Law<ExtendedList<'a>>; 1] {
    [Law { name: AS_IF_NEVER, broken: leaves_something }]
}

fn not_given_back(taken_back: &AdmissionTakenBack) -> Option<String> {
    let other = first_other("table", &taken_back.after, &taken_back.before);
    (taken_back.answer != Answer::success(0) || other.is_some()).then(|| format!("{:?}, {other:?}", taken_back.answer))
}

fn leaves_something(list: &ExtendedList) -> Option<String> {
    let answers = list.with.answers.chunks_exact(2).zip(&list.put_in);
    let own: Vec<u64> = answers.filter(|(_, put_in)| !**put_in).flat_map(|(answer, _)| answer).copied().collect();
    first_other("table", &list.with.table, &list.without.table)
        .or_else(|| first_other("records", &list.with.records, &list.without.records))
        .or_else(|| first_other("answers", &own, &list.without.answers))
}
