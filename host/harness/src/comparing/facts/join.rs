//! One join: what there was before and after it.

use crate::comparing::buffers::Buffers;
use crate::model::answer::Answer;

/// A join: the buffers before it, its answer, and the buffers after it.
pub struct JoinFacts {
    pub left: Buffers,
    pub right: Buffers,
    /// The third buffer as it was.
    pub third: Vec<u16>,
    pub answer: Answer,
    /// The left's table and the third buffer, as the call left them.
    pub after: Buffers,
    /// After a success: whether the table is in form, and what a second join with the same right answers and leaves.
    pub in_form: bool,
    pub second: Option<(Answer, Buffers)>,
}

/// A join of two sides that calls reached, with other ways to the same result.
pub struct ReachedJoin<'a> {
    pub join: &'a JoinFacts,
    /// The join with the sides exchanged, and the third buffer as before.
    pub swapped: JoinFacts,
    /// What calls leave that admit the blocks of the result in its order and interpret those that are interpreted
    /// there. None if a block isn't known.
    pub by_calls: Option<Buffers>,
    /// The refusals of the calls by which the joined site goes on.
    pub later_refusals: Vec<u64>,
}
