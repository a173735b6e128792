//! One join, and once more the same.

use crate::comparing::buffers::{Buffers, Sides};
use crate::comparing::compare::Compare;
use crate::comparing::difference::Difference;
use crate::comparing::facts::join::JoinFacts;
use crate::model::answer::Answer;

/// Joins two sides, and then the right once more to what came of it.
pub fn join_facts(
    compare: &mut Compare,
    left: Buffers,
    right: Buffers,
    third: Vec<u16>,
) -> Result<JoinFacts, Difference> {
    let (answer, after) = once(compare, &left, &right, &third)?;
    let (mut in_form, mut second) = (false, None);
    if answer.refusal == 0 {
        in_form = compare.in_form(&after.table)?;
        second = Some(once(compare, &after, &right, &after.records)?);
    }
    let facts = JoinFacts { left, right, third, answer, after, in_form, second };
    compare.counts.joins.join(&facts);
    Ok(facts)
}

fn once(
    compare: &mut Compare,
    left: &Buffers,
    right: &Buffers,
    third: &[u16],
) -> Result<(Answer, Buffers), Difference> {
    let mut sides = Sides::new(left.clone());
    let answer = compare.join(&mut sides, right, third)?;
    Ok((answer, Buffers::new(sides.expected.table, sides.expected.third)))
}
