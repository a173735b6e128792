//! A list of checks: the first that finds its cause gives the refusal.

use crate::model::answer::Answer;

/// `finds` gives the number that is returned beside the refusal, 0 where the document names none.
pub struct Check<Input: ?Sized> {
    pub number: u8,
    pub finds: fn(&Input) -> Option<usize>,
}

impl<Input: ?Sized> Clone for Check<Input> {
    fn clone(&self) -> Self {
        Check { number: self.number, finds: self.finds }
    }
}

pub fn first_refusal<Input: ?Sized>(checks: &[Check<Input>], input: &Input) -> Option<Answer> {
    checks.iter().find_map(|check| {
        let value = (check.finds)(input)?;
        Some(Answer { refusal: check.number, value })
    })
}
