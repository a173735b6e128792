//! A taking back straight after an admission.

use crate::comparing::buffers::{Buffers, Sides};
use crate::comparing::compare::Compare;
use crate::comparing::difference::Difference;
use crate::comparing::laws::AdmissionTakenBack;

impl AdmissionTakenBack {
    /// Takes back on a copy of the table that the admission left.
    pub fn of(compare: &mut Compare, before: Vec<u8>, admitted: &[u8]) -> Result<AdmissionTakenBack, Difference> {
        let mut sides = Sides::new(Buffers { table: admitted.to_vec(), ..Buffers::default() });
        let answer = compare.take_back(&mut sides)?;
        Ok(AdmissionTakenBack { before, answer, after: sides.tested.table })
    }
}
