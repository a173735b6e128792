//! A site's table and records beside its ledger without bounds.

use std::collections::{BTreeSet, HashMap, HashSet};

use crate::comparing::buffers::{Buffers, Sides};
use crate::model::ledger::Ledger;
use crate::model::record::Part;
use crate::model::sha256::Digest;
use crate::model::sizes::SLOTS;

/// A site: its buffers on both sides of the comparison, and its ledger.
pub struct SiteWithLedger {
    pub sides: Sides,
    pub ledger: Ledger,
    /// Which law comes first of those that are held against each call. Without one only those of the end are held: so wrong
    /// rules show whether these say something by themselves.
    pub first_law: Option<usize>,
    /// The parts that interpretations wrote, by the blocks; those of blocks that have left are among them.
    pub parts: HashMap<Digest, Part>,
    /// The numbers delivered in each slot, in blocks that are held or have left.
    pub delivered: [BTreeSet<u16>; SLOTS],
    /// The blocks that were retired, as the table had them.
    pub retired: HashSet<Digest>,
}

impl SiteWithLedger {
    /// The buffers as the calls so far have left them: the library's, which are the model's too.
    pub fn buffers(&self) -> &Buffers {
        &self.sides.tested
    }
}
