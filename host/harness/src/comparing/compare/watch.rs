//! All calls that only read a table.

use crate::comparing::buffers::NextBlock;
use crate::comparing::compare::Compare;
use crate::comparing::difference::Difference;
use crate::comparing::facts::watch::WatchAnswers;
use crate::model::sizes::MAX_BLOCK_BYTES;
use crate::model::table::Table;

impl WatchAnswers {
    /// The table is in form.
    pub fn of(compare: &mut Compare, table: Table) -> Result<WatchAnswers, Difference> {
        let bytes = table.to_bytes();
        let forked = compare.forks(&bytes)?;
        let ancestors: Result<_, _> = (0..table.count).map(|place| compare.ancestors(&bytes, place)).collect();
        let mut build = |site| compare.build(&NextBlock { table: &bytes, site, requests: &[] }, &[0; MAX_BLOCK_BYTES]);
        let build_answers: Result<_, _> = (0..table.sites).map(|site| build(site).map(|(answer, _)| answer)).collect();
        Ok(WatchAnswers { table, forked, ancestors: ancestors?, build_answers: build_answers? })
    }
}
