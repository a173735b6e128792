//! What the calls that only read a table say of it, put together.

use crate::model::answer::{AncestorPlaces, Answer, ForkedSites};
use crate::model::table::Table;

/// What the watch and building answered about one table.
pub struct WatchAnswers {
    pub table: Table,
    pub forked: ForkedSites,
    /// The ancestors of each place.
    pub ancestors: Vec<AncestorPlaces>,
    /// What building answered to each site, for a block without requests.
    pub build_answers: Vec<Answer>,
}
