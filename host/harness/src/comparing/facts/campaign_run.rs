//! The calls of one campaign of a controller, and what they came to.

use crate::comparing::buffers::OutcomeNumbers;
use crate::drawing::arrivals::Arrival;
use crate::model::answer::Answer;

/// A call made for a campaign.
#[derive(Clone)]
pub enum Call {
    /// The arrival, and how many numbers the buffer for its outcomes has.
    Arrival(Arrival, usize),
    Admission(Arrival),
    Interpretation(usize),
    Retiring,
    TakingBack,
}

/// What a call answered, with the outcomes that it listed.
#[derive(Clone, Debug, PartialEq, Eq)]
pub struct Reply {
    pub answer: Answer,
    pub listed: Vec<OutcomeNumbers>,
}

/// The calls of a campaign with their answers, and the table, the records and the waiting blocks that they left.
pub struct CampaignRun {
    pub calls: Vec<Call>,
    pub replies: Vec<Reply>,
    pub table: Vec<u8>,
    pub records: Vec<u16>,
    pub waiting: Vec<Vec<u8>>,
}
