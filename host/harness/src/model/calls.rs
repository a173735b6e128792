//! The calls that are compared. The library answers them, and so does the model. A listing is a program's answer.
//!
//! Every buffer is lent writable, also where a call should only read: so a call that writes there is seen.

use crate::model::answer::{AncestorPlaces, Answer, ArrivalAnswer, ForkedSites, Reading};
use crate::model::exit::Exit;

pub trait Calls {
    fn fresh(&self, sites: u8, owners: &mut [u8], table: &mut [u8]) -> Answer;
    fn in_form(&self, table: &mut [u8]) -> bool;
    fn admit(&self, table: &mut [u8], block: &mut [u8], verdict: u8) -> Answer;
    fn interpret(&self, table: &mut [u8], place: usize, records: &mut [u16]) -> Answer;
    /// The block at place 0 leaves, and all others move down by one place.
    fn retire(&self, table: &mut [u8], records: &mut [u16]) -> Answer;
    /// The block at the last place leaves, as if it had never been admitted.
    fn take_back(&self, table: &mut [u8]) -> Answer;
    fn forks(&self, table: &mut [u8]) -> ForkedSites;
    fn ancestors(&self, table: &mut [u8], place: usize) -> AncestorPlaces;
    /// The site's next block, with these requests, is written to the front of the output.
    fn build(&self, table: &mut [u8], site: u8, requests: &mut [u8], output: &mut [u8]) -> Answer;
    /// How many calls of the list ran.
    fn replay(&self, table: &mut [u8], records: &mut [u16], calls: &mut [u8], answers: &mut [u64]) -> usize;
    fn shelf_in_form(&self, shelf: &mut [u8]) -> bool;
    /// A block arrives for a campaign, whose table is lent with the shelf of all campaigns.
    fn arrive(
        &self,
        table: &mut [u8],
        shelf: &mut [u8],
        campaign: u8,
        block: &mut [u8],
        verdict: u8,
        outcomes: &mut [u64],
    ) -> ArrivalAnswer;
    /// The left's table becomes that of both, and the parts of its interpreted places go to the third buffer.
    fn join(
        &self,
        left: &mut [u8],
        right: &mut [u8],
        left_records: &mut [u16],
        right_records: &mut [u16],
        third: &mut [u16],
    ) -> Answer;
    fn read_block(&self, block: &mut [u8]) -> Reading;
    fn digest(&self, message: &mut [u8], output: &mut [u8]) -> Answer;
    /// What the listing program leaves for an input, which goes to it by a pipe: it can't write there.
    fn listing(&self, input: &[u8]) -> Exit;
}
