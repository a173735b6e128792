//! The library's C functions, and the listing program, as `Calls`. The only unsafe code of the harness.

use crate::comparing::program::Program;
use crate::model::answer::{AncestorPlaces, Answer, ArrivalAnswer, ForkedSites, Reading};
use crate::model::calls::Calls;
use crate::model::exit::Exit;

// As declared in giangotum_core.h.
extern "C" {
    fn gt_fresh(sites: u8, owners: *const u8, owners_length: usize, table: *mut u8, table_length: usize) -> Answer;
    fn gt_in_form(table: *const u8, table_length: usize) -> bool;
    fn gt_admit(table: *mut u8, table_length: usize, block: *const u8, block_length: usize, verdict: u8) -> Answer;
    fn gt_interpret(
        table: *mut u8,
        table_length: usize,
        place: usize,
        records: *mut u16,
        records_length: usize,
    ) -> Answer;
    fn gt_retire(table: *mut u8, table_length: usize, records: *mut u16, records_length: usize) -> Answer;
    fn gt_take_back(table: *mut u8, table_length: usize) -> Answer;
    fn gt_forks(table: *const u8, table_length: usize) -> ForkedSites;
    fn gt_ancestors(table: *const u8, table_length: usize, place: usize) -> AncestorPlaces;
    fn gt_build(
        table: *const u8,
        table_length: usize,
        site: u8,
        requests: *const u8,
        requests_length: usize,
        output: *mut u8,
        output_length: usize,
    ) -> Answer;
    fn gt_replay(
        table: *mut u8,
        table_length: usize,
        records: *mut u16,
        records_length: usize,
        calls: *const u8,
        calls_length: usize,
        answers: *mut u64,
        answers_length: usize,
    ) -> usize;
    fn gt_shelf_in_form(shelf: *const u8, shelf_length: usize) -> bool;
    fn gt_arrive(
        table: *mut u8,
        table_length: usize,
        shelf: *mut u8,
        shelf_length: usize,
        campaign: u8,
        block: *const u8,
        block_length: usize,
        verdict: u8,
        outcomes: *mut u64,
        outcomes_length: usize,
    ) -> ArrivalAnswer;
    fn gt_join(
        left: *mut u8,
        left_length: usize,
        right: *const u8,
        right_length: usize,
        left_records: *const u16,
        left_records_length: usize,
        right_records: *const u16,
        right_records_length: usize,
        third: *mut u16,
        third_length: usize,
    ) -> Answer;
}

// As declared in giangotum.h.
extern "C" {
    fn gt_digest(message: *const u8, message_length: usize, output: *mut u8, output_length: usize) -> Answer;
    fn gt_read_block(block: *const u8, block_length: usize) -> Reading;
}

pub struct Library {
    /// Only cases of listings run it.
    pub listing: Option<Program>,
}

// What the functions ask of their caller holds for each call below: a pointer has as many items behind it as the
// length beside it says, and no two buffers overlap, since each comes from a slice that is borrowed alone.
// The pointers are taken as writable ones, so that the compiler may not take a buffer as unchanged by the call.
impl Calls for Library {
    fn fresh(&self, sites: u8, owners: &mut [u8], table: &mut [u8]) -> Answer {
        unsafe { gt_fresh(sites, owners.as_mut_ptr(), owners.len(), table.as_mut_ptr(), table.len()) }
    }

    fn in_form(&self, table: &mut [u8]) -> bool {
        unsafe { gt_in_form(table.as_mut_ptr(), table.len()) }
    }

    fn admit(&self, table: &mut [u8], block: &mut [u8], verdict: u8) -> Answer {
        unsafe { gt_admit(table.as_mut_ptr(), table.len(), block.as_mut_ptr(), block.len(), verdict) }
    }

    fn interpret(&self, table: &mut [u8], place: usize, records: &mut [u16]) -> Answer {
        unsafe { gt_interpret(table.as_mut_ptr(), table.len(), place, records.as_mut_ptr(), records.len()) }
    }

    fn retire(&self, table: &mut [u8], records: &mut [u16]) -> Answer {
        unsafe { gt_retire(table.as_mut_ptr(), table.len(), records.as_mut_ptr(), records.len()) }
    }

    fn take_back(&self, table: &mut [u8]) -> Answer {
        unsafe { gt_take_back(table.as_mut_ptr(), table.len()) }
    }

    fn forks(&self, table: &mut [u8]) -> ForkedSites {
        unsafe { gt_forks(table.as_mut_ptr(), table.len()) }
    }

    fn ancestors(&self, table: &mut [u8], place: usize) -> AncestorPlaces {
        unsafe { gt_ancestors(table.as_mut_ptr(), table.len(), place) }
    }

    fn build(&self, table: &mut [u8], site: u8, requests: &mut [u8], output: &mut [u8]) -> Answer {
        unsafe {
            gt_build(
                table.as_mut_ptr(),
                table.len(),
                site,
                requests.as_mut_ptr(),
                requests.len(),
                output.as_mut_ptr(),
                output.len(),
            )
        }
    }

    fn replay(&self, table: &mut [u8], records: &mut [u16], calls: &mut [u8], answers: &mut [u64]) -> usize {
        unsafe {
            gt_replay(
                table.as_mut_ptr(),
                table.len(),
                records.as_mut_ptr(),
                records.len(),
                calls.as_mut_ptr(),
                calls.len(),
                answers.as_mut_ptr(),
                answers.len(),
            )
        }
    }

    fn shelf_in_form(&self, shelf: &mut [u8]) -> bool {
        unsafe { gt_shelf_in_form(shelf.as_mut_ptr(), shelf.len()) }
    }

    fn arrive(
        &self,
        table: &mut [u8],
        shelf: &mut [u8],
        campaign: u8,
        block: &mut [u8],
        verdict: u8,
        outcomes: &mut [u64],
    ) -> ArrivalAnswer {
        unsafe {
            gt_arrive(
                table.as_mut_ptr(),
                table.len(),
                shelf.as_mut_ptr(),
                shelf.len(),
                campaign,
                block.as_mut_ptr(),
                block.len(),
                verdict,
                outcomes.as_mut_ptr(),
                outcomes.len(),
            )
        }
    }

    fn join(
        &self,
        left: &mut [u8],
        right: &mut [u8],
        left_records: &mut [u16],
        right_records: &mut [u16],
        third: &mut [u16],
    ) -> Answer {
        unsafe {
            gt_join(
                left.as_mut_ptr(),
                left.len(),
                right.as_mut_ptr(),
                right.len(),
                left_records.as_mut_ptr(),
                left_records.len(),
                right_records.as_mut_ptr(),
                right_records.len(),
                third.as_mut_ptr(),
                third.len(),
            )
        }
    }

    fn read_block(&self, block: &mut [u8]) -> Reading {
        unsafe { gt_read_block(block.as_mut_ptr(), block.len()) }
    }

    fn digest(&self, message: &mut [u8], output: &mut [u8]) -> Answer {
        unsafe { gt_digest(message.as_mut_ptr(), message.len(), output.as_mut_ptr(), output.len()) }
    }

    fn listing(&self, input: &[u8]) -> Exit {
        self.listing.as_ref().expect("the listing program").run(input)
    }
}
