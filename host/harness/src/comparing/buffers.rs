//! The buffers of one site that are lent to calls, and the same twice, one for each side of a comparison.

use std::fmt::LowerHex;
use std::mem::size_of;

use crate::model::sizes::{PART_NUMBERS, RECORD_NUMBERS};

/// The buffers of one site. It keeps its table and its records from call to call; the others are filled for a call.
#[derive(Clone, Default)]
pub struct Buffers {
    pub table: Vec<u8>,
    pub records: Vec<u16>,
    pub block: Vec<u8>,
    pub calls: Vec<u8>,
    pub answers: Vec<u64>,
    /// All campaigns of a controller share one; it goes from one to the other.
    pub shelf: Vec<u8>,
    pub outcomes: Vec<u64>,
    /// A right side's table and records, and the buffer for the records of both.
    pub right: Vec<u8>,
    pub right_records: Vec<u16>,
    pub third: Vec<u16>,
}

impl Buffers {
    pub fn new(table: Vec<u8>, records: Vec<u16>) -> Buffers {
        Buffers { table, records, ..Buffers::default() }
    }

    /// A copy of what a site keeps.
    pub fn table_and_records(&self) -> Buffers {
        Buffers::new(self.table.clone(), self.records.clone())
    }

    /// The first so many outcomes.
    pub fn first_outcomes(&self, count: usize) -> Vec<OutcomeNumbers> {
        self.outcomes.chunks_exact(2).take(count).map(|pair| [pair[0], pair[1]]).collect()
    }

    /// The first item that is other than in `expected`, if there is one.
    pub fn first_other(&self, expected: &Buffers) -> Option<String> {
        first_other("table", &self.table, &expected.table)
            .or_else(|| first_other_record("records", &self.records, &expected.records))
            .or_else(|| first_other("block", &self.block, &expected.block))
            .or_else(|| first_other("calls", &self.calls, &expected.calls))
            .or_else(|| first_other("answers", &self.answers, &expected.answers))
            .or_else(|| first_other("shelf", &self.shelf, &expected.shelf))
            .or_else(|| first_other("outcomes", &self.outcomes, &expected.outcomes))
            .or_else(|| first_other("right", &self.right, &expected.right))
            .or_else(|| first_other_record("right records", &self.right_records, &expected.right_records))
            .or_else(|| first_other_record("third", &self.third, &expected.third))
    }
}

fn first_other_record(name: &str, tested: &[u16], expected: &[u16]) -> Option<String> {
    let what = first_other(name, tested, expected)?;
    let RecordPosition { place, slot, entry } = RecordPosition::of(other_at(tested, expected)?);
    Some(format!("{what}: place {place}, slot {slot}, entry {entry}"))
}

/// What became of a block that waited, as the two numbers of its outcome: 0 and its place, or its refusal and 0.
pub type OutcomeNumbers = [u64; 2];

/// What a site's next block is built from.
#[derive(Clone, Copy)]
pub struct NextBlock<'a> {
    pub table: &'a [u8],
    pub site: u8,
    pub requests: &'a [u8],
}

/// Where a number of the record buffer stands.
struct RecordPosition {
    place: usize,
    slot: usize,
    entry: usize,
}

impl RecordPosition {
    fn of(number: usize) -> RecordPosition {
        let (place, in_part) = (number / PART_NUMBERS, number % PART_NUMBERS);
        RecordPosition { place, slot: in_part / RECORD_NUMBERS, entry: in_part % RECORD_NUMBERS }
    }
}

/// Each side goes on with the buffers that its own calls left. Between calls both have the same in them.
pub struct Sides {
    pub tested: Buffers,
    pub expected: Buffers,
}

impl Sides {
    pub fn new(buffers: Buffers) -> Sides {
        Sides { tested: buffers.clone(), expected: buffers }
    }

    pub fn each(&mut self, change: impl Fn(&mut Buffers)) {
        change(&mut self.tested);
        change(&mut self.expected);
    }

    /// Each side exchanges its shelf with that of another campaign.
    pub fn swap_shelf(&mut self, other: &mut Sides) {
        std::mem::swap(&mut self.tested.shelf, &mut other.tested.shelf);
        std::mem::swap(&mut self.expected.shelf, &mut other.expected.shelf);
    }

    /// The slot in which the sides' records first differ, if they do.
    pub fn other_slot(&self) -> Option<usize> {
        other_at(&self.tested.records, &self.expected.records).map(|number| RecordPosition::of(number).slot)
    }
}

fn other_at<T: PartialEq>(tested: &[T], expected: &[T]) -> Option<usize> {
    (0..expected.len()).find(|&at| tested[at] != expected[at])
}

/// The first item of a buffer that is other than the model's. Whole slices are compared first, which is quicker.
pub fn first_other<T: PartialEq + LowerHex>(name: &str, tested: &[T], expected: &[T]) -> Option<String> {
    if tested == expected {
        return None;
    }
    let at = other_at(tested, expected)?;
    let width = 2 * size_of::<T>();
    let (left, wanted) = (&tested[at], &expected[at]);
    Some(format!("left {left:0width$x} at {at} of {name}, the model {wanted:0width$x}"))
}

/// All items, in hexadecimal.
pub fn hex<T: LowerHex>(items: &[T]) -> String {
    let width = 2 * size_of::<T>();
    items.iter().map(|item| format!("{item:0width$x}")).collect()
}
