//! Document 01, "Listing program and C host": from a whole input to all its lines.

use crate::model::answer::Answer;
use crate::model::calls::Calls;
use crate::model::exit::Exit;
use crate::model::record::{part_at, Act, Part};
use crate::model::sizes::{BUFFER_NUMBERS, MAX_BLOCK_BYTES, SLOTS, TABLE_BYTES};
use crate::model::table::Table;

/// "n, eight owners (one byte each)"
pub const SETUP_BYTES: usize = 1 + SLOTS;
/// Of an arrival.
pub const LENGTH_BYTES: usize = 2;
/// Bytes before the block of an arrival: length, verdict.
pub const BEFORE_BLOCK: usize = LENGTH_BYTES + 1;

/// "First a line of names"
pub const NAMES: &str = "arrival place site seq slot number refusal\n";

/// "then lines of values in that order"; none is "a field with no value".
#[derive(Clone, Copy, Default)]
pub struct Line {
    pub arrival: Option<usize>,
    pub place: Option<usize>,
    pub site: Option<u8>,
    pub sequence: Option<u16>,
    pub slot: Option<usize>,
    pub number: Option<u16>,
    /// "refusal 0 is none"
    pub refusal: u8,
}

/// A number, not 0, that a block delivers.
#[derive(Clone, Copy)]
pub struct Delivery {
    pub slot: usize,
    pub number: u16,
}

/// The table and the records that the program keeps.
struct TableAndRecords {
    table: Vec<u8>,
    records: Vec<u16>,
}

/// The setup as far as the input has it; a lawful one has eight owners.
pub struct Setup {
    pub sites: u8,
    pub owners: Vec<u8>,
}

#[derive(Clone, Copy)]
pub enum StreamArrival<'a> {
    Block {
        verdict: u8,
        block: &'a [u8],
    },
    /// A length that no block has.
    OverLong,
    /// The input ends before it does.
    Cut,
}

/// A length by its bytes.
pub type Length = fn([u8; LENGTH_BYTES]) -> u16;

/// The first arrival of an input and what follows it; none where the input ends.
pub type FirstArrival<'a> = Option<(StreamArrival<'a>, &'a [u8])>;

/// The rules. Each is a value, so that the self-test can change one.
pub struct Listing {
    /// The setup and what follows it.
    pub setup: fn(&[u8]) -> (Setup, &[u8]),
    pub first: fn(&[u8]) -> FirstArrival,
    /// Whether the input is read on, by the refusal of what was read last.
    pub goes_on: fn(u8) -> bool,
    /// The number of the next arrival, by that of the last one and its refusal.
    pub next: fn(usize, &StreamArrival, u8) -> usize,
    /// The place that is interpreted after an admission to a place, if one is.
    pub due: fn(&Table, usize) -> Option<usize>,
    pub deliveries: fn(&Part) -> Vec<Delivery>,
    /// The line of a delivery in the block at a place. The arrival's number is put in afterwards.
    pub delivery_line: fn(&Table, usize, Delivery) -> Line,
    pub refusal_line: fn(&Table, &StreamArrival, Answer) -> Line,
    pub text: fn(&Line) -> String,
}

impl Listing {
    pub fn document() -> Listing {
        Listing {
            setup,
            first,
            // "A setup that is short or unlawful gives ... and the end." No arrival is refused with 1.
            goes_on: |refusal| refusal != 1,
            next: |number, _, _| number + 1,
            // "Each admitted block is interpreted directly."
            due: |_, place| Some(place),
            deliveries,
            delivery_line,
            refusal_line,
            text,
        }
    }

    /// All lines after the names.
    pub fn lines(&self, calls: &dyn Calls, input: &[u8]) -> Vec<Line> {
        let (mut setup, mut rest) = (self.setup)(input);
        let mut buffers = TableAndRecords { table: vec![0; TABLE_BYTES], records: vec![0; BUFFER_NUMBERS] };
        let mut refusal = calls.fresh(setup.sites, &mut setup.owners, &mut buffers.table).refusal;
        let mut lines = Vec::new();
        if refusal != 0 {
            lines.push(Line { refusal, ..Line::default() });
        }
        // "arrivals count from 0"
        let mut number = 0;
        while (self.goes_on)(refusal) {
            let Some((arrival, after)) = (self.first)(rest) else { break };
            let of_arrival;
            (refusal, of_arrival) = self.arrive(calls, &mut buffers, &arrival);
            lines.extend(of_arrival.into_iter().map(|line| Line { arrival: Some(number), ..line }));
            number = (self.next)(number, &arrival, refusal);
            rest = after;
        }
        lines
    }

    /// The refusal of an arrival, and its lines.
    fn arrive(&self, calls: &dyn Calls, buffers: &mut TableAndRecords, arrival: &StreamArrival) -> (u8, Vec<Line>) {
        let answer = match *arrival {
            StreamArrival::Block { verdict, block } => calls.admit(&mut buffers.table, &mut block.to_vec(), verdict),
            // An over-long one "is refused with 3"; "a cut arrival gets 3".
            StreamArrival::OverLong | StreamArrival::Cut => Answer { refusal: 3, value: 0 },
        };
        let lines = match answer.refusal {
            0 => self.delivery_lines(calls, buffers, answer.value),
            _ => vec![(self.refusal_line)(&Table::from_bytes(&buffers.table), arrival, answer)],
        };
        (answer.refusal, lines)
    }

    /// The lines of a block that was admitted to a place.
    fn delivery_lines(&self, calls: &dyn Calls, buffers: &mut TableAndRecords, place: usize) -> Vec<Line> {
        let table = Table::from_bytes(&buffers.table);
        let Some(due) = (self.due)(&table, place) else { return Vec::new() };
        calls.interpret(&mut buffers.table, due, &mut buffers.records);
        let deliveries = (self.deliveries)(&part_at(&buffers.records, due));
        deliveries.into_iter().map(|delivery| (self.delivery_line)(&table, due, delivery)).collect()
    }

    /// What the program leaves that has these lines to write.
    pub fn exit(&self, lines: &[Line]) -> Exit {
        let lines: String = lines.iter().map(self.text).collect();
        Exit::well([NAMES, &lines].concat().into_bytes())
    }
}

/// Of no bytes at all n is 0, which is not lawful either.
pub fn setup(input: &[u8]) -> (Setup, &[u8]) {
    let (setup, arrivals) = input.split_at(input.len().min(SETUP_BYTES));
    let (sites, owners) = setup.split_first().unwrap_or((&0, &[]));
    (Setup { sites: *sites, owners: owners.to_vec() }, arrivals)
}

/// "length (two bytes, high first)"
pub fn first(input: &[u8]) -> FirstArrival<'_> {
    first_of_length(input, u16::from_be_bytes)
}

/// The first arrival, with its length read so. It has begun with its first byte.
pub fn first_of_length(input: &[u8], length: Length) -> FirstArrival<'_> {
    if input.is_empty() {
        None
    } else {
        Some(whole(input, length).unwrap_or((StreamArrival::Cut, &[])))
    }
}

/// "length ..., verdict, block": none if the input doesn't have them all.
fn whole(input: &[u8], length: Length) -> FirstArrival<'_> {
    let (bytes, rest) = input.split_first_chunk()?;
    let (verdict, rest) = rest.split_first()?;
    let (block, rest) = rest.split_at_checked(length(*bytes).into())?;
    if block.len() > MAX_BLOCK_BYTES {
        // "its verdict and bytes skipped"
        Some((StreamArrival::OverLong, rest))
    } else {
        Some((StreamArrival::Block { verdict: *verdict, block }, rest))
    }
}

/// An arrival as bytes.
pub fn arrival_bytes(verdict: u8, block: &[u8]) -> Vec<u8> {
    let length = u16::try_from(block.len()).expect("a length of two bytes");
    [&length.to_be_bytes()[..], &[verdict], block].concat()
}

/// "A line stands for each delivery (lower slot first)": what is delivered in this block.
pub fn deliveries(part: &Part) -> Vec<Delivery> {
    deliveries_by(part, Act::Deliver.made())
}

/// What is delivered, if this entry of a record said so.
pub fn deliveries_by(part: &Part, entry: usize) -> Vec<Delivery> {
    let numbers = part.iter().map(|record| record[entry]).enumerate();
    numbers.filter(|&(_, number)| number != 0).map(|(slot, number)| Delivery { slot, number }).collect()
}

/// Place, site and sequence number are those of the block that delivers.
pub fn delivery_line(table: &Table, place: usize, Delivery { slot, number }: Delivery) -> Line {
    let row = &table.rows[place];
    Line {
        place: Some(place),
        site: Some(row.site),
        sequence: Some(row.sequence),
        slot: Some(slot),
        number: Some(number),
        ..Line::default()
    }
}

/// "A refused arrival's line fills only arrival and refusal."
pub fn refusal_line(_: &Table, _: &StreamArrival, answer: Answer) -> Line {
    Line { refusal: answer.refusal, ..Line::default() }
}

/// "`-` is a field with no value"
pub fn text(line: &Line) -> String {
    fn field<T: ToString>(value: Option<T>) -> String {
        value.map_or("-".to_string(), |value| value.to_string())
    }
    let fields = [
        field(line.arrival),
        field(line.place),
        field(line.site),
        field(line.sequence),
        field(line.slot),
        field(line.number),
        line.refusal.to_string(),
    ];
    fields.join(" ") + "\n"
}
