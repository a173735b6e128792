//! Document 01, "Interpreting a place".

use crate::model::checks::Check;
use crate::model::process::{Message, Process, Slot};
use crate::model::record::{part_of, record_at, Act, Part, Record, MADE, MESSAGES};
use crate::model::sizes::{BUFFER_NUMBERS, RECORD_NUMBERS};
use crate::model::table::{places, Row, Table};

/// What interpretation is given, with the answer of form.
pub struct InterpretationInput {
    pub table: Table,
    pub in_form: bool,
    pub place: usize,
    /// How many numbers the record buffer has.
    pub numbers: usize,
}

impl InterpretationInput {
    /// The row of the place; none if the table has no such place at all.
    pub fn row(&self) -> Option<&Row> {
        self.table.rows.get(self.place)
    }
}

/// The rules. Each is a value, so that the self-test can change one.
pub struct Interpretation {
    pub checks: Vec<Check<InterpretationInput>>,
    /// The place whose records the processes start as.
    pub parent: fn(&Table, usize) -> Option<usize>,
    /// How many entries of the parent's record they start as; those after it start as 0.
    pub passed_on: usize,
    /// The number that a block may send in a slot; 0 if none.
    pub request: fn(&Table, usize, usize) -> u16,
    /// Sends it, unless something was sent before.
    pub send: fn(&mut Record, u16, &Process),
    /// The set of the places whose messages are heard.
    pub heard: fn(&Table, usize) -> u64,
    /// The number of the message of a kind that a block, by its record, has made; 0 if none.
    pub made: fn(&Record, Act) -> u16,
    /// Makes a list of messages, lower places first, a set in its order.
    pub order: fn(&mut Vec<Message>),
    pub process: Process,
    /// Lets a process hear messages in turn.
    pub hear: fn(&Process, &mut Record, &Slot, &[Message]),
    /// Writes the records of a place.
    pub write: fn(&mut [u16], usize, &Part),
    /// Marks a place as interpreted.
    pub mark: fn(&mut Table, usize),
}

/// "Checks 2, 12, 13, 14, 15."
pub const CHECKS: [Check<InterpretationInput>; 5] = [
    Check { number: 2, finds: |input| (!input.in_form).then_some(0) },
    Check { number: 12, finds: |input| (input.numbers != BUFFER_NUMBERS).then_some(0) },
    Check { number: 13, finds: |input| (input.place >= input.table.count).then_some(0) },
    Check { number: 14, finds: |input| input.row().filter(|row| row.mark != 0).map(|_| 0) },
    Check { number: 15, finds: |input| not_interpreted(input).next() },
];

/// The direct references that aren't interpreted, lowest place first.
pub fn not_interpreted(input: &InterpretationInput) -> impl Iterator<Item = usize> + '_ {
    let references = input.row().map_or(0, |row| row.references);
    places(references).filter(|&place| input.table.rows[place].mark == 0)
}

impl Interpretation {
    pub fn document() -> Interpretation {
        Interpretation {
            checks: CHECKS.to_vec(),
            parent,
            passed_on: MADE,
            request,
            send,
            heard: |table, place| table.rows[place].references,
            made: |record, kind| record[kind.made()],
            order,
            process: Process::document(),
            hear,
            write,
            mark: |table, place| table.rows[place].mark = 1,
        }
    }

    /// The records of a place, which is one of the table's.
    pub fn part(&self, table: &Table, place: usize, records: &[u16]) -> Part {
        let parent = (self.parent)(table, place);
        let heard = (self.heard)(table, place);
        let mut messages = Vec::new();
        std::array::from_fn(|slot| {
            let mut record = self.start(parent, slot, records);
            let request = (self.request)(table, place, slot);
            if request != 0 {
                (self.send)(&mut record, request, &self.process);
            }
            messages.clear();
            self.messages_made(table, heard, slot, records, &mut messages);
            (self.order)(&mut messages);
            let builder = table.rows[place].site;
            let whose = Slot { sites: table.sites, owner: table.owners[slot], builder };
            (self.hear)(&self.process, &mut record, &whose, &messages);
            record
        })
    }

    /// "starts as entries 0 to 35 of the parent's record (all 0 without a parent), 36 to 39 as 0"
    fn start(&self, parent: Option<usize>, slot: usize, records: &[u16]) -> Record {
        let mut record = parent.map_or([0; RECORD_NUMBERS], |place| record_at(records, place, slot));
        record[self.passed_on..].fill(0);
        record
    }

    /// "the messages made in the blocks", "the sender being the block's site"
    fn messages_made(&self, table: &Table, heard: u64, slot: usize, records: &[u16], messages: &mut Vec<Message>) {
        for place in places(heard) {
            let record = record_at(records, place, slot);
            let sender = table.rows[place].site;
            for kind in MESSAGES {
                let number = (self.made)(&record, kind);
                if number != 0 {
                    messages.push(Message { kind, sender, number });
                }
            }
        }
    }
}

/// The reference of the same site with the sequence number one less; a block of sequence 0 has none.
pub fn parent(table: &Table, place: usize) -> Option<usize> {
    let row = &table.rows[place];
    let before = row.sequence.checked_sub(1)?;
    places(row.references).find(|&lower| {
        let other = &table.rows[lower];
        other.site == row.site && other.sequence == before
    })
}

/// "If the block has a counted request v, its site is the owner"
pub fn request(table: &Table, place: usize, slot: usize) -> u16 {
    let row = &table.rows[place];
    if row.site == table.owners[slot] {
        row.requests[slot]
    } else {
        0
    }
}

/// "and entry 0 is 0, it sends SEND v": to act at all asks that the entry is 0.
pub fn send(record: &mut Record, number: u16, process: &Process) {
    (process.act)(record, Act::Send, number);
}

/// "as a set of (kind, sender, number) ...: SEND before ECHO before READY, then lower sender, then lower number"
pub fn order(messages: &mut Vec<Message>) {
    messages.sort_unstable();
    messages.dedup();
}

/// "Messages made here are not heard here."
pub fn hear(process: &Process, record: &mut Record, slot: &Slot, messages: &[Message]) {
    for message in messages {
        process.hear(record, slot, message);
    }
}

/// "only the 320 numbers that belong to that place are written"
pub fn write(records: &mut [u16], place: usize, part: &Part) {
    // Only a model without check 12 or 13 comes here with a buffer that hasn't got the part.
    if let Some(numbers) = part_of(place).and_then(|numbers| records.get_mut(numbers)) {
        numbers.copy_from_slice(part.as_flattened());
    }
}
