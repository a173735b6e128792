//! The model: what each call of the library should answer and leave, by an implementation of our own of documents 01 and 02.
//! A file holds one section's rules, or the layout that they are about; `Model` puts them together. Rules are values, so that
//! one can be exchanged for a wrong one.
//!
//! Nothing here draws, compares or calls the library: the model depends on none of the other three folders.

pub mod admission;
pub mod answer;
pub mod block;
pub mod building;
pub mod calls;
pub mod checks;
pub mod exit;
pub mod form;
pub mod interpretation;
pub mod joining;
pub mod ledger;
pub mod listing;
pub mod process;
pub mod promise;
pub mod record;
pub mod replay;
pub mod retiring;
pub mod setup;
pub mod sha256;
pub mod shelf;
pub mod shelf_form;
pub mod shelving;
pub mod sizes;
pub mod table;
pub mod taking_back;
pub mod watch;

use admission::AdmissionInput;
use answer::{AncestorPlaces, Answer, ArrivalAnswer, Fields, ForkedSites, Reading};
use building::{Building, BuildingInput};
use calls::Calls;
use checks::{first_refusal, Check};
use exit::Exit;
use form::Condition;
use interpretation::{Interpretation, InterpretationInput};
use joining::{JoinInput, Joining};
use listing::{Line, Listing};
use replay::{Call, Replay};
use retiring::{Retiring, RetiringInput};
use sha256::{sha256, Digest};
use shelf::Shelf;
use shelving::{ArrivalInput, Shelving};
use sizes::{DIGEST_BYTES, PLACES, SLOTS, TABLE_BYTES};
use table::{Row, Table};
use taking_back::{TakingBack, TakingBackInput};
use watch::{Watch, WatchInput};

/// What the call for a fresh table is given: a setup, and the length of the buffer for the table.
pub struct FreshInput {
    pub sites: u8,
    pub owners: Vec<u8>,
    pub length: usize,
}

/// The rules that the model follows. Each is a value, so that the self-test can change one.
pub struct Model {
    pub fresh: Vec<Check<FreshInput>>,
    pub form: Vec<Condition<Table>>,
    pub admission: Vec<Check<AdmissionInput>>,
    pub row: fn(&AdmissionInput) -> Row,
    pub put: fn(&mut Table, Row),
    pub interpretation: Interpretation,
    pub retiring: Retiring,
    pub taking_back: TakingBack,
    pub watch: Watch,
    pub building: Building,
    pub replay: Replay,
    pub shelving: Shelving,
    pub joining: Joining,
    pub reading: Vec<Check<[u8]>>,
    pub fields: fn(&[u8]) -> Fields,
    pub digest: fn(&[u8]) -> Digest,
    pub listing: Listing,
}

impl Model {
    pub fn document() -> Model {
        Model {
            fresh: vec![
                Check { number: 1, finds: |input| (!setup::lawful(input.sites, &input.owners)).then_some(0) },
                Check { number: 2, finds: |input| (input.length != TABLE_BYTES).then_some(0) },
            ],
            form: form::DOCUMENT.to_vec(),
            admission: admission::CHECKS.to_vec(),
            row: admission::row,
            put: admission::put,
            interpretation: Interpretation::document(),
            retiring: Retiring::document(),
            taking_back: TakingBack::document(),
            watch: Watch::document(),
            building: Building::document(),
            replay: Replay::document(),
            shelving: Shelving::document(),
            joining: Joining::document(),
            reading: block::CHECKS.to_vec(),
            fields: block::fields,
            digest: sha256,
            listing: Listing::document(),
        }
    }

    /// The lines that an input gives, over the model's own calls.
    pub fn lines(&self, input: &[u8]) -> Vec<Line> {
        self.listing.lines(self, input)
    }

    /// A table's bytes as fields, and whether it is in form.
    fn read_table(&self, table: &[u8]) -> (Table, bool) {
        let held = Table::from_bytes(table);
        let in_form = form::in_form(&self.form, &held);
        (held, in_form)
    }

    /// A shelf's bytes as fields, and whether it is in form.
    fn read_shelf(&self, shelf: &[u8]) -> (Shelf, bool) {
        let held = Shelf::from_bytes(shelf);
        let in_form = form::in_form(&self.shelving.form, &held);
        (held, in_form)
    }
}

impl Calls for Model {
    fn fresh(&self, sites: u8, owners: &mut [u8], table: &mut [u8]) -> Answer {
        let input = FreshInput { sites, owners: owners.to_vec(), length: table.len() };
        if let Some(refusal) = first_refusal(&self.fresh, &input) {
            return refusal;
        }
        let slots: [u8; SLOTS] = std::array::from_fn(|slot| owners.get(slot).copied().unwrap_or(0));
        Table::empty(sites, slots).write(table);
        Answer::success(0)
    }

    fn in_form(&self, table: &mut [u8]) -> bool {
        self.read_table(table).1
    }

    fn admit(&self, table: &mut [u8], block: &mut [u8], verdict: u8) -> Answer {
        let (held, in_form) = self.read_table(table);
        let input = AdmissionInput { table: held, in_form, block: block.to_vec(), digest: sha256(block), verdict };
        if let Some(refusal) = first_refusal(&self.admission, &input) {
            return refusal;
        }
        let row = (self.row)(&input);
        let mut held = input.table;
        let place = held.count;
        (self.put)(&mut held, row);
        held.write(table);
        Answer::success(place)
    }

    fn interpret(&self, table: &mut [u8], place: usize, records: &mut [u16]) -> Answer {
        let (held, in_form) = self.read_table(table);
        let input = InterpretationInput { table: held, in_form, place, numbers: records.len() };
        if let Some(refusal) = first_refusal(&self.interpretation.checks, &input) {
            return refusal;
        }
        // Only a model without check 13 comes here with a place that no table has.
        if place < PLACES {
            let mut held = input.table;
            let part = self.interpretation.part(&held, place, records);
            (self.interpretation.write)(records, place, &part);
            (self.interpretation.mark)(&mut held, place);
            held.write(table);
        }
        Answer::success(0)
    }

    fn retire(&self, table: &mut [u8], records: &mut [u16]) -> Answer {
        let (held, in_form) = self.read_table(table);
        let input = RetiringInput { table: held, in_form, numbers: records.len() };
        if let Some(refusal) = first_refusal(&self.retiring.checks, &input) {
            return refusal;
        }
        let left = (self.retiring.table)(&self.retiring, &input.table);
        (self.retiring.records)(records, &left);
        left.write(table);
        Answer::success(0)
    }

    fn take_back(&self, table: &mut [u8]) -> Answer {
        let (held, in_form) = self.read_table(table);
        let input = TakingBackInput { table: held, in_form };
        if let Some(refusal) = first_refusal(&self.taking_back.checks, &input) {
            return refusal;
        }
        (self.taking_back.table)(&self.taking_back, &input.table).write(table);
        Answer::success(0)
    }

    fn forks(&self, table: &mut [u8]) -> ForkedSites {
        let (table, in_form) = self.read_table(table);
        self.watch.forks(&WatchInput { table, in_form, place: 0 })
    }

    fn ancestors(&self, table: &mut [u8], place: usize) -> AncestorPlaces {
        let (table, in_form) = self.read_table(table);
        self.watch.ancestors(&WatchInput { table, in_form, place })
    }

    fn build(&self, table: &mut [u8], site: u8, requests: &mut [u8], output: &mut [u8]) -> Answer {
        let (table, in_form) = self.read_table(table);
        let block = self.building.block(&table, site, requests);
        let input = BuildingInput { table, in_form, site, requests: requests.to_vec(), block, room: output.len() };
        if let Some(refusal) = first_refusal(&self.building.checks, &input) {
            return refusal;
        }
        // Only a model without check 17 comes here with an output that is too short.
        if input.block.len() <= output.len() {
            (self.building.write)(output, &input.block);
        }
        Answer::success(input.block.len())
    }

    /// As if the calls of the list had been made one after the other.
    fn replay(&self, table: &mut [u8], records: &mut [u16], calls: &mut [u8], answers: &mut [u64]) -> usize {
        let mut rest = &calls[..];
        let mut ran = 0;
        while let Some((call, after)) = (self.replay.first)(rest) {
            let answer = match call {
                Call::Admission { verdict, block } => self.admit(table, &mut block.to_vec(), verdict),
                Call::Interpretation { place } => self.interpret(table, place, records),
                Call::Retiring => self.retire(table, records),
                Call::TakingBack => {
                    let answer = self.take_back(table);
                    if answer.refusal == 0 {
                        (self.taking_back.records)(records, Table::from_bytes(table).count);
                    }
                    answer
                }
            };
            (self.replay.note)(answers, ran, answer);
            rest = after;
            ran += 1;
            if !(self.replay.goes_on)(ran, answer, answers.len()) {
                break;
            }
        }
        ran
    }

    fn shelf_in_form(&self, shelf: &mut [u8]) -> bool {
        self.read_shelf(shelf).1
    }

    fn arrive(
        &self,
        table: &mut [u8],
        shelf: &mut [u8],
        campaign: u8,
        block: &mut [u8],
        verdict: u8,
        outcomes: &mut [u64],
    ) -> ArrivalAnswer {
        let rules = &self.shelving;
        // On a copy: a check may refuse what admission alone would let in.
        let mut after = table.to_vec();
        let admission = self.admit(&mut after, block, verdict);
        let (held, shelf_in_form) = self.read_shelf(shelf);
        let takes = (rules.takes)(&held, campaign);
        let (block, room) = (block.to_vec(), outcomes.len());
        let input = ArrivalInput { campaign, shelf: held, shelf_in_form, block, admission, takes, room };
        if let Some(refusal) = first_refusal(&rules.checks, &input) {
            return ArrivalAnswer::refused(refusal);
        }
        table.copy_from_slice(&after);
        let mut held = input.shelf;
        if admission.refusal == 9 {
            (rules.put)(&mut held, campaign, &input.block);
        }
        let mut ended = Vec::new();
        if (rules.tries_after)(admission) {
            // A try is an admission of its own.
            let admit = |block: &[u8]| self.admit(table, &mut block.to_vec(), rules.verdict);
            ended = rules.tries(&mut held, campaign, admit);
        }
        held.write(shelf);
        (rules.note)(outcomes, &ended);
        ArrivalAnswer { answer: admission, ended: ended.len() }
    }

    fn join(
        &self,
        left: &mut [u8],
        right: &mut [u8],
        left_records: &mut [u16],
        right_records: &mut [u16],
        third: &mut [u16],
    ) -> Answer {
        let rules = &self.joining;
        let ((left_table, left_in_form), (right_table, right_in_form)) =
            (self.read_table(left), self.read_table(right));
        let numbers = [left_records.len(), right_records.len(), third.len()];
        let input = JoinInput { left: left_table, right: right_table, left_in_form, right_in_form, numbers };
        if let Some(refusal) = first_refusal(&rules.checks, &input) {
            return refusal;
        }
        let blocks = (rules.blocks)(&input);
        rules.copy(&input, &blocks, left_records, right_records, third);
        rules.table(&input, &blocks).write(left);
        Answer::success(blocks.len())
    }

    fn read_block(&self, block: &mut [u8]) -> Reading {
        match first_refusal(&self.reading, block) {
            Some(answer) => Reading { answer, fields: Fields::default() },
            None => Reading { answer: Answer::success(0), fields: (self.fields)(block) },
        }
    }

    /// The digest goes to the first 32 bytes of the output. A shorter one is refused with 17 and the length needed.
    fn digest(&self, message: &mut [u8], output: &mut [u8]) -> Answer {
        let Some(first) = output.get_mut(..DIGEST_BYTES) else {
            return Answer { refusal: 17, value: DIGEST_BYTES };
        };
        first.copy_from_slice(&(self.digest)(message));
        Answer::success(0)
    }

    fn listing(&self, input: &[u8]) -> Exit {
        self.listing.exit(&self.lines(input))
    }
}
