//! One call, made by both sides on their own copies: answers and everything that was lent must be equal afterwards. The files of
//! this folder make several calls, and put together what there was before and after them.

pub mod arrival;
pub mod campaign_alone;
pub mod join;
mod site;
mod taking_back;
mod watch;

use std::fmt::Debug;

use crate::comparing::buffers::{first_other, hex, Buffers, NextBlock, Sides};
use crate::comparing::counts::{Call, Counts};
use crate::comparing::difference::{counted, shown, Difference};
use crate::model::answer::{AncestorPlaces, Answer, ArrivalAnswer, ForkedSites};
use crate::model::calls::Calls;
use crate::model::record::record_at;
use crate::model::replay;
use crate::model::sizes::{MAX_BLOCK_BYTES, OUTCOMES_NUMBERS, PART_NUMBERS};
use crate::model::table::{places, Table};
use crate::model::Model;

/// Bytes behind an output that aren't lent with it: a call that writes past the output's end is seen.
const BEHIND_OUTPUT: usize = MAX_BLOCK_BYTES;
/// Numbers behind outcomes, and behind a third record buffer, that aren't lent either.
const BEHIND_OUTCOMES: usize = OUTCOMES_NUMBERS;
const BEHIND_THIRD: usize = PART_NUMBERS;

/// The library, or what stands in its place, beside the model.
pub struct Compare<'a> {
    pub tested: &'a dyn Calls,
    pub model: &'a Model,
    pub counts: &'a mut Counts,
}

/// A list of calls that were made one by one: what there was before, what they answered, and what they left.
pub struct CallList<'a> {
    pub before: &'a Buffers,
    pub calls: &'a [u8],
    pub answers: &'a [Answer],
    pub after: &'a Buffers,
}

impl Compare<'_> {
    /// Makes a call on copies of the inputs. A number counts as a buffer of one byte. Gives back the model's answer and
    /// buffers.
    fn on_copies<T: Debug + PartialEq, const N: usize>(
        &mut self,
        call: &'static str,
        inputs: [(&'static str, &[u8]); N],
        make: impl Fn(&dyn Calls, &mut [Vec<u8>; N]) -> T,
    ) -> Result<(T, [Vec<u8>; N]), Difference> {
        let mut tested = inputs.map(|(_, bytes)| bytes.to_vec());
        let mut expected = tested.clone();
        let answer = make(self.tested, &mut tested);
        let expected_answer = make(self.model, &mut expected);
        let difference = other_answer(&answer, &expected_answer)
            .or_else(|| (0..N).find_map(|i| first_other(inputs[i].0, &tested[i], &expected[i])));
        match difference {
            None => Ok((expected_answer, expected)),
            Some(what) => {
                let inputs = inputs.iter().map(|(name, bytes)| shown(name, bytes)).collect();
                Err(Difference { call, what, inputs })
            }
        }
    }

    /// Makes a call on the sides' own buffers. A difference shows the inputs, by the table before the call and the sides
    /// after it. Gives back the model's answer.
    fn on_sides<T: Debug + PartialEq>(
        &mut self,
        call: &'static str,
        sides: &mut Sides,
        make: impl Fn(&dyn Calls, &mut Buffers) -> T,
        inputs: impl Fn(&[u8], &Sides) -> Vec<(String, String)>,
    ) -> Result<T, Difference> {
        let table = sides.expected.table.clone();
        let answer = make(self.tested, &mut sides.tested);
        let expected = make(self.model, &mut sides.expected);
        match other_answer(&answer, &expected).or_else(|| sides.tested.first_other(&sides.expected)) {
            None => Ok(expected),
            Some(what) => Err(Difference { call, what, inputs: inputs(&table, sides) }),
        }
    }

    pub fn fresh(&mut self, sites: u8, owners: &[u8], table: &mut Vec<u8>) -> Result<Answer, Difference> {
        let inputs = [("sites", &[sites][..]), ("owners", owners), ("table", table)];
        let (answer, [_, _, after]) =
            self.on_copies("gt_fresh", inputs, |calls, [sites, owners, table]| calls.fresh(sites[0], owners, table))?;
        self.counts.fresh += 1;
        *table = after;
        Ok(answer)
    }

    pub fn in_form(&mut self, table: &[u8]) -> Result<bool, Difference> {
        let (answer, _) = self.on_copies("gt_in_form", [("table", table)], |calls, [table]| calls.in_form(table))?;
        self.counts.tables.note(answer);
        Ok(answer)
    }

    pub fn admit(&mut self, sides: &mut Sides, block: &[u8], verdict: u8) -> Result<Answer, Difference> {
        sides.each(|buffers| buffers.block = block.to_vec());
        let answer = self.on_sides(
            "gt_admit",
            sides,
            |calls, buffers| calls.admit(&mut buffers.table, &mut buffers.block, verdict),
            |table, _| vec![shown("table", table), shown("block", block), shown("verdict", &[verdict])],
        )?;
        self.counts.answer(Call::Admit, answer.refusal);
        Ok(answer)
    }

    pub fn interpret(&mut self, sides: &mut Sides, place: usize) -> Result<Answer, Difference> {
        let inputs = |table: &[u8], sides: &Sides| {
            let records = &sides.expected.records;
            let mut inputs = vec![shown("table", table), counted("place", place), counted("records", records.len())];
            if let Some(slot) = sides.other_slot() {
                inputs.extend(records_read(&Table::from_bytes(table), place, slot, records));
            }
            inputs
        };
        let make =
            |calls: &dyn Calls, buffers: &mut Buffers| calls.interpret(&mut buffers.table, place, &mut buffers.records);
        let answer = self.on_sides("gt_interpret", sides, make, inputs)?;
        self.counts.answer(Call::Interpret, answer.refusal);
        Ok(answer)
    }

    pub fn retire(&mut self, sides: &mut Sides) -> Result<Answer, Difference> {
        let answer = self.on_sides(
            "gt_retire",
            sides,
            |calls, buffers| calls.retire(&mut buffers.table, &mut buffers.records),
            |table, sides| vec![shown("table", table), counted("records", sides.expected.records.len())],
        )?;
        self.counts.answer(Call::Retire, answer.refusal);
        Ok(answer)
    }

    pub fn take_back(&mut self, sides: &mut Sides) -> Result<Answer, Difference> {
        let make = |calls: &dyn Calls, buffers: &mut Buffers| calls.take_back(&mut buffers.table);
        let answer = self.on_sides("gt_take_back", sides, make, |table, _| vec![shown("table", table)])?;
        self.counts.answer(Call::TakeBack, answer.refusal);
        Ok(answer)
    }

    pub fn forks(&mut self, table: &[u8]) -> Result<ForkedSites, Difference> {
        let (answer, _) = self.on_copies("gt_forks", [("table", table)], |calls, [table]| calls.forks(table))?;
        self.counts.answer(Call::Forks, answer.refusal);
        Ok(answer)
    }

    pub fn ancestors(&mut self, table: &[u8], place: usize) -> Result<AncestorPlaces, Difference> {
        let asked = self.on_copies("gt_ancestors", [("table", table)], |calls, [table]| calls.ancestors(table, place));
        let (answer, _) = asked.map_err(|mut difference| {
            difference.inputs.push(counted("place", place));
            difference
        })?;
        self.counts.answer(Call::Ancestors, answer.refusal);
        Ok(answer)
    }

    /// The answer, and the output afterwards.
    pub fn build(&mut self, next: &NextBlock, output: &[u8]) -> Result<(Answer, Vec<u8>), Difference> {
        let room = output.len();
        let guarded = [output, &[0; BEHIND_OUTPUT]].concat();
        let site = [next.site];
        let inputs = [("table", next.table), ("site", &site), ("requests", next.requests), ("output", &guarded)];
        let built = self.on_copies("gt_build", inputs, |calls, [table, site, requests, output]| {
            calls.build(table, site[0], requests, &mut output[..room])
        });
        let (answer, [_, _, _, mut after]) = built.map_err(|mut difference| {
            difference.inputs.push(counted("bytes of the output that are lent", room));
            difference
        })?;
        after.truncate(room);
        self.counts.answer(Call::Build, answer.refusal);
        Ok((answer, after))
    }

    /// Replays a list. How many calls ran.
    pub fn replay(&mut self, sides: &mut Sides, calls: &[u8], answers: &[u64]) -> Result<usize, Difference> {
        sides.each(|buffers| {
            buffers.calls = calls.to_vec();
            buffers.answers = answers.to_vec();
        });
        let inputs = |table: &[u8], sides: &Sides| {
            let lengths = [counted("records", sides.expected.records.len()), counted("answers", answers.len())];
            [vec![shown("table", table), shown("calls", calls)], lengths.to_vec()].concat()
        };
        let make = |calls: &dyn Calls, Buffers { table, records, calls: list, answers, .. }: &mut Buffers| {
            calls.replay(table, records, list, answers)
        };
        let ran = self.on_sides("gt_replay", sides, make, inputs)?;
        self.counts.replay(ran);
        Ok(ran)
    }

    /// Replays calls that were made one by one, which comes to the same. The model isn't asked again.
    pub fn replay_call_list(&mut self, list: &CallList, answers: &[u64]) -> Result<(), Difference> {
        let mut buffers = Buffers { calls: list.calls.to_vec(), answers: answers.to_vec(), ..list.before.clone() };
        let mut expected = Buffers { calls: list.calls.to_vec(), answers: answers.to_vec(), ..list.after.clone() };
        for (index, answer) in list.answers.iter().enumerate() {
            replay::note(&mut expected.answers, index, *answer);
        }
        let ran =
            self.tested.replay(&mut buffers.table, &mut buffers.records, &mut buffers.calls, &mut buffers.answers);
        let other = other_answer(&ran, &list.answers.len()).or_else(|| buffers.first_other(&expected));
        if let Some(what) = other {
            let inputs = vec![shown("table", &list.before.table), shown("calls", list.calls)];
            return Err(Difference { call: "gt_replay after single calls", what, inputs });
        }
        self.counts.replay(ran);
        Ok(())
    }

    pub fn shelf_in_form(&mut self, shelf: &[u8]) -> Result<bool, Difference> {
        let (answer, _) =
            self.on_copies("gt_shelf_in_form", [("shelf", shelf)], |calls, [shelf]| calls.shelf_in_form(shelf))?;
        self.counts.shelves.shelves.note(answer);
        Ok(answer)
    }

    /// A block arrives for a campaign, with the shelf that the sides have. What it wrote to the outcomes is left there.
    pub fn arrive(
        &mut self,
        sides: &mut Sides,
        campaign: u8,
        block: &[u8],
        verdict: u8,
        outcomes: &[u64],
    ) -> Result<ArrivalAnswer, Difference> {
        let shelf = sides.expected.shelf.clone();
        let room = outcomes.len();
        sides.each(|buffers| {
            buffers.block = block.to_vec();
            buffers.outcomes = [outcomes, &[0; BEHIND_OUTCOMES]].concat();
        });
        let inputs = |table: &[u8], _: &Sides| {
            let buffers = [shown("table", table), shown("shelf", &shelf), shown("block", block)];
            let numbers = [counted("campaign", campaign.into()), counted("verdict", verdict.into())];
            [&buffers[..], &numbers, &[counted("outcomes", room)]].concat()
        };
        let make = |calls: &dyn Calls, Buffers { table, shelf, block, outcomes, .. }: &mut Buffers| {
            calls.arrive(table, shelf, campaign, block, verdict, &mut outcomes[..room])
        };
        let answer = self.on_sides("gt_arrive", sides, make, inputs)?;
        self.counts.answer(Call::Arrive, answer.answer.refusal);
        Ok(answer)
    }

    /// Joins a right side's table and records to the left's, which the sides have. What it wrote to the third buffer is
    /// left there.
    pub fn join(&mut self, sides: &mut Sides, right: &Buffers, third: &[u16]) -> Result<Answer, Difference> {
        let room = third.len();
        sides.each(|buffers| {
            buffers.right.clone_from(&right.table);
            buffers.right_records.clone_from(&right.records);
            buffers.third = [third, &[0; BEHIND_THIRD]].concat();
        });
        let inputs = |left: &[u8], sides: &Sides| {
            let tables = [shown("left", left), shown("right", &right.table)];
            let records = [&sides.expected.records, &right.records].map(Vec::len);
            let lengths = [counted("left records", records[0]), counted("right records", records[1])];
            [&tables[..], &lengths, &[counted("third", room)]].concat()
        };
        let make = |calls: &dyn Calls, Buffers { table, records, right, right_records, third, .. }: &mut Buffers| {
            calls.join(table, right, records, right_records, &mut third[..room])
        };
        let answer = self.on_sides("gt_join", sides, make, inputs)?;
        sides.each(|buffers| buffers.third.truncate(room));
        self.counts.answer(Call::Join, answer.refusal);
        Ok(answer)
    }

    pub fn read_block(&mut self, block: &[u8]) -> Result<(), Difference> {
        self.on_copies("gt_read_block", [("block", block)], |calls, [block]| calls.read_block(block))?;
        self.counts.reading += 1;
        Ok(())
    }

    pub fn digest(&mut self, message: &[u8], output: &[u8]) -> Result<(), Difference> {
        let inputs = [("message", message), ("output", output)];
        self.on_copies("gt_digest", inputs, |calls, [message, output]| calls.digest(message, output))?;
        self.counts.digest += 1;
        Ok(())
    }

    pub fn listing(&mut self, input: &[u8]) -> Result<(), Difference> {
        let lines = self.model.lines(input);
        let exit = self.tested.listing(input);
        if let Some(what) = exit.other(&self.model.listing.exit(&lines)) {
            return Err(Difference { call: "listing", what, inputs: vec![shown("input", input)] });
        }
        self.counts.listings.listing(input, &lines);
        Ok(())
    }
}

fn other_answer<T: Debug + PartialEq>(tested: &T, expected: &T) -> Option<String> {
    (tested != expected).then(|| format!("answered {tested:?}, the model {expected:?}"))
}

/// A slot's records of the place's direct references. The whole buffer would be too long to show.
fn records_read(table: &Table, place: usize, slot: usize, records: &[u16]) -> Vec<(String, String)> {
    let references = table.rows.get(place).map_or(0, |row| row.references);
    let record = |place: usize| (format!("record of place {place}"), hex(&record_at(records, place, slot)));
    places(references).map(record).collect()
}
