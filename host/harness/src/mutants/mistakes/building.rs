//! Mistakes in building: in its checks and their order, in what the block says, in what is answered and left.

use super::{flip_last, neighbours_swapped, slots, value_beside, BuildingBuffers, Mistake, Mutant};
use crate::model::block::{list_of, Request};
use crate::model::building::{
    self, cut, greatest, long_or_cut, others, own_rows, past_last_sequence, sequence, shared_sequence, BuildingInput,
    CHECKS,
};
use crate::model::sizes::{
    HEADER_BYTES, MAX_BLOCK_BYTES, MAX_REFERENCES, MAX_REQUESTS, MAX_REQUEST_LIST_BYTES, REQUEST_BYTES, SLOTS,
};
use crate::model::table::{Row, Table, COUNT};

/// Each check left out, another value beside each refusal, each two neighbours swapped, and each mistake in check 18.
pub fn checks_exchanged() -> Vec<Mutant> {
    let mut mutants = Vec::new();
    for check in &CHECKS {
        let number = check.number;
        mutants.push(Mutant::with(format!("building without check {number}"), |m| m.building(number, |_| None)));
        mutants.push(Mutant::with(format!("building: a value one more beside {number}"), |m| {
            m.after_building(move |answer, _| value_beside(number, answer, answer.value + 1));
        }));
    }
    for number in [6, 18, 17] {
        mutants.push(Mutant::with(format!("building: value 0 beside {number}"), |m| {
            m.after_building(move |answer, _| value_beside(number, answer, 0));
        }));
    }
    mutants.extend(neighbours_swapped("building", |model| &mut model.building.checks));
    for (name, finds) in slots::mistakes() {
        mutants.push(Mutant::with(format!("building: {name}"), |m| m.building(18, finds)));
    }
    mutants
}

impl Mutant {
    /// Has the block written, where there is room for it, beside a refusal of this number.
    fn block_written_beside(&mut self, refusal: u8) {
        self.after_building(move |answer, buffers| {
            if answer.refusal == refusal {
                let block = document_block(&buffers);
                if let Some(front) = buffers.output.get_mut(..block.len()) {
                    front.copy_from_slice(&block);
                }
            }
            answer
        });
    }
}

pub const MISTAKES: &[Mistake] = &[
    // Order
    ("building: 17 before 30, 16, 18, 6 and 3", |m| m.model.building.checks[2..].rotate_right(1)),
    ("building: 17 before all", |m| m.model.building.checks.rotate_right(1)),
    ("building: 16 before 18, 6 and 3", |m| m.model.building.checks[2..6].rotate_right(1)),
    ("building: 16 before 4", |m| m.model.building.checks[1..6].rotate_right(1)),
    ("building: 30 before 16 and 18", |m| m.model.building.checks[4..7].rotate_right(1)),
    ("building: 30 before 16, 18, 6 and 3", |m| m.model.building.checks[2..7].rotate_right(1)),
    ("building: 30 before 4", |m| m.model.building.checks[1..7].rotate_right(1)),
    ("building: 30 first", |m| m.model.building.checks[..7].rotate_right(1)),
    ("building: 18 before 3", |m| m.model.building.checks[2..5].rotate_right(1)),
    ("building: 18 after 16 and 30", |m| m.model.building.checks[4..7].rotate_left(1)),
    ("building: 18 last", |m| m.model.building.checks[4..].rotate_left(1)),
    ("building: 3 and 6 before 4", |m| m.model.building.checks[1..4].rotate_left(1)),
    ("building: 3, 6 and 18 before 4", |m| m.model.building.checks[1..5].rotate_left(1)),
    ("building: 2 after the requests", |m| m.model.building.checks[..5].rotate_left(1)),
    // Site and requests
    ("building: a site may be n", |m| m.building(4, |input| (input.site > input.table.sites).then_some(0))),
    ("building: sites are compared with 16", |m| m.building(4, |input| (input.site >= 16).then_some(0))),
    ("building: a request too many passes", |m| m.building(3, |input| most(input, MAX_REQUESTS + 1))),
    ("building: the most requests don't pass", |m| m.building(3, |input| most(input, MAX_REQUESTS - 1))),
    ("building: no bytes of requests don't pass", |m| {
        m.building(3, |input| (input.requests.is_empty() || long_or_cut(&input.requests)).then_some(0))
    }),
    ("building: a cut list passes", |m| {
        m.building(3, |input| (input.requests.len() > MAX_REQUEST_LIST_BYTES).then_some(0))
    }),
    ("building: a list of any length passes", |m| m.building(3, |input| cut(&input.requests).then_some(0))),
    ("building: only the low byte of the list's length is looked at", |m| {
        m.building(3, |input| long_or_cut(&input.requests[..input.requests.len() % 256]).then_some(0))
    }),
    ("building: only the low byte of the requests' count is looked at", |m| {
        m.building(3, |input| {
            (cut(&input.requests) || input.requests.len() / REQUEST_BYTES % 256 > MAX_REQUESTS).then_some(0)
        })
    }),
    ("building: slot 8 passes", |m| {
        m.building(6, |input| first(input, |request| usize::from(request.slot) > SLOTS || request.number == 0))
    }),
    ("building: number 0 passes", |m| {
        m.building(6, |input| first(input, |request| usize::from(request.slot) >= SLOTS))
    }),
    ("building: a number of low byte 0 is refused", |m| {
        m.building(6, |input| first(input, |request| request.bad() || request.number % 256 == 0))
    }),
    ("building: the last bad request is named", |m| {
        m.building(6, |input| list_of(&input.requests).iter().rposition(Request::bad))
    }),
    ("building: 6 names the byte", |m| {
        m.building(6, |input| first(input, Request::bad).map(|index| REQUEST_BYTES * index))
    }),
    ("building: the last request isn't looked at", |m| {
        m.building(6, |input| {
            first(input, Request::bad).filter(|index| REQUEST_BYTES * (index + 1) < input.requests.len())
        })
    }),
    ("building: a slot requested twice gets 6", |m| m.building(6, slots::bad_or_repeated)),
    ("building: a slot of another owner is refused", |m| {
        m.building(6, |input| {
            let foreign = |slot: u8| input.table.owners.get(usize::from(slot)) != Some(&input.site);
            list_of(&input.requests).iter().position(|request| request.bad() || foreign(request.slot))
        })
    }),
    // Forks
    (GREATEST_TWINS_ALONE, |m| {
        m.building(16, |input| {
            let most = own_rows(&input.table, input.site).map(|row| row.sequence).max();
            let greatest = own_rows(&input.table, input.site).filter(|row| Some(row.sequence) == most);
            (greatest.count() > 1).then_some(0)
        })
    }),
    ("building: 16 for a fork of sequence 0 alone", |m| {
        m.building(16, |input| {
            let first = own_rows(&input.table, input.site).filter(|row| row.sequence == 0);
            (first.count() > 1).then_some(0)
        })
    }),
    ("building: 16 doesn't see a fork of sequence 0", |m| {
        m.building(16, |input| {
            let mut later = input.table.clone();
            // Sequence 0 becomes a number of its own for each block.
            later.rows.iter_mut().enumerate().filter(|(_, row)| row.sequence == 0).for_each(|(place, row)| {
                row.sequence = 1000 + place as u16;
            });
            shared_sequence(&later, input.site).then_some(0)
        })
    }),
    ("building: 16 if any site forked", |m| {
        m.building(16, |input| (0..input.table.sites).any(|site| shared_sequence(&input.table, site)).then_some(0))
    }),
    ("building: 16 if another site forked", |m| {
        m.building(16, |input| {
            let other = |site: &u8| *site != input.site;
            (0..input.table.sites).filter(other).any(|site| shared_sequence(&input.table, site)).then_some(0)
        })
    }),
    ("building: 16 if the site has two blocks", |m| {
        m.building(16, |input| (own_rows(&input.table, input.site).count() > 1).then_some(0))
    }),
    ("building: 16 for interpreted forks alone", |m| {
        m.building(16, |input| {
            let mut marked = input.table.clone();
            marked.rows.iter_mut().filter(|row| row.mark == 0).for_each(|row| row.site = u8::MAX);
            shared_sequence(&marked, input.site).then_some(0)
        })
    }),
    // The last sequence number
    ("building: 30 at 65,534 already", |m| {
        m.building(30, |input| own_rows(&input.table, input.site).any(|row| row.sequence >= u16::MAX - 1).then_some(0))
    }),
    ("building: the number after 65,535 is 65,535", |m| {
        m.building(30, |_| None);
        m.model.building.sequence = |greatest| greatest.map_or(0, |sequence| sequence.saturating_add(1));
    }),
    ("building: 30 for any number of low byte 255", |m| {
        m.building(30, |input| own_rows(&input.table, input.site).any(|row| row.sequence % 256 == 255).then_some(0))
    }),
    ("building: 30 if any site is at 65,535", |m| {
        m.building(30, |input| (0..input.table.sites).any(|site| past_last_sequence(&input.table, site)).then_some(0))
    }),
    ("building: 30 for an interpreted block alone", |m| {
        m.building(30, |input| {
            own_rows(&input.table, input.site).any(|row| row.sequence == u16::MAX && row.mark == 1).then_some(0)
        })
    }),
    ("building: 30 for the site's highest place alone", |m| {
        m.building(30, |input| {
            own_rows(&input.table, input.site).last().filter(|row| row.sequence == u16::MAX).map(|_| 0)
        })
    }),
    ("building: 30 with the number that would come", |m| {
        m.building(30, |input| past_last_sequence(&input.table, input.site).then_some(1 << 16))
    }),
    // The output
    ("building: an output of the block's length is refused", |m| {
        m.building(17, |input| (input.room <= input.block.len()).then_some(input.block.len()))
    }),
    ("building: an output too short by one passes", |m| {
        m.building(17, |input| (input.room + 1 < input.block.len()).then_some(input.block.len()))
    }),
    ("building: an output needs room for the longest block", |m| {
        m.building(17, |input| (input.room < MAX_BLOCK_BYTES).then_some(input.block.len()))
    }),
    ("building: 17 names the longest block's length", |m| {
        m.building(17, |input| (input.room < input.block.len()).then_some(MAX_BLOCK_BYTES))
    }),
    ("building: 17 names the bytes that lack", |m| {
        m.building(17, |input| input.block.len().checked_sub(input.room).filter(|&lack| lack > 0))
    }),
    ("building: 17 names the output's length", |m| {
        m.building(17, |input| (input.room < input.block.len()).then_some(input.room))
    }),
    // Site and sequence number
    (SEQUENCE_OF_GREATEST, |m| m.model.building.sequence = |greatest| greatest.unwrap_or(0)),
    ("building: the first sequence number is 1", |m| m.model.building.sequence = |greatest| sequence(greatest).max(1)),
    ("building: the sequence number is always 0", |m| m.model.building.sequence = |_| 0),
    ("building: sequence number low byte first", |m| {
        m.model.building.sequence = |greatest| sequence(greatest).swap_bytes()
    }),
    // The greatest block
    ("building: the first own block in place of the greatest", |m| {
        m.model.building.greatest = |table, site| table.own(site).next()
    }),
    ("building: the greatest of all blocks", |m| {
        m.model.building.greatest = |table, site| {
            let held = 0..table.held().len();
            table.own(site).next().and(held.max_by_key(|&place| table.rows[place].sequence))
        }
    }),
    (WITHOUT_GREATEST, |m| m.model.building.references = |_, others, most| others.into_iter().take(most).collect()),
    ("building: the greatest block comes last", |m| {
        m.model.building.references = |greatest, others, most| {
            let room = most - usize::from(greatest.is_some());
            others.into_iter().take(room).chain(greatest).collect()
        }
    }),
    ("building: the greatest block comes in place order", |m| {
        m.model.building.references = |greatest, others, most| {
            let mut places = building::references(greatest, others, most);
            places.sort_unstable();
            places
        }
    }),
    ("building: the greatest block is picked if there is room", |m| {
        m.model.building.references = |greatest, others, most| others.into_iter().chain(greatest).take(most).collect()
    }),
    // How many
    (SEVENTEEN_REFERENCES, |m| m.model.building.most_references = MAX_REFERENCES + 1),
    ("building: 15 references at most", |m| m.model.building.most_references = MAX_REFERENCES - 1),
    ("building: 16 others beside the greatest", |m| {
        m.model.building.references =
            |greatest, others, most| greatest.into_iter().chain(others.into_iter().take(most)).collect()
    }),
    ("building: 15 others, also without a greatest", |m| {
        m.model.building.references =
            |greatest, others, most| greatest.into_iter().chain(others.into_iter().take(most - 1)).collect()
    }),
    ("building: only one other", |m| {
        m.model.building.references =
            |greatest, others, _| greatest.into_iter().chain(others.into_iter().take(1)).collect()
    }),
    // What is left to refer to
    ("building: what is referred to is picked again", |m| m.model.building.referred = |_, _| 0),
    ("building: only the greatest block's references count", |m| {
        m.model.building.referred = |table, site| greatest(table, site).map_or(0, |place| table.rows[place].references)
    }),
    ("building: the greatest block's references don't count", |m| {
        m.model.building.referred = |table, site| {
            let greatest = greatest(table, site);
            table
                .own(site)
                .filter(|&place| Some(place) != greatest)
                .fold(0, |set, place| set | table.rows[place].references)
        }
    }),
    ("building: all ancestors of own blocks count as referred to", |m| {
        m.model.building.referred = |table, site| table.own(site).fold(0, |set, place| set | table.ancestors(place))
    }),
    (REFERRED_BY_ANYONE, |m| {
        m.model.building.referred = |table, _| table.held().iter().fold(0, |set, row| set | row.references)
    }),
    ("building: only what interpreted blocks refer to counts", |m| {
        m.model.building.referred =
            |table, site| own_rows(table, site).filter(|row| row.mark == 1).fold(0, |set, row| set | row.references)
    }),
    (BELOW_PICKED_LEFT_OUT, |m| {
        // What a picked block refers to isn't picked any more.
        m.model.building.others = |table, site, referred| {
            let all = others(table, site, referred);
            let above = |place: usize| all.iter().any(|&other| table.rows[other].references >> place & 1 == 1);
            all.iter().copied().filter(|&place| !above(place)).collect()
        }
    }),
    // Which others
    ("building: own blocks are picked too", |m| {
        m.model.building.others = |table, _, referred| others(table, u8::MAX, referred)
    }),
    (DESCENDING, |m| {
        m.model.building.others = |table, site, referred| others(table, site, referred).into_iter().rev().collect()
    }),
    (HIGHEST_PICKED, |m| {
        m.model.building.others = |table, site, referred| {
            let all = others(table, site, referred);
            let room = MAX_REFERENCES - usize::from(greatest(table, site).is_some());
            all[all.len().saturating_sub(room)..].to_vec()
        }
    }),
    (OTHERS_BY_SITE, |m| {
        m.model.building.others = |table, site, referred| {
            let mut all = others(table, site, referred);
            all.sort_by_key(|&place| table.rows[place].site);
            all
        }
    }),
    (OTHERS_BY_SEQUENCE, |m| {
        m.model.building.others = |table, site, referred| {
            let mut all = others(table, site, referred);
            all.sort_by_key(|&place| table.rows[place].sequence);
            all
        }
    }),
    (OTHERS_BY_DIGEST, |m| {
        m.model.building.others = |table, site, referred| {
            let mut all = others(table, site, referred);
            all.sort_by_key(|&place| table.rows[place].digest);
            all
        }
    }),
    ("building: only interpreted blocks are picked", |m| {
        m.model.building.others = |table, site, referred| picked(table, site, referred, |_, row| row.mark == 1)
    }),
    ("building: only uninterpreted blocks are picked", |m| {
        m.model.building.others = |table, site, referred| picked(table, site, referred, |_, row| row.mark == 0)
    }),
    (FORKED_LEFT_OUT, |m| {
        m.model.building.others =
            |table, site, referred| picked(table, site, referred, |table, row| !shared_sequence(table, row.site))
    }),
    (ONE_BLOCK_OF_A_SITE, |m| {
        m.model.building.others = |table, site, referred| {
            let greatest = |table: &Table, row: &Row| own_rows(table, row.site).all(|own| own.sequence <= row.sequence);
            picked(table, site, referred, greatest)
        }
    }),
    (PLACE_0_LEFT_OUT, |m| m.model.building.others = |table, site, set| others(table, site, set | 1)),
    ("building: the last place isn't picked", |m| {
        m.model.building.others = |table, site, set| {
            let mut all = others(table, site, set);
            all.retain(|place| place + 1 < table.count);
            all
        }
    }),
    ("building: places from 32 on aren't picked", |m| {
        m.model.building.others = |table, site, set| others(table, site, set | !0xffff_ffff)
    }),
    ("building: place 63 isn't picked", |m| {
        m.model.building.others = |table, site, set| others(table, site, set | 1 << 63)
    }),
    ("building: places from the count on are picked", |m| {
        m.model.building.others = |table, site, referred| {
            let mut full = table.clone();
            full.count = full.rows.len();
            others(&full, site, referred)
        }
    }),
    // Requests
    (REQUESTS_IN_REVERSE, |m| m.model.building.requests = |list| list_of(list).into_iter().rev().collect()),
    ("building: requests by slot", |m| {
        m.model.building.requests = |list| {
            let mut requests = list_of(list);
            requests.sort_by_key(|request| request.slot);
            requests
        }
    }),
    ("building: of a slot requested twice the second is left out", |m| {
        m.building(18, |_| None);
        m.model.building.requests = |list| {
            let all = list_of(list);
            let new = |index: &usize| all[..*index].iter().all(|earlier| earlier.slot != all[*index].slot);
            (0..all.len()).filter(new).map(|index| all[index]).collect()
        }
    }),
    ("building: no requests", |m| m.model.building.requests = |_| Vec::new()),
    ("building: one request fewer at most", |m| {
        m.model.building.requests = |list| list_of(list).into_iter().take(MAX_REQUESTS - 1).collect()
    }),
    ("building: request numbers low byte first", |m| {
        m.model.building.requests = |list| {
            let swapped = |request: Request| Request { number: request.number.swap_bytes(), ..request };
            list_of(list).into_iter().map(swapped).collect()
        }
    }),
    // The bytes
    (EMPTY_BLOCK, |m| {
        m.model.building.references = |_, _, _| Vec::new();
        m.model.building.requests = |_| Vec::new();
    }),
    ("building: the block is always the site's first, and empty", |m| {
        m.model.building.sequence = |_| 0;
        m.model.building.references = |_, _, _| Vec::new();
        m.model.building.requests = |_| Vec::new();
    }),
    ("building: the block is written in reverse", |m| {
        m.model.building.write = |output, block| {
            output[..block.len()].copy_from_slice(block);
            output[..block.len()].reverse();
        }
    }),
    ("building: the block is written to the output's end", |m| {
        m.model.building.write = |output, block| {
            let first = output.len() - block.len();
            output[first..].copy_from_slice(block);
        }
    }),
    ("building: the last byte isn't written", |m| {
        m.model.building.write = |output, block| {
            let most = block.len() - 1;
            output[..most].copy_from_slice(&block[..most]);
        }
    }),
    ("building: nothing is written", |m| m.model.building.write = |_, _| {}),
    ("building: the header isn't written", |m| {
        m.model.building.write =
            |output, block| output[HEADER_BYTES..block.len()].copy_from_slice(&block[HEADER_BYTES..])
    }),
    (REST_CLEARED, |m| {
        m.model.building.write = |output, block| {
            output[..block.len()].copy_from_slice(block);
            output[block.len()..].fill(0);
        }
    }),
    ("building: the byte after the block is written", |m| {
        m.model.building.write = |output, block| {
            output[..block.len()].copy_from_slice(block);
            if let Some(next) = output.get_mut(block.len()) {
                *next ^= 1;
            }
        }
    }),
    // What is answered and left
    ("building: a success answers 0", |m| m.after_building(|answer, _| value_beside(0, answer, 0))),
    ("building: a success answers the output's length", |m| {
        m.after_building(|answer, buffers| value_beside(0, answer, buffers.output.len()))
    }),
    ("building: a success answers one byte more", |m| {
        m.after_building(|answer, _| value_beside(0, answer, answer.value + 1))
    }),
    ("building: 17 writes what there is room for", |m| {
        m.after_building(|answer, buffers| {
            if answer.refusal == 17 {
                let block = document_block(&buffers);
                let room = buffers.output.len();
                buffers.output.copy_from_slice(&block[..room]);
            }
            answer
        })
    }),
    ("building: 16 writes the block", |m| m.block_written_beside(16)),
    ("building: 18 writes the block", |m| m.block_written_beside(18)),
    ("building: 6 leaves the header written", |m| {
        m.after_building(|answer, buffers| {
            if answer.refusal == 6 {
                let block = document_block(&buffers);
                if let Some(front) = buffers.output.get_mut(..HEADER_BYTES) {
                    front.copy_from_slice(&block[..HEADER_BYTES]);
                }
            }
            answer
        })
    }),
    ("building: a refusal clears the output", |m| {
        m.after_building(|answer, buffers| {
            if answer.refusal != 0 {
                buffers.output.fill(0);
            }
            answer
        })
    }),
    ("building: the table is written", |m| {
        m.after_building(|answer, buffers| {
            flip_last(buffers.table);
            answer
        })
    }),
    ("building: the block is put into the table", |m| {
        m.after_building(|answer, buffers| {
            if let Some(count) = buffers.table.get_mut(COUNT).filter(|_| answer.refusal == 0) {
                *count += 1;
            }
            answer
        })
    }),
    ("building: the requests are written", |m| {
        m.after_building(|answer, buffers| {
            buffers.requests.fill(0);
            answer
        })
    }),
];

pub const GREATEST_TWINS_ALONE: &str = "building: 16 for a fork of the greatest number alone";
pub const SEQUENCE_OF_GREATEST: &str = "building: the sequence number is the greatest's";
pub const WITHOUT_GREATEST: &str = "building: without the greatest block";
pub const SEVENTEEN_REFERENCES: &str = "building: 17 references at most";
pub const DESCENDING: &str = "building: others in descending place order";
pub const REQUESTS_IN_REVERSE: &str = "building: requests in reverse";
pub const EMPTY_BLOCK: &str = "building: the block is always empty";
pub const REST_CLEARED: &str = "building: the bytes after the block are cleared";
pub const REFERRED_BY_ANYONE: &str = "building: what any site refers to counts";
pub const BELOW_PICKED_LEFT_OUT: &str = "building: what is picked already shows to a later one";
pub const HIGHEST_PICKED: &str = "building: the highest places are picked";
pub const OTHERS_BY_SITE: &str = "building: others by site, then by place";
pub const OTHERS_BY_SEQUENCE: &str = "building: others by sequence number, then by place";
pub const OTHERS_BY_DIGEST: &str = "building: others by digest";
pub const FORKED_LEFT_OUT: &str = "building: blocks of forked sites aren't picked";
pub const ONE_BLOCK_OF_A_SITE: &str = "building: only the greatest block of another site is picked";
pub const PLACE_0_LEFT_OUT: &str = "building: place 0 isn't picked";

/// Check 3 with another limit.
fn most(input: &BuildingInput, requests: usize) -> Option<usize> {
    (cut(&input.requests) || input.requests.len() > REQUEST_BYTES * requests).then_some(0)
}

/// Check 6 with another cause.
fn first(input: &BuildingInput, bad: fn(&Request) -> bool) -> Option<usize> {
    list_of(&input.requests).iter().position(bad)
}

/// The others of which something holds.
fn picked(table: &Table, site: u8, referred: u64, picks: fn(&Table, &Row) -> bool) -> Vec<usize> {
    let mut all = others(table, site, referred);
    all.retain(|&place| picks(table, &table.rows[place]));
    all
}

/// The block that the document gives.
fn document_block(buffers: &BuildingBuffers) -> Vec<u8> {
    building::Building::document().block(&Table::from_bytes(buffers.table), buffers.site, buffers.requests)
}
