//! Mistakes in reading a block and in its digest.

use super::{neighbours_swapped, slots, value_beside, Mistake, Mutant};
use crate::model::answer::{Fields, Reading};
use crate::model::block::{fields, reference_count, references, request_count, requests, CHECKS};
use crate::model::sha256::sha256;
use crate::model::sizes::{
    DIGEST_BYTES, HEADER_BYTES, MAX_BLOCK_BYTES, MAX_REFERENCES, MAX_REQUESTS, REQUEST_BYTES, SLOTS,
};

/// Each check left out, each two neighbours swapped, another value beside each refusal, and each mistake in check 18.
pub fn checks_exchanged() -> Vec<Mutant> {
    let mut mutants = Vec::new();
    for check in &CHECKS {
        let number = check.number;
        mutants.push(Mutant::with(format!("reading without check {number}"), |m| m.reading(number, |_| None)));
        mutants.push(Mutant::with(format!("reading: a value one more beside {number}"), |m| {
            m.after_reading(move |reading, _| {
                let answer = value_beside(number, reading.answer, reading.answer.value + 1);
                Reading { answer, ..reading }
            });
        }));
    }
    mutants.extend(neighbours_swapped("reading", |model| &mut model.reading));
    for (name, finds) in slots::mistakes() {
        mutants.push(Mutant::with(format!("reading: {name}"), |m| m.reading(18, finds)));
    }
    mutants
}

pub const MISTAKES: &[Mistake] = &[
    ("reading: a reference too many passes", |m| m.reading(3, |block| shape(block, MAX_REFERENCES + 1, MAX_REQUESTS))),
    ("reading: the most references don't pass", |m| {
        m.reading(3, |block| shape(block, MAX_REFERENCES - 1, MAX_REQUESTS))
    }),
    ("reading: a request too many passes", |m| m.reading(3, |block| shape(block, MAX_REFERENCES, MAX_REQUESTS + 1))),
    ("reading: the most requests don't pass", |m| m.reading(3, |block| shape(block, MAX_REFERENCES, MAX_REQUESTS - 1))),
    ("reading: the longest block doesn't pass", |m| {
        m.reading(3, |block| {
            let shape = shape(block, MAX_REFERENCES, MAX_REQUESTS);
            shape.or((block.len() == MAX_BLOCK_BYTES).then_some(0))
        })
    }),
    ("reading: the shortest block doesn't pass", |m| {
        m.reading(3, |block| {
            let shape = shape(block, MAX_REFERENCES, MAX_REQUESTS);
            shape.or((block.len() == HEADER_BYTES).then_some(0))
        })
    }),
    ("reading: bytes after the requests pass", |m| {
        m.reading(3, |block| {
            let whole = block.len().min(whole_length(block));
            shape(&block[..whole], MAX_REFERENCES, MAX_REQUESTS)
        })
    }),
    ("reading: slot 8 passes", |m| {
        m.reading(6, |block| {
            requests(block).iter().position(|request| usize::from(request.slot) > SLOTS || request.number == 0)
        })
    }),
    ("reading: number 0 passes", |m| {
        m.reading(6, |block| requests(block).iter().position(|request| usize::from(request.slot) >= SLOTS))
    }),
    ("reading: a slot requested twice gets 6", |m| m.reading(6, slots::bad_or_repeated)),
    ("reading: 7 names the earlier reference", |m| {
        m.reading(7, |block| {
            let references = references(block);
            (0..references.len()).find(|&index| references[index + 1..].contains(&references[index]))
        })
    }),
    ("reading: the last byte of references isn't compared", |m| {
        m.reading(7, |block| {
            let references = references(block);
            let parts: Vec<&[u8]> = references.iter().map(|reference| &reference[..DIGEST_BYTES - 1]).collect();
            (0..parts.len()).find(|&index| parts[..index].contains(&parts[index]))
        })
    }),
    ("reading: sequence number low byte first", |m| {
        m.model.fields = |block| Fields { sequence: fields(block).sequence.swap_bytes(), ..fields(block) }
    }),
    ("reading: the two counts exchanged", |m| {
        m.model.fields = |block| {
            let fields = fields(block);
            Fields { references: fields.requests, requests: fields.references, ..fields }
        }
    }),
    ("reading: fields beside a refusal", |m| {
        m.after_reading(|reading, block| Reading { answer: reading.answer, fields: fields(block) })
    }),
    ("reading: a success answers the length", |m| {
        m.after_reading(|reading, block| {
            let answer = value_beside(0, reading.answer, block.len());
            Reading { answer, ..reading }
        })
    }),
    ("reading: the block is written", |m| {
        m.after_reading(|reading, block| {
            block.fill(0);
            reading
        })
    }),
    // The digest
    ("digest: the last byte is left out", |m| {
        m.model.digest = |message| sha256(&message[..message.len().saturating_sub(1)])
    }),
    ("digest: wrong where the padding just fits", |m| {
        m.model.digest = |message| sha256(if message.len() % 64 == 55 { &[] } else { message })
    }),
    ("digest: wrong where the padding just doesn't fit", |m| {
        m.model.digest = |message| sha256(if message.len() % 64 == 56 { &[] } else { message })
    }),
    ("digest: wrong for whole blocks", |m| {
        m.model.digest = |message| sha256(if message.len() % 64 == 0 { &[1] } else { message })
    }),
    ("digest: the bytes after it are zeroed", |m| {
        m.after_digest(|answer, _, output| {
            if let Some(rest) = output.get_mut(DIGEST_BYTES..) {
                rest.fill(0);
            }
            answer
        })
    }),
    ("digest: a refusal writes", |m| {
        m.after_digest(|answer, _, output| {
            if answer.refusal != 0 {
                output.fill(0);
            }
            answer
        })
    }),
    ("digest: value 0 beside 17", |m| m.after_digest(|answer, _, _| value_beside(17, answer, 0))),
    ("digest: a success answers the length", |m| m.after_digest(|answer, _, _| value_beside(0, answer, DIGEST_BYTES))),
    ("digest: the message is written", |m| {
        m.after_digest(|answer, message, _| {
            message.fill(0);
            answer
        })
    }),
];

fn whole_length(block: &[u8]) -> usize {
    HEADER_BYTES + DIGEST_BYTES * reference_count(block) + REQUEST_BYTES * request_count(block)
}

/// Check 3 with other limits.
fn shape(block: &[u8], most_references: usize, most_requests: usize) -> Option<usize> {
    let wrong = block.len() < HEADER_BYTES
        || reference_count(block) > most_references
        || request_count(block) > most_requests
        || block.len() != whole_length(block);
    wrong.then_some(0)
}
