//! A list of calls as bytes, which `gt_replay` runs: how it is written and read, and where the answers go.

use crate::model::answer::Answer;

pub enum Call<'a> {
    Admission { verdict: u8, block: &'a [u8] },
    Interpretation { place: usize },
    Retiring,
    TakingBack,
}

const ADMISSION: u8 = 0;
const INTERPRETATION: u8 = 1;
const RETIRING: u8 = 2;
const TAKING_BACK: u8 = 3;

/// Bytes of a length and of a place, low byte first.
pub const WIDE_BYTES: usize = 8;
/// Bytes before the block of an admission: which call it is, verdict, length.
pub const BEFORE_BLOCK: usize = 1 + 1 + WIDE_BYTES;

pub fn admission(verdict: u8, block: &[u8]) -> Vec<u8> {
    let length = block.len() as u64;
    [&[ADMISSION, verdict][..], &length.to_le_bytes(), block].concat()
}

pub fn interpretation(place: usize) -> Vec<u8> {
    let place = place as u64;
    [&[INTERPRETATION][..], &place.to_le_bytes()].concat()
}

/// A retiring has nothing to say but that it is one.
pub fn retiring() -> Vec<u8> {
    vec![RETIRING]
}

/// A taking back is one byte.
pub fn taking_back() -> Vec<u8> {
    vec![TAKING_BACK]
}

/// The first call of a list and what follows it; none where the list ends.
pub type FirstCall<'a> = Option<(Call<'a>, &'a [u8])>;

/// The rules of replaying. Each is a value, so that the self-test can change one.
pub struct Replay {
    pub first: fn(&[u8]) -> FirstCall,
    /// Puts the answer of the call of an index into the answers.
    pub note: fn(&mut [u64], usize, Answer),
    /// Whether the list goes on, by how many calls ran, the last one's answer and the length of the answers.
    pub goes_on: fn(usize, Answer, usize) -> bool,
}

impl Replay {
    pub fn document() -> Replay {
        Replay { first, note, goes_on: |_, _, _| true }
    }
}

/// A call that is cut or that begins with another byte ends the list: it and all after it don't run.
pub fn first(list: &[u8]) -> FirstCall<'_> {
    let (which, rest) = list.split_first()?;
    match *which {
        ADMISSION => {
            let (verdict, rest) = rest.split_first()?;
            let (length, rest) = wide(rest)?;
            // A length that is no index is more than is left as well.
            let (block, rest) = rest.split_at_checked(length.try_into().ok()?)?;
            Some((Call::Admission { verdict: *verdict, block }, rest))
        }
        INTERPRETATION => {
            let (place, rest) = wide(rest)?;
            // A place is as wide as an address, as in C: both have 64 bits.
            Some((Call::Interpretation { place: place as usize }, rest))
        }
        RETIRING => Some((Call::Retiring, rest)),
        TAKING_BACK => Some((Call::TakingBack, rest)),
        _ => None,
    }
}

const _: () = assert!(usize::BITS == u64::BITS);

/// Eight bytes, low byte first, and what follows them.
pub fn wide(list: &[u8]) -> Option<(u64, &[u8])> {
    let (bytes, rest) = list.split_first_chunk::<WIDE_BYTES>()?;
    Some((u64::from_le_bytes(*bytes), rest))
}

/// Refusal, then value. An answer that doesn't fit isn't written, also not half of it.
pub fn note(answers: &mut [u64], index: usize, answer: Answer) {
    if let Some(pair) = answers.chunks_exact_mut(2).nth(index) {
        pair.copy_from_slice(&[answer.refusal.into(), answer.value as u64]);
    }
}
