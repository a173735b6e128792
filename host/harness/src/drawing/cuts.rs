//! Bytes in parts, as lists of calls and streams of arrivals are, so that damage can find where each begins.

use crate::drawing::random::Random;

/// Ends them in a part, of which there is at least a byte: after one of these numbers of bytes, or right before its end.
pub fn cut_in(random: &Random, parts: &mut Vec<Vec<u8>>, at: usize, bytes: &[usize]) {
    let most = parts[at].len() - 1;
    let cut = random.pick(&[bytes, &[most]].concat());
    parts.truncate(at + 1);
    parts[at].truncate(cut.min(most));
}

/// How many bytes follow a part.
pub fn bytes_after(parts: &[Vec<u8>], at: usize) -> usize {
    parts[at + 1..].iter().map(Vec::len).sum()
}
