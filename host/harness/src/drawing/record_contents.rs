//! Contents of record buffers. Calls reach few of them, but a buffer may start with any.

use crate::drawing::random::Random;
use crate::model::record::ACTS;
use crate::model::sizes::{BUFFER_NUMBERS, MAX_SITES, PART_NUMBERS, RECORD_NUMBERS};

/// Mostly the right length.
pub fn some_length(random: &Random) -> usize {
    if random.one_in(6) {
        let near =
            [BUFFER_NUMBERS - 1, BUFFER_NUMBERS + 1, BUFFER_NUMBERS - PART_NUMBERS, BUFFER_NUMBERS + PART_NUMBERS];
        let far = [0, 1, PART_NUMBERS, BUFFER_NUMBERS / 2, 2 * BUFFER_NUMBERS, random.between(0, 2 * BUFFER_NUMBERS)];
        random.pick(&[random.pick(&near), random.pick(&far)])
    } else {
        BUFFER_NUMBERS
    }
}

/// Any numbers at all.
pub fn any_numbers(random: &Random, length: usize) -> Vec<u16> {
    let mut numbers = Vec::with_capacity(length + 4);
    while numbers.len() < length {
        let drawn = random.set();
        numbers.extend([0, 16, 32, 48].map(|shift| (drawn >> shift) as u16));
    }
    numbers.truncate(length);
    numbers
}

/// Few different numbers, so that sites support the same one.
pub fn records(random: &Random, length: usize) -> Vec<u16> {
    let groups = groups(random);
    let mut numbers = Vec::with_capacity(length + RECORD_NUMBERS);
    while numbers.len() < length {
        groups.iter().for_each(|group| group.draw(random, &mut numbers));
    }
    numbers.truncate(length);
    numbers
}

/// Entries of a record that are drawn alike, from eight numbers: three bits say which.
struct Group {
    entries: usize,
    numbers: [u16; 8],
}

impl Group {
    fn draw(&self, random: &Random, to: &mut Vec<u16>) {
        let bits = random.set();
        to.extend((0..self.entries).map(|entry| self.numbers[(bits >> (3 * entry) & 7) as usize]));
    }
}

// The bits of one draw are enough.
const _: () = assert!(3 * MAX_SITES <= 64);

/// The entries of a record in their order. What is sent, heard and made is frequent in one buffer and rare in another.
fn groups(random: &Random) -> Vec<Group> {
    let (one, other) = two_numbers(random);
    // Mostly one number comes to a quorum; of two that come equally often, both may come to f + 1.
    let drawn = random.pick(&[[one, one, one, other], [one, other, one, other]]);
    let group = |entries: usize, zeros: &[usize]| {
        let zeros = random.pick(zeros);
        Group { entries, numbers: std::array::from_fn(|at| if at < zeros { 0 } else { random.pick(&drawn) }) }
    };
    let mut groups = vec![group(ACTS.len(), &[4, 6, 7, 8, 8])];
    groups.extend((0..2).map(|_| group(MAX_SITES, &[1, 3, 5, 7, 8])));
    groups.extend(ACTS.map(|_| group(1, &[0, 2, 4, 8])));
    groups
}

/// Both bytes tell; sometimes only one of them.
fn two_numbers(random: &Random) -> (u16, u16) {
    let some = || random.pick(&[1, 2, 255, 256, 65535, random.number().max(1)]);
    let one = some();
    (one, if random.one_in(4) { random.pick(&[one ^ 256, one.swap_bytes()]).max(1) } else { some() })
}
