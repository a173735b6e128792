//! Lists of calls in plain bytes, for n 1 and an empty table: a block without references and requests is admitted, then
//! interpreted.

use crate::model::calls::Calls;
use crate::model::sizes::{BUFFER_NUMBERS, SLOTS, TABLE_BYTES};

const ADMISSION: [u8; 15] = [0, 1, 5, 0, 0, 0, 0, 0, 0, 0, 0, 0, 0, 0, 0];
const INTERPRETATION: [u8; 9] = [1, 0, 0, 0, 0, 0, 0, 0, 0];
const UNUSED: u64 = 99;

pub fn all(calls: &dyn Calls) -> Vec<(&'static str, bool)> {
    let both = [&ADMISSION[..], &INTERPRETATION].concat();
    let again = [&both[..], &both].concat();
    let retiring = [&both[..], &[2]].concat();
    let taken_back = [&ADMISSION[..], &[3], &ADMISSION].concat();
    let too_late = [&both[..], &[3]].concat();
    let [longer, other_verdict] = [(2, 6), (1, 2)].map(|(at, byte)| changed(&both, at, byte));
    vec![
        ("no calls: none runs", ran(calls, &[], 2) == (0, vec![UNUSED; 2])),
        ("two calls run", ran(calls, &both, 4) == (2, vec![0, 0, 0, 0])),
        ("the same again: 8 and 14", ran(calls, &again, 9) == (4, vec![0, 0, 0, 0, 8, 0, 14, 0, UNUSED])),
        ("three answers fit in part", ran(calls, &again, 5) == (4, vec![0, 0, 0, 0, UNUSED])),
        ("no answer fits", ran(calls, &both, 1) == (2, vec![UNUSED])),
        ("verdict 2: 5, then 13", ran(calls, &other_verdict, 4) == (2, vec![5, 0, 13, 0])),
        ("a cut interpretation doesn't run", ran(calls, &both[..23], 4) == (1, vec![0, 0, UNUSED, UNUSED])),
        ("a cut block doesn't run", ran(calls, &both[..14], 2) == (0, vec![UNUSED; 2])),
        ("a block longer than what is left ends the list", ran(calls, &changed(&both, 9, 255), 2).0 == 0),
        ("a block that takes a byte of the next call: 3, and the end", ran(calls, &longer, 2) == (1, vec![3, 0])),
        ("another first byte ends the list", ran(calls, &changed(&both, 15, 4), 4).0 == 1),
        ("a retiring of nothing: 13", ran(calls, &[2], 2) == (1, vec![13, 0])),
        ("a retiring of the only block: 29", ran(calls, &retiring, 6) == (3, vec![0, 0, 0, 0, 29, 0])),
        ("bytes of a retiring are calls of their own", ran(calls, &[2, 2, 4, 2], 4) == (2, vec![13, 0, 13, 0])),
        ("a taking back of nothing: 32", ran(calls, &[3], 2) == (1, vec![32, 0])),
        ("a taking back of the only block, which comes again", ran(calls, &taken_back, 6) == (3, vec![0; 6])),
        ("a taking back of an interpreted block: 33", ran(calls, &too_late, 6) == (3, vec![0, 0, 0, 0, 33, 0])),
        ("bytes of a taking back are calls of their own", ran(calls, &[3, 3, 4, 3], 4) == (2, vec![32, 0, 32, 0])),
    ]
}

fn changed(list: &[u8], at: usize, byte: u8) -> Vec<u8> {
    let mut list = list.to_vec();
    list[at] = byte;
    list
}

/// How many calls ran, and the answers, for which there was room as given.
fn ran(calls: &dyn Calls, list: &[u8], room: usize) -> (usize, Vec<u64>) {
    let mut table = vec![0; TABLE_BYTES];
    calls.fresh(1, &mut [0; SLOTS], &mut table);
    let mut answers = vec![UNUSED; room];
    let ran = calls.replay(&mut table, &mut [0; BUFFER_NUMBERS], &mut list.to_vec(), &mut answers);
    (ran, answers)
}
