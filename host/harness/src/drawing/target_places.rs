//! Places to interpret: those that can be, and those that are refused.

use crate::drawing::random::Random;
use crate::model::sizes::PLACES;
use crate::model::table::{places, Table};

/// A place that can be interpreted, if there is one; else, and now and then, any number.
pub fn some_target(random: &Random, table: &Table) -> usize {
    let open = open_places(table);
    if open.is_empty() || random.one_in(4) {
        any_target(random, table.count)
    } else {
        random.pick(&open)
    }
}

/// Places around the count, and numbers whose low bits are such a place.
pub fn any_target(random: &Random, count: usize) -> usize {
    let below = random.below(count.max(1));
    let beyond = [count, count + 1, PLACES - 1, PLACES, 255, usize::MAX];
    let low_bits = [below + 64, below + 256, below | 1 << 16, below | 1 << 32, below | 1 << 63];
    random.pick(&[below, below, below, random.pick(&beyond), random.pick(&low_bits)])
}

/// The places that aren't interpreted, but all their references are.
fn open_places(table: &Table) -> Vec<usize> {
    let marked = |place: usize| table.rows[place].mark == 1;
    let open = |place: &usize| !marked(*place) && places(table.rows[*place].references).all(marked);
    (0..table.held().len()).filter(open).collect()
}

/// Changes the marks so that a place can be interpreted. A table in form stays so.
pub fn open(table: &mut Table, place: usize) {
    let mut below = table.rows[place].references;
    for lower in (0..place).rev() {
        if below >> lower & 1 == 1 {
            below |= table.rows[lower].references;
            table.rows[lower].mark = 1;
        }
    }
    unmark_from(table, place);
}

/// Takes away the mark of a place, and of all that rest on it.
pub fn unmark_from(table: &mut Table, place: usize) {
    let mut above = 1 << place;
    for higher in place..table.count {
        let row = &mut table.rows[higher];
        if higher == place || row.references & above != 0 {
            above |= 1 << higher;
            row.mark = 0;
        }
    }
}
