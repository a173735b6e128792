//! What keeps two tables from being joined though both are in form: another setup, or blocks of equal digests with
//! other fields. No calls reach such blocks.

use crate::drawing::random::Random;
use crate::model::form::{in_form, DOCUMENT};
use crate::model::sizes::{SITE_COUNTS, SLOTS};
use crate::model::table::{places, Row, Table};

/// A change may break form at one place and not at another.
const TRIES: usize = 6;

/// The table with another setup, if a few tries find one that leaves it in form.
pub fn other_setup(random: &Random, table: &Table) -> Table {
    changed(table, || {
        let mut other = table.clone();
        if random.one_in(2) {
            other.sites = random.pick(&SITE_COUNTS);
        } else {
            let slot = random.pick(&[0, SLOTS - 1, random.below(SLOTS)]);
            other.owners[slot] = random.below(table.sites.into()) as u8;
        }
        other
    })
}

/// The table with one field changed at one of these places, if a few tries find one that leaves it in form.
pub fn other_block(random: &Random, table: &Table, places: &[usize]) -> Table {
    if places.is_empty() {
        return table.clone();
    }
    let change = random.pick(&CHANGES);
    changed(table, || {
        let place = random.pick(&[places[0], places[places.len() - 1], random.pick(places), random.pick(places)]);
        let mut other = table.clone();
        change(random, table, place, &mut other.rows[place]);
        other
    })
}

/// The first other table of a few that is in form.
fn changed(table: &Table, mut change: impl FnMut() -> Table) -> Table {
    let good = |other: &Table| other.to_bytes() != table.to_bytes() && in_form(&DOCUMENT, other);
    (0..TRIES).map(|_| change()).find(good).unwrap_or(table.clone())
}

type Change = fn(&Random, &Table, usize, &mut Row);

// Requests stand here twice: there are eight of them, of two bytes each.
const CHANGES: [Change; 7] = [
    |random, table, _, row| row.site = random.below(table.sites.into()) as u8,
    other_sequence,
    other_request,
    other_request,
    reference_more,
    reference_less,
    other_reference,
];

/// 0 needs no parent; one more than that of a block referred to may have found another.
fn other_sequence(random: &Random, table: &Table, _: usize, row: &mut Row) {
    let own = table.held().iter().filter(|other| other.site == row.site).map(|other| other.sequence + 1);
    let others: Vec<u16> = own.chain([0, 0]).collect();
    row.sequence = random.pick(&others);
}

/// Another number, or one more or less; in one byte alone often.
fn other_request(random: &Random, _: &Table, _: usize, row: &mut Row) {
    let number = &mut row.requests[random.pick(&[0, SLOTS - 1, random.below(SLOTS)])];
    *number = random.pick(&[0, *number ^ 1, *number ^ 256, random.number()]);
}

fn reference_more(random: &Random, _: &Table, place: usize, row: &mut Row) {
    if place > 0 {
        row.references |= 1 << random.below(place);
    }
}

fn reference_less(random: &Random, _: &Table, _: usize, row: &mut Row) {
    let lower: Vec<usize> = places(row.references).collect();
    if !lower.is_empty() {
        row.references &= !(1 << random.pick(&lower));
    }
}

/// As many as before.
fn other_reference(random: &Random, table: &Table, place: usize, row: &mut Row) {
    reference_less(random, table, place, row);
    reference_more(random, table, place, row);
}
