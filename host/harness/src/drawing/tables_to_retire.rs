//! Tables in form for a retiring: place 0 can be retired, or mostly one thing stands against it.

use crate::drawing::random::Random;
use crate::drawing::tables::{self, grown};
use crate::drawing::tables_with_retirings::aged;
use crate::drawing::target_places::unmark_from;
use crate::model::form::{self, in_form};
use crate::model::sizes::{MAX_REFERENCES, PLACES};
use crate::model::table::Table;

/// Mostly one whose place 0 has later blocks of its site.
pub fn drawn(random: &Random) -> Table {
    if random.one_in(8) {
        return tables::in_form(random);
    }
    let sites = random.pick(&[1, 4, 4, 4, 7, 16]);
    let empty = Table::empty(sites, std::array::from_fn(|_| random.below(sites.into()) as u8));
    let mut table = grown(random, empty, some_count(random));
    let whole = !random.one_in(4);
    (0..table.count).filter(|_| whole).for_each(|place| table.rows[place].mark = 1);
    if random.one_in(2) {
        table = aged(random, table);
    }
    changed(random, table)
}

fn some_count(random: &Random) -> usize {
    random.pick(&[
        PLACES,
        PLACES,
        2,
        3,
        random.between(0, 4),
        random.between(2, MAX_REFERENCES),
        random.between(2, PLACES),
    ])
}

type Change = fn(&Random, &mut Table);

const CHANGES: [Change; 9] = [
    |_, _| {},
    |_, _| {},
    one_referring_open,
    one_referring_open,
    first_open,
    first_open,
    later_open,
    later_open,
    first_is_last,
];

/// With something that stands against a retiring, if the table is still in form then.
fn changed(random: &Random, table: Table) -> Table {
    if table.count == 0 {
        return table;
    }
    let mut changed = table.clone();
    random.pick(&CHANGES)(random, &mut changed);
    if in_form(&form::DOCUMENT, &changed) {
        changed
    } else {
        table
    }
}

/// A block that refers to place 0 isn't interpreted. It isn't the site's only later one, if there is another.
fn one_referring_open(random: &Random, table: &mut Table) {
    let refers = |place: &usize| table.rows[*place].references & 1 == 1;
    let referring: Vec<usize> = (1..table.count).filter(refers).collect();
    if let Some(&last) = referring.last() {
        unmark_from(table, random.pick(&[last, last, random.pick(&referring)]));
    }
}

/// Place 0 isn't interpreted, and mostly nothing refers to it.
fn first_open(random: &Random, table: &mut Table) {
    if !random.one_in(4) {
        table.retired = 1;
        table.rows[1..].iter_mut().for_each(|row| row.references &= !1);
    }
    unmark_from(table, 0);
}

/// Only blocks that aren't interpreted come after place 0: it becomes a twin of its site's greatest block that is. They
/// don't refer to it.
fn later_open(_: &Random, table: &mut Table) {
    let own: Vec<usize> = table.own(table.rows[0].site).filter(|&place| place > 0).collect();
    if let Some(&last) = own.last() {
        unmark_from(table, last);
    }
    let marked = own.iter().filter(|&&place| table.rows[place].mark == 1);
    if let Some(greatest) = marked.map(|&place| table.rows[place].sequence).max() {
        table.retired = 1;
        table.rows[0].sequence = greatest;
        table.rows.iter_mut().filter(|row| row.mark == 0).for_each(|row| row.references &= !1);
    }
}

/// Place 0 has the greatest sequence number of its site, or a twin of that number.
fn first_is_last(random: &Random, table: &mut Table) {
    let site = table.rows[0].site;
    let greatest = table.own(site).map(|place| table.rows[place].sequence).max().unwrap_or(0);
    table.retired = 1;
    table.rows[0].sequence = random.pick(&[greatest, greatest.saturating_add(1)]);
}
