//! Tables that have retired something: interpreted places may lack their parent, and sites may be far in their sequence
//! numbers, up to the last one.

use crate::drawing::random::Random;
use crate::model::form::{self, in_form};
use crate::model::table::{places, Table};

/// A table in form, made one that has retired something. Most are then such as no calls reach.
pub fn aged(random: &Random, mut table: Table) -> Table {
    table.retired = 1;
    for site in 0..table.sites {
        if random.one_in(2) {
            let ahead = some_way(random, &table, site);
            move_ahead(&mut table, site, ahead);
        }
    }
    let overtaking = random.below(3 * table.count.max(1));
    if overtaking < table.count {
        overtake(&mut table, overtaking);
    }
    let lost_one_in = random.pick(&[2, 4, 16, 1000]);
    for place in 0..table.count {
        if random.one_in(lost_one_in) {
            lose_parent(&mut table, place);
        }
    }
    table
}

/// The table as one that has retired something, with a site at the last sequence number or right before it.
pub fn at_end(random: &Random, table: Table, site: u8) -> Table {
    let mut table = aged(random, table);
    let first = table.own(site).next();
    if let Some(first) = first.filter(|_| random.one_in(2)) {
        overtake(&mut table, first);
    }
    let greatest = greatest(&table, site).unwrap_or(0);
    move_ahead(&mut table, site, (u16::MAX - greatest).saturating_sub(random.pick(&[0, 0, 1])));
    table
}

/// How far a site has come: often so far that its greatest block has the last sequence number, or the one before it, or
/// that its numbers lie around 256.
fn some_way(random: &Random, table: &Table, site: u8) -> u16 {
    let greatest = greatest(table, site).unwrap_or(0);
    let to_last = u16::MAX - greatest;
    let around = 256_u16.saturating_sub(random.between(0, usize::from(greatest) + 1) as u16);
    let any = random.between(0, to_last.into()) as u16;
    random
        .pick(&[to_last, to_last, to_last.saturating_sub(1), 1, random.between(1, 100) as u16, around, around, any])
        .min(to_last)
}

fn greatest(table: &Table, site: u8) -> Option<u16> {
    table.own(site).map(|place| table.rows[place].sequence).max()
}

/// The block at a place gets the number after its site's greatest, if the table stays in form: the greatest block is then
/// not the site's highest place.
fn overtake(table: &mut Table, place: usize) {
    let mut changed = table.clone();
    let next = greatest(table, table.rows[place].site).and_then(|greatest| greatest.checked_add(1));
    if let Some(next) = next {
        changed.rows[place].sequence = next;
        if in_form(&form::DOCUMENT, &changed) {
            *table = changed;
        }
    }
}

/// Adds so much to all sequence numbers of a site. Those of number 0 then lack their parent, so they must be interpreted:
/// else the site stays where it is.
fn move_ahead(table: &mut Table, site: u8, ahead: u16) {
    let own: Vec<usize> = table.own(site).collect();
    if own.iter().all(|&place| table.rows[place].sequence > 0 || table.rows[place].mark == 1) {
        own.iter().for_each(|&place| table.rows[place].sequence += ahead);
    }
}

/// Takes the parent out of an interpreted place's references.
pub fn lose_parent(table: &mut Table, place: usize) {
    let row = table.rows[place];
    if row.mark == 1 && row.sequence > 0 {
        let parent = |lower: usize| {
            let other = &table.rows[lower];
            other.site == row.site && other.sequence == row.sequence - 1
        };
        let lost = places(row.references).filter(|&lower| parent(lower)).fold(0, |set, lower| set | 1 << lower);
        table.rows[place].references &= !lost;
    }
}
