//! Damaged tables: a table in form with one field changed. Some stay in form; the model says which.

use crate::drawing::random::Random;
use crate::model::sha256::Digest;
use crate::model::sizes::{DIGEST_BYTES, HEAD_BYTES, MAX_REFERENCES, PLACES, ROW_BYTES, SITE_COUNTS, TABLE_BYTES};
use crate::model::table::{places, Row, Table};

/// The table's bytes with a change, of any kind.
pub fn damaged(random: &Random, table: &Table) -> Vec<u8> {
    match random.below(16) {
        0 => {
            let mut bytes = table.to_bytes();
            random.flip_bit(&mut bytes);
            bytes
        }
        1 => {
            // A bit of what is held: in a small table a bit of the whole is nearly always one of the rest.
            let mut bytes = table.to_bytes();
            random.flip_bit(&mut bytes[..HEAD_BYTES + ROW_BYTES * table.count]);
            bytes
        }
        2 => other_length(random, table),
        3 => random_bytes(random, table),
        _ => {
            let mut table = table.clone();
            random.pick(&DAMAGES)(random, &mut table);
            table.to_bytes()
        }
    }
}

fn other_length(random: &Random, table: &Table) -> Vec<u8> {
    let mut bytes = table.to_bytes();
    let any = random.between(0, 2 * TABLE_BYTES);
    let one_row = [TABLE_BYTES - ROW_BYTES, TABLE_BYTES + ROW_BYTES];
    let length = random.pick(&[0, 1, HEAD_BYTES, TABLE_BYTES - 1, TABLE_BYTES + 1, one_row[0], one_row[1], any]);
    let filling = random.pick(&[0, random.byte()]);
    bytes.resize(length, filling);
    bytes
}

/// Random bytes; sometimes under a head that is lawful.
fn random_bytes(random: &Random, table: &Table) -> Vec<u8> {
    let mut bytes = random.bytes(TABLE_BYTES);
    if random.one_in(2) {
        bytes[..HEAD_BYTES].copy_from_slice(&table.to_bytes()[..HEAD_BYTES]);
    }
    bytes
}

// ---- Single fields. A table without the places that a change needs stays as it is.

type Damage = fn(&Random, &mut Table);

const DAMAGES: [Damage; 26] = [
    site_count,
    owner,
    retired,
    retired,
    count,
    count_beyond,
    rest,
    rest,
    equal_digest,
    near_digest,
    zero_digests,
    site,
    sequence,
    reference_to_itself,
    reference_to_higher,
    reference_beyond_count,
    any_reference,
    seventeen_references,
    second_parent,
    second_parent,
    missing_parent,
    missing_parent,
    high_mark,
    mark_set,
    mark_cleared,
    requests,
];

/// A place below the count, of which there is at least one. Often the last: no other place refers to it, so that what
/// is changed there breaks no second rule.
fn some_place(random: &Random, table: &Table) -> usize {
    random.pick(&[table.count - 1, random.below(table.count), random.below(table.count)])
}

fn site_count(random: &Random, table: &mut Table) {
    let n = table.sites;
    table.sites = random.pick(&[0, n - 1, n + 1, n + 2, n + 3, 19, 255, random.pick(&SITE_COUNTS), random.byte()]);
}

fn owner(random: &Random, table: &mut Table) {
    let slot = random.below(table.owners.len());
    let n = table.sites;
    table.owners[slot] = random.pick(&[n, n, n - 1, n + 1, 255, random.byte()]);
}

/// Out of form where a parent is missing, or where it is more than 1.
fn retired(random: &Random, table: &mut Table) {
    table.retired = random.pick(&[0, 1, 1 - table.retired, 2, 2, 3, 255, 255, random.byte()]);
}

/// One more may stay in form: a zero entry is that of a block of site 0 without references.
fn count(random: &Random, table: &mut Table) {
    table.count = random.pick(&[table.count + 1, table.count.saturating_sub(1), random.byte().into()]);
}

fn count_beyond(random: &Random, table: &mut Table) {
    table.count = random.pick(&[PLACES + 1, PLACES + 1, 128, 255, random.between(PLACES, 255)]);
}

/// One field of an entry from the count on.
fn rest(random: &Random, table: &mut Table) {
    if table.count == PLACES {
        return;
    }
    let place = random.pick(&[table.count, PLACES - 1, random.between(table.count, PLACES - 1)]);
    let (byte, bit) = (random.byte().max(1), random.below(8));
    let row = &mut table.rows[place];
    match random.below(6) {
        0 => row.digest[random.below(DIGEST_BYTES)] = byte,
        1 => row.site = byte,
        2 => row.sequence = random.pick(&[1, 256, byte.into()]),
        3 => row.references = 1 << (8 * random.below(PLACES / 8) + bit),
        4 => row.requests[random.below(row.requests.len())] = random.pick(&[1, 256, byte.into()]),
        _ => row.mark = random.pick(&[1, byte]),
    }
}

/// Two different places, lower one first.
fn two_places(random: &Random, table: &Table) -> Option<(usize, usize)> {
    if table.count < 2 {
        return None;
    }
    let higher = random.between(1, table.count - 1);
    Some((random.below(higher), higher))
}

fn equal_digest(random: &Random, table: &mut Table) {
    if let Some((lower, higher)) = two_places(random, table) {
        table.rows[higher].digest = table.rows[lower].digest;
    }
}

/// Different from another in one bit alone: that is different.
fn near_digest(random: &Random, table: &mut Table) {
    if let Some((lower, higher)) = two_places(random, table) {
        table.rows[higher].digest = random.near(table.rows[lower].digest);
    }
}

fn zero_digests(random: &Random, table: &mut Table) {
    if let Some((lower, higher)) = two_places(random, table) {
        let zero: Digest = [0; DIGEST_BYTES];
        table.rows[lower].digest = zero;
        if random.one_in(2) {
            table.rows[higher].digest = zero;
        }
    }
}

/// Damage to the row of one place.
fn change_row(random: &Random, table: &mut Table, change: fn(&Random, &Table, usize, &mut Row)) {
    if table.count > 0 {
        let place = some_place(random, table);
        let mut row = table.rows[place];
        change(random, table, place, &mut row);
        table.rows[place] = row;
    }
}

fn site(random: &Random, table: &mut Table) {
    change_row(random, table, |random, table, _, row| {
        let n = table.sites;
        row.site = random.pick(&[n, n, n + 1, 255, random.below(n.into()) as u8, random.byte()]);
        // Sequence 0 needs no parent, which a site that isn't known can't have.
        row.sequence = random.pick(&[0, row.sequence]);
    });
}

fn sequence(random: &Random, table: &mut Table) {
    change_row(random, table, |random, _, _, row| {
        let old = row.sequence;
        let others = [old.wrapping_add(1), old.wrapping_sub(1), old ^ 256, old.swap_bytes(), 0, 1, random.number()];
        row.sequence = random.pick(&others);
    });
}

fn reference_to_itself(random: &Random, table: &mut Table) {
    change_row(random, table, |_, _, place, row| row.references |= 1 << place);
}

fn reference_to_higher(random: &Random, table: &mut Table) {
    change_row(random, table, |random, table, place, row| {
        row.references |= 1 << random.between(place, table.count - 1);
    });
}

fn reference_beyond_count(random: &Random, table: &mut Table) {
    change_row(random, table, |random, table, _, row| {
        row.references |= 1 << random.between(table.count - 1, PLACES - 1);
    });
}

/// One reference more or less, or another set altogether.
fn any_reference(random: &Random, table: &mut Table) {
    change_row(random, table, |random, _, place, row| {
        let lower = 1 << random.below(place.max(1));
        row.references = random.pick(&[row.references ^ lower, row.references ^ lower, random.set(), 0]);
    });
}

/// Lower places up to 17 in all, none of them a second parent or unmarked under a mark: nothing else breaks.
fn seventeen_references(random: &Random, table: &mut Table) {
    change_row(random, table, |random, table, place, row| {
        let fits = |lower: usize| {
            let other = &table.rows[lower];
            let parent = other.site == row.site && row.sequence > 0 && other.sequence == row.sequence - 1;
            !parent && other.mark >= row.mark
        };
        let mut others: Vec<usize> = (0..place).filter(|&lower| fits(lower)).collect();
        random.shuffle(&mut others);
        for lower in others {
            if places(row.references).count() <= MAX_REFERENCES {
                row.references |= 1 << lower;
            }
        }
    });
}

/// Of a place that has another lower one which could be its parent, both, if there is such a place.
fn second_parent(random: &Random, table: &mut Table) {
    let several = |place: &usize| possible_parents(table, *place).len() > 1;
    let places: Vec<usize> = (0..table.count).filter(several).collect();
    if !places.is_empty() {
        let place = random.pick(&places);
        let parents = possible_parents(table, place);
        table.rows[place].references |= 1 << random.pick(&parents) | 1 << random.pick(&parents);
    }
}

/// The lower places of the same site with the sequence number one less.
fn possible_parents(table: &Table, place: usize) -> Vec<usize> {
    let row = &table.rows[place];
    let parent = |other: &Row| other.site == row.site && other.sequence.checked_add(1) == Some(row.sequence);
    (0..place).filter(|&lower| parent(&table.rows[lower])).collect()
}

/// Without any parent. In form where something was retired and the place is interpreted.
fn missing_parent(random: &Random, table: &mut Table) {
    change_row(random, table, |random, table, place, row| {
        possible_parents(table, place).iter().for_each(|lower| row.references &= !(1 << lower));
        // Or with another mark, where that breaks no other rule.
        let markable = places(row.references).all(|lower| table.rows[lower].mark == 1);
        row.mark = random.pick(&[row.mark, row.mark, u8::from(markable)]);
    });
}

fn high_mark(random: &Random, table: &mut Table) {
    change_row(random, table, |random, _, _, row| row.mark = random.pick(&[2, 2, 3, 255, 255, random.byte().max(2)]));
}

/// Out of form where a reference isn't interpreted.
fn mark_set(random: &Random, table: &mut Table) {
    change_row(random, table, |_, _, _, row| row.mark = 1);
}

/// Out of form where an interpreted place refers to this one.
fn mark_cleared(random: &Random, table: &mut Table) {
    change_row(random, table, |_, _, _, row| row.mark = 0);
}

/// Any number is in form.
fn requests(random: &Random, table: &mut Table) {
    change_row(random, table, |random, _, _, row| {
        let slot = random.below(row.requests.len());
        row.requests[slot] = random.number();
    });
}
