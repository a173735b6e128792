//! Mistakes in the watch: in whom it names, in the ancestors, in the counts and in what stands beside a refusal.

use super::{flip_last, Mistake, Mutant};
use crate::model::answer::{AncestorPlaces, ForkedSites};
use crate::model::setup::faults;
use crate::model::sizes::{MAX_SITES, PLACES};
use crate::model::table::{places, Row, Table};
use crate::model::watch::{bit, forked, twins, Twins, ANCESTOR_CHECKS};

/// Each check left out, and the two of the ancestors swapped.
pub fn checks_exchanged() -> Vec<Mutant> {
    let left_out =
        |number: u8| Mutant::with(format!("ancestors without check {number}"), |m| m.ancestors(number, |_| None));
    let mut mutants: Vec<Mutant> = ANCESTOR_CHECKS.iter().map(|check| left_out(check.number)).collect();
    mutants.push(Mutant::with("forks without check 2".to_string(), |m| m.model.watch.fork_checks.clear()));
    mutants.push(Mutant::with("ancestors: checks 2 and 13 swapped".to_string(), |m| {
        m.model.watch.ancestor_checks.swap(0, 1);
    }));
    mutants
}

pub const FORK_MISTAKES: &[Mistake] = &[
    // Which two blocks are a fork
    ("forks: two blocks of a site are a fork", |m| m.model.watch.twins = |one, other| one.site == other.site),
    (SITES_NOT_COMPARED, |m| m.model.watch.twins = |one, other| one.sequence == other.sequence),
    (NOBODY_NAMED, |m| m.model.watch.forked = |_, _| 0),
    (FIRST_MISSED, |m| m.model.watch.twins = |one, other| twins(one, other) && one.sequence > 0),
    ("forks: those of sequence 0 alone", |m| m.model.watch.twins = |one, other| twins(one, other) && one.sequence == 0),
    ("forks: those of sequence numbers over 7 are missed", |m| {
        m.model.watch.twins = |one, other| twins(one, other) && one.sequence < 8
    }),
    ("forks: sequence numbers are compared by three bits", |m| {
        m.model.watch.twins = |one, other| one.site == other.site && one.sequence % 8 == other.sequence % 8
    }),
    ("forks: sites are compared by three bits", |m| {
        m.model.watch.twins = |one, other| one.site % 8 == other.site % 8 && one.sequence == other.sequence
    }),
    ("forks: neighbouring numbers are a fork too", |m| {
        m.model.watch.twins = |one, other| one.site == other.site && one.sequence.abs_diff(other.sequence) <= 1
    }),
    ("forks: only interpreted blocks are looked at", |m| {
        m.model.watch.twins = |one, other| twins(one, other) && one.mark + other.mark == 2
    }),
    ("forks: two uninterpreted blocks are no fork", |m| {
        m.model.watch.twins = |one, other| twins(one, other) && one.mark + other.mark > 0
    }),
    ("forks: interpreted blocks aren't looked at", |m| {
        m.model.watch.twins = |one, other| twins(one, other) && one.mark + other.mark == 0
    }),
    ("forks: two blocks with the same references are no fork", |m| {
        m.model.watch.twins = |one, other| twins(one, other) && one.references != other.references
    }),
    ("forks: only blocks with the same references are a fork", |m| {
        m.model.watch.twins = |one, other| twins(one, other) && one.references == other.references
    }),
    ("forks: two blocks with the same requests are no fork", |m| {
        m.model.watch.twins = |one, other| twins(one, other) && one.requests != other.requests
    }),
    // Where they are looked for
    ("forks: only neighbouring places are compared", |m| {
        m.model.watch.forked = |table, twins| {
            let pairs = table.held().windows(2).filter(|pair| twins(&pair[0], &pair[1]));
            pairs.fold(0, |mask, pair| mask | bit(pair[0].site))
        }
    }),
    ("forks: a site's blocks are compared with its last one alone", |m| {
        m.model.watch.forked = |table, twins| {
            named(table, |site| {
                let last = table.own(site).last().map(|place| &table.rows[place]);
                last.is_some_and(|last| own_rows(table, site).filter(|row| twins(last, row)).count() > 1)
            })
        }
    }),
    ("forks: those of a site's greatest number alone", |m| {
        m.model.watch.forked = |table, _| {
            named(table, |site| {
                let greatest = own_rows(table, site).map(|row| row.sequence).max();
                own_rows(table, site).filter(|row| Some(row.sequence) == greatest).count() > 1
            })
        }
    }),
    ("forks: those of a site's greatest number are missed", |m| {
        m.model.watch.forked = |table, twins| {
            let below = |table: &Table, row: &Row| own_rows(table, row.site).any(|other| other.sequence > row.sequence);
            among(table, twins, below)
        }
    }),
    ("forks: those of which one block refers to the other are missed", |m| {
        m.model.watch.forked = |table, twins| {
            let apart = |lower: usize, higher: usize| table.rows[higher].references >> lower & 1 == 0;
            pairs(table).filter(|&(lower, higher)| apart(lower, higher)).fold(0, |mask, (lower, higher)| {
                let (one, other) = (&table.rows[lower], &table.rows[higher]);
                mask | if twins(one, other) { bit(one.site) } else { 0 }
            })
        }
    }),
    ("forks: place 0 isn't looked at", |m| {
        m.model.watch.forked = |table, twins| among(table, twins, |table, row| *row != table.rows[0])
    }),
    ("forks: the last place isn't looked at", |m| {
        m.model.watch.forked = |table, twins| {
            let mut table = table.clone();
            table.count = table.count.saturating_sub(1);
            forked(&table, twins)
        }
    }),
    ("forks: place 63 isn't looked at", |m| {
        m.model.watch.forked = |table, twins| {
            let mut table = table.clone();
            table.count = table.count.min(PLACES - 1);
            forked(&table, twins)
        }
    }),
    ("forks: places from the count on are looked at", |m| {
        m.model.watch.forked = |table, twins| {
            let mut table = table.clone();
            table.count = PLACES;
            forked(&table, twins)
        }
    }),
    // The mask and the counts
    ("forks: site 0 is never named", |m| m.model.watch.forked = |table, twins| forked(table, twins) & !1),
    ("forks: site 15 is never named", |m| m.model.watch.forked = |table, twins| forked(table, twins) & 0x7fff),
    ("forks: sites from 8 on are never named", |m| m.model.watch.forked = |table, twins| forked(table, twins) & 0xff),
    ("forks: the mask's bits in reverse", |m| {
        m.model.watch.forked = |table, twins| forked(table, twins).reverse_bits()
    }),
    ("forks: the mask's bytes in reverse", |m| m.model.watch.forked = |table, twins| forked(table, twins).swap_bytes()),
    ("forks: the others are named", |m| {
        m.model.watch.forked = |table, twins| {
            let all = u16::MAX >> (MAX_SITES - usize::from(table.sites).min(MAX_SITES));
            all & !forked(table, twins)
        }
    }),
    (FOUR_BITS_COUNTED, |m| m.model.watch.ones = |mask| (mask & 15).count_ones()),
    ("forks: blocks are counted, not sites", |m| {
        m.after_forks(|answer, table| {
            let table = Table::from_bytes(table);
            let blocks = pairs(&table).filter(|&(lower, higher)| twins(&table.rows[lower], &table.rows[higher]));
            let count = if answer.refusal == 0 { blocks.count() as u32 } else { 0 };
            ForkedSites { count, ..answer }
        })
    }),
    ("forks: the count is the mask", |m| {
        m.after_forks(|answer, _| ForkedSites { count: answer.sites.into(), ..answer })
    }),
    ("forks: the count is 0", |m| m.after_forks(|answer, _| ForkedSites { count: 0, ..answer })),
    (FEWER_THAN_F, |m| m.model.watch.at_most_f = |count, sites| count < faults(sites)),
    ("forks: f + 1 are at most f", |m| m.model.watch.at_most_f = |count, sites| count <= faults(sites) + 1),
    ("forks: 2f are at most f", |m| m.model.watch.at_most_f = |count, sites| count <= 2 * faults(sites)),
    ("forks: any are at most f", |m| m.model.watch.at_most_f = |_, _| true),
    ("forks: at most f only if none", |m| m.model.watch.at_most_f = |count, _| count == 0),
    ("forks: at most f is turned round", |m| m.model.watch.at_most_f = |count, sites| count > faults(sites)),
    // Beside a refusal, and what is left
    ("forks: at most f beside a refusal", |m| {
        m.after_forks(|answer, _| ForkedSites { at_most_f: answer.at_most_f || answer.refusal != 0, ..answer })
    }),
    ("forks: a mask beside a refusal", |m| {
        m.after_forks(|answer, table| {
            let sites = if answer.refusal == 0 { answer.sites } else { forked(&Table::from_bytes(table), twins) };
            ForkedSites { sites, ..answer }
        })
    }),
    ("forks: a count beside a refusal", |m| {
        m.after_forks(|answer, _| ForkedSites { count: answer.count + u32::from(answer.refusal != 0), ..answer })
    }),
    ("forks: refusal 1 in place of 2", |m| {
        m.after_forks(|answer, _| ForkedSites { refusal: answer.refusal.min(1), ..answer })
    }),
    ("forks: the table is written", |m| {
        m.after_forks(|answer, table| {
            flip_last(table);
            answer
        })
    }),
];

pub const ANCESTOR_MISTAKES: &[Mistake] = &[
    // How far they reach
    (ONE_LEVEL, |m| m.model.watch.ancestors = |table, place| references(table, place)),
    ("ancestors: two levels deep", |m| {
        m.model.watch.ancestors = |table, place| with_references(table, references(table, place))
    }),
    ("ancestors: three levels deep", |m| {
        m.model.watch.ancestors =
            |table, place| with_references(table, with_references(table, references(table, place)))
    }),
    (ITSELF, |m| m.model.watch.ancestors = |table, place| table.ancestors(place) | place_bit(place)),
    ("ancestors: without the references", |m| {
        m.model.watch.ancestors = |table, place| table.ancestors(place) & !references(table, place)
    }),
    ("ancestors: without references of references", |m| {
        m.model.watch.ancestors = |table, place| {
            let below = places(references(table, place)).fold(0, |set, lower| set | table.ancestors(lower));
            table.ancestors(place) & !below
        }
    }),
    ("ancestors: all lower places", |m| m.model.watch.ancestors = |_, place| place_bit(place).saturating_sub(1)),
    ("ancestors: those of the lowest reference alone", |m| {
        m.model.watch.ancestors = |table, place| {
            let direct = references(table, place);
            places(direct).take(1).fold(direct, |set, lower| set | table.ancestors(lower))
        }
    }),
    ("ancestors: those of the highest reference alone", |m| {
        m.model.watch.ancestors = |table, place| {
            let direct = references(table, place);
            places(direct).last().map_or(0, |higher| direct | table.ancestors(higher))
        }
    }),
    ("ancestors: descendants", |m| {
        m.model.watch.ancestors = |table, place| {
            let below = |higher: &usize| table.ancestors(*higher) & place_bit(place) != 0;
            set((0..table.held().len()).filter(below))
        }
    }),
    // Which blocks count
    ("ancestors: of other sites alone", |m| m.model.watch.ancestors = |table, place| kept(table, place, |own, _| !own)),
    ("ancestors: of the own site alone", |m| m.model.watch.ancestors = |table, place| kept(table, place, |own, _| own)),
    ("ancestors: interpreted ones alone", |m| {
        m.model.watch.ancestors = |table, place| kept(table, place, |_, row| row.mark == 1)
    }),
    ("ancestors: uninterpreted ones alone", |m| {
        m.model.watch.ancestors = |table, place| kept(table, place, |_, row| row.mark == 0)
    }),
    ("ancestors: without place 0", |m| m.model.watch.ancestors = |table, place| table.ancestors(place) & !1),
    ("ancestors: places from 32 on are left out", |m| {
        m.model.watch.ancestors = |table, place| table.ancestors(place) & 0xffff_ffff
    }),
    ("ancestors: place 62 is left out", |m| {
        m.model.watch.ancestors = |table, place| table.ancestors(place) & !place_bit(PLACES - 2)
    }),
    ("ancestors: the mask's bits in reverse", |m| {
        m.model.watch.ancestors = |table, place| table.ancestors(place).reverse_bits()
    }),
    ("ancestors: the mask's bytes in reverse", |m| {
        m.model.watch.ancestors = |table, place| table.ancestors(place).swap_bytes()
    }),
    ("ancestors: none", |m| m.model.watch.ancestors = |_, _| 0),
    // The place
    ("ancestors: the place may be the count", |m| {
        m.ancestors(13, |input| (input.place > input.table.count).then_some(0))
    }),
    ("ancestors: the last place is refused", |m| {
        m.ancestors(13, |input| (input.place >= input.table.count.saturating_sub(1)).then_some(0))
    }),
    ("ancestors: places are compared with 64", |m| m.ancestors(13, |input| (input.place >= PLACES).then_some(0))),
    ("ancestors: the place's low byte decides", |m| {
        m.ancestors(13, |input| (input.place % 256 >= input.table.count).then_some(0))
    }),
    ("ancestors: the place's low half decides", |m| {
        m.ancestors(13, |input| (input.place as u32 as usize >= input.table.count).then_some(0))
    }),
    // The count, what stands beside a refusal, and what is left
    ("ancestors: the references are counted", |m| {
        m.after_ancestors(|answer, table, place| {
            let direct = references(&Table::from_bytes(table), place).count_ones();
            AncestorPlaces { count: answer.count.min(direct), ..answer }
        })
    }),
    ("ancestors: itself is counted", |m| {
        m.after_ancestors(|answer, _, _| AncestorPlaces {
            count: answer.count + u32::from(answer.refusal == 0),
            ..answer
        })
    }),
    ("ancestors: the count is 0", |m| m.after_ancestors(|answer, _, _| AncestorPlaces { count: 0, ..answer })),
    ("ancestors: a mask beside 13", |m| {
        m.after_ancestors(|answer, table, _| {
            let all = place_bit(Table::from_bytes(table).count).wrapping_sub(1);
            AncestorPlaces { places: if answer.refusal == 13 { all } else { answer.places }, ..answer }
        })
    }),
    ("ancestors: a count beside 13", |m| {
        m.after_ancestors(|answer, table, _| {
            let held = Table::from_bytes(table).count as u32;
            AncestorPlaces { count: if answer.refusal == 13 { held } else { answer.count }, ..answer }
        })
    }),
    ("ancestors: a mask beside 2", |m| {
        m.after_ancestors(|answer, table, place| {
            let direct = references(&Table::from_bytes(table), place);
            AncestorPlaces { places: if answer.refusal == 2 { direct } else { answer.places }, ..answer }
        })
    }),
    ("ancestors: a count beside 2", |m| {
        m.after_ancestors(|answer, _, _| AncestorPlaces {
            count: answer.count + u32::from(answer.refusal == 2),
            ..answer
        })
    }),
    ("ancestors: the table is written", |m| {
        m.after_ancestors(|answer, table, _| {
            flip_last(table);
            answer
        })
    }),
];

pub const SITES_NOT_COMPARED: &str = "forks: blocks of different sites are a fork";
pub const NOBODY_NAMED: &str = "forks: nobody is named";
pub const FIRST_MISSED: &str = "forks: those of sequence 0 are missed";
pub const FOUR_BITS_COUNTED: &str = "forks: four bits of a mask are counted";
pub const FEWER_THAN_F: &str = "forks: f aren't at most f";
pub const ITSELF: &str = "ancestors: with itself";
pub const ONE_LEVEL: &str = "ancestors: one level deep";

fn own_rows(table: &Table, site: u8) -> impl Iterator<Item = &Row> {
    table.own(site).map(|place| &table.rows[place])
}

/// The mask of the sites that are named.
fn named(table: &Table, forked: impl Fn(u8) -> bool) -> u16 {
    (0..table.sites).filter(|&site| forked(site)).fold(0, |mask, site| mask | bit(site))
}

/// All two places below the count, lower one first.
fn pairs(table: &Table) -> impl Iterator<Item = (usize, usize)> + '_ {
    (0..table.held().len()).flat_map(|higher| (0..higher).map(move |lower| (lower, higher)))
}

/// The forked sites, by the blocks of which something holds.
fn among(table: &Table, twins: Twins, counts: fn(&Table, &Row) -> bool) -> u16 {
    let fork = |&(lower, higher): &(usize, usize)| {
        let (one, other) = (&table.rows[lower], &table.rows[higher]);
        counts(table, one) && counts(table, other) && twins(one, other)
    };
    pairs(table).filter(fork).fold(0, |mask, (lower, _)| mask | bit(table.rows[lower].site))
}

fn references(table: &Table, place: usize) -> u64 {
    table.rows.get(place).map_or(0, |row| row.references)
}

/// The set and all that its places refer to.
fn with_references(table: &Table, set: u64) -> u64 {
    places(set).fold(set, |all, place| all | table.rows[place].references)
}

fn set(places: impl Iterator<Item = usize>) -> u64 {
    places.fold(0, |set, place| set | place_bit(place))
}

/// A place's bit in a set; none for a place that no table has.
fn place_bit(place: usize) -> u64 {
    u32::try_from(place).ok().and_then(|place| 1u64.checked_shl(place)).unwrap_or(0)
}

/// The ancestors that are kept, by whether they are of the place's own site and by their row.
fn kept(table: &Table, place: usize, keeps: fn(bool, &Row) -> bool) -> u64 {
    let site = table.rows.get(place).map_or(0, |row| row.site);
    let keeps = |lower: &usize| {
        let row = &table.rows[*lower];
        keeps(row.site == site, row)
    };
    set(places(table.ancestors(place)).filter(keeps))
}
