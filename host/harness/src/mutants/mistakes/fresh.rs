//! Mistakes in making a fresh table.

use super::{value_beside, Mistake};
use crate::model::setup::{lawful, owners_lawful, site_count_lawful};
use crate::model::sizes::{SLOTS, TABLE_BYTES};

pub const MISTAKES: &[Mistake] = &[
    ("gt_fresh without check 1", |m| m.fresh(1, |_| None)),
    ("gt_fresh without check 2", |m| m.fresh(2, |_| None)),
    ("gt_fresh: checks 1 and 2 swapped", |m| m.model.fresh.swap(0, 1)),
    ("gt_fresh: a longer table passes", |m| m.fresh(2, |input| unless(input.length >= TABLE_BYTES))),
    ("gt_fresh: a shorter table passes", |m| m.fresh(2, |input| unless(input.length <= TABLE_BYTES))),
    ("gt_fresh: every n from 1 to 16 passes", |m| {
        m.fresh(1, |input| unless((1..=16).contains(&input.sites) && eight_below(input.sites, &input.owners)))
    }),
    ("gt_fresh: n 19 passes", |m| {
        m.fresh(1, |input| {
            let sites_pass = input.sites == 19 || site_count_lawful(input.sites);
            unless(sites_pass && eight_below(input.sites, &input.owners))
        })
    }),
    ("gt_fresh: n 16 doesn't pass", |m| {
        m.fresh(1, |input| unless(input.sites < 16 && lawful(input.sites, &input.owners)))
    }),
    ("gt_fresh: an owner may be n", |m| {
        m.fresh(1, |input| unless(site_count_lawful(input.sites) && eight_below(input.sites + 1, &input.owners)))
    }),
    ("gt_fresh: the last owner isn't looked at", |m| {
        m.fresh(1, |input| {
            let looked_at = input.owners.get(..SLOTS - 1).unwrap_or(&[]);
            let owners_pass = input.owners.len() == SLOTS && owners_lawful(input.sites, looked_at);
            unless(site_count_lawful(input.sites) && owners_pass)
        })
    }),
    ("gt_fresh: more than eight owners pass", |m| {
        m.fresh(1, |input| {
            let owners_pass = input.owners.len() >= SLOTS && owners_lawful(input.sites, &input.owners);
            unless(site_count_lawful(input.sites) && owners_pass)
        })
    }),
    ("gt_fresh: fewer than eight owners pass", |m| {
        m.fresh(1, |input| {
            let owners_pass = input.owners.len() <= SLOTS && owners_lawful(input.sites, &input.owners);
            unless(site_count_lawful(input.sites) && owners_pass)
        })
    }),
    ("gt_fresh: value 1 beside 1", |m| m.after_fresh(|answer, _, _| value_beside(1, answer, 1))),
    ("gt_fresh: value 1 beside 2", |m| m.after_fresh(|answer, _, _| value_beside(2, answer, 1))),
    ("gt_fresh: a success answers the length", |m| m.after_fresh(|answer, _, _| value_beside(0, answer, TABLE_BYTES))),
    ("gt_fresh: refusal 1 zeroes the table", |m| {
        m.after_fresh(|answer, _, table| {
            if answer.refusal == 1 {
                table.fill(0);
            }
            answer
        })
    }),
    ("gt_fresh: refusal 2 zeroes the table", |m| {
        m.after_fresh(|answer, _, table| {
            if answer.refusal == 2 {
                table.fill(0);
            }
            answer
        })
    }),
    ("gt_fresh: the last byte isn't zero", |m| {
        m.after_fresh(|answer, _, table| {
            if answer.refusal == 0 {
                table[TABLE_BYTES - 1] = 1;
            }
            answer
        })
    }),
    ("gt_fresh: owners in reverse", |m| {
        m.after_fresh(|answer, _, table| {
            if answer.refusal == 0 {
                table[1..=SLOTS].reverse();
            }
            answer
        })
    }),
    ("gt_fresh: the owners are written", |m| {
        m.after_fresh(|answer, owners, _| {
            owners.fill(0);
            answer
        })
    }),
];

fn unless(passes: bool) -> Option<usize> {
    (!passes).then_some(0)
}

fn eight_below(bound: u8, owners: &[u8]) -> bool {
    owners.len() == SLOTS && owners_lawful(bound, owners)
}
