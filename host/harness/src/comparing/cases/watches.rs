//! The watch, mostly on tables that no calls reach. Forked sites are few or many, around f often.

use crate::comparing::compare::Compare;
use crate::comparing::difference::Difference;
use crate::comparing::facts::watch::WatchAnswers;
use crate::comparing::laws;
use crate::drawing::random::Random;
use crate::drawing::table_damage::damaged;
use crate::drawing::tables;
use crate::drawing::tables_with_forks;
use crate::drawing::target_places::any_target;
use crate::model::table::Table;

const TABLES_A_CASE: usize = 3;
const PLACES_A_TABLE: usize = 3;
/// Of so many tables one is looked at whole, which takes long.
const WHOLE_ONE_IN: usize = 12;

pub fn run(random: &Random, compare: &mut Compare) -> Result<(), Difference> {
    for _ in 0..TABLES_A_CASE {
        let table = some_table(random);
        if random.one_in(WHOLE_ONE_IN) {
            laws::check_watch(&WatchAnswers::of(compare, table)?)?;
        } else {
            look(random, compare, &table)?;
        }
    }
    Ok(())
}

fn some_table(random: &Random) -> Table {
    if random.one_in(3) {
        tables::in_form(random)
    } else {
        tables_with_forks::drawn(random).0
    }
}

/// Asks for the forks and for the ancestors of some places. Sometimes the table is damaged.
fn look(random: &Random, compare: &mut Compare, table: &Table) -> Result<(), Difference> {
    let bytes = if random.one_in(4) { damaged(random, table) } else { table.to_bytes() };
    let forked = compare.forks(&bytes)?;
    compare.counts.watched_tables.forks(&bytes, forked);
    for _ in 0..PLACES_A_TABLE {
        // The last place has the most below it.
        let place = random.pick(&[table.count.saturating_sub(1), any_target(random, table.count)]);
        let ancestors = compare.ancestors(&bytes, place)?;
        compare.counts.watched_tables.ancestors(&bytes, place, ancestors);
    }
    Ok(())
}
