//! What building has met.

use std::fmt::{self, Display, Formatter};

use crate::comparing::buffers::NextBlock;
use crate::drawing::tables_with_forks::places_left;
use crate::model::answer::Answer;
use crate::model::sizes::{MAX_BLOCK_BYTES, MAX_REFERENCES, PLACES};
use crate::model::table::Table;

#[derive(Default)]
pub struct BuiltBlocks {
    /// Blocks that were built.
    all: u64,
    without_own: u64,
    /// By how many blocks of others are left: none, one fewer than fit, as many as fit, one more, and more.
    none_left: u64,
    one_fewer: u64,
    as_many: u64,
    one_more: u64,
    more: u64,
    longest: u64,
    full_table: u64,
    exact_output: u64,
    longer_output: u64,
    short_by_one: u64,
    /// 16 was answered, and the greatest sequence number isn't shared.
    lower_fork: u64,
    /// What admission answered to them: 0, 8, 11.
    admitted: [u64; 3],
}

impl BuiltBlocks {
    /// What was answered to an output of so many bytes.
    pub fn answer(&mut self, next: &NextBlock, answer: Answer, room: usize) {
        let table = Table::from_bytes(next.table);
        match answer.refusal {
            0 => self.block(&table, next.site, answer.value, room),
            16 => self.lower_fork += u64::from(forked_below(&table, next.site)),
            _ => {}
        }
    }

    fn block(&mut self, table: &Table, site: u8, length: usize, room: usize) {
        let own = table.own(site).next().is_some();
        let fit = MAX_REFERENCES - usize::from(own);
        let left = places_left(table, site).len();
        self.all += 1;
        self.without_own += u64::from(!own);
        self.none_left += u64::from(left == 0);
        self.one_fewer += u64::from(left + 1 == fit);
        self.as_many += u64::from(left == fit);
        self.one_more += u64::from(left == fit + 1);
        self.more += u64::from(left > fit + 1);
        self.longest += u64::from(length == MAX_BLOCK_BYTES);
        self.full_table += u64::from(table.count == PLACES);
        self.exact_output += u64::from(length == room);
        self.longer_output += u64::from(length < room);
    }

    pub fn short_output(&mut self, room: usize, answer: Answer) {
        self.short_by_one += u64::from(answer.refusal == 17 && answer.value == room + 1);
    }

    pub fn admission(&mut self, answer: Answer) {
        for (times, refusal) in self.admitted.iter_mut().zip([0, 8, 11]) {
            *times += u64::from(answer.refusal == refusal);
        }
    }
}

/// Whether a site, which has forked, has a single block of its greatest sequence number.
fn forked_below(table: &Table, site: u8) -> bool {
    let numbers = || table.own(site).map(|place| table.rows[place].sequence);
    let greatest = numbers().max();
    numbers().filter(|&number| Some(number) == greatest).count() == 1
}

impl Display for BuiltBlocks {
    fn fmt(&self, to: &mut Formatter) -> fmt::Result {
        let mut line = |name: &str, times: u64| super::line(to, name, times);
        line("blocks built", self.all)?;
        line("blocks built for a site without a held block", self.without_own)?;
        line("blocks built with nothing of others left", self.none_left)?;
        line("blocks built with one fewer left than fit", self.one_fewer)?;
        line("blocks built with as many left as fit", self.as_many)?;
        line("blocks built with one more left than fit", self.one_more)?;
        line("blocks built with more left", self.more)?;
        line("blocks built of the greatest length", self.longest)?;
        line("blocks built on a full table", self.full_table)?;
        line("blocks built into an output of their length", self.exact_output)?;
        line("blocks built into a longer output", self.longer_output)?;
        line("outputs too short by one byte", self.short_by_one)?;
        line("sites forked below their greatest number alone", self.lower_fork)?;
        for (times, what) in self.admitted.iter().zip(["admitted", "refused with 8", "refused with 11"]) {
            line(&format!("built blocks {what}"), *times)?;
        }
        Ok(())
    }
}
