//! What must hold of a retiring, by what was there before and after it. Blocks go by their digests.

use super::Law;
use crate::comparing::buffers::Buffers;
use crate::model::answer::Answer;
use crate::model::joining::referred;
use crate::model::record::part_of;
use crate::model::sha256::Digest;
use crate::model::sizes::PLACES;
use crate::model::table::{Row, Table};

/// A retiring that was answered 0: the buffers before and after it.
pub struct RetiringFacts<'a> {
    pub before: &'a Buffers,
    pub after: &'a Buffers,
    pub answer: Answer,
    /// Whether the table is in form after it.
    pub in_form: bool,
}

pub const STILL_IN_FORM: &str = "law: a table in form stays so when a block is retired";
pub const OTHERS_STAY: &str =
    "law: all other blocks stay, a place lower, and refer to what they did but for the one that left";
pub const KEEPS_THAT: &str = "law: a table keeps whether it has retired anything";
pub const PARTS_MOVE: &str =
    "law: the parts of all other places move with them, and the buffer from the new count on stays";
pub const NOTHING_OPEN: &str = "law: a block leaves only where it and all that refer to it are interpreted";
pub const NEVER_THE_LAST: &str = "law: the greatest interpreted block of a site is never retired";

pub fn laws<'a>() -> [Law<RetiringFacts<'a>>; 6] {
    [
        Law { name: STILL_IN_FORM, broken: |facts| (!facts.in_form).then(|| answer_text(facts)) },
        Law { name: KEEPS_THAT, broken: forgotten },
        Law { name: OTHERS_STAY, broken: others_change },
        Law { name: PARTS_MOVE, broken: other_number },
        Law { name: NOTHING_OPEN, broken: open },
        Law { name: NEVER_THE_LAST, broken: last_of_its_site },
    ]
}

fn forgotten(facts: &RetiringFacts) -> Option<String> {
    let kept = Table::from_bytes(&facts.after.table).retired;
    (kept != 1).then(|| format!("the byte is {kept}"))
}

fn answer_text(facts: &RetiringFacts) -> String {
    format!("{:?}", facts.answer)
}

fn tables(facts: &RetiringFacts) -> [Table; 2] {
    [facts.before, facts.after].map(|buffers| Table::from_bytes(&buffers.table))
}

fn others_change(facts: &RetiringFacts) -> Option<String> {
    let [before, after] = tables(facts);
    let left = before.rows[0].digest;
    let same = |place: usize| {
        let (old, new) = (&before.rows[place + 1], &after.rows[place]);
        let mut wanted: Vec<Digest> = referred(&before, old);
        wanted.retain(|digest| *digest != left);
        *new == Row { references: new.references, ..*old } && referred(&after, new) == wanted
    };
    let place = (0..PLACES - 1).find(|&place| !same(place));
    let count = after.count + 1 != before.count;
    (count || place.is_some()).then(|| format!("{} held, then {}; place {place:?}", before.count, after.count))
}

fn other_number(facts: &RetiringFacts) -> Option<String> {
    let [before, after] = [facts.before, facts.after].map(|buffers| &buffers.records);
    let count = Table::from_bytes(&facts.after.table).count;
    let moved = part_of(count).map_or(0, |part| part.start);
    let part = part_of(0).map_or(0, |part| part.end);
    let wanted = |at: usize| if at < moved { before[at + part] } else { before[at] };
    let at = (0..after.len()).find(|&at| after[at] != wanted(at))?;
    Some(format!("number {at}"))
}

fn open(facts: &RetiringFacts) -> Option<String> {
    let [before, _] = tables(facts);
    let concerned = |place: &usize| *place == 0 || before.rows[*place].references & 1 == 1;
    let place = (0..before.count).filter(concerned).find(|&place| before.rows[place].mark == 0)?;
    Some(format!("place {place}"))
}

fn last_of_its_site(facts: &RetiringFacts) -> Option<String> {
    let [before, after] = tables(facts);
    let left = before.rows[0];
    let later = |row: &Row| row.site == left.site && row.mark == 1 && row.sequence > left.sequence;
    (!after.held().iter().any(later)).then(|| format!("site {} at {}", left.site, left.sequence))
}
