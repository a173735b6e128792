//! What must hold of a join besides, where calls reached both sides. What must hold of two sites, the joined one among
//! them, is said with the laws of two sites.

use super::Law;
use crate::comparing::facts::join::{JoinFacts, ReachedJoin};
use crate::model::record::part_at;
use crate::model::table::Table;

pub const SWAPPED: &str = "law: left and right exchanged give the same blocks, marks and parts";
pub const BY_CALLS: &str = "law: a joined table and its records are what calls in its order leave";
pub const GOES_ON: &str = "law: a joined site goes on, and no call is refused";

pub fn laws<'a>() -> [Law<ReachedJoin<'a>>; 3] {
    [
        Law { name: GOES_ON, broken: refused },
        Law { name: SWAPPED, broken: depends_on_side },
        Law { name: BY_CALLS, broken: not_by_calls },
    ]
}

fn depends_on_side(reached: &ReachedJoin) -> Option<String> {
    let ReachedJoin { join, swapped, .. } = reached;
    if swapped.answer != join.answer {
        return Some(format!("{:?}, exchanged {:?}", join.answer, swapped.answer));
    }
    let [one, other] = [join, swapped].map(|join: &JoinFacts| Table::from_bytes(&join.after.table));
    let same = |place: usize| {
        let Some(its_place) = other.place_of(&one.rows[place].digest) else { return false };
        let parts = [part_at(&join.after.records, place), part_at(&swapped.after.records, its_place)];
        one.rows[place].mark == other.rows[its_place].mark && (one.rows[place].mark == 0 || parts[0] == parts[1])
    };
    let place = (0..one.held().len()).find(|&place| !same(place))?;
    Some(format!("place {place}"))
}

fn not_by_calls(reached: &ReachedJoin) -> Option<String> {
    let Some(by_calls) = &reached.by_calls else { return Some("a block that neither side holds".to_string()) };
    let after = &reached.join.after;
    let what = [(after.table != by_calls.table, "another table"), (after.records != by_calls.records, "other records")];
    what.iter().find(|(differs, _)| *differs).map(|(_, what)| what.to_string())
}

fn refused(reached: &ReachedJoin) -> Option<String> {
    let call = reached.later_refusals.iter().position(|&refusal| refusal != 0)?;
    Some(format!("call {call} got {}", reached.later_refusals[call]))
}
