//! Mistakes in the shelf rule, and in what comes to wait by it.

use super::Mistake;
use crate::model::shelf::Shelf;
use crate::model::shelving::takes;
use crate::model::sizes::{CAMPAIGNS, MOST_HELD, RESERVED, SHELF_PLACES};

pub const MISTAKES: &[Mistake] = &[
    // Limits. A rule without the limit of 10 is the same on shelves in form: what is free beside 10 others lack.
    ("shelf rule: 9 at most", |m| {
        m.model.shelving.takes = |shelf, campaign| shelf.holds(campaign) < MOST_HELD - 1 && takes(shelf, campaign)
    }),
    ("shelf rule: 17 places", |m| {
        m.model.shelving.takes = |shelf, campaign| by_limits(shelf, campaign, SHELF_PLACES + 1, RESERVED)
    }),
    ("shelf rule: 15 places", |m| {
        m.model.shelving.takes = |shelf, campaign| by_limits(shelf, campaign, SHELF_PLACES - 1, RESERVED)
    }),
    (THREE_RESERVED, |m| {
        m.model.shelving.takes = |shelf, campaign| by_limits(shelf, campaign, SHELF_PLACES, RESERVED + 1)
    }),
    ("shelf rule: 1 reserved for each", |m| {
        m.model.shelving.takes = |shelf, campaign| by_limits(shelf, campaign, SHELF_PLACES, RESERVED - 1)
    }),
    ("shelf rule: 11 at most, 1 reserved for each", |m| {
        m.model.shelving.takes = |shelf, campaign| {
            let lack = others(campaign, |other| shelf.lacks(other, RESERVED - 1));
            shelf.holds(campaign) <= MOST_HELD && shelf.free() > lack
        }
    }),
    ("shelf rule: five campaigns", |m| {
        m.model.shelving.takes = |shelf, campaign| covers(shelf, campaign, shelf.others_lack(campaign) + RESERVED)
    }),
    ("shelf rule: three campaigns", |m| {
        m.model.shelving.takes = |shelf, campaign| {
            let last = CAMPAIGNS as u8 - 1;
            let lack = others(campaign, |other| if other == last { 0 } else { shelf.lacks(other, RESERVED) });
            covers(shelf, campaign, lack)
        }
    }),
    ("shelf rule: 2 for each and no more", |m| {
        m.model.shelving.takes = |shelf, campaign| shelf.holds(campaign) < RESERVED
    }),
    ("shelf rule: 4 for each and no more", |m| {
        m.model.shelving.takes = |shelf, campaign| shelf.holds(campaign) < SHELF_PLACES / CAMPAIGNS
    }),
    // What the others lack
    (OTHERS_NOT_COVERED, |m| m.model.shelving.takes = |shelf, campaign| covers(shelf, campaign, 0)),
    (ANY_FREE_PLACE, |m| m.model.shelving.takes = |shelf, _| shelf.free() > 0),
    ("shelf rule: the limit of 10 alone", |m| {
        m.model.shelving.takes = |shelf, campaign| shelf.holds(campaign) < MOST_HELD
    }),
    (OWN_LACK_TOO, |m| {
        m.model.shelving.takes = |shelf, campaign| {
            let own = shelf.lacks(campaign, RESERVED);
            covers(shelf, campaign, shelf.others_lack(campaign) + own)
        }
    }),
    (NOT_AFTER_TAKING, |m| {
        m.model.shelving.takes = |shelf, campaign| {
            let lack = shelf.others_lack(campaign);
            shelf.holds(campaign) < MOST_HELD && shelf.free() >= lack.max(1)
        }
    }),
    ("shelf rule: one place more must be left than the others lack", |m| {
        m.model.shelving.takes = |shelf, campaign| covers(shelf, campaign, shelf.others_lack(campaign) + 1)
    }),
    ("shelf rule: what others lack that hold none isn't counted", |m| {
        m.model.shelving.takes = |shelf, campaign| {
            let lack = others(campaign, |other| usize::from(shelf.holds(other) == 1));
            covers(shelf, campaign, lack)
        }
    }),
    ("shelf rule: what others lack that hold one isn't counted", |m| {
        m.model.shelving.takes = |shelf, campaign| {
            let lack = others(campaign, |other| if shelf.holds(other) == 0 { RESERVED } else { 0 });
            covers(shelf, campaign, lack)
        }
    }),
    ("shelf rule: others that hold fewer than 2 count one each", |m| {
        m.model.shelving.takes = |shelf, campaign| {
            let lack = others(campaign, |other| usize::from(shelf.holds(other) < RESERVED));
            covers(shelf, campaign, lack)
        }
    }),
    ("shelf rule: others that hold fewer than 2 count two each", |m| {
        m.model.shelving.takes = |shelf, campaign| {
            let lack = others(campaign, |other| if shelf.holds(other) < RESERVED { RESERVED } else { 0 });
            covers(shelf, campaign, lack)
        }
    }),
    ("shelf rule: what one of the others lacks most is covered", |m| {
        m.model.shelving.takes = |shelf, campaign| {
            let lack = (0..CAMPAIGNS as u8).filter(|&other| other != campaign);
            covers(shelf, campaign, lack.map(|other| shelf.lacks(other, RESERVED)).max().unwrap_or(0))
        }
    }),
    ("shelf rule: what the lower campaigns lack is covered alone", |m| {
        m.model.shelving.takes = |shelf, campaign| {
            let lack = (0..CAMPAIGNS as u8).take_while(|&other| other < campaign);
            covers(shelf, campaign, lack.map(|other| shelf.lacks(other, RESERVED)).sum())
        }
    }),
    ("shelf rule: from 2 on one place must be left for all others", |m| {
        m.model.shelving.takes =
            |shelf, campaign| covers(shelf, campaign, usize::from(shelf.holds(campaign) >= RESERVED))
    }),
    // What comes to wait
    (NOTHING_WAITS, |m| m.model.shelving.put = |_, _, _| {}),
    ("arrival: a new block waits before all others", |m| {
        m.model.shelving.put = |shelf, campaign, block| {
            shelf.put(campaign, block);
            let count = shelf.count;
            shelf.entries[..count].rotate_right(1);
        }
    }),
    ("arrival: a new block waits behind its campaign's others", |m| {
        m.model.shelving.put = |shelf, campaign, block| {
            shelf.put(campaign, block);
            let count = shelf.count;
            let last = shelf.entries[..count - 1].iter().rposition(|entry| entry.campaign == campaign);
            if let Some(last) = last {
                shelf.entries[last + 1..count].rotate_right(1);
            }
        }
    }),
    (FOR_CAMPAIGN_0, |m| m.model.shelving.put = |shelf, _, block| shelf.put(0, block)),
    ("arrival: a waiting block loses its last byte", |m| {
        m.model.shelving.put = |shelf, campaign, block| shelf.put(campaign, &block[..block.len() - 1])
    }),
    ("arrival: a waiting block's length is one more", |m| {
        m.model.shelving.put = |shelf, campaign, block| {
            shelf.put(campaign, block);
            let last = shelf.count - 1;
            shelf.entries[last].length += 1;
        }
    }),
    ("arrival: a waiting block's length low byte first", |m| {
        m.model.shelving.put = |shelf, campaign, block| {
            shelf.put(campaign, block);
            let last = shelf.count - 1;
            shelf.entries[last].length = shelf.entries[last].length.swap_bytes();
        }
    }),
    ("arrival: the count isn't raised", |m| {
        m.model.shelving.put = |shelf, campaign, block| {
            shelf.put(campaign, block);
            shelf.count -= 1;
        }
    }),
    (OLDEST_PUSHED_OUT, |m| {
        m.model.shelving.takes = |_, _| true;
        m.model.shelving.put = |shelf, campaign, block| {
            if !takes(shelf, campaign) {
                let oldest = shelf.of(campaign).next().copied();
                oldest.iter().for_each(|entry| shelf.take(entry));
            }
            shelf.put(campaign, block);
        };
    }),
    (TAKEN_FROM_ANOTHER, |m| {
        m.model.shelving.put = |shelf, campaign, block| {
            // The first of the others makes room.
            if shelf.holds(campaign) < RESERVED && shelf.count > SHELF_PLACES / 2 {
                let other = shelf.waiting().iter().find(|entry| entry.campaign != campaign).copied();
                other.iter().for_each(|entry| shelf.take(entry));
            }
            shelf.put(campaign, block);
        };
    }),
];

pub const THREE_RESERVED: &str = "shelf rule: 3 reserved for each";
pub const OTHERS_NOT_COVERED: &str = "shelf rule: what the others lack isn't covered";
pub const ANY_FREE_PLACE: &str = "shelf rule: any free place is taken";
pub const OWN_LACK_TOO: &str = "shelf rule: what the campaign itself lacks is counted too";
pub const NOT_AFTER_TAKING: &str = "shelf rule: the free places before taking are counted";
pub const NOTHING_WAITS: &str = "arrival: nothing comes to wait";
pub const FOR_CAMPAIGN_0: &str = "arrival: all blocks wait for campaign 0";
pub const OLDEST_PUSHED_OUT: &str = "arrival: in the place of 19 the oldest block makes room";
pub const TAKEN_FROM_ANOTHER: &str = "arrival: another's block makes room for one below 2";

/// Whether there is a place for the campaign, if the others lack so much.
fn covers(shelf: &Shelf, campaign: u8, lack: usize) -> bool {
    shelf.holds(campaign) < MOST_HELD && shelf.free() > lack
}

/// What the other campaigns lack, each by another rule.
fn others(campaign: u8, lacks: impl Fn(u8) -> usize) -> usize {
    (0..CAMPAIGNS as u8).filter(|&other| other != campaign).map(lacks).sum()
}

/// The rule with so many places, and so many reserved for each campaign.
fn by_limits(shelf: &Shelf, campaign: u8, places: usize, reserved: usize) -> bool {
    let free = places.saturating_sub(shelf.count);
    let lack = others(campaign, |other| shelf.lacks(other, reserved));
    shelf.holds(campaign) < MOST_HELD && free > lack
}
