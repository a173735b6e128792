//! Mistakes in one slot's process.

use super::{Mistake, Mutant};
use crate::model::process::{act, note, supporters, Hearing, Message, Reaction, Slot};
use crate::model::record::{Act, Record};
use crate::model::sizes::MAX_SITES;

pub const MISTAKES: &[Mistake] = &[
    // Quorums
    ("process: ECHO quorum 2f", |m| m.reaction(Act::Echo, Act::Ready, |heard| heard.supporters >= 2 * faults(heard))),
    (ECHO_QUORUM_2F_PLUS_2, |m| m.reaction(Act::Echo, Act::Ready, |heard| heard.supporters >= 2 * faults(heard) + 2)),
    (ECHO_QUORUM_F_PLUS_1, |m| m.reaction(Act::Echo, Act::Ready, |heard| heard.supporters >= heard.slot.one_honest())),
    (ECHO_QUORUM_N_MINUS_1, |m| {
        m.reaction(Act::Echo, Act::Ready, |heard| heard.supporters + 1 >= heard.slot.sites.into())
    }),
    ("process: READY amplification at f", |m| {
        m.reaction(Act::Ready, Act::Ready, |heard| heard.supporters >= faults(heard))
    }),
    ("process: READY amplification at f + 2", |m| {
        m.reaction(Act::Ready, Act::Ready, |heard| heard.supporters >= faults(heard) + 2)
    }),
    ("process: READY amplification at 2f + 1", |m| {
        m.reaction(Act::Ready, Act::Ready, |heard| heard.supporters >= heard.slot.quorum())
    }),
    ("process: no READY amplification", |m| m.reaction(Act::Ready, Act::Ready, |_| false)),
    (DELIVERY_AT_F_PLUS_1, |m| {
        m.reaction(Act::Ready, Act::Deliver, |heard| heard.supporters >= heard.slot.one_honest())
    }),
    ("process: delivery at 2f READYs", |m| {
        m.reaction(Act::Ready, Act::Deliver, |heard| heard.supporters >= 2 * faults(heard))
    }),
    (DELIVERY_AT_2F_PLUS_2, |m| {
        m.reaction(Act::Ready, Act::Deliver, |heard| heard.supporters >= 2 * faults(heard) + 2)
    }),
    ("process: a quorum must be reached exactly", |m| {
        m.reaction(Act::Ready, Act::Deliver, |heard| heard.supporters == heard.slot.quorum())
    }),
    ("process: delivery at the first READY of the owner", |m| {
        m.reaction(Act::Ready, Act::Deliver, |heard| heard.message.sender == heard.slot.owner)
    }),
    // What brings about what
    (SEND_FROM_ANYONE, |m| m.reaction(Act::Send, Act::Echo, |_| true)),
    ("process: SEND accepted from the block's own site only", |m| {
        m.reaction(Act::Send, Act::Echo, |heard| heard.message.sender == heard.slot.builder)
    }),
    (DELIVERING_AT_SEND, |m| m.react(Act::Send, |heard| heard.message.sender == heard.slot.owner, Act::Deliver)),
    ("process: READY at a SEND", |m| m.react(Act::Send, |heard| heard.message.sender == heard.slot.owner, Act::Ready)),
    ("process: delivering at a quorum of ECHOs", |m| {
        m.react(Act::Echo, |heard| heard.supporters >= heard.slot.quorum(), Act::Deliver)
    }),
    ("process: ECHO at f + 1 ECHOs", |m| {
        m.react(Act::Echo, |heard| heard.supporters >= heard.slot.one_honest(), Act::Echo)
    }),
    ("process: no READY without an own ECHO", |m| {
        m.process().act = |record, what, number| {
            if what != Act::Ready || record[Act::Echo.so_far()] != 0 {
                act(record, what, number);
            }
        }
    }),
    ("process: no READY after a delivery", |m| {
        m.process().act = |record, what, number| {
            if what != Act::Ready || record[Act::Deliver.so_far()] == 0 {
                act(record, what, number);
            }
        }
    }),
    (NO_DELIVERY_WITH_READY, |m| {
        m.process().act = |record, what, number| {
            if what != Act::Deliver || record[Act::Ready.made()] != number {
                act(record, what, number);
            }
        }
    }),
    // Noting and counting
    ("process: messages are counted in place of distinct senders", |m| m.process().note = note_in_next_entry),
    ("process: a message heard again is counted again", |m| {
        m.process().note = |record, slot, message| {
            note(record, slot, message);
            true
        }
    }),
    ("process: the last number from a sender counts", |m| {
        m.process().note = |record, _, message| {
            if let Some(heard) = message.kind.heard() {
                record[heard][usize::from(message.sender)] = message.number;
            }
            true
        }
    }),
    (ECHOS_NOT_NOTED, |m| m.process().note = |record, slot, message| unless_echo(record, slot, message)),
    ("process: sites from n on are counted", |m| {
        m.process().supporters =
            |record, slot, message| supporters(record, &Slot { sites: MAX_SITES as u8, ..*slot }, message)
    }),
    (LAST_SITE_NOT_COUNTED, |m| {
        m.process().supporters =
            |record, slot, message| supporters(record, &Slot { sites: slot.sites - 1, ..*slot }, message)
    }),
    ("process: site 0 isn't counted", |m| {
        m.process().supporters = |record, slot, message| supporters(record, slot, message) & !1
    }),
    ("process: only eight sites are counted", |m| {
        m.process().supporters = |record, slot, message| supporters(record, slot, message) & 0xff
    }),
    (SENDER_NOT_COUNTED, |m| {
        m.process().supporters = |record, slot, message| supporters(record, slot, message) & !(1 << message.sender)
    }),
    ("process: ECHOs and READYs are counted together", |m| {
        m.process().supporters = |record, slot, message| {
            let of = |kind| supporters(record, slot, &Message { kind, ..*message });
            of(Act::Echo) | of(Act::Ready)
        }
    }),
    ("process: sites are counted whatever their number", |m| {
        m.process().supporters = |record, slot, message| {
            let heard = message.kind.heard().map_or(&[][..], |heard| &record[heard]);
            mask(heard, slot, |number| number != 0)
        }
    }),
    ("process: numbers are compared by their low byte", |m| {
        m.process().supporters = |record, slot, message| {
            let heard = message.kind.heard().map_or(&[][..], |heard| &record[heard]);
            let low = message.number % 256;
            mask(heard, slot, |number| number != 0 && number % 256 == low)
        }
    }),
    // Entries
    ("process: what is done once is done again", |m| {
        m.process().act = |record, act, number| {
            record[act.so_far()] = number;
            record[act.made()] = number;
        }
    }),
    ("process: delivered again, though the number stays", |m| {
        m.process().act = |record, what, number| {
            act(record, what, number);
            if what == Act::Deliver {
                record[what.made()] = record[what.so_far()];
            }
        }
    }),
    ("process: what is done is noted as made only", |m| {
        m.process().act = |record, act, number| {
            if record[act.so_far()] == 0 {
                record[act.made()] = number;
            }
        }
    }),
    ("process: what is done isn't noted as made", |m| {
        m.process().act = |record, act, number| {
            if record[act.so_far()] == 0 {
                record[act.so_far()] = number;
            }
        }
    }),
    (DELIVERY_NOT_MADE, |m| {
        m.process().act = |record, what, number| {
            act(record, what, number);
            record[Act::Deliver.made()] = 0;
        }
    }),
    ("process: a second number takes a READY back", |m| {
        m.process().act = |record, what, number| {
            if what == Act::Ready && ![0, number].contains(&record[what.so_far()]) {
                record[what.made()] = 0;
            }
            act(record, what, number);
        }
    }),
];

pub const SEND_FROM_ANYONE: &str = "process: SEND accepted from anyone";
pub const DELIVERING_AT_SEND: &str = "process: delivering when the request is seen";
pub const ECHO_QUORUM_F_PLUS_1: &str = "process: ECHO quorum f + 1";
pub const DELIVERY_AT_F_PLUS_1: &str = "process: delivery at f + 1 READYs";
pub const ECHO_QUORUM_2F_PLUS_2: &str = "process: ECHO quorum 2f + 2";
pub const ECHO_QUORUM_N_MINUS_1: &str = "process: ECHO quorum n - 1";
pub const DELIVERY_AT_2F_PLUS_2: &str = "process: delivery at 2f + 2 READYs";
pub const NO_DELIVERY_WITH_READY: &str = "process: a READY that brings about a READY delivers nothing";
pub const ECHOS_NOT_NOTED: &str = "process: ECHOs aren't noted";
pub const LAST_SITE_NOT_COUNTED: &str = "process: the last site isn't counted";
pub const SENDER_NOT_COUNTED: &str = "process: a sender's own support isn't counted";
pub const DELIVERY_NOT_MADE: &str = "process: a delivery isn't noted as made";

impl Mutant {
    /// Exchanges the condition of a reaction.
    fn reaction(&mut self, to: Act, act: Act, when: fn(&Hearing) -> bool) {
        let reactions = &mut self.process().reactions;
        let reaction = reactions.iter_mut().find(|reaction| reaction.to == to && reaction.act == act);
        reaction.expect("a reaction to that message").when = when;
    }

    /// Adds a reaction.
    fn react(&mut self, to: Act, when: fn(&Hearing) -> bool, act: Act) {
        self.process().reactions.push(Reaction { to, when, act });
    }
}

fn faults(heard: &Hearing) -> u32 {
    heard.slot.faults()
}

/// Each message takes the next entry that is free, whoever sent it.
fn note_in_next_entry(record: &mut Record, slot: &Slot, message: &Message) -> bool {
    let Some(heard) = message.kind.heard() else { return true };
    let free = record[heard].iter_mut().take(slot.sites.into()).find(|number| **number == 0);
    if let Some(free) = free {
        *free = message.number;
    }
    true
}

fn unless_echo(record: &mut Record, slot: &Slot, message: &Message) -> bool {
    let before = *record;
    let noted = note(record, slot, message);
    if message.kind == Act::Echo {
        *record = before;
    }
    noted
}

/// The mask of the sites below n whose entry counts.
fn mask(heard: &[u16], slot: &Slot, counts: impl Fn(u16) -> bool) -> u16 {
    let below_n = heard.iter().take(slot.sites.into()).enumerate();
    below_n.fold(0, |mask, (site, &number)| mask | u16::from(counts(number)) << site)
}
