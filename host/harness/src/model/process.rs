//! Document 01, "One slot's process": it takes one message at a time and is changed by it.

use crate::model::record::{Act, Record};
use crate::model::setup::faults;

/// A message. The order of its fields is the order in which messages are heard: kind, then lower sender, then lower
/// number.
#[derive(Clone, Copy, Debug, PartialEq, Eq, PartialOrd, Ord)]
pub struct Message {
    pub kind: Act,
    pub sender: u8,
    pub number: u16,
}

/// Whose process it is.
#[derive(Clone, Copy)]
pub struct Slot {
    pub sites: u8,
    pub owner: u8,
    /// The site that built the block. No rule of the document asks for it; mistakes do.
    pub builder: u8,
}

impl Slot {
    pub fn faults(&self) -> u32 {
        faults(self.sites)
    }

    /// 2f + 1
    pub fn quorum(&self) -> u32 {
        2 * self.faults() + 1
    }

    /// f + 1: at least one of so many sites didn't fork, if at most f did.
    pub fn one_honest(&self) -> u32 {
        self.faults() + 1
    }
}

/// What a reaction may depend on, besides what is sent already.
pub struct Hearing {
    pub slot: Slot,
    pub message: Message,
    /// How many sites support the message's number now.
    pub supporters: u32,
}

/// What a message of one kind brings about, unless the act is done already.
#[derive(Clone, Copy)]
pub struct Reaction {
    pub to: Act,
    pub when: fn(&Hearing) -> bool,
    pub act: Act,
}

/// The rules. Each is a value, so that the self-test can change one.
pub struct Process {
    /// Notes a message; whether it is one that reactions come to.
    pub note: fn(&mut Record, &Slot, &Message) -> bool,
    /// The mask of the sites that support a message's number.
    pub supporters: fn(&Record, &Slot, &Message) -> u16,
    pub reactions: Vec<Reaction>,
    pub act: fn(&mut Record, Act, u16),
}

pub const REACTIONS: [Reaction; 4] = [
    // "SEND v from the owner, ECHO not sent: send ECHO v. From others: nothing."
    Reaction { to: Act::Send, when: |heard| heard.message.sender == heard.slot.owner, act: Act::Echo },
    // "If v now has at least 2f + 1 supporters and READY isn't sent, send READY v."
    Reaction { to: Act::Echo, when: |heard| heard.supporters >= heard.slot.quorum(), act: Act::Ready },
    // "If v has at least f + 1 supporters and READY isn't sent, send READY v."
    Reaction { to: Act::Ready, when: |heard| heard.supporters >= heard.slot.one_honest(), act: Act::Ready },
    // "If v has at least 2f + 1 and nothing is delivered, deliver v."
    Reaction { to: Act::Ready, when: |heard| heard.supporters >= heard.slot.quorum(), act: Act::Deliver },
];

impl Process {
    pub fn document() -> Process {
        Process { note, supporters, reactions: REACTIONS.to_vec(), act }
    }

    /// Takes one message.
    pub fn hear(&self, record: &mut Record, slot: &Slot, message: &Message) {
        // "A message of number 0 or from a sender not below n changes nothing."
        if message.number == 0 || message.sender >= slot.sites || !(self.note)(record, slot, message) {
            return;
        }
        let supporters = (self.supporters)(record, slot, message).count_ones();
        let hearing = Hearing { slot: *slot, message: *message, supporters };
        for reaction in &self.reactions {
            if reaction.to == message.kind && (reaction.when)(&hearing) {
                (self.act)(record, reaction.act, message.number);
            }
        }
    }
}

/// "none heard from p: note v"; what comes after it in the document belongs to the noting.
pub fn note(record: &mut Record, _: &Slot, message: &Message) -> bool {
    let Some(heard) = message.kind.heard() else { return true };
    // Only a model without check 2 comes here with a sender that has no entry.
    let Some(entry) = record[heard].get_mut(usize::from(message.sender)) else { return false };
    let first = *entry == 0;
    if first {
        *entry = message.number;
    }
    first
}

/// "for ECHO and READY each by itself ... a mask of the sites below n whose heard entry is v"
pub fn supporters(record: &Record, slot: &Slot, message: &Message) -> u16 {
    let Some(heard) = message.kind.heard() else { return 0 };
    let below_n = record[heard].iter().take(slot.sites.into());
    below_n.enumerate().fold(0, |mask, (site, &number)| mask | u16::from(number == message.number) << site)
}

/// "Sending or delivering v puts v in its entry of 0 to 3 and in its entry of 36 to 39", once: "an entry 0 means not
/// sent, heard or delivered".
pub fn act(record: &mut Record, act: Act, number: u16) {
    if record[act.so_far()] == 0 {
        record[act.so_far()] = number;
        record[act.made()] = number;
    }
}
