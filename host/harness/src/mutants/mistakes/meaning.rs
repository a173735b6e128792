//! Mistakes in what a block means: where its state comes from, what it asks for, what it hears and in which order.

use super::Mistake;
use crate::model::interpretation::{hear, order, parent, request, send};
use crate::model::process::{Message, Process, Slot};
use crate::model::record::{Act, Record, MADE, MESSAGES};
use crate::model::sizes::{MAX_SITES, RECORD_NUMBERS};
use crate::model::table::{places, Table};

pub const MISTAKES: &[Mistake] = &[
    // Where the state comes from
    (STATE_OF_HIGHEST, |m| {
        m.model.interpretation.parent = |table, place| {
            let own = own_places(table, place).filter(|&other| other < place);
            parent(table, place).and(own.max_by_key(|&other| table.rows[other].sequence))
        }
    }),
    (STATE_OF_OTHER_BRANCH, |m| {
        m.model.interpretation.parent = |table, place| {
            let last = |other: &usize| table.rows[*other].sequence.checked_add(1) == Some(table.rows[place].sequence);
            own_places(table, place).filter(last).last()
        }
    }),
    ("interpretation: the state is that of the lowest reference", |m| {
        m.model.interpretation.parent = |table, place| {
            let lowest = places(table.rows[place].references).next();
            parent(table, place).and(lowest)
        }
    }),
    ("interpretation: the state is that of any own reference", |m| {
        m.model.interpretation.parent = |table, place| {
            let own = |other: &usize| table.rows[*other].site == table.rows[place].site;
            places(table.rows[place].references).find(own)
        }
    }),
    ("interpretation: the state is that of the place before", |m| {
        m.model.interpretation.parent = |table, place| parent(table, place).and(place.checked_sub(1))
    }),
    ("interpretation: every block starts anew", |m| m.model.interpretation.parent = |_, _| None),
    ("interpretation: made entries aren't cleared", |m| m.model.interpretation.passed_on = RECORD_NUMBERS),
    ("interpretation: the delivery made isn't cleared", |m| {
        m.model.interpretation.hear = |process, record, slot, messages| {
            hear(process, record, slot, messages);
            if record[Act::Deliver.made()] == 0 {
                record[Act::Deliver.made()] = record[Act::Deliver.so_far()];
            }
        }
    }),
    (READYS_NOT_PASSED_ON, |m| m.model.interpretation.passed_on = MADE - MAX_SITES),
    ("interpretation: the last READY heard isn't passed on", |m| m.model.interpretation.passed_on = MADE - 1),
    ("interpretation: only what is sent so far is passed on", |m| m.model.interpretation.passed_on = 4),
    (DELIVERY_NOT_PASSED_ON, |m| m.model.interpretation.passed_on = 3),
    // The block's own request
    (REQUEST_OF_ANYONE, |m| m.model.interpretation.request = |table, place, slot| table.rows[place].requests[slot]),
    ("interpretation: requests of others than the owner are honoured only", |m| {
        m.model.interpretation.request = |table, place, slot| {
            let row = &table.rows[place];
            if row.site == table.owners[slot] {
                0
            } else {
                row.requests[slot]
            }
        }
    }),
    ("interpretation: slot 0's owner owns all slots", |m| {
        m.model.interpretation.request = |table, place, slot| {
            let row = &table.rows[place];
            if row.site == table.owners[0] {
                row.requests[slot]
            } else {
                0
            }
        }
    }),
    (SECOND_SEND, |m| m.model.interpretation.send = send_again),
    ("interpretation: a second SEND, if the number is another", |m| {
        m.model.interpretation.send = |record, number, process| {
            if record[Act::Send.so_far()] != number {
                send_again(record, number, process);
            }
        }
    }),
    (SEND_OF_FIRST_BLOCK, |m| {
        m.model.interpretation.request =
            |table, place, slot| if table.rows[place].sequence == 0 { request(table, place, slot) } else { 0 }
    }),
    ("interpretation: no SEND after a delivery", |m| {
        m.model.interpretation.send = |record, number, process| {
            if record[Act::Deliver.so_far()] == 0 {
                send(record, number, process);
            }
        }
    }),
    ("interpretation: no SEND after an ECHO", |m| {
        m.model.interpretation.send = |record, number, process| {
            if record[Act::Echo.so_far()] == 0 {
                send(record, number, process);
            }
        }
    }),
    ("interpretation: the parent's request is sent", |m| {
        m.model.interpretation.request =
            |table, place, slot| parent(table, place).map_or(0, |parent| request(table, parent, slot))
    }),
    ("interpretation: the delivery is the request", |m| {
        m.model.interpretation.send = |record, number, process| {
            send(record, number, process);
            (process.act)(record, Act::Deliver, number);
        }
    }),
    // What is heard
    ("interpretation: messages of all ancestors are heard", |m| m.model.interpretation.heard = Table::ancestors),
    ("interpretation: messages of all lower places are heard", |m| {
        m.model.interpretation.heard = |_, place| (1 << place) - 1
    }),
    ("interpretation: the parent isn't heard", |m| {
        m.model.interpretation.heard = |table, place| {
            let parent = parent(table, place).map_or(0, |parent| 1 << parent);
            table.rows[place].references & !parent
        }
    }),
    (ONLY_PARENT_HEARD, |m| {
        m.model.interpretation.heard = |table, place| parent(table, place).map_or(0, |parent| 1 << parent)
    }),
    ("interpretation: own blocks but the parent aren't heard", |m| {
        m.model.interpretation.heard = |table, place| {
            let other = |lower: &usize| {
                table.rows[*lower].site != table.rows[place].site || parent(table, place) == Some(*lower)
            };
            set(places(table.rows[place].references).filter(other))
        }
    }),
    (OWN_NOT_HEARD, |m| {
        m.model.interpretation.heard = |table, place| {
            let other = |lower: &usize| table.rows[*lower].site != table.rows[place].site;
            set(places(table.rows[place].references).filter(other))
        }
    }),
    (LAST_REFERENCE_NOT_HEARD, |m| {
        m.model.interpretation.heard = |table, place| {
            let references = table.rows[place].references;
            references & !places(references).last().map_or(0, |last| 1 << last)
        }
    }),
    ("interpretation: place 0 isn't heard", |m| {
        m.model.interpretation.heard = |table, place| table.rows[place].references & !1
    }),
    (PLACES_FROM_32_NOT_HEARD, |m| {
        m.model.interpretation.heard = |table, place| table.rows[place].references & 0xffff_ffff
    }),
    (SIXTEENTH_NOT_HEARD, |m| {
        m.model.interpretation.heard = |table, place| set(places(table.rows[place].references).take(15))
    }),
    (ONE_BLOCK_OF_A_SENDER, |m| {
        m.model.interpretation.heard = |table, place| {
            let references = table.rows[place].references;
            let site = |place: usize| table.rows[place].site;
            let first = |place: &usize| places(references).find(|&other| site(other) == site(*place)) == Some(*place);
            set(places(references).filter(first))
        }
    }),
    ("interpretation: what was sent so far is heard", |m| {
        m.model.interpretation.made = |record, kind| record[kind.so_far()]
    }),
    ("interpretation: deliveries are heard as READYs", |m| {
        m.model.interpretation.made = |record, kind| {
            let delivery = record[Act::Deliver.made()];
            if kind == Act::Ready && delivery != 0 {
                delivery
            } else {
                record[kind.made()]
            }
        }
    }),
    ("interpretation: READYs are heard as ECHOs", |m| {
        m.model.interpretation.order = |messages| {
            let readies = messages.iter_mut().filter(|message| message.kind == Act::Ready);
            readies.for_each(|message| message.kind = Act::Echo);
            order(messages);
        }
    }),
    // The order
    (ARRIVAL_ORDER, |m| m.model.interpretation.order = |_| {}),
    ("interpretation: kinds in order, else arrival order", |m| {
        m.model.interpretation.order = |messages| messages.sort_by_key(|message| message.kind)
    }),
    ("interpretation: READY before ECHO", |m| {
        m.model.interpretation.order = |messages| {
            order(messages);
            messages.sort_by_key(|message| std::cmp::Reverse(message.kind));
        }
    }),
    ("interpretation: higher sender first", |m| {
        m.model.interpretation.order =
            |messages| messages.sort_by_key(|message| (message.kind, std::cmp::Reverse(message.sender), message.number))
    }),
    ("interpretation: higher number first from a sender", |m| {
        m.model.interpretation.order =
            |messages| messages.sort_by_key(|message| (message.kind, message.sender, std::cmp::Reverse(message.number)))
    }),
    ("interpretation: number before sender", |m| {
        m.model.interpretation.order =
            |messages| messages.sort_by_key(|message| (message.kind, message.number, message.sender))
    }),
    ("interpretation: numbers compared as signed ones", |m| {
        m.model.interpretation.order =
            |messages| messages.sort_by_key(|message| (message.kind, message.sender, message.number as i16))
    }),
    ("interpretation: one's own message is heard in the block that makes it", |m| {
        m.model.interpretation.hear = hear_own_too
    }),
    (LAST_MESSAGE_NOT_HEARD, |m| {
        m.model.interpretation.hear =
            |process, record, slot, messages| hear(process, record, slot, &messages[..messages.len().saturating_sub(1)])
    }),
];

pub const STATE_OF_HIGHEST: &str = "interpretation: the state is that of the site's highest block";
pub const STATE_OF_OTHER_BRANCH: &str = "interpretation: the state may be that of a fork's other branch";
pub const REQUEST_OF_ANYONE: &str = "interpretation: requests of others than the owner are honoured too";
pub const ARRIVAL_ORDER: &str = "interpretation: messages are heard in arrival order";
pub const READYS_NOT_PASSED_ON: &str = "interpretation: READYs heard aren't passed on";
pub const DELIVERY_NOT_PASSED_ON: &str = "interpretation: the delivery isn't passed on";
pub const SECOND_SEND: &str = "interpretation: a second SEND";
pub const SEND_OF_FIRST_BLOCK: &str = "interpretation: no SEND after sequence 0";
pub const ONLY_PARENT_HEARD: &str = "interpretation: only the parent is heard";
pub const OWN_NOT_HEARD: &str = "interpretation: own blocks aren't heard";
pub const LAST_REFERENCE_NOT_HEARD: &str = "interpretation: the highest reference isn't heard";
pub const PLACES_FROM_32_NOT_HEARD: &str = "interpretation: places from 32 on aren't heard";
pub const SIXTEENTH_NOT_HEARD: &str = "interpretation: the 16th reference isn't heard";
pub const ONE_BLOCK_OF_A_SENDER: &str = "interpretation: of a forked sender only the first block is heard";
pub const LAST_MESSAGE_NOT_HEARD: &str = "interpretation: the last message isn't heard";

fn set(places: impl Iterator<Item = usize>) -> u64 {
    places.fold(0, |set, place| set | 1 << place)
}

/// All places of the site that built the block at this one, whether referred to or not.
fn own_places(table: &Table, place: usize) -> impl Iterator<Item = usize> + '_ {
    table.own(table.rows[place].site)
}

fn send_again(record: &mut Record, number: u16, _: &Process) {
    record[Act::Send.so_far()] = number;
    record[Act::Send.made()] = number;
}

fn hear_own_too(process: &Process, record: &mut Record, slot: &Slot, messages: &[Message]) {
    hear(process, record, slot, messages);
    for kind in MESSAGES {
        let own = Message { kind, sender: slot.builder, number: record[kind.made()] };
        process.hear(record, slot, &own);
    }
}
