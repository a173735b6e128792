//! Mistakes in what a join says of blocks that both sides hold.

use super::{Mistake, Mutant};
use crate::model::joining::{clashes, in_both, others, referred, rows, JoinInput, SharedBlock};
use crate::model::sha256::Digest;
use crate::model::sizes::SLOTS;
use crate::model::table::Row;

impl Mutant {
    /// Another comparison of the blocks that both hold.
    fn clash(&mut self, finds: fn(&JoinInput) -> Option<usize>) {
        self.joining(24, finds);
    }
}

pub const MISTAKES: &[Mistake] = &[
    // What is compared
    ("join: sites aren't compared", |m| {
        m.clash(|input| clashes(input, |input, both| without(input, both, |row| row.site = 0)).next())
    }),
    ("join: sequence numbers aren't compared", |m| {
        m.clash(|input| clashes(input, |input, both| without(input, both, |row| row.sequence = 0)).next())
    }),
    ("join: requests aren't compared", |m| {
        m.clash(|input| clashes(input, |input, both| without(input, both, |row| row.requests = [0; SLOTS])).next())
    }),
    ("join: slot 0's requests aren't compared", |m| {
        m.clash(|input| clashes(input, |input, both| without(input, both, |row| row.requests[0] = 0)).next())
    }),
    ("join: slot 7's requests aren't compared", |m| {
        m.clash(|input| clashes(input, |input, both| without(input, both, |row| row.requests[SLOTS - 1] = 0)).next())
    }),
    ("join: the requests' low bytes are compared", |m| {
        m.clash(|input| {
            let low = |input: &JoinInput, both| {
                without(input, both, |row| row.requests = row.requests.map(|number| number & 255))
            };
            clashes(input, low).next()
        })
    }),
    ("join: the requests' high bytes are compared", |m| {
        m.clash(|input| {
            let high = |input: &JoinInput, both| {
                without(input, both, |row| row.requests = row.requests.map(|number| number >> 8))
            };
            clashes(input, high).next()
        })
    }),
    ("join: a request that one side lacks isn't compared", |m| {
        m.clash(|input| {
            clashes(input, |input, both| {
                let [left, right] = rows(input, both).map(|row| row.requests);
                let other = (0..SLOTS).any(|slot| left[slot] != 0 && right[slot] != 0 && left[slot] != right[slot]);
                other || without(input, both, |row| row.requests = [0; SLOTS])
            })
            .next()
        })
    }),
    ("join: references aren't compared", |m| m.clash(|input| clashes(input, fields_differ).next())),
    ("join: the left may have more references", |m| {
        m.clash(|input| {
            let lacks = |left: &[Digest], right: &[Digest]| right.iter().any(|digest| !left.contains(digest));
            references_compared(input, lacks)
        })
    }),
    ("join: the right may have more references", |m| {
        m.clash(|input| {
            let lacks = |left: &[Digest], right: &[Digest]| left.iter().any(|digest| !right.contains(digest));
            references_compared(input, lacks)
        })
    }),
    ("join: how many references there are is compared", |m| {
        m.clash(|input| references_compared(input, |left, right| left.len() != right.len()))
    }),
    ("join: the lowest reference alone is compared", |m| {
        m.clash(|input| references_compared(input, |left, right| left.first() != right.first()))
    }),
    ("join: references are compared by place", |m| {
        m.clash(|input| {
            let by_place = |input: &JoinInput, both| {
                let [left, right] = rows(input, both);
                fields_differ(input, both) || left.references != right.references
            };
            clashes(input, by_place).next()
        })
    }),
    ("join: marks are compared", |m| {
        m.clash(|input| {
            let marks = |input: &JoinInput, both| {
                let [left, right] = rows(input, both);
                others(input, both) || left.mark != right.mark
            };
            clashes(input, marks).next()
        })
    }),
    ("join: places are compared", |m| {
        m.clash(|input| clashes(input, |input, both| others(input, both) || both.left != both.right).next())
    }),
    // Which blocks are compared
    ("join: interpreted blocks aren't compared", |m| {
        m.clash(|input| {
            clashes(input, |input, both| others(input, both) && input.left.rows[both.left].mark == 0).next()
        })
    }),
    ("join: blocks that aren't interpreted aren't compared", |m| {
        m.clash(|input| {
            clashes(input, |input, both| others(input, both) && input.left.rows[both.left].mark == 1).next()
        })
    }),
    ("join: the left's place 0 isn't compared", |m| {
        m.clash(|input| clashes(input, |input, both| others(input, both) && both.left > 0).next())
    }),
    ("join: the left's last place isn't compared", |m| {
        m.clash(|input| clashes(input, |input, both| others(input, both) && both.left + 1 < input.left.count).next())
    }),
    ("join: the right's place 0 isn't compared", |m| {
        m.clash(|input| clashes(input, |input, both| others(input, both) && both.right > 0).next())
    }),
    ("join: the right's last place isn't compared", |m| {
        m.clash(|input| clashes(input, |input, both| others(input, both) && both.right + 1 < input.right.count).next())
    }),
    ("join: blocks at equal places alone are compared", |m| {
        m.clash(|input| clashes(input, |input, both| others(input, both) && both.left == both.right).next())
    }),
    ("join: any block held twice is refused", |m| m.clash(|input| clashes(input, |_, _| true).next())),
    ("join: blocks of one site and sequence number clash", |m| {
        m.clash(|input| {
            let twin = |left: &Row| {
                let same = |right: &&Row| (right.site, right.sequence) == (left.site, left.sequence);
                input.right.held().iter().filter(same).any(|right| right.digest != left.digest)
            };
            let clash = clashes(input, others).next();
            clash.or(input.left.held().iter().position(twin))
        })
    }),
    // Which place is named
    ("join: 24 with the highest place", |m| m.clash(|input| clashes(input, others).next_back())),
    ("join: 24 with the right's place", |m| {
        m.clash(|input| in_both(input).find(|&both| others(input, both)).map(|both| both.right))
    }),
    ("join: 24 with the lowest right place", |m| {
        m.clash(|input| in_both(input).filter(|&both| others(input, both)).map(|both| both.right).min())
    }),
    ("join: 24 with the left place of the lowest right place", |m| {
        m.clash(|input| {
            let clashing = in_both(input).filter(|&both| others(input, both));
            clashing.min_by_key(|both| both.right).map(|both| both.left)
        })
    }),
    ("join: 24 with a reference's clash after a field's", |m| {
        m.clash(|input| clashes(input, fields_differ).next().or(clashes(input, others).next()))
    }),
    ("join: 24 without a value", |m| m.clash(|input| clashes(input, others).next().map(|_| 0))),
];

/// Whether a block is other at the two sides, references aside.
fn fields_differ(input: &JoinInput, both: SharedBlock) -> bool {
    let [left, right] = rows(input, both);
    (left.site, left.sequence, left.requests) != (right.site, right.sequence, right.requests)
}

/// Whether a block is other at the two sides once something is put out of sight at both.
fn without(input: &JoinInput, both: SharedBlock, hide: fn(&mut Row)) -> bool {
    let [left, right] = rows(input, both).map(|row| {
        let mut row = *row;
        hide(&mut row);
        (row.site, row.sequence, row.requests)
    });
    let [left_row, right_row] = rows(input, both);
    left != right || referred(&input.left, left_row) != referred(&input.right, right_row)
}

/// Check 24 with another comparison of the digests that a block refers to at the left and at the right.
fn references_compared(input: &JoinInput, other: fn(&[Digest], &[Digest]) -> bool) -> Option<usize> {
    let differs = |both: &SharedBlock| {
        let [left, right] = rows(input, *both);
        fields_differ(input, *both) || other(&referred(&input.left, left), &referred(&input.right, right))
    };
    in_both(input).find(differs).map(|both| both.left)
}
