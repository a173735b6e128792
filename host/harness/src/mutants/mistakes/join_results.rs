//! Mistakes in the table and the records that a join leaves, and in the value of a success.

use super::{value_beside, JoinBuffers, Mistake};
use crate::model::answer::Answer;
use crate::model::joining::{
    at_left, at_right, blocks, digest_of, left_blocks, new_places, row, source, write, Block, JoinInput, SidePlace,
};
use crate::model::record::part_of;
use crate::model::sizes::{DIGEST_BYTES, PART_NUMBERS, PLACES, RECORD_NUMBERS, SLOTS};
use crate::model::table::{places, Row, Table, COUNT};

pub const MISTAKES: &[Mistake] = &[
    // Which blocks, in which order
    (RIGHT_FIRST, |m| {
        m.model.joining.blocks = |input| {
            let left = left_blocks(input).filter(|block| block.right.is_none());
            let right = (0..input.right.held().len()).map(|place| {
                let left = input.left.place_of(&input.right.rows[place].digest);
                Block { left, right: Some(place) }
            });
            right.chain(left).collect()
        }
    }),
    (NEW_FIRST, |m| {
        m.model.joining.blocks = |input| {
            let mut all = blocks(input);
            all.rotate_left(input.left.held().len());
            all
        }
    }),
    (NEW_REVERSED, |m| {
        m.model.joining.blocks = |input| {
            let new = new_places(input).rev().map(|place| Block { left: None, right: Some(place) });
            left_blocks(input).chain(new).collect()
        }
    }),
    ("join: new blocks by digest", |m| {
        m.model.joining.blocks =
            |input| new_sorted(input, |input, block| digest_of(input, block).map_or(0, |digest| digest[0].into()))
    }),
    ("join: new blocks by site", |m| {
        m.model.joining.blocks = |input| new_sorted(input, |input, block| right_row(input, block).site.into())
    }),
    ("join: new blocks by sequence number", |m| {
        m.model.joining.blocks = |input| new_sorted(input, |input, block| right_row(input, block).sequence)
    }),
    ("join: interpreted blocks first", |m| {
        m.model.joining.blocks = |input| new_sorted(input, |input, block| u16::from(right_row(input, block).mark == 0))
    }),
    (HELD_TWICE, |m| {
        m.model.joining.blocks = |input| {
            let right = (0..input.right.held().len()).map(|place| Block { left: None, right: Some(place) });
            left_blocks(input).chain(right).collect()
        }
    }),
    (LEFT_ALONE, |m| m.model.joining.blocks = |input| left_blocks(input).collect()),
    ("join: the right's last block is left out", |m| {
        m.model.joining.blocks = |input| {
            let mut all = blocks(input);
            all.retain(|block| block.left.is_some() || block.right.is_some_and(|place| place + 1 < input.right.count));
            all
        }
    }),
    ("join: interpreted blocks of the right alone come", |m| {
        m.model.joining.blocks = |input| {
            let mut all = blocks(input);
            all.retain(|&block| block.left.is_some() || at_right(input, block).is_some());
            all
        }
    }),
    (LAST_BYTE_LEFT_OUT, |m| {
        m.model.joining.blocks = |input| {
            let part = |row: &Row| row.digest[..DIGEST_BYTES - 1].to_vec();
            let mut all = blocks(input);
            all.retain(|block| {
                let held = |new: &Row| input.left.held().iter().any(|old| part(old) == part(new));
                block.left.is_some() || block.right.is_some_and(|place| !held(&input.right.rows[place]))
            });
            all
        }
    }),
    ("join: digests are compared by their first byte", |m| {
        m.model.joining.blocks = |input| {
            let held = |new: &Row| input.left.held().iter().any(|old| old.digest[0] == new.digest[0]);
            let mut all = blocks(input);
            all.retain(|block| {
                block.left.is_some() || block.right.is_some_and(|place| !held(&input.right.rows[place]))
            });
            all
        }
    }),
    // What the table holds for them
    (NOT_RENUMBERED, |m| m.model.joining.row = |input, _, block| first_row(input, block)),
    ("join: references are moved by the left's count", |m| {
        m.model.joining.row = |input, _, block| {
            let row = first_row(input, block);
            let moved = row.references.checked_shl(input.left.count as u32).unwrap_or(0);
            Row { references: if block.left.is_some() { row.references } else { moved }, ..row }
        }
    }),
    ("join: references to the left's blocks are lost", |m| {
        m.model.joining.row = |input, blocks, block| {
            new_row(input, blocks, block, |input, row| row.references &= !first_places(input.left.count))
        }
    }),
    (NEW_REFERENCES_LOST, |m| {
        m.model.joining.row = |input, blocks, block| {
            new_row(input, blocks, block, |input, row| row.references &= first_places(input.left.count))
        }
    }),
    ("join: the highest reference is lost", |m| {
        m.model.joining.row = |input, blocks, block| {
            new_row(input, blocks, block, |_, row| {
                if let Some(last) = places(row.references).last() {
                    row.references &= !(1 << last);
                }
            })
        }
    }),
    ("join: the result's set has 32 places", |m| {
        m.model.joining.row =
            |input, blocks, block| new_row(input, blocks, block, |_, row| row.references &= 0xffff_ffff)
    }),
    (REQUESTS_LOST, |m| {
        m.model.joining.row = |input, blocks, block| new_row(input, blocks, block, |_, row| row.requests = [0; SLOTS])
    }),
    ("join: the site of a new block is lost", |m| {
        m.model.joining.row = |input, blocks, block| new_row(input, blocks, block, |_, row| row.site = 0)
    }),
    ("join: the sequence number of a new block is lost", |m| {
        m.model.joining.row = |input, blocks, block| new_row(input, blocks, block, |_, row| row.sequence = 0)
    }),
    ("join: the left's rows are the right's", |m| {
        m.model.joining.row = |input, blocks, block| match block.right {
            Some(place) => input.right.rows[place],
            None => row(input, blocks, block),
        }
    }),
    // Marks
    (MARKS_OF_LEFT, |m| {
        m.model.joining.interpreted = |input, block| match block.left {
            Some(_) => at_left(input, block).is_some(),
            None => at_right(input, block).is_some(),
        }
    }),
    (MARKS_OF_RIGHT, |m| {
        m.model.joining.interpreted = |input, block| match block.right {
            Some(_) => at_right(input, block).is_some(),
            None => at_left(input, block).is_some(),
        }
    }),
    (MARKS_OF_BOTH, |m| {
        m.model.joining.interpreted = |input, block| match block {
            Block { left: Some(_), right: Some(_) } => {
                at_left(input, block).is_some() && at_right(input, block).is_some()
            }
            _ => source(input, block).is_some(),
        }
    }),
    (NEW_NOT_MARKED, |m| m.model.joining.interpreted = |input, block| at_left(input, block).is_some()),
    ("join: new blocks are marked", |m| {
        m.model.joining.interpreted = |input, block| block.left.is_none() || source(input, block).is_some()
    }),
    ("join: all blocks are marked", |m| m.model.joining.interpreted = |_, _| true),
    ("join: no block is marked", |m| m.model.joining.interpreted = |_, _| false),
    // Records
    (RIGHTS_PART, |m| m.model.joining.source = |input, block| at_right(input, block).or(at_left(input, block))),
    (PART_OF_LEFT_ALONE, |m| m.model.joining.source = at_left),
    ("join: the right's parts of blocks that the left holds aren't copied", |m| {
        m.model.joining.source = |input, block| match block.left {
            Some(_) => at_left(input, block),
            None => at_right(input, block),
        }
    }),
    ("join: the left's parts aren't copied", |m| m.model.joining.source = at_right),
    ("join: the left's parts are copied where the right has the block too", |m| {
        m.model.joining.source =
            |input, block| source(input, block).filter(|_| block.left.is_none() || block.right.is_some())
    }),
    (EMPTY_PART, |m| {
        m.model.joining.source = |input, block| match block.left {
            Some(place) => source(input, block).map(|_| SidePlace::Left(place)),
            None => at_right(input, block),
        }
    }),
    ("join: the left's part of a block that isn't interpreted is copied", |m| {
        m.model.joining.source = |input, block| source(input, block).or(block.left.map(SidePlace::Left))
    }),
    ("join: the right's part of a block that isn't interpreted is copied", |m| {
        m.model.joining.source = |input, block| source(input, block).or(block.right.map(SidePlace::Right))
    }),
    ("join: the right's part is looked for in the left's records", |m| {
        m.model.joining.source = |input, block| match source(input, block) {
            Some(SidePlace::Right(place)) => Some(SidePlace::Left(place)),
            other => other,
        }
    }),
    (OLD_PLACE_READ, |m| {
        m.model.joining.source = |input, block| match source(input, block) {
            Some(SidePlace::Right(place)) => Some(SidePlace::Right((place + input.left.count) % PLACES)),
            other => other,
        }
    }),
    ("join: a part's last number isn't copied", |m| {
        m.model.joining.write = |third, place, part| copied(third, place, part, 0, PART_NUMBERS - 1)
    }),
    ("join: a part's first number isn't copied", |m| {
        m.model.joining.write = |third, place, part| copied(third, place, part, 1, PART_NUMBERS)
    }),
    ("join: slot 0 alone is copied", |m| {
        m.model.joining.write = |third, place, part| copied(third, place, part, 0, RECORD_NUMBERS)
    }),
    ("join: place 63's part isn't copied", |m| {
        m.model.joining.write = |third, place, part| {
            if place + 1 < PLACES {
                write(third, place, part);
            }
        }
    }),
    ("join: place 0's part isn't copied", |m| {
        m.model.joining.write = |third, place, part| {
            if place > 0 {
                write(third, place, part);
            }
        }
    }),
    ("join: parts are written one place too high", |m| {
        m.model.joining.write = |third, place, part| write(third, place + 1, part)
    }),
    ("join: the parts of places that aren't interpreted are cleared", |m| {
        m.after_join(|answer, mut buffers| {
            if answer.refusal == 0 {
                clear(&mut buffers, |after, place| place < after.count && after.rows[place].mark == 0);
            }
            answer
        })
    }),
    ("join: the buffer is cleared from the count on", |m| {
        m.after_join(|answer, mut buffers| {
            if answer.refusal == 0 {
                clear(&mut buffers, |after, place| place >= after.count);
            }
            answer
        })
    }),
    ("join: place 63's part is cleared where it isn't copied", |m| {
        m.after_join(|answer, mut buffers| {
            if answer.refusal == 0 {
                clear(&mut buffers, |after, place| place + 1 == PLACES && after.rows[place].mark == 0);
            }
            answer
        })
    }),
    ("join: the left's records are copied from the count on", |m| {
        m.after_join(|answer, buffers| {
            if answer.refusal == 0 {
                let from = PART_NUMBERS * usize::from(buffers.left[COUNT]);
                buffers.third[from..].copy_from_slice(&buffers.left_records[from..]);
            }
            answer
        })
    }),
    // The value of a success
    ("join: a success answers 0", |m| m.after_join(|answer, _| value_beside(0, answer, 0))),
    ("join: a success answers the last place", |m| {
        m.after_join(|answer, _| value_beside(0, answer, answer.value.saturating_sub(1)))
    }),
    ("join: a success answers the right's count", |m| {
        m.after_join(|answer, buffers| value_beside(0, answer, buffers.right.get(COUNT).copied().unwrap_or(0).into()))
    }),
    ("join: a success answers how many are interpreted", |m| {
        m.after_join(|answer, buffers| {
            let after = Table::from_bytes(buffers.left);
            value_beside(0, answer, after.held().iter().filter(|row| row.mark == 1).count())
        })
    }),
    // What a success leaves besides
    ("join: a full table's last row isn't written", |m| {
        m.after_join(|answer, buffers| {
            if answer == Answer::success(PLACES) {
                let mut after = Table::from_bytes(buffers.left);
                after.rows[PLACES - 1] = Row::default();
                after.write(buffers.left);
            }
            answer
        })
    }),
    ("join: the count isn't raised", |m| {
        m.after_join(|answer, buffers| {
            let mut after = Table::from_bytes(buffers.left);
            if answer.refusal == 0 && after.count > 0 {
                after.count -= 1;
                after.write(buffers.left);
            }
            answer
        })
    }),
];

pub const RIGHT_FIRST: &str = "join: the right's places first";
pub const NEW_FIRST: &str = "join: new blocks before the left's";
pub const NEW_REVERSED: &str = "join: new blocks in reverse";
pub const HELD_TWICE: &str = "join: blocks of both sides are held twice";
pub const LEFT_ALONE: &str = "join: no block of the right comes";
pub const LAST_BYTE_LEFT_OUT: &str = "join: the digest's last byte isn't compared";
pub const NOT_RENUMBERED: &str = "join: references aren't renumbered";
pub const NEW_REFERENCES_LOST: &str = "join: references to new blocks are lost";
pub const REQUESTS_LOST: &str = "join: the requests of a new block are lost";
pub const MARKS_OF_LEFT: &str = "join: the left's marks alone, where both hold a block";
pub const MARKS_OF_RIGHT: &str = "join: the right's marks alone, where both hold a block";
pub const MARKS_OF_BOTH: &str = "join: only where both have interpreted a block that both hold";
pub const NEW_NOT_MARKED: &str = "join: new blocks aren't marked";
pub const RIGHTS_PART: &str = "join: the right's part where both have one";
pub const PART_OF_LEFT_ALONE: &str = "join: the right's parts aren't copied";
pub const EMPTY_PART: &str = "join: the left's part wherever the left holds the block";
pub const OLD_PLACE_READ: &str = "join: the right's part is looked for at the new place";

/// The row of a block as its side has it.
fn first_row(input: &JoinInput, block: Block) -> Row {
    block.left.map_or_else(|| right_row(input, block), |place| input.left.rows[place])
}

fn right_row(input: &JoinInput, block: Block) -> Row {
    block.right.map_or(Row::default(), |place| input.right.rows[place])
}

/// The row of a block, with a change if it is new.
fn new_row(input: &JoinInput, blocks: &[Block], block: Block, change: fn(&JoinInput, &mut Row)) -> Row {
    let mut row = row(input, blocks, block);
    if block.left.is_none() {
        change(input, &mut row);
    }
    row
}

/// The blocks of the result, with the new ones by something else before their places.
fn new_sorted(input: &JoinInput, by: fn(&JoinInput, Block) -> u16) -> Vec<Block> {
    let mut new: Vec<Block> = new_places(input).map(|place| Block { left: None, right: Some(place) }).collect();
    new.sort_by_key(|&block| by(input, block));
    left_blocks(input).chain(new).collect()
}

/// The set of so many places.
fn first_places(count: usize) -> u64 {
    (0..count).fold(0, |set, place| set | 1 << place)
}

/// Copies some numbers of a part.
fn copied(third: &mut [u16], place: usize, part: &[u16], from: usize, to: usize) {
    if let Some(numbers) = part_of(place).and_then(|numbers| third.get_mut(numbers)) {
        numbers[from..to].copy_from_slice(&part[from..to]);
    }
}

/// Clears the parts of some places.
fn clear(buffers: &mut JoinBuffers, which: fn(&Table, usize) -> bool) {
    let after = Table::from_bytes(buffers.left);
    for (place, part) in buffers.third.chunks_exact_mut(PART_NUMBERS).enumerate() {
        if which(&after, place) {
            part.fill(0);
        }
    }
}
