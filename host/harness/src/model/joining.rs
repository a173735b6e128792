//! Document 02, "Joining two controllers": what it is refused by, and the table and the records that two come to.

use crate::model::checks::Check;
use crate::model::record::part_of;
use crate::model::sha256::Digest;
use crate::model::sizes::{BUFFER_NUMBERS, PLACES};
use crate::model::table::{places, Row, Table};

/// What joining is given, with the answers of form.
pub struct JoinInput {
    pub left: Table,
    pub right: Table,
    pub left_in_form: bool,
    pub right_in_form: bool,
    /// How many numbers the left's, the right's and the third record buffer have.
    pub numbers: [usize; 3],
}

/// A block of the result, by its places in the two tables: it has one, or both.
#[derive(Clone, Copy)]
pub struct Block {
    pub left: Option<usize>,
    pub right: Option<usize>,
}

/// A place of one side.
#[derive(Clone, Copy)]
pub enum SidePlace {
    Left(usize),
    Right(usize),
}

/// The rules. Each is a value, so that the self-test can change one.
pub struct Joining {
    pub checks: Vec<Check<JoinInput>>,
    /// The blocks of the result, in the order of its places.
    pub blocks: fn(&JoinInput) -> Vec<Block>,
    /// What the result holds for a block, but for its mark. All blocks of the result are given too.
    pub row: fn(&JoinInput, &[Block], Block) -> Row,
    /// Whether a block is interpreted in the result.
    pub interpreted: fn(&JoinInput, Block) -> bool,
    /// The part that is copied for a block; none if the third buffer's stays.
    pub source: fn(&JoinInput, Block) -> Option<SidePlace>,
    /// Writes a part to a place of the third buffer.
    pub write: fn(&mut [u16], usize, &[u16]),
}

/// "in that order after 2 and 12", and 31 "before 23".
pub const CHECKS: [Check<JoinInput>; 6] = [
    Check { number: 2, finds: |input| (!input.left_in_form || !input.right_in_form).then_some(0) },
    Check { number: 12, finds: |input| input.numbers.iter().any(|&numbers| numbers != BUFFER_NUMBERS).then_some(0) },
    Check { number: 31, finds: |input| (input.left.retired == 1 || input.right.retired == 1).then_some(0) },
    Check { number: 23, finds: |input| setups_differ(input).then_some(0) },
    Check { number: 24, finds: |input| clashes(input, others).next() },
    Check { number: 25, finds: |input| (blocks(input).len() > PLACES).then_some(0) },
];

pub fn setups_differ(input: &JoinInput) -> bool {
    (input.left.sites, input.left.owners) != (input.right.sites, input.right.owners)
}

/// A block that both sides hold, by its places.
#[derive(Clone, Copy)]
pub struct SharedBlock {
    pub left: usize,
    pub right: usize,
}

/// The blocks of the left that the right holds too, lowest left place first.
pub fn in_both(input: &JoinInput) -> impl DoubleEndedIterator<Item = SharedBlock> + '_ {
    let both =
        |left: usize| input.right.place_of(&input.left.rows[left].digest).map(|right| SharedBlock { left, right });
    (0..input.left.held().len()).filter_map(both)
}

/// "equal digests with other fields (interpreted aside) or references, with the lowest left place": the left places of
/// blocks that are other by some comparison, lowest first.
pub fn clashes(
    input: &JoinInput,
    others: fn(&JoinInput, SharedBlock) -> bool,
) -> impl DoubleEndedIterator<Item = usize> + '_ {
    in_both(input).filter(move |&both| others(input, both)).map(|both| both.left)
}

/// Whether a block is other at the right than at the left.
pub fn others(input: &JoinInput, both: SharedBlock) -> bool {
    let [left, right] = rows(input, both);
    left.site != right.site
        || left.sequence != right.sequence
        || left.requests != right.requests
        || referred(&input.left, left) != referred(&input.right, right)
}

/// The two rows of a block that both hold.
pub fn rows(input: &JoinInput, both: SharedBlock) -> [&Row; 2] {
    [&input.left.rows[both.left], &input.right.rows[both.right]]
}

/// The digests that a row refers to, in an order that doesn't depend on their places.
pub fn referred(table: &Table, row: &Row) -> Vec<Digest> {
    let mut digests: Vec<Digest> = places(row.references).map(|place| table.rows[place].digest).collect();
    digests.sort_unstable();
    digests
}

/// "the left's places first, then the right's blocks not in the left, in their order"
pub fn blocks(input: &JoinInput) -> Vec<Block> {
    let new = new_places(input).map(|place| Block { left: None, right: Some(place) });
    left_blocks(input).chain(new).collect()
}

pub fn left_blocks(input: &JoinInput) -> impl Iterator<Item = Block> + '_ {
    let rows = input.left.held().iter().enumerate();
    rows.map(|(place, row)| Block { left: Some(place), right: input.right.place_of(&row.digest) })
}

/// The places of the right's blocks that the left lacks.
pub fn new_places(input: &JoinInput) -> impl DoubleEndedIterator<Item = usize> + '_ {
    (0..input.right.held().len()).filter(|&place| input.left.place_of(&input.right.rows[place].digest).is_none())
}

/// A block of the left stays as it is. Of a new one the references are "renumbered".
pub fn row(input: &JoinInput, blocks: &[Block], block: Block) -> Row {
    match block {
        Block { left: Some(place), .. } => input.left.rows[place],
        Block { right: Some(place), .. } => {
            let row = input.right.rows[place];
            Row { references: renumbered(input, blocks, row.references), ..row }
        }
        Block { left: None, right: None } => Row::default(),
    }
}

/// The places of the result at which the right's blocks of a set stand.
pub fn renumbered(input: &JoinInput, blocks: &[Block], set: u64) -> u64 {
    let new_place = |old: usize| {
        let digest = input.right.rows[old].digest;
        blocks.iter().position(|&block| digest_of(input, block) == Some(digest)).filter(|&place| place < PLACES)
    };
    places(set).filter_map(new_place).fold(0, |set, place| set | 1 << place)
}

pub fn digest_of(input: &JoinInput, block: Block) -> Option<Digest> {
    let left = block.left.map(|place| input.left.rows[place].digest);
    left.or(block.right.map(|place| input.right.rows[place].digest))
}

/// The left's place of a block, if the left has interpreted it.
pub fn at_left(input: &JoinInput, block: Block) -> Option<SidePlace> {
    block.left.filter(|&place| input.left.rows[place].mark != 0).map(SidePlace::Left)
}

pub fn at_right(input: &JoinInput, block: Block) -> Option<SidePlace> {
    block.right.filter(|&place| input.right.rows[place].mark != 0).map(SidePlace::Right)
}

/// "whichever side interpreted it, the left's if both did, an empty part of the left's if neither"
pub fn source(input: &JoinInput, block: Block) -> Option<SidePlace> {
    at_left(input, block).or(at_right(input, block))
}

/// "It is copied to a third buffer, whose rest stays"
pub fn write(third: &mut [u16], place: usize, part: &[u16]) {
    // Only a model without check 12 or 25 comes here with a buffer that hasn't got the part.
    if let Some(numbers) = part_of(place).and_then(|numbers| third.get_mut(numbers)) {
        numbers.copy_from_slice(part);
    }
}

impl Joining {
    pub fn document() -> Joining {
        Joining {
            checks: CHECKS.to_vec(),
            blocks,
            row,
            // "A block interpreted in either is interpreted in the result"
            interpreted: |input, block| source(input, block).is_some(),
            source,
            write,
        }
    }

    /// The table that two come to, which pass all checks.
    pub fn table(&self, input: &JoinInput, blocks: &[Block]) -> Table {
        let mut table = Table::empty(input.left.sites, input.left.owners);
        // Only a model without check 25, or with another, comes here with more blocks than there are places.
        for (row, &block) in table.rows.iter_mut().zip(blocks) {
            *row = Row { mark: u8::from((self.interpreted)(input, block)), ..(self.row)(input, blocks, block) };
        }
        table.count = blocks.len();
        table
    }

    /// Copies the parts of two sides' records.
    pub fn copy(&self, input: &JoinInput, blocks: &[Block], left: &[u16], right: &[u16], third: &mut [u16]) {
        for (place, &block) in blocks.iter().enumerate() {
            let part = match (self.source)(input, block) {
                Some(SidePlace::Left(place)) => part_of(place).and_then(|numbers| left.get(numbers)),
                Some(SidePlace::Right(place)) => part_of(place).and_then(|numbers| right.get(numbers)),
                None => None,
            };
            if let Some(part) = part {
                (self.write)(third, place, part);
            }
        }
    }
}
