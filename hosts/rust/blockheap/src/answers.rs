use crate::{Address, Block, Heap};

/// Where an object was placed.
#[derive(Clone, Copy, Debug, PartialEq, Eq)]
#[non_exhaustive]
pub struct Placed {
    /// Its head.
    pub block: Block,
    /// The change in used blocks.
    pub change: i32,
}

impl Placed {
    pub(crate) fn new((block, change): (u32, i32)) -> Placed {
        Placed { block: block.into(), change }
    }
}

/// What a collection did.
#[derive(Clone, Copy, Debug, PartialEq, Eq)]
#[non_exhaustive]
pub struct Collected {
    /// The objects kept.
    pub kept: u32,
    /// How often the whole table was gone through because the mark stack was full.
    pub rescans: u32,
    /// The change in used blocks: those freed, negated.
    pub change: i32,
}

/// What a heap holds.
#[derive(Clone, Copy, Debug, PartialEq, Eq)]
#[non_exhaustive]
pub struct Survey {
    /// The used blocks: the sum of all changes since the last accepted init, or of these and the image's
    /// used blocks since an opening.
    pub used: u32,
    /// The objects.
    pub objects: u32,
    /// The blocks of the longest run of free blocks, aligned or not: a large object of as many blocks may
    /// have no room in it. A run of `b + 3` free blocks always has room for `b`.
    pub longest: u32,
}

/// What an image says.
#[derive(Debug)]
#[non_exhaustive]
pub struct Opened<'m, 'r> {
    /// The heap, in the memory that was lent, at the image's base.
    pub heap: Heap<'m>,
    /// Its roots: the front of the list that was lent.
    pub roots: &'r [Address],
}
