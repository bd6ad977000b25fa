use core::fmt;

/// The number of a block, counted from 0. An object is named by its head.
///
/// It is only a number: a block that has been freed is refused, or names what is there now.
///
/// ```
/// let block = blockheap::Block::from(7);
/// assert_eq!((block.number(), u64::from(block)), (7, 7));
/// assert_eq!(format!("block {block}"), "block 7");
/// ```
#[derive(Clone, Copy, Debug, PartialEq, Eq, PartialOrd, Ord, Hash)]
pub struct Block(u64);

impl Block {
    /// The block of this number, whether or not a heap has so many.
    pub const fn from_number(number: u64) -> Block {
        Block(number)
    }

    /// Its number.
    pub const fn number(self) -> u64 {
        self.0
    }
}

impl From<u32> for Block {
    /// The same as [`Block::from_number`].
    fn from(number: u32) -> Block {
        Block(number.into())
    }
}

impl From<Block> for u64 {
    /// The same as [`Block::number`].
    fn from(block: Block) -> u64 {
        block.number()
    }
}

impl fmt::Display for Block {
    fn fmt(&self, f: &mut fmt::Formatter<'_>) -> fmt::Result {
        self.0.fmt(f)
    }
}
