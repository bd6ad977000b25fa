//! What a table says: the objects of a heap, and the runs of free blocks between them.

use crate::raw::Shown;
use crate::{Address, Block, BLOCKS_PER_PLANE_BYTE, BLOCK_BYTES, LARGE_BLOCKS};
use core::iter::FusedIterator;
use core::ops::Range;

/// An object of a heap, as [`Heap::objects`](crate::Heap::objects) finds it.
#[derive(Clone, Copy, Debug, PartialEq, Eq)]
#[non_exhaustive]
pub struct Object<'m> {
    /// Its head.
    pub block: Block,
    /// The address of its head.
    pub address: Address,
    /// All bytes of its blocks.
    pub bytes: &'m [u8],
}

impl Object<'_> {
    /// The number of its blocks.
    pub const fn blocks(&self) -> u32 {
        (self.bytes.len() / BLOCK_BYTES) as u32
    }
}

/// A run of free blocks, as long as it goes, as [`Heap::free_runs`](crate::Heap::free_runs) finds it.
#[derive(Clone, Copy, Debug, PartialEq, Eq)]
#[non_exhaustive]
pub struct FreeRun {
    /// Its first block.
    pub block: Block,
    /// The number of its blocks.
    pub blocks: u32,
}

impl FreeRun {
    /// The bytes of the largest object that has room in it: of up to three blocks anywhere, of more from a
    /// multiple of four on.
    ///
    /// ```
    /// # use blockheap::{Address, Memory};
    /// # fn main() -> Result<(), blockheap::Refusal> {
    /// let mut memory = Memory::<2>::new(); // eight blocks
    /// let mut heap = memory.init(Address::from(4096))?;
    /// heap.allocate(16)?;
    /// let run = heap.free_runs()?.next().unwrap();
    /// assert_eq!((run.block.number(), run.blocks), (1, 7));
    /// assert_eq!(run.largest_fit(), 4 * 16); // from block 4 on
    /// # Ok(())
    /// # }
    /// ```
    pub const fn largest_fit(&self) -> u64 {
        let blocks = self.blocks as u64;
        let before_aligned = self.block.number().wrapping_neg() % LARGE_BLOCKS as u64;
        let (small, large) = (LARGE_BLOCKS as u64 - 1, blocks.saturating_sub(before_aligned));
        let most = if large > small {
            large
        } else if blocks > small {
            small
        } else {
            blocks
        };
        most * BLOCK_BYTES as u64
    }
}

/// The objects of a heap, by rising block numbers: see [`Heap::objects`](crate::Heap::objects).
#[derive(Clone, Debug)]
pub struct Objects<'m> {
    pub(crate) pieces: Pieces<'m>,
}

impl<'m> Iterator for Objects<'m> {
    type Item = Object<'m>;

    fn next(&mut self) -> Option<Object<'m>> {
        let piece = self.pieces.find(|piece| piece.used)?;
        let Shown { base, pool, .. } = self.pieces.shown;
        let Range { start, end } = piece.bytes();
        let address = Address::from_word(base.word().wrapping_add(start as u32));
        Some(Object { block: piece.block(), address, bytes: &pool[start..end] })
    }
}

impl FusedIterator for Objects<'_> {}

/// The runs of free blocks of a heap, by rising block numbers: see
/// [`Heap::free_runs`](crate::Heap::free_runs).
#[derive(Clone, Debug)]
pub struct FreeRuns<'m> {
    pub(crate) pieces: Pieces<'m>,
}

impl Iterator for FreeRuns<'_> {
    type Item = FreeRun;

    fn next(&mut self) -> Option<FreeRun> {
        let piece = self.pieces.find(|piece| !piece.used)?;
        Some(FreeRun { block: piece.block(), blocks: piece.blocks.len() as u32 })
    }
}

impl FusedIterator for FreeRuns<'_> {}

/// An object or a run of free blocks.
pub(crate) struct Piece {
    used: bool,
    blocks: Range<usize>,
}

impl Piece {
    fn block(&self) -> Block {
        Block::from_number(self.blocks.start as u64)
    }

    /// Where in the pool its bytes are.
    pub fn bytes(&self) -> Range<usize> {
        self.blocks.start * BLOCK_BYTES..self.blocks.end * BLOCK_BYTES
    }
}

/// The objects and runs of free blocks from a block on with which one begins, in a heap that a call has
/// accepted.
#[derive(Clone, Debug)]
pub(crate) struct Pieces<'m> {
    pub shown: Shown<'m>,
    pub next: usize,
}

impl Iterator for Pieces<'_> {
    type Item = Piece;

    fn next(&mut self) -> Option<Piece> {
        let (start, end) = (self.next, self.shown.pool.len() / BLOCK_BYTES);
        if start >= end {
            return None;
        }
        let used = self.shown.is_head(start);
        let ends = |block: &usize| {
            if used {
                !self.shown.is_tail(*block)
            } else {
                self.shown.is_head(*block)
            }
        };
        self.next = (start + 1..end).find(ends).unwrap_or(end);
        Some(Piece { used, blocks: start..self.next })
    }
}

/// The table is two planes, and no block of a heap that a call has accepted has both bits.
impl Shown<'_> {
    /// Whether a block's bit in the low plane is 1.
    fn is_head(&self, block: usize) -> bool {
        bit(&self.table[..self.table.len() / 2], block)
    }

    /// Whether a block's bit in the high plane is 1.
    fn is_tail(&self, block: usize) -> bool {
        bit(&self.table[self.table.len() / 2..], block)
    }
}

fn bit(plane: &[u8], block: usize) -> bool {
    plane[block / BLOCKS_PER_PLANE_BYTE] >> (block % BLOCKS_PER_PLANE_BYTE) & 1 == 1
}
