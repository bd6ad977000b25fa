use crate::raw::{t_of, Shown};
use crate::table::Pieces;
use crate::{image_bytes, BLOCK_BYTES};
use crate::{Address, Block, FreeRuns, Objects, Refusal, ShapeFault, Survey};
use core::ops::Range;

/// A heap to look at: what of a [`Heap`](crate::Heap) changes nothing.
///
/// It borrows pool and table without `mut`, from a heap ([`Heap::view`](crate::Heap::view)) or from slices that
/// hold one, in flash for instance. Its calls are those of the heap that have the same names, and are refused as
/// those are.
///
/// ```
/// # use blockheap::{Address, Block, Refusal, View};
/// # fn main() -> Result<(), Refusal> {
/// static POOL: [u8; 64] = [7; 64];
/// static TABLE: [u8; 2] = [0b0101, 0b0010]; // objects of two blocks and of one, and a free block
/// let view = View::new(Address::from(0x2000_0000), &POOL, &TABLE);
/// assert_eq!(view.survey()?.objects, 2);
/// assert_eq!(view.load(Block::from(2), 3)?, 0x0707_0707);
/// assert_eq!(view.load(Block::from(3), 0), Err(Refusal::NotAHead));
/// # Ok(())
/// # }
/// ```
#[derive(Clone, Copy, Debug)]
pub struct View<'m> {
    pub(crate) shown: Shown<'m>,
}

impl<'m> View<'m> {
    /// The heap that pool and table hold. Nothing is asked of them here: what does not fit is refused by each
    /// call.
    pub const fn new(base: Address, pool: &'m [u8], table: &'m [u8]) -> Self {
        View { shown: Shown { base, pool, table } }
    }

    /// As [`Heap::survey`](crate::Heap::survey).
    ///
    /// # Errors
    /// As there.
    pub fn survey(&self) -> Result<Survey, Refusal> {
        let (used, objects, longest) = self.shown.survey()?;
        Ok(Survey { used, objects, longest })
    }

    /// As [`Heap::load`](crate::Heap::load).
    ///
    /// # Errors
    /// As there.
    pub fn load(&self, block: Block, word: u64) -> Result<u32, Refusal> {
        self.shown.load(block.number(), word)
    }

    /// As [`Heap::write_image`](crate::Heap::write_image).
    ///
    /// # Errors
    /// As there.
    pub fn write_image<'b>(
        &self,
        roots: &[Address],
        buffer: &'b mut [u8],
    ) -> Result<&'b [u8], Refusal> {
        let length = self.shown.write_image(roots, buffer)?;
        Ok(&buffer[..length as usize])
    }

    /// As [`Heap::image_bytes`](crate::Heap::image_bytes).
    ///
    /// # Errors
    /// As there.
    pub fn image_bytes(&self, roots: usize) -> Result<usize, Refusal> {
        Ok(image_bytes(t_of(self.shown.pool.len()), self.survey()?.used as usize, roots))
    }

    /// As [`Heap::object`](crate::Heap::object). The bytes may be held longer than the view.
    ///
    /// # Errors
    /// As there.
    pub fn object(&self, block: Block) -> Result<&'m [u8], Refusal> {
        let place = self.place_of(block)?;
        Ok(&self.shown.pool[place])
    }

    /// As [`Heap::address_of`](crate::Heap::address_of).
    ///
    /// # Errors
    /// As there.
    pub fn address_of(&self, block: Block) -> Result<Address, Refusal> {
        if block.number() >= (self.shown.pool.len() / BLOCK_BYTES) as u64 {
            return Err(Refusal::NoSuchBlock);
        }
        let address = u64::from(self.base().word()) + BLOCK_BYTES as u64 * block.number();
        let word = u32::try_from(address).map_err(|_| Refusal::BadShape(ShapeFault::PoolEnd))?;
        Ok(word.into())
    }

    /// As [`Heap::block_at`](crate::Heap::block_at).
    pub fn block_at(&self, address: Address) -> Option<Block> {
        let offset = u64::from(address.word().checked_sub(self.base().word())?);
        let block = Block::from_number(offset / BLOCK_BYTES as u64);
        (self.address_of(block) == Ok(address)).then_some(block)
    }

    /// The address of block 0.
    pub const fn base(&self) -> Address {
        self.shown.base
    }

    /// As [`Heap::objects`](crate::Heap::objects).
    ///
    /// # Errors
    /// As there.
    pub fn objects(&self) -> Result<Objects<'m>, Refusal> {
        Ok(Objects { pieces: self.pieces()? })
    }

    /// As [`Heap::free_runs`](crate::Heap::free_runs).
    ///
    /// # Errors
    /// As there.
    pub fn free_runs(&self) -> Result<FreeRuns<'m>, Refusal> {
        Ok(FreeRuns { pieces: self.pieces()? })
    }

    /// As [`Heap::largest_fit`](crate::Heap::largest_fit).
    ///
    /// # Errors
    /// As there.
    pub fn largest_fit(&self) -> Result<u64, Refusal> {
        Ok(self.free_runs()?.map(|run| run.largest_fit()).max().unwrap_or(0))
    }

    /// All that the table says, if the library accepts it.
    fn pieces(&self) -> Result<Pieces<'m>, Refusal> {
        self.survey()?;
        Ok(Pieces { shown: self.shown, next: 0 })
    }

    /// Where in the pool an object's bytes are. A load finds out whether the block is its head.
    pub(crate) fn place_of(&self, block: Block) -> Result<Range<usize>, Refusal> {
        self.load(block, 0)?;
        let mut pieces = Pieces { shown: self.shown, next: block.number() as usize };
        pieces.next().map(|object| object.bytes()).ok_or(Refusal::NoSuchBlock)
    }
}
