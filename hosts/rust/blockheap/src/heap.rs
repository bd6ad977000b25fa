use crate::raw::Lent;
use crate::{Address, Block, Collected, MarkEntry, Opened, Placed, Refusal, Survey, View};
use crate::{FreeRuns, NotPlaced, Objects, MAX_ROOTS, MAX_STACK_ENTRIES};

/// A heap in lent memory.
///
/// It is the one place that holds what is lent: no call asks for the pool or the table again.
#[derive(Debug)]
pub struct Heap<'m> {
    pub(crate) lent: Lent<'m>,
}

impl<'m> Heap<'m> {
    /// Makes every block of the pool free, whatever the table held. The pool is not touched.
    ///
    /// `base` is the address of block 0, a multiple of 16 that is at least 16: on a 32-bit board the
    /// pool's own, elsewhere any that the program keeps to. The pool's length gives `t`, the size of the
    /// heap: it is [`pool_bytes(t)`](crate::pool_bytes), and the table's is
    /// [`table_bytes(t)`](crate::table_bytes). [`Memory`](crate::Memory) has both.
    ///
    /// ```
    /// # use blockheap::{pool_bytes, table_bytes, Address, Heap, Refusal, ShapeFault};
    /// let (mut pool, mut table) = ([0; pool_bytes(3)], [0; table_bytes(3)]);
    /// assert!(Heap::init(Address::from_word(4096), &mut pool, &mut table).is_ok());
    /// let odd = Heap::init(Address::from_word(4097), &mut pool, &mut table);
    /// assert_eq!(odd.err(), Some(Refusal::BadShape(ShapeFault::BaseUnaligned)));
    /// ```
    ///
    /// # Errors
    /// [`Refusal::BadShape`].
    pub fn init(base: Address, pool: &'m mut [u8], table: &'m mut [u8]) -> Result<Self, Refusal> {
        let mut heap = Heap::resume(base, pool, table);
        heap.lent.init()?;
        Ok(heap)
    }

    /// The heap that pool and table already hold, as the last call left it. Nothing is asked of them
    /// here: what does not fit is refused by each call. Large objects that are not aligned, in a table
    /// that other programs made, are valid, and stay where they are until they grow.
    pub fn resume(base: Address, pool: &'m mut [u8], table: &'m mut [u8]) -> Self {
        Heap { lent: Lent { base, pool, table } }
    }

    /// Makes a heap of an image, a file that [`Heap::write_image`] or any other program wrote, and copies
    /// its roots to the front of a list. `include/blockheap.h` draws the file.
    ///
    /// The file may be any bytes at all. The pool has [`pool_bytes(t)`](crate::pool_bytes) and the table
    /// [`table_bytes(t)`](crate::table_bytes) for the image's `t`, which [`image_t`](crate::image_t) reads;
    /// what they hold does not matter. The list may be longer than the image's roots: the rest stays as it
    /// was, and [`MAX_ROOTS`](crate::MAX_ROOTS) are always enough. Every byte of the pool that is not an
    /// object's is 0.
    ///
    /// ```
    /// # use blockheap::{full_image_bytes, image_t, pool_bytes, table_bytes, Address, Heap, Memory, MAX_ROOTS};
    /// # fn main() -> Result<(), blockheap::Refusal> {
    /// # let mut memory = Memory::<16>::new();
    /// # let mut heap = memory.init(Address::from_word(4096))?;
    /// # let block = heap.allocate(20)?.block;
    /// # let mut buffer = [0; full_image_bytes(16, 1)];
    /// # let image = heap.write_image(&[heap.address_of(block)?], &mut buffer)?;
    /// let t = image_t(image).unwrap_or(0); // 0 is of no image, and is refused
    /// let (mut pool, mut table) = (vec![0; pool_bytes(t)], vec![0; table_bytes(t)]);
    /// let mut roots = [Address::NULL; MAX_ROOTS];
    /// let opened = Heap::open_image(image, &mut pool, &mut table, &mut roots)?;
    /// assert_eq!(opened.heap.base(), Address::from_word(4096));
    /// assert_eq!(opened.roots, [Address::from_word(4096)]);
    /// # Ok(())
    /// # }
    /// ```
    ///
    /// # Errors
    /// In this order. Of the file, from its front: [`ImageTruncated`](Refusal::ImageTruncated),
    /// [`BadCount`](Refusal::BadCount), [`TooManyRoots`](Refusal::TooManyRoots) and
    /// [`TrailingBytes`](Refusal::TrailingBytes), whichever is met first; a count is looked at before its
    /// items. Then [`BadShape`](Refusal::BadShape), also if pool and table are those of another `t`,
    /// [`BadTable`](Refusal::BadTable), and [`RootsTooShort`](Refusal::RootsTooShort).
    pub fn open_image<'r>(
        image: &[u8],
        pool: &'m mut [u8],
        table: &'m mut [u8],
        roots: &'r mut [Address],
    ) -> Result<Opened<'m, 'r>, Refusal> {
        let mut heap = Heap::resume(Address::NULL, pool, table);
        let count = heap.lent.open_image(image, roots)?;
        Ok(Opened { heap, roots: &roots[..count as usize] })
    }

    /// Makes an object of so many bytes, rounded up to whole blocks, in the lowest aligned run of as many
    /// free blocks. All bytes of its blocks are 0.
    ///
    /// A run is aligned if it has at most three blocks or begins at a multiple of four: large objects, of
    /// [`LARGE_BLOCKS`](crate::LARGE_BLOCKS) or more, begin at a multiple of 64 bytes in the pool. If the
    /// base is a multiple of 64, so are their addresses; if the pool itself lies at one, so do their bytes.
    ///
    /// ```
    /// # use blockheap::{Address, Block, Memory};
    /// # fn main() -> Result<(), blockheap::Refusal> {
    /// # let mut memory = Memory::<4>::new();
    /// # let mut heap = memory.init(Address::from_word(4096))?;
    /// heap.allocate(16)?;
    /// let large = heap.allocate(64)?.block;
    /// assert_eq!(large, Block::from_number(4));
    /// assert_eq!(heap.address_of(large)?.word() % 64, 0);
    /// # Ok(())
    /// # }
    /// ```
    ///
    /// # Errors
    /// [`BadShape`](Refusal::BadShape), [`BadTable`](Refusal::BadTable),
    /// [`ZeroBytes`](Refusal::ZeroBytes), and [`NoRoom`](Refusal::NoRoom) exactly if there is no aligned
    /// run of as many free blocks: nothing is collected to make room, as [`Heap::allocate_collecting`] does.
    pub fn allocate(&mut self, bytes: u64) -> Result<Placed, Refusal> {
        self.lent.allocate(bytes).map(Placed::new)
    }

    /// Makes an object as [`Heap::allocate`] does. Where there is no room it collects, as [`Heap::collect`] does,
    /// and asks once more: so does `gc_alloc` of MicroPython.
    ///
    /// What nothing leads to from these roots may be freed. The change is that of both, and the mark stack is
    /// not touched without a collection. A list that is too long is refused even where there is room, so that it
    /// shows at once.
    ///
    /// ```
    /// # use blockheap::{Address, MarkEntry, Memory, Refusal};
    /// # fn main() -> Result<(), Refusal> {
    /// let mut memory = Memory::<1>::new(); // four blocks
    /// let mut heap = memory.init(Address::from(4096))?;
    /// let mut stack = [MarkEntry::EMPTY; 8];
    /// heap.allocate(48)?; // garbage
    /// let placed = heap.allocate_collecting(32, &[], &mut stack)?;
    /// assert_eq!(placed.change, -3 + 2);
    ///
    /// let roots = [heap.address_of(placed.block)?];
    /// let full = heap.allocate_collecting(48, &roots, &mut stack).unwrap_err();
    /// assert_eq!((full.refusal, full.change), (Refusal::NoRoom, 0));
    /// # Ok(())
    /// # }
    /// ```
    ///
    /// # Errors
    /// [`BadShape`](Refusal::BadShape), [`BadTable`](Refusal::BadTable),
    /// [`TooManyRoots`](Refusal::TooManyRoots), [`StackTooLong`](Refusal::StackTooLong),
    /// [`ZeroBytes`](Refusal::ZeroBytes), and [`NoRoom`](Refusal::NoRoom) if there is none even after the
    /// collection, which then stands.
    pub fn allocate_collecting(
        &mut self,
        bytes: u64,
        roots: &[Address],
        stack: &mut [MarkEntry],
    ) -> Result<Placed, NotPlaced> {
        if roots.len() > MAX_ROOTS || stack.len() > MAX_STACK_ENTRIES {
            self.collect(roots, stack)?; // which is refused
        }
        match self.allocate(bytes) {
            Err(Refusal::NoRoom) => {}
            placed => return Ok(placed?),
        }
        let change = self.collect(roots, stack)?.change;
        match self.allocate(bytes) {
            Ok(placed) => Ok(Placed { change: change + placed.change, ..placed }),
            Err(refusal) => Err(NotPlaced { refusal, change }),
        }
    }

    /// Makes all blocks of an object free and answers the change in used blocks. The bytes stay.
    ///
    /// Of two objects either may be freed first: the table is the same in the end.
    ///
    /// # Errors
    /// [`BadShape`](Refusal::BadShape), [`BadTable`](Refusal::BadTable),
    /// [`NoSuchBlock`](Refusal::NoSuchBlock), [`NotAHead`](Refusal::NotAHead).
    pub fn free(&mut self, block: Block) -> Result<i32, Refusal> {
        self.lent.free(block.number())
    }

    /// Resizes an object to so many bytes, rounded up to whole blocks. Its bytes are kept, as many as
    /// fit, and all bytes of added blocks are 0. It moves only if it cannot grow in place: if too few free
    /// blocks follow, or if it grows to four blocks or more and does not begin at a multiple of four.
    /// Pointers to blocks that it no longer has are the caller's to mend.
    ///
    /// ```
    /// # use blockheap::{Address, Memory};
    /// # fn main() -> Result<(), blockheap::Refusal> {
    /// # let mut memory = Memory::<4>::new();
    /// # let mut heap = memory.init(Address::from_word(4096))?;
    /// let first = heap.allocate(16)?.block;
    /// let next = heap.allocate(16)?.block;
    /// let moved = heap.reallocate(first, 17)?;
    /// assert!(moved.block > next);
    /// assert_eq!(moved.change, 1);
    /// # Ok(())
    /// # }
    /// ```
    ///
    /// # Errors
    /// [`BadShape`](Refusal::BadShape), [`BadTable`](Refusal::BadTable),
    /// [`ZeroBytes`](Refusal::ZeroBytes), [`NoSuchBlock`](Refusal::NoSuchBlock),
    /// [`NotAHead`](Refusal::NotAHead), and [`NoRoom`](Refusal::NoRoom) exactly if it can neither
    /// grow in place nor move.
    pub fn reallocate(&mut self, block: Block, bytes: u64) -> Result<Placed, Refusal> {
        self.lent.reallocate(block.number(), bytes).map(Placed::new)
    }

    /// Keeps exactly the objects that a chain of pointers leads to from a root, and makes the blocks
    /// of all others free.
    ///
    /// A root is followed as a word of an object is: the address of any block of an object leads to it,
    /// and one inside a block or of a free block counts for nothing. Roots may stand in any order and
    /// more than once, and two lists joined keep what one or the other keeps. A mark stack of any length
    /// keeps the same objects; a short one costs time. A second collection at once from the same roots
    /// changes nothing.
    ///
    /// ```
    /// # use blockheap::{Address, MarkEntry, Memory};
    /// # fn main() -> Result<(), blockheap::Refusal> {
    /// # let mut memory = Memory::<4>::new();
    /// # let mut heap = memory.init(Address::from_word(4096))?;
    /// let (list, item) = (heap.allocate(8)?.block, heap.allocate(8)?.block);
    /// heap.allocate(8)?; // garbage
    /// heap.store(list, 0, heap.address_of(item)?.word())?;
    /// let roots = [Address::NULL, heap.address_of(list)?];
    /// assert_eq!(heap.collect(&roots, &mut [MarkEntry::EMPTY; 8])?.kept, 2);
    /// # Ok(())
    /// # }
    /// ```
    ///
    /// An address in the middle of a buffer keeps all of it:
    ///
    /// ```
    /// # use blockheap::{Address, Block, Memory};
    /// # fn main() -> Result<(), blockheap::Refusal> {
    /// # let mut memory = Memory::<4>::new();
    /// # let mut heap = memory.init(Address::from_word(4096))?;
    /// let buffer = heap.allocate(80)?.block;
    /// let third = Block::from_number(buffer.number() + 2);
    /// let root = heap.address_of(third)?;
    /// assert_eq!(heap.collect(&[root], &mut [])?.change, 0);
    /// assert_eq!(heap.object(buffer)?.len(), 80);
    /// # Ok(())
    /// # }
    /// ```
    ///
    /// # Errors
    /// [`BadShape`](Refusal::BadShape), [`BadTable`](Refusal::BadTable),
    /// [`TooManyRoots`](Refusal::TooManyRoots), [`StackTooLong`](Refusal::StackTooLong).
    pub fn collect(
        &mut self,
        roots: &[Address],
        stack: &mut [MarkEntry],
    ) -> Result<Collected, Refusal> {
        let (kept, rescans, change) = self.lent.collect(roots, stack)?;
        Ok(Collected { kept, rescans, change })
    }

    /// Counts the used blocks, the objects, and the blocks of the longest run of free ones, aligned or not.
    ///
    /// # Errors
    /// [`BadShape`](Refusal::BadShape), [`BadTable`](Refusal::BadTable).
    pub fn survey(&self) -> Result<Survey, Refusal> {
        self.view().survey()
    }

    /// Reads one word of an object.
    ///
    /// # Errors
    /// [`BadShape`](Refusal::BadShape), [`BadTable`](Refusal::BadTable),
    /// [`NoSuchBlock`](Refusal::NoSuchBlock), [`NotAHead`](Refusal::NotAHead),
    /// [`NoSuchWord`](Refusal::NoSuchWord).
    pub fn load(&self, block: Block, word: u64) -> Result<u32, Refusal> {
        self.view().load(block, word)
    }

    /// Writes one word of an object.
    ///
    /// # Errors
    /// As [`Heap::load`].
    pub fn store(&mut self, block: Block, word: u64, value: u32) -> Result<(), Refusal> {
        self.lent.store(block.number(), word, value)
    }

    /// Writes an image of the heap to the front of a buffer and answers that part of it: a file for any
    /// host, with the base, the table, the bytes of all used blocks and the roots. `include/blockheap.h`
    /// draws it.
    ///
    /// The roots are copied, not followed. Bytes of the buffer behind the image stay as they were.
    ///
    /// ```
    /// # use blockheap::{full_image_bytes, Address, Memory};
    /// # fn main() -> Result<(), blockheap::Refusal> {
    /// # let mut memory = Memory::<16>::new();
    /// # let mut heap = memory.init(Address::from_word(4096))?;
    /// let block = heap.allocate(20)?.block;
    /// let roots = [heap.address_of(block)?];
    /// let mut buffer = [0; full_image_bytes(16, 1)]; // long enough for any image of this heap
    /// let image = heap.write_image(&roots, &mut buffer)?;
    /// assert_eq!(image.len(), 64);
    ///
    /// let mut file = vec![0; heap.image_bytes(roots.len())?]; // or as long as this one
    /// assert_eq!(heap.write_image(&roots, &mut file)?, image);
    /// # Ok(())
    /// # }
    /// ```
    ///
    /// # Errors
    /// [`BadShape`](Refusal::BadShape), [`BadTable`](Refusal::BadTable),
    /// [`TooManyRoots`](Refusal::TooManyRoots), [`OutputTooShort`](Refusal::OutputTooShort).
    pub fn write_image<'b>(
        &self,
        roots: &[Address],
        buffer: &'b mut [u8],
    ) -> Result<&'b [u8], Refusal> {
        self.view().write_image(roots, buffer)
    }

    /// The bytes of the heap's image with so many roots.
    ///
    /// # Errors
    /// [`BadShape`](Refusal::BadShape), [`BadTable`](Refusal::BadTable).
    pub fn image_bytes(&self, roots: usize) -> Result<usize, Refusal> {
        self.view().image_bytes(roots)
    }

    /// All bytes of an object's blocks. They are found by a load and in the table, block by block: hold the
    /// slice rather than ask for every byte.
    ///
    /// # Errors
    /// [`BadShape`](Refusal::BadShape), [`BadTable`](Refusal::BadTable),
    /// [`NoSuchBlock`](Refusal::NoSuchBlock), [`NotAHead`](Refusal::NotAHead).
    pub fn object(&self, block: Block) -> Result<&[u8], Refusal> {
        self.view().object(block)
    }

    /// All bytes of an object's blocks, to write.
    ///
    /// # Errors
    /// As [`Heap::object`].
    pub fn object_mut(&mut self, block: Block) -> Result<&mut [u8], Refusal> {
        let place = self.view().place_of(block)?;
        Ok(&mut self.lent.pool[place])
    }

    /// All objects, by rising block numbers, with their addresses and bytes.
    ///
    /// ```
    /// # use blockheap::{Address, Memory};
    /// # fn main() -> Result<(), blockheap::Refusal> {
    /// # let mut memory = Memory::<4>::new();
    /// # let mut heap = memory.init(Address::from(4096))?;
    /// heap.allocate(20)?;
    /// heap.allocate(16)?;
    /// let lines = heap.objects()?.map(|object| format!("{} {}", object.address, object.blocks()));
    /// assert_eq!(lines.collect::<Vec<_>>(), ["0x00001000 2", "0x00001020 1"]);
    /// assert_eq!(heap.objects()?.map(|object| object.bytes.len()).max(), Some(32));
    /// # Ok(())
    /// # }
    /// ```
    ///
    /// # Errors
    /// [`BadShape`](Refusal::BadShape), [`BadTable`](Refusal::BadTable).
    pub fn objects(&self) -> Result<Objects<'_>, Refusal> {
        self.view().objects()
    }

    /// All runs of free blocks, by rising block numbers: why there is no room.
    ///
    /// ```
    /// # use blockheap::{Address, Memory, Refusal};
    /// # fn main() -> Result<(), Refusal> {
    /// # let mut memory = Memory::<2>::new();
    /// # let mut heap = memory.init(Address::from(4096))?;
    /// let (first, _, third) = (heap.allocate(48)?, heap.allocate(16)?, heap.allocate(32)?);
    /// heap.free(first.block)?;
    /// heap.free(third.block)?;
    /// let runs = heap.free_runs()?.map(|run| (run.block.number(), run.blocks));
    /// assert_eq!(runs.collect::<Vec<_>>(), [(0, 3), (4, 4)]);
    /// assert_eq!(heap.largest_fit()?, 64); // although seven blocks are free
    /// assert_eq!(heap.allocate(65), Err(Refusal::NoRoom));
    /// # Ok(())
    /// # }
    /// ```
    ///
    /// # Errors
    /// [`BadShape`](Refusal::BadShape), [`BadTable`](Refusal::BadTable).
    pub fn free_runs(&self) -> Result<FreeRuns<'_>, Refusal> {
        self.view().free_runs()
    }

    /// The bytes of the largest object that has room, aligned as [`Heap::allocate`] does it; 0 if no block is
    /// free. An allocation of so many bytes is accepted, and one of more is refused for want of room.
    ///
    /// # Errors
    /// [`BadShape`](Refusal::BadShape), [`BadTable`](Refusal::BadTable).
    pub fn largest_fit(&self) -> Result<u64, Refusal> {
        self.view().largest_fit()
    }

    /// The address of a block, whether it is used or free.
    ///
    /// # Errors
    /// [`NoSuchBlock`](Refusal::NoSuchBlock), or [`BadShape`](Refusal::BadShape) if the base is so
    /// high that no word spells the address.
    pub fn address_of(&self, block: Block) -> Result<Address, Refusal> {
        self.view().address_of(block)
    }

    /// The block that has this address, used or free. No block has an address outside of the pool or
    /// inside a block.
    ///
    /// ```
    /// # use blockheap::{Address, Block, Memory};
    /// # fn main() -> Result<(), blockheap::Refusal> {
    /// # let mut memory = Memory::<4>::new();
    /// # let heap = memory.init(Address::from_word(4096))?;
    /// let address = heap.address_of(Block::from_number(3))?;
    /// assert_eq!(address, Address::from_word(4096 + 3 * 16));
    /// assert_eq!(heap.block_at(address), Some(Block::from_number(3)));
    /// assert_eq!(heap.block_at(Address::from_word(4097)), None);
    /// # Ok(())
    /// # }
    /// ```
    pub fn block_at(&self, address: Address) -> Option<Block> {
        self.view().block_at(address)
    }

    /// The heap, to look at and not to change: a [`View`] may be copied, and several may be held at once.
    ///
    /// ```
    /// # use blockheap::{Address, Memory, View};
    /// # fn main() -> Result<(), blockheap::Refusal> {
    /// fn report(heap: View) -> Result<String, blockheap::Refusal> {
    ///     Ok(format!("{} used blocks from {} on", heap.survey()?.used, heap.base()))
    /// }
    ///
    /// let mut memory = Memory::<4>::new();
    /// let mut heap = memory.init(Address::from(4096))?;
    /// heap.allocate(40)?;
    /// assert_eq!(report(heap.view())?, "3 used blocks from 0x00001000 on");
    /// # Ok(())
    /// # }
    /// ```
    pub fn view(&self) -> View<'_> {
        View { shown: self.lent.shown() }
    }

    /// The address of block 0.
    pub fn base(&self) -> Address {
        self.lent.base
    }
}
