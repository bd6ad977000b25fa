use crate::raw::TableBytes;
use crate::{pool_bytes, Address, Heap, Opened, Refusal, MAX_T};

/// All the memory that a heap of `4 * T` blocks wants, with `T` from 1 to 1,024. Another `T` does not compile
/// (`cargo check` may not notice):
///
/// ```
/// static HEAP: blockheap::Memory<1024> = blockheap::Memory::new();
/// ```
///
/// ```compile_fail
/// static HEAP: blockheap::Memory<1025> = blockheap::Memory::new(); // t is not 1 to 1,024
/// ```
///
/// ```compile_fail
/// static HEAP: blockheap::Memory<0> = blockheap::Memory::new(); // t is not 1 to 1,024
/// ```
///
/// Who lends a `Memory` need not change when a heap wants more than a pool and a table. The pool lies at a
/// multiple of 64, and so do the bytes of large objects.
#[derive(Clone, Debug)]
#[repr(C, align(64))]
pub struct Memory<const T: usize> {
    pool: [[u8; pool_bytes(1)]; T],
    table: TableBytes<T>,
}

impl<const T: usize> Memory<T> {
    /// Cleared memory.
    pub const fn new() -> Self {
        const { assert!(1 <= T && T <= MAX_T, "t is not 1 to 1,024") };
        Memory { pool: [[0; pool_bytes(1)]; T], table: TableBytes::ZERO }
    }

    /// A heap in this memory, all of its blocks free.
    ///
    /// # Errors
    /// As [`Heap::init`].
    pub fn init(&mut self, base: Address) -> Result<Heap<'_>, Refusal> {
        Heap::init(base, self.pool.as_flattened_mut(), self.table.as_mut_slice())
    }

    /// The heap that this memory holds, as the last call left it.
    ///
    /// ```
    /// # use blockheap::{Address, Memory};
    /// # fn main() -> Result<(), blockheap::Refusal> {
    /// let base = Address::from_word(4096);
    /// let mut memory = Memory::<1>::new();
    /// let block = memory.init(base)?.allocate(20)?.block;
    /// assert_eq!(memory.resume(base).object(block)?, [0; 32]);
    /// # Ok(())
    /// # }
    /// ```
    pub fn resume(&mut self, base: Address) -> Heap<'_> {
        Heap::resume(base, self.pool.as_flattened_mut(), self.table.as_mut_slice())
    }

    /// The heap of an image, in this memory, and its roots, in the list. The image's
    /// [`t`](crate::image_t) must be `T`.
    ///
    /// # Errors
    /// As [`Heap::open_image`].
    pub fn open_image<'r>(
        &mut self,
        image: &[u8],
        roots: &'r mut [Address],
    ) -> Result<Opened<'_, 'r>, Refusal> {
        let (pool, table) = (self.pool.as_flattened_mut(), self.table.as_mut_slice());
        Heap::open_image(image, pool, table, roots)
    }
}

impl<const T: usize> Default for Memory<T> {
    fn default() -> Self {
        Memory::new()
    }
}
