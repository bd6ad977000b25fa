//! The sizes and limits of `include/blockheap.h`.

use crate::Address;

/// The bytes of a block.
pub const BLOCK_BYTES: usize = 16;
/// The bytes of a word.
pub const WORD_BYTES: usize = 4;
/// The words of a block.
pub const WORDS_PER_BLOCK: usize = BLOCK_BYTES / WORD_BYTES;
/// The blocks that one byte of each plane of the table has a bit for.
pub const BLOCKS_PER_PLANE_BYTE: usize = 8;
/// An object of so many blocks or more is large: a new one begins at a block number divisible by 4.
pub const LARGE_BLOCKS: usize = 4;
/// The largest `t`, the size of a heap: it has four times as many blocks.
pub const MAX_T: usize = 1024;
/// The most blocks that a pool may have.
pub const MAX_BLOCKS: usize = 4 * MAX_T;
/// The most bytes that a pool may have.
pub const MAX_POOL_BYTES: usize = pool_bytes(MAX_T);
/// The most bytes that a table may have.
pub const MAX_TABLE_BYTES: usize = table_bytes(MAX_T);
/// The lowest base.
pub const MIN_BASE: Address = Address::from_word(16);
/// The most roots that a collection or an image takes.
pub const MAX_ROOTS: usize = 4096;
/// The most entries that a mark stack may have.
pub const MAX_STACK_ENTRIES: usize = 64;
/// The bytes of an entry of a log.
pub const LOG_ENTRY_BYTES: usize = 32;
/// The most entries that a log may have.
pub const MAX_LOG_ENTRIES: usize = MAX_POOL_BYTES / LOG_ENTRY_BYTES;
/// The most roots that an append takes: the log's first address is one more.
pub const MAX_LOG_ROOTS: usize = MAX_ROOTS - 1;
/// The most bytes that an image may have.
pub const MAX_IMAGE_BYTES: usize = full_image_bytes(MAX_T, MAX_ROOTS);

/// The bytes of pool of a heap of this `t`.
///
/// ```
/// assert_eq!(blockheap::pool_bytes(3), 192);
/// ```
pub const fn pool_bytes(t: usize) -> usize {
    64 * t
}

/// The bytes of table of a heap of this `t`: two planes, each with a bit for every block.
///
/// ```
/// # use blockheap::table_bytes;
/// assert_eq!([1, 2, 3, 4].map(table_bytes), [2, 2, 4, 4]);
/// ```
pub const fn table_bytes(t: usize) -> usize {
    2 * t.div_ceil(2)
}

/// The bytes of an image of a heap of this `t`, with so many used blocks and roots.
///
/// ```
/// assert_eq!(blockheap::image_bytes(1, 1, 1), 33);
/// ```
pub const fn image_bytes(t: usize, used: usize, roots: usize) -> usize {
    12 + t + BLOCK_BYTES * used + WORD_BYTES * roots
}

/// The most bytes that an image of a heap of this `t` may have, with so many roots: all blocks are used.
pub const fn full_image_bytes(t: usize, roots: usize) -> usize {
    image_bytes(t, 4 * t, roots)
}

/// The `t` of an image, by its first 8 bytes. [`None`] if they are of no image, which
/// [`Heap::open_image`](crate::Heap::open_image) then refuses whatever it is lent.
///
/// ```
/// # use blockheap::image_t;
/// assert_eq!(image_t(&[1, 0, 0, 16, 0, 0, 3, 0]), Some(3));
/// assert_eq!(image_t(b"no image"), None);
/// ```
pub fn image_t(image: &[u8]) -> Option<usize> {
    let (front, _) = image.split_first_chunk::<8>()?;
    let [base_count, t] = [[front[0], front[1]], [front[6], front[7]]].map(u16::from_le_bytes);
    (base_count == 1 && (1..=MAX_T).contains(&t.into())).then_some(t.into())
}
