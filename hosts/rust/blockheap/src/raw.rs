//! The calls as `include/blockheap.h` declares them.
//!
//! # Safety
//! Each call asks of its caller what the header does under "What the caller ensures".

use crate::{pool_bytes, table_bytes, WORD_BYTES};
use crate::{Address, Entry, MarkEntry, NotPlaced, Refusal, ShapeFault};
use core::slice::{from_raw_parts, from_raw_parts_mut};

/// Declares calls: whether each may write pool and table, then its own arguments and answers.
macro_rules! declare {
    ($($(#[$doc:meta])* $name:ident(
        $pool:tt pool, $table:tt table $(, $argument:ident: $type:ty)* $(,)?
    );)*) => {
        extern "C" {
            $(
                $(#[$doc])*
                pub fn $name(
                    base: u64,
                    t: u64,
                    pool: *$pool u8,
                    pool_len: usize,
                    table: *$table u8,
                    table_len: usize,
                    $($argument: $type,)*
                ) -> u32;
            )*
        }
    };
}

declare! {
    /// Makes every block free.
    blockheap_init(const pool, mut table);
    /// Makes an object.
    blockheap_allocate(mut pool, mut table, bytes: u64, block: *mut u32, change: *mut i32);
    /// Makes the blocks of an object free.
    blockheap_free(const pool, mut table, block: u64, change: *mut i32);
    /// Resizes an object.
    blockheap_reallocate(
        mut pool, mut table, block: u64, bytes: u64, new_block: *mut u32, change: *mut i32,
    );
    /// Frees all objects that no root leads to.
    blockheap_collect(
        const pool, mut table,
        roots: *const u8, roots_len: usize, stack: *mut u8, stack_len: usize,
        kept: *mut u32, rescans: *mut u32, change: *mut i32,
    );
    /// Counts used blocks, objects and the longest free run.
    blockheap_survey(
        const pool, const table, used: *mut u32, objects: *mut u32, longest: *mut u32,
    );
    /// Reads a word of an object.
    blockheap_load(const pool, const table, block: u64, word: u64, value: *mut u32);
    /// Writes a word of an object.
    blockheap_store(mut pool, const table, block: u64, word: u64, value: u32);
    /// Writes the heap as a file.
    blockheap_write_image(
        const pool, const table,
        roots: *const u8, roots_len: usize, image: *mut u8, image_len: usize, length: *mut u32,
    );
    /// Adds an entry to a log.
    blockheap_log_append(
        mut pool, mut table, first: u64, time: u32, tips: u32,
        roots: *const u8, roots_len: usize, stack: *mut u8, stack_len: usize,
        new_first: *mut u32, change: *mut i32,
    );
    /// Reads an entry of a log.
    blockheap_log_read(
        const pool, const table, first: u64, index: u64, time: *mut u32, tips: *mut u32,
    );
    /// Frees the oldest entry of a log.
    blockheap_log_drop(const pool, mut table, first: u64, new_first: *mut u32, change: *mut i32);
}

extern "C" {
    /// Makes a file a heap.
    pub fn blockheap_open_image(
        image: *const u8,
        image_len: usize,
        t: u64,
        pool: *mut u8,
        pool_len: usize,
        table: *mut u8,
        table_len: usize,
        roots: *mut u8,
        roots_len: usize,
        base: *mut u32,
        count: *mut u32,
    ) -> u32;
}

/// What every call is handed; an opening sets the base.
#[derive(Debug)]
pub(crate) struct Lent<'m> {
    pub base: Address,
    pub pool: &'m mut [u8],
    pub table: &'m mut [u8],
}

/// The same, for calls that only read.
#[derive(Clone, Copy, Debug)]
pub(crate) struct Shown<'m> {
    pub base: Address,
    pub pool: &'m [u8],
    pub table: &'m [u8],
}

/// A slice's pointer, to read or to write.
macro_rules! pointer {
    (const $slice:expr) => {
        $slice.as_ptr()
    };
    (mut $slice:expr) => {
        $slice.as_mut_ptr()
    };
}

/// Hands what is lent, and then a call's own arguments, to the library.
///
/// Safety of each call: slices are valid for their lengths and never null, and what is lent overlaps
/// neither itself nor the other arguments, nor the locals that take the answers.
macro_rules! hand_over {
    ($lent:ident, $call:ident($pool:tt pool, $table:tt table $(, $argument:expr)*)) => {{
        let base = $lent.base.word().into();
        let (pool_len, table_len) = ($lent.pool.len(), $lent.table.len());
        let t = t_of(pool_len) as u64;
        let (pool, table) = (pointer!($pool $lent.pool), pointer!($table $lent.table));
        let number = unsafe { $call(base, t, pool, pool_len, table, table_len $(, $argument)*) };
        check(number, || ShapeFault::of($lent.base, pool_len, table_len))
    }};
}

/// Turns the library's number into a result; of a bad shape, with its fault.
fn check(number: u32, fault: impl FnOnce() -> Option<ShapeFault>) -> Result<(), Refusal> {
    match number {
        0 => Ok(()),
        _ => Err(Refusal::of_library(number, fault())),
    }
}

/// The t of a pool's length.
pub(crate) const fn t_of(pool: usize) -> usize {
    pool / pool_bytes(1)
}

impl Lent<'_> {
    /// What is lent, to read.
    pub fn shown(&self) -> Shown<'_> {
        Shown { base: self.base, pool: self.pool, table: self.table }
    }

    pub fn init(&mut self) -> Result<(), Refusal> {
        hand_over!(self, blockheap_init(const pool, mut table))
    }

    pub fn allocate(&mut self, bytes: u64) -> Result<(u32, i32), Refusal> {
        let (mut block, mut change) = (0, 0);
        hand_over!(self, blockheap_allocate(mut pool, mut table, bytes, &mut block, &mut change))?;
        Ok((block, change))
    }

    pub fn free(&mut self, block: u64) -> Result<i32, Refusal> {
        let mut change = 0;
        hand_over!(self, blockheap_free(const pool, mut table, block, &mut change))?;
        Ok(change)
    }

    pub fn reallocate(&mut self, block: u64, bytes: u64) -> Result<(u32, i32), Refusal> {
        let (mut new_block, mut change) = (0, 0);
        hand_over!(
            self,
            blockheap_reallocate(mut pool, mut table, block, bytes, &mut new_block, &mut change)
        )?;
        Ok((new_block, change))
    }

    /// Addresses and entries are four bytes each.
    pub fn collect(
        &mut self,
        roots: &[Address],
        stack: &mut [MarkEntry],
    ) -> Result<(u32, u32, i32), Refusal> {
        let (mut kept, mut rescans, mut change) = (0, 0, 0);
        hand_over!(self, blockheap_collect(
            const pool, mut table,
            roots.as_ptr().cast(), size_of_val(roots), stack.as_mut_ptr().cast(), size_of_val(stack),
            &mut kept, &mut rescans, &mut change
        ))?;
        Ok((kept, rescans, change))
    }

    pub fn store(&mut self, block: u64, word: u64, value: u32) -> Result<(), Refusal> {
        hand_over!(self, blockheap_store(mut pool, const table, block, word, value))
    }

    /// Answers the first address and the change.
    pub fn log_append(
        &mut self,
        first: Address,
        Entry { time, tips }: Entry,
        roots: &[Address],
        stack: &mut [MarkEntry],
    ) -> Result<(Address, i32), NotPlaced> {
        let (mut new_first, mut change) = (0, 0);
        let appended = hand_over!(self, blockheap_log_append(
            mut pool, mut table, first.word().into(), time, tips,
            roots.as_ptr().cast(), size_of_val(roots), stack.as_mut_ptr().cast(), size_of_val(stack),
            &mut new_first, &mut change
        ));
        match appended {
            Ok(()) => Ok((Address::from_word(new_first), change)),
            Err(refusal) => Err(NotPlaced { refusal, change }),
        }
    }

    /// Answers the first address and the change.
    pub fn log_drop(&mut self, first: Address) -> Result<(Address, i32), Refusal> {
        let (first, mut new_first, mut change) = (first.word().into(), 0, 0);
        hand_over!(
            self,
            blockheap_log_drop(const pool, mut table, first, &mut new_first, &mut change)
        )?;
        Ok((Address::from_word(new_first), change))
    }

    /// Sets the base too, and answers the number of roots.
    pub fn open_image(&mut self, image: &[u8], roots: &mut [Address]) -> Result<u32, Refusal> {
        let (mut base, mut count) = (0, 0);
        let (pool_len, table_len) = (self.pool.len(), self.table.len());
        let t = t_of(pool_len) as u64;
        let (pool, table) = (self.pool.as_mut_ptr(), self.table.as_mut_ptr());
        let (entries, roots_len) = (roots.as_mut_ptr().cast(), size_of_val(roots));
        // As hand_over does, and the image overlaps nothing that is lent to be written.
        let number = unsafe {
            blockheap_open_image(
                image.as_ptr(),
                image.len(),
                t,
                pool,
                pool_len,
                table,
                table_len,
                entries,
                roots_len,
                &mut base,
                &mut count,
            )
        };
        check(number, || ShapeFault::of_opening(image, pool_len, table_len))?;
        self.base = Address::from_word(base);
        Ok(count)
    }
}

impl Shown<'_> {
    pub fn survey(&self) -> Result<(u32, u32, u32), Refusal> {
        let (mut used, mut objects, mut longest) = (0, 0, 0);
        hand_over!(
            self,
            blockheap_survey(const pool, const table, &mut used, &mut objects, &mut longest)
        )?;
        Ok((used, objects, longest))
    }

    pub fn load(&self, block: u64, word: u64) -> Result<u32, Refusal> {
        let mut value = 0;
        hand_over!(self, blockheap_load(const pool, const table, block, word, &mut value))?;
        Ok(value)
    }

    pub fn write_image(&self, roots: &[Address], image: &mut [u8]) -> Result<u32, Refusal> {
        let mut length = 0;
        hand_over!(self, blockheap_write_image(
            const pool, const table,
            roots.as_ptr().cast(), size_of_val(roots), image.as_mut_ptr(), image.len(), &mut length
        ))?;
        Ok(length)
    }

    pub fn log_read(&self, first: Address, index: u64) -> Result<Entry, Refusal> {
        let (first, mut time, mut tips) = (first.word().into(), 0, 0);
        hand_over!(
            self,
            blockheap_log_read(const pool, const table, first, index, &mut time, &mut tips)
        )?;
        Ok(Entry { time, tips })
    }
}

/// `T` bytes and one more, for the table of a heap of this `T`, odd or even.
#[derive(Clone, Debug)]
#[repr(C)]
pub(crate) struct TableBytes<const T: usize> {
    bytes: [u8; T],
    one_more: u8,
}

impl<const T: usize> TableBytes<T> {
    pub const ZERO: Self = TableBytes { bytes: [0; T], one_more: 0 };

    /// The table.
    pub fn as_mut_slice(&mut self) -> &mut [u8] {
        let first = (self as *mut Self).cast();
        // The struct is T + 1 bytes without a gap, and a table has no more.
        unsafe { from_raw_parts_mut(first, table_bytes(T)) }
    }
}

/// Bytes as addresses, if none is left over.
pub(crate) fn addresses(bytes: &[u8]) -> Option<&[Address]> {
    let count = whole_words(bytes)?;
    // An address is four bytes, of any content and aligned to one.
    Some(unsafe { from_raw_parts(bytes.as_ptr().cast(), count) })
}

/// The same, to write.
pub(crate) fn addresses_mut(bytes: &mut [u8]) -> Option<&mut [Address]> {
    let count = whole_words(bytes)?;
    Some(unsafe { from_raw_parts_mut(bytes.as_mut_ptr().cast(), count) })
}

/// Bytes as entries of the mark stack, if none is left over.
pub(crate) fn mark_entries(bytes: &mut [u8]) -> Option<&mut [MarkEntry]> {
    let count = whole_words(bytes)?;
    // An entry is four bytes, of any content and aligned to one.
    Some(unsafe { from_raw_parts_mut(bytes.as_mut_ptr().cast(), count) })
}

fn whole_words(bytes: &[u8]) -> Option<usize> {
    (bytes.len() % WORD_BYTES == 0).then_some(bytes.len() / WORD_BYTES)
}
