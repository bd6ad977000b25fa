use crate::{Address, Heap, MarkEntry, NotPlaced, Refusal, View, BLOCK_BYTES, WORD_BYTES};
use core::iter::FusedIterator;

/// An entry of a [`Log`].
#[derive(Clone, Copy, Debug, PartialEq, Eq, Hash)]
pub struct Entry {
    /// When it rained.
    pub time: u32,
    /// How often the gauge tipped.
    pub tips: u32,
}

/// A rain log in a heap: a list of entries, the oldest first.
///
/// Each entry is an object of [`LOG_ENTRY_BYTES`](crate::LOG_ENTRY_BYTES). Its words 0 to 2 are the address of
/// the next one's head, 0 in the last one, the time and the tip count; the others are 0 in a new entry and are
/// not looked at later. A `Log` is only the first one's address, 0 if there is none: every call goes through
/// the whole list, and refuses what is no log.
///
/// To the other calls an entry is an object like any other. The log reads as before after any of them but an
/// init and an opening, if [`Log::first`] is among the roots of each collection, and nothing is stored into an
/// entry and none is freed or resized. The collection of an append to it has it among its roots; the first
/// addresses of other logs are for the caller to hand over.
///
/// ```
/// # use blockheap::{Address, Entry, Log, MarkEntry, Memory};
/// # fn main() -> Result<(), blockheap::Refusal> {
/// # let mut memory = Memory::<16>::new();
/// # let mut heap = memory.init(Address::from_word(4096))?;
/// let mut stack = [MarkEntry::EMPTY; 16];
/// let mut log = Log::new();
/// heap.log_append(&mut log, Entry { time: 600, tips: 3 }, &[], &mut stack)?;
/// heap.log_append(&mut log, Entry { time: 1200, tips: 7 }, &[], &mut stack)?;
/// heap.collect(&[log.first()], &mut stack)?;
/// assert_eq!(heap.log_read(&log, 1)?.tips, 7);
/// heap.log_drop(&mut log)?;
/// assert_eq!(heap.log_read(&log, 0)?, Entry { time: 1200, tips: 7 });
/// # Ok(())
/// # }
/// ```
#[derive(Clone, Copy, Debug, PartialEq, Eq)]
pub struct Log {
    first: Address,
}

impl Log {
    /// The log without entries, which needs no heap.
    pub const fn new() -> Log {
        Log::from_first(Address::NULL)
    }

    /// The log whose first entry has this address, as [`Log::first`] gave it: a root of an image, for one.
    /// Whether there is such a log each call finds out.
    pub const fn from_first(first: Address) -> Log {
        Log { first }
    }

    /// The address of the oldest entry, for the roots of a collection or an image. [`Address::NULL`] if there
    /// is none.
    pub const fn first(&self) -> Address {
        self.first
    }

    /// Whether it has no entries.
    pub fn is_empty(&self) -> bool {
        self.first == Address::NULL
    }
}

impl Default for Log {
    fn default() -> Self {
        Log::new()
    }
}

/// The entries of a log, the oldest first: see [`Heap::log_entries`].
#[derive(Clone, Debug)]
pub struct LogEntries<'m> {
    /// A heap in which a log begins at the next address.
    heap: View<'m>,
    next: Address,
}

impl Iterator for LogEntries<'_> {
    type Item = Entry;

    fn next(&mut self) -> Option<Entry> {
        let &[next, time, tips] = self.heap.first_words(self.next)?;
        self.next = next;
        Some(Entry { time: time.word(), tips: tips.word() })
    }
}

impl FusedIterator for LogEntries<'_> {}

impl<'m> View<'m> {
    /// As [`Heap::log_read`].
    ///
    /// # Errors
    /// As there.
    pub fn log_read(&self, log: &Log, index: u64) -> Result<Entry, Refusal> {
        self.shown.log_read(log.first, index)
    }

    /// As [`Heap::log_entries`].
    ///
    /// # Errors
    /// As there.
    pub fn log_entries(&self, log: &Log) -> Result<LogEntries<'m>, Refusal> {
        // No log has an entry of that index. What is no log has none at all, and is refused for that.
        match self.log_read(log, u64::MAX) {
            Ok(_) | Err(Refusal::NoEntry) => Ok(LogEntries { heap: *self, next: log.first }),
            Err(refusal) => Err(refusal),
        }
    }

    /// The first three words of the block that has this address. No block has the address 0.
    fn first_words(&self, address: Address) -> Option<&'m [Address; 3]> {
        let start = self.block_at(address)?.number() as usize * BLOCK_BYTES;
        let words = self.shown.pool.get(start..start + 3 * WORD_BYTES)?;
        Address::all_in(words).ok()?.first_chunk()
    }
}

impl Heap<'_> {
    /// Adds an entry behind the last one of a log and answers the change in used blocks.
    ///
    /// If there is no room for it, all objects are freed that no chain of pointers leads to from the log or
    /// from these roots, and the change has both. The mark stack is that of [`Heap::collect`]; without a
    /// collection it is not touched.
    ///
    /// ```
    /// # use blockheap::{Address, Entry, Log, MarkEntry, Memory, Refusal};
    /// # fn main() -> Result<(), Refusal> {
    /// let mut memory = Memory::<1>::new(); // four blocks
    /// let mut heap = memory.init(Address::from_word(4096))?;
    /// let (mut log, rain) = (Log::new(), Entry { time: 600, tips: 3 });
    /// heap.allocate(48)?; // garbage
    /// assert_eq!(heap.log_append(&mut log, rain, &[], &mut [])?, -3 + 2);
    /// assert_eq!(heap.log_append(&mut log, rain, &[], &mut [])?, 2);
    /// let full = heap.log_append(&mut log, rain, &[], &mut []).unwrap_err();
    /// assert_eq!((full.refusal, full.change), (Refusal::NoRoom, 0));
    /// # Ok(())
    /// # }
    /// ```
    ///
    /// # Errors
    /// In this order: [`BadShape`](Refusal::BadShape), [`BadTable`](Refusal::BadTable),
    /// [`TooManyRoots`](Refusal::TooManyRoots) if there are more than [`MAX_LOG_ROOTS`](crate::MAX_LOG_ROOTS),
    /// [`StackTooLong`](Refusal::StackTooLong), [`NoLog`](Refusal::NoLog), and [`NoRoom`](Refusal::NoRoom) if
    /// there are no two free blocks side by side even after the collection, which then stands.
    pub fn log_append(
        &mut self,
        log: &mut Log,
        entry: Entry,
        roots: &[Address],
        stack: &mut [MarkEntry],
    ) -> Result<i32, NotPlaced> {
        let (first, change) = self.lent.log_append(log.first, entry, roots, stack)?;
        log.first = first;
        Ok(change)
    }

    /// Reads an entry of a log, counted from 0, the oldest.
    ///
    /// # Errors
    /// [`BadShape`](Refusal::BadShape), [`BadTable`](Refusal::BadTable), [`NoLog`](Refusal::NoLog),
    /// [`NoEntry`](Refusal::NoEntry).
    pub fn log_read(&self, log: &Log, index: u64) -> Result<Entry, Refusal> {
        self.view().log_read(log, index)
    }

    /// All entries of a log, the oldest first. The library goes through the log once, and refuses what is none;
    /// then each entry costs one step, where [`Heap::log_read`] goes through the whole log for each.
    ///
    /// ```
    /// # use blockheap::{Address, Entry, Log, Memory};
    /// # fn main() -> Result<(), blockheap::Refusal> {
    /// # let mut memory = Memory::<16>::new();
    /// # let mut heap = memory.init(Address::from(4096))?;
    /// let mut log = Log::new();
    /// heap.log_append(&mut log, Entry { time: 600, tips: 3 }, &[], &mut [])?;
    /// heap.log_append(&mut log, Entry { time: 1200, tips: 7 }, &[], &mut [])?;
    /// assert_eq!(heap.log_entries(&log)?.map(|entry| entry.tips).sum::<u32>(), 10);
    /// # Ok(())
    /// # }
    /// ```
    ///
    /// # Errors
    /// [`BadShape`](Refusal::BadShape), [`BadTable`](Refusal::BadTable), [`NoLog`](Refusal::NoLog): as a read of
    /// any entry.
    pub fn log_entries(&self, log: &Log) -> Result<LogEntries<'_>, Refusal> {
        self.view().log_entries(log)
    }

    /// Frees the oldest entry of a log and answers the change in used blocks, -2.
    ///
    /// # Errors
    /// [`BadShape`](Refusal::BadShape), [`BadTable`](Refusal::BadTable), [`NoLog`](Refusal::NoLog),
    /// [`NoEntry`](Refusal::NoEntry).
    pub fn log_drop(&mut self, log: &mut Log) -> Result<i32, Refusal> {
        let (first, change) = self.lent.log_drop(log.first)?;
        log.first = first;
        Ok(change)
    }
}
