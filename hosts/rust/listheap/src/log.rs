//! The rain log: a list of objects of two blocks, the oldest first. Words 0 to 2 of each are the address of the
//! next one, or 0 in the last, a time and a tip count.

use crate::collect::{MAX_ROOTS, MAX_STACK_ENTRIES};
use crate::heap::BLOCK_BYTES;
use crate::{ListHeap, Refusal};

const ENTRY_BLOCKS: u64 = 2;

// The words of an entry.
const NEXT: usize = 0;
const TIME: usize = 1;
const TIPS: usize = 2;

#[derive(Clone, Copy, Debug, PartialEq, Eq)]
pub struct Entry {
    pub time: u32,
    pub tips: u32,
}

/// What an append did.
#[derive(Clone, Copy, Debug, PartialEq, Eq)]
pub struct Appended {
    /// The first address; none if there was no room even after the collection.
    pub first: Option<u64>,
    /// The change in used blocks, the collection's with it.
    pub change: i64,
    /// Whether it collected.
    pub collected: bool,
}

/// What a drop did.
#[derive(Clone, Copy, Debug, PartialEq, Eq)]
pub struct Dropped {
    pub first: u64,
    pub change: i64,
}

impl ListHeap {
    /// Where there is no room the collection stands, and so that is no refusal here.
    pub fn log_append(
        &mut self,
        first: u64,
        entry: Entry,
        roots: &[u32],
        stack_entries: usize,
    ) -> Result<Appended, Refusal> {
        if roots.len() >= MAX_ROOTS {
            return Err(Refusal::TooManyRoots);
        }
        if stack_entries > MAX_STACK_ENTRIES {
            return Err(Refusal::StackTooLong);
        }
        let entries = self.log(first)?;
        let mut change = 0;
        let mut room = self.allocate(BLOCK_BYTES * ENTRY_BLOCKS);
        let collected = room.is_err();
        if collected {
            let first_address = u32::try_from(first).expect("the address of an entry, or 0");
            let roots = [&[first_address], roots].concat();
            change = self.collect(&roots, stack_entries)?.change;
            room = self.allocate(BLOCK_BYTES * ENTRY_BLOCKS);
        }
        let Ok(placed) = room else {
            return Ok(Appended { first: None, change, collected });
        };
        self.set_word(placed.block, TIME, entry.time);
        self.set_word(placed.block, TIPS, entry.tips);
        let address = self.base + BLOCK_BYTES * placed.block;
        if let Some(last) = entries.last() {
            self.set_word(*last, NEXT, address as u32);
        }
        let first = if entries.is_empty() { address } else { first };
        Ok(Appended { first: Some(first), change: change + placed.change, collected })
    }

    pub fn log_read(&self, first: u64, index: u64) -> Result<Entry, Refusal> {
        let entries = self.log(first)?;
        let index = usize::try_from(index).unwrap_or(usize::MAX);
        let block = *entries.get(index).ok_or(Refusal::NoEntry)?;
        Ok(Entry { time: self.word(block, TIME), tips: self.word(block, TIPS) })
    }

    pub fn log_drop(&mut self, first: u64) -> Result<Dropped, Refusal> {
        let entries = self.log(first)?;
        let oldest = *entries.first().ok_or(Refusal::NoEntry)?;
        let first = self.word(oldest, NEXT).into();
        Ok(Dropped { first, change: self.free(oldest)? })
    }

    /// The heads of the log's entries.
    pub fn log(&self, first: u64) -> Result<Vec<u64>, Refusal> {
        let (mut entries, mut address) = (Vec::new(), first);
        while address != 0 {
            let block = self.entry_at(address).ok_or(Refusal::NoLog)?;
            if entries.contains(&block) {
                return Err(Refusal::NoLog);
            }
            entries.push(block);
            address = self.word(block, NEXT).into();
        }
        Ok(entries)
    }

    /// The head that has this address, of an object of two blocks.
    fn entry_at(&self, address: u64) -> Option<u64> {
        let block = self.block_at(u32::try_from(address).ok()?)?;
        let object = &self.objects[self.owner(block)?];
        (object.start == block && object.blocks == ENTRY_BLOCKS).then_some(block)
    }

    /// A word of an entry.
    fn word(&self, block: u64, word: usize) -> u32 {
        self.load(block, word as u64).expect("a word of an entry")
    }

    fn set_word(&mut self, block: u64, word: usize, value: u32) {
        self.store(block, word as u64, value).expect("a word of an entry");
    }
}

#[cfg(test)]
mod tests {
    use super::*;
    use crate::Object;

    const RAIN: Entry = Entry { time: 60, tips: 3 };

    /// Twelve blocks from address 4,096: objects of two blocks at 0, 3 and 9, of one at 2, of three at 6, each
    /// with this word 0.
    fn heap(next: [u32; 5]) -> ListHeap {
        let parts = [(0, 2), (2, 1), (3, 2), (6, 3), (9, 2)];
        let objects = parts.into_iter().zip(next).map(|((start, blocks), next)| {
            let mut words = vec![9; 4 * blocks as usize];
            words[NEXT] = next;
            Object { start, blocks, words }
        });
        ListHeap { objects: objects.collect(), ..ListHeap::empty(4096, 12) }
    }

    fn address(block: u32) -> u32 {
        4096 + 16 * block
    }

    #[test]
    fn a_log_is_followed_to_its_end() {
        let heap = heap([address(9), 0, 0, 0, address(3)]);
        assert_eq!(heap.log(0), Ok(vec![]));
        assert_eq!(heap.log(4096), Ok(vec![0, 9, 3]));
        assert_eq!(heap.log(address(3).into()), Ok(vec![3]));
    }

    #[test]
    fn what_is_no_entry_is_no_log_in_any_place() {
        let beside =
            [address(1), address(2), address(5), address(6), 4097, 4096 - 16, address(12), 1];
        for word in beside {
            assert_eq!(heap([0; 5]).log(word.into()), Err(Refusal::NoLog), "{word}");
            assert_eq!(heap([address(3), 0, word, 0, 0]).log(4096), Err(Refusal::NoLog), "{word}");
        }
        assert_eq!(heap([0; 5]).log((1 << 32) + 4096), Err(Refusal::NoLog));
    }

    #[test]
    fn a_repetition_is_no_log() {
        for back in [0, 3, 9] {
            let heap = heap([address(3), 0, address(9), 0, address(back)]);
            assert_eq!(heap.log(4096), Err(Refusal::NoLog), "{back}");
        }
    }

    #[test]
    fn an_append_collects_if_there_is_no_room() {
        let mut heap = heap([address(3), 0, 0, 0, 0]);
        let appended = heap.log_append(4096, RAIN, &[], 0);
        let change = -1 - 3 - 2 + 2;
        assert_eq!(appended, Ok(Appended { first: Some(4096), change, collected: true }));
        assert_eq!(heap.log(4096), Ok(vec![0, 3, 5]));
        assert_eq!(heap.log_read(4096, 2), Ok(RAIN));
        assert_eq!(heap.load(5, 3), Ok(0));
    }

    #[test]
    fn a_collection_stands_that_makes_too_little_room() {
        let mut heap = heap([address(3), 0, 0, 0, 0]);
        let roots = [6, 9].map(address);
        let appended = heap.log_append(4096, RAIN, &roots, 0);
        assert_eq!(appended, Ok(Appended { first: None, change: -1, collected: true }));
        assert_eq!(
            heap.objects.iter().map(|object| object.start).collect::<Vec<_>>(),
            [0, 3, 6, 9]
        );
    }

    #[test]
    fn a_log_is_dropped_from_its_front() {
        let mut heap = ListHeap::empty(4096, 8);
        assert_eq!(heap.log_drop(0), Err(Refusal::NoEntry));
        for tips in 0..3 {
            heap.log_append(if tips == 0 { 0 } else { 4096 }, Entry { tips, ..RAIN }, &[], 0)
                .expect("room");
        }
        assert_eq!(heap.log_drop(4096), Ok(Dropped { first: 4128, change: -2 }));
        assert_eq!(heap.log_read(4128, 1), Ok(Entry { tips: 2, ..RAIN }));
        assert_eq!(heap.log_read(4128, 2), Err(Refusal::NoEntry));
        assert_eq!(heap.log_read(4128, u64::MAX), Err(Refusal::NoEntry));
    }

    #[test]
    fn an_append_takes_4095_roots() {
        for (roots, refused) in [(4095, None), (4096, Some(Refusal::TooManyRoots))] {
            let mut heap = ListHeap::empty(4096, 4);
            let appended = heap.log_append(0, RAIN, &vec![0; roots], 64);
            assert_eq!(appended.err(), refused);
        }
        let mut heap = ListHeap::empty(4096, 4);
        assert_eq!(heap.log_append(1, RAIN, &[], 65), Err(Refusal::StackTooLong));
        assert_eq!(heap.log_append(1, RAIN, &[], 64), Err(Refusal::NoLog));
    }
}
