//! A file that is to be a heap: any bytes at all, read from the front.

use crate::bytes::{base_fits, objects_of, words_of};
use crate::collect::MAX_ROOTS;
use crate::heap::WORDS_PER_BLOCK;
use crate::{ListHeap, Refusal};

const WORD_BYTES: usize = 4;
const BLOCK_BYTES: usize = 16;

/// What the sections of a file say. The base may be none of a heap, and the entries any.
#[derive(Clone, Debug, PartialEq, Eq)]
pub struct File {
    pub base: u32,
    pub entries: Vec<u8>,
    /// Of the blocks whose entry is not FREE.
    pub words: Vec<u32>,
    pub roots: Vec<u32>,
}

impl File {
    /// Reads a file up to its first fault.
    pub fn read(file: &[u8]) -> Result<File, Refusal> {
        let mut rest = Rest(file);
        let base = rest.section(WORD_BYTES, |count| count == 1, Refusal::BadCount)?;
        let table = rest.section(1, |count| (1..=1024).contains(&count), Refusal::BadCount)?;
        let entries = unpacked(table);
        let used = entries.iter().filter(|entry| **entry != 0).count();
        let blocks = rest.section(BLOCK_BYTES, |count| count == used, Refusal::BadCount)?;
        let roots = rest.section(WORD_BYTES, |count| count <= MAX_ROOTS, Refusal::TooManyRoots)?;
        if !rest.0.is_empty() {
            return Err(Refusal::TrailingBytes);
        }
        let [words, roots] = [blocks, roots].map(words_of);
        Ok(File { base: words_of(base)[0], entries, words, roots })
    }

    /// The heap of the file, if a heap of this t is to be, and its roots at the front of the list.
    pub fn open(&self, t: u64, list: &mut [u8]) -> Result<ListHeap, Refusal> {
        let blocks = self.entries.len() as u64;
        let fits = blocks / 4 == t && base_fits(self.base.into(), t);
        if !fits || list.len() % WORD_BYTES != 0 {
            return Err(Refusal::Shape);
        }
        let mut heap = ListHeap::empty(self.base.into(), blocks);
        heap.objects = objects_of(self.entries.iter().copied(), blocks)?;
        if list.len() / WORD_BYTES < self.roots.len() {
            return Err(Refusal::RootsTooShort);
        }
        let mut words = self.words.iter().copied();
        for object in &mut heap.objects {
            object.words =
                words.by_ref().take((object.blocks * WORDS_PER_BLOCK) as usize).collect();
        }
        for (entry, root) in list.chunks_exact_mut(WORD_BYTES).zip(&self.roots) {
            entry.copy_from_slice(&root.to_le_bytes());
        }
        Ok(heap)
    }
}

/// The entries of four blocks in each byte, the first in the lowest two bits.
fn unpacked(table: &[u8]) -> Vec<u8> {
    table.iter().flat_map(|four| [1, 4, 16, 64].map(|weight| four / weight % 4)).collect()
}

/// What of a file is not read yet.
struct Rest<'f>(&'f [u8]);

impl<'f> Rest<'f> {
    fn take(&mut self, length: usize) -> Result<&'f [u8], Refusal> {
        let (taken, rest) = self.0.split_at_checked(length).ok_or(Refusal::ImageTruncated)?;
        self.0 = rest;
        Ok(taken)
    }

    /// The items of the next section. A count that may not be is refused before them.
    fn section(
        &mut self,
        item_bytes: usize,
        may_be: impl Fn(usize) -> bool,
        refusal: Refusal,
    ) -> Result<&'f [u8], Refusal> {
        let count = self.take(2)?;
        let count = usize::from(count[0]) + 256 * usize::from(count[1]);
        if !may_be(count) {
            return Err(refusal);
        }
        self.take(item_bytes * count)
    }
}

#[cfg(test)]
mod tests {
    use super::*;
    use crate::image::tests::file;
    use crate::Object;

    fn changed(at: usize, byte: u8) -> Vec<u8> {
        let mut file = file();
        file[at] = byte;
        file
    }

    /// What a file opens to, in a heap of four blocks with a list of so many roots.
    fn opened(file: &[u8], entries: usize) -> Result<ListHeap, Refusal> {
        File::read(file)?.open(1, &mut vec![0; 4 * entries])
    }

    #[test]
    fn a_file_is_a_heap_and_roots() {
        let mut list = [0xEE; 12];
        let heap = File::read(&file()).and_then(|file| file.open(1, &mut list));
        let object = Object { start: 1, blocks: 2, words: (1..=8).collect() };
        assert_eq!(heap, Ok(ListHeap { objects: vec![object], ..ListHeap::empty(4096, 4) }));
        let roots = [0x10, 0x10, 0, 0, 0xFF, 0xFF, 0xFF, 0xFF];
        assert_eq!(list, [&roots[..], &[0xEE; 4]].concat()[..]);
    }

    #[test]
    fn the_first_fault_of_a_file_counts() {
        for length in 0..file().len() {
            assert_eq!(opened(&file()[..length], 0), Err(Refusal::ImageTruncated), "{length}");
        }
        for (count, refusal) in [
            (0, Refusal::BadCount),
            (6, Refusal::BadCount),
            (9, Refusal::BadCount),
            (43, Refusal::TooManyRoots),
        ] {
            let wrong = changed(count + 1, 0x20);
            assert_eq!(opened(&wrong, 0), Err(refusal), "{count}");
            assert_eq!(opened(&wrong[..count + 2], 0), Err(refusal), "{count}, and no items");
            assert_eq!(opened(&wrong[..count + 1], 0), Err(Refusal::ImageTruncated), "{count}");
        }
        let longer = [&file()[..], &[0]].concat();
        assert_eq!(opened(&longer, 0), Err(Refusal::TrailingBytes));
    }

    #[test]
    fn a_file_in_order_may_be_no_heap() {
        assert_eq!(opened(&changed(2, 8), 0), Err(Refusal::Shape));
        assert_eq!(File::read(&file()).unwrap().open(2, &mut [0; 8]), Err(Refusal::Shape));
        assert_eq!(File::read(&file()).unwrap().open(1, &mut [0; 9]), Err(Refusal::Shape));
        for table in [0x28, 0x34, 0x60] {
            assert_eq!(opened(&changed(8, table), 0), Err(Refusal::Table), "{table:#x}");
        }
        assert_eq!(opened(&file(), 1), Err(Refusal::RootsTooShort));
        assert!(opened(&file(), 2).is_ok());
    }
}
