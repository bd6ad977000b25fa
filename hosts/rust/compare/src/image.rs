//! The image of a heap, section by section: read from lent memory block by block, and from a file.

use crate::planes::FREE;
use crate::Buffer::{Image, Pool, Roots};
use crate::{Guarded, Lent};
use std::ops::Range;

/// A section of an image.
#[derive(Clone, Debug, PartialEq, Eq)]
pub struct Section {
    pub count: u16,
    pub items: Vec<u8>,
}

/// How many bytes an item has of the base, of the table, of the blocks and of the roots.
const ITEM_BYTES: [usize; 4] = [4, 1, 16, 4];

/// The file of these sections.
pub fn file(sections: &[Section]) -> Vec<u8> {
    let bytes = |section: &Section| [&section.count.to_le_bytes()[..], &section.items].concat();
    sections.iter().flat_map(bytes).collect()
}

/// The sections of a file by their counts, if they are all that it has.
pub fn read(file: &[u8]) -> Option<Vec<Section>> {
    let (sections, rest) = whole_sections(file);
    (sections.len() == ITEM_BYTES.len() && rest.is_empty()).then_some(sections)
}

/// The sections of a file by their counts, up to one that is cut short, and the bytes behind them.
pub fn whole_sections(mut file: &[u8]) -> (Vec<Section>, &[u8]) {
    let mut sections = Vec::new();
    while let Some(section) = ITEM_BYTES.get(sections.len()).and_then(|bytes| first(file, *bytes)) {
        file = &file[2 + section.items.len()..];
        sections.push(section);
    }
    (sections, file)
}

/// The section at the front of a file, with items of so many bytes.
fn first(file: &[u8], item_bytes: usize) -> Option<Section> {
    let (count, rest) = file.split_first_chunk()?;
    let count = u16::from_le_bytes(*count);
    let items = rest.get(..usize::from(count) * item_bytes)?.to_vec();
    Some(Section { count, items })
}

impl Lent {
    /// The sections of the heap's image with its roots.
    pub fn sections(&self) -> [Section; 4] {
        let used: Vec<u64> = self.used().collect();
        let blocks = used.iter().flat_map(|block| &self[Pool][bytes_of(*block)]);
        [
            Section { count: 1, items: (self.base as u32).to_le_bytes().to_vec() },
            Section { count: self.t as u16, items: self.numbers() },
            Section { count: used.len() as u16, items: blocks.copied().collect() },
            Section { count: (self[Roots].len() / 4) as u16, items: self[Roots].to_vec() },
        ]
    }

    /// The length of that image.
    pub fn image_bytes(&self) -> usize {
        12 + self.t as usize + 16 * self.used().count() + self[Roots].len()
    }

    /// Lends an output of this length for an image, with the same byte everywhere.
    pub fn set_output(&mut self, length: usize) {
        self[Image] = Guarded::new(&vec![0xE7; length]);
    }

    /// The blocks that are not free, rising.
    pub fn used(&self) -> impl Iterator<Item = u64> + '_ {
        (0..self.blocks()).filter(|block| self.entry(*block) != FREE)
    }
}

/// Where a block's bytes are in the pool.
pub fn bytes_of(block: u64) -> Range<usize> {
    16 * block as usize..16 * (block as usize + 1)
}

#[cfg(test)]
mod tests {
    use super::*;

    /// The second and third of four blocks are an object; each block's bytes are its number.
    fn heap() -> Lent {
        let mut lent = Lent::of_numbers(4096, &[0x24]);
        (0..4).for_each(|block| lent[Pool][bytes_of(block)].fill(block as u8));
        lent.set_roots(&[4112]);
        lent
    }

    #[test]
    fn a_heap_has_four_sections() {
        let blocks = [[1; 16], [2; 16]].concat();
        let expected =
            [(1, vec![0, 16, 0, 0]), (1, vec![0x24]), (2, blocks), (1, vec![16, 16, 0, 0])];
        let sections = heap().sections().map(|section| (section.count, section.items));
        assert_eq!(sections, expected);
        assert_eq!(file(&heap().sections()).len(), heap().image_bytes());
    }

    #[test]
    fn a_file_is_read_to_its_end() {
        let file = file(&heap().sections());
        assert_eq!(read(&file), Some(heap().sections().to_vec()));
        assert!((0..file.len()).all(|length| read(&file[..length]).is_none()));
        assert_eq!(read(&[&file[..], &[0]].concat()), None);
        assert_eq!(whole_sections(&file[..8]), (heap().sections()[..1].to_vec(), &file[6..8]));
        let longer = [&file[..], &[7]].concat();
        assert_eq!(whole_sections(&longer), (heap().sections().to_vec(), &[7][..]));
    }
}
