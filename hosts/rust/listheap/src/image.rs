//! A heap as a file of four sections: its base, its table, the blocks of its objects, and roots.

use crate::bytes::entries_of;
use crate::collect::MAX_ROOTS;
use crate::{ListHeap, Refusal};

impl ListHeap {
    /// Writes the file to the front of the output and answers its length.
    pub fn write_image(&self, roots: &[u32], output: &mut [u8]) -> Result<u64, Refusal> {
        if roots.len() > MAX_ROOTS {
            return Err(Refusal::TooManyRoots);
        }
        let image = self.image(roots);
        let front = output.get_mut(..image.len()).ok_or(Refusal::OutputTooShort)?;
        front.copy_from_slice(&image);
        Ok(image.len() as u64)
    }

    fn image(&self, roots: &[u32]) -> Vec<u8> {
        let table = self.packed_table();
        let words: Vec<u32> =
            self.objects.iter().flat_map(|object| &object.words).copied().collect();
        let base = u32::try_from(self.base).expect("the base of an accepted heap");
        [
            section(1, bytes_of_words(&[base])),
            section(table.len(), table),
            section(self.used() as usize, bytes_of_words(&words)),
            section(roots.len(), bytes_of_words(roots)),
        ]
        .concat()
    }

    /// The entries of four blocks in each byte, the first in the lowest two bits.
    fn packed_table(&self) -> Vec<u8> {
        let entries = entries_of(&self.objects, self.blocks as usize);
        let fours = entries.chunks(4);
        fours.map(|four| four[0] + 4 * four[1] + 16 * four[2] + 64 * four[3]).collect()
    }
}

/// The items of a section behind their number.
fn section(count: usize, items: Vec<u8>) -> Vec<u8> {
    let count = u16::try_from(count).expect("the count of an accepted heap");
    [count.to_le_bytes().to_vec(), items].concat()
}

fn bytes_of_words(words: &[u32]) -> Vec<u8> {
    words.iter().flat_map(|word| word.to_le_bytes()).collect()
}

#[cfg(test)]
pub(crate) mod tests {
    use super::*;
    use crate::Object;

    /// Four blocks from address 4,096, with an object in the second and third.
    fn heap() -> ListHeap {
        let object = Object { start: 1, blocks: 2, words: (1..=8).collect() };
        ListHeap { objects: vec![object], ..ListHeap::empty(4096, 4) }
    }

    /// Its image with two roots.
    pub(crate) fn file() -> Vec<u8> {
        let blocks: Vec<u8> = (1..=8).flat_map(|word| [word, 0, 0, 0]).collect();
        let sections = [
            &[1, 0, 0, 16, 0, 0][..],
            &[1, 0, 0x24],
            &[2, 0],
            &blocks,
            &[2, 0, 0x10, 0x10, 0, 0, 0xFF, 0xFF, 0xFF, 0xFF],
        ];
        sections.concat()
    }

    #[test]
    fn an_image_has_four_sections() {
        assert_eq!(heap().image(&[4112, u32::MAX]), file());
    }

    #[test]
    fn an_output_may_be_longer_than_the_image_and_not_shorter() {
        let image = heap().image(&[]);
        for length in 0..image.len() {
            let mut output = vec![0xEE; length];
            assert_eq!(heap().write_image(&[], &mut output), Err(Refusal::OutputTooShort));
            assert_eq!(output, vec![0xEE; length]);
        }
        let mut output = vec![0xEE; image.len() + 3];
        assert_eq!(heap().write_image(&[], &mut output), Ok(image.len() as u64));
        assert_eq!(output, [&image[..], &[0xEE; 3]].concat());
    }

    #[test]
    fn more_than_4096_roots_are_refused_first() {
        let refused = heap().write_image(&[0; 4097], &mut []);
        assert_eq!(refused, Err(Refusal::TooManyRoots));
        assert_eq!(heap().write_image(&[0; 4096], &mut []), Err(Refusal::OutputTooShort));
    }
}
