//! A heap's entries, read and written in the two planes of its table.

use crate::Buffer::{Pool, Table};
use crate::{Guarded, Lent};
use std::ops::Range;

pub const FREE: u8 = 0;
pub const HEAD: u8 = 1;
pub const TAIL: u8 = 2;
pub const MARK: u8 = 3;

/// The largest t.
pub const MOST: u64 = 1024;

/// The length of the table of a heap of this t.
pub fn table_bytes(t: u64) -> usize {
    (t + t % 2) as usize
}

/// The entries that these numbers spell: four to a number, the first in the lowest bits.
pub fn entries_in(numbers: &[u8]) -> impl Iterator<Item = u8> + '_ {
    numbers.iter().flat_map(|number| [1, 4, 16, 64].map(|of| number / of % 4))
}

/// A bit of a table that is of no block: of the low plane (0) or the high one (1), and which bit of its last
/// byte.
#[derive(Clone, Copy, Debug, PartialEq, Eq)]
pub struct SpareBit {
    pub plane: usize,
    pub bit: u32,
}

impl SpareBit {
    /// All eight, which a heap has if its t is odd.
    pub fn all() -> impl Iterator<Item = SpareBit> {
        (0..2).flat_map(|plane| (4..8).map(move |bit| SpareBit { plane, bit }))
    }
}

impl Lent {
    /// A heap of this t whose blocks are free, in a pool of zeros.
    pub fn empty(base: u64, t: u64) -> Lent {
        Lent::new(base, t, &vec![0; 64 * t as usize], &vec![0; table_bytes(t)])
    }

    /// A heap in a pool of zeros with the entries that these numbers spell.
    pub fn of_numbers(base: u64, numbers: &[u8]) -> Lent {
        let mut lent = Lent::empty(base, numbers.len() as u64);
        (0..).zip(entries_in(numbers)).for_each(|(block, entry)| lent.set_entry(block, entry));
        lent
    }

    /// The numbers that spell the heap's entries.
    pub fn numbers(&self) -> Vec<u8> {
        let entries: Vec<u8> = (0..self.blocks()).map(|block| self.entry(block)).collect();
        let number = |four: &[u8]| four.iter().rev().fold(0, |above, entry| 4 * above + entry);
        entries.chunks(4).map(number).collect()
    }

    pub fn blocks(&self) -> u64 {
        4 * self.t
    }

    /// Whether t and the lengths of pool and table fit each other, so that entries can be looked at.
    pub fn fits(&self) -> bool {
        let lengths = || [64 * self.t as usize, table_bytes(self.t)];
        (1..=MOST).contains(&self.t) && [self[Pool].len(), self[Table].len()] == lengths()
    }

    pub fn entry(&self, block: u64) -> u8 {
        let [low, high] =
            [0, 1].map(|plane| self[Table][self.place(plane, block)] >> (block % 8) & 1);
        low | high << 1
    }

    pub fn set_entry(&mut self, block: u64, entry: u8) {
        for plane in [0, 1] {
            let place = self.place(plane, block);
            self.set_bit(place, (block % 8) as u32, entry >> plane & 1);
        }
    }

    pub fn set_entries(&mut self, blocks: Range<u64>, entry: u8) {
        blocks.for_each(|block| self.set_entry(block, entry));
    }

    /// Makes these blocks an object.
    pub fn set_object(&mut self, blocks: Range<u64>) {
        self.set_entry(blocks.start, HEAD);
        self.set_entries(blocks.start + 1..blocks.end, TAIL);
    }

    pub fn heads(&self) -> Vec<u64> {
        (0..self.blocks()).filter(|block| self.entry(*block) == HEAD).collect()
    }

    /// The number of blocks of the object whose head is `block`.
    pub fn object_blocks(&self, block: u64) -> u64 {
        let after = (block + 1..self.blocks()).take_while(|after| self.entry(*after) == TAIL);
        1 + after.count() as u64
    }

    /// The spare bits of a heap that fits; none if its t is even.
    pub fn spare_bits(&self) -> impl Iterator<Item = SpareBit> {
        SpareBit::all().filter({
            let odd = self.fits() && self.t % 2 == 1;
            move |_| odd
        })
    }

    /// A spare bit of a heap whose t is odd, 0 or 1.
    pub fn spare(&self, spare: SpareBit) -> u8 {
        self[Table][self.spare_place(spare)] >> spare.bit & 1
    }

    pub fn set_spare(&mut self, spare: SpareBit, value: u8) {
        self.set_bit(self.spare_place(spare), spare.bit, value);
    }

    /// The byte of the table that has a block's bit of a plane.
    fn place(&self, plane: usize, block: u64) -> usize {
        plane * (self[Table].len() / 2) + (block / 8) as usize
    }

    /// The last byte of a plane.
    fn spare_place(&self, spare: SpareBit) -> usize {
        (1 + spare.plane) * (self[Table].len() / 2) - 1
    }

    fn set_bit(&mut self, place: usize, bit: u32, value: u8) {
        let byte = &mut self[Table][place];
        *byte = *byte & !(1 << bit) | value << bit;
    }

    /// Lends another table.
    pub fn set_table(&mut self, table: &[u8]) {
        self[Table] = Guarded::new(table);
    }
}

#[cfg(test)]
mod tests {
    use super::*;

    const BYTES: [u8; 4] = [0x13, 0x0A, 0xEC, 0x06];
    const ENTRIES: [u8; 12] = [1, 1, 2, 2, 1, 2, 2, 2, 0, 3, 2, 1];
    const NUMBERS: [u8; 3] = [165, 169, 108];

    fn heap() -> Lent {
        Lent::new(4096, 3, &[0; 192], &BYTES)
    }

    #[test]
    fn entries_are_read_from_both_planes() {
        for (block, entry) in (0..).zip(ENTRIES) {
            assert_eq!(heap().entry(block), entry, "block {block}");
        }
        assert_eq!(heap().heads(), [0, 1, 4, 11]);
        assert_eq!([1, 4, 11].map(|head| heap().object_blocks(head)), [3, 4, 1]);
    }

    #[test]
    fn entries_are_written_to_both_planes() {
        let mut lent = Lent::new(4096, 3, &[0; 192], &[0xF5; 4]);
        (0..).zip(ENTRIES).for_each(|(block, entry)| lent.set_entry(block, entry));
        assert_eq!(lent[Table][..], [0x13, 0xFA, 0xEC, 0xF6]);
    }

    #[test]
    fn numbers_spell_entries() {
        assert_eq!(Lent::of_numbers(4096, &NUMBERS)[Table][..], BYTES);
        assert_eq!(heap().numbers(), NUMBERS);
    }

    #[test]
    fn an_odd_t_has_eight_spare_bits() {
        assert_eq!([1, 2, 3, 1023].map(table_bytes), [2, 2, 4, 1024]);
        assert_eq!(heap().spare_bits().count(), 8);
        assert_eq!(Lent::empty(4096, 4).spare_bits().count(), 0);
        for (spare, byte) in SpareBit::all().zip([1, 1, 1, 1, 3, 3, 3, 3]) {
            let mut lent = heap();
            lent.set_spare(spare, 1);
            assert_eq!(lent[Table][byte], BYTES[byte] | 1 << spare.bit, "{spare:?}");
            assert_eq!((lent.spare(spare), lent.numbers()), (1, NUMBERS.to_vec()), "{spare:?}");
        }
    }
}
