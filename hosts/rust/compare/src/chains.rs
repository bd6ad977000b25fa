//! The chain of a log, read from lent memory block by block.

use crate::planes::{FREE, TAIL};
use crate::Lent;
use std::collections::BTreeMap;

/// A log as far as it goes.
#[derive(Clone, Debug, PartialEq, Eq)]
pub struct Chain {
    /// The heads of its entries, the oldest first.
    pub heads: Vec<u64>,
    pub end: End,
}

/// What the address behind the entries of a chain is.
#[derive(Clone, Copy, Debug, PartialEq, Eq)]
pub enum End {
    /// It is 0: the chain is a log.
    Right,
    Tail,
    Free,
    InsideABlock,
    OutsideThePool,
    Beyond32Bits,
    OneBlock,
    ThreeBlocks,
    MoreBlocks,
    /// The head at that place of the chain.
    Again(usize),
}

impl Chain {
    pub fn is_log(&self) -> bool {
        self.end == End::Right
    }

    /// Whether an entry is one of the other chain too.
    pub fn meets(&self, other: &Chain) -> bool {
        self.heads.iter().any(|head| other.heads.contains(head))
    }
}

impl Lent {
    /// The chain from this address, in a heap whose lengths fit.
    pub fn chain(&self, first: u64) -> Chain {
        let (mut heads, mut places) = (Vec::new(), BTreeMap::new());
        let mut address = first;
        loop {
            match self.entry_or_end(&places, address) {
                Err(end) => return Chain { heads, end },
                Ok(head) => {
                    places.insert(head, heads.len());
                    heads.push(head);
                    address = self.word(4 * head as usize).into();
                }
            }
        }
    }

    /// The entry to which the address behind these leads, by head and place, or why there is none.
    fn entry_or_end(&self, places: &BTreeMap<u64, usize>, address: u64) -> Result<u64, End> {
        let offset = address.wrapping_sub(self.base);
        let (block, inside) = (offset / 16, offset % 16);
        match address {
            0 => Err(End::Right),
            _ if address >= 1 << 32 => Err(End::Beyond32Bits),
            _ if address < self.base || block >= self.blocks() => Err(End::OutsideThePool),
            _ if inside > 0 => Err(End::InsideABlock),
            _ => match (places.get(&block), self.entry(block)) {
                (Some(place), _) => Err(End::Again(*place)),
                (_, FREE) => Err(End::Free),
                (_, TAIL) => Err(End::Tail),
                _ => match self.object_blocks(block) {
                    1 => Err(End::OneBlock),
                    2 => Ok(block),
                    3 => Err(End::ThreeBlocks),
                    _ => Err(End::MoreBlocks),
                },
            },
        }
    }
}

#[cfg(test)]
mod tests {
    use super::*;

    /// Objects of two blocks at 0, 2 and 5, of one at 4, of three at 8 and of four at 12; block 7 and the last
    /// four are free.
    fn heap(next: [(usize, u32); 3]) -> Lent {
        let mut lent = Lent::of_numbers(4096, &[153, 37, 41, 169, 0]);
        next.iter().for_each(|(block, word)| lent.set_word(4 * block, *word));
        lent
    }

    fn address(block: u32) -> u32 {
        4096 + 16 * block
    }

    #[test]
    fn a_chain_is_read_to_its_end() {
        let lent = heap([(0, address(5)), (5, address(2)), (2, 0)]);
        assert_eq!(lent.chain(0), Chain { heads: vec![], end: End::Right });
        assert_eq!(lent.chain(4096), Chain { heads: vec![0, 5, 2], end: End::Right });
        assert!(lent.chain(4096).meets(&lent.chain(address(2).into())));
        assert!(!lent.chain(4096).meets(&lent.chain(0)));
    }

    #[test]
    fn every_wrong_end_is_told() {
        for (word, end) in [
            (address(1), End::Tail),
            (address(7), End::Free),
            (address(2) + 4, End::InsideABlock),
            (4096 - 16, End::OutsideThePool),
            (address(20), End::OutsideThePool),
            (address(4), End::OneBlock),
            (address(8), End::ThreeBlocks),
            (address(12), End::MoreBlocks),
            (address(0), End::Again(0)),
            (address(5), End::Again(1)),
            (address(2), End::Again(2)),
        ] {
            let lent = heap([(0, address(5)), (5, address(2)), (2, word)]);
            assert_eq!(lent.chain(4096), Chain { heads: vec![0, 5, 2], end }, "{word}");
        }
        let beyond = heap([(0, 0); 3]).chain((1 << 32) + 4096);
        assert_eq!(beyond, Chain { heads: vec![], end: End::Beyond32Bits });
    }
}
