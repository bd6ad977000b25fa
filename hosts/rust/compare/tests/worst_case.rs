//! The most rescans that a collection can take, and the longest scans from an address back to a head.

use compare::{compare, library, Call, Lent, Reply};

/// The address of a block.
fn address(block: usize) -> u32 {
    4096 + 16 * block as u32
}

/// The largest heap, in objects of so many blocks.
fn largest(object_blocks: u64) -> Lent {
    let mut lent = Lent::empty(4096, 1024);
    for start in (0..4096).step_by(object_blocks as usize) {
        lent.set_object(start..start + object_blocks);
    }
    lent
}

/// Collects from the last block.
fn collects(mut lent: Lent, answer: [i64; 3]) {
    lent.set_roots(&[address(4095)]);
    let (reply, _) =
        compare(&library, &Call::Collect, &lent).unwrap_or_else(|fault| panic!("{fault}"));
    assert_eq!(reply, Reply::accepted(&Call::Collect, &answer));
}

/// A chain through all 4,096 blocks from the last to the first, walked without a mark stack: each
/// pass finds one object more.
#[test]
fn a_falling_chain_without_a_stack_takes_a_rescan_for_each_object_but_one() {
    let mut lent = largest(1);
    for block in 1..4096 {
        lent.set_word(4 * block, address(block - 1));
    }
    collects(lent, [4096, 4095, 0]);
}

/// The same chain through objects of two blocks, each leading to the second block of the one before.
#[test]
fn a_falling_chain_through_tails_takes_as_many() {
    let mut lent = largest(2);
    for head in (2..4096).step_by(2) {
        lent.set_word(4 * head, address(head - 1));
    }
    collects(lent, [2048, 2047, 0]);
}

/// One object of all blocks, each of its words the address of the last one.
#[test]
fn every_word_of_the_largest_object_leads_from_its_last_block_to_its_head() {
    let mut lent = largest(4096);
    for word in 0..4 * 4096 {
        lent.set_word(word, address(4095));
    }
    collects(lent, [1, 0, 0]);
}
