//! Random logs: heaps that have them, whole and broken, and what is handed to the calls on them.

use crate::draw::{address, word_value, HUGE};
use crate::Buffer::Table;
use crate::{Lent, Random};
use std::collections::BTreeSet;

/// Lays out objects in a table, most of them of two blocks, and makes logs of these.
pub fn lay_out(random: &mut Random, lent: &mut Lent) {
    lent[Table].fill(0);
    let longest_gap = random.pick(&[0, 0, 1, 1, 5]);
    let mut block = random.below(longest_gap + 1);
    while block < lent.blocks() {
        let wanted = random.pick(&[2, 2, 2, 2, 2, 2, 2, 1, 3, 4]);
        let end = lent.blocks().min(block + wanted);
        lent.set_object(block..end);
        block = end + random.below(longest_gap + 1);
    }
    link(random, lent);
}

/// Makes an empty heap one log, as long as there is room for, and answers its first address.
pub fn fill(random: &mut Random, lent: &mut Lent) -> u64 {
    let mut heads: Vec<u64> = (0..lent.blocks()).step_by(2).collect();
    heads.iter().for_each(|head| lent.set_object(*head..head + 2));
    random.shuffle(&mut heads);
    for (entry, next) in heads.iter().zip(&heads[1..]) {
        lent.set_word(4 * *entry as usize, address(lent, *next));
    }
    address(lent, heads[0]).into()
}

/// Links the objects of two blocks to chains, in any order, and ends half of them as a log does. At times
/// their other words are pointers.
fn link(random: &mut Random, lent: &mut Lent) {
    let mut entries = entries(lent);
    random.shuffle(&mut entries);
    let pointers = random.percent(30);
    let mut rest = &entries[..];
    while !rest.is_empty() {
        let (chain, others) = rest.split_at(random.between(1, rest.len() as u64) as usize);
        for (entry, next) in chain.iter().zip(&chain[1..]) {
            lent.set_word(4 * *entry as usize, address(lent, *next));
        }
        let end = if random.percent(50) { 0 } else { wrong_end(random, lent, chain) };
        lent.set_word(4 * chain[chain.len() - 1] as usize, end);
        rest = others;
    }
    for entry in entries.iter().filter(|_| pointers) {
        (1..8).for_each(|word| {
            let value = word_value(random, lent);
            lent.set_word(4 * *entry as usize + word, value);
        });
    }
}

/// A next word that leads back into the chain, or to what is no entry.
fn wrong_end(random: &mut Random, lent: &Lent, chain: &[u64]) -> u32 {
    let others: Vec<u64> =
        lent.heads().into_iter().filter(|head| lent.object_blocks(*head) != 2).collect();
    match random.below(8) {
        0 => address(lent, chain[0]),
        1 => address(lent, chain[chain.len() - 1]),
        2 => address(lent, random.pick(chain)),
        3 | 4 if !others.is_empty() => address(lent, random.pick(&others)),
        _ => word_value(random, lent),
    }
}

/// The heads of the objects of two blocks.
fn entries(lent: &Lent) -> Vec<u64> {
    let mut heads = lent.heads();
    heads.retain(|head| lent.object_blocks(*head) == 2);
    heads
}

/// A first address: mostly of a log, or of what looks like one; at times 0, or of anything else.
pub fn first(random: &mut Random, lent: &Lent) -> u64 {
    match random.below(16) {
        0 => 0,
        1 | 2 => word_value(random, lent).into(),
        3 => random.pick(&HUGE).wrapping_add(some_first(random, lent)),
        _ => some_first(random, lent),
    }
}

/// The address of an object of two blocks, mostly of one to which no other such leads by its word 0.
fn some_first(random: &mut Random, lent: &Lent) -> u64 {
    let entries = entries(lent);
    if entries.is_empty() {
        return 0;
    }
    let next: BTreeSet<u32> = entries.iter().map(|entry| lent.word(4 * *entry as usize)).collect();
    let mut firsts = entries.clone();
    firsts.retain(|entry| !next.contains(&address(lent, *entry)));
    let among = if firsts.is_empty() || random.percent(20) { &entries } else { &firsts };
    address(lent, random.pick(among)).into()
}

/// An entry of the log, counted from 0, or one that it does not have.
pub fn index(random: &mut Random, lent: &Lent, first: u64) -> u64 {
    let length = lent.chain(first).heads.len() as u64;
    match random.below(10) {
        0 | 1 => length + random.pick(&[0, 0, 1, 5]),
        2 => random.pick(&HUGE).wrapping_add(random.below(length + 1)),
        3 => length.saturating_sub(1),
        4 => 0,
        _ => random.below(length.max(1)),
    }
}

/// A time or a tip count: any word, or one that is a pointer.
pub fn reading(random: &mut Random, lent: &Lent) -> u32 {
    if random.percent(30) {
        word_value(random, lent)
    } else {
        random.number() as u32
    }
}
