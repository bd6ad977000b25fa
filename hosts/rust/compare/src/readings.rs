//! Wrong readings of words: a heap that leads a word to the wrong object does what a right heap does that
//! finds another word in its place.

use listheap::{Collected, ListHeap, Object};

/// What a word is read as.
pub type Reading = fn(&ListHeap, u32) -> u32;

/// No block has the address 0.
const NOWHERE: u32 = 0;

/// A collection that reads its roots and the words of objects so. The words themselves stay.
pub fn collect_reading(
    heap: &mut ListHeap,
    roots: &[u32],
    stack_entries: usize,
    [of_roots, of_words]: [Reading; 2],
) -> Collected {
    let mut read = heap.clone();
    let words = read.objects.iter_mut().flat_map(|object| &mut object.words);
    words.for_each(|word| *word = of_words(heap, *word));
    let roots: Vec<u32> = roots.iter().map(|root| of_roots(heap, *root)).collect();
    let collected = read.collect(&roots, stack_entries).expect("an accepted collection");
    heap.objects.retain(|object| read.owner(object.start).is_some());
    collected
}

/// Whether a root or a word of an object is read as another one.
pub fn reads_otherwise(heap: &ListHeap, roots: &[u32], [of_roots, of_words]: [Reading; 2]) -> bool {
    let other = |reading: Reading| move |word: &u32| reading(heap, *word) != *word;
    let mut words = heap.objects.iter().flat_map(|object| &object.words);
    roots.iter().any(other(of_roots)) || words.any(other(of_words))
}

/// Each word as it is.
pub fn right(_: &ListHeap, word: u32) -> u32 {
    word
}

/// Only the address of a head leads to an object.
pub fn heads_alone(heap: &ListHeap, word: u32) -> u32 {
    losing(heap, word, |object, block| block > object.start)
}

/// No head is found that is 300 blocks or more before.
pub fn near_heads(heap: &ListHeap, word: u32) -> u32 {
    losing(heap, word, |object, block| block - object.start >= 300)
}

/// No head is found in an earlier byte of the planes.
pub fn heads_in_a_byte(heap: &ListHeap, word: u32) -> u32 {
    losing(heap, word, |object, block| block / 8 > object.start / 8)
}

/// No head is found in an earlier eight bytes of the planes.
pub fn heads_in_8_bytes(heap: &ListHeap, word: u32) -> u32 {
    losing(heap, word, |object, block| block / 64 > object.start / 64)
}

/// No head is found before the eight bytes of the planes that are before the block's own.
pub fn heads_in_16_bytes(heap: &ListHeap, word: u32) -> u32 {
    losing(heap, word, |object, block| block / 64 > object.start / 64 + 1)
}

/// A tail leads to the block before the head.
pub fn before_the_head(heap: &ListHeap, word: u32) -> u32 {
    match addressed(heap, word) {
        Some((object, block)) if block > object.start => {
            address(heap, object.start).wrapping_sub(16)
        }
        _ => word,
    }
}

/// The free block directly behind an object leads to it.
pub fn one_block_longer(heap: &ListHeap, word: u32) -> u32 {
    match object_before(heap, word) {
        Some(object) if heap.block_at(word) == Some(object.end()) => address(heap, object.start),
        _ => word,
    }
}

/// A free block leads to the object before it.
pub fn free_blocks(heap: &ListHeap, word: u32) -> u32 {
    object_before(heap, word).map_or(word, |object| address(heap, object.start))
}

/// An address inside a block leads where the block's own leads.
pub fn inside_blocks(_: &ListHeap, word: u32) -> u32 {
    word - word % 16
}

/// The word, unless the block of an object that has this address is lost.
fn losing(heap: &ListHeap, word: u32, lost: impl Fn(&Object, u64) -> bool) -> u32 {
    match addressed(heap, word) {
        Some((object, block)) if lost(object, block) => NOWHERE,
        _ => word,
    }
}

/// The object to which the word leads, and the block of it that has this address.
fn addressed(heap: &ListHeap, word: u32) -> Option<(&Object, u64)> {
    let block = heap.block_at(word)?;
    Some((&heap.objects[heap.owner(block)?], block))
}

/// The last object before a free block that has this address.
fn object_before(heap: &ListHeap, word: u32) -> Option<&Object> {
    let in_heap = |block: &u64| *block < heap.blocks;
    let is_free = |block: &u64| heap.owner(*block).is_none();
    let block = heap.block_at(word).filter(in_heap).filter(is_free)?;
    let before = heap.objects.partition_point(|object| object.start < block);
    heap.objects[..before].last()
}

fn address(heap: &ListHeap, block: u64) -> u32 {
    (heap.base + 16 * block) as u32
}
