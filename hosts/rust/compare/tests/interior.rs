//! Addresses of every block of an object, as roots and as words of another one: the library looks for the
//! head many entries at a time, and an object may begin and end at any of them.

use compare::Buffer::{Stack, Table};
use compare::{library, second, Call, Guarded, Lent, Random, Reply, Subject};
use std::ops::Range;

const BASE: u32 = 4096;

fn address(block: usize) -> u32 {
    BASE + 16 * block as u32
}

/// A heap of so many blocks, and the blocks of its objects.
struct Heap {
    blocks: usize,
    objects: Vec<Range<usize>>,
}

impl Heap {
    fn alone(blocks: usize, object: &Range<usize>) -> Heap {
        Heap { blocks, objects: vec![object.clone()] }
    }

    /// The object between two others that leave no block free, and one in the last block.
    fn between_others(blocks: usize, object: &Range<usize>) -> Heap {
        let last = blocks - 1;
        let parts = [0..object.start, object.clone(), object.end..last, last..blocks];
        Heap { blocks, objects: parts.into_iter().filter(|part| !part.is_empty()).collect() }
    }

    /// Objects and gaps of any lengths, and an object in the last blocks.
    fn drawn(random: &mut Random) -> Heap {
        let blocks = 4 * random.between(1, 1024);
        let last = blocks - random.between(1, blocks);
        let (mut objects, mut start) = (Vec::new(), 0);
        while start < last {
            let end = random.between(start + 1, last);
            if random.percent(80) {
                objects.push(start as usize..end as usize);
            }
            start = end;
        }
        objects.push(last as usize..blocks as usize);
        Heap { blocks: blocks as usize, objects }
    }

    /// Those objects alone of which a block has one of these addresses.
    fn addressed(&self, words: &[u32]) -> Heap {
        let mut objects = self.objects.clone();
        objects.retain(|object| object.clone().any(|block| words.contains(&address(block))));
        Heap { blocks: self.blocks, objects }
    }

    fn used(&self) -> i64 {
        self.objects.iter().map(|object| object.len() as i64).sum()
    }

    /// The low plane has the heads, the high one the tails.
    fn table(&self) -> Vec<u8> {
        let mut planes = [(); 2].map(|()| vec![0; self.blocks.div_ceil(8)]);
        for object in &self.objects {
            for block in object.clone() {
                let plane = usize::from(block > object.start);
                planes[plane][block / 8] |= 1 << (block % 8);
            }
        }
        planes.concat()
    }

    /// Each of the words is the one root in turn.
    fn collects_from_roots(&self, subject: Subject, words: impl Iterator<Item = u32>) {
        let mut lent = self.lent();
        for word in words {
            lent.set_roots(&[word]);
            self.collects(subject, &mut lent, &[word]);
        }
    }

    /// Each of the words is word 0 of the last block in turn, and that block's address the one root.
    fn collects_from_words(&self, subject: Subject, words: impl Iterator<Item = u32>) {
        let mut lent = self.lent();
        let (last, root) = (self.blocks - 1, address(self.blocks - 1));
        lent.set_roots(&[root]);
        for word in words {
            lent.set_word(4 * last, word);
            self.collects(subject, &mut lent, &[root, word]);
        }
    }

    /// All words of the last object are addresses of a few blocks, drawn with the root, which is a block of it.
    fn collects_from_drawn_words(&self, subject: Subject, random: &mut Random) {
        let mut lent = self.lent();
        lent[Stack] = Guarded::zeroed(256);
        let last = self.objects.last().expect("an object in the last blocks");
        let mut words =
            vec![address(random.between(last.start as u64, last.end as u64 - 1) as usize)];
        lent.set_roots(&words);
        for _ in 0..random.between(1, 6) {
            words.push(address(random.below(self.blocks as u64) as usize));
        }
        let mut drawn = vec![words[0]];
        for word in 4 * last.start..4 * last.end {
            drawn.push(random.pick(&words));
            lent.set_word(word, drawn[drawn.len() - 1]);
        }
        drawn.sort_unstable();
        drawn.dedup();
        self.collects(subject, &mut lent, &drawn);
    }

    fn lent(&self) -> Lent {
        let (t, pool) = (self.blocks as u64 / 4, vec![0; 16 * self.blocks]);
        let mut lent = Lent::new(BASE.into(), t, &pool, &self.table());
        lent[Stack] = Guarded::zeroed(4);
        lent
    }

    /// A collection keeps what has one of these addresses. The table is then set back.
    fn collects(&self, subject: Subject, lent: &mut Lent, words: &[u32]) {
        let (before, kept) = (lent[Table].clone(), self.addressed(words));
        let parts = [kept.objects.len() as i64, 0, kept.used() - self.used()];
        let expected = Reply::accepted(&Call::Collect, &parts);
        assert_eq!(subject(&Call::Collect, lent), expected, "{words:?} in {:?}", self.objects);
        assert_eq!(lent[Table][..], kept.table(), "{words:?} in {:?}", self.objects);
        lent[Table] = before;
    }
}

/// In a heap with this object, alone and between others, each of the blocks leads to its own object.
fn blocks_lead_to_their_objects(
    subject: Subject,
    heap_blocks: usize,
    object: &Range<usize>,
    blocks: impl Iterator<Item = usize> + Clone,
) {
    let words = blocks.map(address);
    Heap::alone(heap_blocks, object).collects_from_roots(subject, words.clone());
    if object.end < heap_blocks {
        let heap = Heap::between_others(heap_blocks, object);
        heap.collects_from_roots(subject, words.clone());
        heap.collects_from_words(subject, words);
    }
}

/// Every object that begins and ends at one of these borders, which rise.
fn objects_at(borders: &[usize]) -> impl Iterator<Item = Range<usize>> + '_ {
    let ends = |start: usize| borders.iter().copied().filter(move |end| *end > start);
    borders.iter().flat_map(move |start| ends(*start).map(move |end| *start..end))
}

/// Every block, in every heap of this t with an object anywhere.
fn in_heaps_of(subject: Subject, t: usize) {
    let blocks = 4 * t;
    let borders: Vec<usize> = (0..=blocks).collect();
    for object in objects_at(&borders) {
        blocks_lead_to_their_objects(subject, blocks, &object, 0..blocks);
    }
}

#[test]
fn in_small_heaps_every_block_leads_to_its_object() {
    for t in [1, 2, 3, 7, 8, 9, 16, 17] {
        in_heaps_of(&library, t);
    }
    in_heaps_of(&second, 9);
}

#[test]
fn every_block_leads_to_an_object_around_borders_of_8_64_and_128_blocks() {
    let borders = [0, 1, 3, 4, 5, 7, 8, 9, 63, 64, 65, 127, 128, 129, 191, 192, 255, 256, 257];
    for object in objects_at(&borders) {
        blocks_lead_to_their_objects(&library, 260, &object, 0..260);
    }
}

#[test]
fn in_the_largest_heap_blocks_lead_to_objects_of_any_size() {
    let borders = [0, 1, 255, 256, 257, 2047, 2048, 3840, 4095, 4096];
    let around_every_64 = (0..4096).filter(|block| matches!(block % 64, 0 | 1 | 31 | 63));
    for object in objects_at(&borders) {
        blocks_lead_to_their_objects(&library, 4096, &object, around_every_64.clone());
    }
}

#[test]
fn no_other_address_leads_to_an_object() {
    let everywhere = BASE - 64..BASE + 16 * 8 + 64;
    for subject in [&library as Subject, &second] {
        Heap::alone(8, &(2..6)).collects_from_roots(subject, everywhere.clone());
        Heap::between_others(8, &(2..6)).collects_from_words(subject, everywhere.clone());
    }
}

/// One collection then follows many addresses, of tails of several objects among them.
#[test]
fn many_words_lead_to_the_objects_of_their_blocks() {
    let mut random = Random::new(2);
    for _ in 0..2000 {
        Heap::drawn(&mut random).collects_from_drawn_words(&library, &mut random);
    }
}
