//! Where large objects begin: the search for room and growing in place at every place of a table. What is
//! right is read from the table block by block; the library reads many entries at a time.

use compare::aligned::{aligned, free_from, lowest_start, stays_aligned};
use compare::planes::{FREE, HEAD, TAIL};
use compare::Buffer::{Pool, Table};
use compare::{compare, library, second, wrapper, Call, Lent, Random, Reply, Subject};
use std::iter::once;
use std::ops::Range;

const BLOCK_BYTES: u64 = 16;

/// A heap with these holes and an object in each other block.
fn with_holes(t: u64, holes: impl IntoIterator<Item = Range<u64>>) -> Lent {
    let mut lent = Lent::empty(4096, t);
    lent.set_entries(0..4 * t, HEAD);
    holes.into_iter().for_each(|hole| lent.set_entries(hole, FREE));
    lent[Pool].iter_mut().zip((1..=255).cycle()).for_each(|(byte, value)| *byte = value);
    lent
}

/// The lowest start at which an object of so many blocks may begin.
fn lowest_aligned(lent: &Lent, blocks: u64) -> Option<u64> {
    lowest_start(lent, blocks, |start| aligned(start, blocks))
}

/// Makes one object of all that lie side by side.
fn join_objects(lent: &mut Lent) {
    for block in 1..lent.blocks() {
        if lent.entry(block - 1) != FREE && lent.entry(block) != FREE {
            lent.set_entry(block, TAIL);
        }
    }
}

/// An allocation of each number of blocks takes the lowest aligned start, beside small objects and beside
/// long ones.
fn allocates(mut lent: Lent, wanted: Range<u64>) {
    allocates_in(&mut lent, wanted.clone());
    join_objects(&mut lent);
    allocates_in(&mut lent, wanted);
}

/// The table is set back after each allocation.
fn allocates_in(lent: &mut Lent, wanted: Range<u64>) {
    let before = lent[Table].clone();
    for blocks in wanted {
        let call = Call::Allocate { bytes: BLOCK_BYTES * blocks };
        let start = lowest_aligned(lent, blocks);
        let expected = match start {
            Some(start) => Reply::accepted(&call, &[start as i64, blocks as i64]),
            None => Reply::refused(&call, 9),
        };
        assert_eq!(library(&call, lent), expected, "{blocks} blocks, {lent}");
        let left = lent[Table].to_vec();
        lent[Table].copy_from_slice(&before);
        if let Some(start) = start {
            lent.set_object(start..start + blocks);
        }
        assert_eq!(lent[Table][..], left, "{blocks} blocks, {lent}");
        lent[Table].copy_from_slice(&before);
    }
}

#[test]
fn a_hole_of_every_length_is_found_at_every_place() {
    for t in [1, 2, 3, 7, 8, 9, 16, 17, 18, 33] {
        for start in 0..4 * t {
            for end in start..(4 * t).min(start + 40) {
                allocates(with_holes(t, once(start..end + 1)), 1..41);
            }
        }
    }
}

#[test]
fn a_hole_is_found_in_the_last_blocks_of_the_largest_tables() {
    for t in 1021..=1024 {
        let blocks = 4 * t;
        for (start, length) in (blocks - 40..blocks).flat_map(|s| (1..10).map(move |l| (s, l))) {
            let hole = start..blocks.min(start + length);
            allocates(with_holes(t, once(hole)), 1..10);
        }
    }
}

/// Holes of one length from each block on, which fit or fit nowhere, and one in the last blocks.
#[test]
fn the_lowest_of_many_holes_is_found() {
    for t in [4, 9, 17, 18, 33] {
        let blocks = 4 * t;
        for (hole, used) in (1..16).flat_map(|hole| (1..5).map(move |used| (hole, used))) {
            for (first, last) in (0..4).flat_map(|first| (0..12).map(move |last| (first, last))) {
                let starts = (first..blocks).step_by((hole + used) as usize);
                let holes = starts.map(|start| start..blocks.min(start + hole));
                let holes = holes.chain(once(blocks - last..blocks));
                allocates(with_holes(t, holes), hole.max(3) - 2..hole + 6);
            }
        }
    }
}

/// Holes that are a block too short, then one that is long enough, at every place, then a longer one.
#[test]
fn short_holes_are_passed_over_at_every_place() {
    const T: u64 = 41;
    let blocks = 4 * T;
    for wanted in 1..13 {
        for start in 1..blocks - wanted {
            let too_short = (0..start - 1).step_by(wanted as usize);
            let too_short = too_short.map(|used| used + 1..(used + wanted).min(start - 1));
            let long_enough = [start..start + wanted, start + wanted + 1..blocks];
            let holes = too_short.chain(long_enough);
            allocates(with_holes(T, holes), wanted..wanted + 1);
        }
    }
}

#[test]
fn the_lowest_of_random_holes_is_found() {
    let random = &mut Random::new(5);
    for _ in 0..4000 {
        let t = random.between(1, 80);
        let longest = random.pick(&[2, 4, 8, 16, 70, 140]);
        let (mut holes, mut start) = (Vec::new(), random.below(longest));
        while start < 4 * t {
            let end = (4 * t).min(start + random.between(1, longest));
            holes.push(start..end);
            start = end + random.between(1, 9);
        }
        allocates(with_holes(t, holes), 1..longest + 2);
    }
}

/// What reallocate answers, read from the table.
fn resized(lent: &Lent, block: u64, blocks: u64) -> Option<u64> {
    let had = lent.object_blocks(block);
    let room = had + free_from(lent)[(block + had) as usize];
    let stays = blocks <= had || (aligned(block, blocks) && blocks <= room);
    if stays {
        Some(block)
    } else {
        lowest_aligned(lent, blocks)
    }
}

/// An object of up to nine blocks, at many places, with as many free blocks before as behind it and a hole
/// elsewhere, gets every number of blocks up to twelve.
#[test]
fn objects_grow_move_and_stay_at_every_place() {
    let places = (1..10).chain(59..66u64);
    for (start, had) in places.flat_map(|start| (1..10).map(move |had| (start, had))) {
        for (beside, elsewhere) in (0..10).flat_map(|b| [0, 4, 9, 12].map(|e| (b, e))) {
            let end = start + had;
            let holes = [start.saturating_sub(beside)..end + beside, 92..92 + elsewhere];
            let mut lent = with_holes(27, holes);
            lent.set_object(start..end);
            for blocks in 1..13 {
                let call = Call::Reallocate { block: start, bytes: BLOCK_BYTES * blocks };
                let (reply, _) = compare(&library, &call, &lent).unwrap_or_else(|f| panic!("{f}"));
                let expected = match resized(&lent, start, blocks) {
                    Some(block) => {
                        Reply::accepted(&call, &[block as i64, blocks as i64 - had as i64])
                    }
                    None => Reply::refused(&call, 9),
                };
                assert_eq!(reply, expected, "{call:?} on {lent}");
            }
        }
    }
}

/// From an init on no call leaves a large object that is not aligned.
#[test]
fn large_objects_are_aligned_from_init_on() {
    for subject in [&library as Subject, &wrapper, &second] {
        let runs = (0..40).map(|seed| (1 + seed % 20, seed, 500));
        for (t, seed, calls) in runs.chain([(1023, 76, 1000), (1024, 77, 1000)]) {
            let left = stays_aligned(subject, t, seed, calls);
            assert!(left.unwrap_or_else(|fault| panic!("{fault}")) > 0);
        }
    }
}
