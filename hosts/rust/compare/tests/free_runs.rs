//! Runs of free blocks that are known beforehand: the library reads many entries at a time, and a
//! run may begin and end at any of them.

use compare::planes::{FREE, HEAD, TAIL};
use compare::{library, Call, Lent, Reply};
use std::ops::Range;

/// A heap whose table holds an object in each block.
fn full(t: u64) -> Lent {
    let mut lent = Lent::empty(4096, t);
    lent.set_entries(0..4 * t, HEAD);
    lent
}

/// A table with these holes, and objects of so many blocks between them. Returns how many objects.
fn lay_out(lent: &mut Lent, holes: &[Range<u64>], object_blocks: u64) -> u64 {
    let (mut objects, mut left) = (0, 0);
    for block in 0..lent.blocks() {
        if holes.iter().any(|hole| hole.contains(&block)) {
            lent.set_entry(block, FREE);
            left = 0;
        } else if left == 0 {
            lent.set_entry(block, HEAD);
            (objects, left) = (objects + 1, object_blocks - 1);
        } else {
            lent.set_entry(block, TAIL);
            left -= 1;
        }
    }
    objects
}

/// The library's survey answers these numbers.
fn survey_is(lent: &mut Lent, free: u64, objects: u64, longest: u64) {
    let parts = [lent.blocks() - free, objects, longest].map(|part| part as i64);
    let expected = Reply::accepted(&Call::Survey, &parts);
    assert_eq!(library(&Call::Survey, lent), expected, "{longest} free blocks in a row, {lent}");
}

/// One run after the other, from each of the starts: longer by a block each time.
fn surveys_of_runs(t: u64, starts: impl Iterator<Item = u64>) {
    let blocks = 4 * t;
    for start in starts {
        let mut lent = full(t);
        for end in start..blocks {
            lent.set_entry(end, FREE);
            let length = end + 1 - start;
            survey_is(&mut lent, length, blocks - length, length);
        }
    }
}

#[test]
fn a_run_is_found_at_every_place_of_every_small_table() {
    for t in (1..=25).chain(31..=35) {
        surveys_of_runs(t, 0..4 * t);
    }
}

#[test]
fn a_run_is_found_in_the_largest_tables() {
    for t in 1016..=1024 {
        surveys_of_runs(t, [0, 1, 63, 64, 65, 2047, 4000].into_iter());
    }
}

/// A used block in a run at every place cuts it in two, and the longer part counts.
#[test]
fn a_used_block_ends_a_run_at_every_place() {
    for t in 1..=50 {
        let blocks = 4 * t;
        let mut lent = Lent::empty(4096, t);
        for block in 0..blocks {
            lent.set_entry(block, HEAD);
            survey_is(&mut lent, blocks - 1, 1, block.max(blocks - 1 - block));
            lent.set_entry(block, FREE);
        }
    }
}

/// Two holes of many lengths within and around the first 64 blocks, between objects of one to three
/// blocks.
#[test]
fn the_longer_of_two_holes_is_found() {
    let mut lent = Lent::empty(4096, 23);
    let lengths = || (1..15).flat_map(|one| (1..18).map(move |other| (one, other)));
    let starts = (0..12).chain(36..52u64);
    for (start, object_blocks) in starts.flat_map(|start| (1..=3).map(move |o| (start, o))) {
        for (one, other) in lengths() {
            let next = start + one + object_blocks;
            let holes = [start..start + one, next..next + other];
            let objects = lay_out(&mut lent, &holes, object_blocks);
            survey_is(&mut lent, one + other, objects, one.max(other));
        }
    }
}
