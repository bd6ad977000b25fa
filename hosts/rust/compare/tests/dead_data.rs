//! Noninterference: pairs of heaps, long lists of calls. BLOCKHEAP_PAIRS asks for more pairs.

use compare::{library, run_pairs, wanted, Sizes};

const PAIRS: u64 = 600;

fn pairs_wanted() -> u64 {
    wanted("BLOCKHEAP_PAIRS", PAIRS)
}

fn pairs_agree(sizes: Sizes, seed: u64, pairs: u64) {
    let counts = run_pairs(&library, sizes, seed, pairs).unwrap_or_else(|fault| panic!("{fault}"));
    println!("t from {} to {}, answered alike: {counts:?}", sizes.least, sizes.most);
    assert!(counts.different_bytes > 0 && counts.refused > 0 && counts.different_rescans > 0);
    assert!(counts.images > 0 && counts.openings > 0);
    assert!(counts.appends > 0 && counts.reads > 0 && counts.drops > 0);
    assert!(counts.room_made > 0 && counts.without_room > 0);
}

#[test]
fn small_heaps_that_differ_in_dead_bytes_answer_alike() {
    pairs_agree(Sizes { least: 1, most: 12, calls_per_heap: 200 }, 3, pairs_wanted());
}

#[test]
fn large_heaps_that_differ_in_dead_bytes_answer_alike() {
    pairs_agree(Sizes { least: 13, most: 1024, calls_per_heap: 300 }, 33, pairs_wanted() / 10);
}
