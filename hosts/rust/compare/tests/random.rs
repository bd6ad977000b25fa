//! Random runs of the library beside the plain-list heap. BLOCKHEAP_CALLS asks for more calls.

use compare::{library, run_walks, wanted, wrapper, Coverage, Sizes, Subject};
use std::time::Instant;

const CALLS: u64 = 400_000;

/// The heaps' sizes, each with its share of the calls in a hundred.
const SHARES: [(Sizes, u64); 5] = [
    (Sizes { least: 1, most: 2, calls_per_heap: 20 }, 30),
    (Sizes { least: 1, most: 16, calls_per_heap: 50 }, 45),
    (Sizes { least: 17, most: 128, calls_per_heap: 70 }, 16),
    (Sizes { least: 129, most: 1024, calls_per_heap: 20 }, 7),
    (Sizes { least: 1024, most: 1024, calls_per_heap: 20 }, 2),
];

fn calls_wanted() -> u64 {
    wanted("BLOCKHEAP_CALLS", CALLS)
}

fn run_all_sizes(name: &str, subject: Subject, seed: u64, calls: u64) -> Coverage {
    let mut coverage = Coverage::default();
    for (sizes, share) in SHARES {
        let (start, before) = (Instant::now(), coverage.calls());
        run_walks(subject, sizes, seed, calls * share / 100, &mut coverage)
            .unwrap_or_else(|fault| panic!("{name}: {fault}"));
        println!(
            "{name}: t from {:>4} to {:>4}: {:>7} calls agree ({:.1} s)",
            sizes.least,
            sizes.most,
            coverage.calls() - before,
            start.elapsed().as_secs_f64()
        );
    }
    coverage
}

#[test]
fn the_library_agrees_with_the_plain_list_heap() {
    let coverage = run_all_sizes("library", &library, 2018, calls_wanted());
    println!("{}", coverage.table());
    println!("{} calls compared", coverage.calls());
    assert_eq!(coverage.faults(), [] as [String; 0]);
}

#[test]
fn the_wrapper_agrees_with_the_plain_list_heap() {
    let coverage = run_all_sizes("wrapper", &wrapper, 1117, calls_wanted() / 8);
    assert_eq!(coverage.faults(), [] as [String; 0]);
}
