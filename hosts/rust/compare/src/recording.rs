//! Which calls are recorded for other processors: what must be reached there, and random runs.

use crate::draw::address;
use crate::files::run_files;
use crate::planes::MOST;
use crate::record::Record;
use crate::Buffer::{Image, Pool, Stack};
use crate::{
    compare, draw, image, library, logs, run_walks, Call, Coverage, Guarded, Lent, Random, Reply,
    Sizes, Subject,
};
use std::cell::RefCell;
use std::collections::BTreeSet;

const SEED: u64 = 21;

/// The random runs, each with its share of the calls in a hundred.
const SHARES: [(Sizes, u64); 4] = [
    (Sizes { least: 1, most: 2, calls_per_heap: 20 }, 48),
    (Sizes { least: 1, most: 16, calls_per_heap: 50 }, 44),
    (Sizes { least: 17, most: 128, calls_per_heap: 50 }, 5),
    (Sizes { least: MOST, most: MOST, calls_per_heap: 25 }, 3),
];

/// From here on to both sides lie numbers that are cut, or that wrap, where a number has 32 or 64 bits.
const BORDERS: [u64; 7] = [0, 1 << 31, 1 << 32, 1 << 33, 1 << 36, 1 << 60, 1 << 63];

/// Records calls on the library, so many of them random ones, or says what went wrong or was not reached.
pub fn record(calls: u64) -> Result<(Record, Coverage), String> {
    let record = RefCell::new(Record::default());
    let sizes = RefCell::new(BTreeSet::new());
    let subject = |call: &Call, lent: &mut Lent| -> Reply {
        let before = lent.clone();
        let reply = library(call, lent);
        record.borrow_mut().add(call, &before, &reply, lent);
        if reply.refusal == 0 {
            sizes.borrow_mut().insert(before.t);
        }
        reply
    };
    let mut coverage = Coverage::default();
    make_calls(&subject, calls, &mut coverage)?;
    let mut faults = coverage.faults();
    let unseen = (1..=MOST).filter(|t| !sizes.borrow().contains(t));
    faults.extend(unseen.map(|t| format!("no call on a heap of t {t} was accepted")));
    match faults.is_empty() {
        true => Ok((record.into_inner(), coverage)),
        false => Err(faults.join("\n")),
    }
}

fn make_calls(subject: Subject, calls: u64, coverage: &mut Coverage) -> Result<(), String> {
    for (sizes, share) in SHARES {
        run_walks(subject, sizes, SEED, calls * share / 100, coverage)?;
    }
    run_files(subject, 12, SEED, calls / 10, coverage)?;
    run_numbers(subject, coverage)?;
    run_stacks(subject, coverage)?;
    run_log(subject, coverage)?;
    run_sizes(subject, coverage)
}

fn make(
    subject: Subject,
    call: &Call,
    lent: &Lent,
    coverage: &mut Coverage,
) -> Result<Lent, String> {
    let (reply, after) = compare(subject, call, lent)?;
    coverage.count(call, lent, &reply);
    Ok(after)
}

/// Every size, from the smallest heap to the largest: calls that a sound heap does not refuse, and some drawn ones. The
/// pools begin with the same bytes, to keep the file short.
fn run_sizes(subject: Subject, coverage: &mut Coverage) -> Result<(), String> {
    let random = &mut Random::new(SEED);
    let pool = random.bytes(64 * MOST as usize);
    for t in 1..=MOST {
        let mut lent = Lent::empty(4096, t);
        lent[Pool].copy_from_slice(&pool[..64 * t as usize]);
        draw::furnish(random, &mut lent);
        let roots = draw::good_roots(random, &lent);
        lent.set_roots(&roots);
        lent[Stack] = Guarded::new(&draw::good_stack(random));
        let drawn = draw::call(random, &mut lent);
        for call in [Call::Survey, Call::Collect, drawn] {
            lent = make(subject, &call, &lent, coverage)?;
        }
    }
    Ok(())
}

/// A log of three entries in a small heap.
fn small_log() -> Lent {
    let mut lent = Lent::of_numbers(4096, &[0b10_01_10_01, 0b00_00_10_01, 0]);
    lent.set_word(0, address(&lent, 2));
    lent.set_word(8, address(&lent, 4));
    lent[Image] = Guarded::new(&image::file(&lent.sections()));
    lent
}

/// Each number that a call takes in turn, from below each border to above it and to the borders' sums with what fits.
fn run_numbers(subject: Subject, coverage: &mut Coverage) -> Result<(), String> {
    let lent = small_log();
    let near = (0..=17).flat_map(|by| [by, 0u64.wrapping_sub(by)]);
    let fitting = [lent.t, lent.base, lent.base + 32, lent.base + 64];
    let offsets: Vec<u64> = near.chain(fitting).collect();
    for number in
        BORDERS.iter().flat_map(|border| offsets.iter().map(|by| border.wrapping_add(*by)))
    {
        for call in calls_with(number) {
            make(subject, &call, &lent, coverage)?;
        }
        for call in [Call::Init, Call::Survey, Call::OpenImage] {
            make(subject, &call, &Lent { t: number, ..lent.clone() }, coverage)?;
        }
        for call in [Call::Init, Call::Collect, Call::LogDrop { first: number }] {
            make(subject, &call, &Lent { base: number, ..lent.clone() }, coverage)?;
        }
    }
    Ok(())
}

/// The calls on the small log that take the number as each of their arguments.
fn calls_with(number: u64) -> [Call; 11] {
    let (first, value) = (4096, 0xA1B2_C3D4);
    [
        Call::Allocate { bytes: number },
        Call::Free { block: number },
        Call::Reallocate { block: number, bytes: 20 },
        Call::Reallocate { block: 2, bytes: number },
        Call::Load { block: number, word: 1 },
        Call::Load { block: 2, word: number },
        Call::Store { block: number, word: 1, value },
        Call::Store { block: 2, word: number, value },
        Call::LogAppend { first: number, time: value, tips: 1 },
        Call::LogRead { first: number, index: 1 },
        Call::LogRead { first, index: number },
    ]
}

/// Every length of the mark stack, and some that are too long, on a heap whose objects lead to each other.
fn run_stacks(subject: Subject, coverage: &mut Coverage) -> Result<(), String> {
    let random = &mut Random::new(SEED);
    let mut lent = draw::tree(random, 64);
    lent.set_roots(&[address(&lent, 0)]);
    for entries in 0..=66 {
        lent[Stack] = Guarded::new(&random.bytes(4 * entries));
        make(subject, &Call::Collect, &lent, coverage)?;
    }
    Ok(())
}

/// The longest log that there is, read and dropped, and appended to with and without room. One entry of a mark stack
/// is enough for a chain; with none its collection would take long.
fn run_log(subject: Subject, coverage: &mut Coverage) -> Result<(), String> {
    let random = &mut Random::new(SEED);
    let mut lent = Lent::empty(4096, MOST);
    lent[Stack] = Guarded::zeroed(4);
    let mut first = logs::fill(random, &mut lent);
    let entries = lent.blocks() / 2;
    for index in [0, 1, entries / 2, entries - 1, entries, 1 << 32] {
        make(subject, &Call::LogRead { first, index }, &lent, coverage)?;
    }
    for time in 0..8 {
        let append = Call::LogAppend { first, time, tips: 1 };
        make(subject, &append, &lent, coverage)?;
        let next = lent.word(lent.base.abs_diff(first) as usize / 4);
        lent = make(subject, &Call::LogDrop { first }, &lent, coverage)?;
        first = next.into();
        lent = make(subject, &Call::LogAppend { first, time, tips: 2 }, &lent, coverage)?;
        make(subject, &Call::LogRead { first, index: entries - 1 }, &lent, coverage)?;
    }
    Ok(())
}
