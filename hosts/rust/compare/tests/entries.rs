//! The wrapper's iterator over a log, held to the library's reads of every index: of whole logs and of broken
//! ones. BLOCKHEAP_HEAPS asks for more heaps.

use blockheap::{Address, Entry, Log, Refusal, View};
use compare::chains::End;
use compare::planes::TAIL;
use compare::Buffer::{Pool, Table};
use compare::{logs, noise, wanted, Lent, Random};
use std::collections::BTreeMap;

fn view(lent: &Lent) -> View<'_> {
    View::new(Address::from(lent.base as u32), &lent[Pool], &lent[Table])
}

fn log_at(first: u64) -> Log {
    Log::from_first(Address::from(first as u32))
}

/// The log's answers, read one by one: for each index below the heap's blocks, and for some far beyond.
fn reads(heap: View, log: Log, blocks: u64) -> Vec<Result<Entry, Refusal>> {
    (0..=blocks).chain([1 << 32, u64::MAX]).map(|index| heap.log_read(&log, index)).collect()
}

/// What reads of the same indices must answer if the iterator is right.
fn told(heap: View, log: Log, blocks: u64) -> Vec<Result<Entry, Refusal>> {
    let all = blocks as usize + 3;
    match heap.log_entries(&log) {
        Err(refusal) => vec![Err(refusal); all],
        Ok(entries) => {
            entries.map(Ok).chain(std::iter::repeat(Err(Refusal::NoEntry))).take(all).collect()
        }
    }
}

/// The kind of an end, whatever it leads back to.
fn kind(end: End) -> String {
    format!("{end:?}").split('(').next().unwrap_or_default().into()
}

#[test]
fn entries_are_what_reads_of_every_index_answer() {
    let random = &mut Random::new(7);
    let (mut ends, mut longest) = (BTreeMap::new(), 0);
    for number in 0..wanted("BLOCKHEAP_HEAPS", 10_000) / 4 {
        let t = random.between(1, if number % 100 == 0 { 60 } else { 10 });
        let mut lent = noise(random, t);
        logs::lay_out(random, &mut lent);
        for _ in 0..4 {
            let first = logs::first(random, &lent) & 0xFFFF_FFFF;
            let (heap, log, blocks) = (view(&lent), log_at(first), lent.blocks());
            assert_eq!(told(heap, log, blocks), reads(heap, log, blocks), "{first:#x}, {lent}");
            let chain = lent.chain(first);
            longest = longest.max(chain.heads.len());
            *ends.entry(kind(chain.end)).or_insert(0) += 1;
        }
    }
    println!("{ends:?}, the longest of {longest} entries");
    for end in [
        "Right",
        "Tail",
        "Free",
        "InsideABlock",
        "OutsideThePool",
        "OneBlock",
        "ThreeBlocks",
        "MoreBlocks",
        "Again",
    ] {
        assert!(ends.get(end).is_some_and(|times| *times > 50), "{end} of {ends:?}");
    }
    assert!(longest > 20, "{longest}");
}

#[test]
fn entries_of_a_damaged_heap_are_refused_as_reads_are() {
    let random = &mut Random::new(8);
    for t in 1..=12 {
        let mut lent = noise(random, t);
        logs::lay_out(random, &mut lent);
        let log = log_at(logs::first(random, &lent));
        lent.set_entry(0, TAIL);
        assert_eq!(view(&lent).log_entries(&log).err(), Some(Refusal::BadTable));
        lent.base += 8;
        let refusal = view(&lent).log_read(&log, 0).err();
        assert!(matches!(refusal, Some(Refusal::BadShape(_))), "{refusal:?}");
        assert_eq!(view(&lent).log_entries(&log).err(), refusal);
    }
}

/// Reads of all 2,048 entries would take 2,048 * 2,048 steps.
#[test]
fn the_longest_log_is_read_from_the_oldest_on() -> Result<(), Refusal> {
    let random = &mut Random::new(9);
    let mut lent = Lent::empty(0x2000_0000, 1024);
    let first = logs::fill(random, &mut lent);
    let heads = lent.chain(first).heads;
    for (index, head) in heads.iter().enumerate() {
        lent.set_word(4 * *head as usize + 1, index as u32);
        lent.set_word(4 * *head as usize + 2, !index as u32);
    }
    let entries: Vec<Entry> = view(&lent).log_entries(&log_at(first))?.collect();
    let expected: Vec<Entry> = (0..2048).map(|time| Entry { time, tips: !time }).collect();
    assert_eq!(entries, expected);
    for index in [0, 1, 1023, 2047] {
        assert_eq!(view(&lent).log_read(&log_at(first), index)?, entries[index as usize]);
    }
    Ok(())
}

#[test]
fn an_iterator_that_has_ended_has_ended() -> Result<(), Refusal> {
    let mut lent = Lent::empty(4096, 1);
    lent.set_object(0..2);
    let mut entries = view(&lent).log_entries(&log_at(4096))?;
    assert_eq!(entries.next(), Some(Entry { time: 0, tips: 0 }));
    assert_eq!([entries.next(), entries.next()], [None; 2]);
    assert_eq!(view(&lent).log_entries(&Log::new())?.next(), None);
    Ok(())
}
