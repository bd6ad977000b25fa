//! The rain log: what its calls write and answer, every kind of broken chain, and what is proved of it, tried on
//! lists of calls. BLOCKHEAP_HEAPS asks for more heaps.

use compare::expect::{refuses, same_bytes};
use compare::lasting::{log_is_a_list, spared_logs_last, LogCounts};
use compare::planes::TAIL;
use compare::Buffer::{Pool, Roots, Stack};
use compare::{compare, library, second, wanted, wrapper, Call, Guarded, Lent, Reply};
use compare::{Sizes, Subject};

const BASE: u32 = 0x2000_0000;

const SUBJECTS: [Subject; 3] = [&library, &wrapper, &second];

fn address(block: u64) -> u64 {
    u64::from(BASE) + 16 * block
}

/// A heap of this t in a pool without a zero, with these objects: the first block and how many.
fn heap(t: u64, objects: &[(u64, u64)]) -> Lent {
    let mut lent = Lent::empty(BASE.into(), t);
    lent[Pool].fill(0xEE);
    objects.iter().for_each(|(start, blocks)| lent.set_object(*start..start + blocks));
    lent[Stack] = Guarded::new(&[0x55; 12]);
    lent
}

/// Makes a log of these objects, whose word 0 behind the last is given.
fn link(lent: &mut Lent, heads: &[u64], end: u64) {
    let next = heads[1..].iter().map(|head| address(*head)).chain([end]);
    heads.iter().zip(next).for_each(|(head, next)| lent.set_word(4 * *head as usize, next as u32));
}

fn append(first: u64) -> Call {
    Call::LogAppend { first, time: 7, tips: 9 }
}

/// One of each call on the log.
fn calls(first: u64) -> [Call; 3] {
    [append(first), Call::LogRead { first, index: 0 }, Call::LogDrop { first }]
}

/// The call is accepted with this answer, and leaves what `change` makes of what was lent.
fn gives(
    subject: Subject,
    call: Call,
    lent: &mut Lent,
    parts: [i64; 2],
    change: impl Fn(&mut Lent),
) {
    let mut expected = lent.clone();
    change(&mut expected);
    assert_eq!(subject(&call, lent), Reply::accepted(&call, &parts), "{call:?} on {lent}");
    same_bytes(lent, &expected);
}

/// Makes these blocks a new entry at the end of a log.
fn set_entry(lent: &mut Lent, block: u64) {
    lent.set_object(block..block + 2);
    let words = [0, 7, 9, 0, 0, 0, 0, 0];
    words.iter().zip(4 * block as usize..).for_each(|(value, word)| lent.set_word(word, *value));
}

#[test]
fn an_append_writes_the_new_entry_and_the_next_word_of_the_last() {
    for subject in SUBJECTS {
        let lent = &mut heap(2, &[(0, 1)]);
        let first = address(1);
        gives(subject, append(0), lent, [first as i64, 2], |lent| set_entry(lent, 1));
        for block in [3, 5] {
            gives(subject, append(first), lent, [first as i64, 2], |lent| {
                set_entry(lent, block);
                lent.set_word(4 * (block - 2) as usize, address(block) as u32);
            });
        }
        assert_eq!(lent[Stack][..], [0x55; 12]);
    }
}

#[test]
fn an_append_without_room_collects_from_the_log_and_the_roots() {
    for subject in SUBJECTS {
        let lent = &mut heap(2, &[(0, 2), (2, 1), (3, 1), (4, 2), (6, 1), (7, 1)]);
        link(lent, &[4, 0], 0);
        lent.set_roots(&[address(6) as u32]);
        gives(subject, append(address(4)), lent, [address(4) as i64, -3 + 2], |lent| {
            lent.set_entries(7..8, 0);
            set_entry(lent, 2);
            lent.set_word(0, address(2) as u32);
            lent[Stack].fill(0);
        });
        let read = Call::LogRead { first: address(4), index: 2 };
        gives(subject, read, lent, [7, 9], |_| ());
    }
}

#[test]
fn the_collection_of_an_append_stands_if_it_makes_no_room() {
    for subject in SUBJECTS {
        let lent = &mut heap(2, &[(0, 2), (2, 1), (3, 1), (4, 2), (6, 1), (7, 1)]);
        link(lent, &[4, 0], 0);
        lent.set_roots(&[3, 6].map(|block| address(block) as u32));
        let mut expected = lent.clone();
        expected.set_entry(2, 0);
        expected.set_entry(7, 0);
        expected[Stack].fill(0);
        for change in [-2, 0] {
            let call = append(address(4));
            assert_eq!(subject(&call, lent), Reply::without_room(&call, change));
            same_bytes(lent, &expected);
            lent[Stack].fill(0x55);
        }
    }
}

#[test]
fn a_drop_frees_the_oldest_and_leaves_its_bytes() {
    for subject in SUBJECTS {
        let lent = &mut heap(2, &[(1, 2), (3, 1), (4, 2)]);
        link(lent, &[4, 1], 0);
        let call = Call::LogDrop { first: address(4) };
        gives(subject, call, lent, [address(1) as i64, -2], |lent| lent.set_entries(4..6, 0));
        let call = Call::LogDrop { first: address(1) };
        gives(subject, call, lent, [0, -2], |lent| lent.set_entries(1..3, 0));
        refuses(subject, &Call::LogDrop { first: 0 }, lent, 19);
    }
}

#[test]
fn entries_are_read_from_the_oldest_on_whatever_their_other_words_hold() {
    for subject in SUBJECTS {
        let lent = &mut heap(3, &[(0, 2), (5, 2), (8, 2)]);
        link(lent, &[5, 0, 8], 0);
        for (index, head) in [5, 0, 8].into_iter().enumerate() {
            let read = Call::LogRead { first: address(5), index: index as u64 };
            lent.set_word(4 * head + 1, 60 * index as u32);
            lent.set_word(4 * head + 2, u32::MAX);
            gives(subject, read, lent, [60 * index as i64, u32::MAX.into()], |_| ());
        }
        for index in [3, 4, 1 << 32, u64::MAX] {
            refuses(subject, &Call::LogRead { first: address(5), index }, lent, 19);
        }
        for index in [0, 1, u64::MAX] {
            refuses(subject, &Call::LogRead { first: 0, index }, lent, 19);
        }
    }
}

/// Objects of two blocks at 0, 2 and 4, of one at 6, of three at 7 and of four at 12; blocks 10, 11 and 16 on are
/// free.
fn mixed() -> Lent {
    heap(5, &[(0, 2), (2, 2), (4, 2), (6, 1), (7, 3), (12, 4)])
}

/// Addresses that are of no entry in that heap.
fn no_entries() -> Vec<u64> {
    let [tails, free] = [&[1, 3, 5, 8, 9, 13, 15][..], &[10, 11, 16, 19]];
    let others = [6, 7, 12].iter();
    let blocks = tails.iter().chain(free).chain(others).map(|block| address(*block));
    let inside = [1, 2, 4, 8, 15].into_iter().flat_map(|by| [address(0) + by, address(2) + by]);
    let outside = [1, 15, 16, 32].map(|by| address(0) - by);
    let behind = [address(20), address(20) + 1, address(22), u32::MAX.into(), 0xFFFF_FFF0];
    blocks.chain(inside).chain(outside).chain(behind).collect()
}

#[test]
fn an_address_of_no_entry_is_refused_in_any_place() {
    for subject in SUBJECTS {
        for wrong in no_entries() {
            for heads in [&[][..], &[2], &[4, 0], &[4, 2, 0]] {
                let mut lent = mixed();
                if !heads.is_empty() {
                    link(&mut lent, heads, wrong);
                }
                let first = heads.first().map_or(wrong, |head| address(*head));
                for call in calls(first) {
                    refuses(subject, &call, &lent, 18);
                }
            }
        }
    }
}

#[test]
fn an_address_beyond_32_bits_is_refused() {
    for subject in SUBJECTS {
        let mut lent = mixed();
        link(&mut lent, &[0], 0);
        for beyond in [1 << 32, 1 << 36, 1 << 63, u64::MAX - 0xFFFF_FFFF] {
            for first in [beyond, beyond + address(0), beyond + address(2)] {
                calls(first).iter().for_each(|call| refuses(subject, call, &lent, 18));
            }
        }
    }
}

#[test]
fn a_chain_that_comes_back_is_refused_wherever_it_does() {
    for subject in SUBJECTS {
        for length in 1..=8 {
            let heads: Vec<u64> = [6, 0, 14, 2, 10, 12, 4, 8][..length].to_vec();
            for back in &heads {
                let objects: Vec<(u64, u64)> = heads.iter().map(|head| (*head, 2)).collect();
                let mut lent = heap(4, &objects);
                link(&mut lent, &heads, address(*back));
                for first in &heads {
                    calls(address(*first))
                        .iter()
                        .for_each(|call| refuses(subject, call, &lent, 18));
                }
            }
        }
    }
}

/// An address leads to a log exactly if it is that of the head of an entry.
#[test]
fn every_address_around_a_pool_is_told() {
    let mut lent = mixed();
    link(&mut lent, &[0, 4], 0);
    lent.set_word(8, 0);
    for first in address(0) - 40..address(20) + 40 {
        let logs = [0, 2, 4].map(address);
        for call in calls(first) {
            let compared = compare(&library, &call, &lent);
            let (reply, _) = compared.unwrap_or_else(|fault| panic!("{fault}"));
            assert_eq!(reply.refusal, if logs.contains(&first) { 0 } else { 18 }, "{call:?}");
        }
    }
}

/// By which number a call is refused, and for what.
type Fault = (u32, fn(&mut Lent));

/// What an append may be refused for, in the order of the tests. The heap is full.
const FAULTS: [Fault; 7] = [
    (1, |lent| lent.base += 1),
    (1, |lent| lent[Roots] = Guarded::zeroed(4 * 4096 + 3)),
    (1, |lent| lent[Stack] = Guarded::zeroed(4 * 65 + 1)),
    (2, |lent| lent.set_entry(0, TAIL)),
    (3, |lent| lent[Roots] = Guarded::zeroed(4 * 4096)),
    (4, |lent| lent[Stack] = Guarded::zeroed(4 * 65)),
    (18, |lent| lent.set_word(8, 1)),
];

#[test]
fn the_first_fault_of_an_append_counts() {
    for faults in 0..1 << FAULTS.len() {
        let chosen: Vec<_> = (0..FAULTS.len())
            .filter(|fault| faults >> fault & 1 == 1)
            .map(|at| FAULTS[at])
            .collect();
        let mut lent = heap(1, &[(0, 2), (2, 2)]);
        lent.set_roots(&[BASE]);
        link(&mut lent, &[2], 0);
        // Later faults first: an earlier one of the same buffer takes its place, and counts before it.
        chosen.iter().rev().for_each(|(_, fault)| fault(&mut lent));
        for subject in SUBJECTS {
            match chosen.first() {
                Some((number, _)) => refuses(subject, &append(address(2)), &lent, *number),
                None => {
                    let reply = subject(&append(address(2)), &mut lent.clone());
                    assert_eq!(reply, Reply::without_room(&append(address(2)), 0));
                }
            }
        }
    }
}

#[test]
fn the_first_fault_of_a_read_and_of_a_drop_counts() {
    for subject in SUBJECTS {
        let mut lent = heap(1, &[(0, 2), (2, 2)]);
        link(&mut lent, &[2], 0);
        refuses(subject, &Call::LogRead { first: address(2), index: 1 }, &lent, 19);
        lent.set_word(8, 1);
        refuses(subject, &Call::LogRead { first: address(2), index: 1 }, &lent, 18);
        for (number, fault) in [FAULTS[3], FAULTS[0]] {
            fault(&mut lent);
            for call in &[calls(address(2)), calls(0)].concat()[1..] {
                refuses(subject, call, &lent, number);
            }
        }
    }
}

#[test]
fn an_append_takes_4095_roots_and_one_place_is_the_logs() {
    for subject in SUBJECTS {
        for first in [0, address(0)] {
            let mut lent = heap(1, &[(0, 2), (2, 1), (3, 1)]);
            link(&mut lent, &[0], 0);
            lent[Roots] = Guarded::zeroed(4 * 4096);
            refuses(subject, &append(first), &lent, 3);
            lent[Roots] = Guarded::zeroed(4 * 4095);
            let reply = subject(&append(first), &mut lent);
            assert_eq!(reply.refusal, 0, "{first}");
        }
    }
}

/// 2,048 entries fill the largest heap. The roots of its collection are the log's alone.
#[test]
fn the_longest_log_fills_the_largest_heap() {
    let mut lent = heap(1024, &[(0, 1), (1, 3)]);
    let mut first = 0;
    for index in 0..2048u32 {
        let call = Call::LogAppend { first, time: index, tips: !index };
        let reply = library(&call, &mut lent);
        assert_eq!(reply.parts["change"], if index == 2046 { -4 + 2 } else { 2 }, "{index}");
        first = reply.parts["first"] as u64;
    }
    let mut full = lent.clone();
    full[Stack].fill(0);
    assert_eq!(library(&append(first), &mut lent), Reply::without_room(&append(first), 0));
    same_bytes(&lent, &full);
    for index in [0, 1, 1023, 2046, 2047] {
        let call = Call::LogRead { first, index };
        let entry = [index as i64, (!(index as u32)).into()];
        assert_eq!(library(&call, &mut lent), Reply::accepted(&call, &entry));
    }
    refuses(&library, &Call::LogRead { first, index: 2048 }, &lent, 19);
    let newest = 4 * lent.chain(first).heads[2047] as usize;
    for wrong in [first, 1, 4096] {
        lent.set_word(newest, wrong as u32);
        calls(first).iter().for_each(|call| refuses(&library, call, &lent, 18));
    }
}

fn heaps_wanted(least: u64) -> u64 {
    wanted("BLOCKHEAP_HEAPS", 10_000) * least / 10_000
}

fn logs_last(sizes: Sizes, seed: u64, logs: u64) -> LogCounts {
    let counts =
        spared_logs_last(&library, sizes, seed, logs).unwrap_or_else(|fault| panic!("{fault}"));
    println!("t from {} to {}: {counts:?}", sizes.least, sizes.most);
    counts
}

#[test]
fn a_log_that_calls_spare_reads_as_before_on_small_heaps() {
    let sizes = Sizes { least: 1, most: 12, calls_per_heap: 60 };
    let counts = logs_last(sizes, 6, heaps_wanted(1000));
    assert!(counts.entries > 2 * counts.logs, "{counts:?}");
    assert!(counts.frees > counts.logs && counts.without_room > counts.logs / 20, "{counts:?}");
}

#[test]
fn a_log_that_calls_spare_reads_as_before_on_large_heaps() {
    let sizes = Sizes { least: 13, most: 1024, calls_per_heap: 40 };
    let counts = logs_last(sizes, 66, heaps_wanted(60));
    assert!(counts.frees > counts.logs, "{counts:?}");
}

#[test]
fn from_an_init_on_a_log_is_a_list_of_pairs() {
    let sizes = (1..=16).map(|t| (t, 500)).chain([(40, 1000), (1023, 3000), (1024, 3000)]);
    for (t, calls) in sizes {
        let counts = log_is_a_list(&library, t, t, calls).unwrap_or_else(|fault| panic!("{fault}"));
        println!("t {t}: {counts:?}");
        assert!(counts.entries > 0 && counts.frees > 0, "{counts:?}");
        assert!(counts.without_room > 0 || t > 40, "{counts:?}");
    }
}
