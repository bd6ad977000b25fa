//! The table's two planes and t: which are accepted, what becomes of spare bits, and every size of heap.

use compare::planes::{table_bytes, SpareBit, HEAD, MOST};
use compare::Buffer::{self, Pool, Stack, Table};
use compare::{compare, library, second, wrapper, Call, Guarded, Lent, Reply, Subject};

const BASE: u64 = 4096;

/// Calls that are accepted on a heap with an object in block 0 and room behind it.
const CALLS: [Call; 9] = [
    Call::Init,
    Call::Allocate { bytes: 1 },
    Call::Free { block: 0 },
    Call::Reallocate { block: 0, bytes: 17 },
    Call::Collect,
    Call::Survey,
    Call::Load { block: 0, word: 3 },
    Call::Store { block: 0, word: 3, value: 7 },
    Call::WriteImage,
];

/// Calls that are refused on such a heap, by the numbers from 3 to 9.
const REFUSED_CALLS: [Call; 5] = [
    Call::Allocate { bytes: 0 },
    Call::Allocate { bytes: 1 << 20 },
    Call::Reallocate { block: 1, bytes: 0 },
    Call::Free { block: u64::MAX },
    Call::Load { block: 0, word: 4 },
];

const SUBJECTS: [Subject; 3] = [&library, &wrapper, &second];

/// The call's refusal number. All else is compared with the plain-list heap, each lent byte too.
fn refusal(subject: Subject, call: &Call, lent: &Lent) -> u32 {
    let (reply, _) = compare(subject, call, lent).unwrap_or_else(|fault| panic!("{fault}"));
    reply.refusal
}

/// A heap of this t with an object in block 0.
fn heap(t: u64) -> Lent {
    let mut lent = Lent::empty(BASE, t);
    lent.set_entry(0, HEAD);
    lent[Stack] = Guarded::new(&[0xEE; 8]);
    lent.set_output(lent.image_bytes());
    lent
}

#[test]
fn a_heap_without_spare_bits_set_is_accepted() {
    for t in [1, 2, 3, 15, 16, 17, 1023, 1024] {
        for (call, subject) in CALLS.iter().flat_map(|call| SUBJECTS.map(|subject| (call, subject)))
        {
            assert_eq!(refusal(subject, call, &heap(t)), 0, "{call:?}, t {t}");
        }
    }
}

/// Calls on a heap of this t with these spare bits set: all that read its table are refused, and change no
/// byte.
fn refuses_spare_bits(t: u64, spares: &[SpareBit]) {
    let mut lent = heap(t);
    spares.iter().for_each(|spare| lent.set_spare(*spare, 1));
    for subject in SUBJECTS {
        for call in CALLS.iter().chain(&REFUSED_CALLS).filter(|call| **call != Call::Init) {
            let mut after = lent.clone();
            assert_eq!(subject(call, &mut after), Reply::refused(call, 2), "{call:?} on {lent}");
            let stayed = |buffer: &Buffer| after[*buffer][..] == lent[*buffer][..];
            assert!(Buffer::ALL.iter().all(stayed), "{call:?} on {lent}");
        }
    }
}

#[test]
fn each_spare_bit_is_refused_by_every_call_that_reads_the_table() {
    for t in [1, 3, 5, 7, 9, 15, 17, 31, 33, 127, 129, 1021, 1023] {
        for spare in SpareBit::all() {
            refuses_spare_bits(t, &[spare]);
        }
    }
}

#[test]
fn all_sets_of_spare_bits_are_refused() {
    let all: Vec<SpareBit> = SpareBit::all().collect();
    for (t, set) in [1, 3].iter().flat_map(|t| (1..256).map(move |set| (*t, set))) {
        let spares = all.iter().zip(0..).filter(|(_, index)| set >> index & 1 == 1);
        refuses_spare_bits(t, &spares.map(|(spare, _)| *spare).collect::<Vec<_>>());
    }
}

#[test]
fn an_init_clears_every_bit_of_a_table() {
    for (t, byte) in
        (1..=20).chain(1021..=1024).flat_map(|t| [0x01, 0x80, 0xF0, 0xFF].map(|b| (t, b)))
    {
        for subject in SUBJECTS {
            let mut lent = heap(t);
            lent[Table].fill(byte);
            assert_eq!(subject(&Call::Init, &mut lent).refusal, 0, "t {t}");
            assert!(lent[Table].iter().all(|byte| *byte == 0), "t {t}");
        }
    }
}

#[test]
fn a_base_or_length_is_refused_before_a_spare_bit() {
    for spare in SpareBit::all() {
        let mut lent = heap(3);
        lent.set_spare(spare, 1);
        let (mut misplaced, mut long) = (lent.clone(), lent);
        misplaced.base += 1;
        long[Pool] = Guarded::zeroed(193);
        for (call, subject) in CALLS.iter().flat_map(|call| SUBJECTS.map(|subject| (call, subject)))
        {
            assert_eq!(refusal(subject, call, &misplaced), 1, "{call:?}");
            assert_eq!(refusal(subject, call, &long), 1, "{call:?}");
        }
    }
}

/// Every call on a heap of this t with such lengths is refused, or accepted exactly if they fit.
fn calls_take(t: u64, pool: usize, table: usize) {
    let fits = (1..=MOST).contains(&t) && pool as u64 == 64 * t && table == table_bytes(t);
    let mut lent = Lent::new(BASE, t, &vec![0; pool], &vec![0; table]);
    if let Some(first) = lent[Table].first_mut() {
        *first = HEAD;
    }
    lent.set_output(pool + table + 64);
    for (call, subject) in CALLS.iter().flat_map(|call| SUBJECTS.map(|subject| (call, subject))) {
        assert_eq!(refusal(subject, call, &lent), u32::from(!fits), "{call:?} on {lent}");
    }
}

#[test]
fn lengths_that_do_not_fit_are_refused() {
    for t in (0..=9).chain(1022..=1026) {
        let (pool, table) = (64 * t as usize, table_bytes(t));
        for table in table.saturating_sub(3)..=table + 3 {
            calls_take(t, pool, table);
        }
        for pool in [0, 1, 16, 63, 64, 65, 128].map(|by| pool + by) {
            calls_take(t, pool, table);
        }
        for pool in [1, 16, 63, 64, 65, 128].map(|by| pool.saturating_sub(by)) {
            calls_take(t, pool, table);
        }
        calls_take(t, pool, 2 * table);
        calls_take(t, pool, t as usize);
    }
}

#[test]
fn a_t_that_does_not_fit_is_refused() {
    for right in (0..=5).chain([63, 64, 512, 1023, 1024, 1025]) {
        let (pool, table) = (64 * right as usize, table_bytes(right));
        for bit in 10..64 {
            calls_take(right + (1 << bit), pool, table);
            calls_take((1u64 << bit).wrapping_sub(right), pool, table);
        }
        for t in [0, right + 1, right.wrapping_sub(1), 2 * right, u64::MAX, u64::MAX - 1] {
            calls_take(t, pool, table);
        }
    }
}

/// Every table that there is of one byte to a plane.
#[test]
fn every_table_of_two_bytes_is_read_alike() {
    for (t, low, high) in
        (1..=2).flat_map(|t| (0..=255).flat_map(move |l| (0..=255).map(move |h| (t, l, h))))
    {
        let pool: Vec<u8> = (0..64 * t as u8).collect();
        let mut lent = Lent::new(BASE, t, &pool, &[low, high]);
        lent.set_output(160);
        for call in [
            Call::Survey,
            Call::Allocate { bytes: 33 },
            Call::Free { block: 1 },
            Call::Collect,
            Call::WriteImage,
        ] {
            refusal(&library, &call, &lent);
        }
    }
}

/// A heap of every size is filled by one object and emptied again.
#[test]
fn the_planes_of_every_t_are_filled_and_emptied() {
    for t in 1..=1024usize {
        let half = t.div_ceil(2);
        let mut filled = vec![0; 2 * half];
        filled[0] = 0x01;
        filled[half..].fill(0xFF);
        filled[half] = 0xFE;
        filled[2 * half - 1] &= if t % 2 == 1 { 0x0F } else { 0xFF };
        let mut lent = Lent::new(BASE, t as u64, &vec![0; 64 * t], &vec![0x77; 2 * half]);
        let blocks = 4 * t as i64;
        for (call, parts, table) in [
            (Call::Init, vec![], vec![0; 2 * half]),
            (Call::Survey, vec![0, 0, blocks], vec![0; 2 * half]),
            (Call::Allocate { bytes: 64 * t as u64 }, vec![0, blocks], filled.clone()),
            (Call::Survey, vec![blocks, 1, 0], filled),
            (Call::Collect, vec![0, 0, -blocks], vec![0; 2 * half]),
        ] {
            assert_eq!(library(&call, &mut lent), Reply::accepted(&call, &parts), "t {t}");
            assert_eq!(lent[Table][..], table, "{call:?}, t {t}");
        }
    }
}
