//! Shapes that fit and that do not: the fault that the wrapper tells, and the library's own number.

use blockheap::{Address, Heap, MarkEntry, Refusal, ShapeFault};
use compare::Buffer::Image;
use compare::{library, Call, Guarded, Lent};
use std::collections::BTreeSet;

/// Around every length that has a meaning.
fn pools() -> impl Iterator<Item = usize> {
    let whole = [0, 1, 2, 3, 4, 511, 1023, 1024, 1025, 1026, 2048].map(|t| 64 * t);
    whole.into_iter().flat_map(|pool: usize| [pool.saturating_sub(1), pool, pool + 1, pool + 32])
}

/// The length that fits, those around it, and a few others.
fn tables(pool: usize) -> impl Iterator<Item = usize> {
    let t = pool / 64;
    let right = t + t % 2;
    [0, 1, 2, 1024, 1026].into_iter().chain(right.saturating_sub(2)..right + 3)
}

/// The lowest, the highest, and those beside them.
fn bases(pool: usize) -> impl Iterator<Item = u32> {
    let highest = [0u32, 1, 16, 32].map(|by| by.wrapping_sub(pool as u32));
    let low = [0, 1, 8, 15, 16, 17, 31, 32, 4096, 4104];
    let high = [0x8000_0000, 0xFFFF_FFBF, 0xFFFF_FFC0, 0xFFFF_FFE0, 0xFFFF_FFF0, u32::MAX];
    low.into_iter().chain(highest).chain(high)
}

/// The first rule of `include/blockheap.h` that a heap breaks.
fn broken_rule(base: u32, pool: usize, table: usize) -> Option<ShapeFault> {
    let t = pool / 64;
    let rules = [
        ((1..=1024).contains(&t), ShapeFault::T),
        (pool % 64 == 0, ShapeFault::PoolBytes),
        (table == t + t % 2, ShapeFault::TableBytes),
        (base >= 16, ShapeFault::BaseTooLow),
        (base % 16 == 0, ShapeFault::BaseUnaligned),
        (u64::from(base) + 64 * t as u64 <= 4_294_967_296, ShapeFault::PoolEnd),
    ];
    rules.into_iter().find(|(kept, _)| !kept).map(|(_, fault)| fault)
}

/// What calls of the wrapper are refused for, of a heap whose blocks are free.
fn told_by_calls(lent: &mut Lent) -> [Option<Refusal>; 4] {
    let base = Address::from_word(lent.base as u32);
    let [pool, table, ..] = &mut lent.buffers;
    let init = Heap::init(base, pool, table).err();
    let mut heap = Heap::resume(base, pool, table);
    let collect = heap.collect(&[], &mut [MarkEntry::EMPTY; 2]).err();
    [init, heap.survey().err(), collect, heap.write_image(&[], &mut [0; 2048]).err()]
}

#[test]
fn a_heap_has_a_fault_exactly_if_the_library_refuses_its_shape() {
    let mut met = BTreeSet::new();
    for pool in pools() {
        for table in tables(pool) {
            let mut lent = Lent::new(0, pool as u64 / 64, &vec![0; pool], &vec![0; table]);
            for base in bases(pool) {
                lent.base = base.into();
                let fault = ShapeFault::of(Address::from_word(base), pool, table);
                assert_eq!(fault, broken_rule(base, pool, table), "{lent}");
                let refusal = fault.map(Refusal::BadShape);
                for call in [Call::Init, Call::Survey] {
                    let number = library(&call, &mut lent).refusal;
                    assert_eq!(number, refusal.map_or(0, Refusal::number), "{lent}");
                }
                assert_eq!(told_by_calls(&mut lent), [refusal; 4], "{lent}");
                met.insert(format!("{fault:?}"));
            }
        }
    }
    assert_eq!(met.len(), 7, "{met:?}");
}

/// The image of a heap of this t without objects, and without roots.
fn image_of(base: u32, t: u16) -> Vec<u8> {
    let table = vec![0; t.into()];
    [&[1, 0][..], &base.to_le_bytes(), &t.to_le_bytes(), &table, &[0; 4]].concat()
}

#[test]
fn an_opening_has_a_fault_exactly_if_the_library_refuses_its_shape() {
    let mut met = BTreeSet::new();
    for (t, pool) in [1, 2, 3, 1024].into_iter().flat_map(|t| pools().map(move |pool| (t, pool))) {
        for table in tables(pool) {
            let mut lent = Lent::new(0, pool as u64 / 64, &vec![0; pool], &vec![0; table]);
            for base in bases(pool) {
                lent[Image] = Guarded::new(&image_of(base, t));
                let number = library(&Call::OpenImage, &mut lent).refusal;
                let [pool, table, _, _, image] = &mut lent.buffers;
                let fault = if pool.len() / 64 == t.into() {
                    broken_rule(base, pool.len(), table.len())
                } else {
                    Some(ShapeFault::ImageT)
                };
                let refusal = Heap::open_image(image, pool, table, &mut []).err();
                assert_eq!(refusal, fault.map(Refusal::BadShape), "t {t}, {lent}");
                assert_eq!(number, refusal.map_or(0, Refusal::number), "t {t}, {lent}");
                met.insert(format!("{fault:?}"));
            }
        }
    }
    assert_eq!(met.len(), 7, "{met:?}");
}
