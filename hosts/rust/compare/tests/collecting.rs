//! The wrapper's allocation that collects, held to the library's own calls. BLOCKHEAP_HEAPS asks for more heaps.

use blockheap::{Address, Heap, MarkEntry, NotPlaced};
use compare::expect::same_bytes;
use compare::planes::TAIL;
use compare::Buffer::{Roots, Stack};
use compare::{draw_heap, good_roots, good_stack, library, wanted, Call, Guarded, Lent, Random};

/// What an allocation answers: the refusal's number, the block and the change.
type Answer = (u32, i64, i64);

fn by_wrapper(lent: &mut Lent, bytes: u64) -> Answer {
    let base = Address::from(lent.base as u32);
    let [pool, table, roots, stack, _] = &mut lent.buffers;
    let lists =
        (Address::all_in(roots).expect("roots"), MarkEntry::all_in(stack).expect("a stack"));
    match Heap::resume(base, pool, table).allocate_collecting(bytes, lists.0, lists.1) {
        Ok(placed) => (0, placed.block.number() as i64, placed.change.into()),
        Err(NotPlaced { refusal, change, .. }) => (refusal.number(), 0, change.into()),
    }
}

/// The same by the calls of the library: a collection comes between two allocations if the first finds no room.
fn by_hand(lent: &mut Lent, bytes: u64) -> Answer {
    let allocate = Call::Allocate { bytes };
    let first = library(&allocate, lent);
    if first.refusal != 9 {
        return (first.refusal, first.parts["block"], first.parts["change"]);
    }
    let collected = library(&Call::Collect, lent);
    assert_eq!(collected.refusal, 0, "{lent}");
    let second = library(&allocate, lent);
    let change = collected.parts["change"] + second.parts["change"];
    (second.refusal, second.parts["block"], change)
}

#[test]
fn it_does_what_allocate_collect_and_allocate_do() {
    let random = &mut Random::new(11);
    let (mut at_once, mut collected, mut refused) = (0, 0, 0);
    for number in 0..wanted("BLOCKHEAP_HEAPS", 10_000) {
        let t = random.between(1, if number % 100 == 0 { 1024 } else { 12 });
        let mut lent = draw_heap(random, t);
        let roots = good_roots(random, &lent);
        lent.set_roots(&roots);
        lent[Stack] = Guarded::new(&good_stack(random));
        let bytes = random.pick(&[0, 1, 40, 64, 100, 16 * t, 64 * t, u64::MAX]);
        let mut expected = lent.clone();
        let answer = by_hand(&mut expected, bytes);
        assert_eq!(by_wrapper(&mut lent, bytes), answer, "{bytes} bytes, {lent}");
        same_bytes(&lent, &expected);
        match answer {
            (0, _, change) if change == bytes.div_ceil(16) as i64 => at_once += 1,
            (0, ..) => collected += 1,
            _ => refused += 1,
        }
    }
    println!("{at_once} at once, {collected} after a collection, {refused} refused");
    assert!(at_once > 1000 && collected > 200 && refused > 1000);
}

/// By which number it is refused, and for what.
type Fault = (u32, fn(&mut Lent));

/// In the order of the numbers. There is room.
const FAULTS: [Fault; 4] = [
    (1, |lent| lent.base += 1),
    (2, |lent| lent.set_entry(0, TAIL)),
    (3, |lent| lent[Roots] = Guarded::zeroed(4 * 4097)),
    (4, |lent| lent[Stack] = Guarded::zeroed(4 * 65)),
];

#[test]
fn the_first_fault_counts_even_where_there_is_room() {
    for faults in 0..1 << FAULTS.len() {
        for (bytes, right) in [(16, 0), (0, 5)] {
            let mut lent = Lent::empty(4096, 1);
            let chosen = || FAULTS.iter().enumerate().filter(|(at, _)| faults >> at & 1 == 1);
            chosen().for_each(|(_, (_, fault))| fault(&mut lent));
            let first = chosen().map(|(_, (number, _))| *number).next().unwrap_or(right);
            let before = lent.clone();
            let (number, _, change) = by_wrapper(&mut lent, bytes);
            assert_eq!(number, first, "{faults:#b}, {bytes} bytes");
            if number != 0 {
                assert_eq!(change, 0);
                same_bytes(&lent, &before);
            }
        }
    }
}

#[test]
fn the_collection_stands_where_there_is_no_room() {
    let mut lent = Lent::empty(4096, 1);
    (0..4).for_each(|block| lent.set_object(block..block + 1));
    lent.set_roots(&[4096 + 16]);
    lent[Stack] = Guarded::new(&[7; 8]);
    assert_eq!(by_wrapper(&mut lent, 48), (9, 0, -3));
    assert_eq!(lent.heads(), [1]);
    assert_eq!(lent[Stack][..], [0; 8]);
    assert_eq!(by_wrapper(&mut lent, 32), (0, 2, 2));
}
