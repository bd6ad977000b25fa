//! The laws of order and of images on the library: on drawn heaps, and on the heap of the proofs.
//! BLOCKHEAP_HEAPS asks for more heaps.

use compare::laws::{self, run_law, Law, LawCounts};
use compare::Buffer::{Stack, Table};
use compare::{library, second, wanted, wrapper, Call, Guarded, Lent, Reply, Subject};

const HEAPS: u64 = 10_000;

/// Tries the law on small heaps and on heaps of all sizes. On many of them it must say something.
fn holds(law: Law, seed: u64) -> [LawCounts; 2] {
    let heaps = wanted("BLOCKHEAP_HEAPS", HEAPS);
    [(1..=16, heaps), (17..=1024, heaps / 20)].map(|(sizes, heaps)| {
        let counts = run_law(law, &library, sizes.clone(), seed, heaps)
            .unwrap_or_else(|fault| panic!("{fault}"));
        println!("t in {sizes:?}: {counts:?}");
        assert!(counts.telling > heaps / 20, "{counts:?}");
        counts
    })
}

#[test]
fn frees_commute() {
    let counts = holds(laws::frees_commute, 12);
    assert!(counts.iter().all(|counts| 0 < counts.apart && counts.apart < counts.telling));
}

#[test]
fn roots_are_a_set() {
    let counts = holds(laws::roots_are_a_set, 112);
    assert!(counts.iter().all(|counts| counts.full_lists > 0));
    assert!(counts.iter().all(|counts| counts.other_stacks > 0 && counts.other_rescans > 0));
}

#[test]
fn joined_roots_keep_the_union() {
    let counts = holds(laws::roots_join, 1112);
    assert!(counts.iter().all(|counts| counts.full_lists > 0 && counts.other_stacks > 0));
}

#[test]
fn a_second_collection_changes_nothing() {
    let counts = holds(laws::collect_idempotent, 11112);
    assert!(counts.iter().all(|counts| counts.other_stacks > 0));
}

#[test]
fn images_have_the_heap() {
    holds(laws::images_have_the_heap, 1);
}

#[test]
fn images_have_no_free_bytes() {
    holds(laws::images_have_no_free_bytes, 11);
}

#[test]
fn a_written_heap_opens_as_it_was() {
    holds(laws::write_then_open, 111);
}

#[test]
fn an_opened_file_is_written_as_it_was() {
    holds(laws::open_then_write, 1111);
}

/// The heap of the proofs (crates/algebra/specs/Samples.antt): C leads to E and E to D, B to A, F to itself.
struct Sample<'s> {
    subject: Subject<'s>,
    lent: Lent,
}

// The heads of its objects.
const A: u32 = 0;
const B: u32 = 1;
const C: u32 = 4;
const D: u32 = 6;
const E: u32 = 8;
const F: u32 = 10;

impl Sample<'_> {
    fn address(head: u32) -> u32 {
        0x2000_0000 + 16 * head
    }

    fn fresh(&mut self) -> &mut Self {
        self.lent = Lent::of_numbers(Sample::address(0).into(), &[165, 25, 153]);
        for (word, head) in [(23, E), (32, D), (4, A), (40, F)] {
            self.lent.set_word(word, Sample::address(head));
        }
        self
    }

    fn frees(&mut self, head: u32, blocks: i64) -> &mut Self {
        let call = Call::Free { block: head.into() };
        self.gives(call, Reply::accepted(&call, &[-blocks]))
    }

    fn collects(&mut self, roots: &[u32], entries: usize, answer: [i64; 3]) -> &mut Self {
        self.lends(roots, entries).gives(Call::Collect, Reply::accepted(&Call::Collect, &answer))
    }

    fn refuses(&mut self, call: Call, number: u32) -> &mut Self {
        self.gives(call, Reply::refused(&call, number))
    }

    fn lends(&mut self, roots: &[u32], entries: usize) -> &mut Self {
        self.lent.set_roots(&roots.iter().copied().map(Sample::address).collect::<Vec<u32>>());
        self.lent[Stack] = Guarded::new(&vec![7; 4 * entries]);
        self
    }

    fn gives(&mut self, call: Call, reply: Reply) -> &mut Self {
        assert_eq!((self.subject)(&call, &mut self.lent), reply, "{call:?} on {}", self.lent);
        self
    }

    /// The numbers spell the entries, four to a number.
    fn leaves(&mut self, numbers: [u8; 3]) {
        assert_eq!(self.lent[Table][..], Lent::of_numbers(16, &numbers)[Table][..]);
    }
}

fn on_every_heap(run: impl Fn(&mut Sample)) {
    for subject in [&library as Subject, &wrapper, &second] {
        run(Sample { subject, lent: Lent::empty(16, 0) }.fresh());
    }
}

#[test]
fn the_sample_heap_is_left_the_same_by_both_orders() {
    on_every_heap(|heap| {
        heap.fresh().frees(B, 3).frees(C, 2).leaves([1, 16, 153]);
        heap.fresh().frees(C, 2).frees(B, 3).leaves([1, 16, 153]);
        heap.fresh().frees(B, 3).refuses(Call::Free { block: B.into() }, 7).leaves([1, 25, 153]);
    });
}

#[test]
fn the_sample_heap_keeps_the_same_from_4096_roots() {
    on_every_heap(|heap| {
        heap.fresh().collects(&[C, E], 0, [3, 2, -6]).leaves([0, 25, 9]);
        heap.fresh().collects(&[E, C], 0, [3, 1, -6]).leaves([0, 25, 9]);
        heap.fresh().collects(&[E, C].repeat(2048), 64, [3, 0, -6]).leaves([0, 25, 9]);
        heap.fresh().lends(&[B; 4097], 0).refuses(Call::Collect, 3).leaves([165, 25, 153]);
    });
}

#[test]
fn the_sample_heap_keeps_the_union_of_4096_joined_roots() {
    on_every_heap(|heap| {
        heap.fresh().collects(&[B; 4094], 0, [2, 1, -7]).leaves([165, 0, 0]);
        heap.fresh().collects(&[A, C], 0, [4, 2, -5]).leaves([1, 25, 9]);
        let joined = [&[B; 4094][..], &[A, C]].concat();
        heap.fresh().collects(&joined, 64, [5, 0, -2]).leaves([165, 25, 9]);
        let one_more = [&[B; 4095][..], &[A, C]].concat();
        heap.fresh().lends(&one_more, 0).refuses(Call::Collect, 3).leaves([165, 25, 153]);
    });
}

#[test]
fn the_sample_heap_is_collected_once() {
    on_every_heap(|heap| {
        heap.fresh()
            .collects(&[C, E], 0, [3, 2, -6])
            .collects(&[C, E], 64, [3, 0, 0])
            .leaves([0, 25, 9]);
        heap.fresh()
            .collects(&[C, E], 0, [3, 2, -6])
            .collects(&[E], 0, [2, 1, -2])
            .leaves([0, 16, 9]);
    });
}
