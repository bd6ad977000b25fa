//! From an accepted init on, the library answers as a list of objects that is never read back from
//! pool or table would. An opened image is a new beginning, at its objects.

use compare::Buffer::{Image, Roots, Stack};
use compare::{
    draw_call, image, library, noise, on_list, second_on_list, Call, Lent, Random, Reply,
};
use listheap::ListHeap;

/// Answers how many calls on logs were accepted.
fn library_and_list_agree(seed: u64, t: u64, calls: usize) -> usize {
    let mut random = Random::new(seed);
    let mut lent = noise(&mut random, t);
    let mut list = ListHeap::empty(lent.base, 4 * t);
    let (mut used, mut on_logs) = (0, 0);
    assert_eq!(library(&Call::Init, &mut lent).refusal, 0);
    for number in 0..calls {
        let call = draw_call(&mut random, &mut lent);
        let mut expected = lent.clone();
        let expected_reply = second_on_list(&call, &mut list, &mut expected);
        let reply = library(&call, &mut lent);
        assert_eq!(reply, expected_reply, "seed {seed}, call {number}: {call:?}");
        for buffer in [Image, Roots, Stack] {
            let same = lent[buffer][..] == expected[buffer][..];
            assert!(same, "seed {seed}, call {number}: the {buffer}");
        }
        used = used_after(used, &call, &reply, &lent);
        assert_eq!(
            used,
            list.used() as i64,
            "seed {seed}, call {number}: used blocks after {call:?}"
        );
        assert_eq!(
            read_back(&mut lent),
            list,
            "seed {seed}, call {number}: objects after {call:?}"
        );
        on_logs += usize::from(call.first().is_some() && reply.refusal == 0);
    }
    on_logs
}

/// The used blocks after a call, by what it answers alone.
fn used_after(used: i64, call: &Call, reply: &Reply, lent: &Lent) -> i64 {
    match call {
        Call::Init => 0,
        Call::OpenImage if reply.refusal == 0 => {
            image::read(&lent[Image]).expect("an image")[2].count.into()
        }
        _ => used + reply.parts.get("change").unwrap_or(&0),
    }
}

/// The objects that table and pool hold.
fn read_back(lent: &mut Lent) -> ListHeap {
    on_list(lent, |heap| Ok(heap.clone())).expect("a heap that is in order")
}

#[test]
fn the_library_answers_as_a_plain_list_on_small_heaps() {
    let on_logs: usize = (0..40).map(|seed| library_and_list_agree(seed, 1 + seed % 16, 500)).sum();
    assert!(on_logs > 1000, "{on_logs} accepted calls on logs");
}

#[test]
fn the_library_answers_as_a_plain_list_on_the_largest_heaps() {
    for (seed, t) in [(76, 1023), (77, 1024)] {
        let on_logs = library_and_list_agree(seed, t, 3000);
        assert!(on_logs > 100, "{on_logs} accepted calls on logs");
    }
}
