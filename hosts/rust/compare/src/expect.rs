//! Heaps of any size for images, and what a call must leave of what is lent.

use crate::Buffer::{self, Pool};
use crate::{Call, Lent, Reply, Subject};

/// A heap of this t with free blocks, in whose pool no byte is like the one before.
pub fn heap(t: u64) -> Lent {
    let mut lent = Lent::empty(0x2000_0000, t);
    lent[Pool].iter_mut().zip((1..=251).cycle()).for_each(|(byte, value)| *byte = value);
    lent
}

/// The same with objects of one to five blocks and gaps of up to three.
pub fn heap_in_use(t: u64) -> Lent {
    let mut lent = heap(t);
    let (mut start, mut blocks) = (1, 1);
    while start + blocks <= lent.blocks() {
        lent.set_object(start..start + blocks);
        start += blocks + blocks % 4;
        blocks = blocks % 5 + 1;
    }
    lent
}

/// So many roots, which are no addresses of these heaps.
pub fn roots(count: usize) -> Vec<u32> {
    (0..count as u32).map(|root| 0xA1B2_C3D4 ^ root).collect()
}

/// The call is refused by the number, and every byte stays.
pub fn refuses(subject: Subject, call: &Call, lent: &Lent, number: u32) {
    let mut after = lent.clone();
    let reply = subject(call, &mut after);
    assert_eq!(reply, Reply::refused(call, number), "{lent}");
    same_bytes(&after, lent);
}

/// Every lent byte is as expected, and none beside it is written.
pub fn same_bytes(lent: &Lent, expected: &Lent) {
    for buffer in Buffer::ALL {
        assert!(lent[buffer].intact(), "beside the {buffer} of {lent}");
        assert!(lent[buffer][..] == expected[buffer][..], "the {buffer} of {lent}");
    }
}
