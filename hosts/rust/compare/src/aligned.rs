//! The alignment of large objects, read from a table block by block.

use crate::planes::FREE;
use crate::{draw, Call, Lent, Random, Subject};

pub fn large(blocks: u64) -> bool {
    blocks >= 4
}

/// Whether so many blocks may begin there: those of a large object at a multiple of four only.
pub fn aligned(start: u64, blocks: u64) -> bool {
    !large(blocks) || start % 4 == 0
}

/// How many blocks from each one on are free; 0 behind the last one.
pub fn free_from(lent: &Lent) -> Vec<u64> {
    let blocks = lent.blocks() as usize;
    let mut free = vec![0; blocks + 1];
    for block in (0..blocks).rev().filter(|block| lent.entry(*block as u64) == FREE) {
        free[block] = free[block + 1] + 1;
    }
    free
}

/// The lowest start of so many free blocks that `may_begin` admits.
pub fn lowest_start(lent: &Lent, blocks: u64, may_begin: impl Fn(u64) -> bool) -> Option<u64> {
    let free = free_from(lent).into_iter().zip(0..);
    let mut starts = free.filter(|(free, start)| *free >= blocks && may_begin(*start));
    starts.next().map(|(_, start)| start)
}

/// The heads of all large objects.
fn large_heads(lent: &Lent) -> Vec<u64> {
    let mut heads = lent.heads();
    heads.retain(|head| large(lent.object_blocks(*head)));
    heads
}

/// The head of a large object that does not begin where one may.
pub fn unaligned_head(lent: &Lent) -> Option<u64> {
    large_heads(lent).into_iter().find(|head| !aligned(*head, lent.object_blocks(*head)))
}

/// Makes so many calls from an init on, after each of which every large object must be aligned. Nothing is
/// opened: a file may have large objects anywhere. Answers how many large objects the calls left, all counted
/// together.
pub fn stays_aligned(subject: Subject, t: u64, seed: u64, calls: u64) -> Result<usize, String> {
    let random = &mut Random::new(seed);
    let mut lent = draw::noise(random, t);
    subject(&Call::Init, &mut lent);
    let mut left = 0;
    for number in 0..calls {
        let call = draw::call(random, &mut lent);
        if call != Call::OpenImage {
            subject(&call, &mut lent);
        }
        if let Some(head) = unaligned_head(&lent) {
            return Err(format!(
                "seed {seed}, call {number}: a large object at {head} after {call:?} on {lent}"
            ));
        }
        left += large_heads(&lent).len();
    }
    Ok(left)
}
