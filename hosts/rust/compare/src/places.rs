//! Wrong places of objects: allocate and reallocate of a heap that follows the rules but for where objects
//! may begin, grow and stay.

use listheap::{ListHeap, Object, Placed, Refusal};
use std::cmp::Ordering;
use std::ops::Range;

/// Whether so many blocks may begin at a block of the heap.
pub type MayBegin = fn(heap: &ListHeap, start: u64, blocks: u64) -> bool;

/// Where a heap lets objects be.
#[derive(Clone, Copy)]
pub struct Places {
    /// Where new ones begin.
    pub new: MayBegin,
    /// Where those begin that move.
    pub moved: MayBegin,
    /// Where those stay that grow, if there is room,
    pub grown: MayBegin,
    /// that keep their size,
    pub kept: MayBegin,
    /// and that shrink.
    pub shrunk: MayBegin,
}

pub const RIGHT: Places = Places {
    new: right_start,
    moved: right_start,
    grown: right_start,
    kept: anywhere,
    shrunk: anywhere,
};

pub fn right_start(_: &ListHeap, start: u64, blocks: u64) -> bool {
    crate::aligned::aligned(start, blocks)
}

pub fn anywhere(_: &ListHeap, _: u64, _: u64) -> bool {
    true
}

impl Places {
    /// New and moved objects begin there, and objects grow there.
    pub fn all(start: MayBegin) -> Places {
        Places { new: start, moved: start, grown: start, ..RIGHT }
    }

    pub fn allocate(&self, heap: &mut ListHeap, blocks: u64) -> Result<Placed, Refusal> {
        let start = search(heap, blocks, self.new).ok_or(Refusal::NoRoom)?;
        heap.objects.push(Object { start, blocks: 0, words: Vec::new() });
        Ok(place(heap, heap.objects.len() - 1, start, blocks))
    }

    /// Of the object at `block`.
    pub fn reallocate(
        &self,
        heap: &mut ListHeap,
        block: u64,
        blocks: u64,
    ) -> Result<Placed, Refusal> {
        let index = heap.owner(block).expect("an object");
        let had = heap.objects[index].blocks;
        let may_stay = match blocks.cmp(&had) {
            Ordering::Less => self.shrunk,
            Ordering::Equal => self.kept,
            Ordering::Greater => self.grown,
        };
        let stays = may_stay(heap, block, blocks) && free_run(heap, block + had..block + blocks);
        let start = if stays { Some(block) } else { search(heap, blocks, self.moved) };
        Ok(place(heap, index, start.ok_or(Refusal::NoRoom)?, blocks))
    }
}

/// The lowest start of so many free blocks that `may_begin` admits.
pub fn search(heap: &ListHeap, blocks: u64, may_begin: MayBegin) -> Option<u64> {
    (0..heap.blocks)
        .find(|start| may_begin(heap, *start, blocks) && free_run(heap, *start..*start + blocks))
}

/// Whether these blocks are free, and blocks of the heap.
pub fn free_run(heap: &ListHeap, mut blocks: Range<u64>) -> bool {
    blocks.end <= heap.blocks && blocks.all(|block| heap.owner(block).is_none())
}

/// Gives the object a start and a size, with its words as far as they fit.
fn place(heap: &mut ListHeap, index: usize, start: u64, blocks: u64) -> Placed {
    let object = &mut heap.objects[index];
    let change = blocks as i64 - object.blocks as i64;
    (object.start, object.blocks) = (start, blocks);
    object.words.resize(4 * blocks as usize, 0);
    heap.objects.sort_by_key(|object| object.start);
    Placed { block: start, change }
}
