//! The list and the calls on it, but for collect, those of images and those of the log.

use crate::Refusal;

pub(crate) const BLOCK_BYTES: u64 = 16;
pub(crate) const WORDS_PER_BLOCK: u64 = 4;
const LARGE_BLOCKS: u64 = 4;
const LARGE_ALIGNMENT: u64 = 4;

#[derive(Clone, Debug, PartialEq, Eq)]
pub struct Object {
    pub start: u64,
    pub blocks: u64,
    pub words: Vec<u32>,
}

impl Object {
    /// The first block after the object.
    pub fn end(&self) -> u64 {
        self.start + self.blocks
    }

    /// Cuts words off the end, or adds zero words there.
    fn resize(&mut self, blocks: u64) {
        self.blocks = blocks;
        self.words.resize((blocks * WORDS_PER_BLOCK) as usize, 0);
    }
}

/// Where an object now stands, and the change in used blocks.
#[derive(Clone, Copy, Debug, PartialEq, Eq)]
pub struct Placed {
    pub block: u64,
    pub change: i64,
}

#[derive(Clone, Copy, Debug, PartialEq, Eq)]
pub struct Survey {
    pub used: u64,
    pub objects: u64,
    pub longest: u64,
}

/// A heap of `blocks` blocks; the objects stand in rising order and do not overlap.
#[derive(Clone, Debug, PartialEq, Eq)]
pub struct ListHeap {
    pub base: u64,
    pub blocks: u64,
    pub objects: Vec<Object>,
}

impl ListHeap {
    pub fn empty(base: u64, blocks: u64) -> ListHeap {
        ListHeap { base, blocks, objects: Vec::new() }
    }

    pub fn allocate(&mut self, bytes: u64) -> Result<Placed, Refusal> {
        let blocks = blocks_for(bytes)?;
        let start = self.room_for(blocks).ok_or(Refusal::NoRoom)?;
        let mut object = Object { start, blocks: 0, words: Vec::new() };
        object.resize(blocks);
        self.insert(object);
        Ok(Placed { block: start, change: blocks as i64 })
    }

    pub fn free(&mut self, block: u64) -> Result<i64, Refusal> {
        let index = self.index_of(block)?;
        let object = self.objects.remove(index);
        Ok(-(object.blocks as i64))
    }

    pub fn reallocate(&mut self, block: u64, bytes: u64) -> Result<Placed, Refusal> {
        let blocks = blocks_for(bytes)?;
        let index = self.index_of(block)?;
        let start = if self.may_stay(index, blocks) {
            block
        } else {
            self.room_for(blocks).ok_or(Refusal::NoRoom)?
        };
        let mut object = self.objects.remove(index);
        let change = blocks as i64 - object.blocks as i64;
        object.start = start;
        object.resize(blocks);
        self.insert(object);
        Ok(Placed { block: start, change })
    }

    pub fn survey(&self) -> Survey {
        Survey {
            used: self.used(),
            objects: self.objects.len() as u64,
            longest: self.gaps().into_iter().map(|(start, end)| end - start).max().unwrap_or(0),
        }
    }

    pub fn load(&self, block: u64, word: u64) -> Result<u32, Refusal> {
        let (index, word) = self.word_place(block, word)?;
        Ok(self.objects[index].words[word])
    }

    pub fn store(&mut self, block: u64, word: u64, value: u32) -> Result<(), Refusal> {
        let (index, word) = self.word_place(block, word)?;
        self.objects[index].words[word] = value;
        Ok(())
    }

    pub fn used(&self) -> u64 {
        self.objects.iter().map(|object| object.blocks).sum()
    }

    /// The block that has this address, whether or not the heap has so many blocks.
    pub fn block_at(&self, word: u32) -> Option<u64> {
        let offset = u64::from(word).checked_sub(self.base)?;
        (offset % BLOCK_BYTES == 0).then_some(offset / BLOCK_BYTES)
    }

    /// The place in the list of the object that the block is a part of.
    pub fn owner(&self, block: u64) -> Option<usize> {
        let index = self.objects.partition_point(|object| object.end() <= block);
        let object = self.objects.get(index)?;
        (object.start <= block).then_some(index)
    }

    /// The place in the list of the object whose head is `block`.
    fn index_of(&self, block: u64) -> Result<usize, Refusal> {
        if block >= self.blocks {
            return Err(Refusal::NoSuchBlock);
        }
        self.objects
            .binary_search_by_key(&block, |object| object.start)
            .map_err(|_| Refusal::NotAHead)
    }

    fn word_place(&self, block: u64, word: u64) -> Result<(usize, usize), Refusal> {
        let index = self.index_of(block)?;
        if word >= self.objects[index].words.len() as u64 {
            return Err(Refusal::NoSuchWord);
        }
        Ok((index, word as usize))
    }

    /// Every run of free blocks, as its first block and the block after its last, rising.
    fn gaps(&self) -> Vec<(u64, u64)> {
        let ends = self.objects.iter().map(Object::end);
        let starts = self.objects.iter().map(|object| object.start);
        std::iter::once(0)
            .chain(ends)
            .zip(starts.chain(std::iter::once(self.blocks)))
            .filter(|(start, end)| start < end)
            .collect()
    }

    /// The lowest aligned start of so many free blocks.
    fn room_for(&self, blocks: u64) -> Option<u64> {
        self.gaps().into_iter().find_map(|(start, end)| {
            let aligned = start.next_multiple_of(alignment(blocks));
            (aligned + blocks <= end).then_some(aligned)
        })
    }

    /// Whether the object may have so many blocks without moving: to grow it must also stand where an
    /// object of its new size may begin.
    fn may_stay(&self, index: usize, blocks: u64) -> bool {
        let Object { start, blocks: had, .. } = self.objects[index];
        let grows_here = start % alignment(blocks) == 0 && blocks <= self.room_in_place(index);
        blocks <= had || grows_here
    }

    /// How many blocks the object and the free ones directly after it are.
    fn room_in_place(&self, index: usize) -> u64 {
        let end = self.objects.get(index + 1).map_or(self.blocks, |next| next.start);
        end - self.objects[index].start
    }

    fn insert(&mut self, object: Object) {
        let index = self.objects.partition_point(|other| other.start < object.start);
        self.objects.insert(index, object);
    }
}

/// An object of so many blocks begins at a multiple of this.
fn alignment(blocks: u64) -> u64 {
    if blocks < LARGE_BLOCKS {
        1
    } else {
        LARGE_ALIGNMENT
    }
}

fn blocks_for(bytes: u64) -> Result<u64, Refusal> {
    if bytes == 0 {
        return Err(Refusal::ZeroBytes);
    }
    Ok(bytes.div_ceil(BLOCK_BYTES))
}
