//! An image that the library has opened.

use blockheap::{
    image_t, pool_bytes, table_bytes, Address, Block, Heap, MarkEntry, Refusal, Survey,
};
use blockheap::{BLOCK_BYTES, MAX_ROOTS, MAX_STACK_ENTRIES, WORDS_PER_BLOCK, WORD_BYTES};

/// What an image says, all of it answered by the library's calls.
#[derive(Debug)]
pub struct Image {
    pub base: u32,
    pub t: usize,
    pub roots: Vec<u32>,
    /// The objects, by rising addresses.
    pub objects: Vec<Object>,
    pub survey: Survey,
    /// The survey after a collection from the roots.
    pub collected: Survey,
    /// Whose each block is: an index into the objects.
    owners: Vec<Option<usize>>,
}

/// An object of an image.
#[derive(Debug, PartialEq, Eq)]
pub struct Object {
    /// The number of its head.
    pub block: usize,
    pub address: u32,
    pub words: Vec<u32>,
    /// Whether a chain of pointers leads to it from a root: it is garbage otherwise.
    pub reachable: bool,
}

impl Object {
    pub fn blocks(&self) -> usize {
        self.words.len() / WORDS_PER_BLOCK
    }

    pub fn bytes(&self) -> usize {
        self.words.len() * WORD_BYTES
    }
}

/// What a word leads to.
#[derive(Clone, Copy, Debug, PartialEq, Eq)]
pub struct Target {
    /// An index into the objects.
    pub object: usize,
    /// How many blocks behind the object's head the word leads.
    pub block: usize,
}

/// Of a block that is used: whether it is a head, and its words.
#[derive(Debug, PartialEq, Eq)]
pub struct Used<'i> {
    pub head: bool,
    pub words: &'i [u32],
}

impl Image {
    /// Opens a file, which may be any bytes at all.
    pub fn open(file: &[u8]) -> Result<Image, Refusal> {
        // Whatever is lent, a file that has no t is refused for that.
        let t = image_t(file).unwrap_or(1);
        let (mut pool, mut table) = (vec![0; pool_bytes(t)], vec![0; table_bytes(t)]);
        let mut list = [Address::NULL; MAX_ROOTS];
        let opened = Heap::open_image(file, &mut pool, &mut table, &mut list)?;
        Image::of(opened.heap, t, opened.roots)
    }

    /// What a heap and its roots say. It is collected on the way, after its objects have been read.
    fn of(mut heap: Heap, t: usize, roots: &[Address]) -> Result<Image, Refusal> {
        let blocks = pool_bytes(t) / BLOCK_BYTES;
        let survey = heap.survey()?;
        let mut objects = objects_in(&heap, blocks)?;
        heap.collect(roots, &mut [MarkEntry::EMPTY; MAX_STACK_ENTRIES])?;
        for object in &mut objects {
            object.reachable = heap.load(block(object.block), 0).is_ok();
        }
        Ok(Image {
            base: heap.base().word(),
            t,
            roots: roots.iter().map(|root| root.word()).collect(),
            owners: owners(&objects, blocks),
            objects,
            survey,
            collected: heap.survey()?,
        })
    }

    pub fn blocks(&self) -> usize {
        self.owners.len()
    }

    /// The index of the object whose head is this block. There need be no such block.
    pub fn index_at(&self, block: usize) -> Option<usize> {
        let owner = (*self.owners.get(block)?)?;
        (self.objects[owner].block == block).then_some(owner)
    }

    /// What a block holds, if it is used. There need be no such block.
    pub fn used_block(&self, block: usize) -> Option<Used<'_>> {
        let object = &self.objects[(*self.owners.get(block)?)?];
        let first = (block - object.block) * WORDS_PER_BLOCK;
        let words = &object.words[first..first + WORDS_PER_BLOCK];
        Some(Used { head: first == 0, words })
    }

    /// What a word leads to: the object of the block whose address it is.
    pub fn target(&self, word: u32) -> Option<Target> {
        let offset = word.checked_sub(self.base)? as usize;
        let block = offset / BLOCK_BYTES;
        let object = (*self.owners.get(block)?)?;
        let block = block - self.objects[object].block;
        (offset % BLOCK_BYTES == 0).then_some(Target { object, block })
    }

    /// The pointers among words: their indices, and what they lead to.
    pub fn pointers<'i>(&'i self, words: &'i [u32]) -> impl Iterator<Item = (usize, Target)> + 'i {
        words.iter().enumerate().filter_map(|(index, word)| Some((index, self.target(*word)?)))
    }
}

fn block(number: usize) -> Block {
    Block::from_number(number as u64)
}

/// The objects of a heap: a block whose words can be loaded is the head of one.
fn objects_in(heap: &Heap, blocks: usize) -> Result<Vec<Object>, Refusal> {
    let mut objects = Vec::new();
    for number in 0..blocks {
        let words = words_of(heap, block(number));
        if !words.is_empty() {
            let address = heap.address_of(block(number))?.word();
            objects.push(Object { block: number, address, words, reachable: false });
        }
    }
    Ok(objects)
}

/// The words of the object with this head: none if the block is free or a tail.
fn words_of(heap: &Heap, head: Block) -> Vec<u32> {
    (0..).map_while(|word| heap.load(head, word).ok()).collect()
}

fn owners(objects: &[Object], blocks: usize) -> Vec<Option<usize>> {
    let mut owners = vec![None; blocks];
    for (index, object) in objects.iter().enumerate() {
        owners[object.block..][..object.blocks()].fill(Some(index));
    }
    owners
}
