//! A list of objects out of a lent table and pool, and back.

use crate::heap::{BLOCK_BYTES, WORDS_PER_BLOCK};
use crate::{Appended, Collected, Entry, File, ListHeap, Object, Refusal};

const WORD_BYTES: usize = 4;
const BLOCKS_PER_T: u64 = 4;
const ADDRESSES: u64 = 1 << 32;

const FREE: u8 = 0;
const HEAD: u8 = 1;
const TAIL: u8 = 2;

/// What the bits of a byte of a plane count, lowest first.
const WEIGHTS: [u8; 8] = [1, 2, 4, 8, 16, 32, 64, 128];

/// A heap in lent bytes.
pub struct Lent<'m> {
    pub base: u64,
    pub t: u64,
    pub pool: &'m mut [u8],
    pub table: &'m mut [u8],
}

impl Lent<'_> {
    pub fn init(self) -> Result<(), Refusal> {
        self.check_shape()?;
        encode_table(&[], self.table);
        Ok(())
    }

    /// Reads the heap, lets `call` work on its list and, if it is accepted, writes the heap back.
    pub fn on_list<A>(
        self,
        call: impl FnOnce(&mut ListHeap) -> Result<A, Refusal>,
    ) -> Result<A, Refusal> {
        self.check_shape()?;
        let mut heap = self.decode()?;
        let answer = call(&mut heap)?;
        self.encode(&heap);
        Ok(answer)
    }

    /// Collect, with roots and mark stack as bytes.
    pub fn collect(self, roots: &[u8], stack: &mut [u8]) -> Result<Collected, Refusal> {
        if roots.len() % WORD_BYTES != 0 || stack.len() % WORD_BYTES != 0 {
            return Err(Refusal::Shape);
        }
        let entries = stack.len() / WORD_BYTES;
        let collected = self.on_list(|heap| heap.collect(&words_of(roots), entries))?;
        stack.fill(0);
        Ok(collected)
    }

    /// Append to a log, with roots and mark stack as bytes. Only a collection touches the stack.
    pub fn log_append(
        self,
        first: u64,
        entry: Entry,
        roots: &[u8],
        stack: &mut [u8],
    ) -> Result<Appended, Refusal> {
        if roots.len() % WORD_BYTES != 0 || stack.len() % WORD_BYTES != 0 {
            return Err(Refusal::Shape);
        }
        let entries = stack.len() / WORD_BYTES;
        let appended =
            self.on_list(|heap| heap.log_append(first, entry, &words_of(roots), entries))?;
        if appended.collected {
            stack.fill(0);
        }
        Ok(appended)
    }

    /// Write image, with roots as bytes.
    pub fn write_image(self, roots: &[u8], output: &mut [u8]) -> Result<u64, Refusal> {
        if roots.len() % WORD_BYTES != 0 {
            return Err(Refusal::Shape);
        }
        self.on_list(|heap| heap.write_image(&words_of(roots), output))
    }

    /// Open image, with the list for the roots as bytes: the file gives the base. Answers it, and the number
    /// of roots.
    pub fn open_image(self, image: &[u8], roots: &mut [u8]) -> Result<(u64, u64), Refusal> {
        let file = File::read(image)?;
        let lent = Lent { base: file.base.into(), ..self };
        lent.check_shape()?;
        let heap = file.open(lent.t, roots)?;
        lent.pool.fill(0);
        lent.encode(&heap);
        Ok((heap.base, file.roots.len() as u64))
    }

    fn check_shape(&self) -> Result<(), Refusal> {
        let [pool, table] = [&self.pool, &self.table].map(|bytes| bytes.len() as u64);
        let t_fits = (1..=1024).contains(&self.t);
        let lengths_fit = t_fits && pool == 64 * self.t && table == 2 * self.t.div_ceil(2);
        if lengths_fit && base_fits(self.base, self.t) {
            Ok(())
        } else {
            Err(Refusal::Shape)
        }
    }

    fn decode(&self) -> Result<ListHeap, Refusal> {
        let mut heap = ListHeap::empty(self.base, BLOCKS_PER_T * self.t);
        heap.objects = objects_of(entries(self.table), heap.blocks)?;
        for object in &mut heap.objects {
            object.words = words_of(&self.pool[bytes_of(object)]);
        }
        Ok(heap)
    }

    /// Writes the table anew and the words of every object; the bytes of free blocks stay.
    fn encode(self, heap: &ListHeap) {
        encode_table(&heap.objects, self.table);
        for object in &heap.objects {
            debug_assert_eq!(object.words.len() as u64, object.blocks * WORDS_PER_BLOCK);
            let bytes = &mut self.pool[bytes_of(object)];
            for (bytes, word) in bytes.chunks_exact_mut(WORD_BYTES).zip(&object.words) {
                bytes.copy_from_slice(&word.to_le_bytes());
            }
        }
    }
}

/// Whether a heap of this t, which is one, may have this base.
pub(crate) fn base_fits(base: u64, t: u64) -> bool {
    let end_fits = base.checked_add(64 * t).is_some_and(|end| end <= ADDRESSES);
    base >= 16 && base % 16 == 0 && end_fits
}

/// The objects of entries, still without words. Behind so many blocks every entry must be FREE.
pub(crate) fn objects_of(
    entries: impl IntoIterator<Item = u8>,
    blocks: u64,
) -> Result<Vec<Object>, Refusal> {
    let mut objects: Vec<Object> = Vec::new();
    for (block, entry) in (0..).zip(entries) {
        match entry {
            FREE => {}
            _ if block >= blocks => return Err(Refusal::Table),
            HEAD => objects.push(Object { start: block, blocks: 1, words: Vec::new() }),
            TAIL => match objects.last_mut() {
                Some(object) if object.end() == block => object.blocks += 1,
                _ => return Err(Refusal::Table),
            },
            _ => return Err(Refusal::Table),
        }
    }
    Ok(objects)
}

/// The words that the bytes spell, lowest byte first.
pub fn words_of(bytes: &[u8]) -> Vec<u32> {
    bytes
        .chunks_exact(WORD_BYTES)
        .map(|word| word.iter().rev().fold(0, |above, byte| above * 256 + u32::from(*byte)))
        .collect()
}

/// The entries that a table's planes spell, the spare ones behind those of the blocks.
fn entries(table: &[u8]) -> impl Iterator<Item = u8> + '_ {
    let (low, high) = table.split_at(table.len() / 2);
    bits(low).zip(bits(high)).map(|(low, high)| low + 2 * high)
}

/// The bits of a plane, lowest first.
fn bits(plane: &[u8]) -> impl Iterator<Item = u8> + '_ {
    plane.iter().flat_map(|byte| WEIGHTS.map(|weight| byte / weight % 2))
}

/// Writes every byte of both planes anew. Spare bits become 0.
fn encode_table(objects: &[Object], table: &mut [u8]) {
    let entries = entries_of(objects, 4 * table.len());
    let (low, high) = table.split_at_mut(table.len() / 2);
    write_plane(low, entries.iter().map(|entry| entry % 2));
    write_plane(high, entries.iter().map(|entry| entry / 2));
}

/// So many entries, FREE where no object is.
pub(crate) fn entries_of(objects: &[Object], count: usize) -> Vec<u8> {
    let mut entries = vec![FREE; count];
    for object in objects {
        entries[object.start as usize..object.end() as usize].fill(TAIL);
        entries[object.start as usize] = HEAD;
    }
    entries
}

fn write_plane(plane: &mut [u8], mut bits: impl Iterator<Item = u8>) {
    for byte in plane {
        *byte = WEIGHTS.iter().zip(&mut bits).map(|(weight, bit)| weight * bit).sum();
    }
}

fn bytes_of(object: &Object) -> std::ops::Range<usize> {
    (BLOCK_BYTES * object.start) as usize..(BLOCK_BYTES * object.end()) as usize
}

#[cfg(test)]
mod tests {
    use super::*;

    #[test]
    fn words_are_read_lowest_byte_first() {
        assert_eq!(words_of(&[0x00, 0x10, 0x00, 0x00]), [4096]);
    }

    #[test]
    fn a_table_and_its_list_are_the_same_heap() {
        let (mut pool, mut table) = ([7; 192], [0x13, 0x01, 0xEC, 0x0E]);
        let lent = Lent { base: 4096, t: 3, pool: &mut pool, table: &mut table };
        let spans = lent.on_list(|heap| {
            Ok(heap.objects.iter().map(|o| (o.start, o.blocks)).collect::<Vec<_>>())
        });
        assert_eq!(spans, Ok(vec![(0, 1), (1, 3), (4, 4), (8, 4)]));
        assert_eq!((pool, table), ([7; 192], [0x13, 0x01, 0xEC, 0x0E]));
    }

    #[test]
    fn spare_bits_are_refused_and_cleared_by_an_init() {
        for (byte, bit) in [(0, 4), (0, 7), (1, 5), (1, 6)] {
            let mut table = [0; 2];
            table[byte] = 1 << bit;
            let before = table;
            let lent = Lent { base: 4096, t: 1, pool: &mut [0; 64], table: &mut table };
            assert_eq!(lent.on_list(|heap| heap.allocate(1)), Err(Refusal::Table));
            assert_eq!(table, before);
            let lent = Lent { base: 4096, t: 1, pool: &mut [0; 64], table: &mut table };
            assert_eq!((lent.init(), table), (Ok(()), [0; 2]));
        }
    }
}
