use crate::Guarded;
use std::fmt;
use std::ops::{Index, IndexMut};

/// A buffer that is lent.
#[derive(Clone, Copy, Debug, PartialEq, Eq)]
pub enum Buffer {
    Pool,
    Table,
    Roots,
    Stack,
    Image,
}

impl Buffer {
    pub const ALL: [Buffer; 5] =
        [Buffer::Pool, Buffer::Table, Buffer::Roots, Buffer::Stack, Buffer::Image];
    /// What holds the heap; every call takes it.
    pub const HEAP: [Buffer; 2] = [Buffer::Pool, Buffer::Table];
}

impl fmt::Display for Buffer {
    fn fmt(&self, f: &mut fmt::Formatter) -> fmt::Result {
        f.write_str(&format!("{self:?}").to_lowercase())
    }
}

/// All that is lent to a call; it may take less. An opened image sets the base.
#[derive(Clone, Debug)]
pub struct Lent {
    pub base: u64,
    pub t: u64,
    /// In the order of [`Buffer::ALL`].
    pub buffers: [Guarded; Buffer::ALL.len()],
}

impl Lent {
    /// A heap; the other buffers are empty.
    pub fn new(base: u64, t: u64, pool: &[u8], table: &[u8]) -> Lent {
        Lent { base, t, buffers: [pool, table, &[], &[], &[]].map(Guarded::new) }
    }

    /// Puts words into the root list.
    pub fn set_roots(&mut self, words: &[u32]) {
        let bytes: Vec<u8> = words.iter().flat_map(|word| word.to_le_bytes()).collect();
        self[Buffer::Roots] = Guarded::new(&bytes);
    }

    /// A word of the pool, counted from the pool's start.
    pub fn word(&self, word: usize) -> u32 {
        listheap::words_of(&self[Buffer::Pool][4 * word..][..4])[0]
    }

    /// Writes a word into the pool, counted from the pool's start.
    pub fn set_word(&mut self, word: usize, value: u32) {
        self[Buffer::Pool][4 * word..][..4].copy_from_slice(&value.to_le_bytes());
    }
}

impl Index<Buffer> for Lent {
    type Output = Guarded;

    fn index(&self, buffer: Buffer) -> &Guarded {
        &self.buffers[buffer as usize]
    }
}

impl IndexMut<Buffer> for Lent {
    fn index_mut(&mut self, buffer: Buffer) -> &mut Guarded {
        &mut self.buffers[buffer as usize]
    }
}

/// The numbers that are lent, how long each buffer is, and the first bytes of the table.
impl fmt::Display for Lent {
    fn fmt(&self, f: &mut fmt::Formatter) -> fmt::Result {
        let lengths = Buffer::ALL.map(|buffer| format!("{buffer} of {} bytes", self[buffer].len()));
        let table = &self[Buffer::Table];
        let shown = &table[..table.len().min(16)];
        let Lent { base, t, .. } = self;
        write!(f, "base {base}, t {t}, {}; table begins {shown:02x?}", lengths.join(", "))
    }
}
