//! Files for the tests: images, and what is none.

#![allow(dead_code)] // no test program uses all of it

/// The file of an image, section by section, whether or not it is one that the library opens.
#[derive(Clone)]
pub struct File {
    pub base: Vec<u32>,
    pub table: Vec<u8>,
    pub blocks: Vec<[u32; 4]>,
    pub roots: Vec<u32>,
}

impl File {
    /// A file with these entries, in the letters of a map (`m` is MARK), and the words of its used blocks.
    pub fn new(base: u32, map: &str, blocks: &[[u32; 4]], roots: &[u32]) -> File {
        let entries: Vec<u8> =
            map.chars().map(|letter| ".h=m".find(letter).expect("a letter") as u8).collect();
        let table = entries.chunks(4).map(|e| e[0] | e[1] << 2 | e[2] << 4 | e[3] << 6).collect();
        File { base: vec![base], table, blocks: blocks.to_vec(), roots: roots.to_vec() }
    }

    pub fn bytes(&self) -> Vec<u8> {
        let words = |words: &[u32]| words.iter().flat_map(|word| word.to_le_bytes()).collect();
        [
            section(self.base.len(), words(&self.base)),
            section(self.table.len(), self.table.clone()),
            section(self.blocks.len(), words(self.blocks.as_flattened())),
            section(self.roots.len(), words(&self.roots)),
        ]
        .concat()
    }
}

fn section(count: usize, items: Vec<u8>) -> Vec<u8> {
    let count = u16::try_from(count).expect("a count of two bytes");
    [count.to_le_bytes().to_vec(), items].concat()
}

/// The bytes of a file with some of them replaced, from one on.
pub fn patched(file: &[u8], from: usize, bytes: &[u8]) -> Vec<u8> {
    let mut file = file.to_vec();
    file[from..][..bytes.len()].copy_from_slice(bytes);
    file
}

const BASE: u32 = 0x2000_0000;
const ZERO: [u32; 4] = [0; 4];

/// The image that `./demo` leaves.
pub fn demo() -> Vec<u8> {
    let dump = include_str!("../../../../hosts/c/demo.image.expected");
    let bytes = dump.lines().flat_map(|line| line.split_whitespace().skip(1));
    bytes.map(|byte| u8::from_str_radix(byte, 16).expect("a byte")).collect()
}

/// The image that `include/blockheap.h` draws.
pub fn small() -> Vec<u8> {
    File::new(4096, "h...", &[ZERO], &[4096]).bytes()
}

/// No objects and no roots.
pub fn empty() -> Vec<u8> {
    File::new(4096, "........", &[], &[]).bytes()
}

/// A record and a buffer, which lead to each other by the addresses of tails too; garbage, with a ring of
/// two; and roots that lead to nothing: into a block, to a free block, and 0.
pub fn before() -> Vec<u8> {
    let blocks = [
        [BASE + 0x60, 0, BASE, 7],
        [0, 0, 0, BASE + 0x40],
        [BASE + 0x10, 0, 0, 0],
        [1, 2, 3, 4],
        [5, 6, 7, 8],
        [u32::MAX; 4],
        [BASE + 0xC0, 0, 0, 0],
        ZERO,
        ZERO,
        [BASE + 0x80, 0, 0, 0],
        [1, 1, 1, 1],
        [BASE + 0xE0, BASE + 0xA0, 0, BASE + 0x44],
    ];
    let roots = [BASE, BASE + 8, BASE + 0x60, 0, BASE + 0x20];
    File::new(BASE, "h=..h===h==.h.hh", &blocks, &roots).bytes()
}

/// The same heap later, and larger: the buffer has grown and moved, and its old place is another's.
pub fn after() -> Vec<u8> {
    let blocks = [
        [BASE + 0xA0, 0, BASE, 8],
        [0, 0, 0, BASE + 0x80],
        [9, 9, 9, 9],
        [BASE + 0x10, 0, 0, 0],
        [1, 2, 3, 4],
        [5, 6, 70, 8],
        [u32::MAX; 4],
        ZERO,
        ZERO,
        ZERO,
        ZERO,
    ];
    let roots = [BASE, BASE + 8, BASE + 0xA0, 0];
    File::new(BASE, "h=..h...h======..h..", &blocks, &roots).bytes()
}

/// The longest image: each block is an object that leads to the next, and each root to another one.
pub fn longest() -> Vec<u8> {
    let address = |block: u32| BASE + 16 * (block % 4096);
    let blocks: Vec<[u32; 4]> = (0..4096).map(|block| [address(block + 1), block, 0, 0]).collect();
    let roots: Vec<u32> = (0..4096).map(|root| address(5 * root)).collect();
    File::new(BASE, &"h".repeat(4096), &blocks, &roots).bytes()
}

/// The images above but the longest, by their names.
pub fn images() -> [(&'static str, Vec<u8>); 5] {
    [
        ("demo.image", demo()),
        ("small.image", small()),
        ("empty.image", empty()),
        ("before.image", before()),
        ("after.image", after()),
    ]
}

/// Files that are refused, by their names: the small image with a fault.
pub fn refused() -> Vec<(&'static str, Vec<u8>)> {
    let small = small();
    let with_map = |map| File::new(4096, map, &vec![ZERO; map.replace('.', "").len()], &[]).bytes();
    vec![
        ("nothing", Vec::new()),
        ("text", b"This is no image.\n".into()),
        ("cut-in-count", small[..28].into()),
        ("cut-in-blocks", small[..20].into()),
        ("two-bases", patched(&small, 0, &[2])),
        ("no-table", patched(&small, 6, &[0, 0])),
        ("large-table", patched(&small, 6, &[1, 4])),
        ("two-blocks", patched(&small, 9, &[2])),
        ("many-roots", patched(&small, 27, &[1, 16])),
        ("longer", [&small[..], &[0, 0]].concat()),
        ("odd-base", patched(&small, 2, &[8])),
        ("zero-base", patched(&small, 2, &[0, 0])),
        ("high-base", patched(&small, 2, &[0xD0, 0xFF, 0xFF, 0xFF])),
        ("mark", with_map("h..m")),
        ("tail-first", with_map("==..")),
        ("tail-alone", with_map("h===.===")),
    ]
}
