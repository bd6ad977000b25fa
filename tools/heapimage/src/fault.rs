//! What is wrong with a file that the library refuses, and where.
//!
//! This reads the sections anew, for the sake of the explanation alone: whether a file is refused, and by
//! which number, is the library's to say.

use blockheap::{Refusal, ShapeFault};
use blockheap::{BLOCK_BYTES, MAX_ROOTS, MAX_T, MIN_BASE, WORD_BYTES};
use std::fmt;

/// The first fault of a file.
#[derive(Clone, Debug, PartialEq, Eq)]
pub struct Fault {
    pub refusal: Refusal,
    /// The byte at which it begins, counted from 0. Where bytes are missing, it is the end of the file.
    pub byte: usize,
    /// What is wrong, in a sentence.
    pub what: String,
}

impl fmt::Display for Fault {
    fn fmt(&self, f: &mut fmt::Formatter<'_>) -> fmt::Result {
        write!(f, "refused ({}) at byte {}: {}", self.refusal.number(), self.byte, self.what)
    }
}

/// The first fault of a file, read from its front: first those of its sections, then those of its heap.
pub fn first_fault(file: &[u8]) -> Option<Fault> {
    find(file).err()
}

fn find(file: &[u8]) -> Result<(), Fault> {
    let mut reader = Reader { file, at: 0 };
    let base = reader.section(&BASE)?;
    let table = reader.section(&TABLE)?;
    reader.section(&blocks_of(used(table.items)))?;
    let roots = reader.section(&ROOTS)?;
    reader.end(&roots)?;
    check_base(&base, table.count)?;
    check_table(&table)
}

/// What a section may hold: how many bytes each of its items has, the fewest and the most that there may
/// be, why, and the refusal if there are fewer or more.
struct Kind {
    name: &'static str,
    item_bytes: usize,
    fewest: usize,
    most: usize,
    why: &'static str,
    wrong: Refusal,
}

const BASE: Kind = Kind {
    name: "base",
    item_bytes: WORD_BYTES,
    fewest: 1,
    most: 1,
    why: "",
    wrong: Refusal::BadCount,
};

const TABLE: Kind = Kind {
    name: "table",
    item_bytes: 1,
    fewest: 1,
    most: MAX_T,
    why: "",
    wrong: Refusal::BadCount,
};

const fn blocks_of(used: usize) -> Kind {
    Kind {
        name: "blocks",
        item_bytes: BLOCK_BYTES,
        fewest: used,
        most: used,
        why: ", as the table has so many entries other than FREE",
        wrong: Refusal::BadCount,
    }
}

const ROOTS: Kind = Kind {
    name: "roots",
    item_bytes: WORD_BYTES,
    fewest: 0,
    most: MAX_ROOTS,
    why: "",
    wrong: Refusal::TooManyRoots,
};

impl Kind {
    fn check_count(&self, count: usize, byte: usize) -> Result<(), Fault> {
        let Kind { name, fewest, most, why, .. } = self;
        if (*fewest..=*most).contains(&count) {
            return Ok(());
        }
        let must_be = match fewest {
            0 => format!("at most {most}"),
            _ if fewest == most => format!("{most}"),
            _ => format!("{fewest} to {most}"),
        };
        let what =
            format!("the count of the {name} section is {count}, and must be {must_be}{why}");
        Err(Fault { refusal: self.wrong, byte, what })
    }
}

/// A section: the byte at which its count is, its count, and its items.
struct Section<'f> {
    at: usize,
    count: usize,
    items: &'f [u8],
}

impl Section<'_> {
    /// The byte at which an item of one byte, or the only one, begins.
    fn byte_of(&self, item: usize) -> usize {
        self.at + COUNT_BYTES + item
    }
}

const COUNT_BYTES: usize = 2;

/// Reads a file from the front.
struct Reader<'f> {
    file: &'f [u8],
    at: usize,
}

impl<'f> Reader<'f> {
    fn section(&mut self, kind: &Kind) -> Result<Section<'f>, Fault> {
        let at = self.at;
        let count = self.take(COUNT_BYTES, || {
            format!("inside the count of the {} section, which begins at byte {at}", kind.name)
        })?;
        let count = usize::from(count[0]) + 256 * usize::from(count[1]);
        kind.check_count(count, at)?;
        let items = self.take(kind.item_bytes * count, || {
            format!("inside the {} section, whose count at byte {at} is {count}", kind.name)
        })?;
        Ok(Section { at, count, items })
    }

    /// The next bytes, so many. If the file ends before, it ends at the place that is described.
    fn take(&mut self, length: usize, place: impl Fn() -> String) -> Result<&'f [u8], Fault> {
        let rest = &self.file[self.at..];
        let taken = rest.get(..length).ok_or_else(|| Fault {
            refusal: Refusal::ImageTruncated,
            byte: self.file.len(),
            what: format!("the file ends {}: it has {} of the {length} bytes", place(), rest.len()),
        })?;
        self.at += length;
        Ok(taken)
    }

    fn end(&self, last: &Section) -> Result<(), Fault> {
        if self.at == self.file.len() {
            return Ok(());
        }
        let Section { at, count, .. } = last;
        let what = format!(
            "the roots section, whose count at byte {at} is {count}, ends here, and the file goes on"
        );
        Err(Fault { refusal: Refusal::TrailingBytes, byte: self.at, what })
    }
}

fn check_base(section: &Section, t: usize) -> Result<(), Fault> {
    let base = section.items.iter().rev().fold(0, |word, byte| 256 * word + u64::from(*byte));
    let highest = (1 << 32) - 64 * t as u64;
    let (fault, must_be) = if base < MIN_BASE.word().into() {
        (ShapeFault::BaseTooLow, format!("at least {}", MIN_BASE.word()))
    } else if base % BLOCK_BYTES as u64 != 0 {
        (ShapeFault::BaseUnaligned, format!("a multiple of {BLOCK_BYTES}"))
    } else if base > highest {
        (ShapeFault::PoolEnd, format!("at most {highest:#010x}, as t is {t}"))
    } else {
        return Ok(());
    };
    let what = format!("the base is {base:#010x}, and must be {must_be}");
    Err(Fault { refusal: Refusal::BadShape(fault), byte: section.byte_of(0), what })
}

/// The entries of blocks, as the table of an image numbers them.
const FREE: u8 = 0;
const TAIL: u8 = 2;
const MARK: u8 = 3;

/// The entries of a table, of four blocks in each byte.
fn entries(table: &[u8]) -> impl Iterator<Item = u8> + '_ {
    table.iter().flat_map(|byte| [0, 2, 4, 6].map(|shift| byte >> shift & 3))
}

fn used(table: &[u8]) -> usize {
    entries(table).filter(|entry| *entry != FREE).count()
}

fn check_table(section: &Section) -> Result<(), Fault> {
    // Before block 0 there is no object that a tail could be of.
    let mut before = FREE;
    for (block, entry) in entries(section.items).enumerate() {
        let wrong = match entry {
            MARK => "MARK, and must be FREE, HEAD or TAIL",
            TAIL if before == FREE => "TAIL, and must follow a HEAD or a TAIL",
            _ => {
                before = entry;
                continue;
            }
        };
        let (byte, bit) = (section.byte_of(block / 4), 2 * (block % 4));
        let what = format!("the entry of block {block}, bits {bit} and {}, is {wrong}", bit + 1);
        return Err(Fault { refusal: Refusal::BadTable, byte, what });
    }
    Ok(())
}
