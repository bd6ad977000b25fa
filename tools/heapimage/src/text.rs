//! Pieces of what the commands write.

use crate::{Image, Object, Target};
use blockheap::BLOCK_BYTES;

/// How many of what there are: `1 block`, `2 blocks`.
pub fn count(number: usize, what: &str) -> String {
    format!("{number} {what}{}", if number == 1 { "" } else { "s" })
}

/// A word as an address.
pub fn hex(word: u32) -> String {
    format!("{word:#010x}")
}

/// The items with a text between them.
pub fn joined(between: &str, items: impl IntoIterator<Item = String>) -> String {
    items.into_iter().collect::<Vec<_>>().join(between)
}

/// Behind a plus, how many bytes behind an object's head a word leads; nothing if it leads to the head.
pub fn offset(target: Target) -> String {
    match target.block {
        0 => String::new(),
        block => format!("+{}", block * BLOCK_BYTES),
    }
}

/// Where a word leads: the object's address, and how far behind its head.
pub fn place(image: &Image, target: Target) -> String {
    hex(image.objects[target.object].address) + &offset(target)
}

/// Whether a collection from the roots keeps an object or frees it.
pub fn state(object: &Object) -> &'static str {
    if object.reachable {
        "reachable"
    } else {
        "garbage"
    }
}
