//! The block heap as a plain list of objects, each a start, a block count and its words.
//!
//! It is written from the rules of the heap alone and shares nothing with the library: it keeps no
//! table while it works, and finds room between the objects of its list. [`Lent::on_list`] reads
//! a lent table and pool into such a list, lets a call work on the list, and writes the list back.
//! It is made to be plain, not fast.

mod bytes;
mod collect;
mod file;
mod heap;
mod image;
mod log;
mod refusal;

pub use bytes::{words_of, Lent};
pub use collect::{Collected, Marking};
pub use file::File;
pub use heap::{ListHeap, Object, Placed, Survey};
pub use log::{Appended, Dropped, Entry};
pub use refusal::Refusal;
