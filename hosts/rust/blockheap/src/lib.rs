//! The MicroPython block heap over memory that the caller lends, as a safe Rust interface.
//!
//! A pool is cut into blocks of 16 bytes, and a table says of each block whether it is free, the head
//! of an object or a tail of one, in the two bit planes that `include/blockheap.h` draws. The library
//! keeps nothing of its own: a [`Heap`] holds what is lent, and every call hands all of it over. Any
//! content may be lent and any number passed: what does not fit is refused with a [`Refusal`], and then
//! nothing has changed, but for what [`NotPlaced`] says.
//!
//! ```
#![doc = include_str!("../examples/readme.rs")]
//! ```
//!
//! A [`Log`] is a list of times and tip counts in a heap, each entry an object of its own. A [`View`] is a heap
//! to look at, with iterators over its objects, its free runs and the entries of a log.
//!
//! # Boards
//!
//! The archive that is linked is the one that `BLOCKHEAP_LIB` names by its full path, or that of cargo's target in
//! this repository: for x86-64 Linux the proved one, which `hosts/library` builds, and for any other
//! target the one that `hosts/portable/build` builds of the same source, which is tested and not proved. For a
//! Cortex-M3, the first two in the repository's folder and the third in the firmware's:
//!
//! ```text
//! rustup target add thumbv7m-none-eabi
//! hosts/portable/build thumbv7m-none-eabi
//! cargo build --release --target thumbv7m-none-eabi
//! ```
//!
//! There the base is the address of the memory itself, at whose front the pool lies, so that a pointer to a block
//! is what a word in the pool spells:
//!
//! ```no_run
//! use blockheap::{Address, Heap, Memory, Refusal};
//!
//! fn start(memory: &mut Memory<16>) -> Result<Heap<'_>, Refusal> {
//!     let base = Address::from(core::ptr::from_ref(memory) as u32);
//!     memory.init(base)
//! }
//! ```
//!
//! # Unsafe code
//!
//! All unsafe code is in the module [`raw`]. A call panics only if the archive answers a number that
//! is no refusal's, or a bad shape where no rule is broken, as one of another version may.

#![no_std]
#![deny(missing_docs, unsafe_code, clippy::missing_errors_doc)]

mod address;
mod answers;
mod block;
mod heap;
mod log;
mod mark_entry;
mod memory;
#[allow(unsafe_code)]
pub mod raw;
mod refusal;
mod shape;
mod sizes;
mod table;
mod view;

pub use address::Address;
pub use answers::{Collected, Opened, Placed, Survey};
pub use block::Block;
pub use heap::Heap;
pub use log::{Entry, Log, LogEntries};
pub use mark_entry::MarkEntry;
pub use memory::Memory;
pub use refusal::{NotPlaced, Refusal};
pub use shape::ShapeFault;
pub use sizes::*;
pub use table::{FreeRun, FreeRuns, Object, Objects};
pub use view::View;
