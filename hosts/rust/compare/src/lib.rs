//! Runs a heap beside the plain-list heap and compares every answer and every byte.
//!
//! A [`Subject`] is a heap under test: the library through its raw calls, the library through the
//! safe wrapper, or a heap that is broken on purpose, which the comparison must notice.

pub mod aligned;
mod call;
pub mod chains;
mod check;
mod coverage;
mod difference;
mod draw;
pub mod expect;
pub mod files;
mod guarded;
pub mod image;
pub mod lasting;
pub mod laws;
mod lent;
pub mod logs;
mod pages;
mod pairs;
pub mod places;
pub mod planes;
mod random;
pub mod readings;
mod record;
pub mod recording;
mod reply;
mod situations;
mod subject;
mod walk;
mod wanted;

pub use call::{Access, Call, Description};
pub use check::compare;
pub use coverage::Coverage;
pub use draw::{call as draw_call, good_roots, good_stack, heap as draw_heap, noise};
pub use guarded::Guarded;
pub use lent::{Buffer, Lent};
pub use pairs::{run_pairs, PairCounts};
pub use random::Random;
pub use reply::Reply;
pub use subject::{library, on_list, second, second_on_list, wrapper, Subject};
pub use walk::{run_walks, Sizes};
pub use wanted::wanted;
