//! Looks into heap images, the files that `include/blockheap.h` draws.
//!
//! A file is opened by the library alone: [`Image`] has what its calls then answer. What the tool itself
//! knows of the file's bytes serves to explain a refusal ([`fault`]), and for nothing else.

#![forbid(unsafe_code)]

mod args;
pub mod diff;
mod dot;
pub mod fault;
mod image;
mod input;
mod map;
mod matching;
mod run;
mod show;
pub mod status;
mod text;

pub use args::Command;
pub use image::{Image, Object, Target};
pub use run::{run, Answer, Failure};
