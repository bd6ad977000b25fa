//! The exit statuses. One that is not here is the number of a refusal.

/// All is well; of a comparison: the images are the same.
pub const FINE: u8 = 0;
/// Of a comparison: the images differ.
pub const DIFFERENT: u8 = 1;
/// Of a comparison: a file is refused.
pub const INCOMPARABLE: u8 = 2;
/// The command line is wrong.
pub const USAGE: u8 = 64;
/// A file cannot be read.
pub const UNREADABLE: u8 = 66;
/// The output cannot be written.
pub const UNWRITTEN: u8 = 74;
