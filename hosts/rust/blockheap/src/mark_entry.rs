use crate::{raw, Refusal, ShapeFault};

/// An entry of the mark stack, the working memory of a collection. An array of them is lent to
/// [`Heap::collect`](crate::Heap::collect).
///
/// ```
/// # use blockheap::{MarkEntry, MAX_STACK_ENTRIES};
/// let longest = [MarkEntry::EMPTY; MAX_STACK_ENTRIES];
/// assert_eq!(size_of_val(&longest), 256);
/// ```
#[derive(Clone, Copy, Debug, PartialEq, Eq)]
#[repr(transparent)]
pub struct MarkEntry([u8; 4]);

impl MarkEntry {
    /// What a collection leaves in every entry. What it finds there does not matter.
    pub const EMPTY: MarkEntry = MarkEntry([0; 4]);

    /// Bytes as entries, four bytes each.
    ///
    /// # Errors
    /// [`Refusal::BadShape`] if the number of bytes is not divisible by four.
    pub fn all_in(bytes: &mut [u8]) -> Result<&mut [MarkEntry], Refusal> {
        raw::mark_entries(bytes).ok_or(Refusal::BadShape(ShapeFault::StackBytes))
    }
}
