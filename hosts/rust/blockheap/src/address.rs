use crate::{raw, Refusal, ShapeFault};
use core::cmp::Ordering;
use core::fmt;

/// An address as words in the pool spell it. [`Heap::address_of`](crate::Heap::address_of) and
/// [`Heap::block_at`](crate::Heap::block_at) lead from blocks to addresses and back.
///
/// A slice of addresses is a root list. Each has four bytes, lowest first on any host.
///
/// ```
/// # use blockheap::Address;
/// let base = Address::from(0x2000_0000);
/// assert_eq!(base.word(), 0x2000_0000);
/// assert_eq!(base.to_string(), "0x20000000");
/// assert!(Address::NULL < base && u32::from(base) == base.word());
/// ```
#[derive(Clone, Copy, PartialEq, Eq, Hash)]
#[repr(transparent)]
pub struct Address([u8; 4]);

impl Address {
    /// The address 0, which no block has: as a root it counts for nothing.
    pub const NULL: Address = Address::from_word(0);

    /// The address that a word spells.
    pub const fn from_word(word: u32) -> Address {
        Address(word.to_le_bytes())
    }

    /// The word that spells it.
    pub const fn word(self) -> u32 {
        u32::from_le_bytes(self.0)
    }

    /// The addresses that bytes spell, four bytes each, lowest first.
    ///
    /// ```
    /// # use blockheap::Address;
    /// assert_eq!(Address::all_in(&[0, 16, 0, 0]), Ok(&[Address::from_word(4096)][..]));
    /// ```
    ///
    /// # Errors
    /// [`Refusal::BadShape`] if the number of bytes is not divisible by four.
    pub fn all_in(bytes: &[u8]) -> Result<&[Address], Refusal> {
        raw::addresses(bytes).ok_or(Refusal::BadShape(ShapeFault::RootsBytes))
    }

    /// The same, to write: a list for the roots of an image.
    ///
    /// # Errors
    /// As [`Address::all_in`].
    pub fn all_in_mut(bytes: &mut [u8]) -> Result<&mut [Address], Refusal> {
        raw::addresses_mut(bytes).ok_or(Refusal::BadShape(ShapeFault::RootsBytes))
    }
}

impl From<u32> for Address {
    /// The same as [`Address::from_word`].
    fn from(word: u32) -> Address {
        Address::from_word(word)
    }
}

impl From<Address> for u32 {
    /// The same as [`Address::word`].
    fn from(address: Address) -> u32 {
        address.word()
    }
}

impl Ord for Address {
    /// By the words.
    fn cmp(&self, other: &Address) -> Ordering {
        self.word().cmp(&other.word())
    }
}

impl PartialOrd for Address {
    fn partial_cmp(&self, other: &Address) -> Option<Ordering> {
        Some(self.cmp(other))
    }
}

impl fmt::Display for Address {
    /// All eight digits, padded as a text is.
    fn fmt(&self, f: &mut fmt::Formatter<'_>) -> fmt::Result {
        let mut text = *b"0x00000000";
        let mut rest = self.word();
        for digit in text[2..].iter_mut().rev() {
            *digit = b"0123456789abcdef"[rest as usize % 16];
            rest /= 16;
        }
        f.pad(core::str::from_utf8(&text).map_err(|_| fmt::Error)?)
    }
}

impl fmt::LowerHex for Address {
    /// As its word.
    fn fmt(&self, f: &mut fmt::Formatter<'_>) -> fmt::Result {
        fmt::LowerHex::fmt(&self.word(), f)
    }
}

impl fmt::Debug for Address {
    fn fmt(&self, f: &mut fmt::Formatter<'_>) -> fmt::Result {
        write!(f, "Address({:#x})", self.word())
    }
}
