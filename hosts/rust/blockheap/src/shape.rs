use crate::raw::t_of;
use crate::{image_t, pool_bytes, table_bytes, Address, BLOCK_BYTES, MAX_T, MIN_BASE};
use core::fmt;

/// The rule that a heap's shape breaks: what [`Refusal::BadShape`](crate::Refusal::BadShape) says. Of several
/// broken rules it is the first in this order.
///
/// ```
/// # use blockheap::{Address, Heap, Refusal, ShapeFault};
/// let (mut pool, mut table) = ([0; 64], [0; 1]);
/// let refusal = Heap::init(Address::from_word(4096), &mut pool, &mut table).unwrap_err();
/// assert_eq!(refusal, Refusal::BadShape(ShapeFault::TableBytes));
/// let text = "refused (1): the table's length is not t, rounded up to an even number";
/// assert_eq!(refusal.to_string(), text);
/// ```
#[derive(Clone, Copy, Debug, PartialEq, Eq, Hash)]
#[non_exhaustive]
pub enum ShapeFault {
    /// Of an opening: the pool has another `t` than the image.
    ImageT,
    /// `t`, the pool's length divided by 64, is not 1 to 1,024.
    T,
    /// The pool's length is not `64 * t`.
    PoolBytes,
    /// The table's length is not `t`, rounded up to an even number.
    TableBytes,
    /// The base is below 16.
    BaseTooLow,
    /// The base is not a multiple of 16.
    BaseUnaligned,
    /// The base and the pool's length add up to more than 4,294,967,296.
    PoolEnd,
    /// The length of the root list, in bytes, is not a multiple of 4.
    RootsBytes,
    /// The length of the mark stack, in bytes, is not a multiple of 4.
    StackBytes,
}

impl ShapeFault {
    /// The rule that a heap with this base, in a pool and a table of so many bytes, would break.
    ///
    /// It is [`None`] exactly if [`Heap::init`](crate::Heap::init) accepts them. Where all three are known
    /// beforehand, it refuses them at compile time:
    ///
    /// ```
    /// # use blockheap::{Address, ShapeFault};
    /// const BASE: Address = Address::from_word(0x2000_0000);
    /// const _: () = assert!(ShapeFault::of(BASE, 192, 4).is_none());
    ///
    /// assert_eq!(ShapeFault::of(BASE, 200, 4), Some(ShapeFault::PoolBytes));
    /// ```
    pub const fn of(base: Address, pool: usize, table: usize) -> Option<ShapeFault> {
        let (base, t) = (base.word(), t_of(pool));
        if t < 1 || t > MAX_T {
            Some(ShapeFault::T)
        } else if pool != pool_bytes(t) {
            Some(ShapeFault::PoolBytes)
        } else if table != table_bytes(t) {
            Some(ShapeFault::TableBytes)
        } else if base < MIN_BASE.word() {
            Some(ShapeFault::BaseTooLow)
        } else if base % BLOCK_BYTES as u32 != 0 {
            Some(ShapeFault::BaseUnaligned)
        } else if base as u64 + pool as u64 > 1 << 32 {
            Some(ShapeFault::PoolEnd)
        } else {
            None
        }
    }

    /// The rule that an opening of this image, in a pool and a table of so many bytes, would break.
    pub(crate) fn of_opening(image: &[u8], pool: usize, table: usize) -> Option<ShapeFault> {
        if image_t(image) != Some(t_of(pool)) {
            return Some(ShapeFault::ImageT);
        }
        let base = Address::all_in(image.get(2..6)?).ok()?.first()?;
        ShapeFault::of(*base, pool, table)
    }

    /// The rule, in the words of `bh_shape_fault`.
    pub(crate) const fn reason(self) -> &'static str {
        match self {
            ShapeFault::ImageT => "t is not the image's",
            ShapeFault::T => "t is not 1 to 1,024: a pool has 64 to 65,536 bytes",
            ShapeFault::PoolBytes => "the pool's length is not 64 * t",
            ShapeFault::TableBytes => "the table's length is not t, rounded up to an even number",
            ShapeFault::BaseTooLow => "the base is below 16",
            ShapeFault::BaseUnaligned => "the base is not a multiple of 16",
            ShapeFault::PoolEnd => {
                "the base and the pool's length add up to more than 4,294,967,296"
            }
            ShapeFault::RootsBytes => "the length of the root list is not a multiple of 4",
            ShapeFault::StackBytes => "the length of the mark stack is not a multiple of 4",
        }
    }
}

impl fmt::Display for ShapeFault {
    fn fmt(&self, f: &mut fmt::Formatter<'_>) -> fmt::Result {
        f.write_str(self.reason())
    }
}
