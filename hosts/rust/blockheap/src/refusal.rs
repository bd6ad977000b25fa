use crate::ShapeFault;
use core::fmt;

/// Why a call was refused: of several reasons, the one with the lowest number, except by
/// [`Heap::open_image`](crate::Heap::open_image), which reads a file from its front, and by
/// [`Heap::log_append`](crate::Heap::log_append), which asks for room last. After a refusal all that is lent
/// holds what it held before, except that a collection stands which made too little room: see [`NotPlaced`].
#[derive(Clone, Copy, Debug, PartialEq, Eq, Hash)]
#[non_exhaustive]
pub enum Refusal {
    /// The lengths of pool and table or the base do not fit, each other or an image, or a number of bytes
    /// is not divisible by four: it has the rule that is broken.
    BadShape(ShapeFault),
    /// The table has a mark, a tail at block 0 or after a free block, or a spare bit that is 1.
    BadTable,
    /// There are more than 4,096 roots; of an append, more than 4,095.
    TooManyRoots,
    /// The mark stack has more than 64 entries.
    StackTooLong,
    /// The request is for 0 bytes.
    ZeroBytes,
    /// The pool has no such block.
    NoSuchBlock,
    /// The block is free or a tail.
    NotAHead,
    /// The word is not inside the object.
    NoSuchWord,
    /// No run of free blocks is long enough and aligned: four blocks or more begin at a multiple of four. An
    /// append has collected once.
    NoRoom,
    /// The buffer for an image is shorter than the image.
    OutputTooShort,
    /// The image ends inside a count or inside a section's items.
    ImageTruncated,
    /// A count in the image is not what it must be.
    BadCount,
    /// Bytes follow behind the image's last section.
    TrailingBytes,
    /// The lent list of roots has fewer entries than the image has roots.
    RootsTooShort,
    /// The first address is not 0, and no chain of head addresses of two-block objects leads from it, without
    /// repetition, to a next word of 0.
    NoLog,
    /// The log has no such entry.
    NoEntry,
}

impl Refusal {
    /// Every refusal, in the order of the numbers, [`BadShape`](Refusal::BadShape) with each fault.
    pub const ALL: &'static [Refusal] = &[
        Refusal::BadShape(ShapeFault::ImageT),
        Refusal::BadShape(ShapeFault::T),
        Refusal::BadShape(ShapeFault::PoolBytes),
        Refusal::BadShape(ShapeFault::TableBytes),
        Refusal::BadShape(ShapeFault::BaseTooLow),
        Refusal::BadShape(ShapeFault::BaseUnaligned),
        Refusal::BadShape(ShapeFault::PoolEnd),
        Refusal::BadShape(ShapeFault::RootsBytes),
        Refusal::BadShape(ShapeFault::StackBytes),
        Refusal::BadTable,
        Refusal::TooManyRoots,
        Refusal::StackTooLong,
        Refusal::ZeroBytes,
        Refusal::NoSuchBlock,
        Refusal::NotAHead,
        Refusal::NoSuchWord,
        Refusal::NoRoom,
        Refusal::OutputTooShort,
        Refusal::ImageTruncated,
        Refusal::BadCount,
        Refusal::TrailingBytes,
        Refusal::RootsTooShort,
        Refusal::NoLog,
        Refusal::NoEntry,
    ];

    /// Its number in `include/blockheap.h`.
    pub const fn number(self) -> u32 {
        self.parts().0
    }

    /// The refusal that the library means by a number, where the shape has this fault or none.
    pub(crate) fn of_library(number: u32, fault: Option<ShapeFault>) -> Refusal {
        let known = match number {
            BAD_SHAPE => fault.map(Refusal::BadShape),
            _ => Refusal::ALL.iter().copied().find(|refusal| refusal.number() == number),
        };
        known.unwrap_or_else(|| panic!("the library answered {number}, and there is no such fault"))
    }

    /// Its number and its reason.
    const fn parts(self) -> (u32, &'static str) {
        match self {
            Refusal::BadShape(fault) => (BAD_SHAPE, fault.reason()),
            Refusal::BadTable => (
                2,
                "the table has a mark, a tail at block 0 or after a free block, or a spare bit that is 1",
            ),
            Refusal::TooManyRoots => {
                (3, "there are more than 4,096 root words, a log's first address among them")
            }
            Refusal::StackTooLong => (4, "the mark stack has more than 64 entries"),
            Refusal::ZeroBytes => (5, "the request is for 0 bytes"),
            Refusal::NoSuchBlock => (6, "there is no such block"),
            Refusal::NotAHead => (7, "the block is not the head of an object"),
            Refusal::NoSuchWord => (8, "the word lies outside the object"),
            Refusal::NoRoom => (9, "no aligned run of free blocks is long enough"),
            Refusal::OutputTooShort => (10, "the buffer is shorter than the image"),
            Refusal::ImageTruncated => (14, "the image ends inside a section"),
            Refusal::BadCount => (15, "a count in the image is wrong"),
            Refusal::TrailingBytes => (16, "bytes follow behind the image"),
            Refusal::RootsTooShort => (17, "the list is too short for the image's roots"),
            Refusal::NoLog => (18, "no log begins at the first address"),
            Refusal::NoEntry => (19, "the log has no such entry"),
        }
    }
}

const BAD_SHAPE: u32 = 1;

impl fmt::Display for Refusal {
    fn fmt(&self, f: &mut fmt::Formatter<'_>) -> fmt::Result {
        let (number, reason) = self.parts();
        write!(f, "refused ({number}): {reason}")
    }
}

impl core::error::Error for Refusal {}

/// Why an object or an entry of a log was not placed by a call that may collect: [`Heap::allocate_collecting`] or
/// [`Heap::log_append`]. [`Refusal::NoRoom`] alone leaves a collection.
///
/// [`Heap::allocate_collecting`]: crate::Heap::allocate_collecting
/// [`Heap::log_append`]: crate::Heap::log_append
#[derive(Clone, Copy, Debug, PartialEq, Eq)]
#[non_exhaustive]
pub struct NotPlaced {
    /// Why.
    pub refusal: Refusal,
    /// The change in used blocks: that of the collection, which stands. 0 beside any other refusal.
    pub change: i32,
}

impl fmt::Display for NotPlaced {
    fn fmt(&self, f: &mut fmt::Formatter<'_>) -> fmt::Result {
        self.refusal.fmt(f)
    }
}

impl core::error::Error for NotPlaced {}

impl From<Refusal> for NotPlaced {
    /// Refused before anything was collected.
    fn from(refusal: Refusal) -> NotPlaced {
        NotPlaced { refusal, change: 0 }
    }
}

impl From<NotPlaced> for Refusal {
    fn from(not_placed: NotPlaced) -> Refusal {
        not_placed.refusal
    }
}
