use crate::pages::{map, PAGE};
use crate::Random;
use std::cell::RefCell;
use std::collections::BTreeMap;
use std::fmt;
use std::ops::{Deref, DerefMut, Range};

/// What the bytes beside the lent ones hold. There are never more on one side.
static SLACK: [u8; 2 * PAGE] = [0xA7; 2 * PAGE];
/// A start at an odd address: nothing may count on the alignment of what is lent.
const ODD_START: usize = 37;

/// Bytes to lend. They begin at the first byte of their pages, or end at the last one, or lie at an odd
/// address between. Beyond the pages any access faults; a write to the pages' other bytes is seen later.
pub struct Guarded {
    pages: &'static mut [u8],
    lent: Range<usize>,
}

/// A thread's pages that nothing uses just now, by their length, and how it draws places: in each thread
/// alike, so that a run can be repeated.
struct Yard {
    spare: BTreeMap<usize, Vec<&'static mut [u8]>>,
    random: Random,
}

thread_local! {
    static YARD: RefCell<Yard> =
        RefCell::new(Yard { spare: BTreeMap::new(), random: Random::new(0) });
}

impl Yard {
    fn take(&mut self, len: usize) -> Guarded {
        let length = (ODD_START + len).next_multiple_of(PAGE);
        let spare = self.spare.get_mut(&length).and_then(Vec::pop);
        let start = self.random.pick(&[0, ODD_START, length - len]);
        Guarded { pages: spare.unwrap_or_else(|| map(length)), lent: start..start + len }
    }

    fn give_back(&mut self, pages: &'static mut [u8]) {
        self.spare.entry(pages.len()).or_default().push(pages);
    }
}

impl Guarded {
    pub fn new(bytes: &[u8]) -> Guarded {
        let mut guarded = YARD.with_borrow_mut(|yard| yard.take(bytes.len()));
        guarded.copy_from_slice(bytes);
        for slack in guarded.slack() {
            guarded.pages[slack.clone()].copy_from_slice(&SLACK[..slack.len()]);
        }
        guarded
    }

    pub fn zeroed(len: usize) -> Guarded {
        Guarded::new(&vec![0; len])
    }

    /// Whether the bytes beside the lent ones are as they were.
    pub fn intact(&self) -> bool {
        self.slack().into_iter().all(|slack| self.pages[slack.clone()] == SLACK[..slack.len()])
    }

    /// The byte after the lent ones, where that can be touched.
    pub fn byte_after(&mut self) -> Option<&mut u8> {
        self.pages.get_mut(self.lent.end)
    }

    fn slack(&self) -> [Range<usize>; 2] {
        [0..self.lent.start, self.lent.end..self.pages.len()]
    }
}

impl Clone for Guarded {
    fn clone(&self) -> Guarded {
        Guarded::new(self)
    }
}

impl Drop for Guarded {
    fn drop(&mut self) {
        let pages = std::mem::take(&mut self.pages);
        // When the thread ends its yard may be gone already, and the pages are left.
        let _ = YARD.try_with(|yard| yard.borrow_mut().give_back(pages));
    }
}

impl fmt::Debug for Guarded {
    fn fmt(&self, f: &mut fmt::Formatter) -> fmt::Result {
        (**self).fmt(f)
    }
}

impl Deref for Guarded {
    type Target = [u8];

    fn deref(&self) -> &[u8] {
        &self.pages[self.lent.clone()]
    }
}

impl DerefMut for Guarded {
    fn deref_mut(&mut self) -> &mut [u8] {
        &mut self.pages[self.lent.clone()]
    }
}

#[cfg(test)]
mod tests {
    use super::*;

    const LENGTHS: [usize; 5] = [0, 1, 4059, 4096, 65_536];

    #[test]
    fn every_place_is_taken() {
        for len in LENGTHS {
            let starts: Vec<usize> = (0..50).map(|_| Guarded::zeroed(len).lent.start).collect();
            let end = (ODD_START + len).next_multiple_of(PAGE) - len;
            assert!([0, ODD_START, end].iter().all(|place| starts.contains(place)), "{len} bytes");
        }
    }

    #[test]
    fn a_byte_written_beside_the_lent_ones_is_seen() {
        for len in LENGTHS.into_iter().cycle().take(50) {
            let bytes = Guarded::zeroed(len);
            for at in bytes.slack().into_iter().flatten() {
                assert!(bytes.intact());
                bytes.pages[at] ^= 1;
                assert!(!bytes.intact(), "byte {at} beside {:?}", bytes.lent);
                bytes.pages[at] ^= 1;
            }
        }
    }
}
