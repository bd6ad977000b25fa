//! Which objects a collection keeps, in the marking order of the rules.

use crate::{ListHeap, Refusal};

pub(crate) const MAX_ROOTS: usize = 4096;
pub(crate) const MAX_STACK_ENTRIES: usize = 64;

#[derive(Clone, Copy, Debug, PartialEq, Eq)]
pub struct Collected {
    pub kept: u64,
    pub rescans: u64,
    pub change: i64,
}

impl ListHeap {
    pub fn collect(&mut self, roots: &[u32], stack_entries: usize) -> Result<Collected, Refusal> {
        if roots.len() > MAX_ROOTS {
            return Err(Refusal::TooManyRoots);
        }
        if stack_entries > MAX_STACK_ENTRIES {
            return Err(Refusal::StackTooLong);
        }
        let mut marking = Marking::new(self, stack_entries);
        marking.roots(roots);
        let mut rescans = 0;
        while marking.overflowed {
            marking.overflowed = false;
            marking.pass();
            rescans += 1;
        }
        let marked = marking.marked;
        Ok(self.sweep(&marked, rescans))
    }

    /// Drops every object that is not marked.
    pub fn sweep(&mut self, marked: &[bool], rescans: u64) -> Collected {
        let used_before = self.used();
        let mut marks = marked.iter();
        self.objects.retain(|_| *marks.next().expect("one mark for each object"));
        Collected {
            kept: self.objects.len() as u64,
            rescans,
            change: self.used() as i64 - used_before as i64,
        }
    }

    /// The place in the list of the object that a word leads to: one of its blocks has this address.
    fn target(&self, word: u32) -> Option<usize> {
        self.owner(self.block_at(word)?)
    }
}

/// The state of a mark phase: a mark for each object, the bounded stack and the overflow flag.
pub struct Marking<'h> {
    heap: &'h ListHeap,
    pub marked: Vec<bool>,
    stack: Vec<usize>,
    stack_entries: usize,
    pub overflowed: bool,
}

impl<'h> Marking<'h> {
    pub fn new(heap: &'h ListHeap, stack_entries: usize) -> Marking<'h> {
        Marking {
            heap,
            marked: vec![false; heap.objects.len()],
            stack: Vec::new(),
            stack_entries,
            overflowed: false,
        }
    }

    /// Marks from each root in list order, its subtree at once.
    pub fn roots(&mut self, roots: &[u32]) {
        for root in roots {
            if let Some(object) = self.mark_target(*root) {
                self.subtree(object);
            }
        }
    }

    /// One rescan: goes through all objects in rising order and walks each that is marked when reached.
    pub fn pass(&mut self) {
        for object in 0..self.marked.len() {
            if self.marked[object] {
                self.subtree(object);
            }
        }
    }

    fn subtree(&mut self, object: usize) {
        self.walk(object);
        while let Some(last_pushed) = self.stack.pop() {
            self.walk(last_pushed);
        }
    }

    /// Marks and pushes what the object's words lead to, from the last word to the first.
    fn walk(&mut self, object: usize) {
        let heap = self.heap;
        for word in heap.objects[object].words.iter().rev() {
            if let Some(child) = self.mark_target(*word) {
                if self.stack.len() < self.stack_entries {
                    self.stack.push(child);
                } else {
                    self.overflowed = true;
                }
            }
        }
    }

    /// Marks the word's target, if it has one that was not marked before.
    fn mark_target(&mut self, word: u32) -> Option<usize> {
        let object = self.heap.target(word)?;
        let fresh = !std::mem::replace(&mut self.marked[object], true);
        fresh.then_some(object)
    }
}

#[cfg(test)]
mod tests {
    use crate::{ListHeap, Object};

    /// A heap of 12 blocks with objects at blocks 0 to 4 and 9 to 11.
    fn two_objects() -> ListHeap {
        let object = |start, blocks| Object { start, blocks, words: Vec::new() };
        ListHeap { objects: vec![object(0, 5), object(9, 3)], ..ListHeap::empty(4096, 12) }
    }

    #[test]
    fn the_address_of_each_block_of_an_object_leads_to_it() {
        let (head, third, last) = (4096, 4096 + 16 * 2, 4096 + 16 * 4);
        for word in [head, third, last] {
            assert_eq!(two_objects().target(word), Some(0), "{word}");
        }
        for block in 9..12 {
            assert_eq!(two_objects().target(4096 + 16 * block), Some(1), "block {block}");
        }
    }

    #[test]
    fn other_words_lead_nowhere() {
        let free = [5, 6, 7, 8].map(|block| 4096 + 16 * block);
        let inside = [4096 + 1, 4096 + 16 * 2 + 15, 4096 + 16 * 4 + 4];
        let outside = [0, 16, 4096 - 16, 4096 + 16 * 12, u32::MAX - 15];
        for word in [&free[..], &inside, &outside].concat() {
            assert_eq!(two_objects().target(word), None, "{word}");
        }
    }
}
