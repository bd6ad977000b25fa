//! Which object of one image is the same as which of another.

use crate::{Image, Object};
use std::collections::VecDeque;

/// Pairs of objects of two images, A and B, by their indices. No object is in two pairs.
pub struct Matching {
    /// Of each object of A, the one of B, and the other way round.
    pub to_b: Vec<Option<usize>>,
    pub to_a: Vec<Option<usize>>,
}

impl Matching {
    /// First those that are alike and at the same place, then those that the same words lead to, and then
    /// those that are at the same place.
    pub fn of(a: &Image, b: &Image) -> Matching {
        let mut pairs =
            Matching { to_b: vec![None; a.objects.len()], to_a: vec![None; b.objects.len()] };
        pairs.by_place(a, b, alike);
        pairs.by_words(a, b);
        pairs.by_place(a, b, |_, _| true);
        pairs
    }

    fn pair(&mut self, x: usize, y: usize) {
        self.to_b[x] = Some(y);
        self.to_a[y] = Some(x);
    }

    fn are_free(&self, x: usize, y: usize) -> bool {
        self.to_b[x].is_none() && self.to_a[y].is_none()
    }

    /// Pairs objects at the same place that may be a pair.
    fn by_place(&mut self, a: &Image, b: &Image, may_be: impl Fn(&Object, &Object) -> bool) {
        for (x, object) in a.objects.iter().enumerate() {
            let Some(y) = b.index_at(object.block) else { continue };
            if self.are_free(x, y) && may_be(object, &b.objects[y]) {
                self.pair(x, y);
            }
        }
    }

    /// Pairs objects that the same root leads to, or the same word of a pair; the shortest way from the
    /// roots counts.
    fn by_words(&mut self, a: &Image, b: &Image) {
        let mut seen = vec![false; a.objects.len()];
        let mut queue = VecDeque::from([(&a.roots, &b.roots)]);
        while let Some((words_of_a, words_of_b)) = queue.pop_front() {
            for (word_of_a, word_of_b) in words_of_a.iter().zip(words_of_b) {
                let targets = (a.target(*word_of_a), b.target(*word_of_b));
                let (Some(x), Some(y)) = targets else { continue };
                let (x, y) = (x.object, y.object);
                if self.are_free(x, y) {
                    self.pair(x, y);
                }
                if self.to_b[x] == Some(y) && !seen[x] {
                    seen[x] = true;
                    queue.push_back((&a.objects[x].words, &b.objects[y].words));
                }
            }
        }
    }
}

/// Whether two objects have the same size and are both reachable or both garbage.
fn alike(a: &Object, b: &Object) -> bool {
    (a.blocks(), a.reachable) == (b.blocks(), b.reachable)
}
