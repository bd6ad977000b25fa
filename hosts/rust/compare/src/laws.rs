//! Laws, each tried on drawn heaps. Of order: frees commute, roots are a set, joined root lists keep what
//! one or the other keeps, and a second collection at once changes nothing. Of images: they have all that a
//! heap has, and nothing of its free blocks; written and then opened, a heap is the same, and opened and then
//! written, a file.

use crate::difference::Difference;
use crate::pairs::refill_free_blocks;
use crate::planes::{FREE, HEAD};
use crate::Buffer::{self, Image, Pool, Roots, Stack};
use crate::{draw, image, Call, Guarded, Lent, Random, Reply, Subject};
use std::ops::RangeInclusive;

/// A collection takes no more.
const MOST_ROOTS: usize = 4096;

/// What was run: on how many heaps, on how many of them the law says something, how often another object
/// lay between the two, a list had the most roots, and two collections differed in their stack's length
/// and in their rescans.
#[derive(Clone, Copy, Debug, Default)]
pub struct LawCounts {
    pub heaps: u64,
    pub telling: u64,
    pub apart: u64,
    pub full_lists: u64,
    pub other_stacks: u64,
    pub other_rescans: u64,
}

/// A law, tried on one heap; an error says how it is broken.
pub type Law = fn(&mut Trial) -> Result<(), String>;

/// A heap on which a law is tried.
pub struct Trial<'t> {
    subject: Subject<'t>,
    random: &'t mut Random,
    heap: Lent,
    counts: LawCounts,
}

/// Tries a law on so many heaps of these sizes, or says where it is first broken.
pub fn run_law(
    law: Law,
    subject: Subject,
    sizes: RangeInclusive<u64>,
    seed: u64,
    heaps: u64,
) -> Result<LawCounts, String> {
    let random = &mut Random::new(seed);
    let mut counts = LawCounts::default();
    while counts.heaps < heaps {
        let t = random.between(*sizes.start(), *sizes.end());
        let heap = draw::heap(random, t);
        let mut trial = Trial { subject, random, heap, counts };
        law(&mut trial).map_err(|fault| trial.place(seed, &fault))?;
        counts = trial.counts;
        counts.heaps += 1;
    }
    Ok(counts)
}

/// Of two different objects either may be freed first.
pub fn frees_commute(trial: &mut Trial) -> Result<(), String> {
    let heads = trial.heap.heads();
    if heads.len() < 2 {
        return Ok(());
    }
    let blocks = two_of(trial.random, &heads);
    let apart = heads.iter().any(|head| blocks[0] < *head && *head < blocks[1]);
    trial.counts.telling += 1;
    trial.counts.apart += u64::from(apart);
    let [j, k] = blocks.map(|block| Call::Free { block });
    let first = trial.call(&j, &trial.heap)?;
    let second = trial.call(&k, &first.lent)?;
    let other_first = trial.call(&k, &trial.heap)?;
    let other_second = trial.call(&j, &other_first.lent)?;
    same_reply(&j, &first.reply, &other_second.reply)?;
    same_reply(&k, &second.reply, &other_first.reply)?;
    same_heap(&second.lent, &other_second.lent)
}

/// The order and the repetition of the roots do not matter.
pub fn roots_are_a_set(trial: &mut Trial) -> Result<(), String> {
    let roots = draw::good_roots(trial.random, &trial.heap);
    let other_roots = same_members(trial.random, &roots);
    let one = trial.collect(&roots)?;
    let mut other = trial.collect(&other_roots)?;
    let telling = roots != other_roots && one.kept_some() && one.freed_some();
    trial.counts.telling += u64::from(telling);
    trial.count_stacks([&one, &other]);
    let rescans = one.reply.parts["rescans"];
    let other_rescans = other.reply.parts.insert("rescans", rescans);
    trial.counts.other_rescans += u64::from(other_rescans != Some(rescans));
    same_reply(&Call::Collect, &one.reply, &other.reply)?;
    same_heap(&one.lent, &other.lent)
}

/// What a joined list keeps is what one or the other of its parts keeps.
pub fn roots_join(trial: &mut Trial) -> Result<(), String> {
    let roots = draw::good_roots(trial.random, &trial.heap);
    let parts = two_lists(trial.random, &roots);
    let one = trial.collect(&parts[0])?;
    let other = trial.collect(&parts[1])?;
    let joined = trial.collect(&parts.concat())?;
    let telling = one.kept() < joined.kept() && other.kept() < joined.kept();
    trial.counts.telling += u64::from(telling);
    trial.count_stacks([&one, &other]);
    let entries = |block: u64| [&one, &other, &joined].map(|outcome| outcome.entry(block));
    let mut blocks = 0..trial.heap.blocks();
    match blocks.find(|block| !is_union(entries(*block))) {
        None => Ok(()),
        Some(block) => {
            let [one, other, joined] = entries(block);
            Err(format!("block {block} is {joined} from both lists, {one} and {other} from each"))
        }
    }
}

/// A second collection from the same roots changes nothing.
pub fn collect_idempotent(trial: &mut Trial) -> Result<(), String> {
    let roots = draw::good_roots(trial.random, &trial.heap);
    let first = trial.collect(&roots)?;
    trial.counts.telling += u64::from(first.kept_some() && first.freed_some());
    trial.heap = first.lent.clone();
    let second = trial.collect(&roots)?;
    trial.count_stacks([&first, &second]);
    let nothing_more = [first.kept(), second.reply.parts["rescans"], 0];
    same_reply(&Call::Collect, &second.reply, &Reply::accepted(&Call::Collect, &nothing_more))?;
    same_heap(&second.lent, &first.lent)
}

/// The sections of an image, read by their counts, are those of the heap and its roots.
pub fn images_have_the_heap(trial: &mut Trial) -> Result<(), String> {
    trial.draw_roots();
    let sections = trial.heap.sections();
    trial.counts.telling += u64::from(sections.iter().all(|section| section.count > 0));
    let image = trial.image(trial.heap.clone())?;
    let read = image::read(&image).ok_or("an image does not end with its fourth section")?;
    let names = ["base", "table", "blocks", "roots"];
    let mut wrong = (0..names.len()).filter(|at| read[*at] != sections[*at]);
    wrong.next().map_or(Ok(()), |at| Err(format!("the section of the {} is another", names[at])))
}

/// What free blocks hold is in no image.
pub fn images_have_no_free_bytes(trial: &mut Trial) -> Result<(), String> {
    trial.draw_roots();
    trial.count_mixed();
    let mut other = trial.heap.clone();
    refill_free_blocks(trial.random, &mut other, &trial.heap);
    if trial.image(trial.heap.clone())? == trial.image(other)? {
        Ok(())
    } else {
        Err("the image has what free blocks hold".to_string())
    }
}

/// A heap that is written and then opened, where memory held anything, has its base, table and roots again,
/// and the bytes of its objects. All other bytes of the pool are 0, and later entries of the list stay.
pub fn write_then_open(trial: &mut Trial) -> Result<(), String> {
    trial.draw_roots();
    trial.count_mixed();
    let image = trial.image(trial.heap.clone())?;
    let target = trial.target(&image);
    let opened = trial.call(&Call::OpenImage, &target)?;
    let mut expected = trial.heap.clone();
    for block in (0..expected.blocks()).filter(|block| trial.heap.entry(*block) == FREE) {
        expected[Pool][image::bytes_of(block)].fill(0);
    }
    same_heap(&opened.lent, &expected)?;
    let roots = &trial.heap[Roots];
    let answer = [trial.heap.base as i64, roots.len() as i64 / 4];
    let right = Reply::accepted(&Call::OpenImage, &answer);
    same_reply(&Call::OpenImage, &opened.reply, &right)?;
    match opened.lent[Roots].split_at(roots.len()) {
        (front, _) if *front != roots[..] => Err("the roots are others".to_string()),
        (_, later) if *later != target[Roots][roots.len()..] => {
            Err("later entries of the list are others".to_string())
        }
        _ => Ok(()),
    }
}

/// A file that is opened, and then written with the base and the roots that it gave, is the same file.
pub fn open_then_write(trial: &mut Trial) -> Result<(), String> {
    trial.draw_roots();
    trial.count_mixed();
    let file = image::file(&trial.heap.sections());
    let target = trial.target(&file);
    let Outcome { reply, lent: mut heap } = trial.call(&Call::OpenImage, &target)?;
    let roots = heap[Roots].get(..4 * reply.parts["count"] as usize);
    heap[Roots] = Guarded::new(roots.ok_or("more roots than the list has")?);
    if trial.image(heap)? == file {
        Ok(())
    } else {
        Err("the image of an opened file is another file".to_string())
    }
}

impl Trial<'_> {
    /// Counts a heap with used and free blocks.
    fn count_mixed(&mut self) {
        let used = self.heap.used().count() as u64;
        self.counts.telling += u64::from(used > 0 && used < self.heap.blocks());
    }

    /// Memory of any content for the heap of a file, with a list that has entries to spare.
    fn target(&mut self, file: &[u8]) -> Lent {
        let mut lent = draw::noise(self.random, self.heap.t);
        let spare = 4 * self.random.below(5) as usize;
        lent[Roots] = Guarded::new(&self.random.bytes(self.heap[Roots].len() + spare));
        lent[Image] = Guarded::new(file);
        lent
    }

    fn draw_roots(&mut self) {
        let roots = draw::good_roots(self.random, &self.heap);
        self.heap.set_roots(&roots);
    }

    /// The image of a heap, written to an output that is longer.
    fn image(&self, mut heap: Lent) -> Result<Vec<u8>, String> {
        heap.set_output(heap.image_bytes() + heap[Pool].len());
        let outcome = self.call(&Call::WriteImage, &heap)?;
        let length = outcome.reply.parts["length"] as usize;
        let written = outcome.lent[Image].get(..length);
        written.map(<[u8]>::to_vec).ok_or(format!("the image has {length} bytes"))
    }

    /// Makes a call that must be accepted.
    fn call(&self, call: &Call, before: &Lent) -> Result<Outcome, String> {
        let mut lent = before.clone();
        let reply = (self.subject)(call, &mut lent);
        match reply.refusal {
            0 => Ok(Outcome { reply, lent }),
            number => Err(format!("{call:?} is refused by {number}")),
        }
    }

    /// Collects the heap from these roots, with a mark stack of any length that is accepted.
    fn collect(&mut self, roots: &[u32]) -> Result<Outcome, String> {
        self.counts.full_lists += u64::from(roots.len() == MOST_ROOTS);
        let mut lent = self.heap.clone();
        lent.set_roots(roots);
        lent[Stack] = Guarded::new(&draw::good_stack(self.random));
        self.call(&Call::Collect, &lent)
    }

    fn count_stacks(&mut self, outcomes: [&Outcome; 2]) {
        let [one, other] = outcomes.map(|outcome| outcome.lent[Stack].len());
        self.counts.other_stacks += u64::from(one != other);
    }

    /// A fault with the place where it was found.
    fn place(&self, seed: u64, fault: &str) -> String {
        format!("{fault}\n  seed {seed}, heap {}: {}", self.counts.heaps, self.heap)
    }
}

/// What an accepted call answered, and what it left.
struct Outcome {
    reply: Reply,
    lent: Lent,
}

impl Outcome {
    fn entry(&self, block: u64) -> u8 {
        self.lent.entry(block)
    }

    fn kept(&self) -> i64 {
        self.reply.parts["kept"]
    }

    fn kept_some(&self) -> bool {
        self.kept() > 0
    }

    fn freed_some(&self) -> bool {
        self.reply.parts["change"] < 0
    }
}

/// Whether the third entry is what the first two leave together: a head if one of them is, and FREE only
/// if both are.
fn is_union([one, other, joined]: [u8; 3]) -> bool {
    let heads = [one, other].contains(&HEAD) == (joined == HEAD);
    heads && joined == if one == FREE { other } else { one }
}

fn same_reply(call: &Call, one: &Reply, other: &Reply) -> Result<(), String> {
    same(Difference::in_replies(call, [one, other])).map_err(|fault| format!("{call:?}: {fault}"))
}

fn same_heap(one: &Lent, other: &Lent) -> Result<(), String> {
    let in_all = |buffer| Difference::in_bytes(buffer, 0..one[buffer].len(), [one, other]);
    same(Buffer::HEAP.into_iter().find_map(in_all))
}

fn same(difference: Option<Difference>) -> Result<(), String> {
    match difference {
        None => Ok(()),
        Some(Difference { of, values: [one, other] }) => {
            Err(format!("{of} is {one} one way and {other} the other"))
        }
    }
}

/// Two different blocks of a rising list, often neighbours there.
fn two_of(random: &mut Random, blocks: &[u64]) -> [u64; 2] {
    let last = blocks.len() as u64 - 1;
    let first = random.below(last);
    let second = if random.percent(50) { first + 1 } else { random.between(first + 1, last) };
    [first, second].map(|index| blocks[index as usize])
}

/// The same roots in another order, some of them more than once; at times the most that there may be.
fn same_members(random: &mut Random, roots: &[u32]) -> Vec<u32> {
    let most = if random.percent(10) { MOST_ROOTS } else { 2 * roots.len() };
    let mut others = repeated(random, roots, most.min(MOST_ROOTS));
    random.shuffle(&mut others);
    others
}

/// Some of the roots for one list and some for another; at times the most that there may be.
fn two_lists(random: &mut Random, roots: &[u32]) -> [Vec<u32>; 2] {
    let roots = &roots[..roots.len().min(MOST_ROOTS / 2)];
    let mut lists = [(); 2].map(|()| {
        let some = roots.iter().copied().filter(|_| random.percent(50));
        some.collect::<Vec<u32>>()
    });
    if random.percent(10) {
        lists[0] = repeated(random, &lists[0], MOST_ROOTS - lists[1].len());
    }
    lists
}

/// The list with random members of it once more behind it, up to so many in all.
fn repeated(random: &mut Random, list: &[u32], most: usize) -> Vec<u32> {
    let more = if list.is_empty() { 0 } else { most.saturating_sub(list.len()) };
    let again = (0..more).map(|_| random.pick(list));
    list.iter().copied().chain(again).collect()
}

#[cfg(test)]
mod tests {
    use super::is_union;

    #[test]
    fn entries_that_are_no_union_are_seen() {
        for [one, other, joined] in [[0, 0, 0], [1, 0, 1], [0, 2, 2], [1, 1, 1]] {
            assert!(is_union([one, other, joined]), "{one}, {other} and {joined}");
        }
        for [one, other, joined] in
            [[0, 0, 1], [1, 0, 0], [0, 2, 0], [2, 2, 1], [2, 1, 2], [0, 1, 2]]
        {
            assert!(!is_union([one, other, joined]), "{one}, {other} and {joined}");
        }
    }
}
