//! Noninterference: two heaps that differ in dead bytes alone answer alike for ever after a
//! collection.

use crate::difference::Difference;
use crate::planes::FREE;
use crate::Buffer::{self, Pool, Stack};
use crate::{draw, second, Call, Guarded, Lent, Random, Reply, Sizes, Subject};

/// What was run: pairs and calls on each side, how many of these wrote an image, opened one, appended to a log at
/// once, read and dropped an entry, appended after a collection and found no room even then, and how many were
/// refused otherwise; in how many pool bytes the pairs differed at the start, and how often stacks of different
/// lengths took different rescans.
#[derive(Clone, Copy, Debug, Default)]
pub struct PairCounts {
    pub pairs: u64,
    pub calls: u64,
    pub refused: u64,
    pub images: u64,
    pub openings: u64,
    pub appends: u64,
    pub reads: u64,
    pub drops: u64,
    pub room_made: u64,
    pub without_room: u64,
    pub different_bytes: u64,
    pub different_rescans: u64,
}

impl PairCounts {
    fn count(&mut self, call: &Call, reply: &Reply) {
        self.calls += 1;
        let counted = match (call, reply.refusal) {
            (Call::WriteImage, 0) => &mut self.images,
            (Call::OpenImage, 0) => &mut self.openings,
            (Call::LogAppend { .. }, 0) if call.collects(reply) => &mut self.room_made,
            (Call::LogAppend { .. }, 0) => &mut self.appends,
            (Call::LogAppend { .. }, 9) => &mut self.without_room,
            (Call::LogRead { .. }, 0) => &mut self.reads,
            (Call::LogDrop { .. }, 0) => &mut self.drops,
            (_, 0) => return,
            _ => &mut self.refused,
        };
        *counted += 1;
    }
}

/// Runs so many pairs of heaps, or says where the two of a pair first differ.
pub fn run_pairs(
    subject: Subject,
    sizes: Sizes,
    seed: u64,
    pairs: u64,
) -> Result<PairCounts, String> {
    let mut random = Random::new(seed);
    let mut counts = PairCounts::default();
    for _ in 0..pairs {
        let t = random.between(sizes.least, sizes.most);
        let mut pair = Pair::draw(&mut random, t);
        counts.different_bytes += pair.different_bytes();
        pair.call(subject, &Call::Collect, &mut counts)?;
        for _ in 0..sizes.calls_per_heap {
            let call = pair.draw_call(&mut random);
            pair.call(subject, &call, &mut counts)
                .map_err(|fault| format!("seed {seed}, call {}: {fault}", counts.calls))?;
        }
        counts.pairs += 1;
    }
    Ok(counts)
}

struct Pair {
    base: u64,
    t: u64,
    sides: [Lent; 2],
}

impl Pair {
    /// Two heaps that agree in base, t, table, roots and all that the roots reach.
    fn draw(random: &mut Random, t: u64) -> Pair {
        let mut heap = draw::heap(random, t);
        let roots = draw::good_roots(random, &heap);
        heap.set_roots(&roots);
        let mut collected = heap.clone();
        second(&Call::Collect, &mut collected);
        let mut sides = [heap.clone(), heap];
        for side in &mut sides {
            refill_free_blocks(random, side, &collected);
            side[Stack] = Guarded::new(&draw::good_stack(random));
        }
        Pair { base: sides[0].base, t, sides }
    }

    fn different_bytes(&self) -> u64 {
        let [first, second] = &self.sides;
        first[Pool].iter().zip(second[Pool].iter()).filter(|(a, b)| a != b).count() as u64
    }

    /// Gives both sides other bytes in their free blocks, where they have become the same by an opening.
    fn part(&mut self, random: &mut Random) {
        for side in &mut self.sides {
            let entries = side.clone();
            refill_free_blocks(random, side, &entries);
        }
    }

    /// A call for both sides, now and then with another base or t: the second takes what the first takes,
    /// but for the heap, and other bytes where they must not matter.
    fn draw_call(&mut self, random: &mut Random) -> Call {
        for side in &mut self.sides {
            (side.base, side.t) = (self.base, self.t);
        }
        if self.different_bytes() == 0 {
            self.part(random);
        }
        let [first, second] = &mut self.sides;
        let call = draw::call(random, first);
        if random.percent(5) {
            first.base = draw::any_base(random, first);
        }
        if random.percent(3) {
            first.t = draw::any_t(random, self.t);
        }
        (second.base, second.t) = (first.base, first.t);
        for buffer in Buffer::ALL.into_iter().filter(|buffer| !Buffer::HEAP.contains(buffer)) {
            if let Some(access) = call.access(buffer) {
                second[buffer] = draw::other(random, access, &first[buffer]);
            }
        }
        call
    }

    /// Makes one call on both sides and compares answers, buffers and the bytes of allocated blocks.
    fn call(
        &mut self,
        subject: Subject,
        call: &Call,
        counts: &mut PairCounts,
    ) -> Result<(), String> {
        let mut replies = self.sides.each_mut().map(|side| subject(call, side));
        counts.count(call, &replies[0]);
        if *call == Call::OpenImage && replies[0].refusal == 0 {
            self.base = self.sides[0].base;
        }
        if let (true, Some(rescans)) = (self.lengths_differ(call), replies[0].parts.get("rescans"))
        {
            let rescans = *rescans;
            let others = replies[1].parts.insert("rescans", rescans);
            counts.different_rescans += u64::from(others != Some(rescans));
        }
        let difference = Difference::in_replies(call, replies.each_ref())
            .or_else(|| self.difference(call, &replies[0]));
        match difference {
            None => Ok(()),
            Some(Difference { of, values: [first, second] }) => {
                Err(format!("{call:?}: {of} is {first} on one side and {second} on the other"))
            }
        }
    }

    /// Whether the call takes buffers of different lengths, after which the rescans may differ.
    fn lengths_differ(&self, call: &Call) -> bool {
        let [first, second] = &self.sides;
        let mut taken = Buffer::ALL.into_iter().filter(|buffer| call.access(*buffer).is_some());
        taken.any(|buffer| first[buffer].len() != second[buffer].len())
    }

    fn difference(&self, call: &Call, reply: &Reply) -> Option<Difference> {
        let [first, second] = &self.sides;
        Buffer::ALL.into_iter().find_map(|buffer| match buffer {
            Pool => live_difference(first, second),
            _ => {
                let length = first[buffer].len().min(second[buffer].len());
                let shared = 0..call.shared(buffer, length, reply);
                Difference::in_bytes(buffer, shared, [first, second])
            }
        })
    }
}

/// Gives every block that is free once collected new bytes: noise, nothing or pointers.
pub fn refill_free_blocks(random: &mut Random, lent: &mut Lent, collected: &Lent) {
    let pointers = random.percent(70);
    for block in (0..lent.blocks()).filter(|block| collected.entry(*block) == FREE) {
        for word in 4 * block..4 * block + 4 {
            let value =
                if pointers { draw::word_value(random, lent) } else { random.number() as u32 };
            lent.set_word(word as usize, value);
        }
    }
}

/// The first different byte of an allocated block. The t with which the call was made may be a wrong one.
fn live_difference(first: &Lent, second: &Lent) -> Option<Difference> {
    let bytes = |block: &usize| 16 * block..16 * block + 16;
    let blocks = 0..first[Pool].len() / 16;
    let mut allocated = blocks.filter(|block| first.entry(*block as u64) != FREE);
    let differ = |block: &usize| first[Pool][bytes(block)] != second[Pool][bytes(block)];
    let block = allocated.find(differ)?;
    Difference::in_bytes(Pool, bytes(&block), [first, second])
}
