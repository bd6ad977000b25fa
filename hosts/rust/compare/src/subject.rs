//! The heaps that can be compared, each as a function on calls and lent memory.

use crate::Buffer::{self, Image, Roots, Stack};
use crate::{Call, Lent, Reply};
use blockheap::{raw, Address, Block, Heap, Log, MarkEntry, NotPlaced, ShapeFault};
use listheap::{Appended, Dropped, Entry, File, ListHeap, Refusal};

/// A heap under test.
pub type Subject<'s> = &'s dyn Fn(&Call, &mut Lent) -> Reply;

/// The library through its raw calls. The places for the answers hold rubbish before each call and
/// stand between guards.
pub fn library(call: &Call, lent: &mut Lent) -> Reply {
    let mut answers = Answers::new(call);
    let [pool, table, roots, stack, image] = &mut lent.buffers;
    macro_rules! hand_over {
        ($call:ident $(, $argument:expr)* => $($answer:literal)*) => {{
            // Each buffer has pages of its own, and the answers have their memory.
            unsafe {
                raw::$call(
                    lent.base, lent.t, pool.as_mut_ptr(), pool.len(), table.as_mut_ptr(), table.len()
                    $(, $argument)* $(, answers.place($answer).cast())*
                )
            }
        }};
    }
    let refusal = match *call {
        Call::Init => hand_over!(blockheap_init =>),
        Call::Allocate { bytes } => hand_over!(blockheap_allocate, bytes => "block" "change"),
        Call::Free { block } => hand_over!(blockheap_free, block => "change"),
        Call::Reallocate { block, bytes } => {
            hand_over!(blockheap_reallocate, block, bytes => "block" "change")
        }
        Call::Collect => {
            let (entries, length) = (stack.as_mut_ptr(), stack.len());
            hand_over!(
                blockheap_collect, roots.as_ptr(), roots.len(), entries, length
                => "kept" "rescans" "change"
            )
        }
        Call::Survey => hand_over!(blockheap_survey => "used" "objects" "longest"),
        Call::Load { block, word } => hand_over!(blockheap_load, block, word => "value"),
        Call::Store { block, word, value } => hand_over!(blockheap_store, block, word, value =>),
        Call::WriteImage => {
            let (output, length) = (image.as_mut_ptr(), image.len());
            hand_over!(
                blockheap_write_image, roots.as_ptr(), roots.len(), output, length => "length"
            )
        }
        Call::LogAppend { first, time, tips } => {
            let (entries, length) = (stack.as_mut_ptr(), stack.len());
            hand_over!(
                blockheap_log_append, first, time, tips, roots.as_ptr(), roots.len(), entries, length
                => "first" "change"
            )
        }
        Call::LogRead { first, index } => {
            hand_over!(blockheap_log_read, first, index => "time" "tips")
        }
        Call::LogDrop { first } => hand_over!(blockheap_log_drop, first => "first" "change"),
        // As in hand_over.
        Call::OpenImage => unsafe {
            raw::blockheap_open_image(
                image.as_ptr(),
                image.len(),
                lent.t,
                pool.as_mut_ptr(),
                pool.len(),
                table.as_mut_ptr(),
                table.len(),
                roots.as_mut_ptr(),
                roots.len(),
                answers.place("base"),
                answers.place("count"),
            )
        },
    };
    let reply = answers.reply(refusal);
    keep_base(lent, &reply);
    reply
}

/// A program goes on with the base of an image that it has opened.
fn keep_base(lent: &mut Lent, reply: &Reply) {
    if let (0, Some(base)) = (reply.refusal, reply.parts.get("base")) {
        lent.base = *base as u64;
    }
}

/// The places for the answers to a call, each with a guard before and after it.
struct Answers<'c> {
    call: &'c Call,
    memory: Vec<u32>,
}

impl Answers<'_> {
    const RUBBISH: u32 = 0xDEAD_BEEF;
    /// So many guards stand after the last place.
    const GUARDS_AFTER: usize = 5;

    fn new(call: &Call) -> Answers<'_> {
        let length = 2 * call.description().answers.len() + Answers::GUARDS_AFTER;
        Answers { call, memory: vec![Answers::RUBBISH; length] }
    }

    /// The place for the answer of that name.
    fn place(&mut self, name: &str) -> *mut u32 {
        let part = self.call.description().answers.iter().position(|answer| *answer == name);
        self.memory.as_mut_ptr().wrapping_add(2 * part.expect("the name of an answer") + 1)
    }

    fn reply(&self, refusal: u32) -> Reply {
        let names = self.call.description().answers;
        let (places, guards_after) = self.memory.split_at(2 * names.len());
        let number = |name: &str, bits: u32| match name {
            "change" => i64::from(bits as i32),
            _ => i64::from(bits),
        };
        let parts: Vec<i64> =
            names.iter().zip(places.chunks(2)).map(|(name, pair)| number(name, pair[1])).collect();
        let guards = places.iter().step_by(2).chain(guards_after);
        let stray_words = guards.filter(|guard| **guard != Answers::RUBBISH).count();
        Reply { stray_words, ..Reply::new(self.call, refusal, &parts) }
    }
}

/// A refusal's number, and the change of a collection that stands.
struct Refused {
    number: u32,
    change: i64,
}

impl From<Refusal> for Refused {
    fn from(refusal: Refusal) -> Refused {
        Refused { number: refusal.number(), change: 0 }
    }
}

impl From<blockheap::Refusal> for Refused {
    fn from(refusal: blockheap::Refusal) -> Refused {
        Refused { number: refusal.number(), change: 0 }
    }
}

impl From<NotPlaced> for Refused {
    fn from(NotPlaced { refusal, change, .. }: NotPlaced) -> Refused {
        Refused { number: refusal.number(), change: change.into() }
    }
}

/// The library through the safe wrapper, which has no place for a base above 32 bits, or for a t that is
/// not that of the pool.
pub fn wrapper(call: &Call, lent: &mut Lent) -> Reply {
    let result = match call {
        Call::OpenImage => open_on_wrapper(lent),
        _ => on_wrapper(call, lent),
    };
    let reply = reply(call, result);
    keep_base(lent, &reply);
    reply
}

/// A t that is not that of the pool, or a piece of a root, is told as a pool of no bytes: by 1, after the
/// faults of the file.
fn open_on_wrapper(lent: &mut Lent) -> Result<Vec<i64>, Refused> {
    let [pool, table, roots, _, image] = &mut lent.buffers;
    let fits = lent.t == pool.len() as u64 / 64 && roots.len() % 4 == 0;
    let pool = if fits { &mut pool[..] } else { &mut [] };
    let whole = roots.len() / 4 * 4;
    let list = Address::all_in_mut(&mut roots[..whole])?;
    let opened = Heap::open_image(image, pool, table, list)?;
    Ok(vec![opened.heap.base().word().into(), opened.roots.len() as i64])
}

/// The log from this address. The wrapper has no place for one above 32 bits, which is told as 1: neither is a
/// block's.
fn log_from(first: u64) -> Log {
    Log::from_first(Address::from_word(u32::try_from(first).unwrap_or(1)))
}

fn on_wrapper(call: &Call, lent: &mut Lent) -> Result<Vec<i64>, Refused> {
    let no_place = blockheap::Refusal::BadShape;
    let word = u32::try_from(lent.base).map_err(|_| no_place(ShapeFault::PoolEnd))?;
    let (base, at) = (Address::from_word(word), Block::from_number);
    let [pool, table, roots, stack, image] = &mut lent.buffers;
    if lent.t != pool.len() as u64 / 64 {
        return Err(no_place(ShapeFault::PoolBytes).into());
    }
    let mut heap = Heap::resume(base, pool, table);
    let placed =
        |placed: blockheap::Placed| vec![placed.block.number() as i64, placed.change.into()];
    Ok(match *call {
        Call::Init => {
            Heap::init(base, pool, table)?;
            vec![]
        }
        Call::Allocate { bytes } => placed(heap.allocate(bytes)?),
        Call::Free { block } => vec![heap.free(at(block))?.into()],
        Call::Reallocate { block, bytes } => placed(heap.reallocate(at(block), bytes)?),
        Call::Collect => {
            let roots = Address::all_in(roots)?;
            let collected = heap.collect(roots, MarkEntry::all_in(stack)?)?;
            vec![collected.kept.into(), collected.rescans.into(), collected.change.into()]
        }
        Call::Survey => {
            let survey = heap.survey()?;
            vec![survey.used.into(), survey.objects.into(), survey.longest.into()]
        }
        Call::Load { block, word } => vec![heap.load(at(block), word)?.into()],
        Call::Store { block, word, value } => {
            heap.store(at(block), word, value)?;
            vec![]
        }
        Call::WriteImage => vec![heap.write_image(Address::all_in(roots)?, image)?.len() as i64],
        Call::LogAppend { first, time, tips } => {
            let (roots, stack) = (Address::all_in(roots)?, MarkEntry::all_in(stack)?);
            let (mut log, entry) = (log_from(first), blockheap::Entry { time, tips });
            let change = heap.log_append(&mut log, entry, roots, stack)?;
            vec![log.first().word().into(), change.into()]
        }
        Call::LogRead { first, index } => {
            let entry = heap.log_read(&log_from(first), index)?;
            vec![entry.time.into(), entry.tips.into()]
        }
        Call::LogDrop { first } => {
            let mut log = log_from(first);
            let change = heap.log_drop(&mut log)?;
            vec![log.first().word().into(), change.into()]
        }
        Call::OpenImage => unreachable!("handled by the caller"),
    })
}

/// The plain-list heap on lent memory.
pub fn second(call: &Call, lent: &mut Lent) -> Reply {
    let reply = reply(call, on_second(call, lent));
    keep_base(lent, &reply);
    reply
}

fn on_second(call: &Call, lent: &mut Lent) -> Result<Vec<i64>, Refused> {
    let ForList { heap, roots, stack, image } = for_list(lent);
    Ok(match *call {
        Call::Init => {
            heap.init()?;
            vec![]
        }
        Call::Collect => collected_parts(heap.collect(roots, stack)?),
        Call::WriteImage => length_part(heap.write_image(roots, image)?),
        Call::OpenImage => opened_parts(heap.open_image(image, roots)?),
        Call::LogAppend { first, time, tips } => {
            appended_parts(heap.log_append(first, Entry { time, tips }, roots, stack)?)?
        }
        _ => heap.on_list(|heap| call_on_list(call, heap))?,
    })
}

/// Lets `work` change the list of the objects in lent memory.
pub fn on_list<A>(
    lent: &mut Lent,
    work: impl FnOnce(&mut ListHeap) -> Result<A, Refusal>,
) -> Result<A, Refusal> {
    for_list(lent).heap.on_list(work)
}

/// What is lent as the plain-list heap takes it.
struct ForList<'l> {
    heap: listheap::Lent<'l>,
    roots: &'l mut [u8],
    stack: &'l mut [u8],
    image: &'l mut [u8],
}

fn for_list(lent: &mut Lent) -> ForList<'_> {
    let [pool, table, roots, stack, image] = &mut lent.buffers;
    ForList {
        heap: listheap::Lent { base: lent.base, t: lent.t, pool, table },
        roots,
        stack,
        image,
    }
}

/// The plain-list heap on a list that is kept from call to call; pool and table are not lent.
pub fn second_on_list(call: &Call, heap: &mut ListHeap, lent: &mut Lent) -> Reply {
    let reply = reply(call, on_kept_list(call, heap, lent));
    if call.collects(&reply) {
        lent[Stack].fill(0);
    }
    keep_base(lent, &reply);
    reply
}

fn on_kept_list(call: &Call, heap: &mut ListHeap, lent: &mut Lent) -> Result<Vec<i64>, Refused> {
    let whole_entries = |buffer: Buffer| lent[buffer].len() % 4 == 0;
    Ok(match *call {
        Call::Init => {
            heap.objects.clear();
            vec![]
        }
        Call::Collect | Call::LogAppend { .. }
            if ![Roots, Stack].into_iter().all(whole_entries) =>
        {
            return Err(Refusal::Shape.into());
        }
        Call::Collect => {
            let roots = listheap::words_of(&lent[Roots]);
            collected_parts(heap.collect(&roots, lent[Stack].len() / 4)?)
        }
        Call::LogAppend { first, time, tips } => {
            let (roots, entry) = (listheap::words_of(&lent[Roots]), Entry { time, tips });
            appended_parts(heap.log_append(first, entry, &roots, lent[Stack].len() / 4)?)?
        }
        Call::WriteImage if !whole_entries(Roots) => return Err(Refusal::Shape.into()),
        Call::WriteImage => {
            let roots = listheap::words_of(&lent[Roots]);
            length_part(heap.write_image(&roots, &mut lent[Image])?)
        }
        Call::OpenImage => opened_parts(open_on_list(heap, lent)?),
        _ => call_on_list(call, heap)?,
    })
}

/// The list becomes that of the file.
fn open_on_list(heap: &mut ListHeap, lent: &mut Lent) -> Result<(u64, u64), Refusal> {
    let file = File::read(&lent[Image])?;
    *heap = file.open(heap.blocks / 4, &mut lent[Roots])?;
    Ok((heap.base, file.roots.len() as u64))
}

fn call_on_list(call: &Call, heap: &mut ListHeap) -> Result<Vec<i64>, Refusal> {
    let placed = |placed: listheap::Placed| vec![placed.block as i64, placed.change];
    Ok(match *call {
        Call::Init
        | Call::Collect
        | Call::WriteImage
        | Call::OpenImage
        | Call::LogAppend { .. } => unreachable!("handled by the callers"),
        Call::Allocate { bytes } => placed(heap.allocate(bytes)?),
        Call::Free { block } => vec![heap.free(block)?],
        Call::Reallocate { block, bytes } => placed(heap.reallocate(block, bytes)?),
        Call::Survey => {
            let survey = heap.survey();
            vec![survey.used as i64, survey.objects as i64, survey.longest as i64]
        }
        Call::Load { block, word } => vec![heap.load(block, word)?.into()],
        Call::Store { block, word, value } => {
            heap.store(block, word, value)?;
            vec![]
        }
        Call::LogRead { first, index } => {
            let Entry { time, tips } = heap.log_read(first, index)?;
            vec![time.into(), tips.into()]
        }
        Call::LogDrop { first } => {
            let Dropped { first, change } = heap.log_drop(first)?;
            vec![first as i64, change]
        }
    })
}

fn appended_parts(Appended { first, change, .. }: Appended) -> Result<Vec<i64>, Refused> {
    let first = first.ok_or(Refused { number: Refusal::NoRoom.number(), change })?;
    Ok(vec![first as i64, change])
}

fn collected_parts(collected: listheap::Collected) -> Vec<i64> {
    vec![collected.kept as i64, collected.rescans as i64, collected.change]
}

fn opened_parts((base, count): (u64, u64)) -> Vec<i64> {
    vec![base as i64, count as i64]
}

fn length_part(length: u64) -> Vec<i64> {
    vec![length as i64]
}

fn reply(call: &Call, result: Result<Vec<i64>, Refused>) -> Reply {
    match result {
        Ok(parts) => Reply::accepted(call, &parts),
        Err(Refused { number, change }) => {
            let mut reply = Reply::refused(call, number);
            reply.parts.get_mut("change").into_iter().for_each(|part| *part = change);
            reply
        }
    }
}

#[cfg(test)]
mod tests {
    use super::*;

    #[test]
    fn an_answer_beside_its_place_is_seen() {
        let free = Call::Free { block: 0 };
        for (place, stray_words) in [(0, 1), (1, 0), (2, 1), (3, 1), (6, 1)] {
            let mut answers = Answers::new(&free);
            answers.memory[place] = 0;
            assert_eq!(answers.reply(0).stray_words, stray_words, "place {place}");
        }
    }

    #[test]
    fn an_answer_that_is_not_written_is_seen() {
        let reply = Answers::new(&Call::Survey).reply(1);
        assert!(reply.parts.values().all(|part| *part != 0));
    }
}
