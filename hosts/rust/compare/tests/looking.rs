//! What the wrapper finds in a table by itself, held to the planes as this crate reads them and to the library's
//! own answers. BLOCKHEAP_HEAPS asks for more heaps.

use blockheap::{Address, Block, FreeRun, Refusal, View};
use compare::planes::{FREE, HEAD, MARK};
use compare::Buffer::{Pool, Table};
use compare::{draw_heap, library, wanted, Call, Lent, Random};

fn view(lent: &Lent) -> View<'_> {
    View::new(Address::from(lent.base as u32), &lent[Pool], &lent[Table])
}

/// Drawn heaps, most of them small.
fn heaps(seed: u64) -> impl Iterator<Item = Lent> {
    let mut random = Random::new(seed);
    (0..wanted("BLOCKHEAP_HEAPS", 10_000)).map(move |number| {
        let most = if number % 100 == 0 { 1024 } else { 12 };
        let t = random.between(1, most);
        draw_heap(&mut random, t)
    })
}

/// Of each object its head, its address and its bytes.
fn objects(lent: &Lent) -> Vec<(u64, u64, &[u8])> {
    let found = lent.heads().into_iter().map(|head| {
        let bytes = 16 * head as usize..16 * (head + lent.object_blocks(head)) as usize;
        (head, lent.base + 16 * head, &lent[Pool][bytes])
    });
    found.collect()
}

/// Of each run of free blocks its first block and its length.
fn free_runs(lent: &Lent) -> Vec<(u64, u32)> {
    let mut runs: Vec<(u64, u32)> = Vec::new();
    for block in (0..lent.blocks()).filter(|block| lent.entry(*block) == FREE) {
        match runs.last_mut() {
            Some((start, blocks)) if *start + u64::from(*blocks) == block => *blocks += 1,
            _ => runs.push((block, 1)),
        }
    }
    runs
}

fn parts(run: FreeRun) -> (u64, u32) {
    (run.block.number(), run.blocks)
}

#[test]
fn objects_are_those_of_the_table() -> Result<(), Refusal> {
    let (mut count, mut longest) = (0, 0);
    for lent in heaps(1) {
        let found = view(&lent).objects()?;
        assert_eq!(found.clone().count(), view(&lent).survey()?.objects as usize, "{lent}");
        for object in found.clone() {
            assert_eq!(
                view(&lent).object(object.block)?.as_ptr_range(),
                object.bytes.as_ptr_range()
            );
            assert_eq!(16 * object.blocks() as usize, object.bytes.len());
            longest = longest.max(object.blocks());
        }
        let found = found.map(|object| (object.block, object.address, object.bytes));
        let expected = objects(&lent).into_iter().map(|(head, address, bytes)| {
            (Block::from_number(head), Address::from(address as u32), bytes)
        });
        count += expected.len();
        assert!(found.eq(expected), "{lent}");
    }
    assert!(count > 50_000 && longest > 1000, "{count} objects, the longest of {longest} blocks");
    Ok(())
}

#[test]
fn an_object_is_found_by_its_head_alone() -> Result<(), Refusal> {
    for lent in heaps(2) {
        for block in 0..lent.blocks() {
            let found = view(&lent).object(Block::from_number(block)).map(<[u8]>::len);
            let expected = match lent.entry(block) {
                HEAD => Ok(16 * lent.object_blocks(block) as usize),
                _ => Err(Refusal::NotAHead),
            };
            assert_eq!(found, expected, "block {block}, {lent}");
        }
    }
    Ok(())
}

#[test]
fn free_runs_are_those_of_the_table() -> Result<(), Refusal> {
    let mut count = 0;
    for lent in heaps(3) {
        let runs: Vec<_> = view(&lent).free_runs()?.map(parts).collect();
        assert_eq!(runs, free_runs(&lent), "{lent}");
        let longest = runs.iter().map(|(_, blocks)| *blocks).max().unwrap_or(0);
        assert_eq!(longest, view(&lent).survey()?.longest, "{lent}");
        count += runs.len();
    }
    assert!(count > 20_000, "{count} runs");
    Ok(())
}

/// So many bytes are the most that the library allocates.
fn allocates_at_most(lent: &Lent, bytes: u64) {
    let allocate = |bytes| library(&Call::Allocate { bytes }, &mut lent.clone()).refusal;
    assert_eq!(allocate(bytes + 1), 9, "{bytes} bytes and one more, {lent}");
    assert!(bytes == 0 || allocate(bytes) == 0, "{bytes} bytes, {lent}");
}

#[test]
fn the_largest_fit_is_the_most_that_the_library_allocates() -> Result<(), Refusal> {
    for lent in heaps(4) {
        allocates_at_most(&lent, view(&lent).largest_fit()?);
    }
    Ok(())
}

#[test]
fn the_largest_fit_of_a_run_is_the_most_that_has_room_there() -> Result<(), Refusal> {
    for (start, blocks) in (0..12).flat_map(|start| (1..=12).map(move |blocks| (start, blocks))) {
        let mut lent = Lent::empty(4096, 6);
        lent.set_entries(0..24, HEAD);
        lent.set_entries(start..start + blocks, FREE);
        let runs: Vec<FreeRun> = view(&lent).free_runs()?.collect();
        assert_eq!(runs.iter().copied().map(parts).collect::<Vec<_>>(), [(start, blocks as u32)]);
        allocates_at_most(&lent, runs[0].largest_fit());
    }
    Ok(())
}

#[test]
fn what_the_library_refuses_has_no_objects_and_no_runs() {
    for t in 1..=8 {
        for block in 0..4 * t {
            let mut lent = Lent::empty(4096, t);
            lent.set_entry(block, MARK);
            assert_eq!(view(&lent).objects().err(), Some(Refusal::BadTable));
            assert_eq!(view(&lent).free_runs().err(), Some(Refusal::BadTable));
            assert_eq!(view(&lent).largest_fit().err(), Some(Refusal::BadTable));
            lent.base = 8;
            assert_eq!(view(&lent).objects().err(), view(&lent).survey().err());
            assert_eq!(view(&lent).free_runs().err(), view(&lent).survey().err());
        }
    }
}
