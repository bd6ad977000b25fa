//! The plain-list heap behind the C header, so that the benchmark can run it as it runs the library.

use listheap::{Appended, Collected, Dropped, Entry, Lent, Placed, Refusal};
use std::slice::{from_raw_parts, from_raw_parts_mut};

/// The refusal number, with the answer's parts in their places, zero on a refusal.
unsafe fn answer<const N: usize>(result: Result<[i64; N], Refusal>, places: [*mut u32; N]) -> u32 {
    let (refusal, parts) = match result {
        Ok(parts) => (0, parts),
        Err(refusal) => (refusal.number(), [0; N]),
    };
    for (place, part) in places.into_iter().zip(parts) {
        *place = part as u32;
    }
    refusal
}

fn placed_parts(placed: Placed) -> [i64; 2] {
    [placed.block as i64, placed.change]
}

fn collected_parts(collected: Collected) -> [i64; 3] {
    [collected.kept as i64, collected.rescans as i64, collected.change]
}

/// Exports a call on a heap: its own arguments, the places of its answers, and what it does. The list
/// writes back what it read: where the header lends pool or table as const, the same bytes.
macro_rules! export {
    ($name:ident($($argument:ident: $type:ty),*) -> [$($place:ident),*], $lent:ident => $call:expr) => {
        /// # Safety
        /// As `include/blockheap.h` asks.
        #[no_mangle]
        pub unsafe extern "C" fn $name(
            base: u64, t: u64, pool: *mut u8, pool_len: usize, table: *mut u8, table_len: usize,
            $($argument: $type,)* $($place: *mut u32,)*
        ) -> u32 {
            let pool = from_raw_parts_mut(pool, pool_len);
            let table = from_raw_parts_mut(table, table_len);
            let $lent = Lent { base, t, pool, table };
            answer($call, [$($place),*])
        }
    };
}

export!(blockheap_init() -> [], lent => lent.init().map(|()| []));
export!(blockheap_allocate(bytes: u64) -> [block, change], lent =>
    lent.on_list(|heap| heap.allocate(bytes)).map(placed_parts));
export!(blockheap_free(block: u64) -> [change], lent =>
    lent.on_list(|heap| heap.free(block)).map(|change| [change]));
export!(blockheap_reallocate(block: u64, bytes: u64) -> [new_block, change], lent =>
    lent.on_list(|heap| heap.reallocate(block, bytes)).map(placed_parts));
export!(blockheap_collect(roots: *const u8, roots_len: usize, stack: *mut u8, stack_len: usize)
-> [kept, rescans, change], lent => {
    let roots = from_raw_parts(roots, roots_len);
    let stack = from_raw_parts_mut(stack, stack_len);
    lent.collect(roots, stack).map(collected_parts)
});
export!(blockheap_survey() -> [used, objects, longest], lent =>
    lent.on_list(|heap| Ok(heap.survey()))
        .map(|survey| [survey.used as i64, survey.objects as i64, survey.longest as i64]));
export!(blockheap_load(block: u64, word: u64) -> [value], lent =>
    lent.on_list(|heap| heap.load(block, word)).map(|value| [value.into()]));
export!(blockheap_store(block: u64, word: u64, value: u32) -> [], lent =>
    lent.on_list(|heap| heap.store(block, word, value)).map(|()| []));
export!(blockheap_write_image(roots: *const u8, roots_len: usize, image: *mut u8, image_len: usize)
-> [length], lent => {
    let roots = from_raw_parts(roots, roots_len);
    let image = from_raw_parts_mut(image, image_len);
    lent.write_image(roots, image).map(|length| [length as i64])
});
export!(blockheap_log_read(first: u64, index: u64) -> [time, tips], lent =>
    lent.on_list(|heap| heap.log_read(first, index))
        .map(|Entry { time, tips }| [time.into(), tips.into()]));
export!(blockheap_log_drop(first: u64) -> [new_first, change], lent =>
    lent.on_list(|heap| heap.log_drop(first))
        .map(|Dropped { first, change }| [first as i64, change]));

/// # Safety
/// As `include/blockheap.h` asks.
#[no_mangle]
pub unsafe extern "C" fn blockheap_open_image(
    image: *const u8,
    image_len: usize,
    t: u64,
    pool: *mut u8,
    pool_len: usize,
    table: *mut u8,
    table_len: usize,
    roots: *mut u8,
    roots_len: usize,
    base: *mut u32,
    count: *mut u32,
) -> u32 {
    let image = from_raw_parts(image, image_len);
    let [pool, table, roots] = [(pool, pool_len), (table, table_len), (roots, roots_len)]
        .map(|(bytes, length)| from_raw_parts_mut(bytes, length));
    let opened = Lent { base: 0, t, pool, table }.open_image(image, roots);
    answer(opened.map(|(base, count)| [base as i64, count as i64]), [base, count])
}

/// # Safety
/// As `include/blockheap.h` asks.
#[no_mangle]
pub unsafe extern "C" fn blockheap_log_append(
    base: u64,
    t: u64,
    pool: *mut u8,
    pool_len: usize,
    table: *mut u8,
    table_len: usize,
    first: u64,
    time: u32,
    tips: u32,
    roots: *const u8,
    roots_len: usize,
    stack: *mut u8,
    stack_len: usize,
    new_first: *mut u32,
    change: *mut u32,
) -> u32 {
    let roots = from_raw_parts(roots, roots_len);
    let [pool, table, stack] = [(pool, pool_len), (table, table_len), (stack, stack_len)]
        .map(|(bytes, length)| from_raw_parts_mut(bytes, length));
    let lent = Lent { base, t, pool, table };
    let appended = lent.log_append(first, Entry { time, tips }, roots, stack);
    let parts = appended.map(|appended| [appended.first.unwrap_or(0) as i64, appended.change]);
    let refusal = answer(parts, [new_first, change]);
    match appended {
        Ok(Appended { first: None, .. }) => Refusal::NoRoom.number(),
        _ => refusal,
    }
}
