//! The comparison must notice a wrong heap: each heap here follows all rules but one.

use compare::aligned::{aligned, lowest_start, stays_aligned, unaligned_head};
use compare::chains::{Chain, End};
use compare::image::{self, bytes_of, whole_sections, Section};
use compare::lasting::{log_is_a_list, spared_logs_last};
use compare::laws::{self, run_law, Law};
use compare::places::{anywhere, free_run, right_start, search, MayBegin, Places, RIGHT};
use compare::planes::{entries_in, table_bytes, SpareBit, FREE, HEAD, MARK};
use compare::readings::{self, collect_reading, Reading};
use compare::Buffer::{self, Image, Pool, Roots, Stack, Table};
use compare::{on_list, run_pairs, run_walks, second, Call, Guarded, Lent, Reply};
use compare::{Coverage, Sizes, Subject};
use listheap::{Appended, Collected, Entry, ListHeap, Marking, Object, Placed, Refusal};
use std::os::unix::process::ExitStatusExt;
use std::process::Command;

const SMALL: Sizes = Sizes { least: 1, most: 20, calls_per_heap: 60 };
const LARGE: Sizes = Sizes { least: 65, most: 1024, calls_per_heap: 20 };
const MOST_CALLS: u64 = 200_000;

/// What tells the heap from a right one within so many calls.
fn fault_of(subject: Subject, sizes: Sizes) -> String {
    let outcome = run_walks(subject, sizes, 5, MOST_CALLS, &mut Coverage::default());
    outcome.expect_err("no call told this heap from a right one")
}

fn must_be_noticed(name: &str, subject: Subject) {
    say_noticed(name, &fault_of(subject, SMALL));
}

/// The heap must be noticed by how many objects it keeps. Answers that number and the right one.
fn kept_and_right(name: &str, subject: Subject, sizes: Sizes) -> [u64; 2] {
    let fault = fault_of(subject, sizes);
    say_noticed(name, &fault);
    let words: Vec<&str> = fault.split_whitespace().collect();
    match words[..] {
        ["seed", _, "call", _, "kept", "is", kept, "where", right, ..] => {
            [kept, right].map(|number| number.parse().expect("a number"))
        }
        _ => panic!("{name} is noticed, but not by what it keeps"),
    }
}

fn keeps_too_few(name: &str, subject: Subject) {
    let [kept, right] = kept_and_right(name, subject, SMALL);
    assert!(kept < right, "{kept} and {right}");
}

fn keeps_too_few_large_objects(name: &str, subject: Subject) {
    let [kept, right] = kept_and_right(name, subject, LARGE);
    assert!(kept < right, "{kept} and {right}");
}

fn keeps_too_many(name: &str, subject: Subject) {
    let [kept, right] = kept_and_right(name, subject, SMALL);
    assert!(kept > right, "{kept} and {right}");
}

/// The heap that does wrong at one buffer must be noticed by that buffer, whichever it is.
fn must_be_noticed_anywhere(name: &str, heap: &dyn Fn(Buffer, &Call, &mut Lent) -> Reply) {
    for buffer in Buffer::ALL {
        let fault = fault_of(&|call, lent| heap(buffer, call, lent), SMALL);
        say_noticed(name, &fault);
        let noticed_by = fault.lines().next().unwrap_or_default();
        assert!(noticed_by.contains(&buffer.to_string()), "{buffer} and not {noticed_by}");
    }
}

/// The heap that does wrong at one spare bit must be noticed, whichever it is.
fn must_be_noticed_at_each_spare_bit(
    name: &str,
    heap: &dyn Fn(SpareBit, &Call, &mut Lent) -> Reply,
) {
    for spare in SpareBit::all() {
        let fault = fault_of(&|call, lent| heap(spare, call, lent), SMALL);
        say_noticed(&format!("{name}, {spare:?}"), &fault);
    }
}

/// What tells the heap from one that has the law.
fn breaks(law: Law, name: &str, subject: Subject) {
    let outcome = run_law(law, subject, SMALL.least..=SMALL.most, 5, 2_000);
    say_noticed(name, &outcome.expect_err("no heap broke the law"));
}

fn frees_do_not_commute(name: &str, subject: Subject) {
    breaks(laws::frees_commute, name, subject);
}

fn roots_are_no_set(name: &str, subject: Subject) {
    breaks(laws::roots_are_a_set, name, subject);
}

fn joined_roots_keep_no_union(name: &str, subject: Subject) {
    breaks(laws::roots_join, name, subject);
}

fn a_second_collection_changes_more(name: &str, subject: Subject) {
    breaks(laws::collect_idempotent, name, subject);
}

fn images_lack_the_heap(name: &str, subject: Subject) {
    breaks(laws::images_have_the_heap, name, subject);
}

fn images_have_free_bytes(name: &str, subject: Subject) {
    breaks(laws::images_have_no_free_bytes, name, subject);
}

fn written_heaps_open_otherwise(name: &str, subject: Subject) {
    breaks(laws::write_then_open, name, subject);
}

fn opened_files_are_written_otherwise(name: &str, subject: Subject) {
    breaks(laws::open_then_write, name, subject);
}

/// The heap must leave a large object that is not aligned, from an init on.
fn leaves_unaligned_objects(name: &str, subject: Subject) {
    let outcome = stays_aligned(subject, 8, 5, 2_000);
    say_noticed(name, &outcome.expect_err("all large objects are aligned"));
}

/// The heap must lose what it has of a log that all calls spare.
fn loses_spared_logs(name: &str, subject: Subject) {
    let outcome = spared_logs_last(subject, SMALL, 5, 1_000);
    say_noticed(name, &outcome.expect_err("all logs read as before"));
}

/// The heap must have a log that is no list of pairs, from an init on.
fn is_no_list_of_pairs(name: &str, subject: Subject) {
    let outcome = (1..=8).try_for_each(|t| log_is_a_list(subject, t, t, 200).map(|_| ()));
    say_noticed(name, &outcome.expect_err("all logs are lists of pairs"));
}

fn dead_data_is_heard(name: &str, subject: Subject) {
    let outcome = run_pairs(subject, SMALL, 5, 500);
    say_noticed(name, &outcome.expect_err("no pair of heaps differed"));
}

/// A heap that reads a byte beside a buffer must end its process at a page that cannot be touched,
/// whichever buffer it is. The process is this test once more, told by a variable to make the calls.
fn must_fault(name: &str, byte: &dyn Fn(&[u8]) -> *const u8) {
    const BESIDE: &str = "BLOCKHEAP_READS_BESIDE";
    const SIGSEGV: i32 = 11;
    if let Ok(told) = std::env::var(BESIDE) {
        let mut buffers = Buffer::ALL.into_iter();
        let buffer = buffers.find(|buffer| buffer.to_string() == told).expect("a buffer");
        return read_beside(buffer, byte);
    }
    for buffer in Buffer::ALL {
        let this = std::env::current_exe().expect("the path of these tests");
        let mut again = Command::new(this);
        again.args(["--exact", &format!("must_fault::{name}")]).env(BESIDE, buffer.to_string());
        let ended = again.output().expect("a second process").status;
        assert_eq!(ended.signal(), Some(SIGSEGV), "{buffer}: {ended}");
        say_noticed(name, &format!("{buffer}: {ended}"));
    }
}

/// Calls on a right heap that also reads where nothing is lent: the process ends there, or the byte is
/// slack of the same pages.
fn read_beside(buffer: Buffer, byte: &dyn Fn(&[u8]) -> *const u8) {
    let heap = |call: &Call, lent: &mut Lent| {
        unsafe { byte(&lent[buffer]).read_volatile() };
        second(call, lent)
    };
    let _ = run_walks(&heap, SMALL, 5, MOST_CALLS, &mut Coverage::default());
}

fn say_noticed(name: &str, fault: &str) {
    println!("noticed: {name}: {}", fault.lines().next().unwrap_or_default());
}

/// A test for each heap, with its name.
macro_rules! each {
    ($test:ident: $($heap:ident)*) => {
        mod $test {
            $(
                #[test]
                fn $heap() {
                    super::$test(stringify!($heap), &super::$heap);
                }
            )*
        }
    };
}

each! { must_be_noticed:
    reads_words_highest_byte_first
    skips_word_zero
    stops_at_the_overflow_flag
    clears_the_flag_after_the_pass
    walks_words_first_to_last
    clears_only_the_bytes_asked
    moves_into_its_own_blocks
    frees_tails_of_kept_objects
    finds_the_block_before_the_head
    misses_the_lowest_start
    cuts_runs_at_every_64_blocks
    surveys_no_last_blocks
    cuts_numbers_to_32_bits
    tests_the_block_before_the_bytes
    takes_any_base
    answers_after_a_refusal
    writes_after_a_refusal
    leaves_the_mark_stack
    clears_freed_bytes
    clears_the_pool_at_init
    begins_anywhere
    aligns_three_blocks
    aligns_no_four_blocks
    aligns_to_two_blocks
    aligns_to_eight_blocks
    aligns_addresses
    moves_anywhere
    grows_anywhere
    grows_unaligned_large_objects
    grows_no_object_to_a_large_one
    grows_small_objects_at_borders_alone
    moves_unaligned_objects_that_shrink
    moves_unaligned_objects_of_the_same_size
    rounds_up_from_aligned_starts
    tries_the_first_block_of_a_run_alone
    stops_at_the_first_run_that_is_long_enough
    refuses_unaligned_objects
    surveys_aligned_runs_alone
    swaps_the_planes
    has_the_highest_bit_first
    has_the_first_block_of_four_last
    begins_the_high_plane_a_byte_early
    begins_the_high_plane_a_byte_late
    has_packed_pairs
    has_planes_in_turns
    has_one_plane_alone
    takes_t_from_the_table
    takes_t_from_the_pool
    cuts_t_to_32_bits
    takes_a_t_of_0
    takes_a_t_of_1025
    takes_a_table_of_t_bytes
    takes_a_longer_table
    tests_spare_bits_before_the_base
    surveys_spare_blocks
    counts_highest_byte_first
    cuts_counts_to_a_byte
    counts_bytes
    counts_objects_for_blocks
    writes_the_base_highest_byte_first
    writes_the_planes
    pads_the_table
    has_the_first_block_in_the_highest_bits
    swaps_the_bits_of_an_entry
    writes_free_blocks
    writes_heads_alone
    writes_blocks_falling
    swaps_blocks_and_roots
    leads_roots_to_heads
    drops_roots_that_lead_nowhere
    ends_before_the_roots
    takes_an_output_a_byte_short
    takes_no_longer_output
    clears_the_output_behind_the_image
    writes_what_fits
    answers_the_length_of_a_refused_image
    answers_the_length_of_the_output
    tests_the_output_first
    tests_the_roots_before_the_table
    takes_4095_roots_at_most
    takes_more_than_4096_roots
    takes_a_piece_of_a_root
    ignores_trailing_bytes
    tests_the_end_of_a_file_first
    tests_no_count_before_the_file_ends
    tests_the_memory_before_the_file
    takes_any_number_of_bases
    takes_an_empty_table
    reads_counts_of_a_byte
    counts_no_marks
    takes_marks_for_heads
    takes_files_with_more_roots
    takes_4096_entries_at_most
    takes_a_piece_of_an_entry
    takes_an_image_at_base_0
    takes_t_from_an_image
    tests_the_lent_table
    tests_a_files_table_before_its_base
    tests_the_list_before_a_files_table
    leaves_free_blocks
    puts_blocks_at_the_front
    reads_blocks_falling
    reads_the_base_highest_byte_first
    reads_the_first_block_in_the_highest_bits
    leaves_a_packed_table
    clears_later_roots
    leads_opened_roots_to_heads
    fills_the_pool_for_too_short_a_list
    writes_the_roots_that_fit
    answers_the_lent_base
    answers_the_entries_of_the_list
    answers_the_roots_of_a_refused_image
    answers_the_base_of_a_refused_image
    forgets_the_log_among_the_roots
    forgets_the_roots_beside_the_log
    collects_before_every_append
    never_collects_for_an_append
    appends_at_the_front
    joins_the_oldest_entry
    leaves_the_next_word_of_the_last
    answers_the_address_of_the_new_entry
    swaps_time_and_tips
    leaves_words_in_a_new_entry
    forgets_the_collection_in_the_sum
    forgets_the_collection_after_9
    takes_the_collection_back_after_9
    takes_the_table_back_after_9
    answers_the_first_address_after_9
    clears_the_stack_without_a_collection
    leaves_the_stack_of_an_append
    leaves_the_stack_after_9
    takes_a_repetition_for_the_end
    takes_any_wrong_next_word_for_the_end
    takes_entries_of_one_block
    takes_entries_of_three_blocks
    takes_later_entries_of_three_blocks
    leads_a_tail_to_its_entry
    leads_an_address_inside_a_block_to_its_entry
    cuts_the_first_address_to_32_bits
    cuts_the_index_to_32_bits
    reads_a_free_entry
    tests_the_other_words_of_an_entry
    refuses_the_empty_log
    tests_the_log_before_the_roots
    tests_the_log_before_the_stack
    tests_the_room_before_the_log
    takes_4096_roots_beside_the_log
    takes_4096_roots_beside_the_empty_log
    takes_4094_roots_beside_the_log
    takes_a_piece_of_a_root_in_an_append
    reads_from_the_newest
    counts_entries_from_1
    reads_zeros_behind_the_newest
    drops_the_newest
    drops_nothing_from_the_empty_log
    reads_the_next_word_after_the_free
    clears_a_dropped_entry
    frees_the_head_of_an_entry_alone
}

each! { must_be_noticed_at_each_spare_bit:
    ignores_a_spare_bit
    ignores_a_spare_bit_in_a_survey
    ignores_a_spare_bit_in_an_image
    ignores_a_spare_bit_in_a_log
    clears_a_spare_bit
    clears_a_spare_bit_in_a_refusal
    leaves_a_spare_bit_at_init
    sets_a_spare_bit_at_init
    sets_a_spare_bit_behind_an_object
    refuses_a_spare_bit_at_init
    leaves_a_spare_bit_at_an_opening
    refuses_a_spare_bit_at_an_opening
}

each! { leaves_unaligned_objects:
    begins_anywhere
    aligns_no_four_blocks
    moves_anywhere
    grows_anywhere
}

each! { keeps_too_few:
    follows_heads_alone
    finds_no_head_in_an_earlier_byte
    finds_no_head_in_an_earlier_8_bytes
    walks_from_the_addressed_block_on
}

each! { keeps_too_few_large_objects:
    finds_no_head_in_an_earlier_16_bytes
    finds_no_head_300_blocks_before
}

each! { keeps_too_many:
    follows_the_block_behind_an_object
    follows_free_blocks
    counts_addresses_inside_blocks
    walks_tails_in_a_rescan
}

each! { must_be_noticed_anywhere:
    writes_past_a_buffer
    writes_a_buffer_that_it_may_not
}

each! { must_fault:
    reads_before_a_buffer
    reads_past_a_buffer
}

each! { dead_data_is_heard:
    clears_only_the_bytes_asked
    follows_words_in_free_blocks
    leaves_the_mark_stack
    writes_free_blocks
    keeps_bits_of_the_output
    leaves_the_stack_of_an_append
    leaves_words_in_a_new_entry
    reads_a_free_entry
}

each! { loses_spared_logs:
    forgets_the_log_among_the_roots
    skips_word_zero
    frees_tails_of_kept_objects
    loses_the_object_of_the_last_root
}

each! { is_no_list_of_pairs:
    forgets_the_log_among_the_roots
    appends_at_the_front
    joins_the_oldest_entry
    leaves_the_next_word_of_the_last
    answers_the_address_of_the_new_entry
    swaps_time_and_tips
    forgets_the_collection_in_the_sum
    forgets_the_collection_after_9
    never_collects_for_an_append
    reads_from_the_newest
    drops_the_newest
    reads_the_next_word_after_the_free
    frees_the_head_of_an_entry_alone
    refuses_every_call
}

each! { frees_do_not_commute:
    counts_free_blocks_before_the_object
    counts_free_blocks_behind_the_object
    frees_nothing_behind_a_free_block
    refuses_every_call
}

each! { roots_are_no_set:
    takes_64_roots
    unmarks_a_root_that_comes_again
    counts_roots_for_objects
    loses_the_object_of_the_last_root
    refuses_every_call
}

each! { joined_roots_keep_no_union:
    keeps_from_the_last_root_alone
    frees_tails_of_kept_objects
    refuses_every_call
}

each! { a_second_collection_changes_more:
    frees_one_object_a_call
    answers_the_objects_before
    answers_the_free_blocks
    counts_collections_in_a_free_block
}

each! { images_lack_the_heap:
    counts_highest_byte_first
    counts_bytes
    writes_blocks_falling
    swaps_blocks_and_roots
    leads_roots_to_heads
    answers_the_length_of_the_output
    refuses_every_call
}

each! { images_have_free_bytes:
    writes_free_blocks
    refuses_every_call
}

each! { written_heaps_open_otherwise:
    leaves_free_blocks
    puts_blocks_at_the_front
    reads_blocks_falling
    leaves_a_packed_table
    clears_later_roots
    leads_opened_roots_to_heads
    tests_the_lent_table
    answers_the_lent_base
    answers_the_entries_of_the_list
    writes_blocks_falling
    refuses_every_call
}

each! { opened_files_are_written_otherwise:
    puts_blocks_at_the_front
    reads_blocks_falling
    leads_opened_roots_to_heads
    answers_the_lent_base
    answers_the_entries_of_the_list
    writes_blocks_falling
    refuses_every_call
}

#[test]
fn a_right_heap_is_not_noticed() {
    for subject in [&second as Subject, &right_hands] {
        run_walks(subject, SMALL, 5, MOST_CALLS, &mut Coverage::default()).expect("a right heap");
    }
    stays_aligned(&second, 8, 5, 2_000).expect("a right heap");
    spared_logs_last(&second, SMALL, 5, 100).expect("a right heap");
    for t in 1..=8 {
        log_is_a_list(&second, t, t, 200).expect("a right heap");
    }
    let all: [Law; 8] = [
        laws::frees_commute,
        laws::roots_are_a_set,
        laws::roots_join,
        laws::collect_idempotent,
        laws::images_have_the_heap,
        laws::images_have_no_free_bytes,
        laws::write_then_open,
        laws::open_then_write,
    ];
    for law in all {
        run_law(law, &second, SMALL.least..=SMALL.most, 5, 2_000).expect("a right heap");
    }
}

#[test]
fn an_empty_run_has_reached_nothing() {
    let faults = Coverage::default().faults();
    let numbers = faults.iter().filter(|fault| fault.contains("never answered")).count();
    let pairs = Call::DESCRIPTIONS.iter().map(|call| call.refusals.len()).sum();
    assert_eq!(numbers, pairs, "pairs of a call and a refusal number");
    let seen = faults.iter().filter(|fault| fault.contains("never seen")).count();
    assert_eq!(seen, 171, "situations and kinds of words");
}

/// A right heap, by the hands from which others differ in one point.
fn right_hands(call: &Call, lent: &mut Lent) -> Reply {
    match call {
        Call::Allocate { .. } | Call::Reallocate { .. } => placing(call, lent, RIGHT),
        Call::Collect => collect_from(call, lent, <[u32]>::to_vec),
        Call::WriteImage => image_of(call, lent, |_, _| ()),
        Call::LogAppend { .. } => appending(call, lent, RIGHT_APPENDING),
        _ => second(call, lent),
    }
}

/// The heads of a heap whose lengths fit.
fn heads(lent: &Lent) -> Vec<u64> {
    if lent.fits() {
        lent.heads()
    } else {
        vec![]
    }
}

/// The free blocks of a heap whose lengths fit.
fn free_blocks(lent: &Lent) -> Vec<u64> {
    (0..lent.blocks()).filter(|block| lent.entry(*block) == FREE).collect()
}

/// A right collection on a pool that was changed for it.
fn collect_on_changed_pool(call: &Call, lent: &mut Lent, change: impl Fn(&mut Lent)) -> Reply {
    let pool = lent[Pool].clone();
    if *call == Call::Collect {
        change(lent);
    }
    let reply = second(call, lent);
    if *call == Call::Collect {
        lent[Pool] = pool;
    }
    reply
}

/// A collection that is accepted, made by other hands.
fn collect_by(
    call: &Call,
    lent: &mut Lent,
    collect: impl Fn(&mut ListHeap, &[u32], usize) -> Collected,
) -> Reply {
    let mut before = lent.clone();
    let right = second(call, lent);
    if *call != Call::Collect || right.refusal != 0 {
        return right;
    }
    let (roots, entries) = (listheap::words_of(&before[Roots]), before[Stack].len() / 4);
    before[Stack] = lent[Stack].clone();
    *lent = before;
    let collected =
        on_list(lent, |heap| Ok(collect(heap, &roots, entries))).expect("an accepted collection");
    Reply::accepted(call, &[collected.kept as i64, collected.rescans as i64, collected.change])
}

/// A collection whose rescans are the fault's own.
fn collect_with_rescans(
    call: &Call,
    lent: &mut Lent,
    rescan: impl Fn(&mut Marking) -> u64,
) -> Reply {
    collect_by(call, lent, |heap, roots, entries| {
        let mut marking = Marking::new(heap, entries);
        marking.roots(roots);
        let rescans = rescan(&mut marking);
        let marked = marking.marked;
        heap.sweep(&marked, rescans)
    })
}

fn reverse_words(lent: &mut Lent) {
    lent[Pool].chunks_exact_mut(4).for_each(<[u8]>::reverse);
    lent[Roots].chunks_exact_mut(4).for_each(<[u8]>::reverse);
}

fn reads_words_highest_byte_first(call: &Call, lent: &mut Lent) -> Reply {
    reverse_words(lent);
    let reply = second(call, lent);
    reverse_words(lent);
    reply
}

fn skips_word_zero(call: &Call, lent: &mut Lent) -> Reply {
    collect_on_changed_pool(call, lent, |lent| {
        heads(lent).into_iter().for_each(|head| lent.set_word(4 * head as usize, 0));
    })
}

fn walks_words_first_to_last(call: &Call, lent: &mut Lent) -> Reply {
    collect_on_changed_pool(call, lent, |lent| {
        for head in heads(lent) {
            let end = head + lent.object_blocks(head);
            let object = &mut lent[Pool][16 * head as usize..16 * end as usize];
            object.reverse();
            object.chunks_exact_mut(4).for_each(<[u8]>::reverse);
        }
    })
}

fn stops_at_the_overflow_flag(call: &Call, lent: &mut Lent) -> Reply {
    collect_with_rescans(call, lent, |marking| u64::from(marking.overflowed))
}

fn clears_the_flag_after_the_pass(call: &Call, lent: &mut Lent) -> Reply {
    collect_with_rescans(call, lent, |marking| {
        let rescans = u64::from(marking.overflowed);
        if marking.overflowed {
            marking.pass();
            marking.overflowed = false;
        }
        rescans
    })
}

fn frees_tails_of_kept_objects(call: &Call, lent: &mut Lent) -> Reply {
    collect_by(call, lent, |heap, roots, entries| {
        let before = heap.clone();
        let mut collected = heap.collect(roots, entries).expect("an accepted collection");
        let freed = before.objects.iter().find(|object| !heap.objects.contains(object));
        let first_freed = freed.map_or(heap.blocks, |object| object.start);
        for object in heap.objects.iter_mut().filter(|object| object.start > first_freed) {
            collected.change -= object.blocks as i64 - 1;
            object.blocks = 1;
            object.words.truncate(4);
        }
        collected
    })
}

fn clears_only_the_bytes_asked(call: &Call, lent: &mut Lent) -> Reply {
    let before = lent[Pool].clone();
    let reply = second(call, lent);
    let (Call::Allocate { bytes } | Call::Reallocate { bytes, .. }) = *call else {
        return reply;
    };
    if reply.parts["change"] > 0 {
        let start = 16 * reply.parts["block"] as usize;
        let stale = start + bytes as usize..start + bytes.next_multiple_of(16) as usize;
        lent[Pool][stale.clone()].copy_from_slice(&before[stale]);
    }
    reply
}

fn moves_into_its_own_blocks(call: &Call, lent: &mut Lent) -> Reply {
    let reply = second(call, lent);
    let Call::Reallocate { block, bytes } = *call else {
        return reply;
    };
    if reply.refusal != Refusal::NoRoom.number() {
        return reply;
    }
    let moved = on_list(lent, |heap| {
        let old = heap.objects.iter().find(|object| object.start == block).cloned();
        let freed = heap.free(block)?;
        let placed = heap.allocate(bytes)?;
        for (word, value) in old.expect("an object").words.into_iter().enumerate() {
            heap.store(placed.block, word as u64, value)?;
        }
        Ok(Placed { change: placed.change + freed, ..placed })
    });
    moved.map_or(reply, |placed| Reply::accepted(call, &[placed.block as i64, placed.change]))
}

/// How often a right collection rescans.
fn right_rescans(heap: &ListHeap, roots: &[u32], entries: usize) -> u64 {
    heap.clone().collect(roots, entries).expect("an accepted collection").rescans
}

/// A collection that reads roots and words of objects so. It answers the right rescans, and so it is what
/// it keeps that tells it from a right one.
fn collect_by_reading(call: &Call, lent: &mut Lent, reading: Reading) -> Reply {
    collect_by(call, lent, |heap, roots, entries| {
        let rescans = right_rescans(heap, roots, entries);
        Collected { rescans, ..collect_reading(heap, roots, entries, [reading; 2]) }
    })
}

/// As MicroPython's own collector does.
fn follows_heads_alone(call: &Call, lent: &mut Lent) -> Reply {
    collect_by_reading(call, lent, readings::heads_alone)
}

fn finds_no_head_in_an_earlier_byte(call: &Call, lent: &mut Lent) -> Reply {
    collect_by_reading(call, lent, readings::heads_in_a_byte)
}

fn finds_no_head_in_an_earlier_8_bytes(call: &Call, lent: &mut Lent) -> Reply {
    collect_by_reading(call, lent, readings::heads_in_8_bytes)
}

fn finds_no_head_in_an_earlier_16_bytes(call: &Call, lent: &mut Lent) -> Reply {
    collect_by_reading(call, lent, readings::heads_in_16_bytes)
}

fn finds_no_head_300_blocks_before(call: &Call, lent: &mut Lent) -> Reply {
    collect_by_reading(call, lent, readings::near_heads)
}

fn finds_the_block_before_the_head(call: &Call, lent: &mut Lent) -> Reply {
    collect_by_reading(call, lent, readings::before_the_head)
}

fn follows_the_block_behind_an_object(call: &Call, lent: &mut Lent) -> Reply {
    collect_by_reading(call, lent, readings::one_block_longer)
}

fn follows_free_blocks(call: &Call, lent: &mut Lent) -> Reply {
    collect_by_reading(call, lent, readings::free_blocks)
}

fn counts_addresses_inside_blocks(call: &Call, lent: &mut Lent) -> Reply {
    collect_by_reading(call, lent, readings::inside_blocks)
}

/// Marks the head of a root's object, and walks no word of the blocks before the root's own.
fn walks_from_the_addressed_block_on(call: &Call, lent: &mut Lent) -> Reply {
    collect_by(call, lent, |heap, roots, entries| {
        let rescans = right_rescans(heap, roots, entries);
        let mut walked = heap.clone();
        for block in roots.iter().filter_map(|root| heap.block_at(*root)) {
            if let Some(index) = heap.owner(block) {
                let words_before = 4 * (block - heap.objects[index].start) as usize;
                walked.objects[index].words[..words_before].fill(0);
            }
        }
        let collected = walked.collect(roots, entries).expect("an accepted collection");
        heap.objects.retain(|object| walked.owner(object.start).is_some());
        Collected { rescans, ..collected }
    })
}

/// In a rescan it takes every tail for an object, of unmarked objects too.
fn walks_tails_in_a_rescan(call: &Call, lent: &mut Lent) -> Reply {
    collect_by(call, lent, |heap, roots, entries| {
        let rescans = right_rescans(heap, roots, entries);
        let words_of_tails = heap.objects.iter().flat_map(|object| &object.words[4..]);
        let words_of_tails: Vec<u32> = words_of_tails.copied().collect();
        let mut marking = Marking::new(heap, heap.objects.len());
        marking.roots(roots);
        if rescans > 0 {
            marking.roots(&words_of_tails);
        }
        let marked = marking.marked;
        heap.sweep(&marked, rescans)
    })
}

/// Takes the second place of a run where that is free too.
fn misses_the_lowest_start(call: &Call, lent: &mut Lent) -> Reply {
    let mut reply = second(call, lent);
    if let (0, Call::Allocate { .. }) = (reply.refusal, call) {
        let block = reply.parts["block"] as u64;
        let start = on_list(lent, |heap| {
            let free = |block| block < heap.blocks && heap.objects.iter().all(|o| o.start != block);
            let index = heap.objects.iter().position(|object| object.start == block);
            let object = index.expect("the new object");
            if free(heap.objects[object].end()) {
                heap.objects[object].start += 1;
            }
            Ok(heap.objects[object].start as i64)
        });
        reply.parts.insert("block", start.expect("a heap in order"));
    }
    reply
}

/// Allocate and reallocate with these places.
fn placing(call: &Call, lent: &mut Lent, places: Places) -> Reply {
    let before = lent.clone();
    let right = second(call, lent);
    let (Call::Allocate { bytes } | Call::Reallocate { bytes, .. }) = *call else {
        return right;
    };
    if !matches!(right.refusal, 0 | 9) {
        return right;
    }
    *lent = before;
    let placed = on_list(lent, |heap| match *call {
        Call::Reallocate { block, .. } => places.reallocate(heap, block, bytes.div_ceil(16)),
        _ => places.allocate(heap, bytes.div_ceil(16)),
    });
    match placed {
        Ok(placed) => Reply::accepted(call, &[placed.block as i64, placed.change]),
        Err(refusal) => Reply::refused(call, refusal.number()),
    }
}

/// As before large objects were aligned, and as MicroPython does.
fn begins_anywhere(call: &Call, lent: &mut Lent) -> Reply {
    placing(call, lent, Places::all(anywhere))
}

fn aligns_three_blocks(call: &Call, lent: &mut Lent) -> Reply {
    placing(call, lent, Places::all(|_, start, blocks| blocks < 3 || start % 4 == 0))
}

fn aligns_no_four_blocks(call: &Call, lent: &mut Lent) -> Reply {
    placing(call, lent, Places::all(|_, start, blocks| blocks < 5 || start % 4 == 0))
}

fn aligns_to_two_blocks(call: &Call, lent: &mut Lent) -> Reply {
    placing(call, lent, Places::all(|_, start, blocks| blocks < 4 || start % 2 == 0))
}

fn aligns_to_eight_blocks(call: &Call, lent: &mut Lent) -> Reply {
    placing(call, lent, Places::all(|_, start, blocks| blocks < 4 || start % 8 == 0))
}

/// Of what the base makes of them, not of block numbers.
fn aligns_addresses(call: &Call, lent: &mut Lent) -> Reply {
    placing(call, lent, Places::all(|heap, start, blocks| aligned(heap.base / 16 + start, blocks)))
}

fn moves_anywhere(call: &Call, lent: &mut Lent) -> Reply {
    placing(call, lent, Places { moved: anywhere, ..RIGHT })
}

fn grows_anywhere(call: &Call, lent: &mut Lent) -> Reply {
    placing(call, lent, Places { grown: anywhere, ..RIGHT })
}

/// An object that is large already may grow where it is.
fn grows_unaligned_large_objects(call: &Call, lent: &mut Lent) -> Reply {
    let grown: MayBegin = |heap, start, blocks| {
        let object = &heap.objects[heap.owner(start).expect("an object")];
        aligned(start, blocks) || object.blocks >= 4
    };
    placing(call, lent, Places { grown, ..RIGHT })
}

fn grows_no_object_to_a_large_one(call: &Call, lent: &mut Lent) -> Reply {
    placing(call, lent, Places { grown: |_, _, blocks| blocks < 4, ..RIGHT })
}

fn grows_small_objects_at_borders_alone(call: &Call, lent: &mut Lent) -> Reply {
    placing(call, lent, Places { grown: |_, start, _| start % 4 == 0, ..RIGHT })
}

fn moves_unaligned_objects_that_shrink(call: &Call, lent: &mut Lent) -> Reply {
    placing(call, lent, Places { shrunk: right_start, ..RIGHT })
}

fn moves_unaligned_objects_of_the_same_size(call: &Call, lent: &mut Lent) -> Reply {
    placing(call, lent, Places { kept: right_start, ..RIGHT })
}

/// Whether the block is the first of a run of free ones, or would be if it were free.
fn first_of_run(heap: &ListHeap, block: u64) -> bool {
    block == 0 || heap.owner(block - 1).is_some()
}

fn rounds_up_from_aligned_starts(call: &Call, lent: &mut Lent) -> Reply {
    let new: MayBegin =
        |heap, start, blocks| aligned(start, blocks) && (blocks < 4 || !first_of_run(heap, start));
    placing(call, lent, Places { new, moved: new, ..RIGHT })
}

fn tries_the_first_block_of_a_run_alone(call: &Call, lent: &mut Lent) -> Reply {
    let new: MayBegin = |heap, start, blocks| aligned(start, blocks) && first_of_run(heap, start);
    placing(call, lent, Places { new, moved: new, ..RIGHT })
}

/// If it begins at no multiple of four there, it looks no further.
fn stops_at_the_first_run_that_is_long_enough(call: &Call, lent: &mut Lent) -> Reply {
    let new: MayBegin = |heap, start, blocks| {
        let lowest = search(heap, blocks, anywhere);
        aligned(start, blocks) && lowest.is_some_and(|lowest| free_run(heap, lowest..start))
    };
    placing(call, lent, Places { new, moved: new, ..RIGHT })
}

fn refuses_unaligned_objects(call: &Call, lent: &mut Lent) -> Reply {
    let before = lent.clone();
    let reply = second(call, lent);
    if reply.refusal == 1 || *call == Call::Init || unaligned_head(&before).is_none() {
        return reply;
    }
    *lent = before;
    Reply::refused(call, Refusal::Table.number())
}

/// The longest run of `true`.
fn longest_run(free: &[bool]) -> i64 {
    free.split(|free| !free).map(<[bool]>::len).max().unwrap_or(0) as i64
}

/// A right survey but for the longest run, which is made of which blocks are free.
fn survey_by(call: &Call, lent: &mut Lent, longest: impl Fn(&Lent, &[bool]) -> i64) -> Reply {
    let mut reply = second(call, lent);
    if let (0, Call::Survey) = (reply.refusal, call) {
        let free: Vec<bool> = (0..lent.blocks()).map(|block| lent.entry(block) == FREE).collect();
        reply.parts.insert("longest", longest(lent, &free));
    }
    reply
}

fn cuts_runs_at_every_64_blocks(call: &Call, lent: &mut Lent) -> Reply {
    survey_by(call, lent, |_, free| free.chunks(64).map(longest_run).max().unwrap_or(0))
}

/// Those after the last whole 64.
fn surveys_no_last_blocks(call: &Call, lent: &mut Lent) -> Reply {
    survey_by(call, lent, |_, free| longest_run(&free[..free.len() / 64 * 64]))
}

fn surveys_aligned_runs_alone(call: &Call, lent: &mut Lent) -> Reply {
    survey_by(call, lent, |lent, free| {
        let longest = longest_run(free) as u64;
        let found = (0..=longest)
            .rev()
            .find(|blocks| lowest_start(lent, *blocks, |start| aligned(start, *blocks)).is_some());
        found.unwrap_or(0) as i64
    })
}

/// Where t is odd it takes the spare bits for four free blocks more.
fn surveys_spare_blocks(call: &Call, lent: &mut Lent) -> Reply {
    survey_by(call, lent, |lent, free| {
        let spare = vec![true; 4 * (lent.t % 2) as usize];
        longest_run(&[free, &spare].concat())
    })
}

/// A heap that has its entries elsewhere in the table: a right one is handed the planes that `read` makes of
/// the table, and if it accepts, `write` puts its planes into the table.
fn on_other_planes(
    call: &Call,
    lent: &mut Lent,
    read: impl Fn(&[u8]) -> Vec<u8>,
    write: impl Fn(&[u8], &mut [u8]),
) -> Reply {
    if !lent.fits() {
        return second(call, lent);
    }
    let mut table = lent[Table].to_vec();
    lent.set_table(&read(&table));
    let reply = second(call, lent);
    if reply.refusal == 0 {
        write(&lent[Table], &mut table);
    }
    lent.set_table(&table);
    reply
}

/// The same where reading and writing put each byte of the planes so.
fn on_mapped_bytes(call: &Call, lent: &mut Lent, byte: impl Fn(u8) -> u8) -> Reply {
    let mapped = |table: &[u8]| table.iter().map(|other| byte(*other)).collect::<Vec<u8>>();
    on_other_planes(call, lent, mapped, |planes, table| table.copy_from_slice(&mapped(planes)))
}

fn swaps_the_planes(call: &Call, lent: &mut Lent) -> Reply {
    let swapped = |table: &[u8]| {
        let (low, high) = table.split_at(table.len() / 2);
        [high, low].concat()
    };
    on_other_planes(call, lent, swapped, |planes, table| table.copy_from_slice(&swapped(planes)))
}

fn has_the_highest_bit_first(call: &Call, lent: &mut Lent) -> Reply {
    on_mapped_bytes(call, lent, u8::reverse_bits)
}

/// Within the four bits of each half of a byte, so that spare bits stay where they are.
fn has_the_first_block_of_four_last(call: &Call, lent: &mut Lent) -> Reply {
    on_mapped_bytes(call, lent, |byte| byte.reverse_bits().rotate_left(4))
}

/// A heap whose high plane begins at another byte than the right one.
fn with_high_plane_at(call: &Call, lent: &mut Lent, begin: usize) -> Reply {
    let plane = lent[Table].len() / 2;
    let read = |table: &[u8]| {
        let high = table[begin..].iter().copied().chain([0]).take(plane);
        table[..plane].iter().copied().chain(high).collect()
    };
    on_other_planes(call, lent, read, |planes, table| {
        let (low, high) = planes.split_at(plane);
        table[..plane].copy_from_slice(low);
        table[begin..].iter_mut().zip(high).for_each(|(byte, high)| *byte = *high);
    })
}

/// Where t is odd: half of t is rounded down.
fn begins_the_high_plane_a_byte_early(call: &Call, lent: &mut Lent) -> Reply {
    match lent.t {
        t if lent.fits() => with_high_plane_at(call, lent, t as usize / 2),
        _ => second(call, lent),
    }
}

/// Where t is even: half of t is always rounded up.
fn begins_the_high_plane_a_byte_late(call: &Call, lent: &mut Lent) -> Reply {
    match lent.t {
        t if lent.fits() => with_high_plane_at(call, lent, t as usize / 2 + 1),
        _ => second(call, lent),
    }
}

/// As before there were planes: the two bits of a block together, in the first t bytes.
fn has_packed_pairs(call: &Call, lent: &mut Lent) -> Reply {
    let t = lent.t;
    let read = |table: &[u8]| Lent::of_numbers(0, &table[..t as usize])[Table].to_vec();
    on_other_planes(call, lent, read, |planes, table| {
        let numbers = Lent::new(0, t, &[], planes).numbers();
        table[..t as usize].copy_from_slice(&numbers);
    })
}

/// A byte of the low plane, the same byte of the high plane, and so on.
fn has_planes_in_turns(call: &Call, lent: &mut Lent) -> Reply {
    let of = |table: &[u8], first: usize| -> Vec<u8> {
        table.iter().copied().skip(first).step_by(2).collect()
    };
    let read = |table: &[u8]| [of(table, 0), of(table, 1)].concat();
    on_other_planes(call, lent, read, |planes, table| {
        let (low, high) = planes.split_at(planes.len() / 2);
        for (pair, (low, high)) in table.chunks_exact_mut(2).zip(low.iter().zip(high)) {
            pair.copy_from_slice(&[*low, *high]);
        }
    })
}

/// It writes the low plane and forgets the high one.
fn has_one_plane_alone(call: &Call, lent: &mut Lent) -> Reply {
    on_other_planes(call, lent, <[u8]>::to_vec, |planes, table| {
        let plane = planes.len() / 2;
        table[..plane].copy_from_slice(&planes[..plane]);
    })
}

/// A right heap that is handed another t.
fn with_t(call: &Call, lent: &mut Lent, t: u64) -> Reply {
    let given = std::mem::replace(&mut lent.t, t);
    let reply = second(call, lent);
    lent.t = given;
    reply
}

fn takes_t_from_the_table(call: &Call, lent: &mut Lent) -> Reply {
    with_t(call, lent, lent[Table].len() as u64)
}

fn takes_t_from_the_pool(call: &Call, lent: &mut Lent) -> Reply {
    with_t(call, lent, lent[Pool].len() as u64 / 64)
}

fn cuts_t_to_32_bits(call: &Call, lent: &mut Lent) -> Reply {
    with_t(call, lent, u64::from(lent.t as u32))
}

/// An init that accepts this t too, if the lengths are those that go with it.
fn init_taking(call: &Call, lent: &mut Lent, t: u64) -> Reply {
    let lengths = [64 * t as usize, table_bytes(t)];
    let given = [lent[Pool].len(), lent[Table].len()];
    if *call == Call::Init && lent.t == t && given == lengths {
        lent[Table].fill(0);
        return Reply::accepted(call, &[]);
    }
    second(call, lent)
}

fn takes_a_t_of_0(call: &Call, lent: &mut Lent) -> Reply {
    init_taking(call, lent, 0)
}

fn takes_a_t_of_1025(call: &Call, lent: &mut Lent) -> Reply {
    init_taking(call, lent, 1025)
}

/// A right heap that is handed a table of the right length, cut or with zeros behind it.
fn with_resized_table(call: &Call, lent: &mut Lent, length: usize) -> Reply {
    let mut table = lent[Table].to_vec();
    let mut resized = table.clone();
    resized.resize(length, 0);
    lent.set_table(&resized);
    let reply = second(call, lent);
    table.iter_mut().zip(&lent[Table][..]).for_each(|(byte, new)| *byte = *new);
    lent.set_table(&table);
    reply
}

/// As long as the packed table was, where t is odd.
fn takes_a_table_of_t_bytes(call: &Call, lent: &mut Lent) -> Reply {
    match lent[Table].len() {
        length if length as u64 == lent.t => with_resized_table(call, lent, table_bytes(lent.t)),
        _ => second(call, lent),
    }
}

fn takes_a_longer_table(call: &Call, lent: &mut Lent) -> Reply {
    match lent[Table].len() {
        length if length as u64 > lent.t => with_resized_table(call, lent, table_bytes(lent.t)),
        _ => second(call, lent),
    }
}

/// And so refuses some calls by 2 that are to be refused by 1.
fn tests_spare_bits_before_the_base(call: &Call, lent: &mut Lent) -> Reply {
    let spare = lent.spare_bits().any(|spare| lent.spare(spare) == 1);
    if spare && *call != Call::Init {
        return Reply::refused(call, Refusal::Table.number());
    }
    second(call, lent)
}

/// Whether the heap has this spare bit, and it is set.
fn is_set(lent: &Lent, spare: SpareBit) -> bool {
    lent.spare_bits().any(|other| other == spare && lent.spare(spare) == 1)
}

/// A right heap to which this spare bit is 0. Answers also what the bit was.
fn without_spare_bit(spare: SpareBit, call: &Call, lent: &mut Lent) -> (Reply, bool) {
    let set = is_set(lent, spare);
    if set {
        lent.set_spare(spare, 0);
    }
    (second(call, lent), set)
}

fn ignores_a_spare_bit(spare: SpareBit, call: &Call, lent: &mut Lent) -> Reply {
    let (reply, set) = without_spare_bit(spare, call, lent);
    if set && *call != Call::Init {
        lent.set_spare(spare, 1);
    }
    reply
}

/// In this call alone.
fn ignoring_spare_bit_in(one: Call, spare: SpareBit, call: &Call, lent: &mut Lent) -> Reply {
    if *call == one {
        ignores_a_spare_bit(spare, call, lent)
    } else {
        second(call, lent)
    }
}

fn ignores_a_spare_bit_in_a_survey(spare: SpareBit, call: &Call, lent: &mut Lent) -> Reply {
    ignoring_spare_bit_in(Call::Survey, spare, call, lent)
}

fn ignores_a_spare_bit_in_an_image(spare: SpareBit, call: &Call, lent: &mut Lent) -> Reply {
    ignoring_spare_bit_in(Call::WriteImage, spare, call, lent)
}

/// In all of its calls.
fn ignores_a_spare_bit_in_a_log(spare: SpareBit, call: &Call, lent: &mut Lent) -> Reply {
    if call.first().is_some() {
        ignores_a_spare_bit(spare, call, lent)
    } else {
        second(call, lent)
    }
}

fn clears_a_spare_bit(spare: SpareBit, call: &Call, lent: &mut Lent) -> Reply {
    without_spare_bit(spare, call, lent).0
}

fn clears_a_spare_bit_in_a_refusal(spare: SpareBit, call: &Call, lent: &mut Lent) -> Reply {
    let reply = second(call, lent);
    if is_set(lent, spare) {
        lent.set_spare(spare, 0);
    }
    reply
}

/// As a right heap, but for this spare bit where one call should clear it.
fn leaves_a_spare_bit(wrong: &Call, spare: SpareBit, call: &Call, lent: &mut Lent) -> Reply {
    let set = is_set(lent, spare);
    let reply = second(call, lent);
    if reply.refusal == 0 && call == wrong && set {
        lent.set_spare(spare, 1);
    }
    reply
}

fn leaves_a_spare_bit_at_init(spare: SpareBit, call: &Call, lent: &mut Lent) -> Reply {
    leaves_a_spare_bit(&Call::Init, spare, call, lent)
}

fn sets_a_spare_bit_at_init(spare: SpareBit, call: &Call, lent: &mut Lent) -> Reply {
    let reply = second(call, lent);
    if let (0, Call::Init, 1) = (reply.refusal, call, lent.t % 2) {
        lent.set_spare(spare, 1);
    }
    reply
}

/// Where an object that is made or grown ends with the last block.
fn sets_a_spare_bit_behind_an_object(spare: SpareBit, call: &Call, lent: &mut Lent) -> Reply {
    let reply = second(call, lent);
    let grown = reply.refusal == 0 && reply.parts.get("change").is_some_and(|change| *change > 0);
    if grown && lent.t % 2 == 1 && lent.entry(lent.blocks() - 1) != FREE {
        lent.set_spare(spare, 1);
    }
    reply
}

fn refuses_a_spare_bit_at_init(spare: SpareBit, call: &Call, lent: &mut Lent) -> Reply {
    if *call == Call::Init && is_set(lent, spare) {
        return Reply::refused(call, Refusal::Table.number());
    }
    second(call, lent)
}

fn leaves_a_spare_bit_at_an_opening(spare: SpareBit, call: &Call, lent: &mut Lent) -> Reply {
    leaves_a_spare_bit(&Call::OpenImage, spare, call, lent)
}

fn refuses_a_spare_bit_at_an_opening(spare: SpareBit, call: &Call, lent: &mut Lent) -> Reply {
    if is_set(lent, spare) {
        return open_refused(call, lent, 2, &[0, 2, 17], |_| true);
    }
    second(call, lent)
}

fn cuts_numbers_to_32_bits(call: &Call, lent: &mut Lent) -> Reply {
    let cut = |number: u64| u64::from(number as u32);
    let call = match *call {
        Call::Allocate { bytes } => Call::Allocate { bytes: cut(bytes) },
        Call::Free { block } => Call::Free { block: cut(block) },
        Call::Load { block, word } => Call::Load { block, word: cut(word) },
        other => other,
    };
    second(&call, lent)
}

fn tests_the_block_before_the_bytes(call: &Call, lent: &mut Lent) -> Reply {
    let reply = second(call, lent);
    match *call {
        Call::Reallocate { block, .. } if reply.refusal == 5 => {
            let with_bytes = second(&Call::Reallocate { block, bytes: 1 }, &mut lent.clone());
            if matches!(with_bytes.refusal, 6 | 7) {
                with_bytes
            } else {
                reply
            }
        }
        _ => reply,
    }
}

/// A call that is refused for its base alone is made on another one.
fn takes_any_base(call: &Call, lent: &mut Lent) -> Reply {
    let right = second(call, lent);
    if right.refusal != Refusal::Shape.number() {
        return right;
    }
    let base = std::mem::replace(&mut lent.base, 4096);
    let reply = second(call, lent);
    lent.base = base;
    reply
}

fn answers_after_a_refusal(call: &Call, lent: &mut Lent) -> Reply {
    let mut reply = second(call, lent);
    if reply.refusal == 9 {
        reply.parts.insert("block", 4096);
    }
    reply
}

fn writes_after_a_refusal(call: &Call, lent: &mut Lent) -> Reply {
    let reply = second(call, lent);
    if reply.refusal == 4 {
        lent[Stack][0] ^= 1;
    }
    reply
}

fn leaves_the_mark_stack(call: &Call, lent: &mut Lent) -> Reply {
    let stack = lent[Stack].clone();
    let reply = second(call, lent);
    lent[Stack] = stack;
    reply
}

fn clears_freed_bytes(call: &Call, lent: &mut Lent) -> Reply {
    let reply = second(call, lent);
    if let (0, Call::Free { block }) = (reply.refusal, *call) {
        lent[Pool][16 * block as usize..][..16].fill(0);
    }
    reply
}

fn clears_the_pool_at_init(call: &Call, lent: &mut Lent) -> Reply {
    let reply = second(call, lent);
    if let (0, Call::Init) = (reply.refusal, call) {
        lent[Pool].fill(0);
    }
    reply
}

fn writes_past_a_buffer(buffer: Buffer, call: &Call, lent: &mut Lent) -> Reply {
    if let Some(byte) = lent[buffer].byte_after() {
        *byte = 0;
    }
    second(call, lent)
}

fn writes_a_buffer_that_it_may_not(buffer: Buffer, call: &Call, lent: &mut Lent) -> Reply {
    let reply = second(call, lent);
    let written = call.written(buffer, lent[buffer].len(), &reply);
    if let (0, Some(byte)) = (reply.refusal, lent[buffer][written..].last_mut()) {
        *byte ^= 1;
    }
    reply
}

fn reads_before_a_buffer(buffer: &[u8]) -> *const u8 {
    buffer.as_ptr().wrapping_sub(1)
}

fn reads_past_a_buffer(buffer: &[u8]) -> *const u8 {
    buffer.as_ptr_range().end
}

fn follows_words_in_free_blocks(call: &Call, lent: &mut Lent) -> Reply {
    let roots = lent[Roots].clone();
    if *call == Call::Collect && lent.fits() {
        let free = free_blocks(lent).into_iter();
        let words = free.flat_map(|block| &lent[Pool][16 * block as usize..][..16]);
        let heard: Vec<u8> = lent[Roots].iter().chain(words).copied().take(4 * 4096).collect();
        lent[Roots] = Guarded::new(&heard);
    }
    let reply = second(call, lent);
    lent[Roots] = roots;
    reply
}

/// Answers alike in every order, since it does nothing.
fn refuses_every_call(call: &Call, _: &mut Lent) -> Reply {
    Reply::refused(call, Refusal::Table.number())
}

/// A right free whose answer counts further blocks with the object's own.
fn free_counting(call: &Call, lent: &mut Lent, more: impl Fn(&Lent, u64) -> usize) -> Reply {
    let before = lent.clone();
    let mut reply = second(call, lent);
    if let (0, Call::Free { block }) = (reply.refusal, *call) {
        *reply.parts.get_mut("change").expect("a change") -= more(&before, block) as i64;
    }
    reply
}

fn counts_free_blocks_before_the_object(call: &Call, lent: &mut Lent) -> Reply {
    free_counting(call, lent, |before, block| {
        (0..block).rev().take_while(|k| before.entry(*k) == FREE).count()
    })
}

fn counts_free_blocks_behind_the_object(call: &Call, lent: &mut Lent) -> Reply {
    free_counting(call, lent, |before, block| {
        let behind = block + before.object_blocks(block)..before.blocks();
        behind.take_while(|k| before.entry(*k) == FREE).count()
    })
}

/// Leaves the table, whatever it answers.
fn frees_nothing_behind_a_free_block(call: &Call, lent: &mut Lent) -> Reply {
    let before = lent.clone();
    let reply = second(call, lent);
    match (reply.refusal, *call) {
        (0, Call::Free { block: block @ 1.. }) if before.entry(block - 1) == FREE => {
            *lent = before;
        }
        _ => {}
    }
    reply
}

/// A right collection from other roots.
fn collect_from(call: &Call, lent: &mut Lent, roots: impl Fn(&[u32]) -> Vec<u32>) -> Reply {
    collect_by(call, lent, |heap, given, entries| {
        heap.collect(&roots(given), entries).expect("an accepted collection")
    })
}

fn takes_64_roots(call: &Call, lent: &mut Lent) -> Reply {
    collect_from(call, lent, |roots| roots.iter().copied().take(64).collect())
}

/// A root that comes a second time takes the mark away again.
fn unmarks_a_root_that_comes_again(call: &Call, lent: &mut Lent) -> Reply {
    collect_from(call, lent, |roots| {
        let times = |root: &u32| roots.iter().filter(|other| *other == root).count();
        roots.iter().copied().filter(|root| times(root) % 2 == 1).collect()
    })
}

fn keeps_from_the_last_root_alone(call: &Call, lent: &mut Lent) -> Reply {
    collect_from(call, lent, |roots| roots.last().copied().into_iter().collect())
}

/// Frees the first dead object and leaves the others to later calls.
fn frees_one_object_a_call(call: &Call, lent: &mut Lent) -> Reply {
    collect_by(call, lent, |heap, roots, entries| {
        let before = heap.objects.clone();
        let collected = heap.collect(roots, entries).expect("an accepted collection");
        let dead = |object: &&Object| !heap.objects.contains(object);
        let first_dead = before.iter().find(dead).cloned();
        heap.objects =
            before.into_iter().filter(|object| Some(object) != first_dead.as_ref()).collect();
        let change = first_dead.map_or(0, |object| -(object.blocks as i64));
        Collected { kept: heap.objects.len() as u64, change, ..collected }
    })
}

/// A right collection with another answer to one question.
fn collect_answering(
    call: &Call,
    lent: &mut Lent,
    part: &'static str,
    answer: impl Fn(&Lent, &Lent) -> i64,
) -> Reply {
    let before = lent.clone();
    let mut reply = second(call, lent);
    if let (0, Call::Collect) = (reply.refusal, call) {
        reply.parts.insert(part, answer(&before, lent));
    }
    reply
}

fn counts_roots_for_objects(call: &Call, lent: &mut Lent) -> Reply {
    collect_answering(call, lent, "kept", |before, _| before[Roots].len() as i64 / 4)
}

fn answers_the_objects_before(call: &Call, lent: &mut Lent) -> Reply {
    collect_answering(call, lent, "kept", |before, _| heads(before).len() as i64)
}

fn answers_the_free_blocks(call: &Call, lent: &mut Lent) -> Reply {
    collect_answering(call, lent, "change", |_, after| -(free_blocks(after).len() as i64))
}

/// Frees it after a right collection, whose answer stays.
fn loses_the_object_of_the_last_root(call: &Call, lent: &mut Lent) -> Reply {
    let reply = second(call, lent);
    if let (0, Call::Collect) = (reply.refusal, call) {
        let last = listheap::words_of(&lent[Roots]).last().copied().unwrap_or(0);
        let lost = on_list(lent, |heap| {
            let object = heap.block_at(last).and_then(|block| heap.owner(block));
            Ok(object.map(|object| heap.objects.remove(object)))
        });
        lost.expect("an accepted collection");
    }
    reply
}

/// No call looks there, and yet it is a byte that changes.
fn counts_collections_in_a_free_block(call: &Call, lent: &mut Lent) -> Reply {
    let reply = second(call, lent);
    if let (0, Call::Collect) = (reply.refusal, call) {
        if let Some(block) = free_blocks(lent).first() {
            let byte = &mut lent[Pool][16 * *block as usize];
            *byte = byte.wrapping_add(1);
        }
    }
    reply
}

/// An image that is another file than the right one, in an output that is long enough for that file.
fn image_by(call: &Call, lent: &mut Lent, file: impl Fn(&Lent) -> Vec<u8>) -> Reply {
    let right = second(call, &mut lent.clone());
    if *call != Call::WriteImage || !matches!(right.refusal, 0 | 10) {
        return second(call, lent);
    }
    let file = file(lent);
    match lent[Image].get_mut(..file.len()) {
        Some(front) => {
            front.copy_from_slice(&file);
            Reply::accepted(call, &[file.len() as i64])
        }
        None => Reply::refused(call, Refusal::OutputTooShort.number()),
    }
}

/// The same, with the right sections once they are changed so.
fn image_of(call: &Call, lent: &mut Lent, change: impl Fn(&Lent, &mut [Section; 4])) -> Reply {
    image_by(call, lent, |lent| {
        let mut sections = lent.sections();
        change(lent, &mut sections);
        image::file(&sections)
    })
}

fn counts_highest_byte_first(call: &Call, lent: &mut Lent) -> Reply {
    image_of(call, lent, |_, sections| {
        sections.iter_mut().for_each(|section| section.count = section.count.swap_bytes());
    })
}

fn cuts_counts_to_a_byte(call: &Call, lent: &mut Lent) -> Reply {
    image_of(call, lent, |_, sections| {
        sections.iter_mut().for_each(|section| section.count %= 256);
    })
}

/// In the place of items.
fn counts_bytes(call: &Call, lent: &mut Lent) -> Reply {
    image_of(call, lent, |_, sections| {
        sections.iter_mut().for_each(|section| section.count = section.items.len() as u16);
    })
}

fn counts_objects_for_blocks(call: &Call, lent: &mut Lent) -> Reply {
    image_of(call, lent, |lent, [_, _, blocks, _]| blocks.count = lent.heads().len() as u16)
}

fn writes_the_base_highest_byte_first(call: &Call, lent: &mut Lent) -> Reply {
    image_of(call, lent, |_, [base, ..]| base.items.reverse())
}

/// As they are lent, or t bytes of them.
fn writes_the_planes(call: &Call, lent: &mut Lent) -> Reply {
    image_of(call, lent, |lent, [_, table, ..]| {
        table.items.copy_from_slice(&lent[Table][..lent.t as usize]);
    })
}

/// To the length of the table that is lent, where t is odd.
fn pads_the_table(call: &Call, lent: &mut Lent) -> Reply {
    image_of(call, lent, |lent, [_, table, ..]| {
        table.items.resize(lent[Table].len(), 0);
        table.count = table.items.len() as u16;
    })
}

/// Puts the entries of four blocks into the other order.
fn turn(four: &mut u8) {
    *four = [0, 2, 4, 6].iter().fold(0, |above, shift| 4 * above + (*four >> shift & 3));
}

fn has_the_first_block_in_the_highest_bits(call: &Call, lent: &mut Lent) -> Reply {
    image_of(call, lent, |_, [_, table, ..]| table.items.iter_mut().for_each(turn))
}

fn swaps_the_bits_of_an_entry(call: &Call, lent: &mut Lent) -> Reply {
    image_of(call, lent, |_, [_, table, ..]| {
        table.items.iter_mut().for_each(|byte| *byte = (*byte & 0x55) << 1 | *byte >> 1 & 0x55);
    })
}

fn writes_free_blocks(call: &Call, lent: &mut Lent) -> Reply {
    image_of(call, lent, |lent, [_, _, blocks, _]| {
        *blocks = Section { count: lent.blocks() as u16, items: lent[Pool].to_vec() };
    })
}

fn writes_heads_alone(call: &Call, lent: &mut Lent) -> Reply {
    image_of(call, lent, |lent, [_, _, blocks, _]| {
        let heads = lent.used().filter(|block| lent.entry(*block) == HEAD);
        blocks.items = heads.flat_map(|block| lent[Pool][bytes_of(block)].to_vec()).collect();
        blocks.count = (blocks.items.len() / 16) as u16;
    })
}

fn writes_blocks_falling(call: &Call, lent: &mut Lent) -> Reply {
    image_of(call, lent, |_, [_, _, blocks, _]| {
        blocks.items = blocks.items.chunks(16).rev().flatten().copied().collect();
    })
}

fn swaps_blocks_and_roots(call: &Call, lent: &mut Lent) -> Reply {
    image_of(call, lent, |_, sections| sections.swap(2, 3))
}

/// The word of the head's address, if the root leads to an object.
fn head_of_root(heap: &ListHeap, root: u32) -> Option<u32> {
    let object = heap.owner(heap.block_at(root)?)?;
    Some((heap.base + 16 * heap.objects[object].start) as u32)
}

/// An image with other roots.
fn image_with_roots(
    call: &Call,
    lent: &mut Lent,
    roots_of: impl Fn(&ListHeap, &[u32]) -> Vec<u32>,
) -> Reply {
    image_of(call, lent, |lent, [.., roots]| {
        let given = listheap::words_of(&roots.items);
        let words = on_list(&mut lent.clone(), |heap| Ok(roots_of(heap, &given)));
        let words = words.expect("a heap in order");
        roots.count = words.len() as u16;
        roots.items = words.into_iter().flat_map(u32::to_le_bytes).collect();
    })
}

fn leads_roots_to_heads(call: &Call, lent: &mut Lent) -> Reply {
    image_with_roots(call, lent, |heap, roots| {
        roots.iter().map(|root| head_of_root(heap, *root).unwrap_or(*root)).collect()
    })
}

fn drops_roots_that_lead_nowhere(call: &Call, lent: &mut Lent) -> Reply {
    image_with_roots(call, lent, |heap, roots| {
        roots.iter().copied().filter(|root| head_of_root(heap, *root).is_some()).collect()
    })
}

/// Where there are none.
fn ends_before_the_roots(call: &Call, lent: &mut Lent) -> Reply {
    image_by(call, lent, |lent| {
        let sections = lent.sections();
        let [.., roots] = &sections;
        image::file(if roots.count == 0 { &sections[..3] } else { &sections })
    })
}

fn takes_an_output_a_byte_short(call: &Call, lent: &mut Lent) -> Reply {
    let reply = second(call, lent);
    if reply.refusal != 10 || lent[Image].len() + 1 != lent.image_bytes() {
        return reply;
    }
    let image = image::file(&lent.sections());
    lent[Image].copy_from_slice(&image[..image.len() - 1]);
    Reply::accepted(call, &[image.len() as i64])
}

fn clears_the_output_behind_the_image(call: &Call, lent: &mut Lent) -> Reply {
    let reply = second(call, lent);
    if let (Call::WriteImage, 0) = (call, reply.refusal) {
        lent[Image][reply.parts["length"] as usize..].fill(0);
    }
    reply
}

/// And then finds the output too short.
fn writes_what_fits(call: &Call, lent: &mut Lent) -> Reply {
    let reply = second(call, lent);
    if reply.refusal == 10 {
        let image = image::file(&lent.sections());
        let fits = lent[Image].len();
        lent[Image].copy_from_slice(&image[..fits]);
    }
    reply
}

fn answers_the_length_of_a_refused_image(call: &Call, lent: &mut Lent) -> Reply {
    let mut reply = second(call, lent);
    if reply.refusal == 10 {
        reply.parts.insert("length", lent.image_bytes() as i64);
    }
    reply
}

fn answers_the_length_of_the_output(call: &Call, lent: &mut Lent) -> Reply {
    let mut reply = second(call, lent);
    if let (Call::WriteImage, 0) = (call, reply.refusal) {
        reply.parts.insert("length", lent[Image].len() as i64);
    }
    reply
}

/// A right heap that refuses one call so where the test says it, in the place of these right answers.
fn refused_instead(
    call: &Call,
    wrong: &Call,
    lent: &mut Lent,
    number: u32,
    right: &[u32],
    test: impl Fn(&Lent) -> bool,
) -> Reply {
    let refusal = second(call, &mut lent.clone()).refusal;
    if call == wrong && right.contains(&refusal) && test(lent) {
        return Reply::refused(call, number);
    }
    second(call, lent)
}

/// An image is refused as by `refused_instead`.
fn image_refused(
    call: &Call,
    lent: &mut Lent,
    number: u32,
    right: &[u32],
    test: impl Fn(&Lent) -> bool,
) -> Reply {
    refused_instead(call, &Call::WriteImage, lent, number, right, test)
}

fn takes_no_longer_output(call: &Call, lent: &mut Lent) -> Reply {
    image_refused(call, lent, 10, &[0], |lent| lent[Image].len() > lent.image_bytes())
}

fn tests_the_output_first(call: &Call, lent: &mut Lent) -> Reply {
    image_refused(call, lent, 10, &[2, 3], |lent| lent[Image].len() < lent.image_bytes())
}

fn tests_the_roots_before_the_table(call: &Call, lent: &mut Lent) -> Reply {
    image_refused(call, lent, 3, &[2], |lent| lent[Roots].len() > 4 * 4096)
}

fn takes_4095_roots_at_most(call: &Call, lent: &mut Lent) -> Reply {
    image_refused(call, lent, 3, &[0, 10], |lent| lent[Roots].len() == 4 * 4096)
}

/// A right heap that is handed a part of the roots for an image.
fn image_from_roots(call: &Call, lent: &mut Lent, bytes: usize) -> Reply {
    if *call != Call::WriteImage {
        return second(call, lent);
    }
    let roots = lent[Roots].clone();
    lent[Roots] = Guarded::new(&roots[..bytes]);
    let reply = second(call, lent);
    lent[Roots] = roots;
    reply
}

/// And leaves the last ones out.
fn takes_more_than_4096_roots(call: &Call, lent: &mut Lent) -> Reply {
    match lent[Roots].len() {
        length if length % 4 == 0 => image_from_roots(call, lent, length.min(4 * 4096)),
        _ => second(call, lent),
    }
}

fn takes_a_piece_of_a_root(call: &Call, lent: &mut Lent) -> Reply {
    image_from_roots(call, lent, lent[Roots].len() / 4 * 4)
}

/// Of its first byte.
fn keeps_bits_of_the_output(call: &Call, lent: &mut Lent) -> Reply {
    let before = lent[Image].clone();
    let reply = second(call, lent);
    if let (Call::WriteImage, 0) = (call, reply.refusal) {
        lent[Image][0] |= before[0];
    }
    reply
}

/// A right heap that is handed another file to open than the lent one.
fn open_file(call: &Call, lent: &mut Lent, file_of: impl Fn(&[u8]) -> Vec<u8>) -> Reply {
    let file = lent[Image].clone();
    if *call == Call::OpenImage {
        lent[Image] = Guarded::new(&file_of(&file));
    }
    let reply = second(call, lent);
    if *call == Call::OpenImage {
        lent[Image] = file;
    }
    reply
}

/// The same with other sections, where the file has four and nothing else.
fn open_sections(call: &Call, lent: &mut Lent, change: impl Fn(&mut [Section])) -> Reply {
    open_file(call, lent, |file| match image::read(file) {
        Some(mut sections) => {
            change(&mut sections);
            image::file(&sections)
        }
        None => file.to_vec(),
    })
}

/// An opening is refused as by `refused_instead`.
fn open_refused(
    call: &Call,
    lent: &mut Lent,
    number: u32,
    right: &[u32],
    test: impl Fn(&Lent) -> bool,
) -> Reply {
    refused_instead(call, &Call::OpenImage, lent, number, right, test)
}

/// A right opening, after which more is done: with what was lent before, and with the sections of the file.
fn opened_and(
    call: &Call,
    lent: &mut Lent,
    more: impl Fn(&Lent, &[Section], &mut Lent, &mut Reply),
) -> Reply {
    let before = lent.clone();
    let mut reply = second(call, lent);
    if let (Call::OpenImage, 0) = (call, reply.refusal) {
        let sections = image::read(&before[Image]).expect("an image");
        more(&before, &sections, lent, &mut reply);
    }
    reply
}

/// The file up to where its fourth section ends.
fn four_sections(file: &[u8]) -> &[u8] {
    let (sections, rest) = whole_sections(file);
    let end = if sections.len() == 4 { file.len() - rest.len() } else { file.len() };
    &file[..end]
}

fn ignores_trailing_bytes(call: &Call, lent: &mut Lent) -> Reply {
    open_file(call, lent, |file| four_sections(file).to_vec())
}

/// Where its counts lead to four sections, whatever they are.
fn tests_the_end_of_a_file_first(call: &Call, lent: &mut Lent) -> Reply {
    open_refused(call, lent, 16, &[3, 15], |lent| {
        four_sections(&lent[Image]).len() < lent[Image].len()
    })
}

/// Where the items behind a wrong count are not all there.
fn tests_no_count_before_the_file_ends(call: &Call, lent: &mut Lent) -> Reply {
    open_refused(call, lent, 14, &[3, 15], |lent| whole_sections(&lent[Image]).0.len() < 4)
}

fn tests_the_memory_before_the_file(call: &Call, lent: &mut Lent) -> Reply {
    open_refused(call, lent, 1, &[3, 14, 15, 16], |lent| !lent.fits() || lent[Roots].len() % 4 != 0)
}

/// And takes the first for the base.
fn takes_any_number_of_bases(call: &Call, lent: &mut Lent) -> Reply {
    open_file(call, lent, |file| {
        let mut file = file.to_vec();
        file.iter_mut().zip([1, 0]).for_each(|(byte, of_count)| *byte = of_count);
        file
    })
}

/// In the place of a refusal, and has nothing to do then.
fn takes_an_empty_table(call: &Call, lent: &mut Lent) -> Reply {
    let reply = second(call, lent);
    let (sections, _) = whole_sections(&lent[Image]);
    match &sections[..] {
        [base, table, ..] if reply.refusal == 15 && (base.count, table.count) == (1, 0) => {
            Reply::accepted(call, &[4096, 0])
        }
        _ => reply,
    }
}

/// Whatever the second one is.
fn reads_counts_of_a_byte(call: &Call, lent: &mut Lent) -> Reply {
    open_file(call, lent, |file| {
        let (mut file, mut at) = (file.to_vec(), 0);
        for item_bytes in [4, 1, 16, 4] {
            let Some([count, high]) = file.get_mut(at..at + 2) else { break };
            *high = 0;
            at += 2 + usize::from(*count) * item_bytes;
        }
        file
    })
}

fn marks_in(sections: &[Section]) -> usize {
    entries_in(&sections[1].items).filter(|entry| *entry == MARK).count()
}

/// It wants the blocks of heads and tails alone.
fn counts_no_marks(call: &Call, lent: &mut Lent) -> Reply {
    open_sections(call, lent, |sections| {
        let marks = marks_in(sections);
        sections[2].count += marks as u16;
        sections[2].items.extend(vec![0; 16 * marks]);
    })
}

fn takes_marks_for_heads(call: &Call, lent: &mut Lent) -> Reply {
    open_sections(call, lent, |sections| {
        for four in &mut sections[1].items {
            *four &= !((*four & *four >> 1 & 0x55) << 1);
        }
    })
}

/// And opens the first 4,096.
fn takes_files_with_more_roots(call: &Call, lent: &mut Lent) -> Reply {
    open_sections(call, lent, |sections| {
        sections[3].count = sections[3].count.min(4096);
        sections[3].items.truncate(4 * 4096);
    })
}

fn takes_4096_entries_at_most(call: &Call, lent: &mut Lent) -> Reply {
    open_refused(call, lent, 3, &[0, 2], |lent| lent[Roots].len() > 4 * 4096)
}

/// And leaves it as it is.
fn takes_a_piece_of_an_entry(call: &Call, lent: &mut Lent) -> Reply {
    let mut whole = lent.clone();
    let length = lent[Roots].len();
    whole[Roots] = Guarded::new(&lent[Roots][..length / 4 * 4]);
    if *call != Call::OpenImage {
        return second(call, lent);
    }
    let reply = second(call, &mut whole);
    whole[Roots] = Guarded::new(&[&whole[Roots][..], &lent[Roots][length / 4 * 4..]].concat());
    *lent = whole;
    reply
}

fn takes_an_image_at_base_0(call: &Call, lent: &mut Lent) -> Reply {
    open_sections(call, lent, |sections| {
        let base = listheap::words_of(&sections[0].items)[0];
        if base == 0 {
            sections[0].items = 4096u32.to_le_bytes().to_vec();
        }
    })
}

/// In the place of the t that it is handed.
fn takes_t_from_an_image(call: &Call, lent: &mut Lent) -> Reply {
    let (sections, _) = whole_sections(&lent[Image]);
    match (call, sections.get(1)) {
        (Call::OpenImage, Some(table)) => with_t(call, lent, table.count.into()),
        _ => second(call, lent),
    }
}

/// Whether the table that is lent is ill-formed.
fn is_lent_ill_formed(lent: &Lent) -> bool {
    let mut lent = Lent { base: 4096, ..lent.clone() };
    second(&Call::Survey, &mut lent).refusal == 2
}

fn tests_the_lent_table(call: &Call, lent: &mut Lent) -> Reply {
    open_refused(call, lent, 2, &[0, 17], is_lent_ill_formed)
}

/// Whether the table of the file is ill-formed.
fn is_file_ill_formed(lent: &Lent) -> bool {
    let sections = image::read(&lent[Image]).expect("four sections");
    let heap = Lent::of_numbers(4096, &sections[1].items);
    is_lent_ill_formed(&heap)
}

fn tests_a_files_table_before_its_base(call: &Call, lent: &mut Lent) -> Reply {
    open_refused(call, lent, 2, &[1], is_file_ill_formed)
}

fn tests_the_list_before_a_files_table(call: &Call, lent: &mut Lent) -> Reply {
    open_refused(call, lent, 17, &[2], |lent| {
        let sections = image::read(&lent[Image]).expect("four sections");
        lent[Roots].len() < sections[3].items.len()
    })
}

fn leaves_free_blocks(call: &Call, lent: &mut Lent) -> Reply {
    opened_and(call, lent, |before, _, lent, _| {
        for block in free_blocks(lent) {
            lent[Pool][bytes_of(block)].copy_from_slice(&before[Pool][bytes_of(block)]);
        }
    })
}

/// Whatever their numbers are, and zeros behind them.
fn puts_blocks_at_the_front(call: &Call, lent: &mut Lent) -> Reply {
    opened_and(call, lent, |_, sections, lent, _| {
        let (front, behind) = lent[Pool].split_at_mut(sections[2].items.len());
        front.copy_from_slice(&sections[2].items);
        behind.fill(0);
    })
}

fn reads_blocks_falling(call: &Call, lent: &mut Lent) -> Reply {
    open_sections(call, lent, |sections| {
        sections[2].items = sections[2].items.chunks(16).rev().flatten().copied().collect();
    })
}

fn reads_the_base_highest_byte_first(call: &Call, lent: &mut Lent) -> Reply {
    open_sections(call, lent, |sections| sections[0].items.reverse())
}

fn reads_the_first_block_in_the_highest_bits(call: &Call, lent: &mut Lent) -> Reply {
    open_sections(call, lent, |sections| sections[1].items.iter_mut().for_each(turn))
}

fn leaves_a_packed_table(call: &Call, lent: &mut Lent) -> Reply {
    opened_and(call, lent, |_, sections, lent, _| {
        lent[Table][..sections[1].items.len()].copy_from_slice(&sections[1].items);
    })
}

fn clears_later_roots(call: &Call, lent: &mut Lent) -> Reply {
    opened_and(call, lent, |_, sections, lent, _| {
        lent[Roots][sections[3].items.len()..].fill(0);
    })
}

fn leads_opened_roots_to_heads(call: &Call, lent: &mut Lent) -> Reply {
    opened_and(call, lent, |_, sections, lent, _| {
        let given = listheap::words_of(&sections[3].items);
        let roots = on_list(lent, |heap| {
            Ok(given.iter().map(|root| head_of_root(heap, *root).unwrap_or(*root)).collect())
        });
        let roots: Vec<u32> = roots.expect("an opened heap");
        for (entry, root) in lent[Roots].chunks_exact_mut(4).zip(roots) {
            entry.copy_from_slice(&root.to_le_bytes());
        }
    })
}

/// And then finds the list too short.
fn fills_the_pool_for_too_short_a_list(call: &Call, lent: &mut Lent) -> Reply {
    let reply = second(call, lent);
    if reply.refusal == 17 {
        let mut opened = lent.clone();
        opened[Roots] = Guarded::zeroed(4 * 4096);
        second(call, &mut opened);
        lent[Pool] = opened[Pool].clone();
    }
    reply
}

/// And then finds the list too short.
fn writes_the_roots_that_fit(call: &Call, lent: &mut Lent) -> Reply {
    let reply = second(call, lent);
    if reply.refusal == 17 {
        let sections = image::read(&lent[Image]).expect("four sections");
        let fits = lent[Roots].len();
        lent[Roots].copy_from_slice(&sections[3].items[..fits]);
    }
    reply
}

/// And goes on with it.
fn answers_the_lent_base(call: &Call, lent: &mut Lent) -> Reply {
    opened_and(call, lent, |before, _, lent, reply| {
        lent.base = before.base;
        reply.parts.insert("base", before.base as i64);
    })
}

fn answers_the_entries_of_the_list(call: &Call, lent: &mut Lent) -> Reply {
    opened_and(call, lent, |before, _, _, reply| {
        reply.parts.insert("count", before[Roots].len() as i64 / 4);
    })
}

fn answers_the_roots_of_a_refused_image(call: &Call, lent: &mut Lent) -> Reply {
    let mut reply = second(call, lent);
    if reply.refusal == 17 {
        let sections = image::read(&lent[Image]).expect("four sections");
        reply.parts.insert("count", sections[3].count.into());
    }
    reply
}

fn answers_the_base_of_a_refused_image(call: &Call, lent: &mut Lent) -> Reply {
    let mut reply = second(call, lent);
    if let (Call::OpenImage, 2) = (call, reply.refusal) {
        let sections = image::read(&lent[Image]).expect("four sections");
        reply.parts.insert("base", listheap::words_of(&sections[0].items)[0].into());
    }
    reply
}

/// How an append goes about it.
#[derive(Clone, Copy)]
struct Appending {
    /// Whether it collects, by whether there is room.
    collects: fn(bool) -> bool,
    /// The roots of its collection, of the first address and the caller's.
    roots: fn(u32, &[u32]) -> Vec<u32>,
    /// Joins the new entry at a block to the log and answers the first address.
    join: fn(&mut ListHeap, log: &[u64], first: u64, block: u64) -> u64,
}

const RIGHT_APPENDING: Appending = Appending {
    collects: |room| !room,
    roots: |first, roots| [&[first], roots].concat(),
    join: join_last,
};

fn address(heap: &ListHeap, block: u64) -> u64 {
    heap.base + 16 * block
}

/// Writes a word of an entry, if that is still an object.
fn set_word(heap: &mut ListHeap, block: u64, word: u64, value: u64) {
    let _ = heap.store(block, word, value as u32);
}

fn join_last(heap: &mut ListHeap, log: &[u64], first: u64, block: u64) -> u64 {
    let new = address(heap, block);
    match log.last() {
        Some(last) => {
            set_word(heap, *last, 0, new);
            first
        }
        None => new,
    }
}

impl Appending {
    fn append(
        &self,
        heap: &mut ListHeap,
        (first, entry): (u64, Entry),
        roots: &[u32],
        stack_entries: usize,
    ) -> Appended {
        let log = heap.log(first).expect("a log");
        let collected = (self.collects)(heap.clone().allocate(32).is_ok());
        let mut change = 0;
        if collected {
            let roots = (self.roots)(first as u32, roots);
            change = heap.collect(&roots, stack_entries).expect("an accepted collection").change;
        }
        let Ok(placed) = heap.allocate(32) else {
            return Appended { first: None, change, collected };
        };
        set_word(heap, placed.block, 1, entry.time.into());
        set_word(heap, placed.block, 2, entry.tips.into());
        let first = (self.join)(heap, &log, first, placed.block);
        Appended { first: Some(first), change: change + placed.change, collected }
    }
}

/// An append that is accepted or without room, made so.
fn appending(call: &Call, lent: &mut Lent, appending: Appending) -> Reply {
    let right = second(call, &mut lent.clone());
    let Call::LogAppend { first, time, tips } = *call else { return second(call, lent) };
    if !matches!(right.refusal, 0 | 9) {
        return right;
    }
    let (roots, entries) = (listheap::words_of(&lent[Roots]), lent[Stack].len() / 4);
    let appended = on_list(lent, |heap| {
        Ok(appending.append(heap, (first, Entry { time, tips }), &roots, entries))
    });
    let Appended { first, change, collected } = appended.expect("a heap in order");
    if collected {
        lent[Stack].fill(0);
    }
    match first {
        Some(first) => Reply::accepted(call, &[first as i64, change]),
        None => Reply::without_room(call, change),
    }
}

fn forgets_the_log_among_the_roots(call: &Call, lent: &mut Lent) -> Reply {
    appending(call, lent, Appending { roots: |_, roots| roots.to_vec(), ..RIGHT_APPENDING })
}

fn forgets_the_roots_beside_the_log(call: &Call, lent: &mut Lent) -> Reply {
    appending(call, lent, Appending { roots: |first, _| vec![first], ..RIGHT_APPENDING })
}

fn collects_before_every_append(call: &Call, lent: &mut Lent) -> Reply {
    appending(call, lent, Appending { collects: |_| true, ..RIGHT_APPENDING })
}

fn never_collects_for_an_append(call: &Call, lent: &mut Lent) -> Reply {
    appending(call, lent, Appending { collects: |_| false, ..RIGHT_APPENDING })
}

fn joining(
    call: &Call,
    lent: &mut Lent,
    join: fn(&mut ListHeap, log: &[u64], first: u64, block: u64) -> u64,
) -> Reply {
    appending(call, lent, Appending { join, ..RIGHT_APPENDING })
}

fn appends_at_the_front(call: &Call, lent: &mut Lent) -> Reply {
    joining(call, lent, |heap, _, first, block| {
        set_word(heap, block, 0, first);
        address(heap, block)
    })
}

/// In the place of the newest.
fn joins_the_oldest_entry(call: &Call, lent: &mut Lent) -> Reply {
    joining(call, lent, |heap, log, first, block| {
        join_last(heap, &log[..log.len().min(1)], first, block)
    })
}

fn leaves_the_next_word_of_the_last(call: &Call, lent: &mut Lent) -> Reply {
    joining(call, lent, |heap, log, first, block| match log {
        [] => address(heap, block),
        _ => first,
    })
}

fn answers_the_address_of_the_new_entry(call: &Call, lent: &mut Lent) -> Reply {
    joining(call, lent, |heap, log, first, block| {
        join_last(heap, log, first, block);
        address(heap, block)
    })
}

fn swaps_time_and_tips(call: &Call, lent: &mut Lent) -> Reply {
    joining(call, lent, |heap, log, first, block| {
        let [time, tips] = [1, 2].map(|word| heap.load(block, word).expect("a word of an entry"));
        set_word(heap, block, 1, tips.into());
        set_word(heap, block, 2, time.into());
        join_last(heap, log, first, block)
    })
}

/// What the blocks held before, in the last word.
fn leaves_words_in_a_new_entry(call: &Call, lent: &mut Lent) -> Reply {
    let before = lent.clone();
    let reply = second(call, lent);
    if let (Call::LogAppend { .. }, 0) = (call, reply.refusal) {
        let chain = lent.chain(reply.parts["first"] as u64);
        let word = 4 * chain.heads[chain.heads.len() - 1] as usize + 7;
        lent.set_word(word, before.word(word));
    }
    reply
}

/// A right append with another answer to one question, by its refusal number and whether it collects.
fn append_answering(
    call: &Call,
    lent: &mut Lent,
    (number, part): (u32, &'static str),
    answer: impl Fn(u64) -> i64,
) -> Reply {
    let mut reply = second(call, lent);
    if let (Call::LogAppend { first, .. }, true) = (call, call.collects(&reply)) {
        if reply.refusal == number {
            reply.parts.insert(part, answer(*first));
        }
    }
    reply
}

fn forgets_the_collection_in_the_sum(call: &Call, lent: &mut Lent) -> Reply {
    append_answering(call, lent, (0, "change"), |_| 2)
}

fn forgets_the_collection_after_9(call: &Call, lent: &mut Lent) -> Reply {
    append_answering(call, lent, (9, "change"), |_| 0)
}

fn answers_the_first_address_after_9(call: &Call, lent: &mut Lent) -> Reply {
    append_answering(call, lent, (9, "first"), |first| first as i64)
}

/// A right append, after which some of the buffers are what they were if `wrong` says so of the reply.
fn append_leaving(
    call: &Call,
    lent: &mut Lent,
    buffers: &[Buffer],
    wrong: impl Fn(&Reply) -> bool,
) -> Reply {
    let before = lent.clone();
    let reply = second(call, lent);
    if matches!(call, Call::LogAppend { .. }) && wrong(&reply) {
        buffers.iter().for_each(|buffer| lent[*buffer] = before[*buffer].clone());
    }
    reply
}

/// As every other refusal leaves what is lent.
fn takes_the_collection_back_after_9(call: &Call, lent: &mut Lent) -> Reply {
    let reply = append_leaving(call, lent, &[Table, Stack], |reply| reply.refusal == 9);
    match (call, reply.refusal) {
        (Call::LogAppend { .. }, 9) => Reply::refused(call, 9),
        _ => reply,
    }
}

/// And answers the change of the collection.
fn takes_the_table_back_after_9(call: &Call, lent: &mut Lent) -> Reply {
    append_leaving(call, lent, &[Table], |reply| reply.refusal == 9)
}

fn leaves_the_stack_of_an_append(call: &Call, lent: &mut Lent) -> Reply {
    append_leaving(call, lent, &[Stack], |_| true)
}

fn leaves_the_stack_after_9(call: &Call, lent: &mut Lent) -> Reply {
    append_leaving(call, lent, &[Stack], |reply| reply.refusal == 9)
}

fn clears_the_stack_without_a_collection(call: &Call, lent: &mut Lent) -> Reply {
    let reply = second(call, lent);
    if let (Call::LogAppend { .. }, 0) = (call, reply.refusal) {
        lent[Stack].fill(0);
    }
    reply
}

/// The chain that is no log, if that is why the call is refused.
fn broken_chain(call: &Call, lent: &Lent) -> Option<Chain> {
    let refused = second(call, &mut lent.clone()).refusal == Refusal::NoLog.number();
    call.first().filter(|_| refused).map(|first| lent.chain(first))
}

/// A right heap that takes what is behind the entries of a broken chain for its end.
fn ending(call: &Call, lent: &mut Lent, ends: impl Fn(End) -> bool) -> Reply {
    let broken = broken_chain(call, lent).filter(|chain| ends(chain.end));
    let Some(last) = broken.and_then(|chain| chain.heads.last().copied()) else {
        return second(call, lent);
    };
    let word = 4 * last as usize;
    let next = lent.word(word);
    lent.set_word(word, 0);
    let reply = second(call, lent);
    if lent.word(word) == 0 {
        lent.set_word(word, next);
    }
    reply
}

fn takes_a_repetition_for_the_end(call: &Call, lent: &mut Lent) -> Reply {
    ending(call, lent, |end| matches!(end, End::Again(_)))
}

fn takes_any_wrong_next_word_for_the_end(call: &Call, lent: &mut Lent) -> Reply {
    ending(call, lent, |end| !matches!(end, End::Again(_)))
}

/// A right heap that reads entries of so many blocks too, any of them or later ones alone.
fn reading_entries_of(call: &Call, lent: &mut Lent, blocks: u64, later: bool) -> Reply {
    let reply = second(call, lent);
    let Call::LogRead { first, index } = *call else { return reply };
    if reply.refusal != Refusal::NoLog.number() {
        return reply;
    }
    let read = on_list(&mut lent.clone(), |heap| {
        let spared = heap.block_at(first as u32).filter(|_| later);
        let others = heap.objects.iter_mut().filter(|object| Some(object.start) != spared);
        for object in others.filter(|object| object.blocks == blocks) {
            object.blocks = 2;
            object.words.resize(8, 0);
        }
        heap.log_read(first, index)
    });
    match read {
        Ok(Entry { time, tips }) => Reply::accepted(call, &[time.into(), tips.into()]),
        Err(refusal) => Reply::refused(call, refusal.number()),
    }
}

fn takes_entries_of_one_block(call: &Call, lent: &mut Lent) -> Reply {
    reading_entries_of(call, lent, 1, false)
}

fn takes_entries_of_three_blocks(call: &Call, lent: &mut Lent) -> Reply {
    reading_entries_of(call, lent, 3, false)
}

/// The first one must have two.
fn takes_later_entries_of_three_blocks(call: &Call, lent: &mut Lent) -> Reply {
    reading_entries_of(call, lent, 3, true)
}

/// The call with another first address.
fn from_first(call: &Call, of: impl Fn(u64) -> u64) -> Call {
    let mut call = *call;
    if let Call::LogAppend { first, .. } | Call::LogRead { first, .. } | Call::LogDrop { first } =
        &mut call
    {
        *first = of(*first);
    }
    call
}

/// As a root does.
fn leads_a_tail_to_its_entry(call: &Call, lent: &mut Lent) -> Reply {
    let heap = on_list(&mut lent.clone(), |heap| Ok(heap.clone()));
    let Ok(heap) = heap else { return second(call, lent) };
    let to_head = |first: u64| {
        let head = u32::try_from(first).ok().and_then(|word| head_of_root(&heap, word));
        head.map_or(first, u64::from)
    };
    second(&from_first(call, to_head), lent)
}

fn leads_an_address_inside_a_block_to_its_entry(call: &Call, lent: &mut Lent) -> Reply {
    second(&from_first(call, |first| first - first % 16), lent)
}

fn cuts_the_first_address_to_32_bits(call: &Call, lent: &mut Lent) -> Reply {
    second(&from_first(call, |first| u64::from(first as u32)), lent)
}

fn cuts_the_index_to_32_bits(call: &Call, lent: &mut Lent) -> Reply {
    match *call {
        Call::LogRead { first, index } => {
            second(&Call::LogRead { first, index: u64::from(index as u32) }, lent)
        }
        _ => second(call, lent),
    }
}

/// What the free block to which a broken chain leads holds.
fn reads_a_free_entry(call: &Call, lent: &mut Lent) -> Reply {
    match (call, broken_chain(call, lent)) {
        (Call::LogRead { first, .. }, Some(Chain { heads, end: End::Free })) => {
            let next = heads.last().map_or(*first as u32, |last| lent.word(4 * *last as usize));
            let word = (next - lent.base as u32) as usize / 4;
            let parts = [word + 1, word + 2].map(|word| lent.word(word).into());
            Reply::accepted(call, &parts)
        }
        _ => second(call, lent),
    }
}

/// A call on a log is refused so where the test says it, in the place of these right answers.
fn log_refused(
    call: &Call,
    lent: &mut Lent,
    number: u32,
    right: &[u32],
    test: impl Fn(&Lent, &Chain) -> bool,
) -> Reply {
    let refusal = second(call, &mut lent.clone()).refusal;
    match call.first() {
        Some(first) if right.contains(&refusal) && test(lent, &lent.chain(first)) => {
            Reply::refused(call, number)
        }
        _ => second(call, lent),
    }
}

fn tests_the_other_words_of_an_entry(call: &Call, lent: &mut Lent) -> Reply {
    log_refused(call, lent, 18, &[0, 9, 19], |lent, chain| {
        let words =
            chain.heads.iter().flat_map(|head| 4 * *head as usize + 3..4 * *head as usize + 8);
        words.into_iter().any(|word| lent.word(word) != 0)
    })
}

fn refuses_the_empty_log(call: &Call, lent: &mut Lent) -> Reply {
    log_refused(call, lent, 18, &[0, 9], |_, chain| chain.is_log() && chain.heads.is_empty())
}

fn tests_the_log_before_the_roots(call: &Call, lent: &mut Lent) -> Reply {
    log_refused(call, lent, 18, &[3], |_, chain| !chain.is_log())
}

fn tests_the_log_before_the_stack(call: &Call, lent: &mut Lent) -> Reply {
    log_refused(call, lent, 18, &[4], |_, chain| !chain.is_log())
}

fn tests_the_room_before_the_log(call: &Call, lent: &mut Lent) -> Reply {
    match call {
        Call::LogAppend { .. } => {
            log_refused(call, lent, 9, &[18], |lent, _| lowest_start(lent, 2, |_| true).is_none())
        }
        _ => second(call, lent),
    }
}

/// An append that is handed a part of the roots.
fn append_from_roots(call: &Call, lent: &mut Lent, bytes: usize) -> Reply {
    let Call::LogAppend { .. } = call else { return second(call, lent) };
    let roots = lent[Roots].clone();
    lent[Roots] = Guarded::new(&roots[..bytes]);
    let reply = second(call, lent);
    lent[Roots] = roots;
    reply
}

/// And leaves the last one out.
fn takes_4096_roots_beside_the_log(call: &Call, lent: &mut Lent) -> Reply {
    match lent[Roots].len() {
        16384 => append_from_roots(call, lent, 4 * 4095),
        _ => second(call, lent),
    }
}

/// Its first address needs no place.
fn takes_4096_roots_beside_the_empty_log(call: &Call, lent: &mut Lent) -> Reply {
    match call.first() {
        Some(0) => takes_4096_roots_beside_the_log(call, lent),
        _ => second(call, lent),
    }
}

fn takes_4094_roots_beside_the_log(call: &Call, lent: &mut Lent) -> Reply {
    match call {
        Call::LogAppend { .. } => {
            log_refused(call, lent, 3, &[0, 9], |lent, _| lent[Roots].len() == 4 * 4095)
        }
        _ => second(call, lent),
    }
}

fn takes_a_piece_of_a_root_in_an_append(call: &Call, lent: &mut Lent) -> Reply {
    append_from_roots(call, lent, lent[Roots].len() / 4 * 4)
}

/// A right read of another entry, of a log that has so many.
fn read_at(call: &Call, lent: &mut Lent, index_of: impl Fn(u64, u64) -> u64) -> Reply {
    let right = second(call, &mut lent.clone());
    match *call {
        Call::LogRead { first, index } if matches!(right.refusal, 0 | 19) => {
            let length = lent.chain(first).heads.len() as u64;
            second(&Call::LogRead { first, index: index_of(index, length) }, lent)
        }
        _ => second(call, lent),
    }
}

fn reads_from_the_newest(call: &Call, lent: &mut Lent) -> Reply {
    read_at(call, lent, |index, length| (length.wrapping_sub(1)).wrapping_sub(index))
}

fn counts_entries_from_1(call: &Call, lent: &mut Lent) -> Reply {
    read_at(call, lent, |index, _| index.wrapping_sub(1))
}

/// In the place of 19.
fn accepts_what_is_no_entry(call: &Call, lent: &mut Lent, wrong: impl Fn(&Call) -> bool) -> Reply {
    let mut reply = second(call, lent);
    if reply.refusal == Refusal::NoEntry.number() && wrong(call) {
        reply.refusal = 0;
    }
    reply
}

fn reads_zeros_behind_the_newest(call: &Call, lent: &mut Lent) -> Reply {
    accepts_what_is_no_entry(call, lent, |call| matches!(call, Call::LogRead { .. }))
}

fn drops_nothing_from_the_empty_log(call: &Call, lent: &mut Lent) -> Reply {
    accepts_what_is_no_entry(call, lent, |call| matches!(call, Call::LogDrop { .. }))
}

/// A right drop, after which more is done with the entry and the reply.
fn dropped_and(
    call: &Call,
    lent: &mut Lent,
    more: impl Fn(&mut Lent, &Chain, &mut Reply),
) -> Reply {
    let before = lent.clone();
    let mut reply = second(call, lent);
    if let (Call::LogDrop { first }, 0) = (call, reply.refusal) {
        more(lent, &before.chain(*first), &mut reply);
    }
    reply
}

/// The entry before it is the last one then.
fn drops_the_newest(call: &Call, lent: &mut Lent) -> Reply {
    let first = call.first();
    dropped_and(call, lent, |lent, chain, reply| {
        let [oldest, .., newest] = chain.heads[..] else { return };
        lent.set_object(oldest..oldest + 2);
        lent.set_entries(newest..newest + 2, FREE);
        lent.set_word(4 * chain.heads[chain.heads.len() - 2] as usize, 0);
        reply.parts.insert("first", first.expect("a first address") as i64);
    })
}

/// As if that had cleared the entry.
fn reads_the_next_word_after_the_free(call: &Call, lent: &mut Lent) -> Reply {
    dropped_and(call, lent, |_, _, reply| {
        reply.parts.insert("first", 0);
    })
}

fn clears_a_dropped_entry(call: &Call, lent: &mut Lent) -> Reply {
    dropped_and(call, lent, |lent, chain, _| {
        lent[Pool][16 * chain.heads[0] as usize..][..32].fill(0);
    })
}

/// Its second block becomes an object.
fn frees_the_head_of_an_entry_alone(call: &Call, lent: &mut Lent) -> Reply {
    dropped_and(call, lent, |lent, chain, _| lent.set_entry(chain.heads[0] + 1, HEAD))
}
