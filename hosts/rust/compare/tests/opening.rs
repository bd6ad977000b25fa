//! The opening of files: every prefix and every changed bit of images, every count, the order of the refusals,
//! every size of heap, what is lent, and a fuzzing run. Files are lent beside pages that cannot be touched,
//! and after each refusal every lent byte is compared. BLOCKHEAP_FILES asks for more files.

use compare::expect::{heap, heap_in_use, refuses, roots, same_bytes};
use compare::files::run_files;
use compare::image::{bytes_of, file, Section};
use compare::planes::{entries_in, table_bytes, SpareBit, FREE, HEAD, MARK};
use compare::Buffer::{Image, Pool, Roots, Table};
use compare::{compare, library, noise, second, wanted, wrapper};
use compare::{Call, Coverage, Guarded, Lent, Random, Reply, Subject};
use std::collections::BTreeMap;

const SUBJECTS: [Subject; 3] = [&library, &wrapper, &second];
const MOST_ROOTS: usize = 4096;
const FILES: u64 = 300_000;

/// A heap in use, with so many roots.
fn heap_with_roots(t: u64, count: usize) -> Lent {
    let mut lent = heap_in_use(t);
    lent.set_roots(&roots(count));
    lent
}

fn image_of(heap: &Lent) -> Vec<u8> {
    file(&heap.sections())
}

/// Memory for a heap of this t, with a list of so many entries: no byte is 0, and the table is ill-formed.
fn memory(t: u64, entries: usize) -> Lent {
    let (pool, table) = (vec![0xC3; 64 * t as usize], vec![0xF5; table_bytes(t)]);
    let mut lent = Lent::new(16, t, &pool, &table);
    lent[Roots] = Guarded::new(&vec![0x96; 4 * entries]);
    lent
}

fn with_file(mut lent: Lent, file: &[u8]) -> Lent {
    lent[Image] = Guarded::new(file);
    lent
}

/// The file that the heap has opens in such memory as that heap, with zeros in its free blocks.
fn opens(subject: Subject, heap: &Lent, mut lent: Lent) {
    lent[Image] = Guarded::new(&image_of(heap));
    let mut expected = lent.clone();
    expected[Table] = heap[Table].clone();
    for block in 0..heap.blocks() {
        let used = heap.entry(block) != FREE;
        let bytes = if used { &heap[Pool][bytes_of(block)] } else { &[0; 16] };
        expected[Pool][bytes_of(block)].copy_from_slice(bytes);
    }
    let roots = heap[Roots].len();
    expected[Roots][..roots].copy_from_slice(&heap[Roots]);
    let reply = subject(&Call::OpenImage, &mut lent);
    let answer = [heap.base as i64, roots as i64 / 4];
    assert_eq!(reply, Reply::accepted(&Call::OpenImage, &answer), "{lent}");
    assert_eq!(lent.base, heap.base, "the base that later calls take");
    same_bytes(&lent, &expected);
}

/// What is lent is refused by the number, and every byte stays.
fn unopened(subject: Subject, lent: &Lent, number: u32) {
    refuses(subject, &Call::OpenImage, lent, number);
}

/// The refusal number. All else is compared with the plain-list heap, each lent byte too.
fn refusal(subject: Subject, lent: &Lent) -> u32 {
    let (reply, _) =
        compare(subject, &Call::OpenImage, lent).unwrap_or_else(|fault| panic!("{fault}"));
    reply.refusal
}

/// Heaps of several sizes, empty and in use, without and with roots.
fn several_heaps() -> Vec<Lent> {
    let sizes = [1, 2, 3, 8, 21];
    let in_use = sizes.iter().flat_map(|t| [0, 1, 9].map(|roots| heap_with_roots(*t, roots)));
    sizes.iter().map(|t| heap(*t)).chain(in_use).collect()
}

#[test]
fn every_prefix_of_an_image_is_truncated() {
    let mut prefixes = 0;
    for heap in several_heaps() {
        let (image, entries) = (image_of(&heap), heap[Roots].len() / 4);
        for length in 0..image.len() {
            let lent = with_file(memory(heap.t, entries), &image[..length]);
            SUBJECTS.iter().for_each(|subject| unopened(subject, &lent, 14));
            prefixes += 1;
        }
        SUBJECTS.iter().for_each(|subject| opens(subject, &heap, memory(heap.t, entries)));
    }
    println!("{prefixes} prefixes are refused by 14");
}

#[test]
fn prefixes_of_the_longest_image_are_truncated() {
    let mut heap = heap(1024);
    heap.set_object(0..4096);
    heap.set_roots(&roots(MOST_ROOTS));
    let image = image_of(&heap);
    assert_eq!(image.len(), blockheap::MAX_IMAGE_BYTES);
    let mut lent = memory(1024, MOST_ROOTS);
    for length in (0..image.len()).step_by(97).chain([8, 1031, 1033, 66_569, 66_571, 82_955]) {
        lent[Image] = Guarded::new(&image[..length]);
        let reply = library(&Call::OpenImage, &mut lent);
        assert_eq!(reply, Reply::refused(&Call::OpenImage, 14), "{length} bytes");
    }
    let clean = memory(1024, MOST_ROOTS);
    for buffer in [Pool, Table, Roots] {
        assert!(lent[buffer][..] == clean[buffer][..], "the {buffer}");
    }
    SUBJECTS.iter().for_each(|subject| opens(subject, &heap, clean.clone()));
}

/// With a list that is long enough, and with one that has an entry too few.
#[test]
fn every_changed_bit_is_read_as_the_second_heap_reads_it() {
    let mut numbers: BTreeMap<u32, u64> = BTreeMap::new();
    for heap in several_heaps() {
        let (image, entries) = (image_of(&heap), heap[Roots].len() / 4);
        let mut lents = [entries, entries.saturating_sub(1)].map(|entries| memory(heap.t, entries));
        for bit in 0..8 * image.len() {
            let mut changed = image.clone();
            changed[bit / 8] ^= 1 << (bit % 8);
            for lent in &mut lents {
                lent[Image] = Guarded::new(&changed);
                *numbers.entry(refusal(&library, lent)).or_default() += 1;
                refusal(&wrapper, lent);
            }
        }
    }
    println!("every changed bit, by the refusal number: {numbers:?}");
    let reached: Vec<u32> = numbers.into_keys().collect();
    assert_eq!(reached, [0, 1, 2, 3, 14, 15, 16, 17]);
}

/// Where the counts of a heap's image are.
fn counts_at(heap: &Lent) -> [usize; 4] {
    let [base, table, blocks, _] = heap.sections().map(|section| 2 + section.items.len());
    [0, base, base + table, base + table + blocks]
}

/// In the whole file, and where the file ends with it: a wrong one is told before its items.
#[test]
fn every_count_is_read_as_the_second_heap_reads_it() {
    let heap = heap_with_roots(3, 2);
    let (image, used) = (image_of(&heap), heap.used().count() as u16);
    let sections = [(1..=1, 15), (1..=1024, 15), (used..=used, 15), (0..=4096, 3)];
    for (at, (may_be, wrong)) in counts_at(&heap).into_iter().zip(sections) {
        let mut whole = with_file(memory(3, 2), &image);
        let mut cut = with_file(memory(3, 2), &image[..at + 2]);
        for count in 0..=u16::MAX {
            for lent in [&mut whole, &mut cut] {
                lent[Image][at..at + 2].copy_from_slice(&count.to_le_bytes());
            }
            let numbers = [&whole, &cut].map(|lent| refusal(&library, lent));
            if !may_be.contains(&count) {
                assert_eq!(numbers, [wrong; 2], "{count} at {at}");
            } else if count > 0 {
                assert_eq!(numbers[1], 14, "{count} at {at}");
            }
        }
    }
}

/// A file of these tables' bytes with as many blocks as entries are used, and a root.
fn file_with_table(table: &[u8]) -> Vec<u8> {
    let used = entries_in(table).filter(|entry| *entry != FREE).count();
    file(&[
        Section { count: 1, items: 4096u32.to_le_bytes().to_vec() },
        Section { count: table.len() as u16, items: table.to_vec() },
        Section { count: used as u16, items: (0..16 * used).map(|byte| byte as u8).collect() },
        Section { count: 1, items: vec![1, 2, 3, 4] },
    ])
}

/// The table of a file is read as that of a heap is: where a survey refuses it by 2, so does an opening.
#[test]
fn every_table_of_two_bytes_is_read() {
    let tables = (0..=255).map(|one| vec![one]);
    let tables = tables.chain((0..=u16::MAX).map(|two| two.to_le_bytes().to_vec()));
    let mut lents = [memory(1, 2), memory(2, 2)];
    let mut accepted = 0;
    for table in tables {
        let lent = &mut lents[table.len() - 1];
        lent[Image] = Guarded::new(&file_with_table(&table));
        let found = refusal(&library, lent);
        let survey = second(&Call::Survey, &mut Lent::of_numbers(4096, &table)).refusal;
        assert_eq!(found, survey, "{table:02x?}");
        accepted += u32::from(found == 0);
    }
    // 34 of one byte and 1,597 of two: every second number of Fibonacci counts the tables of so many blocks.
    assert_eq!(accepted, 34 + 1597);
}

/// What may be wrong, in the order of the tests; the numbers that refuse it.
const FAULTS: [(Fault, u32); 9] = [
    (|lent| lent[Image][0] = 2, 15),
    (|lent| lent[Image][7] = 0x10, 15),
    (|lent| lent[Image][11] ^= 1, 15),
    (|lent| count_of_roots(lent, 0x1001), 3),
    (|lent| extend(lent, &[0]), 16),
    (|lent| lent[Image][2] += 8, 1),
    (|lent| lent[Roots] = Guarded::new(&[0x96; 7]), 1),
    (|lent| lent[Image][8] |= 3, 2),
    (|lent| lent[Roots] = Guarded::new(&lent[Roots][..lent[Roots].len() % 4]), 17),
];

type Fault = fn(&mut Lent);

/// At the end of the file that has two roots.
fn count_of_roots(lent: &mut Lent, count: u16) {
    let at = lent[Image].len() - 10;
    lent[Image][at..at + 2].copy_from_slice(&count.to_le_bytes());
}

fn extend(lent: &mut Lent, bytes: &[u8]) {
    lent[Image] = Guarded::new(&[&lent[Image][..], bytes].concat());
}

/// In each set of faults, the first one counts.
#[test]
fn the_first_fault_counts() {
    let mut heap = heap_with_roots(3, 2);
    heap.set_object(0..1);
    let right = with_file(memory(3, 2), &image_of(&heap));
    for set in 1..1 << FAULTS.len() {
        let mut lent = right.clone();
        let faults = FAULTS.iter().zip(0..).filter(|(_, bit)| set >> bit & 1 == 1);
        let numbers: Vec<u32> = faults
            .map(|((fault, number), _)| {
                fault(&mut lent);
                *number
            })
            .collect();
        SUBJECTS.iter().for_each(|subject| unopened(subject, &lent, numbers[0]));
    }
    SUBJECTS.iter().for_each(|subject| opens(subject, &heap, memory(3, 2)));
}

#[test]
fn every_size_of_heap_opens() {
    for t in 1..=1024 {
        opens(&library, &heap(t), memory(t, 0));
        opens(&library, &heap_with_roots(t, 3), memory(t, 3));
        let mut full = heap(t);
        full.set_object(0..4 * t);
        opens(&library, &full, memory(t, 1));
    }
}

/// Around 255, and around the most.
const COUNTS: [u64; 9] = [0, 1, 254, 255, 256, 257, 511, 4095, 4096];

#[test]
fn counts_have_two_bytes() {
    for (used, count) in COUNTS.iter().flat_map(|used| COUNTS.map(|count| (*used, count as usize)))
    {
        for t in [255, 256, 257, 1023, 1024].into_iter().filter(|t| used <= 4 * t) {
            let mut heap = heap(t);
            heap.set_entries(4 * t - used..4 * t, HEAD);
            heap.set_roots(&roots(count));
            opens(&library, &heap, memory(t, count));
        }
    }
}

/// The library reads many entries at a time: one used block, one free block, and an object of two, at every
/// place.
#[test]
fn used_blocks_are_put_at_every_place() {
    for t in [1, 2, 3, 15, 16, 17, 33, 50] {
        for block in 0..4 * t {
            let mut one = heap(t);
            one.set_entry(block, HEAD);
            opens(&library, &one, memory(t, 0));
            let mut all_but_one = heap(t);
            all_but_one.set_entries(0..4 * t, HEAD);
            all_but_one.set_entry(block, FREE);
            opens(&library, &all_but_one, memory(t, 0));
            let mut two = heap(t);
            two.set_object(block..(block + 2).min(4 * t));
            opens(&library, &two, memory(t, 0));
        }
    }
}

/// A list may be as long as the roots, or longer by any number of entries; a shorter one is refused by 17, and
/// a piece of an entry by 1.
#[test]
fn a_list_of_every_length_is_taken_or_refused() {
    for roots in [0, 1, 2, 9, MOST_ROOTS] {
        let heap = heap_with_roots(2, roots);
        let image = image_of(&heap);
        let around = roots.saturating_sub(3)..=roots + 3;
        for entries in around.chain([0, 4095, 4096, 4097, 5000, 20_000]) {
            for subject in SUBJECTS {
                if entries >= roots {
                    opens(subject, &heap, memory(2, entries));
                } else {
                    unopened(subject, &with_file(memory(2, entries), &image), 17);
                }
                for piece in 1..4 {
                    let mut lent = with_file(memory(2, 0), &image);
                    lent[Roots] = Guarded::new(&vec![0x96; 4 * entries + piece]);
                    unopened(subject, &lent, 1);
                }
            }
        }
    }
}

/// Bases that fit the heap's t, the lowest and the highest among them, and others.
#[test]
fn the_base_rule_is_that_of_the_calls() {
    for t in [1, 2, 3, 1023, 1024] {
        let highest = (1 << 32) - 64 * t;
        for base in [16, 32, 48, 4096, highest - 16, highest] {
            let heap = Lent { base, ..heap(t) };
            SUBJECTS.iter().for_each(|subject| opens(subject, &heap, memory(t, 0)));
        }
        let inside = (1..16).chain(4097..4112).chain([highest + 8]);
        for base in inside.chain([0, highest + 16, (1 << 32) - 16]) {
            let heap = Lent { base, ..heap(t) };
            let lent = with_file(memory(t, 0), &image_of(&heap));
            SUBJECTS.iter().for_each(|subject| unopened(subject, &lent, 1));
        }
    }
}

/// Memory whose t or lengths are not those of the file is refused by 1, if the file is in order.
#[test]
fn memory_of_another_size_is_refused() {
    for right in (1..=9).chain([255, 256, 257, 1022, 1023, 1024]) {
        let image = image_of(&heap_with_roots(right, 1));
        let (pool, table) = (64 * right as usize, table_bytes(right));
        let check = |t: u64, pool: usize, table: usize| {
            let mut lent = Lent::new(16, t, &vec![0xC3; pool], &vec![0xF5; table]);
            lent[Roots] = Guarded::new(&[0x96; 4]);
            lent[Image] = Guarded::new(&image);
            let fits = (t, pool, table) == (right, 64 * right as usize, table_bytes(right));
            for subject in SUBJECTS {
                assert_eq!(refusal(subject, &lent), u32::from(!fits), "{lent}");
            }
            lent[Image] = Guarded::new(&image[..image.len() - 1]);
            SUBJECTS.iter().for_each(|subject| unopened(subject, &lent, 14));
        };
        for t in (right - 1..=right + 2).chain([0, 2 * right, right + (1 << 32), u64::MAX]) {
            check(t, pool, table);
            let fitting = t.min(1025);
            check(t, 64 * fitting as usize, table_bytes(fitting));
        }
        for table in table.saturating_sub(3)..=table + 3 {
            check(right, pool, table);
        }
        for by in [1, 16, 63, 64, 65] {
            check(right, pool + by, table);
            check(right, pool - by.min(pool), table);
        }
    }
}

/// What pool, table and list held is of no influence: every byte, each spare bit, and a heap in use.
#[test]
fn the_content_of_the_memory_does_not_matter() {
    for t in [1, 2, 3] {
        let heap = heap_with_roots(t, 2);
        for byte in 0..=255 {
            let mut lent = memory(t, 4);
            [Pool, Table, Roots].into_iter().for_each(|buffer| lent[buffer].fill(byte));
            SUBJECTS.iter().for_each(|subject| opens(subject, &heap, lent.clone()));
        }
        for spare in SpareBit::all().filter(|_| t % 2 == 1) {
            let mut lent = heap_with_roots(t, 3);
            lent.set_spare(spare, 1);
            SUBJECTS.iter().for_each(|subject| opens(subject, &heap, lent.clone()));
        }
        for seed in 0..100 {
            let mut lent = noise(&mut Random::new(seed), t);
            lent[Roots] = Guarded::zeroed(12);
            SUBJECTS.iter().for_each(|subject| opens(subject, &heap, lent.clone()));
        }
    }
}

/// Large objects that begin anywhere, as other programs may write them.
#[test]
fn unaligned_objects_are_opened() {
    for start in 0..8 {
        let mut heap = heap(4);
        heap.set_object(start..start + 6);
        SUBJECTS.iter().for_each(|subject| opens(subject, &heap, memory(4, 0)));
    }
}

/// A mark is one of the blocks that are counted, and then makes the table ill-formed.
#[test]
fn a_mark_is_counted_with_the_blocks() {
    for block in 0..12 {
        let mut heap = heap_with_roots(3, 1);
        heap.set_entry(block, MARK);
        let marks = with_file(memory(3, 1), &image_of(&heap));
        let mut sections = heap.sections();
        sections[2].count -= 1;
        sections[2].items.truncate(16 * usize::from(sections[2].count));
        let uncounted = with_file(memory(3, 1), &file(&sections));
        for subject in SUBJECTS {
            unopened(subject, &marks, 2);
            unopened(subject, &uncounted, 15);
        }
    }
}

/// What openings reached.
fn reached(coverage: &Coverage) -> String {
    let lines = coverage.table();
    let lines =
        lines.lines().filter(|line| line.starts_with("refusal") || line.starts_with("open"));
    lines.collect::<Vec<&str>>().join("\n")
}

/// Files that were changed, spliced, cut and extended, of small heaps and of some of any size.
fn fuzz(name: &str, subject: Subject, seed: u64, files: u64) {
    let mut coverage = Coverage::default();
    for (most, files) in [(12, files), (1024, files / 100)] {
        run_files(subject, most, seed, files, &mut coverage)
            .unwrap_or_else(|fault| panic!("{name}: {fault}"));
        println!("{name}: {files} files of t up to {most}");
    }
    println!("{}", reached(&coverage));
    let faults = coverage.faults();
    let unreached = faults.iter().filter(|fault| {
        fault.starts_with("open image") || fault.starts_with("never seen: open image")
    });
    assert_eq!(unreached.collect::<Vec<_>>(), [] as [&String; 0]);
}

#[test]
fn fuzzed_files_are_read_by_the_library_as_by_the_second_heap() {
    fuzz("library", &library, 14151617, wanted("BLOCKHEAP_FILES", FILES));
}

#[test]
fn fuzzed_files_are_read_by_the_wrapper_as_by_the_second_heap() {
    fuzz("wrapper", &wrapper, 31617, wanted("BLOCKHEAP_FILES", FILES) / 10);
}
