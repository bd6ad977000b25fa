//! The checked examples of the rules, on the library, its wrapper and the plain-list heap.
//! Base 4,096 throughout, and eight blocks up to example 16. Decimal numbers spell the entries of a table,
//! four to a number; beside them stand the bytes of its two planes.

use compare::planes::table_bytes;
use compare::Buffer::{Image, Pool, Roots, Stack, Table};
use compare::{library, second, wrapper, Call, Guarded, Lent, Reply, Subject};

const BASE: u64 = 4096;

/// A heap on which calls are made one after the other.
struct Example<'s> {
    subject: Subject<'s>,
    lent: Lent,
}

impl Example<'_> {
    fn from<const T: usize>(&mut self, numbers: [u8; T]) -> &mut Self {
        self.lent = Lent::of_numbers(BASE, &numbers);
        self
    }

    /// The bytes of the table.
    fn planes<const N: usize>(&mut self, bytes: [u8; N]) -> &mut Self {
        assert_eq!(self.lent[Table][..], bytes, "the planes of {:?}", self.lent.numbers());
        self
    }

    /// The heap of examples 9 to 11: word 0 of block 4 leads to block 0.
    fn linked(&mut self, roots: &[u32], stack_entries: usize) -> &mut Self {
        self.from([165, 169]).planes([0x13, 0xEC]).lent.set_word(16, 4096);
        self.lends(roots, stack_entries)
    }

    /// The heap of example 16: word 0 of block 6 leads to block 2, which is the third of its object, and
    /// word 0 of that object is given.
    fn linked_by_tails(&mut self, word: u32, root: u32, stack_entries: usize) -> &mut Self {
        self.from([169, 25]).planes([0x51, 0x2E]).lent.set_word(24, 4128);
        self.lent.set_word(0, word);
        self.lends(&[root], stack_entries)
    }

    fn lends(&mut self, roots: &[u32], stack_entries: usize) -> &mut Self {
        self.lent.set_roots(roots);
        self.lent[Stack] = Guarded::new(&vec![0xEE; 4 * stack_entries]);
        self
    }

    fn based(&mut self, base: u64) -> &mut Self {
        self.lent.base = base;
        self
    }

    fn gives<const N: usize, const T: usize>(
        &mut self,
        call: Call,
        parts: [i64; N],
        numbers: [u8; T],
    ) -> &mut Self {
        let expected = Reply::accepted(&call, &parts);
        assert_eq!((self.subject)(&call, &mut self.lent), expected, "{call:?}");
        assert_eq!(self.lent.numbers(), numbers, "the entries after {call:?}");
        self
    }

    /// The image with these roots has these bytes, in an output that is longer, and nothing else changes.
    fn has_image(&mut self, roots: &[u32], bytes: &[u8]) {
        self.lent.set_roots(roots);
        self.lent.set_output(bytes.len() + 5);
        let before = self.lent.clone();
        let expected = Reply::accepted(&Call::WriteImage, &[bytes.len() as i64]);
        assert_eq!((self.subject)(&Call::WriteImage, &mut self.lent), expected);
        let (image, behind) = self.lent[Image].split_at(bytes.len());
        assert_eq!(image, bytes);
        assert_eq!(behind, &before[Image][bytes.len()..], "the bytes behind the image");
        for buffer in [Pool, Table, Roots] {
            assert_eq!(self.lent[buffer][..], before[buffer][..], "the {buffer}");
        }
    }

    fn refuses(&mut self, call: Call, number: u32) -> &mut Self {
        let before = self.lent[Table].to_vec();
        let expected = Reply::refused(&call, number);
        assert_eq!((self.subject)(&call, &mut self.lent), expected, "{call:?}");
        assert_eq!(self.lent[Table][..], before, "the table after {call:?}");
        self
    }
}

/// Memory of this t for an opening, with a list of so many entries. It is not clean: the table is ill-formed.
fn rubbish(t: u64, entries: usize) -> Lent {
    let (pool, table) = (vec![0x77; 64 * t as usize], vec![0xFD; table_bytes(t)]);
    let mut lent = Lent::new(BASE, t, &pool, &table);
    lent[Roots] = Guarded::new(&vec![0x55; 4 * entries]);
    lent
}

impl Example<'_> {
    /// The file opens in such memory: at this base, with these entries, pool and roots. The list had two entries
    /// more, and they stay.
    fn opens(&mut self, file: &[u8], base: u32, numbers: &[u8], pool: &[u8], roots: &[u32]) {
        self.lent = rubbish(numbers.len() as u64, roots.len() + 2);
        self.lent[Image] = Guarded::new(file);
        let reply = (self.subject)(&Call::OpenImage, &mut self.lent);
        let answer = [base.into(), roots.len() as i64];
        assert_eq!(reply, Reply::accepted(&Call::OpenImage, &answer));
        let entries = Lent::of_numbers(BASE, numbers);
        assert_eq!(self.lent[Table][..], entries[Table][..], "the table");
        assert_eq!(self.lent[Pool][..], *pool, "the pool");
        let roots = roots.iter().flat_map(|root| root.to_le_bytes());
        let list: Vec<u8> = roots.chain([0x55; 8]).collect();
        assert_eq!(self.lent[Roots][..], list, "the list");
    }

    /// The file is refused in such memory, and every lent byte stays.
    fn refuses_file(&mut self, lent: &Lent, file: &[u8], number: u32) {
        self.lent = lent.clone();
        self.lent[Image] = Guarded::new(file);
        let reply = (self.subject)(&Call::OpenImage, &mut self.lent);
        assert_eq!(reply, Reply::refused(&Call::OpenImage, number), "{file:02x?}");
        for buffer in [Pool, Table, Roots] {
            assert_eq!(self.lent[buffer][..], lent[buffer][..], "the {buffer}");
        }
    }
}

/// A file of the base 4,096 and a table of one byte, and what is behind them.
fn file_of(table: u8, behind: &[u8]) -> Vec<u8> {
    [&[0x01, 0x00, 0x00, 0x10, 0x00, 0x00, 0x01, 0x00, table], behind].concat()
}

/// The image of example 23.
fn one_block() -> Vec<u8> {
    file_of(0x01, &[&[0x01, 0x00][..], &[0x00; 16], &[0x01, 0x00, 0x00, 0x10, 0x00, 0x00]].concat())
}

/// A file of one block whose entry is a MARK, and a root.
fn marked() -> Vec<u8> {
    file_of(0x03, &[&[0x01, 0x00][..], &[0x05; 16], &[0x01, 0x00, 0x00, 0x10, 0x00, 0x00]].concat())
}

fn on_every_heap(example: impl Fn(&mut Example)) {
    for subject in [&library as Subject, &wrapper, &second] {
        example(&mut Example { subject, lent: Lent::empty(BASE, 2) });
    }
}

fn allocate(bytes: u64) -> Call {
    Call::Allocate { bytes }
}

fn free(block: u64) -> Call {
    Call::Free { block }
}

fn reallocate(block: u64, bytes: u64) -> Call {
    Call::Reallocate { block, bytes }
}

fn load(block: u64, word: u64) -> Call {
    Call::Load { block, word }
}

#[test]
fn example_01_allocate_one_byte() {
    on_every_heap(|heap| {
        heap.from([0, 0]).planes([0x00, 0x00]);
        heap.gives(allocate(1), [0, 1], [1, 0]).planes([0x01, 0x00]);
    });
}

#[test]
fn example_02_allocate_more() {
    on_every_heap(|heap| {
        heap.from([1, 0]).planes([0x01, 0x00]);
        heap.gives(allocate(33), [1, 3], [165, 0]).planes([0x03, 0x0C]);
    });
}

#[test]
fn example_03_allocate_the_rest() {
    on_every_heap(|heap| {
        heap.from([165, 0]).planes([0x03, 0x0C]);
        heap.gives(allocate(64), [4, 4], [165, 169]).planes([0x13, 0xEC]);
    });
}

#[test]
fn example_04_no_room() {
    on_every_heap(|heap| {
        heap.from([165, 169]).refuses(allocate(1), 9).planes([0x13, 0xEC]);
    });
}

#[test]
fn example_05_free() {
    on_every_heap(|heap| {
        heap.from([165, 169]).gives(free(1), [-3], [1, 169]).planes([0x11, 0xE0]);
        heap.from([165, 169]).refuses(free(5), 7).refuses(free(8), 6).planes([0x13, 0xEC]);
    });
}

#[test]
fn example_06_shrink() {
    on_every_heap(|heap| {
        heap.from([1, 169]).planes([0x11, 0xE0]);
        heap.gives(reallocate(4, 16), [4, -3], [1, 1]).planes([0x11, 0x00]);
    });
}

#[test]
fn example_07_grow_in_place() {
    on_every_heap(|heap| {
        heap.from([1, 1]).planes([0x11, 0x00]);
        heap.gives(reallocate(0, 64), [0, 3], [169, 1]).planes([0x11, 0x0E]);
        heap.from([1, 1]).refuses(reallocate(0, 65), 9).planes([0x11, 0x00]);
    });
}

#[test]
fn example_08_move() {
    on_every_heap(|heap| {
        heap.from([5, 0]).planes([0x03, 0x00]);
        heap.gives(reallocate(0, 17), [2, 1], [148, 0]).planes([0x06, 0x08]);
    });
}

#[test]
fn example_09_collect() {
    on_every_heap(|heap| {
        heap.linked(&[4160], 64).gives(Call::Collect, [2, 0, -3], [1, 169]).planes([0x11, 0xE0]);
        assert!(heap.lent[Stack].iter().all(|byte| *byte == 0), "the mark stack is zero");
        heap.linked(&[4160], 0).gives(Call::Collect, [2, 1, -3], [1, 169]).planes([0x11, 0xE0]);
    });
}

#[test]
fn example_10_collect_without_roots() {
    on_every_heap(|heap| {
        heap.linked(&[], 64).gives(Call::Collect, [0, 0, -8], [0, 0]).planes([0x00, 0x00]);
    });
}

#[test]
fn example_11_roots_at_a_tail_and_inside_a_block() {
    on_every_heap(|heap| {
        heap.linked(&[4128], 64).gives(Call::Collect, [1, 0, -5], [164, 0]).planes([0x02, 0x0C]);
        heap.linked(&[4097], 64).gives(Call::Collect, [0, 0, -8], [0, 0]).planes([0x00, 0x00]);
    });
}

#[test]
fn example_12_ill_formed_tables() {
    on_every_heap(|heap| {
        for (first, planes) in [(2, [0x00, 0x01]), (3, [0x01, 0x01]), (8, [0x00, 0x02])] {
            heap.from([first, 0]).planes(planes);
            heap.refuses(allocate(1), 2).refuses(allocate(0), 2).planes(planes);
        }
    });
}

#[test]
fn example_13_bases() {
    on_every_heap(|heap| {
        heap.from([0, 0]).based(4_294_967_168).gives(allocate(1), [0, 1], [1, 0]);
        heap.based(4_294_967_184).refuses(allocate(1), 1).planes([0x01, 0x00]);
        heap.based(0).refuses(allocate(1), 1).planes([0x01, 0x00]);
    });
}

#[test]
fn example_14_last_word() {
    on_every_heap(|heap| {
        heap.from([165, 169]).lent.set_word(31, 77);
        heap.gives(load(4, 15), [77], [165, 169]).refuses(load(4, 16), 8).planes([0x13, 0xEC]);
    });
}

#[test]
fn example_15_zero_bytes_first() {
    on_every_heap(|heap| {
        heap.from([165, 169]).refuses(reallocate(8, 0), 5).planes([0x13, 0xEC]);
    });
}

#[test]
fn example_16_a_chain_through_tails() {
    on_every_heap(|heap| {
        heap.linked_by_tails(4176, 4192, 64).gives(Call::Collect, [3, 0, 0], [169, 25]);
        heap.planes([0x51, 0x2E]);
        heap.linked_by_tails(4176, 4192, 0).gives(Call::Collect, [3, 2, 0], [169, 25]);
        heap.planes([0x51, 0x2E]);
        heap.linked_by_tails(4184, 4192, 64).gives(Call::Collect, [2, 0, -2], [169, 16]);
        heap.planes([0x41, 0x0E]);
        heap.linked_by_tails(4176, 4208, 64).gives(Call::Collect, [0, 0, -7], [0, 0]);
        heap.planes([0x00, 0x00]);
    });
}

#[test]
fn example_17_large_objects_are_aligned() {
    on_every_heap(|heap| {
        heap.from([1, 0, 0]).planes([0x01, 0x00, 0x00, 0x00]);
        heap.gives(allocate(64), [4, 4], [1, 169, 0]).planes([0x11, 0x00, 0xE0, 0x00]);
        heap.gives(allocate(48), [1, 3], [165, 169, 0]).planes([0x13, 0x00, 0xEC, 0x00]);
        let old: Vec<u8> = (1..=48).collect();
        heap.lent[Pool][16..64].copy_from_slice(&old);
        heap.lent[Pool][128..192].fill(0xEE);
        heap.gives(reallocate(1, 64), [8, 1], [1, 169, 169]).planes([0x11, 0x01, 0xE0, 0x0E]);
        assert_eq!(heap.lent[Pool][128..176], old, "the old bytes");
        assert_eq!(heap.lent[Pool][176..192], [0; 16], "the added bytes");
    });
}

#[test]
fn example_18_an_unaligned_object_of_an_old_table() {
    on_every_heap(|heap| {
        heap.from([165, 2, 0]).planes([0x03, 0x00, 0x1C, 0x00]);
        heap.gives(reallocate(1, 33), [1, -1], [165, 0, 0]).planes([0x03, 0x00, 0x0C, 0x00]);
        heap.from([165, 2, 0]).gives(reallocate(1, 64), [1, 0], [165, 2, 0]);
        heap.refuses(reallocate(1, 65), 9).planes([0x03, 0x00, 0x1C, 0x00]);
        heap.from([165, 2, 0, 0]).gives(reallocate(1, 65), [8, 1], [1, 0, 169, 2]);
        heap.planes([0x01, 0x01, 0x00, 0x1E]);
    });
}

#[test]
fn example_19_a_free_run_that_is_not_aligned() {
    on_every_heap(|heap| {
        heap.from([165, 86]).planes([0xE3, 0x1C]);
        heap.gives(free(1), [-4], [1, 84]).planes([0xE1, 0x00]);
        heap.gives(Call::Survey, [4, 4, 4], [1, 84]).refuses(allocate(64), 9);
        heap.gives(allocate(48), [1, 3], [165, 84]).planes([0xE3, 0x0C]);
    });
}

#[test]
fn example_23_the_image_of_one_block() {
    on_every_heap(|heap| {
        heap.from([1]).planes([0x01, 0x00]).has_image(&[4096], &one_block());
        heap.lent.set_output(32);
        heap.refuses(Call::WriteImage, 10);
    });
}

#[test]
fn example_24_the_image_of_an_empty_heap() {
    on_every_heap(|heap| {
        let image = [
            &[0x01, 0x00, 0x00, 0x10, 0x00, 0x00][..],
            &[0x02, 0x00, 0x00, 0x00],
            &[0x00, 0x00],
            &[0x00, 0x00],
        ];
        heap.from([0, 0]).lent[Pool].fill(0x77);
        heap.has_image(&[], &image.concat());
    });
}

#[test]
fn example_25_the_image_of_two_blocks_between_free_ones() {
    on_every_heap(|heap| {
        heap.from([0x24]).planes([0x02, 0x04]);
        let pool: Vec<u8> = (0..64).collect();
        heap.lent[Pool].copy_from_slice(&pool);
        let image = [
            &[0x01, 0x00, 0x00, 0x10, 0x00, 0x00][..],
            &[0x01, 0x00, 0x24],
            &[0x02, 0x00],
            &pool[16..48],
            &[0x02, 0x00, 0x20, 0x10, 0x00, 0x00, 0xFF, 0xFF, 0xFF, 0xFF],
        ];
        heap.has_image(&[4128, u32::MAX], &image.concat());
    });
}

#[test]
fn example_27_open_the_image_of_one_block() {
    on_every_heap(|heap| {
        heap.opens(&one_block(), 4096, &[0x01], &[0; 64], &[4096]);
        heap.planes([0x01, 0x00]);
    });
}

#[test]
fn example_28_open_an_empty_heap_and_two_blocks() {
    on_every_heap(|heap| {
        heap.opens(&file_of(0x00, &[0; 4]), 4096, &[0x00], &[0; 64], &[]);
        let block: Vec<u8> = (1..=32).collect();
        let roots = [0x02, 0x00, 0x20, 0x10, 0x00, 0x00, 0xFF, 0xFF, 0xFF, 0xFF];
        let file = file_of(0x24, &[&[0x02, 0x00], &block[..], &roots].concat());
        let pool = [&[0; 16], &block[..], &[0; 16]].concat();
        heap.opens(&file, 4096, &[0x24], &pool, &[4128, u32::MAX]);
        heap.planes([0x02, 0x04]).gives(Call::Survey, [2, 1, 1], [0x24]);
        let odd = [
            &[0x01, 0x00, 0x10, 0x00, 0x00, 0x20, 0x03, 0x00, 101, 100, 165, 11, 0x00][..],
            &[0x05; 176],
            &[0x00, 0x00],
        ];
        let pool = [&[0x05; 64][..], &[0; 16], &[0x05; 112]].concat();
        heap.opens(&odd.concat(), 0x2000_0010, &[101, 100, 165], &pool, &[]);
        heap.planes([171, 3, 68, 12]);
    });
}

#[test]
fn example_29_every_prefix_and_a_byte_too_many() {
    on_every_heap(|heap| {
        for length in 0..33 {
            heap.refuses_file(&rubbish(1, 3), &one_block()[..length], 14);
        }
        heap.refuses_file(&rubbish(1, 3), &[&one_block()[..], &[0]].concat(), 16);
    });
}

#[test]
fn example_30_wrong_counts_are_told_before_their_items() {
    on_every_heap(|heap| {
        let base = [0x01, 0x00, 0x00, 0x10, 0x00, 0x00];
        for (file, number) in [
            (vec![0x02, 0x00, 0x00, 0x10, 0x00, 0x00], 15),
            (vec![0x02, 0x00, 0x00, 0x10], 15),
            (vec![0x02, 0x00], 15),
            (vec![0x00, 0x00], 15),
            ([&base[..], &[0x00, 0x00]].concat(), 15),
            ([&base[..], &[0x01, 0x04]].concat(), 15),
            ([&base[..], &[0x00, 0x04]].concat(), 14),
            (file_of(0x01, &[0x02, 0x00]), 15),
            (file_of(0x01, &[0x00, 0x00]), 15),
            (file_of(0x01, &[0x01, 0x00]), 14),
            (file_of(0x00, &[0x00, 0x00, 0x01, 0x10]), 3),
            (file_of(0x00, &[0x00, 0x00, 0x00, 0x10]), 14),
        ] {
            heap.refuses_file(&rubbish(1, 3), &file, number);
        }
    });
}

#[test]
fn example_31_a_mark_counts_and_is_then_refused() {
    on_every_heap(|heap| {
        heap.refuses_file(&rubbish(1, 3), &marked(), 2);
        heap.refuses_file(&rubbish(1, 3), &file_of(0x03, &[0; 4]), 15);
        for table in [0x02, 0x08] {
            let file = file_of(table, &[&[0x01, 0x00][..], &[0x05; 16], &[0x00, 0x00]].concat());
            heap.refuses_file(&rubbish(1, 3), &file, 2);
        }
    });
}

#[test]
fn example_32_files_that_do_not_fit_what_is_lent() {
    on_every_heap(|heap| {
        for base in [0u32, 0x1008, 0xFFFF_FFD0] {
            let mut file = file_of(0x00, &[0; 4]);
            file[2..6].copy_from_slice(&base.to_le_bytes());
            heap.refuses_file(&rubbish(1, 3), &file, 1);
        }
        let mut highest = file_of(0x00, &[0; 4]);
        highest[2..6].copy_from_slice(&0xFFFF_FFC0u32.to_le_bytes());
        heap.opens(&highest, 0xFFFF_FFC0, &[0x00], &[0; 64], &[]);
        heap.refuses_file(&rubbish(2, 3), &one_block(), 1);
        let mut piece = rubbish(1, 3);
        piece[Roots] = Guarded::new(&[0x55; 5]);
        heap.refuses_file(&piece, &one_block(), 1);
        heap.refuses_file(&rubbish(1, 0), &one_block(), 17);
    });
}

#[test]
fn example_33_the_order_of_an_openings_refusals() {
    on_every_heap(|heap| {
        let mut piece = rubbish(1, 3);
        piece[Roots] = Guarded::new(&[0x55; 5]);
        let mut short = rubbish(1, 3);
        short[Table] = Guarded::new(&[0x55]);
        for lent in [&piece, &short] {
            heap.refuses_file(lent, &[&one_block()[..], &[0]].concat(), 16);
        }
        heap.refuses_file(&piece, &marked(), 1);
        heap.refuses_file(&rubbish(1, 0), &marked(), 2);
    });
}
