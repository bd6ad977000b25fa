//! The wrapper as a Rust program meets it.

use blockheap::{full_image_bytes, image_t, pool_bytes, table_bytes, MAX_LOG_ROOTS, MAX_ROOTS};
use blockheap::{Address, Block, Heap, MarkEntry, Memory, Placed, Refusal, Survey};
use blockheap::{Entry, Log, NotPlaced, ShapeFault, View};

const BASE: Address = Address::from_word(4096);

fn parts(placed: Placed) -> (u64, i32) {
    (placed.block.number(), placed.change)
}

fn counts(survey: Survey) -> [u32; 3] {
    [survey.used, survey.objects, survey.longest]
}

/// Collects and answers the objects kept, the rescans and the change.
fn collect(
    heap: &mut Heap,
    roots: &[Address],
    stack: &mut [MarkEntry],
) -> Result<(u32, u32, i32), Refusal> {
    heap.collect(roots, stack).map(|answer| (answer.kept, answer.rescans, answer.change))
}

#[test]
fn a_buffer_grows_moves_and_is_collected() -> Result<(), Refusal> {
    let (mut pool, mut table) = ([0xEE; 64 * 2], [0xEE; 2]);
    let mut heap = Heap::init(BASE, &mut pool, &mut table)?;
    let (first, second) = (heap.allocate(16)?, heap.allocate(16)?);
    assert_eq!((parts(first), parts(second)), ((0, 1), (1, 1)));
    let pointer = heap.address_of(second.block)?.word();
    heap.store(first.block, 3, pointer)?;
    let moved = heap.reallocate(first.block, 33)?;
    assert_eq!(parts(moved), (2, 2));
    assert_eq!((heap.load(moved.block, 3)?, heap.load(moved.block, 4)?), (pointer, 0));
    assert_eq!(counts(heap.survey()?), [4, 2, 3]);
    let root = heap.address_of(moved.block)?;
    assert_eq!(collect(&mut heap, &[root], &mut [])?, (2, 1, 0));
    assert_eq!(heap.free(moved.block)?, -3);
    assert_eq!(collect(&mut heap, &[], &mut [MarkEntry::EMPTY; 2])?, (0, 0, -1));
    Ok(())
}

#[test]
fn an_object_is_all_bytes_of_its_blocks() -> Result<(), Refusal> {
    let mut memory = Memory::<1024>::new();
    let mut heap = memory.init(BASE)?;
    let blocks = (1..=68).chain([511, 512, 513]);
    let objects: Vec<(Block, usize)> = blocks
        .map(|blocks| Ok((heap.allocate(16 * blocks as u64 - 3)?.block, 16 * blocks)))
        .collect::<Result<_, Refusal>>()?;
    for (number, (block, bytes)) in objects.iter().enumerate() {
        assert_eq!(heap.object(*block)?, vec![0; *bytes]);
        heap.object_mut(*block)?.fill(number as u8);
    }
    for (number, (block, bytes)) in objects.iter().enumerate() {
        assert_eq!(heap.object(*block)?, vec![number as u8; *bytes]);
    }
    Ok(())
}

#[test]
fn large_objects_of_a_memory_lie_at_multiples_of_64() -> Result<(), Refusal> {
    let mut memory = Memory::<3>::new();
    let mut heap = memory.init(BASE)?;
    heap.allocate(16)?;
    let large = heap.allocate(64)?;
    assert_eq!(parts(large), (4, 4));
    assert_eq!(heap.address_of(large.block)?.word() % 64, 0);
    assert_eq!(heap.object(large.block)?.as_ptr() as usize % 64, 0);
    Ok(())
}

#[test]
fn an_object_may_end_with_the_pool() -> Result<(), Refusal> {
    let mut memory = Memory::<2>::new();
    let mut heap = memory.init(BASE)?;
    let whole = heap.allocate(128)?.block;
    assert_eq!(heap.object(whole)?.len(), 128);
    heap.object_mut(whole)?[127] = 0xAB;
    assert_eq!(heap.load(whole, 31)?, 0xAB00_0000);
    Ok(())
}

#[test]
fn what_is_no_object_has_no_bytes() -> Result<(), Refusal> {
    let mut memory = Memory::<1>::new();
    let mut heap = memory.init(BASE)?;
    heap.allocate(32)?;
    for (number, refusal) in [
        (1, Refusal::NotAHead),
        (2, Refusal::NotAHead),
        (4, Refusal::NoSuchBlock),
        (u64::MAX, Refusal::NoSuchBlock),
    ] {
        assert_eq!(heap.object(Block::from_number(number)), Err(refusal));
        assert_eq!(heap.object_mut(Block::from_number(number)), Err(refusal));
    }
    Ok(())
}

#[test]
fn blocks_and_addresses_lead_to_each_other() -> Result<(), Refusal> {
    let mut memory = Memory::<1>::new();
    let highest = Address::from_word(0xFFFF_FFC0);
    let heap = memory.init(highest)?;
    assert_eq!(heap.base(), highest);
    for number in 0..4 {
        let block = Block::from_number(number);
        let address = heap.address_of(block)?;
        assert_eq!(u64::from(address.word()), 0xFFFF_FFC0 + 16 * number);
        assert_eq!(heap.block_at(address), Some(block));
        assert_eq!(heap.block_at(Address::from_word(address.word() + 1)), None);
    }
    for number in [4, 1 << 28, u64::MAX] {
        assert_eq!(heap.address_of(Block::from_number(number)), Err(Refusal::NoSuchBlock));
    }
    assert_eq!(heap.block_at(Address::from_word(0xFFFF_FFB0)), None);
    let heap = memory.resume(BASE);
    assert_eq!(heap.block_at(Address::from_word(4096 + 64)), None);
    let too_high = memory.resume(Address::from_word(0xFFFF_FFF0));
    assert_eq!(
        too_high.address_of(Block::from_number(1)),
        Err(Refusal::BadShape(ShapeFault::PoolEnd))
    );
    Ok(())
}

#[test]
fn blocks_and_addresses_are_made_of_numbers_and_written() {
    assert_eq!((Address::from(4096), Block::from(7)), (BASE, Block::from_number(7)));
    let addresses = [0, 4096, u32::MAX].map(|word| Address::from(word).to_string());
    assert_eq!(addresses, ["0x00000000", "0x00001000", "0xffffffff"]);
    assert_eq!(
        format!("{BASE:>12}|{BASE:12}|{BASE:4}|{BASE:#x}"),
        "  0x00001000|0x00001000  |0x00001000|0x1000"
    );
    assert_eq!(format!("{}, {:>4}", Block::from(7), Block::from(4095)), "7, 4095");
    assert_eq!((u32::from(BASE), u64::from(Block::from(7))), (4096, 7));
}

#[test]
fn addresses_are_in_the_order_of_their_words() {
    let mut addresses = [0x0100_0000, 0x00FF_FFFF, u32::MAX, 0].map(Address::from);
    addresses.sort();
    assert_eq!(addresses.map(Address::word), [0, 0x00FF_FFFF, 0x0100_0000, u32::MAX]);
}

#[test]
fn roots_and_mark_stack_may_be_bytes() -> Result<(), Refusal> {
    assert_eq!(
        Address::all_in(&[0, 16, 0, 0, 1, 2, 3, 4])?,
        [BASE, Address::from_word(0x0403_0201)]
    );
    assert_eq!(Address::all_in(&[])?, []);
    let mut bytes = [0, 16, 0, 0, 7, 7, 7, 7];
    Address::all_in_mut(&mut bytes)?[1] = Address::from_word(0x2000_0000);
    assert_eq!(bytes, [0, 16, 0, 0, 0, 0, 0, 32]);
    assert_eq!(MarkEntry::all_in(&mut [0; 8])?, [MarkEntry::EMPTY; 2]);
    let [roots, stack] = [ShapeFault::RootsBytes, ShapeFault::StackBytes].map(Refusal::BadShape);
    for bytes in 1..4 {
        assert_eq!(Address::all_in(&[0; 4][..bytes]), Err(roots));
        assert_eq!(Address::all_in_mut(&mut [0; 4][..bytes]), Err(roots));
        assert_eq!(MarkEntry::all_in(&mut [0; 4][..bytes]), Err(stack));
    }
    Ok(())
}

#[test]
fn an_image_is_the_front_of_a_buffer() -> Result<(), Refusal> {
    let mut memory = Memory::<1>::new();
    let mut heap = memory.init(BASE)?;
    heap.allocate(1)?;
    let mut buffer = [0xEE; full_image_bytes(1, 1)];
    let image = heap.write_image(&[BASE], &mut buffer)?.to_vec();
    let block_0 = [0; 16];
    let sections = [&[1, 0, 0, 16, 0, 0][..], &[1, 0, 1], &[1, 0], &block_0, &[1, 0, 0, 16, 0, 0]];
    assert_eq!(image, sections.concat());
    assert!(buffer[image.len()..].iter().all(|byte| *byte == 0xEE));
    assert_eq!(heap.image_bytes(1)?, image.len());
    Ok(())
}

#[test]
fn a_buffer_that_is_too_short_is_refused_after_the_roots() -> Result<(), Refusal> {
    let mut memory = Memory::<3>::new();
    let mut heap = memory.init(BASE)?;
    heap.allocate(100)?;
    let bytes = heap.image_bytes(0)?;
    let mut buffer = vec![0xEE; bytes];
    assert_eq!(heap.write_image(&[], &mut buffer[1..]), Err(Refusal::OutputTooShort));
    assert_eq!(buffer, vec![0xEE; bytes]);
    assert_eq!(heap.write_image(&[], &mut buffer)?.len(), bytes);
    let too_many = [Address::NULL; MAX_ROOTS + 1];
    assert_eq!(heap.write_image(&too_many, &mut []), Err(Refusal::TooManyRoots));
    assert_eq!(heap.write_image(&too_many[1..], &mut []), Err(Refusal::OutputTooShort));
    Ok(())
}

/// The 33 bytes of a heap of four blocks from address 4,096 with an object in block 0, its one root.
const ONE_BLOCK: [u8; 33] = {
    let mut image = [0; 33];
    (image[0], image[3], image[6], image[8], image[9], image[27], image[30]) =
        (1, 16, 1, 1, 1, 1, 16);
    image
};

#[test]
fn an_image_is_opened_in_other_memory() -> Result<(), Refusal> {
    let (mut logger, mut visitor) = (Memory::<16>::new(), Memory::<16>::new());
    let mut heap = logger.init(Address::from_word(0x2000_0000))?;
    heap.allocate(5)?;
    let text = heap.allocate(40)?.block;
    heap.object_mut(text)?[..4].copy_from_slice(b"rain");
    heap.free(Block::from_number(0))?;
    let (mut buffer, mut again) = ([0; full_image_bytes(16, 1)], [0; full_image_bytes(16, 1)]);
    let image = heap.write_image(&[heap.address_of(text)?], &mut buffer)?;

    visitor.init(BASE)?.allocate(1000)?; // what was there before does not matter
    let mut roots = [BASE; 3];
    let opened = visitor.open_image(image, &mut roots)?;
    assert_eq!(opened.heap.base(), Address::from_word(0x2000_0000));
    assert_eq!(opened.heap.block_at(opened.roots[0]), Some(text));
    assert_eq!(opened.heap.object(text)?, heap.object(text)?);
    assert_eq!(opened.heap.write_image(opened.roots, &mut again)?, image);

    let mut heap = opened.heap;
    assert_eq!(parts(heap.allocate(1)?), (0, 1));
    assert_eq!(counts(heap.survey()?), [4, 2, 60]);
    assert_eq!(roots, [Address::from_word(0x2000_0010), BASE, BASE]);
    Ok(())
}

#[test]
fn any_size_is_opened_in_slices() -> Result<(), Refusal> {
    let t = image_t(&ONE_BLOCK).expect("the t of an image");
    let (mut pool, mut table) = (vec![0xEE; pool_bytes(t)], vec![0xEE; table_bytes(t)]);
    let mut roots = [Address::NULL; MAX_ROOTS + 1];
    let opened = Heap::open_image(&ONE_BLOCK, &mut pool, &mut table, &mut roots)?;
    assert_eq!((opened.heap.base(), opened.roots), (BASE, &[BASE][..]));
    assert_eq!((pool, table), (vec![0; 64], vec![1, 0]));
    Ok(())
}

#[test]
fn the_front_of_an_image_has_its_t() {
    assert_eq!(image_t(&ONE_BLOCK[..8]), Some(1));
    assert_eq!(image_t(&[1, 0, 9, 9, 9, 9, 0, 4]), Some(1024));
    for length in 0..8 {
        assert_eq!(image_t(&ONE_BLOCK[..length]), None, "{length} bytes");
    }
    for [base_count, t] in [[0, 1], [2, 1], [256, 1], [257, 1], [1, 0], [1, 1025], [1, 65535]] {
        let [base_count, t] = [base_count, t].map(u16::to_le_bytes);
        assert_eq!(image_t(&[&base_count[..], &[0; 4], &t].concat()), None);
    }
}

#[test]
fn what_is_no_image_is_refused_and_changes_nothing() {
    let changed = |at: usize, byte: u8| {
        let mut image = ONE_BLOCK.to_vec();
        image[at] = byte;
        image
    };
    for (image, refusal) in [
        (vec![], Refusal::ImageTruncated),
        (ONE_BLOCK[..32].to_vec(), Refusal::ImageTruncated),
        (changed(0, 2), Refusal::BadCount),
        (changed(9, 2), Refusal::BadCount),
        (changed(28, 17), Refusal::TooManyRoots),
        ([&ONE_BLOCK[..], &[0]].concat(), Refusal::TrailingBytes),
        (changed(2, 1), Refusal::BadShape(ShapeFault::BaseUnaligned)),
        (changed(8, 2), Refusal::BadTable),
        (changed(8, 3), Refusal::BadTable),
        (ONE_BLOCK.to_vec(), Refusal::RootsTooShort),
    ] {
        let (mut pool, mut table) = ([0xEE; 64], [0xEE; 2]);
        let opened = Heap::open_image(&image, &mut pool, &mut table, &mut []);
        assert_eq!(opened.err(), Some(refusal), "{image:?}");
        assert_eq!((pool, table), ([0xEE; 64], [0xEE; 2]));
    }
}

#[test]
fn an_image_of_another_size_is_refused() {
    let mut roots = [Address::NULL; 1];
    let larger = Memory::<2>::new().open_image(&ONE_BLOCK, &mut roots).err();
    assert_eq!(larger, Some(Refusal::BadShape(ShapeFault::ImageT)));
    let none = Heap::open_image(&ONE_BLOCK, &mut [], &mut [], &mut roots).err();
    assert_eq!(none, Some(Refusal::BadShape(ShapeFault::ImageT)));
    assert_eq!(roots, [Address::NULL]);
}

const RAIN: Entry = Entry { time: 600, tips: 3 };

/// The entry that an append makes of a number.
fn entry(number: u32) -> Entry {
    Entry { time: 600 * number, tips: number }
}

/// Everything that a log has.
fn entries(heap: &Heap, log: &Log) -> Result<Vec<Entry>, Refusal> {
    let mut entries = Vec::new();
    loop {
        match heap.log_read(log, entries.len() as u64) {
            Ok(entry) => entries.push(entry),
            Err(Refusal::NoEntry) => return Ok(entries),
            Err(refusal) => return Err(refusal),
        }
    }
}

/// The refusal and the change of an append that is refused.
fn not_placed(outcome: Result<i32, NotPlaced>) -> (Refusal, i32) {
    let not_placed = outcome.expect_err("a refused append");
    (not_placed.refusal, not_placed.change)
}

#[test]
fn a_log_grows_at_its_end_and_is_dropped_from_its_front() -> Result<(), Refusal> {
    let mut memory = Memory::<4>::new();
    let mut heap = memory.init(BASE)?;
    let mut log = Log::new();
    assert!(log.is_empty() && log == Log::default());
    assert_eq!(heap.log_drop(&mut log), Err(Refusal::NoEntry));
    for number in 0..5 {
        assert_eq!(heap.log_append(&mut log, entry(number), &[], &mut [])?, 2);
        assert_eq!(log.first(), BASE);
    }
    assert_eq!(entries(&heap, &log)?, (0..5).map(entry).collect::<Vec<_>>());
    assert_eq!(heap.log_drop(&mut log)?, -2);
    assert_eq!(heap.log_append(&mut log, entry(5), &[], &mut [])?, 2);
    assert_eq!(entries(&heap, &log)?, (1..6).map(entry).collect::<Vec<_>>());
    assert_eq!(heap.log_read(&log, u64::MAX), Err(Refusal::NoEntry));
    while !log.is_empty() {
        assert_eq!(heap.log_drop(&mut log)?, -2);
    }
    assert_eq!((log, counts(heap.survey()?)), (Log::new(), [0, 0, 16]));
    Ok(())
}

#[test]
fn an_append_collects_where_there_is_no_room() -> Result<(), Refusal> {
    let mut memory = Memory::<2>::new();
    let mut heap = memory.init(BASE)?;
    let mut log = Log::new();
    heap.log_append(&mut log, entry(0), &[], &mut [])?;
    let held = heap.allocate(16)?.block;
    heap.allocate(48)?;
    heap.allocate(32)?;
    let roots = [heap.address_of(held)?];
    let change = heap.log_append(&mut log, entry(1), &roots, &mut [MarkEntry::EMPTY])?;
    assert_eq!(change, -5 + 2);
    assert_eq!(entries(&heap, &log)?, [entry(0), entry(1)]);
    assert_eq!(heap.object(held)?.len(), 16);
    Ok(())
}

#[test]
fn the_stack_is_cleared_by_an_appends_collection_alone() -> Result<(), Refusal> {
    let mut memory = Memory::<1>::new();
    let mut heap = memory.init(BASE)?;
    let mut log = Log::new();
    let mut bytes = [7; 8];
    heap.log_append(&mut log, RAIN, &[], MarkEntry::all_in(&mut bytes)?)?;
    assert_eq!(bytes, [7; 8]);
    heap.allocate(32)?;
    heap.log_append(&mut log, RAIN, &[], MarkEntry::all_in(&mut bytes)?)?;
    assert_eq!(bytes, [0; 8]);
    Ok(())
}

#[test]
fn a_collection_stands_after_an_append_without_room() -> Result<(), Refusal> {
    let mut memory = Memory::<1>::new();
    let mut heap = memory.init(BASE)?;
    let mut log = Log::new();
    heap.log_append(&mut log, RAIN, &[], &mut [])?;
    let (held, _) = (heap.allocate(16)?.block, heap.allocate(16)?);
    let roots = [heap.address_of(held)?];
    for change in [-1, 0] {
        let refused = heap.log_append(&mut log, RAIN, &roots, &mut []);
        assert_eq!(not_placed(refused), (Refusal::NoRoom, change));
        assert_eq!((log.first(), entries(&heap, &log)?), (BASE, vec![RAIN]));
        assert_eq!(counts(heap.survey()?), [3, 2, 1]);
    }
    let not_placed = heap.log_append(&mut log, RAIN, &roots, &mut []).unwrap_err();
    assert_eq!(not_placed.to_string(), Refusal::NoRoom.to_string());
    assert_eq!(Refusal::from(not_placed), Refusal::NoRoom);
    Ok(())
}

#[test]
fn what_is_no_log_is_refused_and_stays() -> Result<(), Refusal> {
    let mut memory = Memory::<4>::new();
    let mut heap = memory.init(BASE)?;
    let mut log = Log::new();
    for number in 0..2 {
        heap.log_append(&mut log, entry(number), &[], &mut [])?;
    }
    for bytes in [16, 48] {
        heap.allocate(bytes)?;
    }
    let (ring, tail, one, three) = (0x1000, 0x1010, 0x1040, 0x1050);
    for next in [ring, 0x1020, tail, one, three, 0x1080, 0x1001, 0xFF0, 0x1100] {
        heap.store(Block::from_number(2), 0, next)?;
        let mut log = Log::from_first(BASE);
        let refused = heap.log_append(&mut log, RAIN, &[], &mut []);
        assert_eq!(not_placed(refused), (Refusal::NoLog, 0), "{next:#x}");
        assert_eq!(heap.log_read(&log, 0), Err(Refusal::NoLog), "{next:#x}");
        assert_eq!(heap.log_drop(&mut log), Err(Refusal::NoLog), "{next:#x}");
        assert_eq!(log.first(), BASE);
    }
    Ok(())
}

#[test]
fn an_append_takes_one_root_less_than_a_collection() -> Result<(), Refusal> {
    let mut memory = Memory::<1>::new();
    let mut heap = memory.init(BASE)?;
    let mut log = Log::new();
    let roots = [Address::NULL; MAX_LOG_ROOTS + 1];
    let refused = heap.log_append(&mut log, RAIN, &roots, &mut []);
    assert_eq!(not_placed(refused), (Refusal::TooManyRoots, 0));
    let mut stack = [MarkEntry::EMPTY; 65];
    let refused = heap.log_append(&mut log, RAIN, &roots[1..], &mut stack);
    assert_eq!(not_placed(refused), (Refusal::StackTooLong, 0));
    assert_eq!(heap.log_append(&mut log, RAIN, &roots[1..], &mut stack[1..])?, 2);
    Ok(())
}

#[test]
fn a_log_goes_with_an_image() -> Result<(), Refusal> {
    let (mut logger, mut visitor) = (Memory::<4>::new(), Memory::<4>::new());
    let mut heap = logger.init(BASE)?;
    let mut log = Log::new();
    for number in 0..3 {
        heap.log_append(&mut log, entry(number), &[], &mut [])?;
    }
    heap.log_drop(&mut log)?;
    let mut buffer = [0; full_image_bytes(4, 1)];
    let image = heap.write_image(&[log.first()], &mut buffer)?;
    let mut roots = [Address::NULL];
    let opened = visitor.open_image(image, &mut roots)?;
    let log = Log::from_first(opened.roots[0]);
    assert_eq!(entries(&opened.heap, &log)?, [entry(1), entry(2)]);
    Ok(())
}

#[test]
fn a_view_answers_as_the_heap_does() -> Result<(), Refusal> {
    let (mut pool, mut table) = ([0; 256], [0; 4]);
    let mut heap = Heap::init(BASE, &mut pool, &mut table)?;
    let mut log = Log::new();
    heap.log_append(&mut log, RAIN, &[], &mut [])?;
    let text = heap.allocate(70)?.block;
    heap.object_mut(text)?[..4].copy_from_slice(b"rain");
    let mut images = [[0; full_image_bytes(4, 1)]; 2];
    let [first, second] = &mut images;
    let image = heap.write_image(&[log.first()], first)?;

    let (before, copy) = (heap.view(), log);
    let bytes = { before }.object(text)?; // held longer than this copy of the view
    assert_eq!(bytes, heap.object(text)?);
    for view in [before, heap.view()] {
        assert_eq!(view.base(), BASE);
        assert_eq!((view.survey()?, view.image_bytes(1)?), (heap.survey()?, image.len()));
        assert_eq!(view.load(text, 0)?, u32::from_le_bytes(*b"rain"));
        assert_eq!(view.log_read(&copy, 0)?, RAIN);
        assert_eq!(view.write_image(&[copy.first()], second)?, image);
        for number in 0..20 {
            let block = Block::from_number(number);
            assert_eq!(view.object(block), heap.object(block));
            assert_eq!(view.address_of(block), heap.address_of(block));
        }
        for word in 0xFF0..0x1120 {
            assert_eq!(view.block_at(word.into()), heap.block_at(word.into()));
        }
    }
    let shared = View::new(BASE, &pool, &table);
    assert_eq!(shared.object(text)?[..4], *b"rain");
    assert_eq!(View::new(BASE, &pool[1..], &table).survey().err(), {
        Some(Refusal::BadShape(ShapeFault::PoolBytes))
    });
    Ok(())
}

#[test]
fn each_refusal_says_what_is_wrong() {
    let texts: Vec<String> = Refusal::ALL.iter().map(Refusal::to_string).collect();
    for (index, (refusal, text)) in Refusal::ALL.iter().zip(&texts).enumerate() {
        assert!(text.starts_with(&format!("refused ({}): ", refusal.number())), "{text}");
        assert!(!texts[..index].contains(text), "{text}");
    }
    let mut numbers: Vec<u32> = Refusal::ALL.iter().map(|refusal| refusal.number()).collect();
    numbers.dedup();
    assert_eq!(numbers, (1..=10).chain(14..=19).collect::<Vec<u32>>());
    let no_room = "refused (9): no aligned run of free blocks is long enough";
    assert_eq!(Refusal::NoRoom.to_string(), no_room);
}

#[test]
fn each_fault_of_a_shape_names_the_rule() {
    for (fault, rule) in [
        (ShapeFault::ImageT, "t is not the image's"),
        (ShapeFault::T, "t is not 1 to 1,024: a pool has 64 to 65,536 bytes"),
        (ShapeFault::PoolBytes, "the pool's length is not 64 * t"),
        (ShapeFault::TableBytes, "the table's length is not t, rounded up to an even number"),
        (ShapeFault::BaseTooLow, "the base is below 16"),
        (ShapeFault::BaseUnaligned, "the base is not a multiple of 16"),
        (ShapeFault::PoolEnd, "the base and the pool's length add up to more than 4,294,967,296"),
        (ShapeFault::RootsBytes, "the length of the root list is not a multiple of 4"),
        (ShapeFault::StackBytes, "the length of the mark stack is not a multiple of 4"),
    ] {
        assert_eq!(fault.to_string(), rule);
        assert_eq!(Refusal::BadShape(fault).to_string(), format!("refused (1): {rule}"));
    }
}

#[test]
fn damaged_tables_are_refused() {
    let mut pool = [0; 64];
    for mut table in [[0x01, 0x01], [0x00, 0x01], [0x11, 0x00], [0x01, 0x80]] {
        let damaged = Heap::resume(BASE, &mut pool, &mut table).survey();
        assert_eq!(damaged, Err(Refusal::BadTable), "{table:?}");
    }
}

#[test]
fn a_table_is_two_planes() -> Result<(), Refusal> {
    let (mut pool, mut table) = ([0; pool_bytes(3)], [0xEE; table_bytes(3)]);
    let mut heap = Heap::init(BASE, &mut pool, &mut table)?;
    for bytes in [16, 48, 64, 64] {
        heap.allocate(bytes)?;
    }
    assert_eq!(table, [0x13, 0x01, 0xEC, 0x0E]);
    Ok(())
}

#[test]
fn a_memory_has_room_for_every_t() -> Result<(), Refusal> {
    fn fill<const T: usize>() -> Result<(), Refusal> {
        let mut memory = Memory::<T>::new();
        let placed = memory.init(BASE)?.allocate(64 * T as u64)?;
        assert_eq!(parts(placed), (0, 4 * T as i32));
        assert_eq!(counts(memory.resume(BASE).survey()?), [4 * T as u32, 1, 0]);
        Ok(())
    }
    fill::<1>()?;
    fill::<2>()?;
    fill::<3>()?;
    fill::<1023>()?;
    fill::<1024>()
}
