//! Images: every length of the output, the order of the refusals, every size of heap, counts of two bytes,
//! and used blocks at every place. What is right is read from table and pool block by block.

use compare::expect::{heap, heap_in_use, refuses, roots, same_bytes};
use compare::image::file;
use compare::planes::{FREE, HEAD, MARK, TAIL};
use compare::Buffer::{Image, Pool, Roots};
use compare::{compare, library, second, wrapper, Call, Guarded, Lent, Reply, Subject};

const SUBJECTS: [Subject; 3] = [&library, &wrapper, &second];
const MOST_ROOTS: usize = 4096;
const LONGEST: usize = 82_956;

/// The image is written to an output of its length and to one that is a byte longer, and nothing beside it.
fn has_right_image(subject: Subject, lent: &mut Lent) {
    let image = file(&lent.sections());
    for behind in 0..2 {
        lent.set_output(image.len() + behind);
        let mut expected = lent.clone();
        expected[Image][..image.len()].copy_from_slice(&image);
        let reply = subject(&Call::WriteImage, lent);
        assert_eq!(reply, Reply::accepted(&Call::WriteImage, &[image.len() as i64]), "{lent}");
        same_bytes(lent, &expected);
    }
}

/// Outputs of these lengths, which are shorter than the image, are refused by 10; one of its length is not.
fn needs_each_byte(lent: &mut Lent, lengths: impl IntoIterator<Item = usize>) {
    for length in lengths {
        lent.set_output(length);
        SUBJECTS.iter().for_each(|subject| refuses(subject, &Call::WriteImage, lent, 10));
    }
    SUBJECTS.iter().for_each(|subject| has_right_image(subject, lent));
}

#[test]
fn every_output_that_is_shorter_than_the_image_is_refused() {
    for (t, count) in [1, 2, 3, 8, 21].iter().flat_map(|t| [0, 1, 2, 9].map(|count| (*t, count))) {
        for mut lent in [heap(t), heap_in_use(t)] {
            lent.set_roots(&roots(count));
            let shorter = 0..lent.image_bytes();
            needs_each_byte(&mut lent, shorter);
        }
    }
}

#[test]
fn the_longest_image_needs_each_of_its_bytes() {
    let mut lent = heap(1024);
    lent.set_object(0..4096);
    lent.set_roots(&roots(MOST_ROOTS));
    assert_eq!((lent.image_bytes(), blockheap::MAX_IMAGE_BYTES), (LONGEST, LONGEST));
    needs_each_byte(&mut lent, [0, LONGEST / 2, LONGEST - 4 * MOST_ROOTS, LONGEST - 1]);
}

/// A heap that is wrong for each of these numbers, and for no other.
fn wrong_for(numbers: &[u32]) -> Vec<Lent> {
    let mut right = heap_in_use(3);
    right.set_roots(&roots(2));
    right.set_output(right.image_bytes());
    let mut wrong = vec![right];
    for number in numbers {
        wrong = match number {
            1 => wrong.iter().flat_map(with_wrong_shapes).collect(),
            2 => wrong.iter().flat_map(with_wrong_tables).collect(),
            3 => wrong
                .iter()
                .map(|lent| changed(lent, |lent| lent.set_roots(&roots(4097))))
                .collect(),
            _ => wrong.iter().map(|lent| changed(lent, |lent| lent.set_output(11))).collect(),
        };
    }
    wrong
}

fn changed(lent: &Lent, change: impl FnOnce(&mut Lent)) -> Lent {
    let mut lent = lent.clone();
    change(&mut lent);
    lent
}

/// One with a wrong base, t or length, or a piece of a root.
fn with_wrong_shapes(lent: &Lent) -> Vec<Lent> {
    let piece = [&lent[Roots][..], &[7]].concat();
    vec![
        changed(lent, |lent| lent.base += 1),
        changed(lent, |lent| lent.t += 1),
        changed(lent, |lent| lent[Pool] = Guarded::zeroed(193)),
        changed(lent, |lent| lent[Roots] = Guarded::new(&piece)),
        changed(lent, |lent| lent[Roots] = Guarded::new(&piece[1..piece.len() - 1])),
    ]
}

/// One with a mark, a tail that is of no object, or a spare bit.
fn with_wrong_tables(lent: &Lent) -> Vec<Lent> {
    let spare = lent.spare_bits().next().expect("an odd t");
    vec![
        changed(lent, |lent| lent.set_entry(11, MARK)),
        changed(lent, |lent| lent.set_entry(0, TAIL)),
        changed(lent, |lent| lent.set_spare(spare, 1)),
    ]
}

#[test]
fn the_lowest_number_is_given() {
    for subject in SUBJECTS {
        for set in 1..16 {
            let numbers = [10, 3, 2, 1].into_iter().zip(0..).filter(|(_, bit)| set >> bit & 1 == 1);
            let numbers: Vec<u32> = numbers.map(|(number, _)| number).collect();
            let lowest = *numbers.last().expect("a number");
            wrong_for(&numbers)
                .iter()
                .for_each(|lent| refuses(subject, &Call::WriteImage, lent, lowest));
        }
        wrong_for(&[]).iter_mut().for_each(|lent| has_right_image(subject, lent));
    }
}

#[test]
fn every_size_of_heap_has_an_image() {
    for t in 1..=1024 {
        has_right_image(&library, &mut heap(t));
        has_right_image(&library, &mut heap_in_use(t));
        let mut full = heap(t);
        full.set_object(0..4 * t);
        has_right_image(&library, &mut full);
    }
}

/// Around 255, and around the most.
const COUNTS: [u64; 9] = [0, 1, 254, 255, 256, 257, 511, 4095, 4096];

#[test]
fn counts_have_two_bytes() {
    for (used, count) in COUNTS.iter().flat_map(|used| COUNTS.map(|count| (*used, count))) {
        for t in [255, 256, 257, 1023, 1024].into_iter().filter(|t| used <= 4 * t) {
            let mut lent = heap(t);
            lent.set_entries(4 * t - used..4 * t, HEAD);
            lent.set_roots(&roots(count as usize));
            has_right_image(&library, &mut lent);
        }
    }
}

/// The library reads many entries at a time: one used block, one free block, and an object of two, at every
/// place.
#[test]
fn used_blocks_are_found_at_every_place() {
    for t in [1, 2, 3, 15, 16, 17, 33, 50] {
        for block in 0..4 * t {
            let mut one = heap(t);
            one.set_entry(block, HEAD);
            has_right_image(&library, &mut one);
            let mut all_but_one = heap(t);
            all_but_one.set_entries(0..4 * t, HEAD);
            all_but_one.set_entry(block, FREE);
            has_right_image(&library, &mut all_but_one);
            let mut two = heap(t);
            two.set_object(block..(block + 2).min(4 * t));
            has_right_image(&library, &mut two);
        }
    }
}

#[test]
fn roots_are_copied_whatever_they_hold() {
    let every_byte: Vec<u8> = (0..=255).collect();
    for turned in 0..4 {
        let mut bytes = every_byte.clone();
        bytes.rotate_left(turned);
        let mut lent = heap_in_use(5);
        lent[Roots] = Guarded::new(&bytes);
        SUBJECTS.iter().for_each(|subject| has_right_image(subject, &mut lent));
    }
}

/// What the output held is of no influence, and what stands behind the image is not looked at.
#[test]
fn the_content_of_the_output_does_not_matter() {
    for byte in 0..=255 {
        let mut lent = heap_in_use(2);
        lent[Image] = Guarded::new(&vec![byte; lent.image_bytes() + 3]);
        compare(&library, &Call::WriteImage, &lent).unwrap_or_else(|fault| panic!("{fault}"));
    }
}
