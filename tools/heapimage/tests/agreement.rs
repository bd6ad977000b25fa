//! The explanation of a fault agrees with the library, whatever the file holds.

mod common;

use common::{images, longest, refused, small, File};
use heapimage::fault::{first_fault, Fault};
use heapimage::Image;

/// The fault of a file, which is refused by the library for the same reason.
fn fault_of(file: &[u8]) -> Option<Fault> {
    let (fault, refusal) = (first_fault(file), Image::open(file).err());
    assert_eq!(fault.as_ref().map(|fault| fault.refusal), refusal, "{fault:?} of {file:02x?}");
    assert!(fault.iter().all(|fault| fault.byte <= file.len()), "{fault:?} of {file:02x?}");
    fault
}

/// The number and the byte of a file's fault.
fn place_of(file: &[u8]) -> Option<(u32, usize)> {
    fault_of(file).map(|fault| (fault.refusal.number(), fault.byte))
}

fn flipped(file: &[u8], bit: usize) -> Vec<u8> {
    let mut file = file.to_vec();
    file[bit / 8] ^= 1 << (bit % 8);
    file
}

fn all_files() -> Vec<Vec<u8>> {
    images().into_iter().chain(refused()).map(|(_, file)| file).collect()
}

#[test]
fn images_have_no_fault() {
    images().iter().for_each(|(name, image)| assert_eq!(place_of(image), None, "{name}"));
    assert_eq!(place_of(&longest()), None);
}

#[test]
fn every_beginning_of_an_image_ends_too_soon() {
    for image in images().map(|(_, image)| image).into_iter().chain([longest()]) {
        for length in 0..image.len() {
            assert_eq!(place_of(&image[..length]), Some((14, length)));
        }
    }
}

#[test]
fn every_beginning_of_a_refused_file_is_explained() {
    for (_, file) in refused() {
        (0..file.len()).for_each(|length| drop(fault_of(&file[..length])));
    }
}

#[test]
fn whatever_follows_an_image_is_left_over() {
    for (_, image) in images() {
        for more in [&[0][..], &[1, 0], &[0xFF; 5], &image] {
            assert_eq!(place_of(&[&image, more].concat()), Some((16, image.len())));
        }
    }
}

#[test]
fn every_changed_bit_is_explained() {
    for file in all_files() {
        (0..8 * file.len()).for_each(|bit| drop(fault_of(&flipped(&file, bit))));
    }
}

#[test]
fn every_two_changed_bits_of_a_small_image_are_explained() {
    let bits = 8 * small().len();
    for (first, second) in (0..bits).flat_map(|first| (0..first).map(move |second| (first, second)))
    {
        fault_of(&flipped(&flipped(&small(), first), second));
    }
}

#[test]
fn every_changed_byte_of_a_small_image_is_explained() {
    for (byte, value) in
        (0..small().len()).flat_map(|byte| (0..=255).map(move |value| (byte, value)))
    {
        fault_of(&common::patched(&small(), byte, &[value]));
    }
}

/// In the longest image every changed bit of a count or of the table is a fault.
#[test]
fn every_changed_bit_of_the_longest_image_is_explained() {
    let image = longest();
    let roots = image.len() - 4 * 4096 - 2;
    let counts = (0..2).chain(6..8).chain(1032..1034).chain(roots..roots + 2);
    for byte in counts.chain(8..1032) {
        (0..8).for_each(|bit| assert!(fault_of(&flipped(&image, 8 * byte + bit)).is_some()));
    }
}

#[test]
fn counts_around_their_limits_are_explained() {
    for count in [0, 1, 2, 255, 256, 1023, 1024, 1025, 4095, 4096, 4097, 65535] {
        for at in [0, 6, 9, 27] {
            fault_of(&common::patched(&small(), at, &u16::to_le_bytes(count)));
        }
        let table = "h===".repeat(usize::from(count).min(1025));
        let blocks = vec![[7; 4]; table.len()];
        let roots = vec![4096; count.into()];
        let file = File::new(4096, &table, &blocks, &roots).bytes();
        let number = place_of(&file).map(|(number, _)| number);
        let wrong = if count == 0 || count > 1024 { Some(15) } else { None };
        assert_eq!(number, wrong, "{count}");
        let file = File::new(4096, "....", &[], &roots).bytes();
        assert_eq!(place_of(&file), (count > 4096).then_some((3, 11)), "{count} roots");
    }
}

/// Every table of eight blocks, with as many blocks as it says.
#[test]
fn every_small_table_is_explained() {
    for entries in 0..=u16::MAX {
        let mut file = File::new(4096, "........", &[], &[]);
        file.table = entries.to_le_bytes().into();
        let used = (0..8).filter(|block| entries >> (2 * block) & 3 != 0).count();
        file.blocks = vec![[0; 4]; used];
        assert!(matches!(place_of(&file.bytes()), None | Some((2, 8..=9))));
    }
}

#[test]
fn bases_around_their_limits_are_explained() {
    let t = 3;
    let highest = u32::MAX - 64 * t + 1;
    for (base, good) in [
        (0, false),
        (1, false),
        (15, false),
        (16, true),
        (17, false),
        (32, true),
        (highest - 16, true),
        (highest, true),
        (highest + 1, false),
        (highest + 16, false),
        (u32::MAX - 15, false),
        (u32::MAX, false),
    ] {
        let file = File::new(base, "............", &[], &[]).bytes();
        assert_eq!(place_of(&file), (!good).then_some((1, 2)), "{base:#x}");
    }
}

/// Files of random bytes, of which many begin as an image does.
#[test]
fn random_files_are_explained() {
    let mut state = 0x9E37_79B9_7F4A_7C15_u64;
    let mut random = move || {
        state ^= state << 13;
        state ^= state >> 7;
        state ^= state << 17;
        state as u8
    };
    for round in 0..100_000 {
        let length = usize::from(random()) % 48;
        let mut file: Vec<u8> = (0..length).map(|_| random()).collect();
        for (at, byte) in [(0, 1), (1, 0), (6, random() % 4), (7, 0)] {
            if round % 8 != 0 && at < length {
                file[at] = byte;
            }
        }
        fault_of(&file);
    }
}
