//! What counts as the same object in two images.

mod common;

use common::File;
use heapimage::{diff::differences, Image};

const BASE: u32 = 0x1000;
const ZERO: [u32; 4] = [0; 4];

/// The lines before the map.
fn lines(a: &File, b: &File) -> Vec<String> {
    let open = |file: &File| Image::open(&file.bytes()).expect("an image");
    let text = differences(&open(a), &open(b));
    text.lines().take_while(|line| !line.is_empty()).map(String::from).collect()
}

fn file(map: &str, blocks: &[[u32; 4]], roots: &[u32]) -> File {
    File::new(BASE, map, blocks, roots)
}

#[test]
fn an_image_has_no_differences_from_itself() {
    let image = file("h=h.", &[[BASE; 4]; 3], &[BASE]);
    assert!(lines(&image, &image).is_empty());
}

#[test]
fn objects_stay_the_same_if_the_roots_are_swapped() {
    let a = file("hh..", &[[1; 4], [2; 4]], &[BASE, BASE + 16]);
    let b = File { roots: vec![BASE + 16, BASE], ..a.clone() };
    let swapped =
        ["root 0: 0x00001000 in A, 0x00001010 in B", "root 1: 0x00001010 in A, 0x00001000 in B"];
    assert_eq!(lines(&a, &b), swapped);
}

#[test]
fn an_object_that_the_same_root_leads_to_has_moved() {
    let a = file("h...", &[[1, 2, 3, 4]], &[BASE]);
    let b = file("..h.", &[[1, 2, 3, 5]], &[BASE + 32]);
    assert_eq!(
        lines(&a, &b),
        [
            "root 0: 0x00001000 in A, 0x00001020 in B",
            "0x00001000: moved to 0x00001020, 1 word changed",
            "  word 3: 0x00000004 in A, 0x00000005 in B"
        ]
    );
}

#[test]
fn an_object_that_the_same_word_leads_to_has_moved_and_its_place_may_be_anothers() {
    let a = file("hh......", &[[BASE + 16, 0, 0, 0], [7; 4]], &[BASE]);
    let b = file("hhh==...", &[[BASE + 48, 0, 0, 0], ZERO, [7; 4], ZERO, ZERO], &[BASE]);
    assert_eq!(
        lines(&a, &b),
        [
            "0x00001000: 1 word changed",
            "  word 0: 0x00001010 in A, 0x00001030 in B",
            "0x00001010: moved to 0x00001020, resized from 1 to 3 blocks",
            "0x00001010: in B alone, 1 block, garbage"
        ]
    );
}

/// A new head of a list is no other place of the old one.
#[test]
fn a_longer_list_has_one_object_more() {
    let a = file("h...", &[[0, 7, 0, 0]], &[BASE]);
    let b = file("hh..", &[[0, 8, 0, 0], [BASE, 9, 0, 0]], &[BASE + 16]);
    assert_eq!(
        lines(&a, &b),
        [
            "root 0: 0x00001000 in A, 0x00001010 in B",
            "0x00001000: 1 word changed",
            "  word 1: 0x00000007 in A, 0x00000008 in B",
            "0x00001010: in B alone, 1 block, reachable"
        ]
    );
}

#[test]
fn an_object_may_grow_or_become_garbage_where_it_is() {
    let a = file("h...", &[[1; 4]], &[BASE]);
    let b = file("h==.", &[[1; 4], ZERO, ZERO], &[BASE]);
    assert_eq!(lines(&a, &b), ["0x00001000: resized from 1 to 3 blocks"]);
    assert_eq!(lines(&b, &a), ["0x00001000: resized from 3 to 1 block"]);
    let c = File { roots: vec![0], ..a.clone() };
    let garbage = "0x00001000: reachable in A, garbage in B";
    assert_eq!(lines(&a, &c), ["root 0: 0x00001000 in A, 0x00000000 in B", garbage]);
}

/// New blocks are zero until a program writes them, so zeros say nothing.
#[test]
fn words_that_one_image_has_alone_are_listed_but_for_zeros() {
    let a = file("h...", &[[1; 4]], &[BASE]);
    let b = file("h==.", &[[1; 4], [0, 7, 0, 0], [0, 0, 0, 8]], &[BASE]);
    let words = |image| {
        [
            format!("  word 5: 0x00000007 in {image} alone"),
            format!("  word 11: 0x00000008 in {image} alone"),
        ]
    };
    assert_eq!(lines(&a, &b)[0], "0x00001000: resized from 1 to 3 blocks");
    assert_eq!(lines(&a, &b)[1..], words("B"));
    assert_eq!(lines(&b, &a)[0], "0x00001000: resized from 3 to 1 block");
    assert_eq!(lines(&b, &a)[1..], words("A"));
}

/// At another base the same words lead to the same objects, by other addresses.
#[test]
fn a_heap_may_lie_at_another_base() {
    let at = |base: u32| File::new(base, "h.h=", &[[base + 32, 0, 0, 0], ZERO, ZERO], &[base]);
    assert_eq!(
        lines(&at(0x1000), &at(0x2000)),
        [
            "base: 0x00001000 in A, 0x00002000 in B",
            "root 0: 0x00001000 in A, 0x00002000 in B",
            "0x00001000: 1 word changed",
            "  word 0: 0x00001020 in A, 0x00002020 in B"
        ]
    );
}

#[test]
fn the_map_has_a_letter_for_each_pair_of_blocks() {
    let a = file("h=hh=...", &[[1; 4], [2; 4], [3; 4], [4; 4], [5; 4]], &[]);
    let b = file("hhh...h=", &[[1; 4], [2; 4], [0; 4], [6; 4], [7; 4]], &[]);
    let open = |file: &File| Image::open(&file.bytes()).expect("an image");
    let text = differences(&open(&a), &open(&b));
    assert_eq!(text.lines().last(), Some("  0x00001000: o~~--.++"));
}

/// Objects that lead to each other are followed once.
#[test]
fn a_ring_has_an_end() {
    let ring = |first: u32, second: u32| [[second, 0, 0, 0], [first, 0, 0, 0]];
    let a = file("hh......", &ring(BASE, BASE + 16), &[BASE]);
    let b = file("....h.h.", &ring(BASE + 64, BASE + 96), &[BASE + 64]);
    let moved = lines(&a, &b);
    let places: Vec<&String> = moved.iter().filter(|line| line.contains("moved")).collect();
    assert_eq!(
        places,
        [
            "0x00001000: moved to 0x00001040, 1 word changed",
            "0x00001010: moved to 0x00001060, 1 word changed"
        ]
    );
}
