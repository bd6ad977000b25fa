//! What differs between two images, A and B, object by object.

use crate::map;
use crate::matching::Matching;
use crate::text::{count, hex, state};
use crate::{Image, Object};
use std::fmt::Display;

/// All differences, and a map of them. There are none if and only if the files are the same.
pub fn differences(a: &Image, b: &Image) -> String {
    [
        differs("base", hex(a.base), hex(b.base)),
        differs("t", a.t, b.t),
        differs("roots", a.roots.len(), b.roots.len()),
        roots(a, b),
        objects(a, b),
        map_of_blocks(a, b),
    ]
    .concat()
}

/// A line for what is not the same in both.
fn differs<T: PartialEq + Display>(what: &str, a: T, b: T) -> String {
    if a == b {
        String::new()
    } else {
        format!("{what}: {a} in A, {b} in B\n")
    }
}

/// A line for a word that is not the same in both, or that one of them has alone.
fn word(name: &str, a: Option<&u32>, b: Option<&u32>) -> String {
    match (a, b) {
        (Some(x), Some(y)) => differs(name, hex(*x), hex(*y)),
        (Some(x), None) => format!("{name}: {} in A alone\n", hex(*x)),
        (None, Some(y)) => format!("{name}: {} in B alone\n", hex(*y)),
        (None, None) => String::new(),
    }
}

fn roots(a: &Image, b: &Image) -> String {
    let line = |index| word(&format!("root {index}"), a.roots.get(index), b.roots.get(index));
    (0..a.roots.len().max(b.roots.len())).map(line).collect()
}

/// The differences of all objects, in the order of their places in A, or in B where A has none.
fn objects(a: &Image, b: &Image) -> String {
    let Matching { to_b, to_a } = Matching::of(a, b);
    let mut lines: Vec<(usize, String)> = Vec::new();
    for (object, other) in a.objects.iter().zip(to_b) {
        let line = other.map_or_else(|| alone(object, "A"), |y| changes(object, &b.objects[y]));
        lines.push((object.block, line));
    }
    for (object, _) in b.objects.iter().zip(to_a).filter(|(_, other)| other.is_none()) {
        lines.push((object.block, alone(object, "B")));
    }
    lines.sort_by_key(|(block, _)| *block);
    lines.into_iter().map(|(_, line)| line).collect()
}

fn alone(object: &Object, image: &str) -> String {
    let (address, blocks) = (hex(object.address), count(object.blocks(), "block"));
    format!("{address}: in {image} alone, {blocks}, {}\n", state(object))
}

/// The differences between an object of A and the same one of B.
fn changes(a: &Object, b: &Object) -> String {
    let words = changed_words(a, b);
    let mut changes = Vec::new();
    if a.block != b.block {
        changes.push(format!("moved to {}", hex(b.address)));
    }
    if a.blocks() != b.blocks() {
        changes.push(format!("resized from {} to {}", a.blocks(), count(b.blocks(), "block")));
    }
    if a.reachable != b.reachable {
        changes.push(format!("{} in A, {} in B", state(a), state(b)));
    }
    if !words.is_empty() {
        changes.push(format!("{} changed", count(words.len(), "word")));
    }
    if changes.is_empty() {
        return String::new();
    }
    let lines = words.concat() + &words_of_one(a, b);
    format!("{}: {}\n{lines}", hex(a.address), changes.join(", "))
}

/// A line for each word that both have and that is not the same.
fn changed_words(a: &Object, b: &Object) -> Vec<String> {
    let lines = (0..shared_words(a, b)).map(|index| word_line(a, b, index));
    lines.filter(|line| !line.is_empty()).collect()
}

/// A line for each word that the larger one has alone, but for those that are 0, as new blocks are.
fn words_of_one(a: &Object, b: &Object) -> String {
    let larger = if a.words.len() > b.words.len() { a } else { b };
    let indices =
        (shared_words(a, b)..larger.words.len()).filter(|index| larger.words[*index] != 0);
    indices.map(|index| word_line(a, b, index)).collect()
}

fn shared_words(a: &Object, b: &Object) -> usize {
    a.words.len().min(b.words.len())
}

fn word_line(a: &Object, b: &Object, index: usize) -> String {
    word(&format!("  word {index}"), a.words.get(index), b.words.get(index))
}

const LEGEND: &str = "\
o is the same in both, ~ differs, - is used in A alone, + in B alone, . is free in both;
addresses are those of A, and lines without a difference are left out";

fn map_of_blocks(a: &Image, b: &Image) -> String {
    let letter = |block| match (a.used_block(block), b.used_block(block)) {
        (None, None) => '.',
        (Some(_), None) => '-',
        (None, Some(_)) => '+',
        (x, y) if x == y => 'o',
        _ => '~',
    };
    let letters: Vec<char> = (0..a.blocks().max(b.blocks())).map(letter).collect();
    let differ = |line: &[char]| line.iter().any(|letter| !['.', 'o'].contains(letter));
    match map::lines(a.base, &letters, differ) {
        none if none.is_empty() => none,
        lines => format!("\n{LEGEND}:\n{lines}"),
    }
}
