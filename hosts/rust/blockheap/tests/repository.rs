//! The crate agrees with the headers and the README of the repository that it is part of.

const HEADER: &str = include_str!("../../../../include/blockheap.h");
const HELPERS: &str = include_str!("../../../../include/bh.h");
const README: &str = include_str!("../../../../README.md");
const PROGRAM: &str = include_str!("../examples/readme.rs");

/// The number that the header defines under this name.
fn defined(name: &str) -> usize {
    let value = HEADER.lines().find_map(|line| {
        let mut words = line.split_whitespace();
        (words.next() == Some("#define") && words.next() == Some(name)).then(|| words.next())?
    });
    let value = value.unwrap_or_else(|| panic!("the header does not define {name}"));
    value.parse().unwrap_or_else(|_| panic!("{name} is no plain number"))
}

#[test]
fn the_version_is_the_headers() {
    let parts =
        ["MAJOR", "MINOR", "PATCH"].map(|part| defined(&format!("BLOCKHEAP_VERSION_{part}")));
    assert_eq!(env!("CARGO_PKG_VERSION"), parts.map(|part| part.to_string()).join("."));
}

#[test]
fn the_sizes_are_the_headers() {
    use blockheap::*;
    for (name, size) in [
        ("BLOCK_BYTES", BLOCK_BYTES),
        ("WORD_BYTES", WORD_BYTES),
        ("WORDS_PER_BLOCK", WORDS_PER_BLOCK),
        ("BLOCKS_PER_PLANE_BYTE", BLOCKS_PER_PLANE_BYTE),
        ("LARGE_BLOCKS", LARGE_BLOCKS),
        ("MAX_T", MAX_T),
        ("MAX_BLOCKS", MAX_BLOCKS),
        ("MAX_POOL_BYTES", MAX_POOL_BYTES),
        ("MAX_TABLE_BYTES", MAX_TABLE_BYTES),
        ("MIN_BASE", MIN_BASE.word() as usize),
        ("MAX_ROOTS", MAX_ROOTS),
        ("MAX_STACK_ENTRIES", MAX_STACK_ENTRIES),
        ("LOG_ENTRY_BYTES", LOG_ENTRY_BYTES),
        ("MAX_LOG_ENTRIES", MAX_LOG_ENTRIES),
        ("MAX_LOG_ROOTS", MAX_LOG_ROOTS),
        ("MAX_IMAGE_BYTES", MAX_IMAGE_BYTES),
    ] {
        assert_eq!(size, defined(&format!("BLOCKHEAP_{name}")), "{name}");
    }
}

/// The names and numbers of the header's refusals, but for 0.
fn refusals() -> Vec<(String, u32)> {
    let (_, list) = HEADER.split_once("enum blockheap_refusal {").expect("the refusals");
    let (list, _) = list.split_once("};").expect("their end");
    let pairs = list.lines().filter_map(|line| {
        let (name, rest) = line.trim().strip_prefix("BLOCKHEAP_")?.split_once(" = ")?;
        let digits = rest.split(|letter: char| !letter.is_ascii_digit()).next()?;
        Some((name.to_string(), digits.parse().expect("a number")))
    });
    pairs.filter(|(_, number)| *number != 0).collect()
}

/// A name in capitals, with a line before each word but the first.
fn in_capitals(name: &str) -> String {
    let letters = name.chars().enumerate().flat_map(|(at, letter)| {
        let line = (at > 0 && letter.is_uppercase()).then_some('_');
        line.into_iter().chain(letter.to_uppercase())
    });
    letters.collect()
}

/// The name of a refusal in the header, without what it has beside.
fn name_of(refusal: &blockheap::Refusal) -> String {
    let text = format!("{refusal:?}");
    in_capitals(text.split('(').next().unwrap_or(&text))
}

#[test]
fn the_refusals_are_the_headers() {
    let all = blockheap::Refusal::ALL.iter();
    let mut named: Vec<_> = all.map(|refusal| (name_of(refusal), refusal.number())).collect();
    named.dedup(); // a bad shape has one name, whatever its fault
    assert_eq!(named, refusals());
}

#[test]
fn the_refusals_are_told_in_the_words_of_the_header() {
    for refusal in blockheap::Refusal::ALL {
        let said = refusal.to_string();
        let reason = said.strip_prefix(&format!("refused ({}): ", refusal.number()));
        let reason = reason.expect("the number, and then the reason");
        let case = format!("case BLOCKHEAP_{}: return \"{reason}\";", name_of(refusal));
        let rule = matches!(refusal, blockheap::Refusal::BadShape(_)); // told by bh_shape_fault
        assert_eq!(HELPERS.contains(&case), !rule, "{said}");
    }
}

#[test]
fn the_rules_of_a_shape_are_told_in_the_words_of_the_header() {
    use blockheap::{Refusal, ShapeFault};
    for refusal in Refusal::ALL {
        if let Refusal::BadShape(fault) = refusal {
            let told = HELPERS.contains(&format!("return \"{fault}\";"));
            assert_eq!(told, *fault != ShapeFault::ImageT, "{fault}");
        }
    }
}

#[test]
fn the_readme_shows_the_example() {
    let indented = |line: &str| if line.is_empty() { line.into() } else { format!("    {line}") };
    let shown: Vec<String> = PROGRAM.lines().map(indented).collect();
    assert!(README.contains(&shown.join("\n")), "README.md and examples/readme.rs differ");
}
