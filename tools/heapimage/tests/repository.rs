//! The tool agrees with the header, the README and the guide of the repository that it is part of.

mod common;

use heapimage::{run, Command};
use std::ffi::OsString;
use std::path::Path;

const HEADER: &str = include_str!("../../../include/blockheap.h");
const README: &str = include_str!("../../../README.md");
const GUIDE: &str = include_str!("../../../docs/GUIDE.md");

/// What the tool writes about a file with these bytes, called by this name.
fn written(name: &str, bytes: &[u8], words: &[&str]) -> String {
    let folder = Path::new(env!("CARGO_TARGET_TMPDIR")).join("repository");
    std::fs::create_dir_all(&folder).expect("a folder");
    let file = folder.join(name);
    std::fs::write(&file, bytes).expect("a file");
    let mut arguments: Vec<OsString> = words.iter().map(OsString::from).collect();
    arguments.push(file.clone().into());
    let command = Command::parse(&arguments).expect("a command");
    let text = run(&command).expect("an answer").text;
    text.replace(&file.display().to_string(), name)
}

/// Holds that the document has this text, each of its lines indented by four.
fn has(document: &str, text: &str) {
    let indented = |line: &str| if line.is_empty() { line.into() } else { format!("    {line}") };
    let text: Vec<String> = text.lines().map(indented).collect();
    assert!(document.contains(&text.join("\n")), "a document has not:\n{}", text.join("\n"));
}

#[test]
fn the_version_is_the_headers() {
    let part = |name: &str| {
        let define = format!("#define BLOCKHEAP_VERSION_{name} ");
        HEADER.lines().find_map(|line| line.strip_prefix(&define)).expect("a part of the version")
    };
    assert_eq!(env!("CARGO_PKG_VERSION"), ["MAJOR", "MINOR", "PATCH"].map(part).join("."));
}

#[test]
fn the_documents_show_the_demos_image() {
    has(README, &written("heap.image", &common::demo(), &["show"]));
    let objects = written("heap.image", &common::demo(), &["show", "--objects"]);
    has(GUIDE, &objects[objects.find("address").expect("the objects")..]);
}

#[test]
fn the_guide_shows_a_fault() {
    has(GUIDE, &written("cut.image", &common::demo()[..150], &["check"]));
}
