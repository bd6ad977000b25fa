//! Files of any length, and outputs that cannot be written.

mod common;

use common::longest;
use std::fs::{self, File};
use std::io::Write;
use std::path::Path;
use std::process::{Command, Output, Stdio};

fn program(arguments: &[&str]) -> Command {
    let mut program = Command::new(env!("CARGO_BIN_EXE_heapimage"));
    program.args(arguments);
    program
}

/// Runs the program on a file with these bytes.
fn run_on(name: &str, bytes: &[u8], arguments: &[&str]) -> Output {
    let path = Path::new(env!("CARGO_TARGET_TMPDIR")).join(name);
    fs::write(&path, bytes).expect("a file");
    program(arguments).arg(&path).output().expect("the program")
}

/// A device to which nothing can be written.
fn full() -> File {
    File::create("/dev/full").expect("a device that is full")
}

fn lines(output: &Output) -> Vec<&str> {
    std::str::from_utf8(&output.stdout).expect("text").lines().collect()
}

#[test]
fn the_longest_image_is_shown_whole() {
    let map = run_on("longest-map", &longest(), &["show"]);
    assert_eq!(lines(&map).iter().filter(|line| line.ends_with(&"h".repeat(64))).count(), 64);
    let objects = run_on("longest-objects", &longest(), &["show", "--objects"]);
    let is_object = |line: &&&str| line.contains("  reachable  ");
    assert_eq!(lines(&objects).iter().filter(is_object).count(), 4096);
    let graph = run_on("longest-graph", &longest(), &["dot"]);
    assert_eq!(lines(&graph).iter().filter(|line| line.contains("->")).count(), 4096 + 4096);
}

#[test]
fn a_file_longer_than_any_image_has_the_same_fault() {
    let longer = [longest(), vec![0; 1 << 20]].concat();
    let checked = run_on("longer", &longer, &["check"]);
    assert!(lines(&checked)[0].contains(": refused (16) at byte 82956: "));
    assert_eq!(checked.status.code(), Some(16));
    let endless = program(&["check", "/dev/zero"]).output().expect("the program");
    let wrong =
        "/dev/zero: refused (15) at byte 0: the count of the base section is 0, and must be 1";
    assert_eq!((lines(&endless), endless.status.code()), (vec![wrong], Some(15)));
}

#[test]
fn standard_input_may_come_in_pieces() {
    let piped = program(&["check", "-"]).stdin(Stdio::piped()).stdout(Stdio::piped()).spawn();
    let mut child = piped.expect("the program");
    let mut input = child.stdin.take().expect("a pipe");
    for byte in common::small() {
        input.write_all(&[byte]).expect("a byte written");
    }
    drop(input);
    let output = child.wait_with_output().expect("the program");
    assert_eq!(output.status.code(), Some(0));
    assert!(lines(&output)[0].starts_with("standard input: fine: "));
}

#[test]
fn an_output_that_cannot_be_written_is_a_failure() {
    let output = program(&["--help"]).stdout(full()).output().expect("the program");
    assert_eq!(output.status.code(), Some(74));
    let message = String::from_utf8(output.stderr).expect("text");
    assert!(message.starts_with("heapimage: standard output: "), "{message}");
}

#[test]
fn a_message_that_cannot_be_written_leaves_the_status() {
    let output = program(&["show", "nowhere"]).stderr(full()).output().expect("the program");
    assert_eq!(output.status.code(), Some(66));
}

/// As in `heapimage show --objects FILE | head -1`.
#[test]
fn a_reader_that_has_seen_enough_is_no_failure() {
    let path = Path::new(env!("CARGO_TARGET_TMPDIR")).join("seen-enough");
    fs::write(&path, longest()).expect("a file");
    let mut command = program(&["show", "--objects"]);
    command.arg(&path).stdout(Stdio::piped()).stderr(Stdio::piped());
    let mut child = command.spawn().expect("the program");
    drop(child.stdout.take());
    let output = child.wait_with_output().expect("the program");
    assert_eq!((output.status.code(), output.stderr), (Some(0), Vec::new()));
}
