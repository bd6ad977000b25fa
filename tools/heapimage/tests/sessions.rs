//! What the program writes, and the status with which it ends, as a person sees it: each file in
//! `tests/expected` is a session, commands and all that they wrote. `HEAPIMAGE_EXPECT=write cargo test`
//! writes the answers anew.

mod common;

use std::fs::{self, File};
use std::path::{Path, PathBuf};
use std::process::{Command, Stdio};

/// A folder of this name with the files of all sessions.
fn folder(name: &str) -> PathBuf {
    let folder = Path::new(env!("CARGO_TARGET_TMPDIR")).join(name);
    fs::create_dir_all(folder.join("folder")).expect("a folder");
    for (name, bytes) in common::images().into_iter().chain(common::refused()) {
        fs::write(folder.join(name), bytes).expect("a file");
    }
    folder
}

/// What a line of a session writes: `$ heapimage WORDS...`, the last of which may be `<FILE`.
fn answer(line: &str, folder: &Path) -> String {
    let words = line.strip_prefix("$ heapimage").expect("a command").split_whitespace();
    let (files, arguments): (Vec<&str>, Vec<&str>) = words.partition(|word| word.starts_with('<'));
    let input = files.first().map_or(Stdio::null(), |file| {
        File::open(folder.join(&file[1..])).expect("a file of the session").into()
    });
    let mut program = Command::new(env!("CARGO_BIN_EXE_heapimage"));
    let output =
        program.args(arguments).stdin(input).current_dir(folder).output().expect("the program");
    let text = |bytes| String::from_utf8(bytes).expect("text");
    let status = output.status.code().expect("a status");
    format!("{line}\n{}{}[status {status}]\n", text(output.stdout), text(output.stderr))
}

/// Runs the commands of a session again.
fn session(name: &str) {
    let path = Path::new(env!("CARGO_MANIFEST_DIR")).join("tests/expected").join(name);
    let expected = fs::read_to_string(&path).expect("a session");
    let folder = folder(name);
    let commands = expected.lines().filter(|line| line.starts_with("$ "));
    let answers: Vec<String> = commands.map(|line| answer(line, &folder)).collect();
    let found = answers.join("\n");
    if std::env::var_os("HEAPIMAGE_EXPECT").is_some() {
        fs::write(&path, found).expect("a session written");
    } else {
        assert!(found == expected, "{name} has:\n{expected}\nand the program wrote:\n{found}");
    }
}

#[test]
fn show() {
    session("show");
}

#[test]
fn objects() {
    session("objects");
}

#[test]
fn check() {
    session("check");
}

#[test]
fn diff() {
    session("diff");
}

#[test]
fn dot() {
    session("dot");
}

#[test]
fn trouble() {
    session("trouble");
}

#[test]
fn help() {
    session("help");
}
