//! Which archive the build script links for a target, or how it says that there is none.

#[allow(dead_code)]
#[path = "../build.rs"]
mod build;

use build::Target;
use std::fs;
use std::path::PathBuf;

fn target(name: &str, os: &str, pointer_width: &str) -> Target {
    let arch = name.split('-').next().unwrap_or_default();
    let [name, arch, os, pointer_width] = [name, arch, os, pointer_width].map(String::from);
    Target { name, arch, os, pointer_width }
}

/// Targets for which the archive is the proved one.
fn of_proof() -> [Target; 2] {
    ["x86_64-unknown-linux-gnu", "x86_64-unknown-linux-musl"]
        .map(|name| target(name, "linux", "64"))
}

/// Targets that have an archive of their own.
fn others() -> [Target; 6] {
    [
        target("thumbv7m-none-eabi", "none", "32"),
        target("s390x-unknown-linux-gnu", "linux", "64"),
        target("wasm32-unknown-unknown", "unknown", "32"),
        target("x86_64-unknown-none", "none", "64"),
        target("x86_64-pc-windows-gnu", "windows", "64"),
        target("x86_64-unknown-linux-gnux32", "linux", "32"),
    ]
}

/// An empty repository.
fn repository(name: &str) -> PathBuf {
    let top =
        PathBuf::from(env!("CARGO_TARGET_TMPDIR")).join(format!("{name}.{}", std::process::id()));
    fs::create_dir_all(&top).expect("a folder");
    top.canonicalize().expect("its path")
}

#[test]
fn each_target_has_its_archive() {
    let top = repository("with_archives");
    let place = |folder: &str| top.join("target").join(folder).join("libblockheap.a");
    let [proved, thumb] = ["staticlib", "portable/thumbv7m-none-eabi"].map(place);
    for archive in [&proved, &thumb] {
        fs::create_dir_all(archive.parent().expect("its folder")).expect("a folder");
        fs::write(archive, "").expect("a file");
    }
    for target in of_proof() {
        assert_eq!(target.archive_in(&top), Ok(proved.clone()), "{}", target.name);
    }
    let [first, rest @ ..] = others();
    assert_eq!(first.archive_in(&top), Ok(thumb));
    for target in rest {
        assert!(target.archive_in(&top).is_err(), "{} takes another's", target.name);
    }
    fs::remove_dir_all(&top).expect("an end");
}

#[test]
fn a_missing_archive_is_refused_with_the_command_that_builds_it() {
    let top = repository("without_archives");
    let says = |target: &Target, command: &str, without_rt: bool| {
        let message = target.archive_in(&top).expect_err("no archive");
        let (name, top) = (&target.name, top.display());
        let build = format!("\nBuild it:   cd {top} && {command}\n");
        assert!(message.contains(&build) && message.contains(name), "{message}");
        let other = format!(
            "\nWithout rt: cd {top} && hosts/portable/build {name}\n\
             then:       export BLOCKHEAP_LIB={top}/target/portable/{name}/libblockheap.a\n"
        );
        assert_eq!(message.contains(&other), without_rt, "{message}");
    };
    for target in of_proof() {
        says(&target, "hosts/library", true);
    }
    for target in others() {
        says(&target, &format!("hosts/portable/build {}", target.name), false);
    }
    fs::remove_dir_all(&top).expect("an end");
}
