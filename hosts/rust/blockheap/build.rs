//! Links the static library: the archive that BLOCKHEAP_LIB names, or else that of cargo's target in the
//! repository that this crate is part of.

use std::env;
use std::path::{Path, PathBuf};

fn main() {
    println!("cargo:rerun-if-env-changed=BLOCKHEAP_LIB");
    match archive() {
        Ok(archive) => link(&archive),
        Err(message) => {
            eprintln!("{message}");
            std::process::exit(1);
        }
    }
}

fn link(archive: &Path) {
    println!("cargo:rerun-if-changed={}", archive.display());
    let file = archive.file_name().and_then(|name| name.to_str()).expect("an archive's name");
    let folder = archive.parent().expect("an archive's folder");
    println!("cargo:rustc-link-search=native={}", folder.display());
    println!("cargo:rustc-link-lib=static:+verbatim={file}");
}

fn archive() -> Result<PathBuf, String> {
    match env::var_os("BLOCKHEAP_LIB") {
        Some(path) => file_at(Path::new(&path)).map_err(|error| {
            format!("BLOCKHEAP_LIB must be the full path of an archive, and it is not: {error}")
        }),
        None => {
            let folder = variable("CARGO_MANIFEST_DIR");
            let top = Path::new(&folder).join("../../..").canonicalize();
            Target::of_cargo().archive_in(&top.expect("the repository's top"))
        }
    }
}

/// What cargo builds for.
pub struct Target {
    pub name: String,
    pub arch: String,
    pub os: String,
    pub pointer_width: String,
}

impl Target {
    fn of_cargo() -> Target {
        Target {
            name: variable("TARGET"),
            arch: variable("CARGO_CFG_TARGET_ARCH"),
            os: variable("CARGO_CFG_TARGET_OS"),
            pointer_width: variable("CARGO_CFG_TARGET_POINTER_WIDTH"),
        }
    }

    /// Whether the proved archive can be linked: it is for x86-64 Linux.
    fn is_of_proof(&self) -> bool {
        (&*self.arch, &*self.os, &*self.pointer_width) == ("x86_64", "linux", "64")
    }

    fn portable_folder(&self) -> String {
        format!("target/portable/{}", self.name)
    }

    fn portable_command(&self) -> String {
        format!("hosts/portable/build {}", self.name)
    }

    /// Where rt builds the archive: what does without it.
    fn without_rt(&self, top: &Path) -> String {
        if !self.is_of_proof() {
            return String::new();
        }
        let (top, folder, command) =
            (top.display(), self.portable_folder(), self.portable_command());
        format!(
            "Without rt: cd {top} && {command}\n\
             then:       export BLOCKHEAP_LIB={top}/{folder}/libblockheap.a\n\
             That one is not proved; the command says what tests it.\n"
        )
    }

    /// The archive of the repository for this target, or how to build it.
    pub fn archive_in(&self, top: &Path) -> Result<PathBuf, String> {
        let (folder, command) = if self.is_of_proof() {
            ("target/staticlib".into(), "hosts/library".into())
        } else {
            (self.portable_folder(), self.portable_command())
        };
        file_at(&top.join(folder).join("libblockheap.a")).map_err(|error| {
            format!(
                "The library is not built for {}: {error}\n\
                 Build it:   cd {} && {command}\n\
                 {}Or name another archive by its full path in BLOCKHEAP_LIB.",
                self.name,
                top.display(),
                self.without_rt(top)
            )
        })
    }
}

fn variable(name: &str) -> String {
    env::var(name).unwrap_or_else(|error| panic!("{name}, which cargo sets: {error}"))
}

fn file_at(path: &Path) -> Result<PathBuf, String> {
    let found = path.canonicalize().map_err(|error| format!("{}: {error}", path.display()))?;
    if found.is_file() {
        Ok(found)
    } else {
        Err(format!("{}: not a file", path.display()))
    }
}
