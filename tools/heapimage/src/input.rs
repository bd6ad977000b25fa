//! Reading a file.

use blockheap::MAX_IMAGE_BYTES;
use std::fs::File;
use std::io::{self, Read};
use std::path::Path;

/// The file name that stands for standard input.
pub const STANDARD_INPUT: &str = "-";

/// The bytes of a file. Of one that is longer than any image, they are the longest image's and one more: it
/// is refused by the same number, and the fault is at the same byte.
pub fn read(path: &Path) -> io::Result<Vec<u8>> {
    if path == Path::new(STANDARD_INPUT) {
        read_front(io::stdin().lock())
    } else {
        read_front(File::open(path)?)
    }
}

fn read_front(source: impl Read) -> io::Result<Vec<u8>> {
    let mut bytes = Vec::new();
    source.take(MAX_IMAGE_BYTES as u64 + 1).read_to_end(&mut bytes)?;
    Ok(bytes)
}

/// What a file is called in messages. Control characters are spelled out: a name may come with the file.
pub fn name(path: &Path) -> String {
    if path == Path::new(STANDARD_INPUT) {
        return "standard input".into();
    }
    let mut name = String::new();
    for letter in path.display().to_string().chars() {
        match letter.is_control() {
            true => name.extend(letter.escape_default()),
            false => name.push(letter),
        }
    }
    name
}

#[cfg(test)]
mod tests {
    use super::*;

    #[test]
    fn a_name_is_one_line_of_plain_letters() {
        assert_eq!(name(Path::new("rain gauge é.image")), "rain gauge é.image");
        assert_eq!(name(Path::new("a\u{1b}[2Jb\nc")), "a\\u{1b}[2Jb\\nc");
        assert_eq!(name(Path::new("-")), "standard input");
    }
}
