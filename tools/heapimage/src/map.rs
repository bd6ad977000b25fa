//! Maps: a letter for each block.

use crate::Image;
use blockheap::BLOCK_BYTES;

const LINE: usize = 64;

/// What the letters of [`letters`] mean.
pub const LEGEND: &str = "h is the head of an object, = its tail, . a free block";

/// The blocks in MicroPython's letters; those of objects that are left out are drawn as free.
pub fn letters(image: &Image, with_garbage: bool) -> Vec<char> {
    let mut letters = vec!['.'; image.blocks()];
    for object in image.objects.iter().filter(|object| with_garbage || object.reachable) {
        letters[object.block..][..object.blocks()].fill('=');
        letters[object.block] = 'h';
    }
    letters
}

/// Lines of 64 letters, each behind the address of its first block. Those that are not wanted are left out.
pub fn lines(base: u32, letters: &[char], wanted: impl Fn(&[char]) -> bool) -> String {
    let mut map = String::new();
    for (index, line) in letters.chunks(LINE).enumerate().filter(|(_, line)| wanted(line)) {
        let address = u64::from(base) + (index * LINE * BLOCK_BYTES) as u64;
        map += &format!("  {address:#010x}: {}\n", String::from_iter(line));
    }
    map
}

#[cfg(test)]
mod tests {
    use super::*;

    #[test]
    fn a_line_has_64_blocks() {
        let letters = [vec!['.'; 64], vec!['h'; 64], vec!['='; 4]].concat();
        let [free, heads, tails] = [".".repeat(64), "h".repeat(64), "====".into()];
        let map = format!("  0x00001000: {free}\n  0x00001400: {heads}\n  0x00001800: {tails}\n");
        assert_eq!(lines(4096, &letters, |_| true), map);
        let used = lines(4096, &letters, |line| line.contains(&'h'));
        assert_eq!(used, format!("  0x00001400: {heads}\n"));
    }

    #[test]
    fn the_last_line_may_be_at_the_highest_address() {
        let highest = lines(0xFFFF_FC00, &['h'; 64], |_| true);
        assert_eq!(highest, format!("  0xfffffc00: {}\n", "h".repeat(64)));
    }
}
