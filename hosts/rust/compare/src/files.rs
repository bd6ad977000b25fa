//! Files to open: images of drawn heaps, what may become of them, and runs that open many.

use crate::image::{self, whole_sections, Section};
use crate::planes::{entries_in, FREE, HEAD, MARK, TAIL};
use crate::Buffer::{Image, Roots};
use crate::{compare, draw, Call, Coverage, Guarded, Lent, Random, Subject};

/// A file made of one file, or of two.
type Change = fn(random: &mut Random, file: &[u8], other: &[u8]) -> Vec<u8>;

const CHANGES: [Change; 19] = [
    flip_a_bit,
    set_some_bytes,
    cut_anywhere,
    cut_near_a_border,
    drop_the_first_bytes,
    extend,
    join,
    splice_anywhere,
    splice_at_borders,
    set_a_count,
    set_a_count_and_cut,
    swap_sections,
    drop_a_section,
    double_a_section,
    set_the_base,
    set_an_entry,
    set_a_mark,
    set_the_number_of_roots,
    take_any_bytes,
];

/// The image of a drawn heap of this t, with any roots.
pub fn good(random: &mut Random, t: u64) -> Vec<u8> {
    let heap = draw::heap(random, t);
    of_heap(random, heap)
}

/// The image of a heap, with any roots: some of its addresses, a few words, at times the most.
fn of_heap(random: &mut Random, mut heap: Lent) -> Vec<u8> {
    if random.percent(40) {
        let roots = draw::good_roots(random, &heap);
        heap.set_roots(&roots);
    } else {
        let words = if random.percent(2) { 4096 } else { random.below(6) };
        heap[Roots] = Guarded::new(&random.bytes(4 * words as usize));
    }
    image::file(&heap.sections())
}

/// The file, changed in some way.
pub fn changed(random: &mut Random, file: &[u8], other: &[u8]) -> Vec<u8> {
    random.pick(&CHANGES)(random, file, other)
}

/// A file for the heap's memory: of the heap itself, of another of its size or of any size, often changed.
pub fn draw(random: &mut Random, lent: &Lent) -> Vec<u8> {
    let any_t = random.between(1, 24);
    let file = match random.below(8) {
        0 => good(random, any_t),
        1 | 2 => of_heap(random, lent.clone()),
        _ => good(random, lent.t),
    };
    if random.percent(45) {
        return file;
    }
    let other = good(random, any_t);
    changed(random, &file, &other)
}

/// Lends the file, and a list for its roots.
pub fn lend(random: &mut Random, lent: &mut Lent, file: &[u8]) {
    lent[Image] = Guarded::new(file);
    lent[Roots] = Guarded::new(&list_for(random, file));
}

/// A list of any content: as long as the file's roots, longer, too short, or with a piece of an entry.
fn list_for(random: &mut Random, file: &[u8]) -> Vec<u8> {
    let (sections, _) = whole_sections(file);
    let roots = sections.get(3).map_or(random.below(8), |roots| roots.count.into());
    let length = match random.below(24) {
        0 => 0,
        1 => 4 * random.between(4096, 4100),
        2 | 3 => 4 * roots.saturating_sub(1),
        4 => 4 * roots + random.between(1, 3),
        5 => (4 * roots).saturating_sub(random.between(1, 3)),
        6..=14 => 4 * roots,
        _ => 4 * (roots + random.below(6)),
    };
    random.bytes(length as usize)
}

/// Opens so many files, of heaps of at most this t, or says where the subject first goes wrong. Most are
/// changed, once or up to three times.
pub fn run_files(
    subject: Subject,
    most: u64,
    seed: u64,
    files: u64,
    coverage: &mut Coverage,
) -> Result<(), String> {
    let random = &mut Random::new(seed);
    for number in 0..files {
        let [t, other] = [(); 2].map(|()| random.between(1, most));
        let (mut file, other) = (good(random, t), good(random, other));
        for _ in 0..random.pick(&[0, 1, 1, 1, 1, 2, 2, 3]) {
            file = changed(random, &file, &other);
        }
        let said = blockheap::image_t(&file).map_or(t, |t| t as u64);
        let lent_t = if random.percent(95) { said } else { random.between(1, most) };
        let mut lent = draw::noise(random, lent_t);
        lend(random, &mut lent, &file);
        if random.percent(5) {
            draw::damage(random, &mut lent);
        }
        let (reply, _) = compare(subject, &Call::OpenImage, &lent)
            .map_err(|fault| format!("seed {seed}, file {number}: {fault}"))?;
        coverage.count(&Call::OpenImage, &lent, &reply);
    }
    Ok(())
}

/// Any place in the file, or its end.
fn anywhere(random: &mut Random, file: &[u8]) -> usize {
    random.below(file.len() as u64 + 1) as usize
}

/// Where counts begin, each followed by where its items begin, and where the last whole section ends.
fn borders(file: &[u8]) -> Vec<usize> {
    let mut borders = vec![0];
    for section in whole_sections(file).0 {
        let count = *borders.last().expect("a border");
        borders.extend([count + 2, count + 2 + section.items.len()]);
    }
    borders
}

fn some_border(random: &mut Random, file: &[u8]) -> usize {
    random.pick(&borders(file))
}

fn flip_a_bit(random: &mut Random, file: &[u8], _: &[u8]) -> Vec<u8> {
    let mut file = file.to_vec();
    if !file.is_empty() {
        let at = random.below(file.len() as u64) as usize;
        file[at] ^= 1 << random.below(8);
    }
    file
}

fn set_some_bytes(random: &mut Random, file: &[u8], _: &[u8]) -> Vec<u8> {
    let (at, bytes) = (anywhere(random, file), random.between(1, 4) as usize);
    let bytes = random.bytes(bytes);
    let mut file = file.to_vec();
    file[at..].iter_mut().zip(bytes).for_each(|(byte, new)| *byte = new);
    file
}

fn cut_anywhere(random: &mut Random, file: &[u8], _: &[u8]) -> Vec<u8> {
    file[..anywhere(random, file)].to_vec()
}

fn cut_near_a_border(random: &mut Random, file: &[u8], _: &[u8]) -> Vec<u8> {
    let at = (some_border(random, file) + random.below(3) as usize).saturating_sub(1);
    file[..at.min(file.len())].to_vec()
}

fn drop_the_first_bytes(random: &mut Random, file: &[u8], _: &[u8]) -> Vec<u8> {
    let border = some_border(random, file);
    let at = random.pick(&[1, 2, border]);
    file[at.min(file.len())..].to_vec()
}

fn extend(random: &mut Random, file: &[u8], _: &[u8]) -> Vec<u8> {
    let more = random.pick(&[1, 1, 2, 16, 40]);
    [file, &random.bytes(more)].concat()
}

fn join(_: &mut Random, file: &[u8], other: &[u8]) -> Vec<u8> {
    [file, other].concat()
}

fn splice_anywhere(random: &mut Random, file: &[u8], other: &[u8]) -> Vec<u8> {
    let (end, start) = (anywhere(random, file), anywhere(random, other));
    [&file[..end], &other[start..]].concat()
}

/// Some first parts of the file, and the other's parts behind as many.
fn splice_at_borders(random: &mut Random, file: &[u8], other: &[u8]) -> Vec<u8> {
    let (ends, starts) = (borders(file), borders(other));
    let parts = random.below(ends.len().min(starts.len()) as u64) as usize;
    [&file[..ends[parts]], &other[starts[parts]..]].concat()
}

/// A count in the place of another: behind the most that there may be, near it, or equal where bytes are cut
/// or swapped.
fn other_count(random: &mut Random, section: usize, count: u16) -> u16 {
    let too_many = [2, 1025, count.wrapping_add(1), 4097][section.min(3)];
    let near = count.wrapping_add(random.pick(&[1, u16::MAX]));
    let far = [count.swap_bytes(), count.wrapping_add(256), random.number() as u16];
    let far = random.pick(&far);
    random.pick(&[too_many, too_many, near, near, far, 0, 1, 1024, 4096, u16::MAX])
}

/// The file with another count, and where its items begin.
fn with_a_count(random: &mut Random, file: &[u8]) -> (Vec<u8>, usize) {
    let counts: Vec<(usize, usize)> = borders(file).into_iter().step_by(2).enumerate().collect();
    let (section, at) = random.pick(&counts);
    let mut file = file.to_vec();
    match file.get_mut(at..at + 2) {
        Some(count) => {
            let other = other_count(random, section, u16::from_le_bytes([count[0], count[1]]));
            count.copy_from_slice(&other.to_le_bytes());
            (file, at + 2)
        }
        None => (file, at),
    }
}

fn set_a_count(random: &mut Random, file: &[u8], _: &[u8]) -> Vec<u8> {
    with_a_count(random, file).0
}

/// Behind it, or some bytes later.
fn set_a_count_and_cut(random: &mut Random, file: &[u8], _: &[u8]) -> Vec<u8> {
    let (file, items) = with_a_count(random, file);
    let end = items + random.pick(&[0, 0, 0, 1]);
    file[..end.min(file.len())].to_vec()
}

/// The file once its sections are changed so, if it has four and nothing else.
fn with_sections(file: &[u8], change: impl FnOnce(&mut Vec<Section>)) -> Vec<u8> {
    match image::read(file) {
        Some(mut sections) => {
            change(&mut sections);
            image::file(&sections)
        }
        None => file.to_vec(),
    }
}

fn swap_sections(random: &mut Random, file: &[u8], _: &[u8]) -> Vec<u8> {
    with_sections(file, |sections| random.shuffle(sections))
}

fn drop_a_section(random: &mut Random, file: &[u8], _: &[u8]) -> Vec<u8> {
    with_sections(file, |sections| {
        sections.remove(random.below(4) as usize);
    })
}

fn double_a_section(random: &mut Random, file: &[u8], _: &[u8]) -> Vec<u8> {
    with_sections(file, |sections| {
        let at = random.below(4) as usize;
        sections.insert(at, sections[at].clone());
    })
}

fn set_the_base(random: &mut Random, file: &[u8], _: &[u8]) -> Vec<u8> {
    with_sections(file, |sections| {
        let pool = 64 * u32::from(sections[1].count);
        let highest = pool.wrapping_neg();
        let bases = [0, 8, 16, 17, highest, highest.wrapping_add(16), u32::MAX - 15];
        sections[0].items = random.pick(&bases).to_le_bytes().to_vec();
    })
}

/// And gives the blocks their right number.
fn set_an_entry(random: &mut Random, file: &[u8], _: &[u8]) -> Vec<u8> {
    let entry = random.pick(&[FREE, HEAD, TAIL, TAIL, TAIL, MARK]);
    with_entry(random, file, entry, |entry| entry != FREE)
}

/// And takes its block away.
fn set_a_mark(random: &mut Random, file: &[u8], _: &[u8]) -> Vec<u8> {
    with_entry(random, file, MARK, |entry| entry != FREE && entry != MARK)
}

/// The file with another entry of some block, often the first, and as many blocks as entries are used.
fn with_entry(
    random: &mut Random,
    file: &[u8],
    entry: u8,
    is_used: impl Fn(u8) -> bool,
) -> Vec<u8> {
    with_sections(file, |sections| {
        let [_, table, blocks, _] = &mut sections[..] else { unreachable!("four sections") };
        let anywhere = random.below(4 * table.items.len().max(1) as u64);
        let block = random.pick(&[0, anywhere, anywhere]);
        if let Some(four) = table.items.get_mut(block as usize / 4) {
            let shift = 2 * (block % 4);
            *four = *four & !(3 << shift) | entry << shift;
        }
        let used = entries_in(&table.items).filter(|entry| is_used(*entry)).count();
        blocks.items.resize(16 * used, 0x5A);
        blocks.count = used as u16;
    })
}

fn set_the_number_of_roots(random: &mut Random, file: &[u8], _: &[u8]) -> Vec<u8> {
    with_sections(file, |sections| {
        let roots = random.pick(&[0, 1, 255, 256, 4096, 4097, 4098]);
        sections[3] = Section { count: roots as u16, items: random.bytes(4 * roots) };
    })
}

fn take_any_bytes(random: &mut Random, _: &[u8], _: &[u8]) -> Vec<u8> {
    let length = random.pick(&[0, 1, 2, 8, 33, 100]);
    random.bytes(length)
}

#[cfg(test)]
mod tests {
    use super::*;

    #[test]
    fn a_good_file_is_an_image() {
        let random = &mut Random::new(1);
        for t in [1, 2, 3, 40] {
            let file = good(random, t);
            assert_eq!(blockheap::image_t(&file), Some(t as usize));
            assert_eq!(image::read(&file).map(|sections| image::file(&sections)), Some(file));
        }
    }

    #[test]
    fn borders_are_around_counts_and_items() {
        let sections = [4, 1, 16, 8].map(|bytes| Section { count: 1, items: vec![7; bytes] });
        let mut sections = sections.to_vec();
        sections[3].count = 2;
        let file = image::file(&sections);
        assert_eq!(borders(&file), [0, 2, 6, 8, 9, 11, 27, 29, 37]);
        assert_eq!(borders(&file[..26]), [0, 2, 6, 8, 9]);
        assert_eq!(borders(&[]), [0]);
    }

    #[test]
    fn every_change_makes_other_files_of_any_bytes() {
        let random = &mut Random::new(2);
        for (number, change) in CHANGES.iter().enumerate() {
            let mut others = 0;
            for _ in 0..200 {
                let (file, other) = (good(random, 3), good(random, 2));
                others += u64::from(change(random, &file, &other) != file);
                let bytes = random.below(40) as usize;
                change(random, &random.clone().bytes(bytes), &[]);
            }
            assert!(others > 100, "change {number} changed {others} of 200 files");
        }
    }
}
