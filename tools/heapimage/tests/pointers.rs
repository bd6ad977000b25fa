//! What the tool says of an image is what the file says, and what leads where is what the library's
//! collection follows.

mod common;

use common::{images, longest, File};
use heapimage::{diff::differences, Image};

fn open(file: &[u8]) -> Image {
    Image::open(file).expect("an image")
}

/// The file of an image, written from what the tool knows of it.
fn file_of(image: &Image) -> Vec<u8> {
    let mut map = vec!['.'; image.blocks()];
    for object in &image.objects {
        map[object.block..][..object.blocks()].fill('=');
        map[object.block] = 'h';
    }
    let words: Vec<u32> = image.objects.iter().flat_map(|object| &object.words).copied().collect();
    let blocks: Vec<[u32; 4]> =
        words.chunks(4).map(|block| block.try_into().expect("four words")).collect();
    File::new(image.base, &String::from_iter(map), &blocks, &image.roots).bytes()
}

/// Whether each object is reachable, found by following the tool's pointers.
fn followed(image: &Image) -> Vec<bool> {
    let mut reached = vec![false; image.objects.len()];
    let mut left: Vec<usize> =
        image.pointers(&image.roots).map(|(_, target)| target.object).collect();
    while let Some(object) = left.pop() {
        if !std::mem::replace(&mut reached[object], true) {
            let words = &image.objects[object].words;
            left.extend(image.pointers(words).map(|(_, target)| target.object));
        }
    }
    reached
}

fn agrees(file: &[u8]) {
    let image = open(file);
    assert!(file_of(&image) == file, "{image:?}");
    let reachable: Vec<bool> = image.objects.iter().map(|object| object.reachable).collect();
    assert_eq!(followed(&image), reachable, "{image:?}");
    let kept = image.objects.iter().filter(|object| object.reachable);
    assert_eq!(kept.clone().count(), image.collected.objects as usize);
    assert_eq!(kept.map(|object| object.blocks()).sum::<usize>(), image.collected.used as usize);
    assert_eq!(image.objects.len(), image.survey.objects as usize);
}

#[test]
fn nothing_of_an_image_is_lost() {
    images().iter().for_each(|(_, file)| agrees(file));
    agrees(&longest());
}

/// One object of each size at each place, and one root: every address from below the pool to above it.
#[test]
fn an_address_leads_to_the_object_of_its_block() {
    const BASE: u32 = 4096;
    for (head, blocks) in (0..8).flat_map(|head| (1..=8 - head).map(move |blocks| (head, blocks))) {
        let map = [".".repeat(head), "h".into(), "=".repeat(blocks - 1)].concat();
        let map = format!("{map:.<8}");
        for root in BASE - 32..BASE + 160 {
            let file = File::new(BASE, &map, &vec![[root; 4]; blocks], &[root]).bytes();
            agrees(&file);
            let image = open(&file);
            let address = image.objects[0].address;
            let inside = (address..address + 16 * blocks as u32).contains(&root);
            let target = image.target(root).map(|target| (target.object, target.block as u32));
            let expected = (inside && root % 16 == 0).then(|| (0, (root - address) / 16));
            assert_eq!(target, expected, "{root:#x} in {map}");
        }
    }
}

/// Heaps whose words are small numbers, many of them addresses.
fn random_file(random: &mut impl FnMut(u32) -> u32) -> Vec<u8> {
    const BASE: u32 = 0x100;
    let blocks = 4 * (1 + random(9));
    let mut map = String::new();
    for _ in 0..blocks {
        let tail = if map.ends_with(['h', '=']) { '=' } else { '.' };
        map.push(['h', '.', tail, tail][random(4) as usize]);
    }
    let used = map.replace('.', "").len();
    let mut word = || if random(3) == 0 { BASE - 16 + 8 * random(2 * blocks + 4) } else { 0 };
    let words: Vec<[u32; 4]> = (0..used).map(|_| [word(), word(), word(), word()]).collect();
    let roots: Vec<u32> = (0..3).map(|_| word()).collect();
    File::new(BASE, &map, &words, &roots).bytes()
}

fn random_files() -> Vec<Vec<u8>> {
    let mut state = 1_u64;
    let mut random = move |below: u32| {
        state = state.wrapping_mul(6364136223846793005).wrapping_add(1442695040888963407);
        (state >> 33) as u32 % below
    };
    (0..3000).map(|_| random_file(&mut random)).collect()
}

#[test]
fn collections_follow_the_same_pointers() {
    random_files().iter().for_each(|file| agrees(file));
}

/// Images are the same, and nothing differs between them, if and only if the files are the same.
#[test]
fn files_that_differ_differ_in_something() {
    let files = random_files();
    for (a, b) in files.iter().zip(&files[1..]) {
        assert_eq!(differences(&open(a), &open(b)).is_empty(), a == b);
        assert_eq!(differences(&open(a), &open(a)), "");
    }
    for (_, file) in images() {
        for bit in 0..8 * file.len() {
            let mut other = file.clone();
            other[bit / 8] ^= 1 << (bit % 8);
            if let Ok(other) = Image::open(&other) {
                assert_ne!(differences(&open(&file), &other), "", "bit {bit}");
                assert_ne!(differences(&other, &open(&file)), "", "bit {bit}");
            }
        }
    }
}

/// A heap at the highest base beside a larger one, whose map goes on behind the last address.
#[test]
fn heaps_of_any_base_and_size_are_compared() {
    let high = File::new(0xFFFF_FFC0, "h...", &[[0; 4]], &[0xFFFF_FFC0]).bytes();
    let files = images().map(|(_, file)| file).into_iter().chain([high, longest()]);
    let images: Vec<Image> = files.map(|file| open(&file)).collect();
    for (x, a) in images.iter().enumerate() {
        for (y, b) in images.iter().enumerate() {
            assert_eq!(differences(a, b).is_empty(), x == y);
        }
    }
}
