//! Random heaps, calls and arguments: mostly sensible, often at a border, sometimes absurd.

use crate::planes::{table_bytes, FREE, HEAD, MARK, MOST, TAIL};
use crate::Buffer::{Image, Pool, Roots, Stack, Table};
use crate::{files, logs, Access, Call, Guarded, Lent, Random};

/// Far outside of every heap, and equal to small numbers where a number is cut or wrapped.
pub const HUGE: [u64; 6] = [1 << 32, 1 << 36, 1 << 60, 1 << 62, 1 << 63, u64::MAX - 31];

/// The first block at or after a random one that has this entry, or that one if the heap has none.
fn some_block(random: &mut Random, lent: &Lent, wanted: u8) -> u64 {
    let start = random.below(lent.blocks());
    let mut in_turn = (start..lent.blocks()).chain(0..start);
    in_turn.find(|block| lent.entry(*block) == wanted).unwrap_or(start)
}

fn some_head(random: &mut Random, lent: &Lent) -> u64 {
    some_block(random, lent, HEAD)
}

/// Any block of the head's object, the head itself more often than another.
fn some_part(random: &mut Random, lent: &Lent, head: u64) -> u64 {
    if random.percent(25) {
        head
    } else {
        head + random.below(lent.object_blocks(head))
    }
}

/// How the objects of a heap lead to each other.
#[derive(Clone, Copy, Debug)]
pub enum Shape {
    /// Random bytes.
    Noise,
    /// Random words that are mostly pointers.
    Pointers,
    /// Random words, few of which are pointers.
    FewPointers,
    /// Each object leads to the next.
    RisingChain,
    /// Each object leads to the one before, the worst for a short stack.
    FallingChain,
    /// A rising chain whose last leads to its first.
    Ring,
    /// Object i leads to objects 2i + 1 and 2i + 2.
    Tree,
}

const SHAPES: [Shape; 7] = [
    Shape::Noise,
    Shape::Pointers,
    Shape::FewPointers,
    Shape::RisingChain,
    Shape::FallingChain,
    Shape::Ring,
    Shape::Tree,
];

/// A heap of this t whose pool and table hold any bytes, with a base that fits.
pub fn noise(random: &mut Random, t: u64) -> Lent {
    let (pool, table) = (random.bytes(64 * t as usize), random.bytes(table_bytes(t)));
    Lent::new(good_base(random, t), t, &pool, &table)
}

/// A heap of this t with a well-formed table, at times one of logs.
pub fn heap(random: &mut Random, t: u64) -> Lent {
    let mut lent = noise(random, t);
    furnish(random, &mut lent);
    lent
}

/// Gives a heap objects, at times logs.
pub fn furnish(random: &mut Random, lent: &mut Lent) {
    if random.percent(20) {
        return logs::lay_out(random, lent);
    }
    lay_out(random, lent);
    let shape = random.pick(&SHAPES);
    link(random, lent, shape);
}

/// A heap of this t, full of objects of one block that lead to each other as a tree.
pub fn tree(random: &mut Random, t: u64) -> Lent {
    let mut lent = Lent::empty(4096, t);
    lent.set_entries(0..4 * t, HEAD);
    link(random, &mut lent, Shape::Tree);
    lent
}

/// Lays out objects and gaps in a table.
fn lay_out(random: &mut Random, lent: &mut Lent) {
    let blocks = lent.blocks();
    let long = blocks.div_ceil(3);
    let styles =
        [(1, 0), (1, 2), (3, 3), (9, 1), (9, 20), (long, 2), (blocks, 0), (blocks, blocks), (0, 0)];
    let (longest_object, longest_gap) = random.pick(&styles);
    lent[Table].fill(0);
    if longest_object == 0 {
        return;
    }
    let mut block = random.below(longest_gap + 1);
    while block < blocks {
        let end = blocks.min(block + random.between(1, longest_object));
        lent.set_object(block..end);
        block = end + random.below(longest_gap + 1);
    }
}

/// A base that fits, often the lowest or the highest.
fn good_base(random: &mut Random, t: u64) -> u64 {
    let highest = (1 << 32) - 64 * t;
    let between = 16 * random.between(1, highest / 16);
    random.pick(&[16, 4096, between, highest])
}

/// Fills the objects' words with pointers to each other.
fn link(random: &mut Random, lent: &mut Lent, shape: Shape) {
    let heads = lent.heads();
    let target = |index: usize| heads.get(index).copied();
    for (index, head) in heads.iter().enumerate() {
        let targets = match shape {
            Shape::Noise => continue,
            Shape::Pointers => {
                fill(random, lent, *head, 90);
                continue;
            }
            Shape::FewPointers => {
                fill(random, lent, *head, 5);
                continue;
            }
            Shape::RisingChain => [target(index + 1), None],
            Shape::FallingChain => [index.checked_sub(1).and_then(target), None],
            Shape::Ring => [target((index + 1) % heads.len()), None],
            Shape::Tree => [target(2 * index + 1), target(2 * index + 2)],
        };
        point(random, lent, *head, targets);
    }
}

/// Gives each word of the block's object a value, so many in a hundred of them pointers or nearly so.
fn fill(random: &mut Random, lent: &mut Lent, head: u64, percent: u64) {
    for word in 4 * head..4 * (head + lent.object_blocks(head)) {
        let value = if random.percent(percent) { word_value(random, lent) } else { 0 };
        lent.set_word(word as usize, value);
    }
}

/// Clears an object and puts addresses of the targets' objects at random places in it.
fn point(random: &mut Random, lent: &mut Lent, head: u64, targets: [Option<u64>; 2]) {
    let end = head + lent.object_blocks(head);
    lent[Pool][16 * head as usize..16 * end as usize].fill(0);
    let middle = random.between(4 * head + 1, 4 * end - 1);
    let places = [random.between(middle, 4 * end - 1), random.between(4 * head, middle - 1)];
    for (place, target) in places.into_iter().zip(targets) {
        if let Some(target) = target {
            let part = some_part(random, lent, target);
            lent.set_word(place as usize, address(lent, part));
        }
    }
}

pub fn address(lent: &Lent, block: u64) -> u32 {
    lent.base.wrapping_add(16 * block) as u32
}

/// Mostly an address of an object; else one that counts for nothing, or any number.
pub fn word_value(random: &mut Random, lent: &Lent) -> u32 {
    let any_block = random.below(lent.blocks());
    match random.below(16) {
        0 => address(lent, any_block),
        1 => address(lent, any_block) + random.between(1, 15) as u32,
        2 => address(lent, lent.blocks()),
        3 => (lent.base as u32).wrapping_sub(16),
        4 => address(lent, any_block).swap_bytes(),
        5 => any_block as u32,
        6 => random.number() as u32,
        7 => address(lent, some_block(random, lent, FREE)),
        _ => some_address(random, lent),
    }
}

/// An address of some object.
fn some_address(random: &mut Random, lent: &Lent) -> u32 {
    let head = some_head(random, lent);
    address(lent, some_part(random, lent, head))
}

/// A call with its arguments; for a collection and an append also roots and mark stack, for an image roots and
/// output, or the file and a list for its roots.
pub fn call(random: &mut Random, lent: &mut Lent) -> Call {
    match random.below(429) {
        0 => Call::Init,
        1..=74 => Call::Allocate { bytes: bytes(random, lent) },
        75..=104 => Call::Free { block: block(random, lent) },
        105..=169 => {
            let block = block(random, lent);
            Call::Reallocate { block, bytes: new_bytes(random, lent, block) }
        }
        170..=214 => {
            draw_roots(random, lent, 4096);
            lent[Stack] = Guarded::new(&stack(random));
            Call::Collect
        }
        215..=229 => Call::Survey,
        230..=259 => {
            let block = block(random, lent);
            Call::Load { block, word: word(random, lent, block) }
        }
        260..=299 => {
            let block = block(random, lent);
            let value = word_value(random, lent);
            Call::Store { block, word: word(random, lent, block), value }
        }
        300..=329 => {
            draw_any_roots(random, lent);
            lent[Image] = Guarded::new(&output(random, lent));
            Call::WriteImage
        }
        330..=353 => {
            let file = files::draw(random, lent);
            files::lend(random, lent, &file);
            Call::OpenImage
        }
        354..=398 => {
            draw_roots(random, lent, 4095);
            lent[Stack] = Guarded::new(&stack(random));
            let [time, tips] = [(); 2].map(|()| logs::reading(random, lent));
            Call::LogAppend { first: logs::first(random, lent), time, tips }
        }
        399..=416 => {
            let first = logs::first(random, lent);
            Call::LogRead { first, index: logs::index(random, lent, first) }
        }
        _ => Call::LogDrop { first: logs::first(random, lent) },
    }
}

fn bytes(random: &mut Random, lent: &Lent) -> u64 {
    let pool = lent[Pool].len() as u64;
    match random.below(16) {
        0 => 0,
        1 => random.pick(&HUGE) + random.below(32),
        2 => pool - 16 + random.below(33),
        3 | 4 => random.between(1, pool),
        5 => 16 * random.between(1, 4),
        _ => random.between(1, 100),
    }
}

/// Any number of bytes, or from a block less than the object has to four blocks more.
fn new_bytes(random: &mut Random, lent: &Lent, block: u64) -> u64 {
    if block < lent.blocks() && random.percent(25) {
        16 * (lent.object_blocks(block) - 1) + random.below(16 * 5 + 1)
    } else {
        bytes(random, lent)
    }
}

fn block(random: &mut Random, lent: &Lent) -> u64 {
    match random.below(16) {
        0 => random.below(lent.blocks()),
        1 => lent.blocks() + random.below(2),
        2 => random.pick(&HUGE).wrapping_add(some_head(random, lent)),
        _ => some_head(random, lent),
    }
}

fn word(random: &mut Random, lent: &Lent, block: u64) -> u64 {
    let words = if block < lent.blocks() { 4 * lent.object_blocks(block) } else { 4 };
    match random.below(16) {
        0 => words,
        1 => words - 1,
        2 => random.below(4 * lent.blocks()),
        3 => random.pick(&HUGE) + random.below(4),
        _ => random.below(words),
    }
}

/// Good roots; at times the most that the call takes, too many, or a piece of one.
pub fn draw_roots(random: &mut Random, lent: &mut Lent, most: u64) {
    let mut roots = good_roots(random, lent);
    let most = most.saturating_sub(roots.len() as u64);
    let more = match random.below(64) {
        0 => most,
        1 => most + random.pick(&[1, 1, 2, 11]),
        2..=5 => random.between(5, 64),
        _ => 0,
    };
    roots.extend((0..more).map(|_| word_value(random, lent)));
    lent.set_roots(&roots);
    if random.percent(2) {
        let piece = random.between(1, 3) as usize;
        lent[Roots] = Guarded::new(&[&lent[Roots][..], &random.bytes(piece)].concat());
    }
}

/// Roots as a collection takes them, or any bytes: a few words, at times the most, too many, or a piece.
fn draw_any_roots(random: &mut Random, lent: &mut Lent) {
    if random.percent(50) {
        return draw_roots(random, lent, 4096);
    }
    let words = if random.percent(5) { 4096 + random.below(3) } else { random.below(20) };
    let piece = if random.percent(5) { random.between(1, 3) } else { 0 };
    let length = 4 * words + piece;
    lent[Roots] = Guarded::new(&random.bytes(length as usize));
}

/// Addresses of most objects, of some or of none, and a few words, at most 4,096 in all.
pub fn good_roots(random: &mut Random, lent: &Lent) -> Vec<u32> {
    let percent = random.pick(&[90, 90, 30, 0]);
    let mut roots = addresses(random, lent, percent);
    let few = random.below(4);
    roots.extend((0..few).map(|_| word_value(random, lent)));
    roots.truncate(4096);
    roots
}

/// An address of each of so many objects in a hundred.
fn addresses(random: &mut Random, lent: &Lent, percent: u64) -> Vec<u32> {
    let mut heads = lent.heads();
    heads.retain(|_| random.percent(percent));
    heads.into_iter().map(|head| address(lent, some_part(random, lent, head))).collect()
}

/// A stack for the marks, with any content: 0 to 64 entries, at times more, or a piece of one.
fn stack(random: &mut Random) -> Vec<u8> {
    let len = match random.below(32) {
        0 => 4 * random.pick(&[65, 66, 100, 4096]),
        1 => random.below(280),
        2 => 4 * 64,
        3..=8 => 0,
        _ => return good_stack(random),
    };
    random.bytes(len as usize)
}

/// A stack of 0 to 64 entries, short ones more often.
pub fn good_stack(random: &mut Random) -> Vec<u8> {
    let most = random.pick(&[0, 2, 8, 64]);
    let entries = random.between(0, most);
    random.bytes(4 * entries as usize)
}

/// An output for the heap's image with its roots, of any content: as long, longer, or too short.
fn output(random: &mut Random, lent: &Lent) -> Vec<u8> {
    let image = lent.image_bytes() as u64;
    let length = match random.below(16) {
        0 => 0,
        1 | 2 => image - 1,
        3 => image - lent[Roots].len() as u64,
        4 => random.below(image),
        5..=9 => image,
        10 | 11 => image + 1,
        12 => image + random.below(5000),
        _ => image + random.below(40),
    };
    random.bytes(length as usize)
}

/// What the other heap of a pair is lent, where the first is lent these bytes.
pub fn other(random: &mut Random, access: Access, bytes: &Guarded) -> Guarded {
    match access {
        Access::Reads | Access::Writes => bytes.clone(),
        Access::Scratch => Guarded::new(&other_stack(random, bytes)),
        Access::Fills { .. } => Guarded::new(&random.bytes(bytes.len())),
    }
}

/// A stack of other content: as long, or of another length where both are accepted.
fn other_stack(random: &mut Random, stack: &[u8]) -> Vec<u8> {
    let accepted = stack.len() % 4 == 0 && stack.len() <= 256;
    if accepted && random.percent(50) {
        good_stack(random)
    } else {
        random.bytes(stack.len())
    }
}

/// Makes the heap wrong in one way, or in two.
pub fn damage(random: &mut Random, lent: &mut Lent) {
    damage_once(random, lent);
    if random.percent(25) {
        damage_once(random, lent);
    }
}

fn damage_once(random: &mut Random, lent: &mut Lent) {
    match random.below(12) {
        0 => lent.base = any_base(random, lent),
        1 | 2 => lent.t = any_t(random, lent.t),
        3 => lent[Pool] = Guarded::new(&random_length(random, &lent[Pool], 65)),
        4 => lent[Table] = Guarded::new(&random_length(random, &lent[Table], 2)),
        5 => {
            lent.t = random.pick(&[0, MOST + 1, MOST + 2]);
            lent[Pool] = Guarded::zeroed(64 * lent.t as usize);
            lent[Table] = Guarded::zeroed(table_bytes(lent.t));
        }
        6 if lent.fits() => {
            let table = random.bytes(lent[Table].len());
            lent[Table].copy_from_slice(&table);
        }
        7 if lent.fits() => lent.set_entry(0, TAIL),
        8 | 9 if lent.fits() => {
            let block = random.below(lent.blocks());
            let wrong = random.pick(&[MARK, TAIL, FREE]);
            lent.set_entry(block, wrong);
        }
        10 | 11 if lent.spare_bits().next().is_some() => set_spare_bits(random, lent),
        _ => lent.base = lent.base.wrapping_add(1),
    }
}

/// Sets one of the spare bits, or some.
fn set_spare_bits(random: &mut Random, lent: &mut Lent) {
    let all: Vec<_> = lent.spare_bits().collect();
    let times = random.pick(&[1, 1, 1, 8]);
    (0..times).for_each(|_| lent.set_spare(random.pick(&all), 1));
}

/// A t that does not fit the heap's lengths, and may be the right one where it is cut or wrapped.
pub fn any_t(random: &mut Random, right: u64) -> u64 {
    let far = right.wrapping_add(random.pick(&[1 << 32, 1 << 58, 1 << 63]));
    let near = right.wrapping_add(random.pick(&[1, right, u64::MAX]));
    random.pick(&[far, far, near, near, 0, MOST + 1, (1 << 32) + 1, u64::MAX])
}

/// A base that may fit or not.
pub fn any_base(random: &mut Random, lent: &Lent) -> u64 {
    let pool = lent[Pool].len() as u64;
    let highest = (1u64 << 32).wrapping_sub(pool);
    let misplaced = lent.base.wrapping_add(random.between(1, 15));
    let wrapping = pool.wrapping_neg();
    random.pick(&[
        0,
        8,
        16,
        highest,
        highest + 16,
        1 << 32,
        lent.base.wrapping_add(1 << 32),
        misplaced,
        wrapping,
        u64::MAX - 15,
    ])
}

/// The bytes with up to `most` more or fewer at the end.
fn random_length(random: &mut Random, bytes: &[u8], most: u64) -> Vec<u8> {
    let mut bytes = bytes.to_vec();
    let by = random.between(1, most) as usize;
    let len = if random.percent(50) { bytes.len() + by } else { bytes.len().saturating_sub(by) };
    bytes.resize(len, 0);
    bytes
}
