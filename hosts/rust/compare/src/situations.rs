//! Situations that a refusal number does not show.

use crate::aligned::{aligned, free_from, large, lowest_start};
use crate::chains::{Chain, End};
use crate::image::{self, whole_sections, Section};
use crate::planes::{entries_in, table_bytes, SpareBit, FREE, MARK, MOST, TAIL};
use crate::Buffer::{Image, Pool, Roots, Stack, Table};
use crate::{second, Buffer, Call, Guarded, Lent, Reply};

/// A call that was made: on what, and with what reply.
pub struct Made<'m> {
    pub call: &'m Call,
    pub before: &'m Lent,
    pub reply: &'m Reply,
}

/// Of which call and with which refusal number, what it is called, and whether a call shows it.
type Situation = (&'static str, u32, &'static str, fn(&Made) -> bool);

/// In the place of a call's name.
const ANY: &str = "any call";

/// What is said to be alone is the one reason of the refusal.
pub const SITUATIONS: [Situation; 163] = [
    (ANY, 0, "t is 1", |made| made.before.t == 1),
    (ANY, 0, "t is odd", |made| made.before.t % 2 == 1),
    (ANY, 0, "t is even", |made| made.before.t % 2 == 0),
    (ANY, 1, "t is 0, and the lengths fit", |made| made.has_lengths_of(0)),
    (ANY, 1, "t is 1,025, and the lengths fit", |made| made.has_lengths_of(MOST + 1)),
    (ANY, 1, "t is 2^32 + 1, alone", |made| made.has_t_alone((1 << 32) + 1)),
    (ANY, 1, "t is 2^64 - 1, alone", |made| made.has_t_alone(u64::MAX)),
    (ANY, 1, "t is one less, alone", |made| made.has_t_alone(made.t_of_pool().wrapping_sub(1))),
    (ANY, 1, "t is one more, alone", |made| made.has_t_alone(made.t_of_pool() + 1)),
    (ANY, 1, "a table a byte short, alone", |made| made.has_table_alone(made.table_wanted() - 1)),
    (ANY, 1, "a table a byte long, alone", |made| made.has_table_alone(made.table_wanted() + 1)),
    (ANY, 1, "a table of t bytes, alone", |made| made.has_table_alone(made.before.t as i64)),
    (ANY, 2, "low plane's spare bit 4, alone", |made| made.has_spare_alone(0, 4)),
    (ANY, 2, "low plane's spare bit 5, alone", |made| made.has_spare_alone(0, 5)),
    (ANY, 2, "low plane's spare bit 6, alone", |made| made.has_spare_alone(0, 6)),
    (ANY, 2, "low plane's spare bit 7, alone", |made| made.has_spare_alone(0, 7)),
    (ANY, 2, "high plane's spare bit 4, alone", |made| made.has_spare_alone(1, 4)),
    (ANY, 2, "high plane's spare bit 5, alone", |made| made.has_spare_alone(1, 5)),
    (ANY, 2, "high plane's spare bit 6, alone", |made| made.has_spare_alone(1, 6)),
    (ANY, 2, "high plane's spare bit 7, alone", |made| made.has_spare_alone(1, 7)),
    ("init", 0, "low plane's spare bits", |made| made.spares_set().any(|spare| spare.plane == 0)),
    ("init", 0, "high plane's spare bits", |made| made.spares_set().any(|spare| spare.plane == 1)),
    ("allocate", 0, "over an unaligned run", |made| made.passes_over_a_run()),
    ("allocate", 9, "an unaligned run", |made| made.lowest_run().is_some()),
    ("reallocate", 0, "as many blocks", |made| made.part("change") == 0),
    ("reallocate", 0, "fewer blocks", |made| made.part("change") < 0),
    ("reallocate", 0, "grown in place", |made| made.grown_in_place()),
    ("reallocate", 0, "moved", |made| made.moved()),
    ("reallocate", 0, "grown in place, large", |made| {
        made.grown_in_place() && large(made.wanted())
    }),
    ("reallocate", 0, "grown in place, not at a border", |made| {
        made.grown_in_place() && made.block() % 4 != 0
    }),
    ("reallocate", 0, "moved with room in place", |made| made.moved() && made.has_room_in_place()),
    ("reallocate", 0, "moved over an unaligned run", |made| {
        made.moved() && made.passes_over_a_run()
    }),
    ("reallocate", 9, "room in place", |made| made.has_room_in_place()),
    ("reallocate", 9, "an unaligned run", |made| made.lowest_run().is_some()),
    ("reallocate", 0, "unaligned, as many blocks", |made| {
        made.was_unaligned() && made.part("change") == 0
    }),
    ("reallocate", 0, "unaligned, fewer blocks", |made| {
        made.was_unaligned() && made.part("change") < 0
    }),
    ("reallocate", 0, "unaligned, fewer blocks, still large", |made| {
        made.was_unaligned() && made.part("change") < 0 && large(made.wanted())
    }),
    ("reallocate", 0, "unaligned, moved", |made| made.was_unaligned() && made.moved()),
    ("reallocate", 9, "unaligned", |made| made.was_unaligned()),
    ("collect", 0, "nothing kept", |made| made.part("kept") == 0),
    ("collect", 0, "some kept, some freed", |made| made.kept() && made.part("change") < 0),
    ("collect", 0, "nothing freed", |made| made.kept() && made.part("change") == 0),
    ("collect", 0, "one rescan", |made| made.part("rescans") == 1),
    ("collect", 0, "two or more rescans", |made| made.part("rescans") > 1),
    ("collect", 3, "4,097 roots", |made| made.roots() == 4097),
    ("survey", 0, "no free block", |made| made.part("longest") == 0),
    ("survey", 0, "more than 64 in a row", |made| made.part("longest") > 64),
    ("survey", 0, "the last blocks free, t odd", |made| {
        made.before.t % 2 == 1 && made.part("longest") == made.free_at_the_end()
    }),
    ("survey", 0, "none as long is aligned", |made| made.longest_is_unaligned()),
    ("write image", 0, "no used block", |made| made.used() == 0),
    ("write image", 0, "no free block", |made| made.used() == made.before.blocks()),
    ("write image", 0, "more than 255 used blocks", |made| made.used() > 255),
    ("write image", 0, "t above 255", |made| made.before.t > 255),
    ("write image", 0, "no roots", |made| made.roots() == 0),
    ("write image", 0, "4,096 roots", |made| made.roots() == 4096),
    ("write image", 0, "as long as the output", |made| made.left_over() == 0),
    ("write image", 0, "shorter than the output", |made| made.left_over() > 0),
    ("write image", 1, "a piece of a root, alone", |made| made.has_piece_of_root_alone()),
    ("write image", 3, "4,097 roots", |made| made.roots() == 4097),
    ("write image", 10, "a byte longer than the output", |made| made.left_over() == -1),
    ("write image", 10, "an empty output", |made| made.before[Image].is_empty()),
    ("write image", 10, "no room for the roots alone", |made| {
        made.roots() > 0 && made.left_over() == -4 * made.roots()
    }),
    ("open image", 0, "no used block", |made| made.count(BLOCKS) == Some(0)),
    ("open image", 0, "no free block", |made| !made.file_entries().contains(&FREE)),
    ("open image", 0, "more than 255 used blocks", |made| made.count(BLOCKS) > Some(255)),
    ("open image", 0, "t above 255", |made| made.before.t > 255),
    ("open image", 0, "no roots", |made| made.part("count") == 0),
    ("open image", 0, "4,096 roots", |made| made.part("count") == 4096),
    ("open image", 0, "a list as long as the roots", |made| made.entries_left_over() == 0),
    ("open image", 0, "a list of more than 4,096 entries", |made| made.roots() > 4096),
    ("open image", 0, "over an ill-formed table", |made| made.lies_over_a_wrong_table()),
    ("open image", 0, "over a spare bit", |made| made.spares_set().next().is_some()),
    ("open image", 0, "at another base", |made| made.part("base") as u64 != made.before.base),
    ("open image", 1, "a base of 0, alone", |made| made.has_base_alone(|base, _| base == 0)),
    ("open image", 1, "a base inside a block, alone", |made| {
        made.has_base_alone(|base, _| base % 16 != 0)
    }),
    ("open image", 1, "a base a block too high, alone", |made| {
        made.has_base_alone(|base, t| base + 64 * t == (1 << 32) + 16)
    }),
    ("open image", 1, "memory of another t, alone", |made| made.has_memory_of_another_t()),
    ("open image", 1, "a piece of an entry, alone", |made| made.has_piece_of_root_alone()),
    ("open image", 2, "a mark, alone", |made| made.table_faults() == [true, false, false]),
    ("open image", 2, "a tail at block 0, alone", |made| {
        made.table_faults() == [false, true, false]
    }),
    ("open image", 2, "a tail after a free block, alone", |made| {
        made.table_faults() == [false, false, true]
    }),
    ("open image", 2, "too short a list", |made| made.entries_left_over() < 0),
    ("open image", 3, "4,097 roots", |made| made.count(ROOTS) == Some(4097)),
    ("open image", 3, "no roots behind the count", |made| made.ends_with_count(ROOTS)),
    ("open image", 14, "an empty file", |made| made.before[Image].is_empty()),
    ("open image", 14, "in the base's count", |made| made.is_cut_in_count(BASE)),
    ("open image", 14, "in the base", |made| made.is_cut_in_items(BASE)),
    ("open image", 14, "in the table's count", |made| made.is_cut_in_count(TABLE)),
    ("open image", 14, "in the table", |made| made.is_cut_in_items(TABLE)),
    ("open image", 14, "in the blocks' count", |made| made.is_cut_in_count(BLOCKS)),
    ("open image", 14, "in the blocks", |made| made.is_cut_in_items(BLOCKS)),
    ("open image", 14, "in the roots' count", |made| made.is_cut_in_count(ROOTS)),
    ("open image", 14, "in the roots", |made| made.is_cut_in_items(ROOTS)),
    ("open image", 15, "no base", |made| made.count(BASE) == Some(0)),
    ("open image", 15, "two bases", |made| made.count(BASE) == Some(2)),
    ("open image", 15, "nothing behind the base's count", |made| made.ends_with_count(BASE)),
    ("open image", 15, "no table", |made| made.has_wrong_count(TABLE, 0)),
    ("open image", 15, "a table of 1,025 bytes", |made| made.has_wrong_count(TABLE, 1025)),
    ("open image", 15, "nothing behind the table's count", |made| {
        made.has_right_counts_before(TABLE) && made.ends_with_count(TABLE)
    }),
    ("open image", 15, "a block too few", |made| made.has_wrong_blocks(-1)),
    ("open image", 15, "a block too many", |made| made.has_wrong_blocks(1)),
    ("open image", 15, "without the marks", |made| {
        let marks = made.file_entries().into_iter().filter(|entry| *entry == MARK).count();
        made.has_wrong_blocks(-(marks as i64))
    }),
    ("open image", 15, "nothing behind the blocks' count", |made| {
        made.has_right_counts_before(BLOCKS) && made.ends_with_count(BLOCKS)
    }),
    ("open image", 16, "one byte", |made| made.rest_of_file() == 1),
    ("open image", 16, "an image", |made| made.has_image_behind()),
    ("open image", 17, "an entry too few", |made| made.entries_left_over() == -1),
    ("open image", 17, "an empty list", |made| made.before[Roots].is_empty()),
    (ANY, 18, "the first is a tail", |made| made.first_is(End::Tail)),
    (ANY, 18, "a later one is a tail", |made| made.later_is(End::Tail)),
    (ANY, 18, "the first is free", |made| made.first_is(End::Free)),
    (ANY, 18, "a later one is free", |made| made.later_is(End::Free)),
    (ANY, 18, "the first is inside a block", |made| made.first_is(End::InsideABlock)),
    (ANY, 18, "a later one is inside a block", |made| made.later_is(End::InsideABlock)),
    (ANY, 18, "the first is outside the pool", |made| made.first_is(End::OutsideThePool)),
    (ANY, 18, "a later one is outside the pool", |made| made.later_is(End::OutsideThePool)),
    (ANY, 18, "the first is beyond 32 bits", |made| made.first_is(End::Beyond32Bits)),
    (ANY, 18, "beyond 32 bits, a log's if cut", |made| made.is_log_if_cut()),
    (ANY, 18, "the first has one block", |made| made.first_is(End::OneBlock)),
    (ANY, 18, "a later one has one block", |made| made.later_is(End::OneBlock)),
    (ANY, 18, "the first has three blocks", |made| made.first_is(End::ThreeBlocks)),
    (ANY, 18, "a later one has three blocks", |made| made.later_is(End::ThreeBlocks)),
    (ANY, 18, "the first has more blocks", |made| made.first_is(End::MoreBlocks)),
    (ANY, 18, "a later one has more blocks", |made| made.later_is(End::MoreBlocks)),
    (ANY, 18, "back to the first of several", |made| {
        made.leads_back(|place, last| place == 0 && last > 0)
    }),
    (ANY, 18, "back to one between", |made| {
        made.leads_back(|place, last| 0 < place && place < last)
    }),
    (ANY, 18, "the last of several to itself", |made| {
        made.leads_back(|place, last| place == last && last > 0)
    }),
    (ANY, 18, "a single one to itself", |made| made.leads_back(|_, last| last == 0)),
    ("log append", 0, "the first entry", |made| made.entries() == 0),
    ("log append", 0, "the second entry", |made| made.entries() == 1),
    ("log append", 0, "a later entry", |made| made.entries() > 1),
    ("log append", 0, "room at once", |made| !made.collects()),
    ("log append", 0, "room at once, and a mark stack", |made| {
        !made.collects() && !made.before[Stack].is_empty()
    }),
    ("log append", 0, "room made", |made| made.collects()),
    ("log append", 0, "room made, the first entry", |made| made.collects() && made.entries() == 0),
    ("log append", 0, "room made, more than two blocks freed", |made| made.part("change") < 0),
    ("log append", 0, "room made, its address needed", |made| {
        made.collects() && made.is_lost_without_its_root()
    }),
    ("log append", 0, "room made, the roots needed", |made| {
        made.collects() && made.is_changed_by_its_roots()
    }),
    ("log append", 0, "words behind the tip count that are not 0", |made| made.has_other_words()),
    ("log append", 0, "4,095 roots", |made| made.roots() == 4095),
    ("log append", 1, "a piece of a root, alone", |made| made.has_piece_of_root_alone()),
    ("log append", 1, "a piece of the mark stack, alone", |made| made.has_piece_of_stack_alone()),
    ("log append", 3, "4,096 roots", |made| made.roots() == 4096),
    ("log append", 3, "4,096 roots, an empty log", |made| {
        made.roots() == 4096 && made.first() == 0
    }),
    ("log append", 3, "4,096 roots, no log", |made| made.roots() == 4096 && !made.is_log()),
    ("log append", 4, "65 entries", |made| made.before[Stack].len() == 4 * 65),
    ("log append", 4, "no log", |made| !made.is_log()),
    ("log append", 9, "nothing freed", |made| made.part("change") == 0),
    ("log append", 9, "some freed", |made| made.part("change") < 0),
    ("log append", 9, "the first entry", |made| made.entries() == 0),
    ("log append", 9, "a later entry", |made| made.entries() > 0),
    ("log append", 9, "a free block", |made| made.used() < made.before.blocks()),
    ("log append", 9, "some freed, its address needed", |made| {
        made.part("change") < 0 && made.is_lost_without_its_root()
    }),
    ("log append", 18, "no room", |made| lowest_start(made.before, 2, |_| true).is_none()),
    ("log read", 0, "the oldest", |made| made.index() == 0),
    ("log read", 0, "one between", |made| 0 < made.index() && made.index() + 1 < made.entries()),
    ("log read", 0, "the newest of several", |made| {
        0 < made.index() && made.index() + 1 == made.entries()
    }),
    ("log read", 0, "words behind the tip count that are not 0", |made| made.has_other_words()),
    ("log read", 19, "an empty log", |made| made.first() == 0),
    ("log read", 19, "the one behind the newest", |made| {
        made.first() != 0 && made.index() == made.entries()
    }),
    ("log read", 19, "an entry's, if cut to 32 bits", |made| {
        u64::from(made.index() as u32) < made.entries()
    }),
    ("log drop", 0, "the only one", |made| made.entries() == 1),
    ("log drop", 0, "one of several", |made| made.entries() > 1),
    ("log drop", 0, "words behind the tip count that are not 0", |made| made.has_other_words()),
];

// The sections of a file.
const BASE: usize = 0;
const TABLE: usize = 1;
const BLOCKS: usize = 2;
const ROOTS: usize = 3;

impl Made<'_> {
    pub fn shows(&self, (call, refusal, _, shown): &Situation) -> bool {
        let of_call = *call == ANY || *call == self.call.description().name;
        of_call && self.reply.refusal == *refusal && shown(self)
    }

    /// Whether the call has this t, and pool and table have its lengths.
    fn has_lengths_of(&self, t: u64) -> bool {
        let Made { before, .. } = self;
        let lengths = || [64 * t as usize, table_bytes(t)];
        before.t == t && [before[Pool].len(), before[Table].len()] == lengths()
    }

    /// Whether the call is answered otherwise once what is lent is changed so.
    fn is_mended(&self, mend: impl FnOnce(&mut Lent)) -> bool {
        let mut mended = self.before.clone();
        mend(&mut mended);
        second(self.call, &mut mended).refusal != self.reply.refusal
    }

    fn t_of_pool(&self) -> u64 {
        self.before[Pool].len() as u64 / 64
    }

    fn has_t_alone(&self, t: u64) -> bool {
        self.before.t == t && self.is_mended(|lent| lent.t = self.t_of_pool())
    }

    /// The right length of the table, as far as t is one.
    fn table_wanted(&self) -> i64 {
        table_bytes(self.before.t.min(MOST)) as i64
    }

    fn has_table_alone(&self, length: i64) -> bool {
        let mut right = self.before[Table].to_vec();
        right.resize(self.table_wanted() as usize, 0);
        let wrong = self.before[Table].len() as i64;
        wrong == length && self.is_mended(|lent| lent.set_table(&right))
    }

    fn spares_set(&self) -> impl Iterator<Item = SpareBit> + '_ {
        self.before.spare_bits().filter(|spare| self.before.spare(*spare) == 1)
    }

    fn has_spare_alone(&self, plane: usize, bit: u32) -> bool {
        let spare = SpareBit { plane, bit };
        let alone = self.spares_set().eq([spare]);
        alone && self.is_mended(|lent| lent.set_spare(spare, 0))
    }

    /// How many blocks are free in a row up to the last one.
    fn free_at_the_end(&self) -> i64 {
        let free = free_from(self.before).into_iter().zip(0..);
        let mut up_to_the_end = free.filter(|(free, start)| free + start == self.before.blocks());
        up_to_the_end.next().map_or(0, |(free, _)| free as i64)
    }

    fn part(&self, name: &str) -> i64 {
        self.reply.parts[name]
    }

    /// The blocks that are asked for.
    fn wanted(&self) -> u64 {
        match self.call {
            Call::Allocate { bytes } | Call::Reallocate { bytes, .. } => bytes.div_ceil(16),
            _ => unreachable!("asked of allocate and reallocate"),
        }
    }

    /// The head of the object that is resized.
    fn block(&self) -> u64 {
        match self.call {
            Call::Reallocate { block, .. } => *block,
            _ => unreachable!("asked of reallocate"),
        }
    }

    fn grown_in_place(&self) -> bool {
        self.part("change") > 0 && self.part("block") == self.block() as i64
    }

    fn moved(&self) -> bool {
        self.part("block") != self.block() as i64
    }

    /// The lowest run of as many blocks as asked for, wherever it begins.
    fn lowest_run(&self) -> Option<u64> {
        lowest_start(self.before, self.wanted(), |_| true)
    }

    fn passes_over_a_run(&self) -> bool {
        self.lowest_run() != Some(self.part("block") as u64)
    }

    /// The blocks of the object that is resized.
    fn had(&self) -> u64 {
        self.before.object_blocks(self.block())
    }

    /// Whether the object and the free blocks after it are as many as asked for.
    fn has_room_in_place(&self) -> bool {
        let end = self.block() + self.had();
        self.wanted() <= self.had() + free_from(self.before)[end as usize]
    }

    /// Whether the object is one that no allocation makes.
    fn was_unaligned(&self) -> bool {
        !aligned(self.block(), self.had())
    }

    fn kept(&self) -> bool {
        self.part("kept") > 0
    }

    fn used(&self) -> u64 {
        self.before.used().count() as u64
    }

    fn roots(&self) -> i64 {
        self.before[Roots].len() as i64 / 4
    }

    /// How much longer the output is than the image.
    fn left_over(&self) -> i64 {
        self.before[Image].len() as i64 - self.before.image_bytes() as i64
    }

    fn has_piece_of_root_alone(&self) -> bool {
        self.has_piece_alone(Roots)
    }

    fn has_piece_of_stack_alone(&self) -> bool {
        self.has_piece_alone(Stack)
    }

    fn has_piece_alone(&self, buffer: Buffer) -> bool {
        let words = &self.before[buffer];
        let whole = Guarded::new(&words[..words.len() / 4 * 4]);
        whole.len() < words.len() && self.is_mended(|lent| lent[buffer] = whole)
    }

    /// The whole sections of the file that is to be opened, and how many bytes are behind them.
    fn file(&self) -> (Vec<Section>, &[u8]) {
        whole_sections(&self.before[Image])
    }

    /// The count of a section, if those before it are whole and the count is there.
    fn count(&self, section: usize) -> Option<u64> {
        let (sections, rest) = self.file();
        let of_rest = || rest.first_chunk().map(|count| u16::from_le_bytes(*count));
        let next = (section == sections.len() && section <= ROOTS).then(of_rest).flatten();
        sections.get(section).map(|section| section.count).or(next).map(u64::from)
    }

    /// The entries of the file's table, if that is whole.
    fn file_entries(&self) -> Vec<u8> {
        let (sections, _) = self.file();
        sections.get(TABLE).map_or(vec![], |table| entries_in(&table.items).collect())
    }

    fn file_used(&self) -> u64 {
        self.file_entries().into_iter().filter(|entry| *entry != FREE).count() as u64
    }

    /// Whether the counts of the sections before this one are there, and right.
    fn has_right_counts_before(&self, section: usize) -> bool {
        let right = |section: usize| match section {
            BASE => self.count(BASE) == Some(1),
            TABLE => self.count(TABLE).is_some_and(|count| (1..=MOST).contains(&count)),
            _ => self.count(BLOCKS) == Some(self.file_used()),
        };
        (BASE..section).all(right)
    }

    fn has_wrong_count(&self, section: usize, count: u64) -> bool {
        self.has_right_counts_before(section) && self.count(section) == Some(count)
    }

    /// Whether the first wrong count is that of the blocks, and by so much.
    fn has_wrong_blocks(&self, by: i64) -> bool {
        by != 0 && self.has_wrong_count(BLOCKS, self.file_used().wrapping_add_signed(by))
    }

    fn ends_with_count(&self, section: usize) -> bool {
        let (sections, rest) = self.file();
        sections.len() == section && rest.len() == 2
    }

    fn is_cut_in_count(&self, section: usize) -> bool {
        let (sections, rest) = self.file();
        sections.len() == section && rest.len() < 2
    }

    fn is_cut_in_items(&self, section: usize) -> bool {
        let (sections, rest) = self.file();
        sections.len() == section && rest.len() >= 2
    }

    fn rest_of_file(&self) -> usize {
        self.file().1.len()
    }

    fn has_image_behind(&self) -> bool {
        image::read(self.file().1).is_some()
    }

    /// How many more entries the list has than the file has roots.
    fn entries_left_over(&self) -> i64 {
        self.roots() - self.count(ROOTS).unwrap_or(0) as i64
    }

    /// What faults the file's entries have: a mark, a tail at block 0, a tail after a free block.
    fn table_faults(&self) -> [bool; 3] {
        let entries = self.file_entries();
        let after_free = entries.windows(2).any(|pair| pair == [FREE, TAIL]);
        [entries.contains(&MARK), entries.first() == Some(&TAIL), after_free]
    }

    fn has_base_alone(&self, is_wrong: impl Fn(u64, u64) -> bool) -> bool {
        let (sections, _) = self.file();
        let base = listheap::words_of(&sections[BASE].items)[0];
        is_wrong(base.into(), sections[TABLE].count.into())
            && self.is_mended(|lent| lent[Image][2..6].copy_from_slice(&4096u32.to_le_bytes()))
    }

    fn has_memory_of_another_t(&self) -> bool {
        let t = self.count(TABLE).unwrap_or(0);
        let right = Lent::empty(self.before.base, t);
        self.before.fits()
            && self.is_mended(|lent| {
                lent.t = t;
                lent[Pool] = right[Pool].clone();
                lent[Table] = right[Table].clone();
            })
    }

    fn lies_over_a_wrong_table(&self) -> bool {
        let lent = &mut Lent { base: 4096, ..self.before.clone() };
        second(&Call::Survey, lent).refusal == 2
    }

    fn first(&self) -> u64 {
        self.call.first().expect("a call on a log")
    }

    fn chain(&self) -> Chain {
        self.before.chain(self.first())
    }

    fn is_log(&self) -> bool {
        self.chain().is_log()
    }

    /// How many entries the log has.
    fn entries(&self) -> u64 {
        self.chain().heads.len() as u64
    }

    fn first_is(&self, end: End) -> bool {
        self.chain() == Chain { heads: vec![], end }
    }

    fn later_is(&self, end: End) -> bool {
        let chain = self.chain();
        !chain.heads.is_empty() && chain.end == end
    }

    /// Whether the chain leads back to a place of its own like that, which is given with the last one.
    fn leads_back(&self, to: impl Fn(usize, usize) -> bool) -> bool {
        let Chain { heads, end } = self.chain();
        matches!(end, End::Again(place) if to(place, heads.len() - 1))
    }

    fn is_log_if_cut(&self) -> bool {
        let cut = self.before.chain(u64::from(self.first() as u32));
        self.first_is(End::Beyond32Bits) && cut.is_log() && !cut.heads.is_empty()
    }

    /// Whether an entry has a word that no call looks at, and that is not 0.
    fn has_other_words(&self) -> bool {
        let heads = self.chain().heads.into_iter();
        let mut others = heads.flat_map(|head| (3..8).map(move |word| 4 * head as usize + word));
        others.any(|word| self.before.word(word) != 0)
    }

    /// The entry that is read.
    fn index(&self) -> u64 {
        match self.call {
            Call::LogRead { index, .. } => *index,
            _ => unreachable!("asked of reads"),
        }
    }

    fn collects(&self) -> bool {
        self.call.collects(self.reply)
    }

    /// What a collection from other roots than the append's leaves.
    fn collected_from(&self, roots: &[u32]) -> Lent {
        let mut lent = self.before.clone();
        lent.set_roots(roots);
        second(&Call::Collect, &mut lent);
        lent
    }

    /// Whether the caller's roots alone do not keep all of the log.
    fn is_lost_without_its_root(&self) -> bool {
        let left = self.collected_from(&listheap::words_of(&self.before[Roots]));
        self.chain().heads.iter().any(|head| left.entry(*head) == FREE)
    }

    /// Whether the log alone does not keep all that the caller's roots keep.
    fn is_changed_by_its_roots(&self) -> bool {
        let roots = listheap::words_of(&self.before[Roots]);
        let log = self.first() as u32;
        let [alone, with_roots] =
            [vec![log], [&[log], &roots[..]].concat()].map(|roots| self.collected_from(&roots));
        alone[Table][..] != with_roots[Table][..]
    }

    fn longest_is_unaligned(&self) -> bool {
        let longest = self.part("longest") as u64;
        lowest_start(self.before, longest, |start| aligned(start, longest)).is_none()
    }
}

#[cfg(test)]
mod tests {
    use super::*;

    /// The situations that a call shows: of any call, or of this one alone.
    fn shown(before: &Lent, call: Call, of_any: bool) -> Vec<&'static str> {
        let reply = second(&call, &mut before.clone());
        let made = Made { call: &call, before, reply: &reply };
        let shown = SITUATIONS.iter().filter(|situation| made.shows(situation));
        shown.filter(|(call, ..)| (*call == ANY) == of_any).map(|(_, _, name, _)| *name).collect()
    }

    fn check(numbers: &[u8], call: Call, names: &[&str]) {
        let before = Lent::of_numbers(4096, numbers);
        assert_eq!(shown(&before, call, false), names, "{call:?} on {numbers:?}");
    }

    #[test]
    fn a_t_that_does_not_fit_is_seen() {
        let heap = |t, pool, table: usize| Lent::new(4096, t, &vec![0; pool], &vec![0; table]);
        for (before, names) in [
            (heap(1, 64, 2), &["t is 1", "t is odd"][..]),
            (heap(2, 128, 2), &["t is even"]),
            (heap(0, 0, 0), &["t is 0, and the lengths fit"]),
            (heap(0, 64, 2), &["t is one less, alone"]),
            (heap(1025, 64 * 1025, 1026), &["t is 1,025, and the lengths fit"]),
            (heap(1025, 64, 2), &[]),
            (heap((1 << 32) + 1, 64, 2), &["t is 2^32 + 1, alone"]),
            (heap(u64::MAX, 64, 2), &["t is 2^64 - 1, alone"]),
            (heap(3, 128, 2), &["t is one more, alone"]),
            (heap(4, 256, 3), &["a table a byte short, alone"]),
            (heap(4, 256, 5), &["a table a byte long, alone"]),
            (heap(3, 192, 3), &["a table a byte short, alone", "a table of t bytes, alone"]),
            (heap(3, 193, 3), &[]),
        ] {
            assert_eq!(shown(&before, Call::Init, true), names, "{before}");
        }
    }

    #[test]
    fn spare_bits_are_seen() {
        for (plane, bit) in [(0, 4), (0, 7), (1, 5), (1, 6)] {
            let mut before = Lent::of_numbers(4096, &[165, 0, 1]);
            before.set_spare(SpareBit { plane, bit }, 1);
            let plane = ["low", "high"][plane];
            let alone = format!("{plane} plane's spare bit {bit}, alone");
            assert_eq!(shown(&before, Call::Survey, true), [alone]);
            assert_eq!(shown(&before, Call::Init, false), [format!("{plane} plane's spare bits")]);
            before.set_entry(0, 2);
            assert_eq!(shown(&before, Call::Survey, true), [] as [&str; 0]);
        }
    }

    #[test]
    fn where_allocations_begin_is_seen() {
        let allocate = |blocks: u64| Call::Allocate { bytes: 16 * blocks };
        check(&[1, 0], allocate(3), &[]);
        check(&[1, 0], allocate(4), &["over an unaligned run"]);
        check(&[0, 1], allocate(4), &[]);
        check(&[1, 84], allocate(4), &["an unaligned run"]);
        check(&[1, 85], allocate(4), &[]);
    }

    #[test]
    fn where_objects_grow_is_seen() {
        let reallocate = |block, blocks: u64| Call::Reallocate { block, bytes: 16 * blocks };
        check(&[1, 0], reallocate(0, 3), &["grown in place"]);
        check(&[1, 0], reallocate(0, 4), &["grown in place", "grown in place, large"]);
        check(&[5, 0], reallocate(0, 2), &["moved"]);
        let not_at_a_border = "grown in place, not at a border";
        check(&[5, 0], reallocate(1, 3), &["grown in place", not_at_a_border]);
        let moved = ["moved", "moved with room in place", "moved over an unaligned run"];
        check(&[5, 0], reallocate(1, 4), &moved);
        check(&[5, 5], reallocate(0, 4), &[]);
        check(&[5, 64], reallocate(1, 4), &["room in place", "an unaligned run"]);
    }

    #[test]
    fn what_becomes_of_unaligned_objects_is_seen() {
        let reallocate = |blocks: u64| Call::Reallocate { block: 1, bytes: 16 * blocks };
        let old = [164, 2, 0];
        check(&old, reallocate(3), &["fewer blocks", "unaligned, fewer blocks"]);
        check(&old, reallocate(4), &["as many blocks", "unaligned, as many blocks"]);
        check(&old, reallocate(5), &["room in place", "an unaligned run", "unaligned"]);
        let still_large = "unaligned, fewer blocks, still large";
        let fewer = ["fewer blocks", "unaligned, fewer blocks", still_large];
        check(&[164, 10], reallocate(4), &fewer);
        let moved = ["moved", "moved with room in place", "moved over an unaligned run"];
        let moved = [&moved[..], &["unaligned, moved"]].concat();
        check(&[164, 2, 0, 0], reallocate(5), &moved);
    }

    /// The situations that an image shows of a heap with such roots, in an output of this length.
    fn shown_by_image(numbers: &[u8], roots: &[u8], output: usize) -> Vec<&'static str> {
        let mut before = Lent::of_numbers(4096, numbers);
        before[Roots] = Guarded::new(roots);
        before.set_output(output);
        shown(&before, Call::WriteImage, false)
    }

    #[test]
    fn what_an_image_is_of_is_seen() {
        let as_long = "as long as the output";
        assert_eq!(shown_by_image(&[0], &[], 13), ["no used block", "no roots", as_long]);
        assert_eq!(shown_by_image(&[4], &[0; 4], 33), [as_long]);
        assert_eq!(shown_by_image(&[85], &[0; 4], 81), ["no free block", as_long]);
        let most = ["no used block", "t above 255", "4,096 roots", as_long];
        assert_eq!(shown_by_image(&[0; 256], &[0; 4 * 4096], 268 + 4 * 4096), most);
        let full = ["no free block", "more than 255 used blocks", "no roots", as_long];
        assert_eq!(shown_by_image(&[85; 64], &[], 76 + 16 * 256), full);
    }

    #[test]
    fn how_an_image_fits_its_output_is_seen() {
        assert_eq!(shown_by_image(&[1], &[0; 8], 38), ["shorter than the output"]);
        assert_eq!(shown_by_image(&[1], &[0; 8], 36), ["a byte longer than the output"]);
        assert_eq!(shown_by_image(&[1], &[0; 8], 29), ["no room for the roots alone"]);
        assert_eq!(shown_by_image(&[1], &[0; 8], 0), ["an empty output"]);
        assert_eq!(shown_by_image(&[1], &[0; 7], 37), ["a piece of a root, alone"]);
        assert_eq!(shown_by_image(&[1, 8], &[0; 7], 200), ["a piece of a root, alone"]);
        assert_eq!(shown_by_image(&[8], &[0; 8], 0), [] as [&str; 0]);
        assert_eq!(shown_by_image(&[1], &[0; 4 * 4097], 0), ["4,097 roots"]);
    }

    /// The image of a heap with an object in the first of four blocks, with two roots.
    const FILE: [u8; 37] = {
        let mut file = [0; 37];
        (file[0], file[3], file[6], file[8], file[9], file[27]) = (1, 16, 1, 1, 1, 2);
        file
    };

    /// The situations that the opening of a file shows, in empty memory of this t and with a list of so many
    /// bytes.
    fn shown_by_file(file: &[u8], t: u64, list: usize) -> Vec<&'static str> {
        let mut before = Lent::empty(4096, t);
        before[Image] = Guarded::new(file);
        before[Roots] = Guarded::zeroed(list);
        shown(&before, Call::OpenImage, false)
    }

    /// The same with other bytes in the file, in memory that fits and with a list of two entries.
    fn shown_by_changed_file(changes: &[(usize, u8)]) -> Vec<&'static str> {
        let mut file = FILE;
        changes.iter().for_each(|(at, byte)| file[*at] = *byte);
        shown_by_file(&file, 1, 8)
    }

    #[test]
    fn where_a_file_is_cut_is_seen() {
        for (length, names) in [
            (0, &["an empty file", "in the base's count"][..]),
            (1, &["in the base's count"]),
            (2, &["in the base"]),
            (5, &["in the base"]),
            (6, &["in the table's count"]),
            (8, &["in the table"]),
            (9, &["in the blocks' count"]),
            (26, &["in the blocks"]),
            (28, &["in the roots' count"]),
            (36, &["in the roots"]),
        ] {
            assert_eq!(shown_by_file(&FILE[..length], 1, 8), names, "{length} bytes");
        }
    }

    #[test]
    fn which_count_is_wrong_is_seen() {
        assert_eq!(shown_by_changed_file(&[(0, 0)]), ["no base"]);
        assert_eq!(shown_by_changed_file(&[(0, 2)]), ["two bases"]);
        let nothing = "nothing behind the base's count";
        assert_eq!(shown_by_file(&[2, 0], 1, 8), ["two bases", nothing]);
        assert_eq!(shown_by_changed_file(&[(6, 0)]), ["no table"]);
        assert_eq!(shown_by_changed_file(&[(6, 1), (7, 4)]), ["a table of 1,025 bytes"]);
        let none = [&FILE[..6], &[1, 4]].concat();
        let nothing = "nothing behind the table's count";
        assert_eq!(shown_by_file(&none, 1, 8), ["a table of 1,025 bytes", nothing]);
        assert_eq!(shown_by_changed_file(&[(9, 2)]), ["a block too many"]);
        assert_eq!(shown_by_changed_file(&[(8, 5)]), ["a block too few"]);
        assert_eq!(shown_by_changed_file(&[(8, 13)]), ["a block too few", "without the marks"]);
        let none = [&FILE[..9], &[2, 0]].concat();
        let nothing = "nothing behind the blocks' count";
        assert_eq!(shown_by_file(&none, 1, 8), ["a block too many", nothing]);
        assert_eq!(shown_by_changed_file(&[(27, 1), (28, 16)]), ["4,097 roots"]);
        let none = [&FILE[..27], &[1, 16]].concat();
        assert_eq!(shown_by_file(&none, 1, 8), ["4,097 roots", "no roots behind the count"]);
        assert_eq!(shown_by_file(&[&FILE[..], &[1]].concat(), 1, 8), ["one byte"]);
        assert_eq!(shown_by_file(&[FILE, FILE].concat(), 1, 8), ["an image"]);
    }

    #[test]
    fn why_a_file_in_order_is_refused_is_seen() {
        assert_eq!(shown_by_changed_file(&[(3, 0)]), ["a base of 0, alone"]);
        assert_eq!(shown_by_changed_file(&[(2, 8)]), ["a base inside a block, alone"]);
        let too_high = [(2, 0xD0), (3, 0xFF), (4, 0xFF), (5, 0xFF)];
        assert_eq!(shown_by_changed_file(&too_high), ["a base a block too high, alone"]);
        assert_eq!(shown_by_file(&FILE, 2, 8), ["memory of another t, alone"]);
        assert_eq!(shown_by_file(&FILE, 1, 9), ["a piece of an entry, alone"]);
        assert_eq!(shown_by_file(&FILE, 2, 9), [] as [&str; 0]);
        assert_eq!(shown_by_changed_file(&[(8, 3)]), ["a mark, alone"]);
        assert_eq!(shown_by_changed_file(&[(8, 2)]), ["a tail at block 0, alone"]);
        assert_eq!(shown_by_changed_file(&[(8, 8)]), ["a tail after a free block, alone"]);
        assert_eq!(shown_by_file(&FILE, 1, 4), ["an entry too few"]);
        assert_eq!(shown_by_file(&FILE, 1, 0), ["an empty list"]);
    }

    #[test]
    fn what_is_opened_is_seen() {
        let as_long = "a list as long as the roots";
        assert_eq!(shown_by_file(&FILE, 1, 8), [as_long]);
        assert_eq!(shown_by_file(&FILE, 1, 12), [] as [&str; 0]);
        assert_eq!(shown_by_file(&FILE, 1, 4 * 4097), ["a list of more than 4,096 entries"]);
        let mut before = Lent::new(16, 1, &[0; 64], &[0xFF, 0]);
        before[Image] = Guarded::new(&FILE);
        before[Roots] = Guarded::zeroed(8);
        let over = ["over an ill-formed table", "over a spare bit", "at another base"];
        assert_eq!(shown(&before, Call::OpenImage, false), [&[as_long][..], &over].concat());
        let empty = Lent::empty(4096, 256);
        let full = Lent::of_numbers(4096, &[85; 64]);
        let [empty, full] = [empty, full].map(|heap| image::file(&heap.sections()));
        let none = ["no used block", "t above 255", "no roots", as_long];
        assert_eq!(shown_by_file(&empty, 256, 0), none);
        let most = ["no free block", "more than 255 used blocks", "no roots", as_long];
        assert_eq!(shown_by_file(&full, 64, 0), most);
    }

    /// Objects of two blocks at 0, 2 and 4, of one at 6, of three at 7, of four at 12; blocks 10, 11 and 16 to 19
    /// are free. These words 0 are set.
    fn log_heap(next: &[(usize, u32)]) -> Lent {
        let mut lent = Lent::of_numbers(4096, &[153, 153, 10, 169, 0]);
        lent.set_entry(6, 1);
        lent.set_object(7..10);
        next.iter().for_each(|(block, word)| lent.set_word(4 * block, *word));
        lent
    }

    const HEAD_2: u32 = 4096 + 32;
    const HEAD_4: u32 = 4096 + 64;

    /// The situations of any call that a read shows, from this address.
    fn shown_by_chain(first: u64, next: &[(usize, u32)]) -> Vec<&'static str> {
        let shown = shown(&log_heap(next), Call::LogRead { first, index: 0 }, true);
        shown.into_iter().filter(|name| !name.starts_with("t is")).collect()
    }

    #[test]
    fn why_a_chain_is_no_log_is_seen() {
        for (block, kind) in [
            (1, "is a tail"),
            (10, "is free"),
            (20, "is outside the pool"),
            (6, "has one block"),
            (7, "has three blocks"),
            (12, "has more blocks"),
        ] {
            let word = 4096 + 16 * block;
            assert_eq!(shown_by_chain(word.into(), &[]), [format!("the first {kind}")]);
            let next = [(0, HEAD_2), (2, word)];
            assert_eq!(shown_by_chain(4096, &next), [format!("a later one {kind}")]);
        }
        assert_eq!(shown_by_chain(4100, &[]), ["the first is inside a block"]);
        assert_eq!(shown_by_chain(4096, &[(0, 4100)]), ["a later one is inside a block"]);
        let beyond = "the first is beyond 32 bits";
        let of_log = "beyond 32 bits, a log's if cut";
        assert_eq!(shown_by_chain((1 << 32) + 4096, &[]), [beyond, of_log]);
        assert_eq!(shown_by_chain((1 << 32) + 4112, &[]), [beyond]);
        assert_eq!(shown_by_chain(1 << 32, &[]), [beyond]);
    }

    #[test]
    fn where_a_chain_comes_back_is_seen() {
        for (back, name) in [
            (4096, "back to the first of several"),
            (HEAD_2, "back to one between"),
            (HEAD_4, "the last of several to itself"),
        ] {
            let next = [(0, HEAD_2), (2, HEAD_4), (4, back)];
            assert_eq!(shown_by_chain(4096, &next), [name]);
        }
        assert_eq!(shown_by_chain(4096, &[(0, 4096)]), ["a single one to itself"]);
    }

    /// The situations that an append shows, with these roots and a stack of so many bytes.
    fn shown_by_append(
        mut before: Lent,
        first: u64,
        roots: &[u8],
        stack: usize,
    ) -> Vec<&'static str> {
        before[Roots] = Guarded::new(roots);
        before[Stack] = Guarded::zeroed(stack);
        shown(&before, Call::LogAppend { first, time: 0, tips: 0 }, false)
    }

    #[test]
    fn what_an_append_finds_is_seen() {
        let (at_once, stack) = ("room at once", "room at once, and a mark stack");
        let log = log_heap(&[(0, HEAD_2)]);
        let empty = ["the first entry", at_once];
        assert_eq!(shown_by_append(log.clone(), 0, &[], 0), empty);
        let second = ["the second entry", at_once, stack];
        assert_eq!(shown_by_append(log.clone(), HEAD_2.into(), &[], 4), second);
        let mut other_words = log.clone();
        other_words.set_word(15, 1);
        let later = ["a later entry", at_once, "words behind the tip count that are not 0"];
        assert_eq!(shown_by_append(other_words, 4096, &[], 0), later);
        let most = ["the first entry", at_once, "4,095 roots"];
        assert_eq!(shown_by_append(log.clone(), 0, &[0; 4 * 4095], 0), most);
        let too_many = ["4,096 roots", "4,096 roots, an empty log"];
        assert_eq!(shown_by_append(log.clone(), 0, &[0; 4 * 4096], 0), too_many);
        let no_log = ["4,096 roots", "4,096 roots, no log"];
        assert_eq!(shown_by_append(log.clone(), 1, &[0; 4 * 4096], 0), no_log);
        assert_eq!(shown_by_append(log.clone(), 4096, &[0; 4 * 4096], 0), ["4,096 roots"]);
        assert_eq!(shown_by_append(log.clone(), 0, &[], 4 * 65), ["65 entries"]);
        assert_eq!(shown_by_append(log.clone(), 1, &[], 4 * 66), ["no log"]);
        assert_eq!(shown_by_append(log.clone(), 0, &[0; 3], 0), ["a piece of a root, alone"]);
        assert_eq!(shown_by_append(log.clone(), 0, &[], 3), ["a piece of the mark stack, alone"]);
        assert_eq!(shown_by_append(log, 0, &[0; 3], 3), [] as [&str; 0]);
    }

    #[test]
    fn how_an_append_makes_room_is_seen() {
        let full = Lent::of_numbers(4096, &[153, 89]);
        let roots = |blocks: &[u32]| -> Vec<u8> {
            blocks.iter().flat_map(|block| (4096 + 16 * block).to_le_bytes()).collect()
        };
        let (by, alone) = ("room made", "room made, its address needed");
        let more_roots = "room made, the roots needed";
        let more_freed = "room made, more than two blocks freed";
        let first_entry = "room made, the first entry";
        let shown = shown_by_append(full.clone(), 4096, &[], 0);
        assert_eq!(shown, ["the second entry", by, more_freed, alone]);
        let shown = shown_by_append(full.clone(), 4096, &roots(&[0, 2, 7]), 0);
        assert_eq!(shown, ["the second entry", by, more_freed, more_roots]);
        let shown = shown_by_append(full.clone(), 0, &roots(&[0, 2, 6, 7]), 0);
        assert_eq!(shown, ["the first entry", by, first_entry, more_roots]);
        let nothing = ["nothing freed", "the first entry"];
        assert_eq!(shown_by_append(full.clone(), 0, &roots(&[0, 2, 4, 6, 7]), 0), nothing);
        let mut gap = Lent::of_numbers(4096, &[153, 21]);
        let some = ["some freed", "a later entry", "a free block"];
        assert_eq!(shown_by_append(gap.clone(), 4096, &roots(&[0, 2, 4, 6]), 0), some);
        let alone = "some freed, its address needed";
        let shown = shown_by_append(gap.clone(), 4096, &roots(&[2, 4, 6]), 0);
        assert_eq!(shown, [&some[..], &[alone]].concat());
        gap.set_word(0, 1);
        assert_eq!(shown_by_append(gap, 4096, &[], 0), ["no room"]);
    }

    #[test]
    fn which_entry_is_read_or_dropped_is_seen() {
        let log = log_heap(&[(0, HEAD_2), (2, HEAD_4)]);
        let read = |first, index| shown(&log, Call::LogRead { first, index }, false);
        let drop = |first| shown(&log, Call::LogDrop { first }, false);
        assert_eq!(read(4096, 0), ["the oldest"]);
        assert_eq!(read(4096, 1), ["one between"]);
        assert_eq!(read(4096, 2), ["the newest of several"]);
        assert_eq!(read(4096, 3), ["the one behind the newest"]);
        assert_eq!(read(4096, 4), [] as [&str; 0]);
        assert_eq!(read(4096, 1 << 32), ["an entry's, if cut to 32 bits"]);
        assert_eq!(read(0, 0), ["an empty log"]);
        assert_eq!(drop(4096), ["one of several"]);
        assert_eq!(drop(HEAD_4.into()), ["the only one"]);
        let mut other_words = log.clone();
        other_words.set_word(23, 1);
        let other = "words behind the tip count that are not 0";
        assert_eq!(
            shown(&other_words, Call::LogDrop { first: HEAD_4.into() }, false),
            ["the only one", other]
        );
        assert_eq!(
            shown(&other_words, Call::LogRead { first: 4096, index: 0 }, false),
            ["the oldest", other]
        );
    }

    #[test]
    fn unaligned_runs_are_seen() {
        check(&[1, 84], Call::Survey, &["none as long is aligned"]);
        check(
            &[1, 0, 0],
            Call::Survey,
            &["the last blocks free, t odd", "none as long is aligned"],
        );
        check(&[1, 0, 64], Call::Survey, &["none as long is aligned"]);
        check(&[0, 85], Call::Survey, &[]);
        check(&[64, 85], Call::Survey, &[]);
        check(&[85, 85], Call::Survey, &["no free block"]);
    }
}
