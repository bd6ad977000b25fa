/*
 * blockheap: the MicroPython block heap over memory that the caller lends.
 * bh.h, beside this file, has the same calls with one heap as the argument.
 *
 * THE HEAP
 *
 * The library has no memory of its own. Every call is handed the whole heap
 * (blockheap_open_image all but the base, which it answers):
 *
 *   base, t, pool, pool_len, table, table_len
 *
 * - t, 1 to 1,024, is the size of the heap: it has n = 4 * t blocks.
 * - The pool is cut into blocks of 16 bytes, numbered from 0. pool_len is
 *   exactly 64 * t.
 * - The table has two bits for each block (see below). They say free, head of
 *   an object, or tail of one. An object is a head with all the tails directly
 *   after it. table_len is exactly 2 * ((t + 1) / 2).
 * - base is the address of block 0, as the words in the pool spell addresses:
 *   block k has the address base + 16 * k. It is a multiple of 16, at least
 *   16, and base + 64 * t is at most 4,294,967,296. On a 32-bit board, lend a
 *   pool aligned to 16 bytes, or to 64 (see below), and give its own address,
 *   (uintptr_t)pool; in bh.h BH_DEFINE_HERE does both. Elsewhere choose any such
 *   number, 4,096 say, and keep to it: the library never uses it to find the
 *   pool.
 * - A run of blocks is aligned if it has at most three blocks, or begins at a
 *   block number divisible by 4. New objects, and those that grow or move, take
 *   aligned runs: large ones, of four blocks or more, begin at a multiple of 64
 *   bytes in the pool. If base is a multiple of 64, so are their addresses; if
 *   the pool itself lies at a multiple of 64, so do their bytes. A table or an
 *   image that other programs made may have large objects that begin elsewhere.
 *   They are valid, and stay where they are until they grow.
 * - A word is 32 bits, lowest byte first on every host. An object of b blocks
 *   has words 0 to 4 * b - 1.
 * - A word is a pointer if it equals the address of a block of an object, head
 *   or tail: base + 16 * k for a block k of it. It leads to the whole object.
 *   An address inside a block, or of a free block, counts for nothing.
 *   (MicroPython's own collector follows the addresses of heads only.)
 * - Block 0 is a block like any other. Its address is base, and so 0 is never
 *   an address: a word that is 0 serves as nil.
 *
 * To start, lend a pool and a table and call blockheap_init, or
 * blockheap_open_image to go on with a heap that was saved. Then hand both to
 * each later call as the last one left them, with the same t. Programs may read
 * and write the bytes of their own objects directly; block k begins at
 * pool + 16 * k. The table is the library's to write.
 *
 * THE TABLE
 *
 * The table is two planes, one after the other, of (t + 1) / 2 bytes each: the
 * low bits of all blocks, then their high bits. A plane has eight blocks to a
 * byte, lowest bit first: block 8 * i + j is bit j of its byte i.
 *
 *               FREE   HEAD   TAIL   MARK
 *   low bit       0      1      0      1
 *   high bit      0      0      1      1
 *
 * MARK is what a collection works with. No accepted call leaves one.
 *
 * Where t is odd, the upper four bits of the last byte of each plane are of no
 * block. These spare bits must be 0, and are 0 after every accepted call.
 *
 * Here t is 3: 12 blocks and 4 bytes. From block 0 on there are objects of one,
 * three and four blocks. Bit 0 of each byte stands on the left, and a dot is a
 * spare bit.
 *
 *                  table[0] = 0x13            table[1] = 0x00
 *              +------------------------+------------------------+
 *   low bits   | 1  1  0  0  1  0  0  0 | 0  0  0  0  .  .  .  . |
 *              +------------------------+------------------------+
 *   blocks       0  1  2  3  4  5  6  7   8  9 10 11
 *                H  H  T  T  H  T  T  T   -  -  -  -
 *              +------------------------+------------------------+
 *   high bits  | 0  0  1  1  0  1  1  1 | 0  0  0  0  .  .  .  . |
 *              +------------------------+------------------------+
 *                  table[2] = 0xec            table[3] = 0x00
 *
 * IMAGES
 *
 * An image is a heap as one file. blockheap_write_image writes it, and
 * blockheap_open_image makes it a heap again, on that host or another. The file
 * is four sections, one directly after the other. Each begins with a count of 16
 * bits, lowest byte first, and then has as many items:
 *
 *   section   count         items
 *   base      1             the base: one word
 *   table     t             bytes with the entries of four blocks each: that of
 *                           block k is (byte[k / 4] >> 2 * (k % 4)) & 3, a
 *                           number of enum blockheap_entry
 *   blocks    used blocks   the 16 bytes of each block that is not FREE, rising
 *   roots     root words    the root words as they were handed over
 *
 * So the counts are at bytes 0, 6, 8 + t and 10 + t + 16 * used, and there are
 * 12 + t + 16 * used + 4 * roots bytes in all, BLOCKHEAP_IMAGE_BYTES. The table
 * is not in planes here, and has no spare bits: blocks that are FREE, HEAD, TAIL
 * and FREE are the byte 0x24. Of a free block the file has its entry alone. An
 * object that nothing leads to any more is used until a collection frees it:
 * collect first, or it is in the file.
 *
 * The bytes are the same from every host, and any program may write them without
 * the library. A count c is the bytes c & 255 and c >> 8; a word w, as the base
 * and each root are, the bytes w & 255, w >> 8 & 255, w >> 16 & 255 and w >> 24.
 * Take them by such shifts: a number in the memory of a big-endian host has them
 * the other way round. The bytes of a block are those of the pool, where a word
 * has its lowest byte first on every host.
 *
 * Here t is 1 and the base 4,096. Block 0 is an object, all of it 0, and the one
 * root is its address. The image has 33 bytes:
 *
 *   section   at   bytes         what they say
 *   base       0   01 00         one base
 *              2   00 10 00 00   4,096
 *   table      6   01 00         t is 1
 *              8   01            block 0 is HEAD, blocks 1 to 3 are FREE
 *   blocks     9   01 00         one block is used
 *             11   00 ... 00     the 16 bytes of block 0
 *   roots     27   01 00         one root
 *             29   00 10 00 00   4,096
 *
 * THE RAIN LOG
 *
 * A log is a list of entries in the heap, the oldest first. An entry is an
 * object of 32 bytes, that is of two blocks and eight words:
 *
 *   word 0         the address of the next entry's head, or 0: it is the last
 *   word 1         a time
 *   word 2         a tip count
 *   words 3 to 7   0 in a new entry; the log's calls never look at them
 *
 * The caller keeps the log's first address, that of its oldest entry's head. It
 * is all there is beside the entries, and a heap may have several logs. The
 * first address of an empty log is 0.
 *
 * Here the base is 4,096, and the log has two entries: 3 tips at time 60, then 5
 * tips at time 120. Other objects lie in blocks 2 to 4. The first address is
 * 4,096:
 *
 *   address   blocks    word 0   word 1   word 2   words 3 to 7
 *     4,096   0 and 1    4,176       60        3              0
 *     4,176   5 and 6        0      120        5              0
 *
 * blockheap_log_append adds an entry at the end, and makes room by a collection
 * if there is none. blockheap_log_read reads one, and blockheap_log_drop frees
 * the oldest. Each goes through the whole log once, and refuses as NO_LOG what
 * is none: no chain of head addresses of objects of two blocks leads from the
 * first address, without repetition, to a word 0 that is 0. So the address of a
 * tail or of a free block, one inside a block or outside the pool, an object of
 * one or of three blocks anywhere on the way, and a ring are refused.
 *
 * To the other calls an entry is an object like any other. Have the log's first
 * address among the roots of each collection of your own; append does so by
 * itself. If all collections are on the same base and have it, and nobody writes
 * into an entry, frees or resizes one, the log reads as before after any of the
 * other calls but init and an opening. A collection follows all eight words of
 * an entry: a time or a tip count that happens to be an address keeps an object.
 *
 * ANSWERS
 *
 * Every call returns 0, or the number of the first reason to refuse, in the
 * order of enum blockheap_refusal; blockheap_open_image and blockheap_log_append
 * have an order of their own. Any number may be passed as base, t, block, word,
 * bytes, first or index, and any content in any buffer: what does not fit is
 * refused. The other answers go out through the pointers that come last. They
 * are written on every call. After a refusal they are all 0, and every byte of
 * every buffer is what it was before, spare bits too. There is ONE EXCEPTION:
 * where blockheap_log_append is refused with NO_ROOM, it has collected to make
 * room, and that collection stands, with its `change`. Block 0 is a valid
 * answer, so look at the returned number, not at the block, to see whether a
 * call was refused.
 *
 * `change` is the change in used blocks, -4,096 to 4,096. Since the latest
 * accepted init, the changes add up to the used blocks of blockheap_survey, that
 * of the exception with them; from an accepted opening of an image on, they do
 * with the image's used blocks.
 *
 * WHAT THE CALLER ENSURES
 *
 * No library can check these, and nothing holds of a call that breaks them:
 * - Each buffer pointer is valid for its length in bytes, and not null, even
 *   where the length is 0 (pass the address of any byte then).
 * - Each answer pointer is valid, aligned for its type, and not null.
 * - A buffer that the call may write (a pointer without const) overlaps no
 *   other buffer or answer of that call; nor do two answers overlap.
 * - Nothing else writes the buffers while the call runs. Calls on different
 *   heaps may run at the same time.
 * - Programs write only to bytes of their own objects.
 *
 * WHAT IT NEEDS
 *
 * The library calls memset and nothing else. A program without a C library
 * supplies memset.
 */
#ifndef BLOCKHEAP_H
#define BLOCKHEAP_H

#include <stddef.h>
#include <stdint.h>

#ifdef __cplusplus
extern "C" {
#endif

/* The version. As a number: #if BLOCKHEAP_VERSION >= BLOCKHEAP_VERSION_NUMBER(0, 2, 0). */
#define BLOCKHEAP_VERSION_MAJOR 0
#define BLOCKHEAP_VERSION_MINOR 2
#define BLOCKHEAP_VERSION_PATCH 0
#define BLOCKHEAP_VERSION_NUMBER(major, minor, patch) ((major) * 1000000 + (minor) * 1000 + (patch))
#define BLOCKHEAP_VERSION \
    BLOCKHEAP_VERSION_NUMBER(BLOCKHEAP_VERSION_MAJOR, BLOCKHEAP_VERSION_MINOR, BLOCKHEAP_VERSION_PATCH)
#define BLOCKHEAP_VERSION_TEXT(major, minor, patch) #major "." #minor "." #patch
#define BLOCKHEAP_VERSION_TEXT_OF(major, minor, patch) BLOCKHEAP_VERSION_TEXT(major, minor, patch)
#define BLOCKHEAP_VERSION_STRING \
    BLOCKHEAP_VERSION_TEXT_OF(BLOCKHEAP_VERSION_MAJOR, BLOCKHEAP_VERSION_MINOR, BLOCKHEAP_VERSION_PATCH)

/* Before a declaration: no pointer of the call may be null. */
#ifdef __GNUC__
#define BLOCKHEAP_NONNULL __attribute__((nonnull))
#else
#define BLOCKHEAP_NONNULL
#endif

/* Sizes and limits. */
#define BLOCKHEAP_BLOCK_BYTES 16
#define BLOCKHEAP_WORD_BYTES 4
#define BLOCKHEAP_WORDS_PER_BLOCK 4
#define BLOCKHEAP_BLOCKS_PER_PLANE_BYTE 8
#define BLOCKHEAP_LARGE_BLOCKS 4 /* new objects of so many or more begin at a block number divisible by 4 */
#define BLOCKHEAP_MAX_T 1024
#define BLOCKHEAP_MAX_BLOCKS 4096
#define BLOCKHEAP_MAX_POOL_BYTES 65536
#define BLOCKHEAP_MAX_TABLE_BYTES 1024
#define BLOCKHEAP_MIN_BASE 16
#define BLOCKHEAP_MAX_ROOTS 4096
#define BLOCKHEAP_MAX_STACK_ENTRIES 64
#define BLOCKHEAP_MAX_IMAGE_BYTES 82956 /* of a full heap with the largest t and the most roots */
#define BLOCKHEAP_LOG_ENTRY_BYTES 32
#define BLOCKHEAP_MAX_LOG_ENTRIES 2048
#define BLOCKHEAP_MAX_LOG_ROOTS 4095 /* of the caller's: the log's first address takes a place too */

/* From t: the lengths in bytes of the pool, of one plane of the table, of the whole table, and of pool and table. */
#define BLOCKHEAP_POOL_BYTES(t) (64 * (t))
#define BLOCKHEAP_PLANE_BYTES(t) (((t) + 1) / 2)
#define BLOCKHEAP_TABLE_BYTES_OF_T(t) (2 * BLOCKHEAP_PLANE_BYTES(t))
#define BLOCKHEAP_HEAP_BYTES(t) (BLOCKHEAP_POOL_BYTES(t) + BLOCKHEAP_TABLE_BYTES_OF_T(t))

/* From the length of the pool: t, and the length of the table. */
#define BLOCKHEAP_T_OF_POOL(pool_bytes) ((pool_bytes) / 64)
#define BLOCKHEAP_TABLE_BYTES(pool_bytes) BLOCKHEAP_TABLE_BYTES_OF_T(BLOCKHEAP_T_OF_POOL(pool_bytes))

/* The length in bytes of a list of n words: n roots, or n entries of a mark stack. */
#define BLOCKHEAP_LIST_BYTES(n) (BLOCKHEAP_WORD_BYTES * (n))

/* The length in bytes of an image: from t, the used blocks and the number of root words. */
#define BLOCKHEAP_IMAGE_BYTES(t, used, roots) \
    (12 + (t) + BLOCKHEAP_BLOCK_BYTES * (used) + BLOCKHEAP_LIST_BYTES(roots))

/* The longest that it can be, where all blocks are used: a buffer of so many bytes is never too short. */
#define BLOCKHEAP_FULL_IMAGE_BYTES(t, roots) BLOCKHEAP_IMAGE_BYTES(t, 4 * (t), roots)

/* What a block's two bits say: the low bit and two times the high bit. */
enum blockheap_entry {
    BLOCKHEAP_FREE = 0,
    BLOCKHEAP_HEAD = 1,
    BLOCKHEAP_TAIL = 2,
    BLOCKHEAP_MARK = 3
};

/* What a call returns. Of several reasons, the lowest number is given, except by blockheap_open_image and
   blockheap_log_append, which have an order of their own. */
enum blockheap_refusal {
    BLOCKHEAP_OK = 0,
    BLOCKHEAP_BAD_SHAPE = 1,         /* t, table_len, pool_len or base breaks the rules above or is not
                                        that of the image, or the roots' or stack's length is not
                                        divisible by 4 */
    BLOCKHEAP_BAD_TABLE = 2,         /* a MARK, a tail at block 0 or after a free block, or a spare
                                        bit that is 1 */
    BLOCKHEAP_TOO_MANY_ROOTS = 3,    /* more than 4,096 root words, a log's first address being one of
                                        them */
    BLOCKHEAP_STACK_TOO_LONG = 4,    /* a mark stack of more than 64 entries */
    BLOCKHEAP_ZERO_BYTES = 5,        /* a request for 0 bytes */
    BLOCKHEAP_NO_SUCH_BLOCK = 6,     /* the block number is n or more */
    BLOCKHEAP_NOT_A_HEAD = 7,        /* the block is free or a tail */
    BLOCKHEAP_NO_SUCH_WORD = 8,      /* the word is not inside the object */
    BLOCKHEAP_NO_ROOM = 9,           /* no long enough run of free blocks that is aligned */
    BLOCKHEAP_OUTPUT_TOO_SHORT = 10, /* the buffer for an image is shorter than the image */
    /* 11 to 13 are not in use */
    BLOCKHEAP_IMAGE_TRUNCATED = 14,  /* the image ends inside a count or inside a section's items */
    BLOCKHEAP_BAD_COUNT = 15,        /* a count in the image is not what it must be */
    BLOCKHEAP_TRAILING_BYTES = 16,   /* bytes behind the image's last section */
    BLOCKHEAP_ROOTS_TOO_SHORT = 17,  /* the lent list has fewer entries than the image has roots */
    BLOCKHEAP_NO_LOG = 18,           /* the first address is not 0, and no chain of head addresses of
                                        objects of two blocks leads from it to a word 0 that is 0 */
    BLOCKHEAP_NO_ENTRY = 19          /* the log has no such entry */
};

/*
 * Makes every block free and every spare bit 0, whatever the table held. The
 * pool is not touched.
 * Refusals: BAD_SHAPE.
 */
BLOCKHEAP_NONNULL
uint32_t blockheap_init(uint64_t base, uint64_t t, const uint8_t *pool, size_t pool_len,
                        uint8_t *table, size_t table_len);

/*
 * Makes an object of `bytes` bytes, rounded up to whole blocks, in the lowest
 * aligned run of as many free blocks, and sets all bytes of its blocks to 0.
 * `block` is the number of its head, `change` the blocks it takes.
 * Refusals: BAD_SHAPE, BAD_TABLE, ZERO_BYTES, NO_ROOM (exactly if there is no
 * aligned run of as many free blocks; nothing is collected to make room, but
 * bh_allocate_collecting in bh.h does).
 */
BLOCKHEAP_NONNULL
uint32_t blockheap_allocate(uint64_t base, uint64_t t, uint8_t *pool, size_t pool_len,
                            uint8_t *table, size_t table_len,
                            uint64_t bytes, uint32_t *block, int32_t *change);

/*
 * Makes all blocks of the object whose head is `block` free. Their bytes stay.
 * `change` is the number of its blocks, negated. Of two objects either may be
 * freed first: the table is the same in the end.
 * Refusals: BAD_SHAPE, BAD_TABLE, NO_SUCH_BLOCK, NOT_A_HEAD.
 */
BLOCKHEAP_NONNULL
uint32_t blockheap_free(uint64_t base, uint64_t t, const uint8_t *pool, size_t pool_len,
                        uint8_t *table, size_t table_len,
                        uint64_t block, int32_t *change);

/*
 * Resizes the object whose head is `block` to `bytes` bytes, rounded up to
 * whole blocks. `new_block` is the number of its head afterwards:
 * - as many blocks as before: nothing changes;
 * - fewer: the last blocks become free, their bytes stay, and pointers to them
 *   are the caller's to mend;
 * - more, enough free blocks follow directly, and with them it is aligned: it
 *   grows in place;
 * - more otherwise: it moves to the place that blockheap_allocate would take
 *   while the old object still holds its blocks. The old blocks become free,
 *   their bytes stay, and pointers to any of them are the caller's to mend.
 * So to four blocks or more none grows in place from a block number that is
 * not divisible by 4. One that does not grow never moves.
 * The old bytes are kept, and all bytes of added blocks are 0.
 * Refusals: BAD_SHAPE, BAD_TABLE, ZERO_BYTES, NO_SUCH_BLOCK, NOT_A_HEAD,
 * NO_ROOM (exactly if it can neither grow in place nor move; the object stays
 * as it was).
 */
BLOCKHEAP_NONNULL
uint32_t blockheap_reallocate(uint64_t base, uint64_t t, uint8_t *pool, size_t pool_len,
                              uint8_t *table, size_t table_len,
                              uint64_t block, uint64_t bytes,
                              uint32_t *new_block, int32_t *change);

/*
 * Collects garbage: keeps exactly the objects that a chain of pointers leads
 * to from a root, and makes the blocks of all others free. Pool and roots are
 * not written. A pointer to a tail takes longer to follow: its head is found by
 * reading the table backwards, 64 blocks at a time.
 * - roots: the root words, four bytes each, lowest byte first; at most 4,096.
 *   A root is followed as a pointer in an object is, and anything else in the
 *   list counts for nothing. Roots may stand in any order and more than once:
 *   only the rescans may differ. Two lists joined keep what one or the other
 *   keeps.
 * - stack: working memory, four bytes an entry, 0 to 64 entries. Any size
 *   keeps the same objects; a short one costs time. What it holds at the start
 *   does not matter, and after an accepted call it is all 0.
 * - kept: the number of objects kept.
 * - rescans: how often the whole table was gone through because the stack was
 *   full. At most kept - 1 (0 if none are kept), and 0 if the stack has at
 *   least that many entries.
 * - change: the number of blocks freed, negated.
 * A second collection at once, with the same base and roots, changes nothing in
 * pool and table.
 * Refusals: BAD_SHAPE, BAD_TABLE, TOO_MANY_ROOTS, STACK_TOO_LONG.
 */
BLOCKHEAP_NONNULL
uint32_t blockheap_collect(uint64_t base, uint64_t t, const uint8_t *pool, size_t pool_len,
                           uint8_t *table, size_t table_len,
                           const uint8_t *roots, size_t roots_len,
                           uint8_t *stack, size_t stack_len,
                           uint32_t *kept, uint32_t *rescans, int32_t *change);

/*
 * Answers how many blocks are used, how many objects there are, and the length
 * in blocks of the longest run of free blocks, aligned or not: an object of as
 * many blocks may have no room in it if they are four or more. A run of b + 3
 * free blocks always has room for b.
 * Refusals: BAD_SHAPE, BAD_TABLE.
 */
BLOCKHEAP_NONNULL
uint32_t blockheap_survey(uint64_t base, uint64_t t, const uint8_t *pool, size_t pool_len,
                          const uint8_t *table, size_t table_len,
                          uint32_t *used, uint32_t *objects, uint32_t *longest);

/*
 * Reads word `word` of the object whose head is `block`.
 * Refusals: BAD_SHAPE, BAD_TABLE, NO_SUCH_BLOCK, NOT_A_HEAD, NO_SUCH_WORD.
 */
BLOCKHEAP_NONNULL
uint32_t blockheap_load(uint64_t base, uint64_t t, const uint8_t *pool, size_t pool_len,
                        const uint8_t *table, size_t table_len,
                        uint64_t block, uint64_t word, uint32_t *value);

/*
 * Writes word `word` of the object whose head is `block`: those four bytes and
 * no others.
 * Refusals: BAD_SHAPE, BAD_TABLE, NO_SUCH_BLOCK, NOT_A_HEAD, NO_SUCH_WORD.
 */
BLOCKHEAP_NONNULL
uint32_t blockheap_store(uint64_t base, uint64_t t, uint8_t *pool, size_t pool_len,
                         const uint8_t *table, size_t table_len,
                         uint64_t block, uint64_t word, uint32_t value);

/*
 * Writes the image of the heap, the file of four sections above, to the front of
 * a buffer. Pool, table and roots are not written.
 * - roots: four bytes each, lowest byte first; at most 4,096. They are copied,
 *   whatever they hold, and not followed.
 * - image: the buffer, of any length. Bytes behind the image stay as they were.
 * - length: the length of the image in bytes.
 * Refusals: BAD_SHAPE, BAD_TABLE, TOO_MANY_ROOTS, OUTPUT_TOO_SHORT (exactly if
 * image_len is less than the length of the image; `length` is 0 then too, so get
 * it beforehand by BLOCKHEAP_IMAGE_BYTES with the used blocks of
 * blockheap_survey, or lend BLOCKHEAP_FULL_IMAGE_BYTES).
 */
BLOCKHEAP_NONNULL
uint32_t blockheap_write_image(uint64_t base, uint64_t t, const uint8_t *pool, size_t pool_len,
                               const uint8_t *table, size_t table_len,
                               const uint8_t *roots, size_t roots_len,
                               uint8_t *image, size_t image_len, uint32_t *length);

/*
 * Opens an image: pool and table become the heap that the file says, and the
 * front of a list its roots. What they held before does not matter. The file may
 * be any bytes at all.
 * - image: the whole file.
 * - t, pool, table: those of a heap as large as the image's, whose t is the
 *   count at byte 6 (bh_image_t in bh.h reads it).
 * - roots: the list for the roots, four bytes each, lowest byte first, as many
 *   as the image has or more: BLOCKHEAP_MAX_ROOTS are always enough, and there
 *   is no limit here. Entries behind the roots stay as they were.
 * - base: the image's base, for all later calls.
 * - count: the number of roots.
 * Each block that is not FREE has its bytes from the file, and every other byte
 * of the pool is 0. All spare bits are 0.
 * A heap that is written and then opened has the same base, table and roots, and
 * the same bytes in its objects. An image that is opened and then written, with
 * that base and those roots, is the same file.
 * Refusals, in this order. First those of the file, which is read from the front
 * to the first fault:
 * - IMAGE_TRUNCATED: it ends inside a count or inside the items of a section;
 * - BAD_COUNT: that of the base is not 1, that of the table not 1 to 1,024, or
 *   that of the blocks not the number of the table's entries other than FREE (a
 *   MARK counts);
 * - TOO_MANY_ROOTS: the count of the roots is more than 4,096;
 * - TRAILING_BYTES: it goes on behind the roots.
 * A count is tested before its items: a wrong one is BAD_COUNT even if the file
 * ends right behind it. Then:
 * - BAD_SHAPE: the image's base breaks the rules above; or t, pool_len or
 *   table_len is not that of a heap of the image's t; or roots_len is not
 *   divisible by 4;
 * - BAD_TABLE: the image's table has a MARK, or a tail at block 0 or after a
 *   free block;
 * - ROOTS_TOO_SHORT: the list has fewer entries than the image has roots.
 */
BLOCKHEAP_NONNULL
uint32_t blockheap_open_image(const uint8_t *image, size_t image_len,
                              uint64_t t, uint8_t *pool, size_t pool_len,
                              uint8_t *table, size_t table_len,
                              uint8_t *roots, size_t roots_len,
                              uint32_t *base, uint32_t *count);

/*
 * Adds an entry at the end of a log. Its object is made as blockheap_allocate
 * makes one of 32 bytes. If there is no room, the call collects once, from the
 * log's first address and then the caller's roots, and asks again.
 * - first: the log's first address; 0 is the empty log.
 * - time, tips: words 1 and 2 of the new entry. Any numbers will do.
 * - roots: what a collection keeps beside the log: root words as
 *   blockheap_collect takes them, but at most 4,095. The log's first address
 *   need not be among them. It takes a place of its own, even where it is 0.
 * - stack: working memory for a collection, 0 to 64 entries of four bytes. After
 *   a collection it is all 0; without one it is not touched.
 * - new_first: the log's first address from now on: `first`, or the address of
 *   the new entry if the log was empty.
 * - change: 2, less the number of blocks that a collection freed.
 * In the pool, the call writes the new object and word 0 of the entry that was
 * the last, and nothing else.
 * Refusals, in this order: BAD_SHAPE, BAD_TABLE, TOO_MANY_ROOTS (4,096 roots of
 * the caller's, or more), STACK_TOO_LONG, NO_LOG, NO_ROOM (exactly if there are
 * no two free blocks in a row, even after the collection).
 * After NO_ROOM, and after no other refusal of any call, something has changed:
 * the collection stands. The table is as it left it, the stack is all 0, and
 * `change` is the number of blocks that it freed, negated. `new_first` is 0, but
 * the log is whole, with the entries it had: keep the first address you have.
 */
BLOCKHEAP_NONNULL
uint32_t blockheap_log_append(uint64_t base, uint64_t t, uint8_t *pool, size_t pool_len,
                              uint8_t *table, size_t table_len,
                              uint64_t first, uint32_t time, uint32_t tips,
                              const uint8_t *roots, size_t roots_len,
                              uint8_t *stack, size_t stack_len,
                              uint32_t *new_first, int32_t *change);

/*
 * Reads an entry of a log. (To read one after the other, bh_log_next in bh.h goes
 * through the whole log only once.)
 * - first: the log's first address; 0 is the empty log.
 * - index: which entry, counted from 0, the oldest.
 * - time, tips: its words 1 and 2.
 * Refusals: BAD_SHAPE, BAD_TABLE, NO_LOG, NO_ENTRY (exactly if the log has not
 * more than `index` entries).
 */
BLOCKHEAP_NONNULL
uint32_t blockheap_log_read(uint64_t base, uint64_t t, const uint8_t *pool, size_t pool_len,
                            const uint8_t *table, size_t table_len,
                            uint64_t first, uint64_t index, uint32_t *time, uint32_t *tips);

/*
 * Drops the oldest entry of a log: its object is freed, as by blockheap_free,
 * and its bytes stay.
 * - first: the log's first address; 0 is the empty log.
 * - new_first: the log's first address from now on, that of the next entry, or 0
 *   if there is none.
 * - change: -2.
 * Refusals: BAD_SHAPE, BAD_TABLE, NO_LOG, NO_ENTRY (exactly if the log is
 * empty).
 */
BLOCKHEAP_NONNULL
uint32_t blockheap_log_drop(uint64_t base, uint64_t t, const uint8_t *pool, size_t pool_len,
                            uint8_t *table, size_t table_len,
                            uint64_t first, uint32_t *new_first, int32_t *change);

#ifdef __cplusplus
}
#endif

#endif
