/*
 * The checked examples of the heap's rules through the C header: base 4,096, and 8 blocks up to example 16.
 * Beside each table stand the bytes of its two planes. Examples 20 to 22 are about the planes alone, 23 to 26
 * about images that are written, 27 to 34 about files that are opened, and the last ones about the rain log.
 *
 * Each runs once for each place of the lent buffers. Against a page that cannot be touched, any access past
 * that border ends the program, also one from inside the archive. In memory from malloc, valgrind sees each
 * byte beside a buffer.
 */
#define _DEFAULT_SOURCE /* for MAP_ANONYMOUS */
#include <stdbool.h>
#include <stdio.h>
#include <stdlib.h>
#include <string.h>
#include <sys/mman.h>

#include "blockheap.h"

static uint64_t base, t;
static uint8_t *pool, *table;
static size_t pool_len, table_len;

#define HEAP base, t, pool, pool_len, table, table_len

/* Bytes, and how many they are. */
#define BYTES(...) (const uint8_t[]){__VA_ARGS__}, sizeof((const uint8_t[]){__VA_ARGS__})

/* What every place for an answer holds before a call. */
enum { RUBBISH = 0x5EED5EED };

static bool same(const char *what, long long got, long long expected)
{
    if (got != expected)
        printf("    %s is %lld where %lld is right\n", what, got, expected);
    return got == expected;
}

/* Where the buffers lie: from the first byte of pages, up to their last byte, or in memory from malloc. */
static enum { AT_FRONT, AT_END, FROM_MALLOC, PLACES } place;

/* Each buffer has pages of its own. So many bytes before and after them cannot be touched: none (-DFENCE=0) on a board
   that cannot guard its memory. */
enum buffer { POOL, TABLE, ROOTS, STACK, IMAGE, BUFFERS };
enum { PAGES = 17 * 4096 };
#ifndef FENCE
#define FENCE (256 * 4096)
#endif
static uint8_t *pages[BUFFERS];
static uint8_t *from_malloc[BUFFERS];

static void *had(void *memory)
{
    if (!memory || memory == MAP_FAILED) {
        puts("out of memory");
        exit(2);
    }
    return memory;
}

static void start_buffers(void)
{
    for (int at = 0; at < BUFFERS; at++) {
        uint8_t *fence = had(mmap(NULL, FENCE + PAGES + FENCE, PROT_NONE, MAP_PRIVATE | MAP_ANONYMOUS, -1, 0));
        pages[at] = fence + FENCE;
        mprotect(pages[at], PAGES, PROT_READ | PROT_WRITE);
    }
}

static void end_buffers(void)
{
    for (int at = 0; at < BUFFERS; at++)
        free(from_malloc[at]);
}

/* Lends a buffer anew, of at most its pages. */
static uint8_t *lent(enum buffer buffer, size_t bytes)
{
    switch (place) {
    case AT_FRONT: return pages[buffer];
    case AT_END: return pages[buffer] + PAGES - bytes;
    default:
        free(from_malloc[buffer]);
        return from_malloc[buffer] = had(malloc(bytes ? bytes : 1));
    }
}

static void lend_heap(uint64_t size, size_t pool_bytes, size_t table_bytes)
{
    base = 4096;
    t = size;
    pool_len = pool_bytes;
    table_len = table_bytes;
    pool = lent(POOL, pool_len);
    table = lent(TABLE, table_len);
    memset(pool, 0, pool_len);
    memset(table, 0, table_len);
}

/* The examples write entries as numbers, four entries to a number, the first in the lowest bits. */
static unsigned entry_in(const uint8_t *numbers, size_t block)
{
    return numbers[block / 4] >> 2 * (block % 4) & 3;
}

/* Where a block's bit is in a plane, 0 the low and 1 the high one. */
static uint8_t *plane_byte(size_t plane, size_t block)
{
    return table + plane * (table_len / 2) + block / 8;
}

/* Sets an entry that is still FREE. */
static void set_entry(size_t block, unsigned entry)
{
    for (size_t plane = 0; plane < 2; plane++)
        *plane_byte(plane, block) |= (uint8_t)((entry >> plane & 1) << block % 8);
}

static unsigned entry_at(size_t block)
{
    unsigned low = *plane_byte(0, block) >> block % 8 & 1, high = *plane_byte(1, block) >> block % 8 & 1;
    return low + 2 * high;
}

/* A heap with the entries of these numbers, as many as t, and a pool of zeros. */
#define from(...) from_numbers(BYTES(__VA_ARGS__))
static bool from_numbers(const uint8_t *numbers, size_t count)
{
    lend_heap(count, BLOCKHEAP_POOL_BYTES(count), BLOCKHEAP_TABLE_BYTES_OF_T(count));
    for (size_t block = 0; block < 4 * count; block++)
        set_entry(block, entry_in(numbers, block));
    return true;
}

/* Whether the table has the entries of these numbers, and no spare bit is 1. */
#define table_is(...) table_is_numbers(BYTES(__VA_ARGS__))
static bool table_is_numbers(const uint8_t *numbers, size_t count)
{
    if (!same("t", (long long)t, (long long)count))
        return false;
    for (size_t block = 0; block < 4 * table_len; block++)
        if (!same("entry", entry_at(block), block < 4 * count ? entry_in(numbers, block) : 0)) {
            printf("    (block %zu)\n", block);
            return false;
        }
    return true;
}

static bool bytes_are(const char *what, const uint8_t *bytes, const uint8_t *expected, size_t count)
{
    for (size_t at = 0; at < count; at++)
        if (!same(what, bytes[at], expected[at])) {
            printf("    (byte %zu)\n", at);
            return false;
        }
    return true;
}

/* Whether the table's planes are these bytes. */
#define planes_are(...) planes_are_bytes(BYTES(__VA_ARGS__))
static bool planes_are_bytes(const uint8_t *bytes, size_t count)
{
    return same("table length", (long long)table_len, (long long)count)
        && bytes_are("table byte", table, bytes, count);
}

static bool initialises(uint32_t refusal)
{
    return same("refusal", blockheap_init(HEAP), refusal);
}

static bool allocates(uint64_t bytes, uint32_t refusal, uint32_t block, int32_t change)
{
    uint32_t got_block = RUBBISH;
    int32_t got_change = RUBBISH;
    return same("refusal", blockheap_allocate(HEAP, bytes, &got_block, &got_change), refusal)
        && same("block", got_block, block) && same("change", got_change, change);
}

static bool frees(uint64_t block, uint32_t refusal, int32_t change)
{
    int32_t got_change = RUBBISH;
    return same("refusal", blockheap_free(HEAP, block, &got_change), refusal)
        && same("change", got_change, change);
}

static bool reallocates(uint64_t block, uint64_t bytes, uint32_t refusal, uint32_t new_block, int32_t change)
{
    uint32_t got_block = RUBBISH;
    int32_t got_change = RUBBISH;
    return same("refusal", blockheap_reallocate(HEAP, block, bytes, &got_block, &got_change), refusal)
        && same("new block", got_block, new_block) && same("change", got_change, change);
}

static bool loads(uint64_t block, uint64_t word, uint32_t refusal, uint32_t value)
{
    uint32_t got = RUBBISH;
    return same("refusal", blockheap_load(HEAP, block, word, &got), refusal) && same("value", got, value);
}

static bool stores(uint64_t block, uint64_t word, uint32_t value)
{
    return same("refusal", blockheap_store(HEAP, block, word, value), BLOCKHEAP_OK);
}

static bool surveys(uint32_t used, uint32_t objects, uint32_t longest)
{
    uint32_t got_used = RUBBISH, got_objects = RUBBISH, got_longest = RUBBISH;
    return same("refusal", blockheap_survey(HEAP, &got_used, &got_objects, &got_longest), BLOCKHEAP_OK)
        && same("used", got_used, used) && same("objects", got_objects, objects)
        && same("longest", got_longest, longest);
}

static bool all_are(const char *what, const uint8_t *bytes, size_t length, uint8_t expected)
{
    for (size_t at = 0; at < length; at++)
        if (!same(what, bytes[at], expected))
            return false;
    return true;
}

/* Collects from one root, or from none where `root` is NULL. */
static bool collects(const uint32_t *root, size_t stack_entries, uint32_t kept, uint32_t rescans, int32_t change)
{
    size_t roots_len = root ? 4 : 0, stack_len = 4 * stack_entries;
    uint8_t *roots = lent(ROOTS, roots_len), *stack = lent(STACK, stack_len);
    for (size_t at = 0; at < roots_len; at++)
        roots[at] = (uint8_t)(*root >> 8 * at);
    memset(stack, 0xEE, stack_len);
    uint32_t got_kept = RUBBISH, got_rescans = RUBBISH;
    int32_t got_change = RUBBISH;
    uint32_t refusal =
        blockheap_collect(HEAP, roots, roots_len, stack, stack_len, &got_kept, &got_rescans, &got_change);
    return same("refusal", refusal, BLOCKHEAP_OK) && same("kept", got_kept, kept)
        && same("rescans", got_rescans, rescans) && same("change", got_change, change)
        && all_are("mark stack byte", stack, stack_len, 0);
}

/* Writes the image with these roots to an output of this length: the call is accepted if it is long enough
 * for the image, which has these bytes. All other bytes of the output stay. */
static bool writes_image(size_t output_len, const uint8_t *words, size_t roots_len, const uint8_t *bytes, size_t count)
{
    uint8_t *roots = lent(ROOTS, roots_len), *output = lent(IMAGE, output_len);
    bool fits = count <= output_len;
    size_t written = fits ? count : 0;
    memcpy(roots, words, roots_len);
    memset(output, 0xEE, output_len);
    uint32_t length = RUBBISH;
    uint32_t refusal = blockheap_write_image(HEAP, roots, roots_len, output, output_len, &length);
    return same("refusal", refusal, fits ? BLOCKHEAP_OK : BLOCKHEAP_OUTPUT_TOO_SHORT)
        && same("length", length, (long long)written) && bytes_are("image byte", output, bytes, written)
        && all_are("byte behind the image", output + written, output_len - written, 0xEE);
}

/* In an output of every length up to one that is longer than the image. */
static bool has_image(const uint8_t *words, size_t roots_len, const uint8_t *bytes, size_t count)
{
    for (size_t output_len = 0; output_len <= count + 2; output_len++)
        if (!writes_image(output_len, words, roots_len, bytes, count)) {
            printf("    (an output of %zu bytes)\n", output_len);
            return false;
        }
    return true;
}

/* Opens a file, in memory and with a list for its roots as they are lent. */
static bool opens(const uint8_t *bytes, size_t count, uint8_t *list, size_t list_len, uint32_t refusal,
                  uint32_t expected_base, uint32_t roots)
{
    uint8_t *file = lent(IMAGE, count);
    uint32_t got_base = RUBBISH, got_count = RUBBISH;
    memcpy(file, bytes, count);
    uint32_t got = blockheap_open_image(file, count, t, pool, pool_len, table, table_len, list, list_len,
                                        &got_base, &got_count);
    return same("refusal", got, refusal) && same("base", got_base, expected_base)
        && same("count of roots", got_count, roots) && bytes_are("byte of the file", file, bytes, count);
}

/* Memory for a heap of this t that is not clean: the table is ill-formed, with spare bits if t is odd. */
static void lend_rubbish(uint64_t size)
{
    lend_heap(size, BLOCKHEAP_POOL_BYTES(size), BLOCKHEAP_TABLE_BYTES_OF_T(size));
    memset(pool, 0x77, pool_len);
    memset(table, 0xFD, table_len);
}

/* The list of so many bytes gets these roots, and its later entries stay. */
static bool opens_at(uint64_t size, size_t list_len, const uint8_t *bytes, size_t count, uint32_t at,
                     const uint8_t *words, size_t roots_len)
{
    uint8_t *list = lent(ROOTS, list_len);
    lend_rubbish(size);
    memset(list, 0x55, list_len);
    return opens(bytes, count, list, list_len, BLOCKHEAP_OK, at, (uint32_t)(roots_len / 4))
        && bytes_are("byte of the roots", list, words, roots_len)
        && all_are("later byte of the list", list + roots_len, list_len - roots_len, 0x55);
}

/* What is lent with a list of so many bytes stays as it was, every byte of it. */
static bool refuses_file_in(uint64_t size, size_t list_len, uint32_t refusal, const uint8_t *bytes, size_t count)
{
    uint8_t *list = lent(ROOTS, list_len);
    lend_rubbish(size);
    memset(list, 0x55, list_len);
    return opens(bytes, count, list, list_len, refusal, 0, 0)
        && all_are("byte of the pool", pool, pool_len, 0x77) && all_are("table byte", table, table_len, 0xFD)
        && all_are("byte of the list", list, list_len, 0x55);
}

/* With four blocks, and a list of three entries. */
static bool refuses_file(uint32_t refusal, const uint8_t *bytes, size_t count)
{
    return refuses_file_in(1, 12, refusal, bytes, count);
}

/* Appends with a mark stack of so many entries, which hold rubbish. A collection leaves it all 0; without one it is
 * not touched. */
static bool appends_with(const uint8_t *words, size_t roots_len, size_t stack_entries, bool collected,
                         uint64_t first, uint32_t time, uint32_t tips,
                         uint32_t refusal, uint32_t new_first, int32_t change)
{
    size_t stack_len = 4 * stack_entries;
    uint8_t *roots = lent(ROOTS, roots_len), *stack = lent(STACK, stack_len);
    memcpy(roots, words, roots_len);
    memset(stack, 0xEE, stack_len);
    uint32_t got_first = RUBBISH;
    int32_t got_change = RUBBISH;
    uint32_t got = blockheap_log_append(HEAP, first, time, tips, roots, roots_len, stack, stack_len,
                                        &got_first, &got_change);
    return same("refusal", got, refusal) && same("new first address", got_first, new_first)
        && same("change", got_change, change) && all_are("mark stack byte", stack, stack_len, collected ? 0 : 0xEE);
}

/* Where there is room: nothing is collected. */
static bool appends(uint64_t first, uint32_t time, uint32_t tips, uint32_t new_first)
{
    return appends_with(pool, 0, 4, false, first, time, tips, BLOCKHEAP_OK, new_first, 2);
}

static bool reads(uint64_t first, uint64_t index, uint32_t refusal, uint32_t time, uint32_t tips)
{
    uint32_t got_time = RUBBISH, got_tips = RUBBISH;
    return same("refusal", blockheap_log_read(HEAP, first, index, &got_time, &got_tips), refusal)
        && same("time", got_time, time) && same("tips", got_tips, tips);
}

static bool drops(uint64_t first, uint32_t refusal, uint32_t new_first, int32_t change)
{
    uint32_t got_first = RUBBISH;
    int32_t got_change = RUBBISH;
    return same("refusal", blockheap_log_drop(HEAP, first, &got_first, &got_change), refusal)
        && same("new first address", got_first, new_first) && same("change", got_change, change);
}

/* What pool and table held at one time. */
static uint8_t pool_before[BLOCKHEAP_MAX_POOL_BYTES], table_before[BLOCKHEAP_MAX_TABLE_BYTES];

static void note_pool_and_table(void)
{
    memcpy(pool_before, pool, pool_len);
    memcpy(table_before, table, table_len);
}

static bool pool_is_as_noted(void)
{
    return bytes_are("byte of the pool", pool, pool_before, pool_len);
}

static bool pool_and_table_are_as_noted(void)
{
    return pool_is_as_noted() && bytes_are("table byte", table, table_before, table_len);
}

/* An append with roots and a mark stack of so many bytes is refused so, and nothing has changed. */
static bool refuses_append(size_t roots_len, size_t stack_len, uint64_t first, uint32_t refusal)
{
    uint8_t *roots = lent(ROOTS, roots_len), *stack = lent(STACK, stack_len);
    uint32_t new_first = RUBBISH;
    int32_t change = RUBBISH;
    memset(roots, 0, roots_len);
    memset(stack, 0xEE, stack_len);
    note_pool_and_table();
    uint32_t got =
        blockheap_log_append(HEAP, first, 60, 3, roots, roots_len, stack, stack_len, &new_first, &change);
    return same("refusal", got, refusal) && same("new first address", new_first, 0) && same("change", change, 0)
        && all_are("byte of the roots", roots, roots_len, 0) && all_are("mark stack byte", stack, stack_len, 0xEE)
        && pool_and_table_are_as_noted();
}

/* Whether no call of the log takes this first address, and nothing has changed. */
static bool is_no_log(uint64_t first)
{
    return refuses_append(4, 16, first, BLOCKHEAP_NO_LOG) && reads(first, 0, BLOCKHEAP_NO_LOG, 0, 0)
        && reads(first, 9999, BLOCKHEAP_NO_LOG, 0, 0) && drops(first, BLOCKHEAP_NO_LOG, 0, 0)
        && pool_and_table_are_as_noted();
}

/* The heap of examples 9 to 11: word 0 of block 4 leads to block 0. */
static bool from_linked(void)
{
    return from(165, 169) && stores(4, 0, 4096) && surveys(8, 3, 0) && planes_are(0x13, 0xec);
}

static bool example_1(void)
{
    return from(0, 0) && planes_are(0x00, 0x00)
        && allocates(1, BLOCKHEAP_OK, 0, 1) && table_is(1, 0) && planes_are(0x01, 0x00);
}

static bool example_2(void)
{
    return from(1, 0) && planes_are(0x01, 0x00)
        && allocates(33, BLOCKHEAP_OK, 1, 3) && table_is(165, 0) && planes_are(0x03, 0x0c);
}

static bool example_3(void)
{
    return from(165, 0) && planes_are(0x03, 0x0c)
        && allocates(64, BLOCKHEAP_OK, 4, 4) && table_is(165, 169) && planes_are(0x13, 0xec);
}

static bool example_4(void)
{
    return from(165, 169) && allocates(1, BLOCKHEAP_NO_ROOM, 0, 0)
        && table_is(165, 169) && planes_are(0x13, 0xec);
}

static bool example_5(void)
{
    return from(165, 169) && frees(1, BLOCKHEAP_OK, -3) && table_is(1, 169) && planes_are(0x11, 0xe0)
        && frees(5, BLOCKHEAP_NOT_A_HEAD, 0) && frees(8, BLOCKHEAP_NO_SUCH_BLOCK, 0)
        && table_is(1, 169) && planes_are(0x11, 0xe0);
}

static bool example_6(void)
{
    return from(1, 169) && planes_are(0x11, 0xe0)
        && reallocates(4, 16, BLOCKHEAP_OK, 4, -3) && table_is(1, 1) && planes_are(0x11, 0x00);
}

static bool example_7(void)
{
    return from(1, 1) && planes_are(0x11, 0x00)
        && reallocates(0, 64, BLOCKHEAP_OK, 0, 3) && table_is(169, 1) && planes_are(0x11, 0x0e)
        && from(1, 1) && reallocates(0, 65, BLOCKHEAP_NO_ROOM, 0, 0)
        && table_is(1, 1) && planes_are(0x11, 0x00);
}

static bool example_8(void)
{
    return from(5, 0) && planes_are(0x03, 0x00)
        && reallocates(0, 17, BLOCKHEAP_OK, 2, 1) && table_is(148, 0) && planes_are(0x06, 0x08);
}

static bool example_9(void)
{
    const uint32_t root = 4160;
    return from_linked() && collects(&root, 64, 2, 0, -3) && table_is(1, 169) && planes_are(0x11, 0xe0)
        && from_linked() && collects(&root, 0, 2, 1, -3) && table_is(1, 169) && planes_are(0x11, 0xe0);
}

static bool example_10(void)
{
    return from_linked() && collects(NULL, 64, 0, 0, -8) && table_is(0, 0) && planes_are(0x00, 0x00);
}

static bool example_11(void)
{
    const uint32_t tail = 4128, inside = 4097;
    return from_linked() && collects(&tail, 64, 1, 0, -5) && table_is(164, 0) && planes_are(0x02, 0x0c)
        && from_linked() && collects(&inside, 64, 0, 0, -8) && table_is(0, 0) && planes_are(0x00, 0x00);
}

static bool refuses_table(uint8_t first, uint8_t low, uint8_t high)
{
    return from(first, 0) && planes_are(low, high) && allocates(1, BLOCKHEAP_BAD_TABLE, 0, 0)
        && allocates(0, BLOCKHEAP_BAD_TABLE, 0, 0) && table_is(first, 0) && planes_are(low, high);
}

static bool example_12(void)
{
    return refuses_table(2, 0x00, 0x01) && refuses_table(3, 0x01, 0x01) && refuses_table(8, 0x00, 0x02);
}

static bool initialises_at(uint64_t address, uint32_t refusal)
{
    bool made = from(1, 1);
    base = address;
    return made && initialises(refusal);
}

static bool example_13(void)
{
    return initialises_at(4294967168u, BLOCKHEAP_OK) && table_is(0, 0) && planes_are(0x00, 0x00)
        && initialises_at(4294967184u, BLOCKHEAP_BAD_SHAPE) && table_is(1, 1) && planes_are(0x11, 0x00)
        && initialises_at(0, BLOCKHEAP_BAD_SHAPE) && table_is(1, 1) && planes_are(0x11, 0x00);
}

static bool example_14(void)
{
    return from(165, 169) && stores(4, 15, 77) && loads(4, 15, BLOCKHEAP_OK, 77)
        && loads(4, 16, BLOCKHEAP_NO_SUCH_WORD, 0) && planes_are(0x13, 0xec);
}

static bool example_15(void)
{
    return from(165, 169) && reallocates(8, 0, BLOCKHEAP_ZERO_BYTES, 0, 0)
        && table_is(165, 169) && planes_are(0x13, 0xec);
}

/* Word 0 of block 6 leads to block 2, which is the third of its object. Word 0 of that object is given. */
static bool from_linked_by_tails(uint32_t word)
{
    return from(169, 25) && stores(6, 0, 4128) && stores(0, 0, word) && surveys(7, 3, 1)
        && planes_are(0x51, 0x2e);
}

static bool example_16(void)
{
    const uint32_t root = 4192, free_block = 4208, tail = 4176, inside = 4184;
    return from_linked_by_tails(tail) && collects(&root, 64, 3, 0, 0)
        && table_is(169, 25) && planes_are(0x51, 0x2e)
        && from_linked_by_tails(tail) && collects(&root, 0, 3, 2, 0)
        && table_is(169, 25) && planes_are(0x51, 0x2e)
        && from_linked_by_tails(inside) && collects(&root, 64, 2, 0, -2)
        && table_is(169, 16) && planes_are(0x41, 0x0e)
        && from_linked_by_tails(tail) && collects(&free_block, 64, 0, 0, -7)
        && table_is(0, 0) && planes_are(0x00, 0x00);
}

static bool example_17(void)
{
    uint8_t object[64] = {1, 2, 3, [47] = 48};
    bool made = from(1, 0, 0) && planes_are(0x01, 0x00, 0x00, 0x00)
        && allocates(64, BLOCKHEAP_OK, 4, 4) && table_is(1, 169, 0) && planes_are(0x11, 0x00, 0xe0, 0x00)
        && allocates(48, BLOCKHEAP_OK, 1, 3) && table_is(165, 169, 0) && planes_are(0x13, 0x00, 0xec, 0x00);
    memcpy(pool + 16, object, 48);
    memset(pool + 128, 0xEE, 64);
    return made && reallocates(1, 64, BLOCKHEAP_OK, 8, 1)
        && table_is(1, 169, 169) && planes_are(0x11, 0x01, 0xe0, 0x0e)
        && bytes_are("byte of the object", pool + 128, object, sizeof object);
}

static bool example_18(void)
{
    return from(165, 2, 0) && planes_are(0x03, 0x00, 0x1c, 0x00)
        && reallocates(1, 33, BLOCKHEAP_OK, 1, -1)
        && table_is(165, 0, 0) && planes_are(0x03, 0x00, 0x0c, 0x00)
        && from(165, 2, 0) && reallocates(1, 64, BLOCKHEAP_OK, 1, 0)
        && reallocates(1, 65, BLOCKHEAP_NO_ROOM, 0, 0)
        && table_is(165, 2, 0) && planes_are(0x03, 0x00, 0x1c, 0x00)
        && from(165, 2, 0, 0) && reallocates(1, 65, BLOCKHEAP_OK, 8, 1)
        && table_is(1, 0, 169, 2) && planes_are(0x01, 0x01, 0x00, 0x1e);
}

static bool example_19(void)
{
    return from(165, 86) && planes_are(0xe3, 0x1c) && frees(1, BLOCKHEAP_OK, -4) && surveys(4, 4, 4)
        && allocates(64, BLOCKHEAP_NO_ROOM, 0, 0) && table_is(1, 84) && planes_are(0xe1, 0x00)
        && allocates(48, BLOCKHEAP_OK, 1, 3) && table_is(165, 84) && planes_are(0xe3, 0x0c);
}

/* The image of a heap of four blocks with an object in block 0, all of it 0, and its address as the root. */
static const uint8_t one_block[33] = {
    0x01, 0x00, 0x00, 0x10, 0x00, 0x00,
    0x01, 0x00, 0x01,
    0x01, 0x00, 0, 0, 0, 0, 0, 0, 0, 0, 0, 0, 0, 0, 0, 0, 0, 0,
    0x01, 0x00, 0x00, 0x10, 0x00, 0x00};

/* Whether every call but init and an opening is refused so, and writes neither pool, mark stack nor image. */
static bool calls_refuse(uint32_t refusal)
{
    enum { OUTPUT = 300 };
    uint8_t *roots = lent(ROOTS, 0), *stack = lent(STACK, 4), *image = lent(IMAGE, OUTPUT);
    uint32_t one, other, third;
    int32_t change;
    memset(stack, 0xEE, 4);
    memset(image, 0xEE, OUTPUT);
    return same("allocate", blockheap_allocate(HEAP, 1, &one, &change), refusal)
        && same("free", blockheap_free(HEAP, 0, &change), refusal)
        && same("reallocate", blockheap_reallocate(HEAP, 0, 1, &one, &change), refusal)
        && same("collect", blockheap_collect(HEAP, roots, 0, stack, 4, &one, &other, &change), refusal)
        && same("survey", blockheap_survey(HEAP, &one, &other, &third), refusal)
        && same("load", blockheap_load(HEAP, 0, 0, &one), refusal)
        && same("store", blockheap_store(HEAP, 0, 0, 1), refusal)
        && same("write image", blockheap_write_image(HEAP, roots, 0, image, OUTPUT, &one), refusal)
        && same("append", blockheap_log_append(HEAP, 0, 1, 1, roots, 0, stack, 4, &one, &change), refusal)
        && same("read", blockheap_log_read(HEAP, 0, 0, &one, &other), refusal)
        && same("drop", blockheap_log_drop(HEAP, 0, &one, &change), refusal)
        && all_are("byte of the pool", pool, pool_len, 0) && all_are("mark stack byte", stack, 4, 0xEE)
        && all_are("image byte", image, OUTPUT, 0xEE);
}

/* A spare bit that is 1: every call but init and an opening refuses the table and leaves it as it was, and
 * init clears it. */
static bool refuses_spare_bit(size_t plane, unsigned bit)
{
    uint8_t before[4];
    plane_byte(plane, 4 * t)[0] |= (uint8_t)(1u << bit);
    memcpy(before, table, table_len);
    return calls_refuse(BLOCKHEAP_BAD_TABLE) && bytes_are("table byte", table, before, table_len)
        && initialises(BLOCKHEAP_OK) && all_are("table byte", table, table_len, 0);
}

static bool example_20(void)
{
    for (size_t plane = 0; plane < 2; plane++)
        for (unsigned bit = 4; bit < 8; bit++)
            if (!(from(1) && refuses_spare_bit(plane, bit) && from(1, 0, 0) && refuses_spare_bit(plane, bit)))
                return false;
    return true;
}

static bool refuses_shape(uint64_t size, size_t pool_bytes, size_t table_bytes)
{
    lend_heap(size, pool_bytes, table_bytes);
    memset(table, 0x11, table_len);
    return initialises(BLOCKHEAP_BAD_SHAPE) && calls_refuse(BLOCKHEAP_BAD_SHAPE)
        && opens(one_block, sizeof one_block, lent(ROOTS, 4), 4, BLOCKHEAP_BAD_SHAPE, 0, 0)
        && all_are("byte of the pool", pool, pool_len, 0) && all_are("table byte", table, table_len, 0x11);
}

static bool example_21(void)
{
    return refuses_shape(0, 64, 2) && refuses_shape(1025, 64, 2)
        && refuses_shape(UINT64_C(2) + UINT32_MAX, 64, 2) && refuses_shape(UINT64_MAX, 64, 2)
        && refuses_shape(1, 64, 1) && refuses_shape(1, 64, 3)
        && refuses_shape(1, 63, 2) && refuses_shape(1, 65, 2) && refuses_shape(1, 128, 2)
        && refuses_shape(2, 64, 2) && refuses_shape(2, 128, 1) && refuses_shape(2, 128, 3)
        && refuses_shape(3, 192, 3) && refuses_shape(3, 192, 5) && refuses_shape(3, 256, 4);
}

static bool example_22(void)
{
    return from(0) && allocates(64, BLOCKHEAP_OK, 0, 4) && table_is(169) && planes_are(0x01, 0x0e)
        && from(0, 0, 0) && allocates(192, BLOCKHEAP_OK, 0, 12) && surveys(12, 1, 0)
        && table_is(169, 170, 170) && planes_are(0x01, 0x00, 0xfe, 0x0f)
        && allocates(1, BLOCKHEAP_NO_ROOM, 0, 0) && planes_are(0x01, 0x00, 0xfe, 0x0f)
        && frees(0, BLOCKHEAP_OK, -12) && surveys(0, 0, 12) && planes_are(0x00, 0x00, 0x00, 0x00);
}

static bool example_23(void)
{
    return from(1) && planes_are(0x01, 0x00)
        && has_image(BYTES(0x00, 0x10, 0x00, 0x00), one_block, sizeof one_block)
        && table_is(1) && all_are("byte of the pool", pool, pool_len, 0);
}

static bool example_24(void)
{
    bool made = from(0, 0);
    memset(pool, 0x77, pool_len);
    return made && planes_are(0x00, 0x00)
        && has_image(pool, 0,
                     BYTES(0x01, 0x00, 0x00, 0x10, 0x00, 0x00,
                           0x02, 0x00, 0x00, 0x00,
                           0x00, 0x00,
                           0x00, 0x00));
}

static bool example_25(void)
{
    bool made = from(0x24);
    for (size_t at = 0; at < pool_len; at++)
        pool[at] = (uint8_t)at;
    return made && planes_are(0x02, 0x04)
        && has_image(BYTES(0x20, 0x10, 0x00, 0x00, 0xff, 0xff, 0xff, 0xff),
                     BYTES(0x01, 0x00, 0x00, 0x10, 0x00, 0x00,
                           0x01, 0x00, 0x24,
                           0x02, 0x00, 16, 17, 18, 19, 20, 21, 22, 23, 24, 25, 26, 27, 28, 29, 30, 31,
                           32, 33, 34, 35, 36, 37, 38, 39, 40, 41, 42, 43, 44, 45, 46, 47,
                           0x02, 0x00, 0x20, 0x10, 0x00, 0x00, 0xff, 0xff, 0xff, 0xff));
}

/* The image with roots of so many bytes, in an output of no bytes, is refused so. */
static bool refuses_image(size_t roots_len, uint32_t refusal)
{
    uint8_t *roots = lent(ROOTS, roots_len), *output = lent(IMAGE, 0);
    uint32_t length = RUBBISH;
    memset(roots, 0, roots_len);
    return same("refusal", blockheap_write_image(HEAP, roots, roots_len, output, 0, &length), refusal)
        && same("length", length, 0);
}

static bool example_26(void)
{
    return from(1) && refuses_image(4, BLOCKHEAP_OUTPUT_TOO_SHORT)
        && from(3) && refuses_image(4, BLOCKHEAP_BAD_TABLE)
        && from(3) && refuses_image(5, BLOCKHEAP_BAD_SHAPE)
        && from(1) && refuses_image(3, BLOCKHEAP_BAD_SHAPE);
}

static bool example_27(void)
{
    const uint8_t root[] = {0x00, 0x10, 0x00, 0x00};
    const size_t lists[] = {4, 12, BLOCKHEAP_LIST_BYTES(4097)};
    for (size_t at = 0; at < sizeof lists / sizeof lists[0]; at++)
        if (!(opens_at(1, lists[at], one_block, sizeof one_block, 4096, root, sizeof root)
              && table_is(1) && planes_are(0x01, 0x00) && all_are("byte of the pool", pool, pool_len, 0)))
            return false;
    return true;
}

static bool example_28(void)
{
    bool empty = opens_at(2, 4, BYTES(0x01, 0x00, 0x00, 0x10, 0x00, 0x00,
                                      0x02, 0x00, 0x00, 0x00,
                                      0x00, 0x00,
                                      0x00, 0x00), 4096, NULL, 0)
        && planes_are(0x00, 0x00) && all_are("byte of the pool", pool, pool_len, 0);
    bool two = opens_at(1, 8, BYTES(0x01, 0x00, 0x00, 0x00, 0x00, 0x20,
                                    0x01, 0x00, 0x24,
                                    0x02, 0x00, 1, 2, 3, 4, 5, 6, 7, 8, 9, 10, 11, 12, 13, 14, 15, 16,
                                    17, 18, 19, 20, 21, 22, 23, 24, 25, 26, 27, 28, 29, 30, 31, 32,
                                    0x02, 0x00, 0x10, 0x00, 0x00, 0x20, 0xff, 0xff, 0xff, 0xff),
                        0x20000000, BYTES(0x10, 0x00, 0x00, 0x20, 0xff, 0xff, 0xff, 0xff))
        && planes_are(0x02, 0x04) && all_are("byte of block 0", pool, 16, 0)
        && bytes_are("byte of the object", pool + 16,
                     BYTES(1, 2, 3, 4, 5, 6, 7, 8, 9, 10, 11, 12, 13, 14, 15, 16,
                           17, 18, 19, 20, 21, 22, 23, 24, 25, 26, 27, 28, 29, 30, 31, 32))
        && all_are("byte of block 3", pool + 48, 16, 0);
    base = 0x20000000;
    return empty && two && surveys(2, 1, 1) && loads(1, 7, BLOCKHEAP_OK, 0x201f1e1d)
        && allocates(17, BLOCKHEAP_NO_ROOM, 0, 0) && allocates(16, BLOCKHEAP_OK, 0, 1);
}

static bool example_29(void)
{
    uint8_t longer[sizeof one_block + 1] = {0};
    memcpy(longer, one_block, sizeof one_block);
    for (size_t length = 0; length < sizeof one_block; length++)
        if (!refuses_file(BLOCKHEAP_IMAGE_TRUNCATED, one_block, length)) {
            printf("    (the first %zu bytes)\n", length);
            return false;
        }
    return refuses_file(BLOCKHEAP_TRAILING_BYTES, longer, sizeof longer);
}

/* A base of 4,096 and a table of one byte, and what is behind them. */
#define FILE_OF(...) BYTES(0x01, 0x00, 0x00, 0x10, 0x00, 0x00, 0x01, 0x00, __VA_ARGS__)

static bool example_30(void)
{
    return refuses_file(BLOCKHEAP_BAD_COUNT, BYTES(0x02, 0x00, 0x00, 0x10, 0x00, 0x00))
        && refuses_file(BLOCKHEAP_BAD_COUNT, BYTES(0x02, 0x00, 0x00, 0x10))
        && refuses_file(BLOCKHEAP_BAD_COUNT, BYTES(0x02, 0x00))
        && refuses_file(BLOCKHEAP_BAD_COUNT, BYTES(0x00, 0x00))
        && refuses_file(BLOCKHEAP_BAD_COUNT, BYTES(0x01, 0x00, 0x00, 0x10, 0x00, 0x00, 0x00, 0x00))
        && refuses_file(BLOCKHEAP_BAD_COUNT, BYTES(0x01, 0x00, 0x00, 0x10, 0x00, 0x00, 0x01, 0x04))
        && refuses_file(BLOCKHEAP_IMAGE_TRUNCATED, BYTES(0x01, 0x00, 0x00, 0x10, 0x00, 0x00, 0x00, 0x04))
        && refuses_file(BLOCKHEAP_BAD_COUNT, FILE_OF(0x01, 0x02, 0x00))
        && refuses_file(BLOCKHEAP_BAD_COUNT, FILE_OF(0x01, 0x00, 0x00))
        && refuses_file(BLOCKHEAP_IMAGE_TRUNCATED, FILE_OF(0x01, 0x01, 0x00))
        && refuses_file(BLOCKHEAP_TOO_MANY_ROOTS, FILE_OF(0x00, 0x00, 0x00, 0x01, 0x10))
        && refuses_file(BLOCKHEAP_IMAGE_TRUNCATED, FILE_OF(0x00, 0x00, 0x00, 0x00, 0x10));
}

/* One block whose entry is a MARK, and a root. */
#define MARKED \
    FILE_OF(0x03, 0x01, 0x00, 5, 5, 5, 5, 5, 5, 5, 5, 5, 5, 5, 5, 5, 5, 5, 5, 0x01, 0x00, 0x00, 0x10, 0x00, 0x00)

static bool example_31(void)
{
    return refuses_file(BLOCKHEAP_BAD_TABLE, MARKED)
        && refuses_file(BLOCKHEAP_BAD_COUNT, FILE_OF(0x03, 0x00, 0x00, 0x00, 0x00))
        && refuses_file(BLOCKHEAP_BAD_TABLE,
                        FILE_OF(0x02, 0x01, 0x00, 5, 5, 5, 5, 5, 5, 5, 5, 5, 5, 5, 5, 5, 5, 5, 5, 0x00, 0x00))
        && refuses_file(BLOCKHEAP_BAD_TABLE,
                        FILE_OF(0x08, 0x01, 0x00, 5, 5, 5, 5, 5, 5, 5, 5, 5, 5, 5, 5, 5, 5, 5, 5, 0x00, 0x00));
}

/* No block is used, and there is no root. */
#define EMPTY_AT(...) BYTES(0x01, 0x00, __VA_ARGS__, 0x01, 0x00, 0x00, 0x00, 0x00, 0x00, 0x00)

static bool example_32(void)
{
    return refuses_file(BLOCKHEAP_BAD_SHAPE, EMPTY_AT(0x00, 0x00, 0x00, 0x00))
        && refuses_file(BLOCKHEAP_BAD_SHAPE, EMPTY_AT(0x08, 0x10, 0x00, 0x00))
        && refuses_file(BLOCKHEAP_BAD_SHAPE, EMPTY_AT(0xd0, 0xff, 0xff, 0xff))
        && opens_at(1, 0, EMPTY_AT(0xc0, 0xff, 0xff, 0xff), 0xffffffc0, NULL, 0)
        && opens_at(1, 0, EMPTY_AT(0x10, 0x00, 0x00, 0x00), 16, NULL, 0)
        && refuses_file_in(2, 12, BLOCKHEAP_BAD_SHAPE, one_block, sizeof one_block)
        && refuses_file_in(1, 11, BLOCKHEAP_BAD_SHAPE, one_block, sizeof one_block)
        && refuses_file_in(1, 3, BLOCKHEAP_BAD_SHAPE, one_block, sizeof one_block)
        && refuses_file_in(1, 0, BLOCKHEAP_ROOTS_TOO_SHORT, one_block, sizeof one_block);
}

/* First the file, then what is lent, then the table of the file, then the list. */
static bool example_33(void)
{
    return refuses_file_in(2, 5, BLOCKHEAP_IMAGE_TRUNCATED, one_block, sizeof one_block - 1)
        && refuses_file_in(1, 5, BLOCKHEAP_BAD_SHAPE, MARKED)
        && refuses_file_in(1, 0, BLOCKHEAP_BAD_TABLE, MARKED);
}

/* A heap of examples 9 to 11 is written, opened elsewhere and written again. */
static bool example_34(void)
{
    const uint8_t words[] = {0x40, 0x10, 0x00, 0x00, 0x01, 0x00, 0x00, 0x00};
    uint8_t image[BLOCKHEAP_FULL_IMAGE_BYTES(2, 2)], before[128];
    uint32_t length = RUBBISH, refusal;
    bool freed = from_linked() && frees(1, BLOCKHEAP_OK, -3);
    memset(pool + 16, 0x99, 48); /* of free blocks, and so not in the image */
    refusal = blockheap_write_image(HEAP, words, sizeof words, image, sizeof image, &length);
    memset(pool + 16, 0, 48);
    memcpy(before, pool, sizeof before);
    return freed && same("refusal", refusal, BLOCKHEAP_OK)
        && opens_at(2, 12, image, length, 4096, words, sizeof words)
        && table_is(1, 169) && planes_are(0x11, 0xe0) && bytes_are("byte of the pool", pool, before, sizeof before)
        && has_image(words, sizeof words, image, length);
}

/* The log that the header draws: its entries are in blocks 0 and 1 and in blocks 5 and 6. */
static bool from_log(void)
{
    bool made = from(0, 0);
    memset(pool, 0x77, pool_len);
    return made && appends(0, 60, 3, 4096) && allocates(48, BLOCKHEAP_OK, 2, 3) && appends(4096, 120, 5, 4096);
}

static bool example_35(void)
{
    bool made = from(0, 0);
    memset(pool, 0x77, pool_len);
    return made && appends(0, 60, 3, 4096) && table_is(9, 0) && planes_are(0x01, 0x02)
        && bytes_are("byte of the entry", pool, BYTES(0, 0, 0, 0, 60, 0, 0, 0, 3, 0, 0, 0))
        && all_are("later byte of the entry", pool + 12, 20, 0)
        && all_are("byte of a free block", pool + 32, 96, 0x77)
        && from_log() && table_is(153, 38) && planes_are(0x25, 0x5a)
        && bytes_are("byte of the first entry", pool, BYTES(0x50, 0x10, 0, 0, 60, 0, 0, 0, 3, 0, 0, 0))
        && all_are("later byte of it, or one of the next object", pool + 12, 68, 0)
        && bytes_are("byte of the second entry", pool + 80, BYTES(0, 0, 0, 0, 120, 0, 0, 0, 5, 0, 0, 0))
        && all_are("later byte of it", pool + 92, 20, 0) && all_are("byte of the free block", pool + 112, 16, 0x77);
}

static bool example_36(void)
{
    return from_log() && reads(4096, 0, BLOCKHEAP_OK, 60, 3) && reads(4096, 1, BLOCKHEAP_OK, 120, 5)
        && reads(4096, 2, BLOCKHEAP_NO_ENTRY, 0, 0) && reads(4096, UINT64_C(1) << 32, BLOCKHEAP_NO_ENTRY, 0, 0)
        && reads(4096, UINT64_MAX, BLOCKHEAP_NO_ENTRY, 0, 0) && reads(4176, 0, BLOCKHEAP_OK, 120, 5)
        && reads(0, 0, BLOCKHEAP_NO_ENTRY, 0, 0);
}

static bool example_37(void)
{
    bool made = from_log();
    note_pool_and_table();
    return made && drops(4096, BLOCKHEAP_OK, 4176, -2) && table_is(144, 38) && planes_are(0x24, 0x58)
        && pool_is_as_noted() && is_no_log(4096)
        && reads(4176, 0, BLOCKHEAP_OK, 120, 5) && reads(4176, 1, BLOCKHEAP_NO_ENTRY, 0, 0)
        && drops(4176, BLOCKHEAP_OK, 0, -2) && table_is(144, 2) && planes_are(0x04, 0x18)
        && drops(0, BLOCKHEAP_NO_ENTRY, 0, 0) && table_is(144, 2) && pool_is_as_noted()
        && appends(0, 0xFFFFFFFF, 0, 4096) && reads(4096, 0, BLOCKHEAP_OK, 0xFFFFFFFF, 0);
}

/* Addresses that lead to no entry in the log's heap: of tails, inside a block, of a free block, beside the pool and far
 * from it, and that of an object of three blocks. */
static const uint32_t no_entries[] = {4112, 4144, 4160, 4192, 4097, 4100, 4104, 4183, 4208, 4080,
                                      4224, 1, 16, 0xFFFFFFF0, 0xFFFFFFFF, 4128};
enum { NO_ENTRIES = sizeof no_entries / sizeof no_entries[0] };

static bool example_38(void)
{
    for (size_t at = 0; at < NO_ENTRIES; at++)
        if (!(from_log() && is_no_log(no_entries[at])))
            return false;
    return from_log() && is_no_log((UINT64_C(1) << 32) + 4096) && is_no_log(UINT64_C(1) << 32)
        && is_no_log(UINT64_C(4096) << 32) && is_no_log(UINT64_MAX) && is_no_log(UINT64_MAX - 15)
        && allocates(16, BLOCKHEAP_OK, 7, 1) && is_no_log(4208)
        && reads(4096, 1, BLOCKHEAP_OK, 120, 5);
}

/* The second entry's word 0 is not the end, and leads to no third one, or back. What its words 3 to 7 hold does not
 * matter. */
static bool example_39(void)
{
    for (size_t at = 0; at < NO_ENTRIES; at++)
        if (!(from_log() && stores(5, 0, no_entries[at]) && is_no_log(4096) && is_no_log(4176)))
            return false;
    bool made = from_log() && stores(5, 0, 4096) && is_no_log(4096) && is_no_log(4176)
        && stores(5, 0, 4176) && is_no_log(4096) && is_no_log(4176)
        && allocates(16, BLOCKHEAP_OK, 7, 1) && stores(5, 0, 4208) && is_no_log(4096)
        && stores(5, 0, 0) && reallocates(0, 16, BLOCKHEAP_OK, 0, -1) && is_no_log(4096)
        && reallocates(0, 32, BLOCKHEAP_OK, 0, 1);
    for (uint64_t word = 3; word < 8; word++)
        made = made && stores(0, word, 4096) && stores(5, word, 0xFFFFFFFF);
    return made && reads(4096, 0, BLOCKHEAP_OK, 60, 3) && reads(4096, 1, BLOCKHEAP_OK, 120, 5)
        && drops(4096, BLOCKHEAP_OK, 4176, -2);
}

/* Two blocks in a row are wanted: blocks 3 and 4, once a collection has freed blocks 3 to 7. It keeps the entry in
 * blocks 0 and 1, and block 2, to which a root leads. */
static bool makes_room(const uint8_t *words, size_t roots_len, size_t stack_entries)
{
    bool made = from(0x59, 0x59) && stores(0, 1, 60) && surveys(8, 6, 0) && planes_are(0xdd, 0x22);
    memset(pool + 32, 0x77, 96);
    return made && appends_with(words, roots_len, stack_entries, true, 4096, 120, 5, BLOCKHEAP_OK, 4096, -3)
        && table_is(89, 2) && planes_are(0x0d, 0x12)
        && bytes_are("byte of the first entry", pool, BYTES(0x30, 0x10, 0, 0, 60, 0, 0, 0))
        && all_are("later byte of it", pool + 8, 24, 0) && all_are("byte of block 2", pool + 32, 16, 0x77)
        && bytes_are("byte of the second entry", pool + 48, BYTES(0, 0, 0, 0, 120, 0, 0, 0, 5, 0, 0, 0))
        && all_are("later byte of it", pool + 60, 20, 0) && all_are("byte of a free block", pool + 80, 48, 0x77)
        && reads(4096, 0, BLOCKHEAP_OK, 60, 0) && reads(4096, 1, BLOCKHEAP_OK, 120, 5);
}

static bool example_40(void)
{
    return makes_room(BYTES(0x20, 0x10, 0, 0), 4) && makes_room(BYTES(0x20, 0x10, 0, 0), 64)
        && makes_room(BYTES(0x20, 0x10, 0, 0), 0)
        && makes_room(BYTES(0x10, 0x10, 0, 0, 0x20, 0x10, 0, 0, 0x20, 0x10, 0, 0, 0, 0, 0, 0), 1)
        && from(0x59, 0x59) && appends_with(pool, 0, 4, true, 0, 60, 3, BLOCKHEAP_OK, 4096, -6)
        && table_is(9, 0) && planes_are(0x01, 0x02)
        && from(0x59, 0x59) && appends_with(BYTES(0x50, 0x10, 0, 0), 4, true, 0, 60, 3, BLOCKHEAP_OK, 4096, -4)
        && table_is(9, 9) && planes_are(0x11, 0x22);
}

/* Blocks 2 and 5 are garbage, and the rest is in use: the log's entry in blocks 0 and 1, an object that the root leads
 * to, and one that leads on from there. */
static bool example_41(void)
{
    const uint8_t root[] = {0x40, 0x10, 0, 0};
    bool made = from(0x59, 0x96) && planes_are(0x6d, 0x92) && stores(0, 1, 60) && stores(0, 2, 3) && stores(3, 7, 4192);
    note_pool_and_table();
    return made && surveys(8, 5, 0)
        && appends_with(root, sizeof root, 4, true, 4096, 120, 5, BLOCKHEAP_NO_ROOM, 0, -2)
        && table_is(0x49, 0x92) && planes_are(0x49, 0x92) && pool_is_as_noted() && surveys(6, 3, 1)
        && appends_with(root, sizeof root, 0, true, 4096, 120, 5, BLOCKHEAP_NO_ROOM, 0, 0)
        && table_is(0x49, 0x92) && pool_is_as_noted() && reads(4096, 0, BLOCKHEAP_OK, 60, 3)
        && reads(4096, 1, BLOCKHEAP_NO_ENTRY, 0, 0) && frees(6, BLOCKHEAP_OK, -2)
        && appends(4096, 120, 5, 4096) && table_is(0x49, 0x26) && reads(4096, 1, BLOCKHEAP_OK, 120, 5);
}

/* The same with an empty log: the roots keep blocks 1 and 3, and so no two of the free ones are neighbours. */
static bool example_42(void)
{
    return from(0x55) && appends_with(BYTES(0x30, 0x10, 0, 0, 0x10, 0x10, 0, 0), 1, true, 0, 60, 3,
                                      BLOCKHEAP_NO_ROOM, 0, -2)
        && table_is(0x44) && planes_are(0x0a, 0x00) && all_are("byte of the pool", pool, pool_len, 0)
        && frees(3, BLOCKHEAP_OK, -1) && appends(0, 60, 3, 4128) && table_is(0x94) && planes_are(0x06, 0x08);
}

/* With so many roots, of which the last leads to an object, append finds room at once, or once it has collected. */
static bool takes_roots(size_t roots, uint64_t first)
{
    static uint8_t words[BLOCKHEAP_LIST_BYTES(BLOCKHEAP_MAX_ROOTS)];
    memset(words, 0, sizeof words);
    memcpy(words + 4 * roots - 4, (const uint8_t[]){0x20, 0x10, 0, 0}, 4);
    return from(0x19, 0)
        && appends_with(words, 4 * roots, 4, false, first, 60, 3, BLOCKHEAP_OK, first ? 4096 : 4144, 2)
        && from(0x59, 0x59)
        && appends_with(words, 4 * roots, 4, true, first, 60, 3, BLOCKHEAP_OK, 4096, first ? -3 : -5)
        && table_is(first ? 0x59 : 0x19, first ? 2 : 0);
}

static bool example_43(void)
{
    enum { MOST = BLOCKHEAP_LIST_BYTES(BLOCKHEAP_MAX_ROOTS), STACK_MOST = BLOCKHEAP_LIST_BYTES(64) };
    return takes_roots(4095, 4096) && takes_roots(4095, 0)
        && from_log() && refuses_append(MOST, STACK_MOST, 4096, BLOCKHEAP_TOO_MANY_ROOTS)
        && refuses_append(MOST, STACK_MOST, 0, BLOCKHEAP_TOO_MANY_ROOTS)
        && refuses_append(MOST + 4, 0, 0, BLOCKHEAP_TOO_MANY_ROOTS)
        && refuses_append(0, STACK_MOST + 4, 4096, BLOCKHEAP_STACK_TOO_LONG)
        && refuses_append(0, STACK_MOST + 4, 0, BLOCKHEAP_STACK_TOO_LONG);
}

/* In append: lengths, table, roots, stack, log. In read and drop: table, log, entry. */
static bool example_44(void)
{
    enum { MANY = BLOCKHEAP_LIST_BYTES(4096), LONG = BLOCKHEAP_LIST_BYTES(65) };
    return from(3, 0) && refuses_append(MANY + 1, LONG, 4097, BLOCKHEAP_BAD_SHAPE)
        && refuses_append(MANY, LONG + 3, 4097, BLOCKHEAP_BAD_SHAPE)
        && refuses_append(MANY, LONG, 4097, BLOCKHEAP_BAD_TABLE)
        && reads(4097, 9, BLOCKHEAP_BAD_TABLE, 0, 0) && drops(4097, BLOCKHEAP_BAD_TABLE, 0, 0)
        && drops(0, BLOCKHEAP_BAD_TABLE, 0, 0)
        && from(0x55, 0x55) && refuses_append(1, 0, 0, BLOCKHEAP_BAD_SHAPE)
        && refuses_append(0, 2, 0, BLOCKHEAP_BAD_SHAPE)
        && refuses_append(MANY, LONG, 4097, BLOCKHEAP_TOO_MANY_ROOTS)
        && refuses_append(MANY - 4, LONG, 4097, BLOCKHEAP_STACK_TOO_LONG)
        && refuses_append(MANY - 4, LONG - 4, 4097, BLOCKHEAP_NO_LOG)
        && reads(4097, 9, BLOCKHEAP_NO_LOG, 0, 0) && drops(4097, BLOCKHEAP_NO_LOG, 0, 0);
}

/* A full heap of the largest size is one log. Its entry `number` is not in the order of the blocks. */
static size_t place_of(size_t number)
{
    return 2 * (5 * number % BLOCKHEAP_MAX_LOG_ENTRIES);
}

static void from_longest_log(void)
{
    enum { MOST = BLOCKHEAP_MAX_LOG_ENTRIES };
    lend_heap(BLOCKHEAP_MAX_T, BLOCKHEAP_MAX_POOL_BYTES, BLOCKHEAP_MAX_TABLE_BYTES);
    for (size_t number = 0; number < MOST; number++) {
        uint32_t next = number == MOST - 1 ? 0 : (uint32_t)(4096 + 16 * place_of(number + 1));
        uint8_t *entry = pool + 16 * place_of(number);
        set_entry(place_of(number), BLOCKHEAP_HEAD);
        set_entry(place_of(number) + 1, BLOCKHEAP_TAIL);
        for (int at = 0; at < 4; at++) {
            entry[at] = (uint8_t)(next >> 8 * at);
            entry[4 + at] = (uint8_t)(60 * number >> 8 * at);
            entry[8 + at] = (uint8_t)(number % 7 >> 8 * at);
        }
    }
}

static bool example_45(void)
{
    enum { LAST = BLOCKHEAP_MAX_LOG_ENTRIES - 1 };
    from_longest_log();
    return surveys(4096, 2048, 0) && reads(4096, 0, BLOCKHEAP_OK, 0, 0)
        && reads(4096, LAST, BLOCKHEAP_OK, 60 * LAST, LAST % 7) && reads(4096, LAST + 1, BLOCKHEAP_NO_ENTRY, 0, 0)
        && appends_with(pool, 0, 1, true, 4096, 7, 8, BLOCKHEAP_NO_ROOM, 0, 0)
        && reads(4096, LAST, BLOCKHEAP_OK, 60 * LAST, LAST % 7)
        && stores(place_of(LAST), 0, 4096) && is_no_log(4096) /* a ring of all blocks */
        && stores(place_of(LAST), 0, (uint32_t)(4096 + 16 * place_of(LAST))) && is_no_log(4096)
        && stores(place_of(LAST), 0, 0) && drops(4096, BLOCKHEAP_OK, (uint32_t)(4096 + 16 * place_of(1)), -2)
        && appends(4096 + 16 * place_of(1), 7, 8, (uint32_t)(4096 + 16 * place_of(1)))
        && reads(4096 + 16 * place_of(1), LAST, BLOCKHEAP_OK, 7, 8)
        && reads(4096 + 16 * place_of(1), LAST - 1, BLOCKHEAP_OK, 60 * LAST, LAST % 7);
}

/* Collections that have the first address, and calls that leave the entries alone, do not change the log; and it goes
 * into an image and comes out of it. A collection without the first address frees it. */
static bool example_46(void)
{
    const uint32_t first = 4096, other = 4128;
    const uint8_t root[] = {0x00, 0x10, 0, 0};
    uint8_t image[BLOCKHEAP_FULL_IMAGE_BYTES(2, 1)];
    uint32_t length = RUBBISH;
    bool lasts = from_log() && collects(&first, 64, 2, 0, -3) && table_is(9, 0x24) && planes_are(0x21, 0x42)
        && allocates(40, BLOCKHEAP_OK, 2, 3) && stores(2, 0, 4176) && reallocates(2, 16, BLOCKHEAP_OK, 2, -2)
        && surveys(5, 3, 2) && frees(2, BLOCKHEAP_OK, -1) && collects(&first, 0, 2, 1, 0)
        && reads(4096, 0, BLOCKHEAP_OK, 60, 3) && reads(4096, 1, BLOCKHEAP_OK, 120, 5)
        && reads(4096, 2, BLOCKHEAP_NO_ENTRY, 0, 0);
    uint32_t refusal = blockheap_write_image(HEAP, root, sizeof root, image, sizeof image, &length);
    return lasts && same("refusal", refusal, BLOCKHEAP_OK)
        && opens_at(2, 4, image, length, 4096, root, sizeof root) && reads(4096, 0, BLOCKHEAP_OK, 60, 3)
        && reads(4096, 1, BLOCKHEAP_OK, 120, 5) && appends(4096, 180, 1, 4096)
        && reads(4096, 2, BLOCKHEAP_OK, 180, 1)
        && from_log() && collects(&other, 64, 1, 0, -4) && is_no_log(4096) && is_no_log(4176);
}

/* The last block ends where 32 bits end. */
static bool example_47(void)
{
    bool made = from(0, 0);
    base = 4294967168u;
    return made && allocates(64, BLOCKHEAP_OK, 0, 4) && appends(0, 60, 3, 4294967232u)
        && appends(4294967232u, 120, 5, 4294967232u) && loads(4, 0, BLOCKHEAP_OK, 4294967264u)
        && reads(4294967232u, 1, BLOCKHEAP_OK, 120, 5) && drops(4294967232u, BLOCKHEAP_OK, 4294967264u, -2)
        && reads(4294967264u, 0, BLOCKHEAP_OK, 120, 5) && is_no_log(UINT64_C(1) << 32)
        && is_no_log((UINT64_C(1) << 32) + 4294967264u) && drops(4294967264u, BLOCKHEAP_OK, 0, -2);
}

static const struct {
    const char *title;
    bool (*holds)(void);
} examples[] = {
    {"allocate 1 byte", example_1},
    {"allocate 33 bytes", example_2},
    {"allocate 64 bytes", example_3},
    {"no room for 1 byte", example_4},
    {"free an object, a tail, a block outside", example_5},
    {"shrink an object", example_6},
    {"grow in place, and not at all", example_7},
    {"grow by moving", example_8},
    {"collect from one root", example_9},
    {"collect from no roots", example_10},
    {"roots at a tail and inside a block", example_11},
    {"ill-formed tables", example_12},
    {"bases at the limits", example_13},
    {"the last word and the one after", example_14},
    {"0 bytes is refused before the block is", example_15},
    {"a chain through tails", example_16},
    {"large objects are aligned", example_17},
    {"an unaligned object of an old table", example_18},
    {"a free run that is not aligned", example_19},
    {"spare bits", example_20},
    {"a t and lengths that do not fit", example_21},
    {"the last blocks where t is odd", example_22},
    {"the image of one block", example_23},
    {"the image of an empty heap", example_24},
    {"the image of two blocks among free ones", example_25},
    {"the order of an image's refusals", example_26},
    {"open the image of one block", example_27},
    {"open an empty heap, and two blocks", example_28},
    {"every prefix, and a byte too many", example_29},
    {"wrong counts are told before their items", example_30},
    {"a mark counts, and is then refused", example_31},
    {"files that do not fit what is lent", example_32},
    {"the order of an opening's refusals", example_33},
    {"write, open, and write again", example_34},
    {"append to a log, byte by byte", example_35},
    {"read a log", example_36},
    {"drop the oldest entry", example_37},
    {"no log begins at the address", example_38},
    {"no log goes on to its end", example_39},
    {"append makes room by a collection", example_40},
    {"no room, and the collection stands", example_41},
    {"no room in an empty log", example_42},
    {"4,095 roots beside a log, and 4,096", example_43},
    {"the order of a log's refusals", example_44},
    {"the longest log, and the longest ring", example_45},
    {"the log lasts", example_46},
    {"a log at the highest addresses", example_47},
};

static bool holds_everywhere(bool (*holds)(void))
{
    for (place = 0; place < PLACES; place++)
        if (!holds())
            return false;
    return true;
}

int main(void)
{
    enum { COUNT = sizeof examples / sizeof examples[0] };
    int failed = 0;
    setvbuf(stdout, NULL, _IOLBF, 0);
    start_buffers();
    for (int number = 0; number < COUNT; number++) {
        bool holds = holds_everywhere(examples[number].holds);
        printf("example %2d  %-40s %s\n", number + 1, examples[number].title, holds ? "ok" : "FAILED");
        failed += !holds;
    }
    end_buffers();
    printf("%d passed, %d failed\n", COUNT - failed, failed);
    return failed != 0;
}
