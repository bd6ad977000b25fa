/*
 * What bh.h adds to the calls, at its edges: makers, blocks and addresses, words, null pointers, images, logs,
 * refusals.
 */
#include <stdbool.h>
#include <stdio.h>
#include <string.h>

#include "bh.h"

enum { BASE = 0x1000, POOL_BYTES = 128, BLOCKS = POOL_BYTES / BLOCKHEAP_BLOCK_BYTES };

BH_DEFINE(heap, BASE, POOL_BYTES);

static int failed;

static void check(const char *what, bool holds)
{
    printf("%s %s\n", holds ? "ok    " : "FAILED", what);
    failed += !holds;
}

static void check_lengths(void)
{
    check("a pool has 64 bytes for each t", BLOCKHEAP_POOL_BYTES(3) == 192 && BLOCKHEAP_T_OF_POOL(192) == 3);
    check("a table has two planes, and spare bits where t is odd",
          BLOCKHEAP_TABLE_BYTES_OF_T(1) == 2 && BLOCKHEAP_TABLE_BYTES_OF_T(2) == 2
              && BLOCKHEAP_TABLE_BYTES_OF_T(3) == 4 && BLOCKHEAP_TABLE_BYTES_OF_T(1023) == 1024
              && BLOCKHEAP_TABLE_BYTES_OF_T(BLOCKHEAP_MAX_T) == BLOCKHEAP_MAX_TABLE_BYTES);
    check("the pool's length gives the table's",
          BLOCKHEAP_TABLE_BYTES(64) == 2 && BLOCKHEAP_TABLE_BYTES(128) == 2 && BLOCKHEAP_TABLE_BYTES(192) == 4);
    check("a heap has both",
          BLOCKHEAP_HEAP_BYTES(1) == 66 && BLOCKHEAP_HEAP_BYTES(2) == 130 && BLOCKHEAP_HEAP_BYTES(3) == 196);
    check("an image has counts, a base, a table, blocks and roots",
          BLOCKHEAP_IMAGE_BYTES(1, 1, 1) == 33 && BLOCKHEAP_IMAGE_BYTES(3, 0, 0) == 15);
    check("the longest image is that of a full heap",
          BLOCKHEAP_FULL_IMAGE_BYTES(1, 2) == 85
              && BLOCKHEAP_FULL_IMAGE_BYTES(BLOCKHEAP_MAX_T, BLOCKHEAP_MAX_ROOTS) == BLOCKHEAP_MAX_IMAGE_BYTES);
}

/* Whether a maker gave the heap this t and the lengths that go with it, and the library accepts it. */
static bool is_heap_of(const struct blockheap *made, uint64_t t)
{
    return made->t == t && made->pool_len == BLOCKHEAP_POOL_BYTES(t)
        && made->table_len == BLOCKHEAP_TABLE_BYTES_OF_T(t) && !bh_init(made);
}

static bool splits_into(uint8_t *area, size_t area_len, uint64_t t)
{
    struct blockheap split = bh_split(BASE, area, area_len);
    return split.pool == area && split.table == area + split.pool_len && is_heap_of(&split, t);
}

static bool splits_at_every_t(uint8_t *area)
{
    bool all = true;
    for (size_t t = 1; t <= BLOCKHEAP_MAX_T; t++)
        all = all && splits_into(area, BLOCKHEAP_HEAP_BYTES(t), t);
    return all;
}

static void check_makers(void)
{
    static uint8_t pool[64], table[BLOCKHEAP_TABLE_BYTES(sizeof pool)], area[1025 * 65 + 1];
    static const struct blockheap over = BH_OVER(16, pool, table);
    struct blockheap none, split;
    memset(&none, 0, sizeof none);
    check("a heap that is defined has its lengths and is aligned",
          is_heap_of(&heap, 2) && (uintptr_t)heap.pool % 64 == 0);
    check("a heap over arrays may be const", over.base == 16 && is_heap_of(&over, 1));
    check("an area is split into pool and table", splits_into(area, 130, 2) && splits_into(area, 66, 1));
    check("a part of the area may be left over",
          splits_into(area, 129, 1) && splits_into(area, 195, 2) && splits_into(area, 196, 3));
    check("no pool is longer than 65,536 bytes", splits_into(area, sizeof area, 1024));
    check("an area of a heap's length is split for its t", splits_at_every_t(area));
    split = bh_split(BASE, area, 65);
    check("too short an area is refused", bh_init(&split) == BLOCKHEAP_BAD_SHAPE);
    check("a struct that is all 0 is refused",
          bh_init(&none) == BLOCKHEAP_BAD_SHAPE && bh_survey(&none, NULL, NULL, NULL) == BLOCKHEAP_BAD_SHAPE);
}

/* Addresses of this machine may have more than 32 bits: the library then refuses them. */
static void check_own_address(void)
{
    static BH_ALIGNED uint8_t pool[64], table[BLOCKHEAP_TABLE_BYTES(sizeof pool)];
    static const struct blockheap here = BH_OVER(BH_HERE, pool, table);
    const uint64_t own = (uintptr_t)pool;
    const struct blockheap split = bh_split(BH_HERE, pool, sizeof pool);
    check("a heap may lie at its pool's own address", bh_base(&here) == own && bh_base(&split) == own);
    check("its blocks have those addresses",
          bh_address(&here, 3) == (uint32_t)(own + 48) && bh_base(&heap) == BASE
              && bh_block(&here, (uint32_t)(own + 48)) == (own + 48 <= UINT32_MAX ? 3 : BH_NO_BLOCK));
    check("it is accepted if they fit 32 bits",
          bh_init(&here) == (own + 64 <= 0x100000000 ? BLOCKHEAP_OK : BLOCKHEAP_BAD_SHAPE));
}

static void check_fields(void)
{
    static uint8_t pool[192], table[BLOCKHEAP_TABLE_BYTES(sizeof pool)];
    struct blockheap named;
    memset(&named, 0, sizeof named);
    named.base = BASE;
    named.pool = pool;
    named.pool_len = sizeof pool;
    named.table = table;
    named.table_len = sizeof table;
    check("a struct may leave t to the pool's length", bh_t(&named) == 3 && !bh_init(&named));
    named.t = 3;
    check("or have it", bh_t(&named) == 3 && !bh_init(&named));
    named.t = 4;
    check("another t is refused", bh_t(&named) == 4 && bh_init(&named) == BLOCKHEAP_BAD_SHAPE);
}

static void check_numbers(void)
{
    check("blocks are counted", bh_blocks(&heap) == BLOCKS);
    check("block 0 and the last block have addresses",
          bh_address(&heap, 0) == BASE && bh_address(&heap, BLOCKS - 1) == BASE + POOL_BYTES - 16);
    check("no other block has one", bh_address(&heap, BLOCKS) == 0 && bh_address(&heap, BH_NO_BLOCK) == 0);
    check("an address leads back to its block",
          bh_block(&heap, BASE) == 0 && bh_block(&heap, BASE + POOL_BYTES - 16) == BLOCKS - 1);
    check("nil and an address inside a block are no block's",
          bh_block(&heap, 0) == BH_NO_BLOCK && bh_block(&heap, BASE + 1) == BH_NO_BLOCK);
    check("nor are addresses beside the pool",
          bh_block(&heap, BASE - 16) == BH_NO_BLOCK && bh_block(&heap, BASE + POOL_BYTES) == BH_NO_BLOCK);
    check("a call refuses what is no block", bh_free(&heap, BH_NO_BLOCK, NULL) == BLOCKHEAP_NO_SUCH_BLOCK);
    check("a block's bytes are found in the pool",
          bh_pointer(&heap, 0) == heap.pool && bh_pointer(&heap, 7) == heap.pool + 112);
    check("what is no block has none", !bh_pointer(&heap, BLOCKS) && !bh_pointer(&heap, BH_NO_BLOCK));
}

/* The last block of the highest heap ends where 32 bits end. */
static void check_highest_heap(void)
{
    struct blockheap highest = heap;
    highest.base = 0x100000000 - POOL_BYTES;
    check("the highest heap is accepted", !bh_init(&highest));
    check("its last address leads back",
          bh_address(&highest, BLOCKS - 1) == 0xFFFFFFF0 && bh_block(&highest, 0xFFFFFFF0) == BLOCKS - 1);
    highest.base = UINT64_MAX - 15;
    check("nil is no block's on any base", bh_block(&highest, 0) == BH_NO_BLOCK);
}

static bool entries_are(const struct blockheap *in, const char *letters)
{
    bool same = true;
    for (uint32_t block = 0; letters[block]; block++)
        same = same && letters[block] == ".h=m"[bh_entry(in, block)];
    return same;
}

/* t is odd: the upper half of each plane's last byte is of no block. */
static void check_entries(void)
{
    static uint8_t pool[192], table[] = {0x13, 0x0a, 0xec, 0xf6}, odd_table[] = {0xff, 0xff, 0xff};
    static const struct blockheap odd = BH_OVER(BASE, pool, table), short_table = BH_OVER(BASE, pool, odd_table);
    check("entries are read from both planes", entries_are(&odd, "hh==h===.m=h"));
    check("spare bits are of no block", entries_are(&odd, "hh==h===.m=h....") && !bh_entry(&odd, BH_NO_BLOCK));
    check("nothing is read behind a table that is too short", entries_are(&short_table, "mmmmmmmm...."));
}

static void check_objects(void)
{
    const uint32_t number = 0x80000001;
    uint32_t first = 99, second = 99, value = 99;
    int32_t change = 99;
    check("answers that are not wanted are left out", !bh_init(&heap) && !bh_allocate(&heap, 80, &first, NULL)
                                                          && !bh_allocate(&heap, 17, &second, &change));
    check("the others come out", first == 0 && second == 5 && change == 2);
    check("entries are read, also where no block is", entries_are(&heap, "h====h=..."));
    check("objects are measured",
          bh_object_bytes(&heap, first) == 80 && bh_object_bytes(&heap, second) == 32);
    check("tails and free blocks have no bytes", !bh_object_bytes(&heap, 2) && !bh_object_bytes(&heap, 7));
    check("nor has what is no block",
          !bh_object_bytes(&heap, BLOCKS) && !bh_object_bytes(&heap, BH_NO_BLOCK));
    check("an object may end where the pool ends",
          !bh_reallocate(&heap, second, 33, NULL, NULL) && bh_object_bytes(&heap, second) == 48);
    check("a stored word is in the object's bytes",
          !bh_store(&heap, second, 3, number) && bh_get_word(bh_pointer(&heap, second), 3) == number);
    bh_put_word(bh_pointer(&heap, second), 11, number);
    check("a word put there is loaded", !bh_load(&heap, second, 11, &value) && value == number);
}

static void check_lists(void)
{
    static const uint8_t expected[] = {1, 1, 1, 1, 0x78, 0x56, 0x34, 0x92, 1, 1, 1, 1};
    uint8_t list[BLOCKHEAP_LIST_BYTES(3)];
    uint32_t kept = 9;
    memset(list, 1, sizeof list);
    bh_put_word(list, 1, 0x92345678);
    check("a word is put lowest byte first, and no other changes", memcmp(list, expected, sizeof list) == 0);
    check("a word is got back", bh_get_word(list, 1) == 0x92345678 && bh_get_word(list, 2) == 0x01010101);
    check("null pointers are empty lists",
          !bh_collect(&heap, NULL, 0, NULL, 0, &kept, NULL, NULL) && kept == 0);
}

/* Of the heap that check_lists leaves, once there is an object of two blocks. */
static void check_images(void)
{
    static uint8_t roots[BLOCKHEAP_LIST_BYTES(1)], image[BLOCKHEAP_FULL_IMAGE_BYTES(2, 1)];
    struct blockheap misplaced = heap;
    uint32_t block, length = 99;
    check("an image is measured before it is written",
          !bh_allocate(&heap, 17, &block, NULL) && bh_image_bytes(&heap, 1) == BLOCKHEAP_IMAGE_BYTES(2, 2, 1));
    bh_put_word(roots, 0, bh_address(&heap, block));
    check("it has that length", !bh_write_image(&heap, roots, sizeof roots, image, sizeof image, &length)
                                    && length == bh_image_bytes(&heap, 1));
    check("it begins with the base and ends with the roots",
          bh_get_word(image + 2, 0) == BASE && memcmp(image + length - sizeof roots, roots, sizeof roots) == 0);
    check("null pointers are no roots, and a length that is not wanted",
          !bh_write_image(&heap, NULL, 0, image, bh_image_bytes(&heap, 0), NULL));
    check("a null pointer is an output of no bytes",
          bh_write_image(&heap, NULL, 0, NULL, 0, &length) == BLOCKHEAP_OUTPUT_TOO_SHORT && length == 0);
    misplaced.base++;
    check("a heap that is refused has no image", bh_image_bytes(&misplaced, 0) == 0);
}

/* The t that the first 8 bytes of an image say. */
static size_t t_of(uint8_t low_base_count, uint8_t high_base_count, uint8_t low_t, uint8_t high_t)
{
    const uint8_t front[8] = {low_base_count, high_base_count, 9, 9, 9, 9, low_t, high_t};
    return bh_image_t(front, sizeof front);
}

static void check_image_t(void)
{
    static const uint8_t front[9] = {1, 0, 9, 9, 9, 9, 3, 0, 9};
    bool short_ones = true;
    for (size_t length = 0; length < 8; length++)
        short_ones = short_ones && bh_image_t(front, length) == 0;
    check("the first 8 bytes of an image give its t", bh_image_t(front, 8) == 3 && bh_image_t(front, 9) == 3);
    check("fewer give none, also a null pointer", short_ones && bh_image_t(NULL, 0) == 0);
    check("t has two bytes and a limit",
          t_of(1, 0, 1, 0) == 1 && t_of(1, 0, 0, 4) == 1024 && t_of(1, 0, 1, 4) == 0 && t_of(1, 0, 0, 0) == 0);
    check("another count of bases is no image's",
          t_of(0, 0, 1, 0) == 0 && t_of(2, 0, 1, 0) == 0 && t_of(1, 1, 1, 0) == 0);
}

/* A heap with an object in block 0, and its address as the root, is opened in an area of another. */
static void check_openings(void)
{
    static uint8_t area[BLOCKHEAP_HEAP_BYTES(3)], roots[BLOCKHEAP_LIST_BYTES(2)];
    static uint8_t image[BLOCKHEAP_FULL_IMAGE_BYTES(2, 1)];
    struct blockheap opened = bh_split(0, area, BLOCKHEAP_HEAP_BYTES(2)), larger = bh_split(16, area, sizeof area);
    uint32_t block, length = 99, count = 99;
    bh_put_word(roots, 0, BASE);
    bh_put_word(roots, 1, 7);
    check("an image is made", !bh_init(&heap) && !bh_allocate(&heap, 1, &block, NULL) && !bh_store(&heap, block, 2, 55)
                                  && !bh_write_image(&heap, roots, 4, image, sizeof image, &length));
    bh_put_word(roots, 0, 0);
    check("it is opened, and the struct gets its base",
          !bh_open_image(&opened, image, length, roots, sizeof roots, &count) && opened.base == BASE && count == 1);
    check("the list has its roots, and what it had behind them",
          bh_get_word(roots, 0) == BASE && bh_get_word(roots, 1) == 7);
    check("the heap is the same", entries_are(&opened, "h.......") && bh_get_word(bh_pointer(&opened, 0), 2) == 55);
    check("a count that is not wanted is left out", !bh_open_image(&opened, image, length, roots, 4, NULL));
    check("memory of another size is refused, and the base stays",
          bh_open_image(&larger, image, length, roots, 4, &count) == BLOCKHEAP_BAD_SHAPE && larger.base == 16
              && count == 0);
    check("a null pointer is a list of no entries",
          bh_open_image(&opened, image, length, NULL, 0, NULL) == BLOCKHEAP_ROOTS_TOO_SHORT);
    check("or a file of no bytes", bh_open_image(&opened, NULL, 0, NULL, 0, NULL) == BLOCKHEAP_IMAGE_TRUNCATED);
    opened.t = 0;
    check("a struct may leave t to the pool's length here too", !bh_open_image(&opened, image, length, roots, 4, NULL));
}

static bool log_has(const struct bh_log *log, uint64_t index, uint32_t time, uint32_t tips)
{
    uint32_t got_time = 99, got_tips = 99;
    return !bh_log_read(&heap, log, index, &got_time, &got_tips) && got_time == time && got_tips == tips;
}

/* Appends without roots and without a mark stack. */
static uint32_t append(struct bh_log *log, uint32_t time, uint32_t tips, int32_t *change)
{
    return bh_log_append(&heap, log, time, tips, NULL, 0, NULL, 0, change);
}

/* A log in a heap of eight blocks, which has room for four entries. */
static void check_logs(void)
{
    uint8_t stack[BLOCKHEAP_LIST_BYTES(2)];
    struct bh_log log = {0}, wrong = {BASE + 16};
    uint32_t time = 99, tips = 99;
    int32_t change = 99;
    check("the limits of a log go with those of a heap",
          BLOCKHEAP_MAX_LOG_ENTRIES * BLOCKHEAP_LOG_ENTRY_BYTES == BLOCKHEAP_MAX_POOL_BYTES
              && BLOCKHEAP_MAX_LOG_ROOTS + 1 == BLOCKHEAP_MAX_ROOTS);
    check("a log that is all 0 is empty",
          !bh_init(&heap) && bh_log_read(&heap, &log, 0, &time, &tips) == BLOCKHEAP_NO_ENTRY && time == 0 && tips == 0
              && bh_log_drop(&heap, &log, &change) == BLOCKHEAP_NO_ENTRY && change == 0 && log.first == 0);
    check("an append to it sets its first address",
          !bh_log_append(&heap, &log, 60, 3, NULL, 0, stack, sizeof stack, &change) && log.first == BASE
              && change == 2);
    check("a later one leaves that", !append(&log, 120, 5, NULL) && log.first == BASE);
    check("both are read", log_has(&log, 0, 60, 3) && log_has(&log, 1, 120, 5));
    check("a time or a tip count that is not wanted is left out",
          !bh_log_read(&heap, &log, 1, NULL, &tips) && tips == 5 && !bh_log_read(&heap, &log, 1, &time, NULL)
              && time == 120 && bh_log_read(&heap, &log, 2, NULL, NULL) == BLOCKHEAP_NO_ENTRY);
    check("an append makes room by itself",
          !bh_allocate(&heap, 64, NULL, NULL) && !append(&log, 180, 1, &change) && change == -2
              && log_has(&log, 2, 180, 1));
    check("if it can make none, the first address stays",
          !append(&log, 240, 2, NULL) && append(&log, 300, 4, &change) == BLOCKHEAP_NO_ROOM && change == 0
              && log.first == BASE && log_has(&log, 3, 240, 2));
    check("a drop leads on to the next entry",
          !bh_log_drop(&heap, &log, &change) && change == -2 && log.first == BASE + 32 && log_has(&log, 0, 120, 5));
    check("what is no log stays as it is",
          append(&wrong, 1, 1, NULL) == BLOCKHEAP_NO_LOG
              && bh_log_read(&heap, &wrong, 0, NULL, NULL) == BLOCKHEAP_NO_LOG
              && bh_log_drop(&heap, &wrong, NULL) == BLOCKHEAP_NO_LOG && wrong.first == BASE + 16);
    check("a log without its last entry is empty",
          !bh_log_drop(&heap, &log, NULL) && !bh_log_drop(&heap, &log, NULL) && log.first != 0
              && !bh_log_drop(&heap, &log, NULL) && log.first == 0);
}

/* Lists the name and the sentence of each refusal, of those that are not in use, and of one behind the last. */
static void list_refusals(void)
{
    for (uint32_t refusal = BLOCKHEAP_OK; refusal <= BLOCKHEAP_NO_ENTRY + 1; refusal++)
        printf("%-6u %s: %s\n", (unsigned)refusal, bh_refusal_name(refusal), bh_refusal_text(refusal));
}

static void check_version(void)
{
    char text[40];
    snprintf(text, sizeof text, "%d.%d.%d", BLOCKHEAP_VERSION / 1000000, BLOCKHEAP_VERSION / 1000 % 1000,
             BLOCKHEAP_VERSION % 1000);
    check("the version's number and string agree", strcmp(text, BLOCKHEAP_VERSION_STRING) == 0);
}

int main(void)
{
    check_lengths();
    check_makers();
    check_own_address();
    check_fields();
    check_numbers();
    check_highest_heap();
    check_entries();
    check_objects();
    check_lists();
    check_images();
    check_image_t();
    check_openings();
    check_logs();
    list_refusals();
    check_version();
    return failed != 0;
}
