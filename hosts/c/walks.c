/*
 * What bh.h makes of several calls: an allocation that collects, walks over objects and free runs, and a cursor over a
 * log. Each is held to the calls that it stands for, on many heaps.
 */
#include <stdbool.h>
#include <stdio.h>
#include <string.h>

#include "bh.h"
#include "refusals.h" /* must */

enum { BASE = 0x1000, POOL_BYTES = 64 * 9, BLOCKS = POOL_BYTES / BLOCKHEAP_BLOCK_BYTES, ROUNDS = 2000 };

BH_DEFINE(heap, BASE, POOL_BYTES);
BH_DEFINE(other, BASE, POOL_BYTES);

static int failed;

static void check(const char *what, bool holds)
{
    printf("%s %s\n", holds ? "ok    " : "FAILED", what);
    failed += !holds;
}

static uint32_t random_state = 1;

static uint32_t random_below(uint32_t end)
{
    random_state ^= random_state << 13;
    random_state ^= random_state >> 17;
    random_state ^= random_state << 5;
    return random_state % end;
}

static uint32_t random_block(void)
{
    return random_below(BLOCKS);
}

/* Objects of one to five blocks, as many as find room, and about a third of them freed again. */
static void fill(void)
{
    must(bh_init(&heap));
    for (uint32_t tries = random_below(40); tries > 0; tries--)
        bh_allocate(&heap, 1 + random_below(80), NULL, NULL);
    for (uint32_t tries = random_below(BLOCKS); tries > 0; tries--)
        bh_free(&heap, random_block(), NULL);
}

/* ---- Objects and free runs ---- */

/* Whether the walk finds each head in turn, and nothing else. */
static bool walk_is_right(void)
{
    struct bh_object object = {0, 0};
    uint32_t objects, used, bytes = 0;
    must(bh_survey(&heap, &used, &objects, NULL));
    for (uint32_t block = 0; block < BLOCKS; block++)
        if (bh_entry(&heap, block) == BLOCKHEAP_HEAD) {
            if (!bh_walk(&heap, &object) || object.block != block || object.bytes != bh_object_bytes(&heap, block))
                return false;
            bytes += object.bytes;
            objects--;
        }
    return !bh_walk(&heap, &object) && !bh_walk(&heap, &object) && objects == 0
        && bytes == used * BLOCKHEAP_BLOCK_BYTES;
}

/* The length of the free run that begins at this block; 0 if none begins there. */
static uint32_t run_from(uint32_t block)
{
    uint32_t end = block;
    if (block > 0 && bh_entry(&heap, block - 1) == BLOCKHEAP_FREE)
        return 0;
    while (end < BLOCKS && bh_entry(&heap, end) == BLOCKHEAP_FREE)
        end++;
    return end - block;
}

static bool runs_are_right(void)
{
    struct bh_run run = {0, 0};
    uint32_t used, longest, most = 0, free_blocks = 0;
    must(bh_survey(&heap, &used, NULL, &longest));
    for (uint32_t block = 0; block < BLOCKS; block++)
        if (run_from(block)) {
            if (!bh_free_run(&heap, &run) || run.block != block || run.blocks != run_from(block))
                return false;
            free_blocks += run.blocks;
            most = run.blocks > most ? run.blocks : most;
        }
    return !bh_free_run(&heap, &run) && !bh_free_run(&heap, &run) && free_blocks == BLOCKS - used && most == longest;
}

/* How many runs have a length from the first number on and below the second. */
static uint32_t runs_between(uint32_t from, uint32_t end)
{
    uint32_t runs = 0;
    for (uint32_t block = 0; block < BLOCKS; block++) {
        uint32_t length = run_from(block);
        runs += length > 0 && length >= from && length < end;
    }
    return runs;
}

static bool counts_are_right(uint32_t length)
{
    uint32_t counts[BLOCKS + 3];
    bool right = true;
    memset(counts, 0xFF, sizeof counts);
    must(bh_free_runs(&heap, counts, length));
    for (uint32_t at = 0; at < length; at++)
        right = right && counts[at] == runs_between(at, at + 1 < length ? at + 1 : BLOCKS + 1);
    return right && counts[length] == UINT32_MAX;
}

static void check_walks(void)
{
    bool walks = true, runs = true, counts = true;
    uint32_t used;
    struct bh_object object = {0, 0};
    for (int round = 0; round < ROUNDS; round++) {
        fill();
        walks = walks && walk_is_right();
        runs = runs && runs_are_right();
        counts = counts && counts_are_right(random_below(BLOCKS + 3));
    }
    check("a walk finds every object, in rising order", walks);
    check("and every run of free blocks", runs);
    check("which are counted by their length", counts);
    while (bh_walk(&heap, &object))
        must(bh_free(&heap, object.block, NULL));
    check("the object at hand may be freed", !bh_survey(&heap, &used, NULL, NULL) && used == 0);
}

static void check_refused_counts(void)
{
    uint32_t counts[2] = {9, 9};
    struct blockheap misplaced = heap;
    misplaced.base++;
    check("free runs of a heap that is refused are not counted",
          bh_free_runs(&misplaced, counts, 2) == BLOCKHEAP_BAD_SHAPE && counts[0] == 0 && counts[1] == 0);
    heap.table[heap.table_len / 2] = 1; /* a tail at block 0 */
    counts[0] = 9;
    check("nor those of a damaged table", bh_free_runs(&heap, counts, 2) == BLOCKHEAP_BAD_TABLE && counts[0] == 0);
    must(bh_init(&heap));
}

/* ---- An allocation that collects ---- */

static uint8_t roots[BLOCKHEAP_LIST_BYTES(8)], stack[BLOCKHEAP_LIST_BYTES(4)];

/* Some roots, of which some lead to objects, and words in objects that lead to others. */
static void draw_roots(void)
{
    for (size_t at = 0; at < 8; at++)
        bh_put_word(roots, at, bh_address(&heap, random_below(2 * BLOCKS)));
    for (uint32_t block = 0; block < BLOCKS; block++)
        bh_store(&heap, block, random_below(4), bh_address(&heap, random_block()));
}

static void copy_heap(void)
{
    memcpy(other.pool, heap.pool, heap.pool_len);
    memcpy(other.table, heap.table, heap.table_len);
}

static bool heaps_are_same(void)
{
    return memcmp(other.pool, heap.pool, heap.pool_len) == 0 && memcmp(other.table, heap.table, heap.table_len) == 0;
}

static unsigned collected, no_room;

/* The same by three calls, on the copy. */
static uint32_t by_hand(uint64_t bytes, uint32_t *block, int32_t *change)
{
    int32_t freed;
    uint32_t refusal = bh_allocate(&other, bytes, block, change);
    if (refusal != BLOCKHEAP_NO_ROOM)
        return refusal;
    collected++;
    must(bh_collect(&other, roots, sizeof roots, stack, sizeof stack, NULL, NULL, &freed));
    refusal = bh_allocate(&other, bytes, block, change);
    no_room += refusal == BLOCKHEAP_NO_ROOM;
    *change += freed;
    return refusal;
}

static bool allocates_as_by_hand(uint64_t bytes)
{
    uint32_t block = 99, expected_block;
    int32_t change = 99, expected_change;
    uint32_t refusal, expected;
    copy_heap();
    expected = by_hand(bytes, &expected_block, &expected_change);
    refusal = bh_allocate_collecting(&heap, bytes, roots, sizeof roots, stack, sizeof stack, &block, &change);
    return refusal == expected && block == expected_block && change == expected_change && heaps_are_same();
}

/* Whether lists of these lengths are refused, though there is room, and nothing has changed. */
static bool refuses_lists(uint32_t refusal, size_t roots_len, size_t stack_len)
{
    static uint8_t list[BLOCKHEAP_LIST_BYTES(BLOCKHEAP_MAX_ROOTS + 1)];
    static uint8_t long_stack[BLOCKHEAP_LIST_BYTES(BLOCKHEAP_MAX_STACK_ENTRIES + 1)];
    uint32_t block = 99;
    int32_t change = 99;
    must(bh_init(&heap));
    copy_heap();
    return bh_allocate_collecting(&heap, 1, list, roots_len, long_stack, stack_len, &block, &change) == refusal
        && bh_collect(&heap, list, roots_len, long_stack, stack_len, NULL, NULL, NULL) == refusal && block == 0
        && change == 0 && heaps_are_same();
}

static void check_allocations(void)
{
    bool same = true;
    for (int round = 0; round < ROUNDS; round++) {
        fill();
        draw_roots();
        for (int call = 0; call < 4; call++)
            same = same && allocates_as_by_hand(random_below(round % 2 ? 40 : 300));
    }
    check("an allocation that collects is one by hand", same);
    check("some of them collect, and some find no room even so", collected > ROUNDS / 4 && no_room > ROUNDS / 8);
    check("null pointers are no roots, no stack, and answers that are not wanted",
          !bh_allocate_collecting(&heap, 1, NULL, 0, NULL, 0, NULL, NULL));
    check("wrong lists are refused as a collection refuses them, though there is room",
          refuses_lists(BLOCKHEAP_BAD_SHAPE, 3, 0) && refuses_lists(BLOCKHEAP_BAD_SHAPE, 0, 2)
              && refuses_lists(BLOCKHEAP_TOO_MANY_ROOTS, BLOCKHEAP_LIST_BYTES(BLOCKHEAP_MAX_ROOTS + 1), 0)
              && refuses_lists(BLOCKHEAP_STACK_TOO_LONG, 0, BLOCKHEAP_LIST_BYTES(BLOCKHEAP_MAX_STACK_ENTRIES + 1)));
}

/* ---- A cursor over a log ---- */

static struct bh_log rain;

/* A log of some entries, between other objects, of which some were freed, and with old entries dropped. */
static void fill_log(void)
{
    rain.first = 0;
    must(bh_init(&heap));
    for (uint32_t tries = random_below(30); tries > 0; tries--) {
        bh_allocate(&heap, 1 + random_below(60), NULL, NULL);
        bh_log_append(&heap, &rain, random_below(1000), random_below(9), NULL, 0, NULL, 0, NULL);
        if (random_below(3) == 0)
            bh_log_drop(&heap, &rain, NULL);
    }
}

static unsigned entries, no_logs;

/* Whether each call answers as bh_log_read does, up to the first refusal, and that once more. */
static bool cursor_reads(void)
{
    struct bh_log_cursor cursor = {0, 0};
    uint32_t refusal = BLOCKHEAP_OK, time, tips, read_time, read_tips;
    for (uint32_t index = 0; !refusal; index++) {
        refusal = bh_log_read(&heap, &rain, index, &read_time, &read_tips);
        for (int times = 0; times <= (refusal != BLOCKHEAP_OK); times++)
            if (bh_log_next(&heap, &rain, &cursor, &time, &tips) != refusal || time != read_time || tips != read_tips)
                return false;
        entries += !refusal;
    }
    no_logs += refusal == BLOCKHEAP_NO_LOG;
    return true;
}

/* The word 0 of a random entry, which leads to the next, or the first address. */
static uint8_t *random_link(void)
{
    uint32_t address = rain.first, steps = random_below(20);
    while (address != 0 && steps-- > 0 && bh_get_word(bh_pointer(&heap, bh_block(&heap, address)), 0) != 0)
        address = bh_get_word(bh_pointer(&heap, bh_block(&heap, address)), 0);
    return address != 0 ? bh_pointer(&heap, bh_block(&heap, address)) : NULL;
}

/* Leads anywhere: to a free block, a tail, a head of any length, an entry before or behind, into a block, outside. */
static void break_log(void)
{
    uint8_t *link = random_link();
    uint32_t address = BASE + BLOCKHEAP_BLOCK_BYTES * random_below(BLOCKS + 4) + (random_below(8) == 0 ? 4 : 0);
    if (!link || random_below(8) == 0)
        rain.first = address;
    else
        bh_put_word(link, 0, address);
}

static void check_cursor(void)
{
    bool whole = true, broken = true;
    for (int round = 0; round < ROUNDS; round++) {
        fill_log();
        whole = whole && cursor_reads();
        break_log();
        broken = broken && cursor_reads();
    }
    check("a cursor reads logs as calls by index do", whole);
    check("and those that lead anywhere", broken);
    check("many entries are read, and many logs are none", entries > 5 * ROUNDS && no_logs > ROUNDS / 4);
}

static uint32_t log_of(uint32_t count)
{
    rain.first = 0;
    must(bh_init(&heap));
    for (uint32_t at = 0; at < count; at++)
        must(bh_log_append(&heap, &rain, at, 2 * at, NULL, 0, NULL, 0, NULL));
    return rain.first;
}

/* Entries lie one behind the other. */
static uint32_t entry_block(uint32_t index)
{
    return 2 * index;
}

static bool reads(struct bh_log_cursor *cursor, uint32_t time)
{
    uint32_t got_time, got_tips;
    return !bh_log_next(&heap, &rain, cursor, &got_time, &got_tips) && got_time == time && got_tips == 2 * time;
}

static bool refuses(struct bh_log_cursor *cursor, uint32_t refusal)
{
    uint32_t time = 99, tips = 99;
    return bh_log_next(&heap, &rain, cursor, &time, &tips) == refusal && time == 0 && tips == 0;
}

/* What a cursor does where the log is changed while it is read. */
static void check_changes(void)
{
    struct bh_log_cursor cursor = {0, 0}, start = {0, 0};
    struct blockheap misplaced = heap;
    unsigned steps = 0;
    log_of(2);
    check("behind the last entry there is none",
          reads(&cursor, 0) && reads(&cursor, 1) && refuses(&cursor, BLOCKHEAP_NO_ENTRY));
    must(bh_log_append(&heap, &rain, 2, 4, NULL, 0, NULL, 0, NULL));
    check("until one is appended", reads(&cursor, 2) && refuses(&cursor, BLOCKHEAP_NO_ENTRY));

    cursor = start;
    check("answers that are not wanted are left out", !bh_log_next(&heap, &rain, &cursor, NULL, NULL));
    must(bh_free(&heap, entry_block(1), NULL));
    check("an entry that was freed is refused", refuses(&cursor, BLOCKHEAP_NO_LOG));
    must(bh_allocate(&heap, 16, NULL, NULL));
    check("and an object of another size", refuses(&cursor, BLOCKHEAP_NO_LOG));

    log_of(3);
    cursor = start;
    must(reads(&cursor, 0) && reads(&cursor, 1) ? BLOCKHEAP_OK : BLOCKHEAP_NO_LOG);
    must(bh_free(&heap, entry_block(1), NULL));
    check("and where the cursor stands", refuses(&cursor, BLOCKHEAP_NO_LOG));

    log_of(3);
    cursor = start;
    must(reads(&cursor, 0) ? BLOCKHEAP_OK : BLOCKHEAP_NO_LOG);
    must(bh_store(&heap, entry_block(2), 0, rain.first));
    while (!bh_log_next(&heap, &rain, &cursor, NULL, NULL))
        steps++;
    check("a ring has an end", refuses(&cursor, BLOCKHEAP_NO_LOG) && steps < BLOCKS);

    misplaced.base++;
    check("a heap that is refused is refused", bh_log_next(&misplaced, &rain, &cursor, NULL, NULL) == BLOCKHEAP_BAD_SHAPE);
    heap.table[heap.table_len / 2] |= 1;
    check("and a damaged table", refuses(&cursor, BLOCKHEAP_BAD_TABLE));
}

int main(void)
{
    check_walks();
    check_refused_counts();
    check_allocations();
    check_cursor();
    check_changes();
    return failed != 0;
}
