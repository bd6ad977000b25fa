/*
 * Times one implementation of blockheap.h. Linked with the library, with the plain C port and with the
 * plain-list heap, it does the same work on each, and prints for each kind of work and size of heap, with
 * tabs between,
 *
 *   WORK BLOCKS NANOSECONDS CHECKSUM
 *
 * where the time is that of one turn, and the checksum is made of the answers of a fixed number of turns.
 * With --legend it says what each kind of work does. Tables are made by calls alone: what their bytes are is
 * left to the implementation.
 */
#include <stdio.h>
#include <stdlib.h>
#include <string.h>
#include <time.h>

#include "blockheap.h"

enum { CHECKED_TURNS = 50, REPEATS = 3, MAX_LIVE = BLOCKHEAP_MAX_BLOCKS / 4, GRAPH_ROOTS = 64 };
static const double LEAST_NANOSECONDS = 20e6;
static const uint32_t BASE = 4096;

static uint8_t pool[BLOCKHEAP_MAX_POOL_BYTES];
static uint8_t table[BLOCKHEAP_MAX_TABLE_BYTES], prepared_table[BLOCKHEAP_MAX_TABLE_BYTES];
static uint8_t roots[GRAPH_ROOTS * BLOCKHEAP_WORD_BYTES];
static uint8_t stack[BLOCKHEAP_MAX_STACK_ENTRIES * BLOCKHEAP_WORD_BYTES];
static uint8_t image[BLOCKHEAP_MAX_IMAGE_BYTES], copy_of_image[BLOCKHEAP_MAX_IMAGE_BYTES];
static uint32_t image_length;
static uint64_t t;
static size_t blocks, roots_len;

static uint32_t live[MAX_LIVE];
static size_t live_count;

#define TABLE_BYTES BLOCKHEAP_TABLE_BYTES_OF_T(t)
#define HEAP BASE, t, pool, BLOCKHEAP_POOL_BYTES(t), table, TABLE_BYTES

static uint32_t checksum;

static void add(uint32_t answer)
{
    checksum = checksum * 31 + answer;
}

static uint32_t random_state;

static uint32_t random_below(uint32_t end)
{
    random_state ^= random_state << 13;
    random_state ^= random_state >> 17;
    random_state ^= random_state << 5;
    return random_state % end;
}

static void must(uint32_t refusal)
{
    if (refusal) {
        fprintf(stderr, "unexpected refusal %u\n", (unsigned)refusal);
        exit(1);
    }
}

static uint32_t address(size_t block)
{
    return BASE + BLOCKHEAP_BLOCK_BYTES * (uint32_t)block;
}

static void put_word(uint8_t *bytes, uint32_t value)
{
    for (int at = 0; at < BLOCKHEAP_WORD_BYTES; at++)
        bytes[at] = (uint8_t)(value >> 8 * at);
}

static void point(size_t block, size_t word, size_t target)
{
    if (target < blocks)
        put_word(pool + BLOCKHEAP_BLOCK_BYTES * block + BLOCKHEAP_WORD_BYTES * word, address(target));
}

static void set_root(size_t block)
{
    roots_len = BLOCKHEAP_WORD_BYTES;
    put_word(roots, address(block));
}

static void set_random_roots(void)
{
    roots_len = sizeof roots;
    for (size_t at = 0; at < roots_len; at += BLOCKHEAP_WORD_BYTES)
        put_word(roots + at, address(random_below((uint32_t)blocks)));
}

/* Small objects, a quarter as many as there are blocks, so that about half the blocks are used. */
static void fill(void)
{
    int32_t change;
    must(blockheap_init(HEAP));
    live_count = blocks / 4;
    for (size_t at = 0; at < live_count; at++)
        must(blockheap_allocate(HEAP, 1 + random_below(48), &live[at], &change));
}

/* One object in every block, leading nowhere, and no roots. */
static void only_heads(void)
{
    uint32_t object;
    int32_t change;
    must(blockheap_init(HEAP));
    for (size_t block = 0; block < blocks; block++)
        must(blockheap_allocate(HEAP, 1, &object, &change));
    roots_len = 0;
}

/* An object in each block but for one hole in every 64 blocks, longer by a block each time as long as there is
 * room for it: the longest hole so far is found anew in each 64 blocks. */
static void fill_with_rising_holes(void)
{
    int32_t change;
    only_heads();
    for (size_t block = 0; block < blocks; block++) {
        size_t place = block % 64, hole = 1 + block / 64;
        if (place >= 1 && place <= hole && place <= 62)
            must(blockheap_free(HEAP, block, &change));
    }
}

static void churn(void)
{
    int32_t change;
    uint32_t *object = &live[random_below((uint32_t)live_count)];
    must(blockheap_free(HEAP, *object, &change));
    must(blockheap_allocate(HEAP, 1 + random_below(48), object, &change));
    add(*object);
}

static void reallocate(void)
{
    int32_t change;
    uint32_t *object = &live[random_below((uint32_t)live_count)];
    must(blockheap_reallocate(HEAP, *object, 1 + random_below(48), object, &change));
    add(*object);
}

static void load_and_store(void)
{
    uint32_t object = live[random_below((uint32_t)live_count)], value;
    must(blockheap_load(HEAP, object, 3, &value));
    must(blockheap_store(HEAP, object, 3, value + 1));
    add(value);
}

static void survey(void)
{
    uint32_t used, objects, longest;
    must(blockheap_survey(HEAP, &used, &objects, &longest));
    add(used);
    add(objects);
    add(longest);
}

static void chain(void)
{
    only_heads();
    for (size_t block = 0; block < blocks; block++)
        point(block, 0, block + 1);
    set_root(0);
}

static void tree(void)
{
    only_heads();
    for (size_t block = 0; block < blocks; block++) {
        point(block, 1, 2 * block + 1);
        point(block, 2, 2 * block + 2);
    }
    set_root(0);
}

static void graph(void)
{
    only_heads();
    for (size_t word = 0; word < 4 * blocks; word++)
        point(word / 4, word % 4, random_below((uint32_t)blocks));
    set_random_roots();
}

static size_t allocate_blocks(size_t count)
{
    uint32_t object;
    int32_t change;
    must(blockheap_allocate(HEAP, BLOCKHEAP_BLOCK_BYTES * count, &object, &change));
    return object;
}

/* One object of all blocks. The root and each of its words lead to the same block of it. */
static void one_object(size_t target)
{
    must(blockheap_init(HEAP));
    allocate_blocks(blocks);
    for (size_t word = 0; word < 4 * blocks; word++)
        point(word / 4, word % 4, target);
    set_root(target);
}

static void words_to_the_head(void)
{
    one_object(0);
}

static void words_to_the_last_block(void)
{
    one_object(blocks - 1);
}

/* An object of three quarters of the blocks and four equal ones in the rest. The words of the first lead to each of
 * the five in turn, to its head or to its last block. */
static void five_objects(int to_last_blocks)
{
    size_t targets[5];
    must(blockheap_init(HEAP));
    for (size_t at = 0; at < 5; at++) {
        size_t count = at == 0 ? blocks / 4 * 3 : blocks / 16;
        targets[at] = allocate_blocks(count) + (to_last_blocks ? count - 1 : 0);
    }
    for (size_t word = 0; word < 3 * blocks; word++)
        point(word / 4, word % 4, targets[word % 5]);
    set_root(0);
}

static void words_to_five_heads(void)
{
    five_objects(0);
}

static void words_to_five_last_blocks(void)
{
    five_objects(1);
}

static uint64_t wanted_bytes;

/* An object in each block but for holes of so many blocks, from block 1 on, with `used` objects between them. None has
 * room for what is wanted. */
static void fill_with_holes(size_t hole, size_t used, size_t wanted)
{
    int32_t change;
    only_heads();
    for (size_t block = 1; block < blocks; block++)
        if ((block - 1) % (hole + used) < hole)
            must(blockheap_free(HEAP, block, &change));
    wanted_bytes = BLOCKHEAP_BLOCK_BYTES * wanted;
}

static void holes_of_2(void)
{
    fill_with_holes(2, 1, 3);
}

static void holes_of_3(void)
{
    fill_with_holes(3, 1, 4);
}

static void unaligned_holes_of_4(void)
{
    fill_with_holes(4, 4, 4);
}

static void holes_of_7(void)
{
    fill_with_holes(7, 2, 8);
}

static void holes_of_63(void)
{
    fill_with_holes(63, 2, 64);
}

static void find_no_room(void)
{
    uint32_t object;
    int32_t change;
    add(blockheap_allocate(HEAP, wanted_bytes, &object, &change));
}

/* From the table as it was prepared. */
static void collect(void)
{
    uint32_t kept, rescans;
    int32_t change;
    memcpy(table, prepared_table, TABLE_BYTES);
    must(blockheap_collect(HEAP, roots, roots_len, stack, sizeof stack, &kept, &rescans, &change));
    add(kept);
    add(rescans);
    add((uint32_t)change);
}

static void all_blocks_used(void)
{
    only_heads();
    set_random_roots();
}

static void every_second_block_used(void)
{
    fill_with_holes(1, 1, 2);
    set_random_roots();
}

static void write_image(void)
{
    must(blockheap_write_image(HEAP, roots, roots_len, image, sizeof image, &image_length));
    add(image_length);
    add(image[random_below(image_length)]);
}

static void image_of_all_blocks(void)
{
    all_blocks_used();
    write_image();
}

static void image_of_every_second_block(void)
{
    every_second_block_used();
    write_image();
}

/* Over the heap that the image is of. */
static void open_image(void)
{
    uint32_t base, count;
    must(blockheap_open_image(image, image_length, t, pool, BLOCKHEAP_POOL_BYTES(t), table, TABLE_BYTES, roots,
                              sizeof roots, &base, &count));
    add(base);
    add(count);
    add(pool[random_below((uint32_t)BLOCKHEAP_POOL_BYTES(t))]);
    add(roots[random_below(sizeof roots)]);
}

static void copy_image(void)
{
    memcpy(copy_of_image, image, image_length);
    add(copy_of_image[random_below(image_length)]);
}

static size_t entries;

/* The address of an entry of the log that fills the heap. */
static uint32_t entry_address(size_t number)
{
    return address(2 * number);
}

/* So many entries of two blocks each, from block 0 on, are a log. */
static void make_log(size_t count)
{
    must(blockheap_init(HEAP));
    roots_len = 0;
    entries = count;
    for (size_t number = 0; number < entries; number++) {
        size_t block = allocate_blocks(2);
        if (number + 1 < entries)
            point(block, 0, block + 2);
        put_word(pool + BLOCKHEAP_BLOCK_BYTES * block + BLOCKHEAP_WORD_BYTES, (uint32_t)(60 * number));
        put_word(pool + BLOCKHEAP_BLOCK_BYTES * block + 2 * BLOCKHEAP_WORD_BYTES, (uint32_t)(number % 7));
    }
}

/* It has all blocks. */
static void full_log(void)
{
    make_log(blocks / 2);
}

/* There is room for one more. */
static void log_with_room(void)
{
    make_log(blocks / 2 - 1);
}

/* It has half of the blocks, and the others are garbage. */
static void log_and_garbage(void)
{
    make_log(blocks / 4);
    for (size_t block = blocks / 2; block < blocks; block++)
        allocate_blocks(1);
}

/* To the log as it was prepared. */
static void append_to_log(void)
{
    uint32_t first;
    int32_t change;
    memcpy(table, prepared_table, TABLE_BYTES);
    put_word(pool + entry_address(entries - 1) - BASE, 0);
    must(blockheap_log_append(HEAP, entry_address(0), 7, 8, roots, roots_len, stack, sizeof stack, &first, &change));
    add(first);
    add((uint32_t)change);
    add(pool[entry_address(entries - 1) - BASE]);
}

static void read_last_entry(void)
{
    uint32_t time, tips;
    must(blockheap_log_read(HEAP, entry_address(0), entries - 1, &time, &tips));
    add(time);
    add(tips);
}

/* From the log as it was prepared. */
static void drop_oldest_entry(void)
{
    uint32_t first;
    int32_t change;
    memcpy(table, prepared_table, TABLE_BYTES);
    must(blockheap_log_drop(HEAP, entry_address(0), &first, &change));
    add(first);
    add((uint32_t)change);
}

/* Nothing is done but to check the heap. */
static void check_table(void)
{
    uint32_t object;
    int32_t change;
    add(blockheap_allocate(HEAP, 0, &object, &change));
}

static const struct work {
    const char *name, *about;
    void (*prepare)(void);
    void (*turn)(void);
} works[] = {
    {"churn", "free a random object of a heap half in use, and allocate another of 1 to 48 bytes", fill, churn},
    {"reallocate", "give a random object of such a heap a new size of 1 to 48 bytes", fill, reallocate},
    {"load and store", "read a word of a random object of such a heap, and write it", fill, load_and_store},
    {"survey", "count used blocks, objects and the longest free run of such a heap", fill, survey},
    {"survey, rising holes", "the same of a heap with a hole in every 64 blocks, each longer than the one before",
     fill_with_rising_holes, survey},
    {"no room: 3 blocks, holes of 2", "allocate 3 blocks, which is refused: no hole has more than 2", holes_of_2,
     find_no_room},
    {"no room: 4 blocks, holes of 3", "the same with 4, which must be aligned, and 3", holes_of_3, find_no_room},
    {"no room: 4 blocks, holes of 4", "the same with 4 and 4, none of them aligned", unaligned_holes_of_4,
     find_no_room},
    {"no room: 8 blocks, holes of 7", "the same with 8 and 7, some of them aligned", holes_of_7, find_no_room},
    {"no room: 64 blocks, holes of 63", "the same with 64 and 63", holes_of_63, find_no_room},
    {"collect, nothing reachable", "an object in each block and no roots: all are freed", only_heads, collect},
    {"collect, a chain", "each object leads to the next: all are kept", chain, collect},
    {"collect, a binary tree", "each object leads to two others: all are kept", tree, collect},
    {"collect, a random graph", "each object leads to four at random, 64 roots: most are kept", graph, collect},
    {"collect, words to the head", "one object, each word the address of its head", words_to_the_head, collect},
    {"collect, words to the last block", "the same with the address of its last block, the farthest from the head",
     words_to_the_last_block, collect},
    {"collect, words to five heads", "an object whose words lead to its head and to four others in turn",
     words_to_five_heads, collect},
    {"collect, words to five tails", "the same with their last blocks: the worst back scans that are known",
     words_to_five_last_blocks, collect},
    {"image, all blocks used", "write the image of a heap with an object in each block and 64 roots", all_blocks_used,
     write_image},
    {"image, every second block", "the same with an object in every second block", every_second_block_used,
     write_image},
    {"open, all blocks used", "open that first image, in memory of its size", image_of_all_blocks, open_image},
    {"open, every second block", "the same with the second image", image_of_every_second_block, open_image},
    {"log, append", "append to a log that has all blocks but two: then it has all, 2,048 entries on the largest heap",
     log_with_room, append_to_log},
    {"log, append and collect", "append to a log that has half of the blocks, where the others are garbage",
     log_and_garbage, append_to_log},
    {"log, read the last entry", "of a log that has all blocks", full_log, read_last_entry},
    {"log, drop", "drop the oldest entry of that log", full_log, drop_oldest_entry},
    {"copy of an image", "memcpy of the image with all blocks used, by this program and not by the library",
     image_of_all_blocks, copy_image},
    {"check of the table", "allocate 0 bytes in the same heap, which is refused once its table is checked",
     all_blocks_used, check_table},
};
enum { WORKS = sizeof works / sizeof works[0] };

/* The processor time of this program, which other programs on the machine disturb least. */
static double nanoseconds(void)
{
    return (double)clock() * (1e9 / CLOCKS_PER_SEC);
}

static double time_turns(const struct work *work, long turns)
{
    double start = nanoseconds();
    for (long turn = 0; turn < turns; turn++)
        work->turn();
    return nanoseconds() - start;
}

/* The best time of one turn, over some repeats that are long enough to be timed. */
static double best_time(const struct work *work)
{
    long turns = 1;
    while (time_turns(work, turns) < LEAST_NANOSECONDS)
        turns *= 2;
    double best = time_turns(work, turns);
    for (int repeat = 1; repeat < REPEATS; repeat++) {
        double time = time_turns(work, turns);
        best = time < best ? time : best;
    }
    return best / (double)turns;
}

static void run(const struct work *work, uint64_t size)
{
    t = size;
    blocks = BLOCKHEAP_POOL_BYTES(t) / BLOCKHEAP_BLOCK_BYTES;
    random_state = 2018;
    checksum = 0;
    work->prepare();
    memcpy(prepared_table, table, TABLE_BYTES);
    for (int turn = 0; turn < CHECKED_TURNS; turn++)
        work->turn();
    uint32_t checked = checksum;
    printf("%s\t%zu\t%.1f\t%08x\n", work->name, blocks, best_time(work), (unsigned)checked);
    fflush(stdout);
}

static void print_legend(void)
{
    for (size_t at = 0; at < WORKS; at++)
        printf("%-32s %s\n", works[at].name, works[at].about);
}

static void run_all(void)
{
    static const uint64_t sizes[] = {8, BLOCKHEAP_MAX_T};
    for (size_t at = 0; at < WORKS; at++)
        for (size_t size = 0; size < sizeof sizes / sizeof sizes[0]; size++)
            run(&works[at], sizes[size]);
}

int main(int argc, char **argv)
{
    if (argc == 2 && strcmp(argv[1], "--legend") == 0)
        print_legend();
    else
        run_all();
    return 0;
}
