/*
 * The work of hosts/portable/bench, on a board: for each size of a heap each kind of work some turns, and in each turn one
 * call between count_begin and count_end. Prints a line for each turn, with a tab between:
 *
 *   WORK T
 *
 * With --legend it says what each kind of work does. The kinds are those of hosts/bench/bench.c that a logger's firmware
 * waits for.
 */
#include <stdbool.h>
#include <stdio.h>
#include <stdlib.h>
#include <string.h>

#include "bh.h"

enum { BASE = 0x20000000, MAX_LIVE = BLOCKHEAP_MAX_BLOCKS / 4, GRAPH_ROOTS = 64 };

static BH_ALIGNED uint8_t area[BLOCKHEAP_HEAP_BYTES(BLOCKHEAP_MAX_T)];
static uint8_t roots[BLOCKHEAP_LIST_BYTES(GRAPH_ROOTS)], stack[BLOCKHEAP_LIST_BYTES(BLOCKHEAP_MAX_STACK_ENTRIES)];
static uint8_t image[BLOCKHEAP_FULL_IMAGE_BYTES(BLOCKHEAP_MAX_T, 0)];
static uint32_t image_length;
static struct blockheap heap;
static uint32_t t, blocks;
static size_t roots_len;
static uint32_t live[MAX_LIVE], live_count;
static uint32_t least_kept; /* by a collection */
static struct bh_log rain;

/* QEMU's plugin counts the instructions between these two. */
#define MARK __attribute__((noinline)) void
MARK count_begin(void);
MARK count_end(void);

MARK count_begin(void)
{
    __asm__ volatile("");
}

MARK count_end(void)
{
    __asm__ volatile("");
}

/* One call, counted with what bh.h does around it. Answers its refusal. */
#define COUNTED(call) (count_begin(), refusal_of_call = (call), count_end(), refusal_of_call)
static volatile uint32_t refusal_of_call;

static void must(uint32_t refusal)
{
    if (refusal) {
        printf("unexpected: %s\n", bh_refusal_name(refusal));
        exit(1);
    }
}

static void expect(bool holds)
{
    if (!holds) {
        puts("the work was not done as it should be");
        exit(1);
    }
}

static void must_find_no_room(uint32_t refusal)
{
    expect(refusal == BLOCKHEAP_NO_ROOM);
}

static uint32_t random_state;

static uint32_t random_below(uint32_t end)
{
    random_state ^= random_state << 13;
    random_state ^= random_state >> 17;
    random_state ^= random_state << 5;
    return random_state % end;
}

/* ---- Heaps ---- */

static void nothing(void)
{
    must(bh_init(&heap));
    rain.first = 0;
    roots_len = 0;
    least_kept = 0;
}

/* Small objects, a quarter as many as there are blocks: about half the blocks are used. Then they change for a while. */
static void half_full(void)
{
    nothing();
    live_count = blocks / 4;
    for (uint32_t at = 0; at < live_count; at++)
        must(bh_allocate(&heap, 1 + random_below(48), &live[at], NULL));
    for (uint32_t turn = 0; turn < blocks; turn++) {
        uint32_t *object = &live[random_below(live_count)];
        must(bh_free(&heap, *object, NULL));
        must(bh_allocate(&heap, 1 + random_below(48), object, NULL));
    }
}

/* One object in every block, leading nowhere. */
static void full(void)
{
    nothing();
    for (uint32_t block = 0; block < blocks; block++)
        must(bh_allocate(&heap, 1, NULL, NULL));
}

static void holes_of_one_block(void)
{
    full();
    for (uint32_t block = 1; block < blocks; block += 2)
        must(bh_free(&heap, block, NULL));
}

/* Half full, and behind that an object of one block with room to grow. */
static void room_to_grow(void)
{
    half_full();
    must(bh_allocate(&heap, 16 * (blocks / 4), &live[0], NULL));
    must(bh_reallocate(&heap, live[0], 1, NULL, NULL));
}

static void point(uint32_t block, size_t word, uint32_t target)
{
    if (target < blocks)
        bh_put_word(bh_pointer(&heap, block), word, bh_address(&heap, target));
}

static void add_root(uint32_t block)
{
    bh_put_word(roots, roots_len / BLOCKHEAP_WORD_BYTES, bh_address(&heap, block));
    roots_len += BLOCKHEAP_WORD_BYTES;
}

static void chain(void)
{
    full();
    for (uint32_t block = 0; block < blocks; block++)
        point(block, 0, block + 1);
    add_root(0);
    least_kept = blocks;
}

static void tree(void)
{
    full();
    for (uint32_t block = 0; block < blocks; block++) {
        point(block, 1, 2 * block + 1);
        point(block, 2, 2 * block + 2);
    }
    add_root(0);
    least_kept = blocks;
}

static void graph(void)
{
    full();
    for (uint32_t word = 0; word < 4 * blocks; word++)
        point(word / 4, word % 4, random_below(blocks));
    for (uint32_t root = 0; root < GRAPH_ROOTS; root++)
        add_root(random_below(blocks));
    least_kept = blocks / 2;
}

/* A log of t entries, in half of the blocks. */
static void log_of_t(void)
{
    nothing();
    for (uint32_t entry = 0; entry < t; entry++) {
        uint32_t block;
        must(bh_allocate(&heap, BLOCKHEAP_LOG_ENTRY_BYTES, &block, NULL));
        if (entry + 1 < t)
            point(block, 0, block + 2);
    }
    rain.first = bh_address(&heap, 0);
}

static void half_full_image(void)
{
    half_full();
    must(bh_write_image(&heap, NULL, 0, image, sizeof image, &image_length));
}

/* ---- Calls: one in each turn is counted ---- */

static void init(void)
{
    must(COUNTED(bh_init(&heap)));
}

/* A random object makes room, and another takes it. */
static void free_one(void)
{
    int32_t change;
    uint32_t *object = &live[random_below(live_count)];
    must(COUNTED(bh_free(&heap, *object, &change)));
    must(bh_allocate(&heap, 1 + random_below(48), object, NULL));
}

static void allocate_one(void)
{
    int32_t change;
    uint32_t *object = &live[random_below(live_count)], bytes = 1 + random_below(48);
    must(bh_free(&heap, *object, NULL));
    must(COUNTED(bh_allocate(&heap, bytes, object, &change)));
}

static void load(void)
{
    uint32_t object = live[random_below(live_count)], value;
    must(COUNTED(bh_load(&heap, object, 3, &value)));
}

static void store(void)
{
    uint32_t object = live[random_below(live_count)];
    must(COUNTED(bh_store(&heap, object, 3, 1)));
}

static void survey(void)
{
    uint32_t used, objects, longest;
    must(COUNTED(bh_survey(&heap, &used, &objects, &longest)));
}

static void find_no_block(void)
{
    uint32_t object;
    int32_t change;
    must_find_no_room(COUNTED(bh_allocate(&heap, 16, &object, &change)));
}

static void find_no_two_blocks(void)
{
    uint32_t object;
    int32_t change;
    must_find_no_room(COUNTED(bh_allocate(&heap, 32, &object, &change)));
}

static void grow(void)
{
    uint32_t object;
    int32_t change;
    must(COUNTED(bh_reallocate(&heap, live[0], 48, &object, &change)));
    expect(object == live[0]);
    must(bh_reallocate(&heap, live[0], 1, NULL, NULL));
}

static void collect(void)
{
    uint32_t kept, rescans;
    int32_t change;
    must(COUNTED(bh_collect(&heap, roots, roots_len, stack, sizeof stack, &kept, &rescans, &change)));
    expect(kept >= least_kept);
}

/* To the log as it was prepared: what is appended is the last entry's next, and goes again. */
static void append(void)
{
    struct bh_log appended = rain;
    must(COUNTED(bh_log_append(&heap, &appended, 60, 3, roots, roots_len, stack, sizeof stack, NULL)));
    must(bh_free(&heap, rain.first ? 2 * t : 0, NULL));
    if (rain.first)
        bh_put_word(bh_pointer(&heap, 2 * (t - 1)), 0, 0);
}

static void read_last_entry(void)
{
    uint32_t time, tips;
    must(COUNTED(bh_log_read(&heap, &rain, t - 1, &time, &tips)));
}

/* From the first entry, which is read before, to the second. */
static void read_next_entry(void)
{
    struct bh_log_cursor cursor = {0, 0};
    uint32_t time, tips;
    must(bh_log_next(&heap, &rain, &cursor, NULL, NULL));
    must(COUNTED(bh_log_next(&heap, &rain, &cursor, &time, &tips)));
}

static void write_image(void)
{
    must(COUNTED(bh_write_image(&heap, roots, roots_len, image, sizeof image, &image_length)));
}

static void open_image(void)
{
    must(COUNTED(bh_open_image(&heap, image, image_length, roots, sizeof roots, NULL)));
}

/* A collection changes the heap, and is done once; what varies from turn to turn, often. */
static const struct work {
    const char *name, *about;
    void (*prepare)(void);
    void (*turn)(void);
    int turns;
} works[] = {
    {"init", "make all blocks free", nothing, init, 1},
    {"free", "free a random object of a heap half in use", half_full, free_one, 200},
    {"allocate", "allocate 1 to 48 bytes in such a heap", half_full, allocate_one, 200},
    {"load", "read a word of a random object of such a heap", half_full, load, 50},
    {"store", "write one", half_full, store, 50},
    {"survey", "count used blocks, objects and the longest free run of such a heap", half_full, survey, 1},
    {"no room, full heap", "allocate a block where all are used", full, find_no_block, 1},
    {"no room, holes of one block", "allocate two blocks where every second block is used", holes_of_one_block,
     find_no_two_blocks, 1},
    {"reallocate in place", "give an object of one block two more that follow", room_to_grow, grow, 10},
    {"collect, nothing live", "an object in each block and no roots: all are freed", full, collect, 1},
    {"collect, chain", "each object leads to the next: all are kept", chain, collect, 1},
    {"collect, binary tree", "each object leads to two others: all are kept", tree, collect, 1},
    {"collect, random graph", "each object leads to four at random, 64 roots: most are kept", graph, collect, 1},
    {"log append, empty log", "append the first entry, in an empty heap", nothing, append, 1},
    {"log append, t entries", "append to a log of t entries, which has half of the blocks", log_of_t, append, 1},
    {"log read, last of t", "read the last entry of such a log", log_of_t, read_last_entry, 1},
    {"log next, one of t", "go on from one entry of such a log to the next, by bh_log_next", log_of_t, read_next_entry, 1},
    {"image out, half full", "write the image of a heap half in use, without roots", half_full, write_image, 1},
    {"image in, half full", "open that image", half_full_image, open_image, 1},
};

static void do_work(const struct work *work)
{
    random_state = 1;
    memset(area, 0, sizeof area);
    heap = bh_split(BASE, area, BLOCKHEAP_HEAP_BYTES(t));
    blocks = bh_blocks(&heap);
    work->prepare();
    for (int turn = 0; turn < work->turns; turn++) {
        work->turn();
        printf("%s\t%u\n", work->name, (unsigned)t);
    }
}

int main(int argc, char **argv)
{
    static const uint32_t sizes[] = {64, 256, 1024};
    for (size_t at = 0; at < sizeof works / sizeof works[0]; at++)
        if (argc > 1 && strcmp(argv[1], "--legend") == 0)
            printf("%-28s %s\n", works[at].name, works[at].about);
        else
            for (size_t size = 0; size < sizeof sizes / sizeof sizes[0]; size++) {
                t = sizes[size];
                do_work(&works[at]);
            }
    return 0;
}
