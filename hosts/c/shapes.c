/*
 * bh_shape_fault names the rule that is broken exactly where the library answers BAD_SHAPE: for all shapes that are made
 * of the numbers below, which lie around each rule's border, and for every t.
 */
#include <stdbool.h>
#include <stdio.h>

#include "bh.h"

#define COUNT(array) (sizeof(array) / sizeof(array)[0])

/* The memory that shapes are lent: longer than any heap's. */
static uint8_t pool[2 * BLOCKHEAP_MAX_POOL_BYTES], table[2 * BLOCKHEAP_MAX_TABLE_BYTES];
static uint8_t roots[BLOCKHEAP_LIST_BYTES(2)], stack[BLOCKHEAP_LIST_BYTES(2)];

static const uint64_t ts[] = {0, 1, 2, 3, 1023, 1024, 1025, 2048, 0x100000001, 0x100000400, UINT64_MAX};
static const size_t pool_lens[] = {0, 1, 63, 64, 65, 100, 128, 192, 65472, 65535, 65536, 65600, 131072};
static const size_t table_lens[] = {0, 1, 2, 3, 4, 1022, 1023, 1024, 1025, 1026, 2048};
static const uint64_t bases[] = {
    1, 5, 15, 16, 17, 24, 32, 4096, 0x7FFFFFF0, 0x80000000, 0xFFFF0000, 0xFFFF0010, 0xFFFFFF40, 0xFFFFFFC0,
    0xFFFFFFD0, 0xFFFFFFF0, 0xFFFFFFFF, 0x100000000, 0x100000010, 0x1FFFFFFF0, 0x8000000000000000, UINT64_MAX - 15};

static unsigned accepted, refused, wrong;

/* The lists are at most two words long, so a collection refuses them for their lengths alone. */
static void compare(const struct blockheap *shape, size_t roots_len, size_t stack_len)
{
    bool fault = bh_shape_fault(shape, roots_len, stack_len) != NULL;
    bool bad = bh_collect(shape, roots, roots_len, stack, stack_len, NULL, NULL, NULL) == BLOCKHEAP_BAD_SHAPE;
    refused += bad;
    accepted += !bad;
    wrong += fault != bad;
}

/* The calls without lists agree with each other. */
static void compare_calls(const struct blockheap *shape)
{
    bool fault = bh_shape_fault(shape, 0, 0) != NULL;
    wrong += fault != (bh_init(shape) == BLOCKHEAP_BAD_SHAPE);
    wrong += fault != (bh_survey(shape, NULL, NULL, NULL) == BLOCKHEAP_BAD_SHAPE);
    compare(shape, 0, 0);
}

static struct blockheap shape_of(uint64_t base, uint64_t t, size_t pool_len, size_t table_len)
{
    struct blockheap shape = BH_OVER(base, pool, table);
    shape.t = t;
    shape.pool_len = pool_len;
    shape.table_len = table_len;
    return shape;
}

/* All pairs of a t and a base, for all pairs of lengths. */
static void compare_around_borders(void)
{
    for (size_t at = 0; at < COUNT(pool_lens) * COUNT(table_lens); at++)
        for (size_t with = 0; with < COUNT(ts) * COUNT(bases); with++) {
            struct blockheap shape =
                shape_of(bases[with % COUNT(bases)], ts[with / COUNT(bases)], pool_lens[at % COUNT(pool_lens)],
                         table_lens[at / COUNT(pool_lens)]);
            compare_calls(&shape);
        }
}

/* Each t with its own lengths, where the pool ends at the end of addresses, and a block to either side. */
static void compare_every_t(void)
{
    for (size_t t = 1; t <= BLOCKHEAP_MAX_T; t++)
        for (int step = -1; step <= 1; step++) {
            size_t pool_len = BLOCKHEAP_POOL_BYTES(t);
            uint64_t base = BH_ADDRESSES_END - pool_len + (uint64_t)(int64_t)(BLOCKHEAP_BLOCK_BYTES * step);
            struct blockheap shape = shape_of(base, t, pool_len, BLOCKHEAP_TABLE_BYTES_OF_T(t));
            compare_calls(&shape);
        }
}

static void compare_lists(void)
{
    struct blockheap good = shape_of(4096, 1, 64, 2), bad = shape_of(4097, 1, 64, 2);
    for (size_t at = 0; at < sizeof roots * sizeof stack; at++) {
        compare(&good, at % sizeof roots, at / sizeof roots);
        compare(&bad, at % sizeof roots, at / sizeof roots);
    }
}

/* A heap at its pool's own address, which has more than 32 bits on a host of 64, and is no multiple of 16. */
static struct blockheap shape_here(void)
{
    struct blockheap shape = shape_of(BH_HERE, 16, 1024, 16);
    shape.pool = (uint8_t *)UINTPTR_MAX;
    return shape;
}

/* It is refused, and so nothing touches that address. */
static void compare_here(void)
{
    struct blockheap here = shape_here();
    compare_calls(&here);
}

static void say(struct blockheap shape, size_t roots_len, size_t stack_len)
{
    const char *fault = bh_shape_fault(&shape, roots_len, stack_len);
    puts(fault ? fault : "no rule is broken");
}

/* One rule is broken at a time. */
static void say_faults(void)
{
    say(shape_of(4096, 16, 1024, 16), 4, 4);
    say(shape_of(4096, 0, 32, 2), 0, 0);
    say(shape_of(4096, 0, 131072, 2048), 0, 0);
    say(shape_of(4096, 16, 1000, 16), 0, 0);
    say(shape_of(4096, 3, 192, 3), 0, 0);
    say(shape_here(), 0, 0);
    say(shape_of(5, 16, 1024, 16), 0, 0);
    say(shape_of(4100, 16, 1024, 16), 0, 0);
    say(shape_of(0xFFFFFFF0, 16, 1024, 16), 0, 0);
    say(shape_of(4096, 16, 1024, 16), 5, 0);
    say(shape_of(4096, 16, 1024, 16), 0, 6);
}

int main(void)
{
    compare_around_borders();
    compare_every_t();
    compare_lists();
    compare_here();
    printf("%u shapes are accepted, %u refused, and of %u the fault is another\n", accepted, refused, wrong);
    say_faults();
    return wrong != 0;
}
