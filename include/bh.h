/*
 * bh: the calls of blockheap.h on one heap, and what a C program wants beside
 * them. All of it is static inline.
 *
 *   BH_DEFINE(heap, 0x20000000, 4096);    a heap in a pool of 4,096 bytes
 *   ...
 *   uint32_t block, refusal = bh_init(&heap);
 *   if (!refusal) refusal = bh_allocate(&heap, 33, &block, NULL);
 *   if (refusal) puts(bh_refusal_text(refusal));
 *
 * bh_NAME is blockheap_NAME with the heap in place of its parts: blockheap.h
 * says what it does and what the caller ensures. Two things are easier here:
 * - an empty list or buffer may be a null pointer with length 0;
 * - an answer that is not wanted may be a null pointer.
 */
#ifndef BLOCKHEAP_BH_H
#define BLOCKHEAP_BH_H

#include "blockheap.h"

#ifdef __cplusplus
extern "C" {
#endif

/* ---- The heap ---- */

/*
 * Where a heap's lent memory is. The calls write that memory and not the
 * struct, which may be const; bh_open_image alone sets the base in it. Later
 * versions add fields: let one of the makers below fill the struct, or set
 * fields by name in one that is all 0. An initialiser of your own that lists the
 * fields in order will break. BH_DEFINE and bh_split also find the memory for
 * what is added.
 */
struct blockheap {
    uint64_t base; /* where it is 0, it is the pool's own address: bh_base */
    uint64_t t;    /* where it is 0, pool_len gives it: bh_t */
    uint8_t *pool;
    size_t pool_len;
    uint8_t *table;
    size_t table_len;
};

/* Before an array: aligned to 64 bytes, as large objects are, where the compiler can. */
#define BH_ALIGNMENT (BLOCKHEAP_LARGE_BLOCKS * BLOCKHEAP_BLOCK_BYTES)
#if defined(__GNUC__)
#define BH_ALIGNED __attribute__((aligned(BH_ALIGNMENT)))
#elif defined(__STDC_VERSION__) && __STDC_VERSION__ >= 201112L
#define BH_ALIGNED _Alignas(BH_ALIGNMENT)
#else
#define BH_ALIGNED
#endif

/* Initialises a heap over two arrays, a pool and its table (not over pointers: it takes their sizeof). */
#define BH_OVER(base, pool, table) \
    {(base), BLOCKHEAP_T_OF_POOL(sizeof(pool)), (pool), sizeof(pool), (table), sizeof(table)}

/* A rule that is checked when the program is compiled. If it is broken, the words say it; in C99 the name does. */
#if defined(__cplusplus)
#define BH_ASSERT(rule, name, words) static_assert(rule, words)
#elif defined(__STDC_VERSION__) && __STDC_VERSION__ >= 201112L
#define BH_ASSERT(rule, name, words) _Static_assert(rule, words)
#else
#define BH_ASSERT(rule, name, words) extern char name[(rule) ? 1 : -1]
#endif

/* Addresses have 32 bits. A pool may end here, and not beyond. */
#define BH_ADDRESSES_END ((uint64_t)1 << 32)

/* The rules for a pool's length, and for its base: declarations, for numbers that the compiler knows. */
#define BH_ASSERT_POOL(pool_bytes) \
    BH_ASSERT((pool_bytes) >= 64 && (pool_bytes) <= BLOCKHEAP_MAX_POOL_BYTES && (pool_bytes) % 64 == 0, \
              bh_pool_has_64_to_65536_bytes_a_multiple_of_64, "a pool has 64 to 65,536 bytes, a multiple of 64")
#define BH_ASSERT_BASE(base, pool_bytes) \
    BH_ASSERT((base) >= BLOCKHEAP_MIN_BASE && (base) % BLOCKHEAP_BLOCK_BYTES == 0, \
              bh_base_is_a_multiple_of_16_at_least_16, "a base is a multiple of 16, and at least 16"); \
    BH_ASSERT((uint64_t)(base) + (pool_bytes) <= BH_ADDRESSES_END, \
              bh_base_and_pool_bytes_add_up_to_at_most_2_to_the_32, \
              "the base and the pool's length add up to at most 4,294,967,296")

/*
 * Defines a heap with static memory of its own, aligned: large objects lie at
 * multiples of 64 bytes. A pool has 64 to 65,536 bytes, a multiple of 64. What
 * would be refused as BAD_SHAPE does not compile.
 */
#define BH_DEFINE(name, base, pool_bytes) \
    BH_ASSERT_BASE(base, pool_bytes); \
    BH_DEFINE_MEMORY(name, base, pool_bytes)

/*
 * The same at the pool's own address, for boards whose addresses have 32 bits. A
 * heap address is then the address of the block's bytes, and on a little-endian
 * board a pointer in an object, or in a list of roots, is a word as it is.
 */
#define BH_DEFINE_HERE(name, pool_bytes) \
    BH_ASSERT(UINTPTR_MAX < BH_ADDRESSES_END, bh_define_here_is_for_addresses_of_32_bits, \
              "BH_DEFINE_HERE is for addresses of 32 bits: give BH_DEFINE a base"); \
    BH_DEFINE_MEMORY(name, BH_HERE, pool_bytes)

/* As the base of a struct: the pool's own address. (A compiler for 32 bits takes no address for a static uint64_t.) */
#define BH_HERE 0

#define BH_DEFINE_MEMORY(name, base, pool_bytes) \
    BH_ASSERT_POOL(pool_bytes); \
    static BH_ALIGNED uint8_t name##_pool[pool_bytes]; \
    static uint8_t name##_table[BLOCKHEAP_TABLE_BYTES(pool_bytes)]; \
    static struct blockheap name = BH_OVER(base, name##_pool, name##_table)

/*
 * A heap in one area of memory, as large as it can be: the pool at its front,
 * the table behind it. Large objects lie at multiples of 64 bytes if the area
 * does. One of fewer than 66 bytes is too short: bh_init then answers BAD_SHAPE.
 * The base may be BH_HERE; if the area's address has more than 32 bits, that is
 * BAD_SHAPE too.
 */
static inline struct blockheap bh_split(uint64_t base, uint8_t *area, size_t area_len)
{
    struct blockheap heap;
    size_t t = area_len / (BLOCKHEAP_POOL_BYTES(1) + 1);
    if (t > BLOCKHEAP_MAX_T)
        t = BLOCKHEAP_MAX_T;
    if (BLOCKHEAP_HEAP_BYTES(t) > area_len)
        t--;
    heap.base = base;
    heap.t = t;
    heap.pool = area;
    heap.pool_len = BLOCKHEAP_POOL_BYTES(t);
    heap.table = area + heap.pool_len;
    heap.table_len = BLOCKHEAP_TABLE_BYTES_OF_T(t);
    return heap;
}

/* The base of a heap: the address of its block 0. */
static inline uint64_t bh_base(const struct blockheap *heap)
{
    return heap->base != BH_HERE ? heap->base : (uintptr_t)heap->pool;
}

/* The t of a heap. A struct whose fields were set by name may leave it to the pool's length. */
static inline uint64_t bh_t(const struct blockheap *heap)
{
    return heap->t ? heap->t : BLOCKHEAP_T_OF_POOL(heap->pool_len);
}

/*
 * Which rule of BAD_SHAPE is broken, as a text without a capital and a full
 * stop, or a null pointer if none is. Every call but bh_open_image answers
 * BAD_SHAPE exactly if one is: roots_len and stack_len are those that it was
 * handed, 0 where it takes none. For bh_open_image the rules of the base are for
 * the image's base, and t must be the image's (bh_image_t).
 */
static inline const char *bh_shape_fault(const struct blockheap *heap, size_t roots_len, size_t stack_len)
{
    uint64_t base = bh_base(heap), t = bh_t(heap);
    if (t < 1 || t > BLOCKHEAP_MAX_T)
        return "t is not 1 to 1,024: a pool has 64 to 65,536 bytes";
    if (heap->pool_len != BLOCKHEAP_POOL_BYTES(t))
        return "the pool's length is not 64 * t";
    if (heap->table_len != BLOCKHEAP_TABLE_BYTES_OF_T(t))
        return "the table's length is not t, rounded up to an even number";
    if (heap->base == BH_HERE && base >= BH_ADDRESSES_END)
        return "the base is 0, which stands for the pool's own address, and that has more than 32 bits";
    if (base < BLOCKHEAP_MIN_BASE)
        return "the base is below 16";
    if (base % BLOCKHEAP_BLOCK_BYTES != 0)
        return "the base is not a multiple of 16";
    if (base > BH_ADDRESSES_END - heap->pool_len)
        return "the base and the pool's length add up to more than 4,294,967,296";
    if (roots_len % BLOCKHEAP_WORD_BYTES != 0)
        return "the length of the root list is not a multiple of 4";
    if (stack_len % BLOCKHEAP_WORD_BYTES != 0)
        return "the length of the mark stack is not a multiple of 4";
    return NULL;
}

/* ---- The calls ---- */

/* Stands for the bytes of an empty buffer, as the library takes no null pointer. Nothing reads or writes it. */
static inline uint8_t *bh_no_bytes(void)
{
    static uint8_t byte;
    return &byte;
}

/* A list, and a heap, as the arguments that blockheap.h asks for. */
#define BH_LIST(bytes, len) ((len) ? (bytes) : bh_no_bytes()), (len)
#define BH_PARTS(heap) \
    bh_base(heap), bh_t(heap), BH_LIST((heap)->pool, (heap)->pool_len), BH_LIST((heap)->table, (heap)->table_len)

static inline uint32_t bh_init(const struct blockheap *heap)
{
    return blockheap_init(BH_PARTS(heap));
}

static inline uint32_t bh_allocate(const struct blockheap *heap, uint64_t bytes,
                                   uint32_t *block, int32_t *change)
{
    uint32_t no_block;
    int32_t no_change;
    return blockheap_allocate(BH_PARTS(heap), bytes, block ? block : &no_block, change ? change : &no_change);
}

static inline uint32_t bh_free(const struct blockheap *heap, uint64_t block, int32_t *change)
{
    int32_t no_change;
    return blockheap_free(BH_PARTS(heap), block, change ? change : &no_change);
}

static inline uint32_t bh_reallocate(const struct blockheap *heap, uint64_t block, uint64_t bytes,
                                     uint32_t *new_block, int32_t *change)
{
    uint32_t no_block;
    int32_t no_change;
    return blockheap_reallocate(BH_PARTS(heap), block, bytes, new_block ? new_block : &no_block,
                                change ? change : &no_change);
}

static inline uint32_t bh_collect(const struct blockheap *heap, const uint8_t *roots, size_t roots_len,
                                  uint8_t *stack, size_t stack_len,
                                  uint32_t *kept, uint32_t *rescans, int32_t *change)
{
    uint32_t no_kept, no_rescans;
    int32_t no_change;
    return blockheap_collect(BH_PARTS(heap), BH_LIST(roots, roots_len), BH_LIST(stack, stack_len),
                             kept ? kept : &no_kept, rescans ? rescans : &no_rescans,
                             change ? change : &no_change);
}

/* Whether bh_collect takes lists of these lengths. */
static inline int bh_lists_fit(size_t roots_len, size_t stack_len)
{
    return roots_len % BLOCKHEAP_WORD_BYTES == 0 && roots_len <= BLOCKHEAP_LIST_BYTES(BLOCKHEAP_MAX_ROOTS)
        && stack_len % BLOCKHEAP_WORD_BYTES == 0 && stack_len <= BLOCKHEAP_LIST_BYTES(BLOCKHEAP_MAX_STACK_ENTRIES);
}

/*
 * Allocates. If there is no room it collects, and asks once more, as gc_alloc of
 * MicroPython does. Roots and stack are those of bh_collect; what nothing leads
 * to from them may be freed. `change` is that of both.
 * Refusals: those of bh_collect, even if there is room, so that a wrong list
 * shows at once; then those of bh_allocate. After NO_ROOM the collection stands,
 * as after that of bh_log_append: `change` is the number of blocks that it
 * freed, negated.
 */
static inline uint32_t bh_allocate_collecting(const struct blockheap *heap, uint64_t bytes,
                                              const uint8_t *roots, size_t roots_len,
                                              uint8_t *stack, size_t stack_len,
                                              uint32_t *block, int32_t *change)
{
    uint32_t at = 0, refusal = BLOCKHEAP_NO_ROOM;
    int32_t freed = 0, taken = 0;
    if (bh_lists_fit(roots_len, stack_len))
        refusal = bh_allocate(heap, bytes, &at, &taken);
    if (refusal == BLOCKHEAP_NO_ROOM) {
        refusal = bh_collect(heap, roots, roots_len, stack, stack_len, NULL, NULL, &freed);
        if (!refusal)
            refusal = bh_allocate(heap, bytes, &at, &taken);
    }
    if (block)
        *block = at;
    if (change)
        *change = freed + taken;
    return refusal;
}

static inline uint32_t bh_survey(const struct blockheap *heap,
                                 uint32_t *used, uint32_t *objects, uint32_t *longest)
{
    uint32_t no_used, no_objects, no_longest;
    return blockheap_survey(BH_PARTS(heap), used ? used : &no_used, objects ? objects : &no_objects,
                            longest ? longest : &no_longest);
}

static inline uint32_t bh_load(const struct blockheap *heap, uint64_t block, uint64_t word, uint32_t *value)
{
    uint32_t no_value;
    return blockheap_load(BH_PARTS(heap), block, word, value ? value : &no_value);
}

static inline uint32_t bh_store(const struct blockheap *heap, uint64_t block, uint64_t word, uint32_t value)
{
    return blockheap_store(BH_PARTS(heap), block, word, value);
}

static inline uint32_t bh_write_image(const struct blockheap *heap, const uint8_t *roots, size_t roots_len,
                                      uint8_t *image, size_t image_len, uint32_t *length)
{
    uint32_t no_length;
    return blockheap_write_image(BH_PARTS(heap), BH_LIST(roots, roots_len), BH_LIST(image, image_len),
                                 length ? length : &no_length);
}

/* The t of an image, by its first 8 bytes; 0 if no image begins so: bh_open_image then refuses it. */
static inline size_t bh_image_t(const uint8_t *image, size_t image_len)
{
    size_t t;
    if (image_len < 8 || image[0] != 1 || image[1] != 0)
        return 0;
    t = image[6] | (size_t)image[7] << 8;
    return t <= BLOCKHEAP_MAX_T ? t : 0;
}

/*
 * Makes a heap of an image. Lend a struct with a pool and a table of the image's
 * t, and it gets the image's base; after a refusal it has the base that it had.
 * In an area that is large enough for any heap:
 *
 *   size_t t = bh_image_t(image, image_len);
 *   struct blockheap heap = bh_split(0, area, BLOCKHEAP_HEAP_BYTES(t));
 *   refusal = bh_open_image(&heap, image, image_len, roots, sizeof roots, &count);
 */
static inline uint32_t bh_open_image(struct blockheap *heap, const uint8_t *image, size_t image_len,
                                     uint8_t *roots, size_t roots_len, uint32_t *count)
{
    uint32_t base, no_count;
    uint32_t refusal =
        blockheap_open_image(BH_LIST(image, image_len), bh_t(heap), BH_LIST(heap->pool, heap->pool_len),
                             BH_LIST(heap->table, heap->table_len), BH_LIST(roots, roots_len), &base,
                             count ? count : &no_count);
    if (!refusal)
        heap->base = base;
    return refusal;
}

/* ---- The rain log ---- */

/*
 * A log of a heap: the address of its oldest entry, or 0 if it is empty. One that is all 0 is an empty log. The
 * calls keep it up to date; after a refusal it is what it was.
 *
 *   struct bh_log log = {0};
 *   refusal = bh_log_append(&heap, &log, time, tips, roots, sizeof roots, stack, sizeof stack, NULL);
 *   refusal = bh_log_read(&heap, &log, 0, &time, &tips);
 *
 * bh_log_next, below, reads one entry after the other. log.first must be among the roots of each collection but append's own.
 */
struct bh_log {
    uint32_t first;
};

/* Of all refusals NO_ROOM alone leaves a change behind, that of a collection, and the log is whole then too. */
static inline uint32_t bh_log_append(const struct blockheap *heap, struct bh_log *log, uint32_t time, uint32_t tips,
                                     const uint8_t *roots, size_t roots_len, uint8_t *stack, size_t stack_len,
                                     int32_t *change)
{
    uint32_t first;
    int32_t no_change;
    uint32_t refusal =
        blockheap_log_append(BH_PARTS(heap), log->first, time, tips, BH_LIST(roots, roots_len),
                             BH_LIST(stack, stack_len), &first, change ? change : &no_change);
    if (!refusal)
        log->first = first;
    return refusal;
}

static inline uint32_t bh_log_read(const struct blockheap *heap, const struct bh_log *log, uint64_t index,
                                   uint32_t *time, uint32_t *tips)
{
    uint32_t no_time, no_tips;
    return blockheap_log_read(BH_PARTS(heap), log->first, index, time ? time : &no_time, tips ? tips : &no_tips);
}

static inline uint32_t bh_log_drop(const struct blockheap *heap, struct bh_log *log, int32_t *change)
{
    uint32_t first;
    int32_t no_change;
    uint32_t refusal = blockheap_log_drop(BH_PARTS(heap), log->first, &first, change ? change : &no_change);
    if (!refusal)
        log->first = first;
    return refusal;
}

/* ---- Blocks, addresses and bytes ---- */

/* What bh_block answers where there is no block. Every call refuses it as NO_SUCH_BLOCK. */
#define BH_NO_BLOCK 0xFFFFFFFFu

/* How many blocks the heap has. */
static inline uint32_t bh_blocks(const struct blockheap *heap)
{
    return (uint32_t)(heap->pool_len / BLOCKHEAP_BLOCK_BYTES);
}

/* The address of a block, or 0 (nil) if there is no such block. */
static inline uint32_t bh_address(const struct blockheap *heap, uint32_t block)
{
    return block < bh_blocks(heap) ? (uint32_t)(bh_base(heap) + BLOCKHEAP_BLOCK_BYTES * (uint64_t)block) : 0;
}

/* The block that has this address, free or not, or BH_NO_BLOCK: for 0, inside a block, outside the pool. */
static inline uint32_t bh_block(const struct blockheap *heap, uint32_t address)
{
    uint64_t base = bh_base(heap), offset = address - base;
    if (address < base || offset >= heap->pool_len || offset % BLOCKHEAP_BLOCK_BYTES != 0)
        return BH_NO_BLOCK;
    return (uint32_t)(offset / BLOCKHEAP_BLOCK_BYTES);
}

/* Where a block's bytes begin in the pool, or a null pointer if there is no such block. */
static inline uint8_t *bh_pointer(const struct blockheap *heap, uint32_t block)
{
    return block < bh_blocks(heap) ? heap->pool + BLOCKHEAP_BLOCK_BYTES * (size_t)block : NULL;
}

/* What the table says of a block; FREE if there is no such block. */
static inline enum blockheap_entry bh_entry(const struct blockheap *heap, uint32_t block)
{
    size_t plane_len = heap->table_len / 2, at = block / BLOCKHEAP_BLOCKS_PER_PLANE_BYTE;
    unsigned bit = block % BLOCKHEAP_BLOCKS_PER_PLANE_BYTE, low, high;
    if (block >= bh_blocks(heap) || at >= plane_len)
        return BLOCKHEAP_FREE;
    low = heap->table[at] >> bit & 1u;
    high = heap->table[plane_len + at] >> bit & 1u;
    return (enum blockheap_entry)(low + 2 * high);
}

/* How many bytes the blocks of an object have; 0 if the block is not its head. */
static inline uint32_t bh_object_bytes(const struct blockheap *heap, uint32_t block)
{
    uint32_t end = block + 1;
    if (bh_entry(heap, block) != BLOCKHEAP_HEAD)
        return 0;
    while (bh_entry(heap, end) == BLOCKHEAP_TAIL)
        end++;
    return BLOCKHEAP_BLOCK_BYTES * (end - block);
}

/* How many bytes the heap's image has with so many root words; 0 if bh_survey refuses the heap. */
static inline size_t bh_image_bytes(const struct blockheap *heap, size_t roots)
{
    uint32_t used;
    if (bh_survey(heap, &used, NULL, NULL))
        return 0;
    return BLOCKHEAP_IMAGE_BYTES((size_t)bh_t(heap), used, roots);
}

/* ---- Words in a list of bytes, such as roots or an object: lowest byte first on every host ---- */

static inline void bh_put_word(uint8_t *list, size_t index, uint32_t value)
{
    uint8_t *at = list + BLOCKHEAP_LIST_BYTES(index);
    at[0] = (uint8_t)value;
    at[1] = (uint8_t)(value >> 8);
    at[2] = (uint8_t)(value >> 16);
    at[3] = (uint8_t)(value >> 24);
}

static inline uint32_t bh_get_word(const uint8_t *list, size_t index)
{
    const uint8_t *at = list + BLOCKHEAP_LIST_BYTES(index);
    return at[0] | (uint32_t)at[1] << 8 | (uint32_t)at[2] << 16 | (uint32_t)at[3] << 24;
}

/* ---- One after the other: objects, free runs, entries of a log ---- */

/* An object: the number of its head, and how many bytes its blocks have. */
struct bh_object {
    uint32_t block;
    uint32_t bytes;
};

/*
 * Goes to the next object of a heap, and answers whether there is one. One that
 * is all 0 lies before the first:
 *
 *   struct bh_object object = {0, 0};
 *   while (bh_walk(&heap, &object))
 *       printf("%u: %u bytes\n", (unsigned)object.block, (unsigned)object.bytes);
 *
 * It only reads the table, of a heap that bh_survey accepts. Between two steps
 * any calls may be made: the object at hand may be freed, and objects that are
 * made before it are passed over.
 */
static inline int bh_walk(const struct blockheap *heap, struct bh_object *object)
{
    uint32_t block = object->block + object->bytes / BLOCKHEAP_BLOCK_BYTES;
    while (block < bh_blocks(heap) && bh_entry(heap, block) != BLOCKHEAP_HEAD)
        block++;
    object->block = block;
    object->bytes = bh_object_bytes(heap, block);
    return object->bytes != 0;
}

/* Free blocks in a row, as many as there are: the number of the first, and how many. */
struct bh_run {
    uint32_t block;
    uint32_t blocks;
};

/* The same of the runs of free blocks: goes to the next, and answers whether there is one. */
static inline int bh_free_run(const struct blockheap *heap, struct bh_run *run)
{
    uint32_t block = run->block + run->blocks, end;
    while (block < bh_blocks(heap) && bh_entry(heap, block) != BLOCKHEAP_FREE)
        block++;
    end = block;
    while (end < bh_blocks(heap) && bh_entry(heap, end) == BLOCKHEAP_FREE)
        end++;
    run->block = block;
    run->blocks = end - block;
    return run->blocks != 0;
}

/*
 * Why is there no room? Counts the runs of free blocks by their length:
 * counts[b] are those of b blocks, and the last count is of all that are as long
 * or longer. An object of four blocks or more needs an aligned run: where one of
 * as many blocks is found and there is no room, bh_free_run says where it is.
 * Refusals: those of bh_survey; all counts are 0 then.
 *
 *   uint32_t counts[9];        counts[8]: runs of eight blocks or more
 *   refusal = bh_free_runs(&heap, counts, 9);
 */
static inline uint32_t bh_free_runs(const struct blockheap *heap, uint32_t *counts, size_t length)
{
    struct bh_run run = {0, 0};
    uint32_t refusal = bh_survey(heap, NULL, NULL, NULL);
    size_t at;
    for (at = 0; at < length; at++)
        counts[at] = 0;
    while (!refusal && length != 0 && bh_free_run(heap, &run))
        counts[run.blocks < length ? run.blocks : length - 1]++;
    return refusal;
}

/* Where a reading of a log is: the address of the entry that was read last, and how many were. */
struct bh_log_cursor {
    uint32_t entry;
    uint32_t count;
};

/* Whether an address is that of an object as long as an entry of a log. */
static inline int bh_may_be_entry(const struct blockheap *heap, uint32_t address)
{
    return bh_object_bytes(heap, bh_block(heap, address)) == BLOCKHEAP_LOG_ENTRY_BYTES;
}

/* From the entry that was read last to the next: its address. Refuses as bh_log_read does. */
static inline uint32_t bh_log_step(const struct blockheap *heap, const struct bh_log_cursor *cursor, uint32_t *next)
{
    uint32_t refusal = bh_load(heap, bh_block(heap, cursor->entry), 0, next);
    if (refusal == BLOCKHEAP_BAD_SHAPE || refusal == BLOCKHEAP_BAD_TABLE)
        return refusal;
    if (refusal || !bh_may_be_entry(heap, cursor->entry))
        return BLOCKHEAP_NO_LOG;
    if (*next == 0)
        return BLOCKHEAP_NO_ENTRY;
    /* So many entries have no room in the heap: they are a ring. */
    if (!bh_may_be_entry(heap, *next) || cursor->count >= bh_blocks(heap) / 2)
        return BLOCKHEAP_NO_LOG;
    return BLOCKHEAP_OK;
}

/*
 * Reads a log from its oldest entry on, one entry a call. A cursor that is all 0
 * stands before the oldest:
 *
 *   struct bh_log_cursor at = {0, 0};
 *   while (!bh_log_next(&heap, &log, &at, &time, &tips))
 *       printf("%u: %u\n", (unsigned)time, (unsigned)tips);
 *
 * Call k, counted from 0, answers what bh_log_read answers for index k, but only
 * the first goes through the whole log; the others cost the same for each entry.
 * Behind the last entry it is NO_ENTRY, and the cursor stays: after an append,
 * the call reads what was appended. Between two calls the log may be appended
 * to, and collections may run that keep it. If it is changed otherwise, what is
 * no entry of a log is refused as NO_LOG when the cursor comes to it, and a ring
 * in the end.
 */
static inline uint32_t bh_log_next(const struct blockheap *heap, const struct bh_log *log,
                                   struct bh_log_cursor *cursor, uint32_t *time, uint32_t *tips)
{
    uint32_t entry = log->first, got_time = 0, got_tips = 0;
    uint32_t refusal = cursor->count == 0 ? bh_log_read(heap, log, 0, NULL, NULL) : bh_log_step(heap, cursor, &entry);
    if (!refusal) {
        const uint8_t *words = bh_pointer(heap, bh_block(heap, entry));
        got_time = bh_get_word(words, 1);
        got_tips = bh_get_word(words, 2);
        cursor->entry = entry;
        cursor->count++;
    }
    if (time)
        *time = got_time;
    if (tips)
        *tips = got_tips;
    return refusal;
}

/* ---- Refusals ---- */

/* The name of what a call returned. */
static inline const char *bh_refusal_name(uint32_t refusal)
{
    switch (refusal) {
    case BLOCKHEAP_OK: return "OK";
    case BLOCKHEAP_BAD_SHAPE: return "BAD_SHAPE";
    case BLOCKHEAP_BAD_TABLE: return "BAD_TABLE";
    case BLOCKHEAP_TOO_MANY_ROOTS: return "TOO_MANY_ROOTS";
    case BLOCKHEAP_STACK_TOO_LONG: return "STACK_TOO_LONG";
    case BLOCKHEAP_ZERO_BYTES: return "ZERO_BYTES";
    case BLOCKHEAP_NO_SUCH_BLOCK: return "NO_SUCH_BLOCK";
    case BLOCKHEAP_NOT_A_HEAD: return "NOT_A_HEAD";
    case BLOCKHEAP_NO_SUCH_WORD: return "NO_SUCH_WORD";
    case BLOCKHEAP_NO_ROOM: return "NO_ROOM";
    case BLOCKHEAP_OUTPUT_TOO_SHORT: return "OUTPUT_TOO_SHORT";
    case BLOCKHEAP_IMAGE_TRUNCATED: return "IMAGE_TRUNCATED";
    case BLOCKHEAP_BAD_COUNT: return "BAD_COUNT";
    case BLOCKHEAP_TRAILING_BYTES: return "TRAILING_BYTES";
    case BLOCKHEAP_ROOTS_TOO_SHORT: return "ROOTS_TOO_SHORT";
    case BLOCKHEAP_NO_LOG: return "NO_LOG";
    case BLOCKHEAP_NO_ENTRY: return "NO_ENTRY";
    default: return "UNKNOWN";
    }
}

/* The same as a sentence, without a capital and a full stop. Of BAD_SHAPE, bh_shape_fault says more. */
static inline const char *bh_refusal_text(uint32_t refusal)
{
    switch (refusal) {
    case BLOCKHEAP_OK: return "the call was accepted";
    case BLOCKHEAP_BAD_SHAPE: return "the base, t or a length breaks the rules";
    case BLOCKHEAP_BAD_TABLE: return "the table has a mark, a tail at block 0 or after a free block, or a spare bit that is 1";
    case BLOCKHEAP_TOO_MANY_ROOTS: return "there are more than 4,096 root words, a log's first address among them";
    case BLOCKHEAP_STACK_TOO_LONG: return "the mark stack has more than 64 entries";
    case BLOCKHEAP_ZERO_BYTES: return "the request is for 0 bytes";
    case BLOCKHEAP_NO_SUCH_BLOCK: return "there is no such block";
    case BLOCKHEAP_NOT_A_HEAD: return "the block is not the head of an object";
    case BLOCKHEAP_NO_SUCH_WORD: return "the word lies outside the object";
    case BLOCKHEAP_NO_ROOM: return "no aligned run of free blocks is long enough";
    case BLOCKHEAP_OUTPUT_TOO_SHORT: return "the buffer is shorter than the image";
    case BLOCKHEAP_IMAGE_TRUNCATED: return "the image ends inside a section";
    case BLOCKHEAP_BAD_COUNT: return "a count in the image is wrong";
    case BLOCKHEAP_TRAILING_BYTES: return "bytes follow behind the image";
    case BLOCKHEAP_ROOTS_TOO_SHORT: return "the list is too short for the image's roots";
    case BLOCKHEAP_NO_LOG: return "no log begins at the first address";
    case BLOCKHEAP_NO_ENTRY: return "the log has no such entry";
    default: return "this version knows no such refusal number";
    }
}

#ifdef __cplusplus
}
#endif

#endif
