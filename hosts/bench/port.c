/*
 * A plain checked port of the heap's rules by hand: what a C programmer would write in the place of the
 * library. The benchmark runs it beside the library, and looks into no table: the port keeps the two bits of
 * a block together, four blocks to a byte, in the first t bytes, as MicroPython does.
 */
#include <stdbool.h>
#include <string.h>

#include "blockheap.h"

static unsigned entry_at(const uint8_t *table, size_t block)
{
    return table[block / 4] >> 2 * (block % 4) & 3;
}

static void set_entry(uint8_t *table, size_t block, unsigned entry)
{
    unsigned shift = 2 * (block % 4);
    table[block / 4] = (uint8_t)((table[block / 4] & ~(3u << shift)) | entry << shift);
}

static void set_entries(uint8_t *table, size_t from, size_t to, unsigned entry)
{
    for (size_t block = from; block < to; block++)
        set_entry(table, block, entry);
}

static uint32_t check_shape(uint64_t base, uint64_t t, size_t pool_len, size_t table_len)
{
    if (t < 1 || t > BLOCKHEAP_MAX_T)
        return BLOCKHEAP_BAD_SHAPE;
    if (pool_len != BLOCKHEAP_POOL_BYTES(t) || table_len != BLOCKHEAP_TABLE_BYTES_OF_T(t))
        return BLOCKHEAP_BAD_SHAPE;
    if (base < BLOCKHEAP_MIN_BASE || base % BLOCKHEAP_BLOCK_BYTES != 0 || base > 0x100000000 - pool_len)
        return BLOCKHEAP_BAD_SHAPE;
    return BLOCKHEAP_OK;
}

static uint32_t check_heap(uint64_t base, uint64_t t, size_t pool_len, const uint8_t *table, size_t table_len)
{
    uint32_t refusal = check_shape(base, t, pool_len, table_len);
    if (refusal)
        return refusal;
    unsigned before = BLOCKHEAP_FREE;
    for (size_t block = 0; block < 4 * t; block++) {
        unsigned entry = entry_at(table, block);
        if (entry == BLOCKHEAP_MARK || (entry == BLOCKHEAP_TAIL && before == BLOCKHEAP_FREE))
            return BLOCKHEAP_BAD_TABLE;
        before = entry;
    }
    return BLOCKHEAP_OK;
}

static uint32_t check_head(const uint8_t *table, size_t blocks, uint64_t block)
{
    if (block >= blocks)
        return BLOCKHEAP_NO_SUCH_BLOCK;
    return entry_at(table, block) == BLOCKHEAP_HEAD ? BLOCKHEAP_OK : BLOCKHEAP_NOT_A_HEAD;
}

/* The first block at or after `from` whose entry is not `entry`, or `most`. */
static size_t end_of(const uint8_t *table, size_t from, size_t most, unsigned entry)
{
    while (from < most && entry_at(table, from) == entry)
        from++;
    return from;
}

static size_t object_end(const uint8_t *table, size_t blocks, size_t head)
{
    return end_of(table, head + 1, blocks, BLOCKHEAP_TAIL);
}

static uint64_t blocks_for(uint64_t bytes)
{
    return bytes / BLOCKHEAP_BLOCK_BYTES + (bytes % BLOCKHEAP_BLOCK_BYTES != 0);
}

/* The first place at or after `block` where an object of so many blocks may begin. */
static size_t align(size_t block, uint64_t wanted)
{
    const size_t border = BLOCKHEAP_LARGE_BLOCKS;
    return wanted < border ? block : (block + border - 1) / border * border;
}

static bool find_run(const uint8_t *table, size_t blocks, uint64_t wanted, size_t *start)
{
    for (size_t from = 0; from < blocks; from++) {
        size_t end = end_of(table, from, blocks, BLOCKHEAP_FREE);
        *start = align(from, wanted);
        if (*start + wanted <= end)
            return true;
        from = end;
    }
    return false;
}

/* Whether the free blocks directly after an object let it have so many blocks where it is. */
static bool can_grow(const uint8_t *table, size_t blocks, size_t head, size_t end, uint64_t wanted)
{
    return align(head, wanted) == head && head + wanted <= end_of(table, end, blocks, BLOCKHEAP_FREE);
}

static void place(uint8_t *table, size_t start, size_t blocks)
{
    set_entry(table, start, BLOCKHEAP_HEAD);
    set_entries(table, start + 1, start + blocks, BLOCKHEAP_TAIL);
}

static void clear(uint8_t *pool, size_t from, size_t to)
{
    memset(pool + BLOCKHEAP_BLOCK_BYTES * from, 0, BLOCKHEAP_BLOCK_BYTES * (to - from));
}

static uint32_t word_at(const uint8_t *bytes)
{
    return bytes[0] | (uint32_t)bytes[1] << 8 | (uint32_t)bytes[2] << 16 | (uint32_t)bytes[3] << 24;
}

static void set_word(uint8_t *bytes, uint32_t value)
{
    for (int at = 0; at < BLOCKHEAP_WORD_BYTES; at++)
        bytes[at] = (uint8_t)(value >> 8 * at);
}

uint32_t blockheap_init(uint64_t base, uint64_t t, const uint8_t *pool, size_t pool_len, uint8_t *table,
                        size_t table_len)
{
    (void)pool;
    uint32_t refusal = check_shape(base, t, pool_len, table_len);
    if (!refusal)
        memset(table, 0, table_len);
    return refusal;
}

uint32_t blockheap_allocate(uint64_t base, uint64_t t, uint8_t *pool, size_t pool_len, uint8_t *table,
                            size_t table_len, uint64_t bytes, uint32_t *block, int32_t *change)
{
    *block = 0;
    *change = 0;
    uint32_t refusal = check_heap(base, t, pool_len, table, table_len);
    if (refusal)
        return refusal;
    if (bytes == 0)
        return BLOCKHEAP_ZERO_BYTES;
    uint64_t wanted = blocks_for(bytes);
    size_t start;
    if (!find_run(table, 4 * t, wanted, &start))
        return BLOCKHEAP_NO_ROOM;
    place(table, start, wanted);
    clear(pool, start, start + wanted);
    *block = (uint32_t)start;
    *change = (int32_t)wanted;
    return BLOCKHEAP_OK;
}

uint32_t blockheap_free(uint64_t base, uint64_t t, const uint8_t *pool, size_t pool_len, uint8_t *table,
                        size_t table_len, uint64_t block, int32_t *change)
{
    (void)pool;
    *change = 0;
    uint32_t refusal = check_heap(base, t, pool_len, table, table_len);
    if (!refusal)
        refusal = check_head(table, 4 * t, block);
    if (refusal)
        return refusal;
    size_t end = object_end(table, 4 * t, block);
    set_entries(table, block, end, BLOCKHEAP_FREE);
    *change = (int32_t)block - (int32_t)end;
    return BLOCKHEAP_OK;
}

uint32_t blockheap_reallocate(uint64_t base, uint64_t t, uint8_t *pool, size_t pool_len, uint8_t *table,
                              size_t table_len, uint64_t block, uint64_t bytes, uint32_t *new_block,
                              int32_t *change)
{
    *new_block = 0;
    *change = 0;
    uint32_t refusal = check_heap(base, t, pool_len, table, table_len);
    if (refusal)
        return refusal;
    if (bytes == 0)
        return BLOCKHEAP_ZERO_BYTES;
    size_t blocks = 4 * t;
    refusal = check_head(table, blocks, block);
    if (refusal)
        return refusal;
    uint64_t wanted = blocks_for(bytes);
    size_t end = object_end(table, blocks, block), had = end - block, start = block;
    if (wanted > blocks)
        return BLOCKHEAP_NO_ROOM;
    if (wanted <= had) {
        set_entries(table, block + wanted, end, BLOCKHEAP_FREE);
    } else if (can_grow(table, blocks, block, end, wanted)) {
        set_entries(table, end, block + wanted, BLOCKHEAP_TAIL);
        clear(pool, end, block + wanted);
    } else if (find_run(table, blocks, wanted, &start)) {
        place(table, start, wanted);
        memcpy(pool + BLOCKHEAP_BLOCK_BYTES * start, pool + BLOCKHEAP_BLOCK_BYTES * block,
               BLOCKHEAP_BLOCK_BYTES * had);
        clear(pool, start + had, start + wanted);
        set_entries(table, block, end, BLOCKHEAP_FREE);
    } else {
        return BLOCKHEAP_NO_ROOM;
    }
    *new_block = (uint32_t)start;
    *change = (int32_t)wanted - (int32_t)had;
    return BLOCKHEAP_OK;
}

typedef struct {
    uint64_t base;
    const uint8_t *pool;
    uint8_t *table;
    size_t blocks;
    uint8_t *stack;
    size_t entries, depth;
    bool overflow;
} marking;

/* The head of the object that a tail is a part of; any other block itself. */
static size_t head_of(const uint8_t *table, size_t block)
{
    while (entry_at(table, block) == BLOCKHEAP_TAIL)
        block--;
    return block;
}

/* Marks the word's target, and says whether it was an object that had no mark. */
static bool mark_target(marking *m, uint32_t word, uint32_t *target)
{
    if (word < m->base || word % BLOCKHEAP_BLOCK_BYTES != 0)
        return false;
    uint64_t block = (word - m->base) / BLOCKHEAP_BLOCK_BYTES;
    if (block >= m->blocks)
        return false;
    size_t head = head_of(m->table, block);
    if (entry_at(m->table, head) != BLOCKHEAP_HEAD)
        return false;
    set_entry(m->table, head, BLOCKHEAP_MARK);
    *target = (uint32_t)head;
    return true;
}

static void walk(marking *m, size_t head)
{
    size_t end = object_end(m->table, m->blocks, head);
    for (size_t word = 4 * end; word-- > 4 * head;) {
        uint32_t child;
        if (!mark_target(m, word_at(m->pool + BLOCKHEAP_WORD_BYTES * word), &child))
            continue;
        if (m->depth < m->entries)
            set_word(m->stack + BLOCKHEAP_WORD_BYTES * m->depth++, child);
        else
            m->overflow = true;
    }
}

static void walk_subtree(marking *m, size_t head)
{
    walk(m, head);
    while (m->depth > 0) {
        m->depth--;
        walk(m, word_at(m->stack + BLOCKHEAP_WORD_BYTES * m->depth));
    }
}

static void rescan(marking *m)
{
    m->overflow = false;
    for (size_t block = 0; block < m->blocks; block++)
        if (entry_at(m->table, block) == BLOCKHEAP_MARK)
            walk_subtree(m, block);
}

static void mark_root(marking *m, uint32_t word)
{
    uint32_t root;
    if (mark_target(m, word, &root))
        walk_subtree(m, root);
}

static void mark_roots(marking *m, const uint8_t *roots, size_t roots_len)
{
    for (size_t at = 0; at < roots_len; at += BLOCKHEAP_WORD_BYTES)
        mark_root(m, word_at(roots + at));
}

static void sweep(uint8_t *table, size_t blocks, uint32_t *kept, int32_t *change)
{
    bool freeing = false;
    for (size_t block = 0; block < blocks; block++) {
        unsigned entry = entry_at(table, block);
        if (entry == BLOCKHEAP_MARK) {
            set_entry(table, block, BLOCKHEAP_HEAD);
            ++*kept;
        }
        if (entry != BLOCKHEAP_TAIL)
            freeing = entry == BLOCKHEAP_HEAD;
        if (freeing) {
            set_entry(table, block, BLOCKHEAP_FREE);
            --*change;
        }
    }
}

/* Once the roots are marked. */
static void end_collection(marking *m, uint32_t *kept, uint32_t *rescans, int32_t *change)
{
    for (; m->overflow; ++*rescans)
        rescan(m);
    sweep(m->table, m->blocks, kept, change);
    memset(m->stack, 0, BLOCKHEAP_WORD_BYTES * m->entries);
}

uint32_t blockheap_collect(uint64_t base, uint64_t t, const uint8_t *pool, size_t pool_len, uint8_t *table,
                           size_t table_len, const uint8_t *roots, size_t roots_len, uint8_t *stack,
                           size_t stack_len, uint32_t *kept, uint32_t *rescans, int32_t *change)
{
    *kept = *rescans = 0;
    *change = 0;
    if (roots_len % BLOCKHEAP_WORD_BYTES != 0 || stack_len % BLOCKHEAP_WORD_BYTES != 0)
        return BLOCKHEAP_BAD_SHAPE;
    uint32_t refusal = check_heap(base, t, pool_len, table, table_len);
    if (refusal)
        return refusal;
    if (roots_len / BLOCKHEAP_WORD_BYTES > BLOCKHEAP_MAX_ROOTS)
        return BLOCKHEAP_TOO_MANY_ROOTS;
    if (stack_len / BLOCKHEAP_WORD_BYTES > BLOCKHEAP_MAX_STACK_ENTRIES)
        return BLOCKHEAP_STACK_TOO_LONG;
    marking m = {base, pool, table, 4 * t, stack, stack_len / BLOCKHEAP_WORD_BYTES, 0, false};
    mark_roots(&m, roots, roots_len);
    end_collection(&m, kept, rescans, change);
    return BLOCKHEAP_OK;
}

static size_t count_used(const uint8_t *table, size_t blocks)
{
    size_t used = 0;
    for (size_t block = 0; block < blocks; block++)
        used += entry_at(table, block) != BLOCKHEAP_FREE;
    return used;
}

/* Writes a section's count, or its bytes, and answers what follows. */
static uint8_t *put_count(uint8_t *at, size_t count)
{
    at[0] = (uint8_t)count;
    at[1] = (uint8_t)(count >> 8);
    return at + 2;
}

static uint8_t *put_bytes(uint8_t *at, const uint8_t *bytes, size_t count)
{
    memcpy(at, bytes, count);
    return at + count;
}

static uint8_t *put_used_blocks(uint8_t *at, const uint8_t *pool, const uint8_t *table, size_t blocks)
{
    for (size_t block = 0; block < blocks; block++)
        if (entry_at(table, block) != BLOCKHEAP_FREE)
            at = put_bytes(at, pool + BLOCKHEAP_BLOCK_BYTES * block, BLOCKHEAP_BLOCK_BYTES);
    return at;
}

uint32_t blockheap_write_image(uint64_t base, uint64_t t, const uint8_t *pool, size_t pool_len,
                               const uint8_t *table, size_t table_len, const uint8_t *roots, size_t roots_len,
                               uint8_t *image, size_t image_len, uint32_t *length)
{
    *length = 0;
    if (roots_len % BLOCKHEAP_WORD_BYTES != 0)
        return BLOCKHEAP_BAD_SHAPE;
    uint32_t refusal = check_heap(base, t, pool_len, table, table_len);
    if (refusal)
        return refusal;
    size_t count = roots_len / BLOCKHEAP_WORD_BYTES, used = count_used(table, 4 * t);
    if (count > BLOCKHEAP_MAX_ROOTS)
        return BLOCKHEAP_TOO_MANY_ROOTS;
    if (image_len < BLOCKHEAP_IMAGE_BYTES(t, used, count))
        return BLOCKHEAP_OUTPUT_TOO_SHORT;
    uint8_t *at = put_count(image, 1);
    set_word(at, (uint32_t)base);
    at = put_count(at + BLOCKHEAP_WORD_BYTES, t);
    at = put_bytes(at, table, t);
    at = put_count(at, used);
    at = put_used_blocks(at, pool, table, 4 * t);
    at = put_count(at, count);
    at = put_bytes(at, roots, roots_len);
    *length = (uint32_t)(at - image);
    return BLOCKHEAP_OK;
}

typedef struct {
    const uint8_t *at;
    size_t left;
} file;

/* The count and the items of the next section; the count is tested before the items. */
static uint32_t read_section(file *f, size_t item_bytes, size_t fewest, size_t most, uint32_t wrong,
                             size_t *count, const uint8_t **items)
{
    if (f->left < 2)
        return BLOCKHEAP_IMAGE_TRUNCATED;
    *count = f->at[0] | (size_t)f->at[1] << 8;
    if (*count < fewest || *count > most)
        return wrong;
    if (f->left - 2 < item_bytes * *count)
        return BLOCKHEAP_IMAGE_TRUNCATED;
    *items = f->at + 2;
    f->at += 2 + item_bytes * *count;
    f->left -= 2 + item_bytes * *count;
    return BLOCKHEAP_OK;
}

static void put_blocks(uint8_t *pool, const uint8_t *table, size_t blocks, const uint8_t *items)
{
    for (size_t block = 0; block < blocks; block++) {
        if (entry_at(table, block) == BLOCKHEAP_FREE) {
            clear(pool, block, block + 1);
            continue;
        }
        memcpy(pool + BLOCKHEAP_BLOCK_BYTES * block, items, BLOCKHEAP_BLOCK_BYTES);
        items += BLOCKHEAP_BLOCK_BYTES;
    }
}

uint32_t blockheap_open_image(const uint8_t *image, size_t image_len, uint64_t t, uint8_t *pool, size_t pool_len,
                              uint8_t *table, size_t table_len, uint8_t *roots, size_t roots_len, uint32_t *base,
                              uint32_t *count)
{
    file f = {image, image_len};
    size_t bases, size, used, root_count;
    const uint8_t *base_word, *entries, *items, *words;
    *base = *count = 0;
    uint32_t refusal = read_section(&f, BLOCKHEAP_WORD_BYTES, 1, 1, BLOCKHEAP_BAD_COUNT, &bases, &base_word);
    if (!refusal)
        refusal = read_section(&f, 1, 1, BLOCKHEAP_MAX_T, BLOCKHEAP_BAD_COUNT, &size, &entries);
    if (refusal)
        return refusal;
    size_t wanted = count_used(entries, 4 * size);
    refusal = read_section(&f, BLOCKHEAP_BLOCK_BYTES, wanted, wanted, BLOCKHEAP_BAD_COUNT, &used, &items);
    if (!refusal)
        refusal = read_section(&f, BLOCKHEAP_WORD_BYTES, 0, BLOCKHEAP_MAX_ROOTS, BLOCKHEAP_TOO_MANY_ROOTS,
                               &root_count, &words);
    if (refusal)
        return refusal;
    if (f.left > 0)
        return BLOCKHEAP_TRAILING_BYTES;
    if (t != size || roots_len % BLOCKHEAP_WORD_BYTES != 0)
        return BLOCKHEAP_BAD_SHAPE;
    refusal = check_heap(word_at(base_word), t, pool_len, entries, table_len);
    if (refusal)
        return refusal;
    if (roots_len / BLOCKHEAP_WORD_BYTES < root_count)
        return BLOCKHEAP_ROOTS_TOO_SHORT;
    memcpy(table, entries, size);
    put_blocks(pool, entries, 4 * size, items);
    memcpy(roots, words, BLOCKHEAP_WORD_BYTES * root_count);
    *base = word_at(base_word);
    *count = (uint32_t)root_count;
    return BLOCKHEAP_OK;
}

uint32_t blockheap_survey(uint64_t base, uint64_t t, const uint8_t *pool, size_t pool_len,
                          const uint8_t *table, size_t table_len, uint32_t *used, uint32_t *objects,
                          uint32_t *longest)
{
    (void)pool;
    *used = *objects = *longest = 0;
    uint32_t refusal = check_heap(base, t, pool_len, table, table_len);
    if (refusal)
        return refusal;
    uint32_t run = 0;
    for (size_t block = 0; block < 4 * t; block++) {
        unsigned entry = entry_at(table, block);
        *used += entry != BLOCKHEAP_FREE;
        *objects += entry == BLOCKHEAP_HEAD;
        run = entry == BLOCKHEAP_FREE ? run + 1 : 0;
        if (run > *longest)
            *longest = run;
    }
    return BLOCKHEAP_OK;
}

static uint32_t check_word(uint64_t base, uint64_t t, size_t pool_len, const uint8_t *table, size_t table_len,
                           uint64_t block, uint64_t word)
{
    uint32_t refusal = check_heap(base, t, pool_len, table, table_len);
    if (!refusal)
        refusal = check_head(table, 4 * t, block);
    if (refusal)
        return refusal;
    size_t words = BLOCKHEAP_WORDS_PER_BLOCK * (object_end(table, 4 * t, block) - block);
    return word < words ? BLOCKHEAP_OK : BLOCKHEAP_NO_SUCH_WORD;
}

static size_t word_offset(uint64_t block, uint64_t word)
{
    return BLOCKHEAP_BLOCK_BYTES * block + BLOCKHEAP_WORD_BYTES * word;
}

uint32_t blockheap_load(uint64_t base, uint64_t t, const uint8_t *pool, size_t pool_len, const uint8_t *table,
                        size_t table_len, uint64_t block, uint64_t word, uint32_t *value)
{
    uint32_t refusal = check_word(base, t, pool_len, table, table_len, block, word);
    *value = refusal ? 0 : word_at(pool + word_offset(block, word));
    return refusal;
}

uint32_t blockheap_store(uint64_t base, uint64_t t, uint8_t *pool, size_t pool_len, const uint8_t *table,
                         size_t table_len, uint64_t block, uint64_t word, uint32_t value)
{
    uint32_t refusal = check_word(base, t, pool_len, table, table_len, block, word);
    if (!refusal)
        set_word(pool + word_offset(block, word), value);
    return refusal;
}

enum { ENTRY_BLOCKS = BLOCKHEAP_LOG_ENTRY_BYTES / BLOCKHEAP_BLOCK_BYTES, NEXT = 0, TIME = 1, TIPS = 2 };

typedef struct {
    uint64_t base;
    const uint8_t *pool, *table;
    size_t blocks;
} heap;

/* The block of the entry at this address, if it is the head of an object of two blocks. */
static bool find_entry(const heap *h, uint64_t address, size_t *block)
{
    if (address < h->base || (address - h->base) % BLOCKHEAP_BLOCK_BYTES != 0)
        return false;
    *block = (address - h->base) / BLOCKHEAP_BLOCK_BYTES;
    return check_head(h->table, h->blocks, *block) == BLOCKHEAP_OK
        && object_end(h->table, h->blocks, *block) == *block + ENTRY_BLOCKS;
}

typedef struct {
    size_t count, wanted, last; /* how many entries; the block of the one that is asked for, and of the last */
} found;

/* Goes through a log to its end, and finds one of its entries. One that goes on longer is a ring. */
static uint32_t walk_log(const heap *h, uint64_t first, uint64_t index, found *f)
{
    uint64_t address = first;
    for (f->count = 0; address != 0; f->count++) {
        if (f->count >= h->blocks / ENTRY_BLOCKS || !find_entry(h, address, &f->last))
            return BLOCKHEAP_NO_LOG;
        if (f->count == index)
            f->wanted = f->last;
        address = word_at(h->pool + word_offset(f->last, NEXT));
    }
    return BLOCKHEAP_OK;
}

static uint32_t find_in_log(const heap *h, uint64_t first, uint64_t index, size_t *block)
{
    found f = {0, 0, 0};
    uint32_t refusal = walk_log(h, first, index, &f);
    *block = f.wanted;
    return refusal ? refusal : index < f.count ? BLOCKHEAP_OK : BLOCKHEAP_NO_ENTRY;
}

uint32_t blockheap_log_append(uint64_t base, uint64_t t, uint8_t *pool, size_t pool_len, uint8_t *table,
                              size_t table_len, uint64_t first, uint32_t time, uint32_t tips, const uint8_t *roots,
                              size_t roots_len, uint8_t *stack, size_t stack_len, uint32_t *new_first,
                              int32_t *change)
{
    *new_first = 0;
    *change = 0;
    if (roots_len % BLOCKHEAP_WORD_BYTES != 0 || stack_len % BLOCKHEAP_WORD_BYTES != 0)
        return BLOCKHEAP_BAD_SHAPE;
    uint32_t refusal = check_heap(base, t, pool_len, table, table_len);
    if (refusal)
        return refusal;
    if (roots_len / BLOCKHEAP_WORD_BYTES > BLOCKHEAP_MAX_LOG_ROOTS)
        return BLOCKHEAP_TOO_MANY_ROOTS;
    if (stack_len / BLOCKHEAP_WORD_BYTES > BLOCKHEAP_MAX_STACK_ENTRIES)
        return BLOCKHEAP_STACK_TOO_LONG;
    size_t blocks = 4 * t, start;
    heap h = {base, pool, table, blocks};
    found f = {0, 0, 0};
    refusal = walk_log(&h, first, 0, &f);
    if (refusal)
        return refusal;
    if (!find_run(table, blocks, ENTRY_BLOCKS, &start)) {
        marking m = {base, pool, table, blocks, stack, stack_len / BLOCKHEAP_WORD_BYTES, 0, false};
        uint32_t kept = 0, rescans = 0;
        mark_root(&m, (uint32_t)first);
        mark_roots(&m, roots, roots_len);
        end_collection(&m, &kept, &rescans, change);
        if (!find_run(table, blocks, ENTRY_BLOCKS, &start))
            return BLOCKHEAP_NO_ROOM;
    }
    uint32_t address = (uint32_t)(base + BLOCKHEAP_BLOCK_BYTES * start);
    place(table, start, ENTRY_BLOCKS);
    clear(pool, start, start + ENTRY_BLOCKS);
    set_word(pool + word_offset(start, TIME), time);
    set_word(pool + word_offset(start, TIPS), tips);
    if (first != 0)
        set_word(pool + word_offset(f.last, NEXT), address);
    *new_first = first != 0 ? (uint32_t)first : address;
    *change += ENTRY_BLOCKS;
    return BLOCKHEAP_OK;
}

uint32_t blockheap_log_read(uint64_t base, uint64_t t, const uint8_t *pool, size_t pool_len, const uint8_t *table,
                            size_t table_len, uint64_t first, uint64_t index, uint32_t *time, uint32_t *tips)
{
    *time = *tips = 0;
    heap h = {base, pool, table, 4 * t};
    size_t entry;
    uint32_t refusal = check_heap(base, t, pool_len, table, table_len);
    if (!refusal)
        refusal = find_in_log(&h, first, index, &entry);
    if (refusal)
        return refusal;
    *time = word_at(pool + word_offset(entry, TIME));
    *tips = word_at(pool + word_offset(entry, TIPS));
    return BLOCKHEAP_OK;
}

uint32_t blockheap_log_drop(uint64_t base, uint64_t t, const uint8_t *pool, size_t pool_len, uint8_t *table,
                            size_t table_len, uint64_t first, uint32_t *new_first, int32_t *change)
{
    *new_first = 0;
    *change = 0;
    heap h = {base, pool, table, 4 * t};
    size_t entry;
    uint32_t refusal = check_heap(base, t, pool_len, table, table_len);
    if (!refusal)
        refusal = find_in_log(&h, first, 0, &entry);
    if (refusal)
        return refusal;
    set_entries(table, entry, entry + ENTRY_BLOCKS, BLOCKHEAP_FREE);
    *new_first = word_at(pool + word_offset(entry, NEXT));
    *change = -ENTRY_BLOCKS;
    return BLOCKHEAP_OK;
}
