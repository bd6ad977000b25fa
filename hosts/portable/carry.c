/*
 * Carries heaps from host to host as images.
 *
 * usage: carry make FILE         fills the largest heap with objects and a log, and writes its image
 *        carry copy FILE COPY    opens an image, and writes what was opened
 */
#include <stdio.h>
#include <string.h>

#include "../c/refusals.h" /* must */

enum { ROOTS = 1000, STACK_ENTRIES = 64 };
static BH_ALIGNED uint8_t area[BLOCKHEAP_HEAP_BYTES(BLOCKHEAP_MAX_T)];
static uint8_t image[BLOCKHEAP_MAX_IMAGE_BYTES];
static uint8_t roots[BLOCKHEAP_LIST_BYTES(BLOCKHEAP_MAX_ROOTS)];
static uint8_t stack[BLOCKHEAP_LIST_BYTES(STACK_ENTRIES)];

static uint32_t drawn(uint32_t below)
{
    static uint32_t state = 1;
    state = state * 1664525 + 1013904223;
    return (state >> 16) % below;
}

static _Noreturn void give_up(const char *what, const char *name)
{
    printf("%s%s\n", what, name);
    exit(2);
}

static size_t read_file(const char *name)
{
    FILE *file = fopen(name, "rb");
    if (!file)
        give_up("cannot be read: ", name);
    size_t length = fread(image, 1, sizeof image, file);
    fclose(file);
    return length;
}

static void write_image(const struct blockheap *heap, size_t count, const char *name)
{
    uint32_t length;
    must(bh_write_image(heap, roots, BLOCKHEAP_LIST_BYTES(count), image, sizeof image, &length));
    FILE *file = fopen(name, "wb");
    if (!file || fwrite(image, 1, length, file) != length || fclose(file) != 0)
        give_up("cannot be written: ", name);
}

/* An object whose words lead to roots or hold any number, and which becomes a root. */
static void add_object(const struct blockheap *heap, size_t root)
{
    uint32_t block, words = 1 + drawn(40);
    must(bh_allocate(heap, BLOCKHEAP_WORD_BYTES * words, &block, NULL));
    for (uint32_t word = 0; word < words; word++) {
        uint32_t number = drawn(65536) << 16 | drawn(65536);
        must(bh_store(heap, block, word, root && drawn(2) ? bh_get_word(roots, drawn((uint32_t)root)) : number));
    }
    bh_put_word(roots, root, bh_address(heap, block));
}

static void make(const char *name)
{
    struct blockheap heap = bh_split(0xCAFE0000, area, sizeof area);
    struct bh_log log = {0};
    must(bh_init(&heap));
    for (size_t root = 0; root < ROOTS / 2; root++)
        add_object(&heap, root);
    for (uint32_t minute = 0; minute < ROOTS / 2; minute++)
        must(bh_log_append(&heap, &log, 60 * minute, drawn(9), roots, BLOCKHEAP_LIST_BYTES(ROOTS / 2), stack, sizeof stack,
                           NULL));
    bh_put_word(roots, 0, log.first);
    must(bh_collect(&heap, roots, BLOCKHEAP_LIST_BYTES(ROOTS / 4), stack, sizeof stack, NULL, NULL, NULL));
    for (size_t root = ROOTS / 2; root < ROOTS; root++)
        bh_put_word(roots, root, drawn(65536) << 16 | drawn(65536));
    write_image(&heap, ROOTS, name);
}

static void copy(const char *name, const char *copy_name)
{
    uint32_t count;
    size_t length = read_file(name);
    memset(area, 0x5A, sizeof area);
    struct blockheap heap = bh_split(0, area, BLOCKHEAP_HEAP_BYTES(bh_image_t(image, length)));
    must(bh_open_image(&heap, image, length, roots, sizeof roots, &count));
    memset(image, 0x5A, sizeof image);
    write_image(&heap, count, copy_name);
}

int main(int count, char **words)
{
    if (count == 3 && !strcmp(words[1], "make"))
        make(words[2]);
    else if (count == 4 && !strcmp(words[1], "copy"))
        copy(words[2], words[3]);
    else
        give_up("usage: ", "carry make FILE, or carry copy FILE COPY");
    return 0;
}
