/*
 * A first program on the block heap: a rain gauge keeps its readings. It makes every call, as bh.h has them.
 */
#include <stdio.h>

#include "bh.h"
#include "refusals.h" /* must, say_refused */

/* A static pool of 1,024 bytes with its table: 64 blocks. Block 0 has the address 0x20000000. */
enum { POOL_BYTES = 1024 };
BH_DEFINE(heap, 0x20000000, POOL_BYTES);

/* A log of the rain. Each entry is a time and how often the gauge has tipped, and the oldest comes first. */
static struct bh_log rain;

/* Frees every object that no chain of addresses leads to from the gauge or from the log's first entry. */
static void collect(uint32_t gauge)
{
    uint8_t roots[BLOCKHEAP_LIST_BYTES(2)], stack[BLOCKHEAP_LIST_BYTES(16)];
    uint32_t kept;
    int32_t change;
    bh_put_word(roots, 0, bh_address(&heap, gauge));
    bh_put_word(roots, 1, rain.first);
    must(bh_collect(&heap, roots, sizeof roots, stack, sizeof stack, &kept, NULL, &change));
    printf("collect: %u objects kept, %d blocks freed\n", (unsigned)kept, -(int)change);
}

/* Allocates. If there is no room it collects and asks once more: an allocation never does so by itself. */
static uint32_t allocate(uint64_t bytes, uint32_t gauge)
{
    uint32_t block, refusal = bh_allocate(&heap, bytes, &block, NULL);
    if (refusal == BLOCKHEAP_NO_ROOM) {
        say_refused("allocate", refusal);
        collect(gauge);
        refusal = bh_allocate(&heap, bytes, &block, NULL);
    }
    must(refusal);
    return block;
}

/* A gauge whose word 0 leads to its readings. */
static uint32_t new_gauge(void)
{
    uint32_t gauge, readings;
    must(bh_allocate(&heap, 32, &gauge, NULL));
    must(bh_allocate(&heap, 16, &readings, NULL));
    must(bh_store(&heap, gauge, 0, bh_address(&heap, readings)));
    return gauge;
}

static uint32_t readings_of(uint32_t gauge)
{
    uint32_t address;
    must(bh_load(&heap, gauge, 0, &address));
    return bh_block(&heap, address);
}

/* Growing may move the readings, and so the gauge's word is set anew. */
static void grow_readings(uint32_t gauge, uint64_t bytes)
{
    uint32_t readings;
    must(bh_reallocate(&heap, readings_of(gauge), bytes, &readings, NULL));
    must(bh_store(&heap, gauge, 0, bh_address(&heap, readings)));
    printf("the readings have %u bytes from address 0x%08x\n", (unsigned)bh_object_bytes(&heap, readings),
           (unsigned)bh_address(&heap, readings));
}

/* An append finds its own room: if it has to collect, it keeps the log and what the roots lead to. */
static void note_rain(uint32_t gauge, uint32_t time, uint32_t tips)
{
    uint8_t roots[BLOCKHEAP_LIST_BYTES(1)], stack[BLOCKHEAP_LIST_BYTES(16)];
    bh_put_word(roots, 0, bh_address(&heap, gauge));
    must(bh_log_append(&heap, &rain, time, tips, roots, sizeof roots, stack, sizeof stack, NULL));
}

/* Reads the log from its oldest entry on, and drops what was read. */
static void send_rain(void)
{
    uint32_t time, tips;
    while (bh_log_read(&heap, &rain, 0, &time, &tips) == BLOCKHEAP_OK) {
        printf("rain: %u tips at %u\n", (unsigned)tips, (unsigned)time);
        must(bh_log_drop(&heap, &rain, NULL));
    }
}

/* A message is written through a pointer into the pool, sent, and freed. */
static void send_message(uint32_t gauge, unsigned number)
{
    uint32_t message = allocate(40, gauge);
    char *text = (char *)bh_pointer(&heap, message);
    snprintf(text, 40, "message %u", number);
    printf("sent: %s\n", text);
    must(bh_free(&heap, message, NULL));
}

static void survey(void)
{
    uint32_t used, objects, longest;
    must(bh_survey(&heap, &used, &objects, &longest));
    printf("survey: %u of %u blocks used, %u objects, longest free run %u\n", (unsigned)used,
           (unsigned)bh_blocks(&heap), (unsigned)objects, (unsigned)longest);
}

static uint8_t image[BLOCKHEAP_FULL_IMAGE_BYTES(BLOCKHEAP_T_OF_POOL(POOL_BYTES), 1)];

/* The whole heap as a file for whoever asks for it, with the gauge as its root. Answers its length. */
static uint32_t download(uint32_t gauge)
{
    uint8_t roots[BLOCKHEAP_LIST_BYTES(1)];
    uint32_t length;
    bh_put_word(roots, 0, bh_address(&heap, gauge));
    must(bh_write_image(&heap, roots, sizeof roots, image, sizeof image, &length));
    printf("download: an image of %u bytes\n", (unsigned)length);
    return length;
}

/* The file makes the heap again, here or on another host. Its root is the gauge. */
static uint32_t restore(uint32_t length)
{
    uint8_t roots[BLOCKHEAP_LIST_BYTES(1)];
    must(bh_open_image(&heap, image, length, roots, sizeof roots, NULL));
    return bh_block(&heap, bh_get_word(roots, 0));
}

int main(void)
{
    uint32_t gauge, value;
    must(bh_init(&heap));
    gauge = new_gauge();
    must(bh_store(&heap, readings_of(gauge), 3, 215));
    send_message(gauge, 1);
    (void)allocate(16, gauge); /* it lies behind the readings, and nothing leads to it */
    grow_readings(gauge, 160);
    note_rain(gauge, 60, 3);
    note_rain(gauge, 120, 5);
    survey();

    for (int script = 0; script < 12; script++)
        (void)allocate(64, gauge); /* garbage; the last one finds no room */
    survey();
    send_rain();

    say_refused("free inside the readings", bh_free(&heap, readings_of(gauge) + 1, NULL));
    must(bh_load(&heap, readings_of(gauge), 3, &value));
    printf("reading 3 is still %u\n", (unsigned)value);

    uint32_t length = download(gauge);
    must(bh_init(&heap)); /* all is lost */
    gauge = restore(length);
    must(bh_load(&heap, readings_of(gauge), 3, &value));
    printf("restored: reading 3 is %u\n", (unsigned)value);
    return 0;
}
