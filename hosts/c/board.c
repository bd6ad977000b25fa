/*
 * A logger's firmware on a board whose addresses have 32 bits, lowest byte first, as those of a Cortex-M. The heap lies
 * at its pool's own address: so an object's address is a C pointer to it, objects hold C pointers, and the program's own
 * pointers are the roots as they are.
 */
#include <stdbool.h>
#include <stdio.h>

#include "bh.h"
#include "refusals.h" /* must */

BH_DEFINE_HERE(heap, 1024);

/* A minute of rain, and the minute before it. */
struct minute {
    struct minute *before;
    uint32_t time, tips;
};

/* All that the program holds in the heap. What these lead to is kept. */
static struct {
    struct minute *newest;
    char *message;
} held;

enum { MINUTES = 100, KEPT_MINUTES = 10 };

/* Memory for an object, all 0. Makes room by a collection if there is none. */
static void *allocate(size_t bytes)
{
    uint8_t stack[BLOCKHEAP_LIST_BYTES(16)];
    uint32_t block;
    must(bh_allocate_collecting(&heap, bytes, (const uint8_t *)&held, sizeof held, stack, sizeof stack, &block, NULL));
    return bh_pointer(&heap, block);
}

static void note_minute(uint32_t time, uint32_t tips)
{
    struct minute *minute = allocate(sizeof *minute);
    minute->before = held.newest;
    minute->time = time;
    minute->tips = tips;
    held.newest = minute;
}

/* Lets the minutes before the newest ones go: a later collection frees them. */
static void forget_old_minutes(void)
{
    struct minute *minute = held.newest;
    for (int left = KEPT_MINUTES; minute && left > 1; left--)
        minute = minute->before;
    if (minute)
        minute->before = NULL;
}

/* Each message takes the place of the one before it, which nothing leads to any more. */
static void write_message(uint32_t time)
{
    enum { MESSAGE_BYTES = 40 };
    held.message = allocate(MESSAGE_BYTES);
    snprintf(held.message, MESSAGE_BYTES, "minute %u", (unsigned)time);
}

/* Whether the minutes that are kept are the newest ones, with all that was noted of them. */
static bool minutes_are_right(void)
{
    uint32_t time = MINUTES;
    bool right = true;
    for (const struct minute *minute = held.newest; minute; minute = minute->before) {
        right = right && minute->time == time && minute->tips == time % 7;
        time--;
    }
    return right && time == MINUTES - KEPT_MINUTES;
}

/* What the heap holds, garbage with it, and which room is left. */
static void show_heap(void)
{
    struct bh_object object = {0, 0};
    uint32_t runs[4];
    unsigned minutes = 0, messages = 0;
    while (bh_walk(&heap, &object))
        if (object.bytes == BLOCKHEAP_BLOCK_BYTES)
            minutes++;
        else
            messages++;
    must(bh_free_runs(&heap, runs, 4));
    printf("objects: %u minutes and %u messages\n", minutes, messages);
    printf("free runs: %u of one block, %u of two, %u of three or more\n", (unsigned)runs[1], (unsigned)runs[2],
           (unsigned)runs[3]);
}

int main(void)
{
    must(bh_init(&heap));
    for (uint32_t time = 1; time <= MINUTES; time++) {
        note_minute(time, time % 7);
        forget_old_minutes();
        write_message(time);
    }
    show_heap();

    bool here = bh_address(&heap, 0) == (uintptr_t)heap.pool, right = minutes_are_right();
    printf("the heap lies at its pool's own address: %s\n", here ? "yes" : "NO");
    printf("%s: the last %u are %s\n", held.message, KEPT_MINUTES, right ? "there, and right" : "WRONG");
    return !here || !right;
}
