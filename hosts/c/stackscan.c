/*
 * A conservative collection, as MicroPython's ports do it: each word of the C stack and of saved registers
 * that is the address of a block becomes a root. It keeps what those words lead to, in use or not.
 *
 * A heap address is a 32-bit number that the base makes up, also where pointers have 64 bits. Locals hold it.
 */
#include <setjmp.h>
#include <stdio.h>

#include "bh.h"
#include "refusals.h" /* must */

/* A scan reads what nothing has written, and what lies beside locals: valgrind and sanitizers must let it. */
#ifdef __has_include
#if __has_include(<valgrind/memcheck.h>)
#include <valgrind/memcheck.h>
#endif
#endif
#ifndef VALGRIND_MAKE_MEM_DEFINED
#define VALGRIND_MAKE_MEM_DEFINED(from, bytes) (0)
#endif

/* For each function whose frame is scanned, and for those that scan: a frame of its own, on the one stack. */
#ifdef __GNUC__
#define SCANNED __attribute__((noinline, no_sanitize_address))
#else
#define SCANNED
#endif

BH_DEFINE(heap, 0x20000000, 4096);

enum { MOST_ROOTS = 1024 };
static uint8_t roots[BLOCKHEAP_LIST_BYTES(MOST_ROOTS)];
static size_t root_count;

/* Where the scan ends: an address in the frame of main. The stack grows down. */
static uintptr_t stack_top;

/* Notes each word of a piece of memory that is the address of a block. */
SCANNED static void add_roots(uintptr_t from, uintptr_t to)
{
    (void)VALGRIND_MAKE_MEM_DEFINED(from, to - from);
    for (; from < to; from += BLOCKHEAP_WORD_BYTES) {
        uint32_t word = *(const volatile uint32_t *)from;
        if (bh_block(&heap, word) == BH_NO_BLOCK)
            continue;
        if (root_count < MOST_ROOTS)
            bh_put_word(roots, root_count, word);
        root_count++;
    }
}

/* setjmp saves the registers at the lower end of what is scanned. A list that is too long must not be cut. */
SCANNED static uint32_t collect(uint32_t *kept)
{
    uint8_t stack[BLOCKHEAP_LIST_BYTES(BLOCKHEAP_MAX_STACK_ENTRIES)];
    jmp_buf registers;
    (void)setjmp(registers);
    root_count = 0;
    add_roots((uintptr_t)&registers, stack_top);
    if (root_count > MOST_ROOTS)
        return BLOCKHEAP_TOO_MANY_ROOTS;
    return bh_collect(&heap, roots, BLOCKHEAP_LIST_BYTES(root_count), stack, sizeof stack, kept, NULL, NULL);
}

/* A new pair of words, as an address: the first is an address or 0 (nil), the second a number. */
static uint32_t pair(uint32_t first, uint32_t second)
{
    uint32_t block;
    must(bh_allocate(&heap, 8, &block, NULL));
    must(bh_store(&heap, block, 0, first));
    must(bh_store(&heap, block, 1, second));
    return bh_address(&heap, block);
}

static uint32_t word_of(uint32_t address, uint64_t word)
{
    uint32_t value;
    must(bh_load(&heap, bh_block(&heap, address), word, &value));
    return value;
}

SCANNED static void make_garbage(uint32_t pairs)
{
    while (pairs-- > 0)
        (void)pair(0, pairs);
}

/* The local is volatile, so that the address itself stays in the frame, not a block number made from it. */
SCANNED static void script(void)
{
    volatile uint32_t list = 0;
    uint32_t kept, sum = 0;
    for (uint32_t number = 1; number <= 5; number++)
        list = pair(list, number);
    make_garbage(100);

    must(collect(&kept));
    for (uint32_t at = list; at != 0; at = word_of(at, 0))
        sum += word_of(at, 1);
    printf("the list in use: its numbers add up to %u\n", (unsigned)sum);
    printf("the 100 pairs of garbage: %s\n", kept < 5 + 20 ? "most are freed" : "TOO MANY ARE KEPT");
}

SCANNED int main(void)
{
    uint32_t in_main = 0;
    stack_top = (uintptr_t)&in_main;
    must(bh_init(&heap));
    script();
    return 0;
}
