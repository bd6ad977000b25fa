/*
 * Makes recorded calls again, and compares every answer, every byte of every buffer, and the bytes beside each. Says
 * in words what differs in the first five calls that do, and counts them all in the last line.
 * hosts/rust/compare/src/record.rs writes the file and says what it has.
 *
 * usage: replay [--stack] FILE
 * --stack also says how many bytes of stack each call took at most.
 */
#include <stdarg.h>
#include <stdbool.h>
#include <stdint.h>
#include <stdio.h>
#include <stdlib.h>
#include <string.h>

#include "blockheap.h"

static const char MAGIC[] = "blockheap calls\n";
enum {
    VERSION = 1,
    GUARD = 64,           /* so many bytes beside a buffer are watched on each side */
    BESIDE = 0xA5,        /* and hold this */
    PLACES = 16,          /* a buffer begins at each remainder of this in turn */
    MOST_BYTES = 1 << 20, /* no recorded buffer is longer */
    SHOWN = 5,
    STACK_WORDS = 512 /* so much stack is watched below a call */
};
static const uint32_t RUBBISH = 0xDEADBEEF; /* in the places for answers, and between them */
static const uintptr_t PAINT = 0x5AC3A5C3;  /* in the stack below a call */

/* ---- The calls, in the order of their numbers in the file */

enum call { INIT, ALLOCATE, FREE, REALLOCATE, COLLECT, SURVEY, LOAD, STORE, WRITE_IMAGE, OPEN_IMAGE, LOG_APPEND, LOG_READ,
            LOG_DROP, CALLS };
enum buffer { POOL, TABLE, ROOTS, STACK, IMAGE, BUFFERS };
enum { HEAP = 1 << POOL | 1 << TABLE, MOST_ARGUMENTS = 3, MOST_ANSWERS = 3 };

static const struct {
    const char *name;
    unsigned buffers, arguments, answers;
    const char *answer[MOST_ANSWERS];
} known[CALLS] = {
    [INIT] = {"init", HEAP, 0, 0, {0}},
    [ALLOCATE] = {"allocate", HEAP, 1, 2, {"block", "change"}},
    [FREE] = {"free", HEAP, 1, 1, {"change"}},
    [REALLOCATE] = {"reallocate", HEAP, 2, 2, {"block", "change"}},
    [COLLECT] = {"collect", HEAP | 1 << ROOTS | 1 << STACK, 0, 3, {"kept", "rescans", "change"}},
    [SURVEY] = {"survey", HEAP, 0, 3, {"used", "objects", "longest"}},
    [LOAD] = {"load", HEAP, 2, 1, {"value"}},
    [STORE] = {"store", HEAP, 3, 0, {0}},
    [WRITE_IMAGE] = {"write_image", HEAP | 1 << ROOTS | 1 << IMAGE, 0, 1, {"length"}},
    [OPEN_IMAGE] = {"open_image", HEAP | 1 << ROOTS | 1 << IMAGE, 0, 2, {"base", "count"}},
    [LOG_APPEND] = {"log_append", HEAP | 1 << ROOTS | 1 << STACK, 3, 2, {"first", "change"}},
    [LOG_READ] = {"log_read", HEAP, 2, 2, {"time", "tips"}},
    [LOG_DROP] = {"log_drop", HEAP, 1, 2, {"first", "change"}},
};
static const char *const buffer_names[BUFFERS] = {"pool", "table", "root list", "mark stack", "image"};

/* ---- The file */

static FILE *file;
static uint8_t chunk[1 << 16]; /* the bytes of the file that were read last */
static size_t chunk_length, chunk_at;

static _Noreturn void give_up(const char *why)
{
    printf("%s\n", why);
    exit(2);
}

/* Whether the file has another byte. */
static bool has_more(void)
{
    if (chunk_at == chunk_length) {
        chunk_length = fread(chunk, 1, sizeof chunk, file);
        chunk_at = 0;
    }
    return chunk_length > 0;
}

static uint8_t read_byte(void)
{
    if (!has_more())
        give_up("the record ends early");
    return chunk[chunk_at++];
}

static void read_bytes(uint8_t *bytes, size_t count)
{
    for (size_t i = 0; i < count; i++)
        bytes[i] = read_byte();
}

static uint64_t read_number(void)
{
    uint64_t number = 0;
    for (int shift = 0; shift < 64; shift += 7) {
        uint8_t byte = read_byte();
        number |= (uint64_t)(byte & 127) << shift;
        if (byte < 128)
            return number;
    }
    give_up("a number of the record is too long");
}

static size_t read_size(size_t most)
{
    uint64_t number = read_number();
    if (number > most)
        give_up("a length of the record is too large");
    return (size_t)number;
}

static void open_record(const char *name)
{
    uint8_t magic[sizeof MAGIC - 1];
    file = fopen(name, "rb");
    if (!file)
        give_up("the record cannot be read");
    read_bytes(magic, sizeof magic);
    if (memcmp(magic, MAGIC, sizeof magic) || read_number() != VERSION)
        give_up("this is no record, or one of another version");
}

/* ---- The buffers */

static struct {
    uint8_t *memory;   /* the lent bytes are in here, with others on both sides */
    uint8_t *recorded; /* what they are by the record */
    size_t room;       /* so many bytes have room in both */
    size_t length;
    uint8_t *lent;
} buffers[BUFFERS];

static bool takes(enum call call, int buffer)
{
    return known[call].buffers >> buffer & 1;
}

static void *grown(void *memory, size_t bytes)
{
    memory = realloc(memory, bytes);
    if (!memory)
        give_up("out of memory");
    return memory;
}

/* Makes a buffer so long, with zeros behind what it had. */
static void set_length(int at, size_t length)
{
    if (length > buffers[at].room || !buffers[at].memory) {
        buffers[at].memory = grown(buffers[at].memory, length + 2 * GUARD + PLACES);
        buffers[at].recorded = grown(buffers[at].recorded, length + 1);
        buffers[at].room = length;
    }
    if (length > buffers[at].length)
        memset(buffers[at].recorded + buffers[at].length, 0, length - buffers[at].length);
    buffers[at].length = length;
}

/* Reads a change of what a buffer is by the record. */
static void read_change(int at)
{
    set_length(at, read_size(MOST_BYTES));
    size_t pieces = read_size(MOST_BYTES), end = 0;
    while (pieces--) {
        size_t start = end + read_size(buffers[at].length - end);
        end = start + read_size(buffers[at].length - start);
        read_bytes(buffers[at].recorded + start, end - start);
    }
}

static void read_changes(enum call call)
{
    for (int at = 0; at < BUFFERS; at++)
        if (takes(call, at))
            read_change(at);
}

/* Lends the recorded bytes, at an address of another remainder from call to call. */
static void lend(enum call call, unsigned long number)
{
    for (int at = 0; at < BUFFERS; at++) {
        if (!takes(call, at))
            continue;
        buffers[at].lent = buffers[at].memory + GUARD + (number + 5 * (unsigned)at) % PLACES;
        memset(buffers[at].lent - GUARD, BESIDE, GUARD);
        memcpy(buffers[at].lent, buffers[at].recorded, buffers[at].length);
        memset(buffers[at].lent + buffers[at].length, BESIDE, GUARD);
    }
}

/* ---- A call, and how much stack it takes */

/* A place for each answer, with one before and after it that no call may write. */
static uint32_t places[2 * MOST_ANSWERS + 1];
static size_t deepest[CALLS];

#if defined __arm__
#define READ_STACK_POINTER "mov %0, sp"
#elif defined __s390x__
#define READ_STACK_POINTER "lgr %0, %%r15"
#elif defined __powerpc__
#define READ_STACK_POINTER "mr %0, 1"
#elif defined __i386__
#define READ_STACK_POINTER "mov %%esp, %0"
#elif defined __x86_64__
#define READ_STACK_POINTER "mov %%rsp, %0"
#else
#error "how is the stack pointer read on this processor?"
#endif

/* Also makes sure that make_call has its frame before it reads the stack pointer. */
static __attribute__((noinline)) void clear_places(void)
{
    for (size_t i = 0; i < sizeof places / sizeof *places; i++)
        places[i] = RUBBISH;
}

/* Inline: what it calls lies directly below the frame of make_call. */
static inline __attribute__((always_inline)) uint32_t hand_over(enum call call, const uint64_t *number)
{
    uint32_t *first = &places[1], *second = &places[3], *third = &places[5];
#define LENT(buffer) buffers[buffer].lent, buffers[buffer].length
#define HEAP_AND_NUMBERS number[0], number[1], LENT(POOL), LENT(TABLE)
    switch (call) {
    case INIT: return blockheap_init(HEAP_AND_NUMBERS);
    case ALLOCATE: return blockheap_allocate(HEAP_AND_NUMBERS, number[2], first, (int32_t *)second);
    case FREE: return blockheap_free(HEAP_AND_NUMBERS, number[2], (int32_t *)first);
    case REALLOCATE: return blockheap_reallocate(HEAP_AND_NUMBERS, number[2], number[3], first, (int32_t *)second);
    case COLLECT: return blockheap_collect(HEAP_AND_NUMBERS, LENT(ROOTS), LENT(STACK), first, second, (int32_t *)third);
    case SURVEY: return blockheap_survey(HEAP_AND_NUMBERS, first, second, third);
    case LOAD: return blockheap_load(HEAP_AND_NUMBERS, number[2], number[3], first);
    case STORE: return blockheap_store(HEAP_AND_NUMBERS, number[2], number[3], (uint32_t)number[4]);
    case WRITE_IMAGE: return blockheap_write_image(HEAP_AND_NUMBERS, LENT(ROOTS), LENT(IMAGE), first);
    case OPEN_IMAGE:
        return blockheap_open_image(LENT(IMAGE), number[1], LENT(POOL), LENT(TABLE), LENT(ROOTS), first, second);
    case LOG_APPEND:
        return blockheap_log_append(HEAP_AND_NUMBERS, number[2], (uint32_t)number[3], (uint32_t)number[4], LENT(ROOTS),
                                    LENT(STACK), first, (int32_t *)second);
    case LOG_READ: return blockheap_log_read(HEAP_AND_NUMBERS, number[2], number[3], first, second);
    case LOG_DROP: return blockheap_log_drop(HEAP_AND_NUMBERS, number[2], first, (int32_t *)second);
    default: give_up("the record has a call that is not known here");
    }
}

/* Makes the call. The stack below is painted before, and how deep it was written is seen after. Arguments that lie on
   the stack count where they are pushed (x86), and not where the caller's frame has a place for them. */
static __attribute__((noinline)) uint32_t make_call(enum call call, const uint64_t *number)
{
    volatile uintptr_t *top, *at;
    clear_places();
    __asm__ volatile(READ_STACK_POINTER : "=r"(top));
    for (at = top - STACK_WORDS; at < top; at++)
        *at = PAINT;
    uint32_t refusal = hand_over(call, number);
    for (at = top - STACK_WORDS; at < top && *at == PAINT; at++)
        ;
    size_t used = (size_t)(top - at) * sizeof *at;
    if (used > deepest[call])
        deepest[call] = used;
    return refusal;
}

static void print_stack(void)
{
    puts("stack: bytes that each call took at most");
    for (int call = 0; call < CALLS; call++)
        printf("  %-12s %6lu%s\n", known[call].name, (unsigned long)deepest[call],
               deepest[call] == STACK_WORDS * sizeof(uintptr_t) ? " or more" : "");
}

/* ---- Comparing */

static char difference[120]; /* the first of the current call, or empty */

static void differs(const char *format, ...)
{
    va_list words;
    if (*difference)
        return;
    va_start(words, format);
    vsnprintf(difference, sizeof difference, format, words);
    va_end(words);
}

static void compare_number(const char *what, uint32_t number, uint32_t recorded)
{
    if (number != recorded)
        differs("%s is %lu where %lu was recorded", what, (unsigned long)number, (unsigned long)recorded);
}

/* Reads the recorded answers. */
static void compare_answers(enum call call)
{
    for (unsigned i = 0; i < known[call].answers; i++) {
        compare_number(known[call].answer[i], places[2 * i + 1], (uint32_t)read_number());
        places[2 * i + 1] = RUBBISH;
    }
    for (size_t i = 0; i < sizeof places / sizeof *places; i++)
        if (places[i] != RUBBISH)
            differs("a word beside the answers was written");
}

static void compare_beside(int at, const uint8_t *beside, const char *where)
{
    for (int i = 0; i < GUARD; i++)
        if (beside[i] != BESIDE)
            differs("a byte %s the %s was written", where, buffer_names[at]);
}

static void compare_buffer(int at)
{
    const uint8_t *lent = buffers[at].lent, *recorded = buffers[at].recorded;
    size_t length = buffers[at].length, i = 0;
    compare_beside(at, lent - GUARD, "before");
    compare_beside(at, lent + length, "behind");
    if (!memcmp(lent, recorded, length))
        return;
    while (lent[i] == recorded[i])
        i++;
    differs("byte %lu of the %s is %d where %d was recorded", (unsigned long)i, buffer_names[at], lent[i], recorded[i]);
}

/* Whether the next call of the record is answered as it says. */
static bool agrees(unsigned long number)
{
    uint64_t numbers[2 + MOST_ARGUMENTS] = {0};
    enum call call = (enum call)read_size(CALLS - 1);
    for (unsigned i = 0; i < 2 + known[call].arguments; i++)
        numbers[i] = read_number();
    read_changes(call);
    lend(call, number);
    uint32_t refusal = make_call(call, numbers);
    *difference = 0;
    compare_number("the refusal", refusal, (uint32_t)read_number());
    compare_answers(call);
    read_changes(call);
    for (int at = 0; at < BUFFERS; at++)
        if (takes(call, at))
            compare_buffer(at);
    static int shown;
    if (*difference && shown++ < SHOWN)
        printf("call %lu, %s: %s\n", number, known[call].name, difference);
    return !*difference;
}

static bool is_big_endian(void)
{
    const uint16_t one = 1;
    return !*(const uint8_t *)&one;
}

int main(int count, char **words)
{
    bool stack = count == 3 && !strcmp(words[1], "--stack");
    if (count != 2 + stack)
        give_up("usage: replay [--stack] FILE");
    open_record(words[1 + stack]);
    unsigned long calls = (unsigned long)read_size(SIZE_MAX), differ = 0;
    for (unsigned long number = 0; number < calls; number++)
        differ += !agrees(number);
    if (has_more())
        give_up("the record goes on behind its last call");
    if (stack)
        print_stack();
    printf("%lu calls agree, %lu differ (%d-bit, %s-endian)\n", calls - differ, differ, (int)(8 * sizeof(void *)),
           is_big_endian() ? "big" : "little");
    return differ != 0;
}
