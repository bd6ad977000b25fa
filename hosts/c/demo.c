/*
 * A small rain logger on the block heap.
 *
 * While it rains, the logger appends one entry a minute to its rain log: the time and how often the gauge has tipped. A
 * script runs every minute and leaves garbage behind. When there is no room, the append collects by itself. A member
 * reads the log, and what was read is dropped. At the end the logger gives its heap away as an image, and writes it to
 * the file that its argument names, if any. Another host opens the image and reads on.
 */
#include <stdbool.h>
#include <stdio.h>
#include <string.h>

#include "bh.h"
#include "refusals.h" /* must, say_refused */

/* Where the board's memory begins; on a PC this need not be the pool's own address. */
enum { BASE = 0x20000000, POOL_BYTES = 2048 };

BH_DEFINE(heap, BASE, POOL_BYTES);

/* What is in use: the station's record, the rain log, and what a script holds just now, an address or 0. */
static uint32_t station;
static struct bh_log rain_log;
static uint32_t held;
enum { STATION_BYTES = 16, STATION_NUMBER = 0, STATION_TIPS = 1 };

/* The log has an entry for each minute from the first of these on and before the second. */
static uint32_t oldest = 1, now = 1;

/* The heap as a member has it: an image, for two roots. */
static uint8_t image[BLOCKHEAP_FULL_IMAGE_BYTES(BLOCKHEAP_T_OF_POOL(POOL_BYTES), 2)];
static uint32_t image_length;

/* Letters for the heads of a log's entries, A for the oldest; Z is followed by A. The others are 0. */
static void letter_entries(const struct blockheap *of, const struct bh_log *log, char *letters)
{
    uint32_t address = log->first;
    memset(letters, 0, bh_blocks(of));
    for (int number = 0; address != 0; number++) {
        uint32_t block = bh_block(of, address);
        letters[block] = (char)('A' + number % 26);
        must(bh_load(of, block, 0, &address));
    }
}

static void draw_blocks(const struct blockheap *of, const struct bh_log *log)
{
    static const char letters[] = {
        [BLOCKHEAP_FREE] = '.', [BLOCKHEAP_HEAD] = 'h', [BLOCKHEAP_TAIL] = '=', [BLOCKHEAP_MARK] = 'm'};
    static char entries[BLOCKHEAP_MAX_BLOCKS];
    enum { LINE = 64 };
    letter_entries(of, log, entries);
    for (uint32_t block = 0; block < bh_blocks(of); block++) {
        if (block % LINE == 0)
            printf("  0x%08x: ", (unsigned)bh_address(of, block));
        putchar(entries[block] ? entries[block] : letters[bh_entry(of, block)]);
        if (block % LINE == LINE - 1)
            putchar('\n');
    }
}

static void show(const struct blockheap *of, const struct bh_log *log)
{
    uint32_t used, objects, longest;
    must(bh_survey(of, &used, &objects, &longest));
    printf("  used %u of %u blocks, objects %u, longest free run %u\n", (unsigned)used,
           (unsigned)bh_blocks(of), (unsigned)objects, (unsigned)longest);
    draw_blocks(of, log);
    putchar('\n');
}

static void show_heap(void)
{
    show(&heap, &rain_log);
}

/* Collects from all that is in use. A collection needs the log's first address as a root. */
static void collect(void)
{
    uint8_t roots[BLOCKHEAP_LIST_BYTES(3)], stack[BLOCKHEAP_LIST_BYTES(4)];
    uint32_t kept;
    int32_t change;
    bh_put_word(roots, 0, bh_address(&heap, station));
    bh_put_word(roots, 1, rain_log.first);
    bh_put_word(roots, 2, held);
    must(bh_collect(&heap, roots, sizeof roots, stack, sizeof stack, &kept, NULL, &change));
    printf("  collect: kept %u objects, freed %d blocks\n", (unsigned)kept, -(int)change);
    show_heap();
}

/* How often the gauge tips in a minute: 0.2 mm of rain each time. */
static uint32_t tips_in(uint32_t minute)
{
    return 1 + 5 * minute % 7;
}

/* Appends the entry of this minute. For its own collection append has the log, and wants the other roots. */
static uint32_t append(int32_t *change)
{
    uint8_t roots[BLOCKHEAP_LIST_BYTES(2)], stack[BLOCKHEAP_LIST_BYTES(4)];
    bh_put_word(roots, 0, bh_address(&heap, station));
    bh_put_word(roots, 1, held);
    return bh_log_append(&heap, &rain_log, 60 * now, tips_in(now), roots, sizeof roots, stack, sizeof stack, change);
}

/* A minute of rain is over. */
static void note_minute(void)
{
    uint32_t tips;
    int32_t change;
    must(append(&change));
    must(bh_load(&heap, station, STATION_TIPS, &tips));
    must(bh_store(&heap, station, STATION_TIPS, tips + tips_in(now)));
    now++;
    if (change != 2) {
        printf("  append finds no room, collects, and has it: used blocks change by %d\n", (int)change);
        show_heap();
    }
}

/* A script makes a list that leads to a text, which grows, and forgets them. A refusal ends it. */
static uint32_t run_script(uint32_t number)
{
    uint32_t text, list;
    uint32_t refusal = bh_allocate(&heap, 10, &text, NULL);
    if (!refusal)
        refusal = bh_allocate(&heap, 16, &list, NULL);
    if (!refusal)
        refusal = bh_reallocate(&heap, text, 10 + 30 * (number % 4), &text, NULL);
    if (!refusal)
        refusal = bh_store(&heap, list, 0, bh_address(&heap, text));
    return refusal;
}

static void rain(uint32_t minutes)
{
    for (uint32_t end = now + minutes; now < end;) {
        uint32_t refusal = run_script(now);
        if (refusal) {
            say_refused("  a script asks for room", refusal);
            show_heap();
        }
        note_minute();
    }
}

static void start_logger(void)
{
    must(bh_init(&heap));
    must(bh_allocate(&heap, STATION_BYTES, &station, NULL));
    must(bh_store(&heap, station, STATION_NUMBER, 41));
}

/* Whether a log has exactly the entries that it should have. Answers their tips too. */
static bool log_is_right(const struct blockheap *of, const struct bh_log *log, uint32_t *sum)
{
    struct bh_log_cursor at = {0, 0};
    uint32_t time, tips, minute = oldest;
    bool right = true;
    *sum = 0;
    for (; bh_log_next(of, log, &at, &time, &tips) == BLOCKHEAP_OK; minute++) {
        right = right && time == 60 * minute && tips == tips_in(minute);
        *sum += tips;
    }
    return right && minute == now;
}

static void say_log(const struct blockheap *of, const struct bh_log *log)
{
    uint32_t sum;
    bool right = log_is_right(of, log, &sum);
    printf("  the log has %u entries, %u tips%s\n", (unsigned)(now - oldest), (unsigned)sum,
           right ? "" : ": IT IS WRONG");
}

static void make_mistakes(void)
{
    uint32_t middle = bh_block(&heap, rain_log.first) + 1;
    struct bh_log wrong = {bh_address(&heap, middle)};
    say_refused("  a script frees the middle of an entry", bh_free(&heap, middle, NULL));
    say_refused("  a script takes its address for a log", bh_log_drop(&heap, &wrong, NULL));
    say_refused("  a script reads behind the last entry", bh_log_read(&heap, &rain_log, now - oldest, NULL, NULL));
    show_heap();
}

/* Drops the oldest entries, all but so many. Answers their tips. */
static uint32_t drop_all_but(uint32_t left)
{
    uint32_t tips, sum = 0;
    int32_t change, changes = 0;
    for (; now - oldest > left; oldest++) {
        must(bh_log_read(&heap, &rain_log, 0, NULL, &tips));
        must(bh_log_drop(&heap, &rain_log, &change));
        sum += tips;
        changes += change;
    }
    printf("  all but %u are dropped: used blocks change by %d\n", (unsigned)left, (int)changes);
    show_heap();
    return sum;
}

/* A script's list of all that it gets: each object leads to what it held before. Single blocks it takes and forgets. */
static void take_all(void)
{
    uint32_t block;
    while (bh_allocate(&heap, 32, &block, NULL) == BLOCKHEAP_OK) {
        must(bh_store(&heap, block, 0, held));
        held = bh_address(&heap, block);
    }
    while (bh_allocate(&heap, 16, &block, NULL) == BLOCKHEAP_OK)
        ;
    show_heap();
}

/* Where all is in use an append is refused, and then accepted when it no longer is. */
static void append_to_full_heap(void)
{
    int32_t change;
    say_refused("  append", append(&change));
    printf("  it has collected, and that stands: used blocks change by %d\n", (int)change);
    say_log(&heap, &rain_log);
    show_heap();
    puts("  the script ends, and nothing leads to what it held");
    held = 0;
    note_minute();
}

/* Shows a section of an image, and answers where the next one begins. */
static const uint8_t *show_section(const char *name, size_t item_bytes, const uint8_t *section)
{
    enum { SHOWN = 16 };
    const uint8_t *items = section + 2;
    unsigned count = section[0] | (unsigned)section[1] << 8;
    size_t bytes = item_bytes * count;
    printf("  %-8s %5u ", name, count);
    for (size_t at = 0; at < bytes && at < SHOWN; at++)
        printf(" %02x", items[at]);
    puts(bytes > SHOWN ? " ..." : "");
    return items + bytes;
}

static void show_image(void)
{
    printf("  an image of %u bytes\n  section  count  first bytes\n", (unsigned)image_length);
    const uint8_t *section = show_section("base", BLOCKHEAP_WORD_BYTES, image);
    section = show_section("table", 1, section);
    section = show_section("blocks", BLOCKHEAP_BLOCK_BYTES, section);
    show_section("roots", BLOCKHEAP_WORD_BYTES, section);
}

static bool save(const char *path, const uint8_t *bytes, size_t count)
{
    FILE *file = fopen(path, "wb");
    bool written = file && fwrite(bytes, 1, count, file) == count;
    bool saved = file && fclose(file) == 0 && written;
    printf(saved ? "  it is in %s\n" : "  it could not be written to %s\n", path);
    return saved;
}

/* Writes the image, with the station's record and the log as its roots, and saves it if there is a path. */
static bool download(const char *path)
{
    uint8_t roots[BLOCKHEAP_LIST_BYTES(2)];
    bh_put_word(roots, 0, bh_address(&heap, station));
    bh_put_word(roots, 1, rain_log.first);
    must(bh_write_image(&heap, roots, sizeof roots, image, sizeof image, &image_length));
    show_image();
    bool saved = !path || save(path, image, image_length);
    putchar('\n');
    return saved;
}

/* What another host has: memory and roots for an image of any size. */
static BH_ALIGNED uint8_t area[BLOCKHEAP_HEAP_BYTES(BLOCKHEAP_MAX_T)];
static uint8_t opened_roots[BLOCKHEAP_LIST_BYTES(BLOCKHEAP_MAX_ROOTS)];

/* Reads the station's record, to which the first root leads, and the log, whose first address is the second. */
static void read_opened(const struct blockheap *opened, const struct bh_log *log)
{
    struct bh_log_cursor at = {0, 0};
    uint32_t record = bh_block(opened, bh_get_word(opened_roots, 0)), number, time, tips;
    must(bh_load(opened, record, STATION_NUMBER, &number));
    printf("  station %u, times and tips:", (unsigned)number);
    while (bh_log_next(opened, log, &at, &time, &tips) == BLOCKHEAP_OK)
        printf(" %u %u%s", (unsigned)time, (unsigned)tips, at.count < now - oldest ? "," : "");
    putchar('\n');
}

/* Whether the opened heap gives the same file again. */
static bool writes_same_image(const struct blockheap *opened, uint32_t roots)
{
    static uint8_t again[sizeof image];
    uint32_t length;
    must(bh_write_image(opened, opened_roots, BLOCKHEAP_LIST_BYTES(roots), again, sizeof again, &length));
    return length == image_length && memcmp(again, image, length) == 0;
}

/* Opens the image where nothing of the logger's memory is. */
static bool open_elsewhere(void)
{
    struct blockheap opened = bh_split(0, area, BLOCKHEAP_HEAP_BYTES(bh_image_t(image, image_length)));
    struct bh_log log;
    uint32_t roots;
    say_refused("  the download broke off",
                bh_open_image(&opened, image, image_length / 2, opened_roots, sizeof opened_roots, NULL));
    must(bh_open_image(&opened, image, image_length, opened_roots, sizeof opened_roots, &roots));
    log.first = bh_get_word(opened_roots, 1);
    printf("  opened at 0x%08x, with %u roots\n", (unsigned)opened.base, (unsigned)roots);
    show(&opened, &log);
    read_opened(&opened, &log);
    bool same = writes_same_image(&opened, roots);
    printf("  written again it is %s\n\n", same ? "the same file" : "ANOTHER FILE");
    return same;
}

int main(int argc, char **argv)
{
    uint32_t buffer, all, left;

    printf("A rain logger on a pool of %d bytes: %u blocks from address 0x%08x.\n", POOL_BYTES,
           (unsigned)bh_blocks(&heap), (unsigned)BASE);
    puts("h is the head of an object, = its tail, . a free block. The heads of the rain log's entries are");
    puts("A, B, C and so on, from the oldest to the newest.\n");

    puts("1. The logger starts: the station's record, and an empty log.");
    start_logger();
    show_heap();

    puts("2. It rains for 6 minutes: an entry for each. The scripts leave garbage.");
    rain(6);
    show_heap();

    puts("3. A pause: collect from the station's record and from the log's first address.");
    collect();

    puts("4. The storm: the heap fills up, a script is refused, and the log makes room for itself.");
    rain(20);

    puts("5. The storm went on with that room.");
    say_log(&heap, &rain_log);
    show_heap();

    puts("6. Mistakes of scripts are refused, and nothing has changed.");
    make_mistakes();

    puts("7. A member has read the log, and old entries are dropped.");
    uint32_t dropped = drop_all_but(5);

    puts("8. A script takes a buffer of five blocks: four or more begin at a multiple of four.");
    must(bh_allocate(&heap, 5 * BLOCKHEAP_BLOCK_BYTES, &buffer, NULL));
    show_heap();

    puts("9. It holds the address of the buffer's third block and no other: all of the buffer is kept.");
    held = bh_address(&heap, buffer + 2);
    collect();

    puts("10. It takes all there is and holds it. The log has no room to grow, and is whole.");
    take_all();
    append_to_full_heap();

    puts("11. A member downloads the heap as a file, with the station's record and the log as its roots.");
    bool downloaded = download(argc > 1 ? argv[1] : NULL);

    puts("12. Another host opens the file, in memory of its own, and reads the log.");
    bool opened = open_elsewhere();

    bool right = log_is_right(&heap, &rain_log, &left);
    must(bh_load(&heap, station, STATION_TIPS, &all));
    right = right && dropped + left == all;
    printf("%u tips, %u.%u mm of rain: %s\n", (unsigned)all, (unsigned)(all / 5), (unsigned)(all % 5 * 2),
           right ? "every tip was read or is in the log." : "THE LOG IS WRONG.");
    return !right || !downloaded || !opened;
}
