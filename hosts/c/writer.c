#include <stdint.h>
#include <stdio.h>

/* So many bytes of a number, the lowest first. */
static void put(FILE *file, uint32_t number, int bytes)
{
    for (; bytes > 0; bytes--, number >>= 8)
        putc(number & 255, file);
}

/* entries has a number for each of 4 * t blocks: 0 FREE, 1 HEAD, 2 TAIL. pool has 16 bytes for each. */
static void write_image(FILE *file, uint32_t base, unsigned t, const unsigned char *entries,
                        const unsigned char *pool, unsigned count, const uint32_t *roots)
{
    unsigned k, used = 0;
    for (k = 0; k < 4 * t; k++)
        used += entries[k] != 0;

    put(file, 1, 2);
    put(file, base, 4);

    put(file, t, 2);
    for (k = 0; k < 4 * t; k += 4)
        put(file, entries[k] + entries[k + 1] * 4u + entries[k + 2] * 16u + entries[k + 3] * 64u, 1);

    put(file, used, 2);
    for (k = 0; k < 4 * t; k++)
        if (entries[k] != 0)
            fwrite(pool + 16 * k, 1, 16, file);

    put(file, count, 2);
    for (k = 0; k < count; k++)
        put(file, roots[k], 4);
}

int main(void)
{
    static const unsigned char entries[4] = {1, 0, 0, 0}, pool[64];
    static const uint32_t roots[1] = {4096};
    FILE *file = fopen("heap.image", "wb");
    int failed;
    if (!file)
        return 1;
    write_image(file, 4096, 1, entries, pool, 1, roots);
    failed = ferror(file);
    return fclose(file) || failed;
}
