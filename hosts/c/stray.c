/*
 * An init, an opening of an image, or an append to a log, that reads one byte outside of what it is lent, STRAY, and
 * then does what the library's does. The examples are linked with it in front of the library (ld --wrap) and must end
 * by a fault.
 */
#include "blockheap.h"

#ifdef IN_init
extern __typeof__(blockheap_init) __real_blockheap_init, __wrap_blockheap_init;

uint32_t __wrap_blockheap_init(uint64_t base, uint64_t t, const uint8_t *pool, size_t pool_len,
                               uint8_t *table, size_t table_len)
{
    (void)*(const volatile uint8_t *)&STRAY;
    return __real_blockheap_init(base, t, pool, pool_len, table, table_len);
}
#endif

#ifdef IN_open_image
extern __typeof__(blockheap_open_image) __real_blockheap_open_image, __wrap_blockheap_open_image;

uint32_t __wrap_blockheap_open_image(const uint8_t *image, size_t image_len, uint64_t t, uint8_t *pool, size_t pool_len,
                                     uint8_t *table, size_t table_len, uint8_t *roots, size_t roots_len,
                                     uint32_t *base, uint32_t *count)
{
    (void)*(const volatile uint8_t *)&STRAY;
    return __real_blockheap_open_image(image, image_len, t, pool, pool_len, table, table_len, roots, roots_len, base,
                                       count);
}
#endif

#ifdef IN_log_append
extern __typeof__(blockheap_log_append) __real_blockheap_log_append, __wrap_blockheap_log_append;

uint32_t __wrap_blockheap_log_append(uint64_t base, uint64_t t, uint8_t *pool, size_t pool_len,
                                     uint8_t *table, size_t table_len, uint64_t first, uint32_t time, uint32_t tips,
                                     const uint8_t *roots, size_t roots_len, uint8_t *stack, size_t stack_len,
                                     uint32_t *new_first, int32_t *change)
{
    (void)*(const volatile uint8_t *)&STRAY;
    return __real_blockheap_log_append(base, t, pool, pool_len, table, table_len, first, time, tips, roots, roots_len,
                                       stack, stack_len, new_first, change);
}
#endif
