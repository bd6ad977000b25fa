/*
 * An append to a log that does what the library's does, and then one thing more that is wrong, WRONG. The replayer is
 * linked with it in front of the library (ld --wrap), and must say what differs.
 */
#include "blockheap.h"

extern __typeof__(blockheap_log_append) __real_blockheap_log_append, __wrap_blockheap_log_append;

uint32_t __wrap_blockheap_log_append(uint64_t base, uint64_t t, uint8_t *pool, size_t pool_len,
                                     uint8_t *table, size_t table_len, uint64_t first, uint32_t time, uint32_t tips,
                                     const uint8_t *roots, size_t roots_len, uint8_t *stack, size_t stack_len,
                                     uint32_t *new_first, int32_t *change)
{
    uint32_t refusal = __real_blockheap_log_append(base, t, pool, pool_len, table, table_len, first, time, tips, roots,
                                                   roots_len, stack, stack_len, new_first, change);
    (WRONG) ^= 1;
    return refusal;
}
