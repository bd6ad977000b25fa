#include <stdio.h>

#include "bh.h"

/* A static pool of 1,024 bytes with its table: 64 blocks. Block 0 has the address 0x20000000. */
BH_DEFINE(heap, 0x20000000, 1024);

int main(void)
{
    uint8_t roots[BLOCKHEAP_LIST_BYTES(1)];
    uint32_t gauge, readings, kept, refusal = bh_init(&heap);
    if (!refusal)
        refusal = bh_allocate(&heap, 32, &gauge, NULL);
    if (!refusal)
        refusal = bh_allocate(&heap, 40, &readings, NULL);
    if (!refusal)
        refusal = bh_allocate(&heap, 100, NULL, NULL); /* garbage: nothing leads to it */
    if (!refusal)
        refusal = bh_store(&heap, gauge, 0, bh_address(&heap, readings)); /* word 0 of the gauge leads there */
    if (!refusal) {
        bh_put_word(roots, 0, bh_address(&heap, gauge));
        refusal = bh_collect(&heap, roots, sizeof roots, NULL, 0, &kept, NULL, NULL);
    }
    if (refusal)
        printf("%s: %s\n", bh_refusal_name(refusal), bh_refusal_text(refusal));
    else
        printf("%u objects kept\n", (unsigned)kept);
    return (int)refusal;
}
