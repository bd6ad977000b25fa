/* What the example programs do with a refusal. */
#ifndef REFUSALS_H
#define REFUSALS_H

#include <stdio.h>
#include <stdlib.h>

#include "bh.h"

static inline void say_refused(const char *what, uint32_t refusal)
{
    printf("%s: refusal %u, %s: %s\n", what, (unsigned)refusal, bh_refusal_name(refusal),
           bh_refusal_text(refusal));
}

/* For calls that are never refused here: a refusal is a fault in the program. */
static inline void must(uint32_t refusal)
{
    if (refusal != BLOCKHEAP_OK) {
        say_refused("a fault in this program", refusal);
        exit(1);
    }
}

#endif
