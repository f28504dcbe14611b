// Memory of the team in this process: see blocks.c.
#ifndef DILLBEAM_BLOCKS_H
#define DILLBEAM_BLOCKS_H

#include <stddef.h>

// Of what sizes blocks are kept, the largest in bytes: most of a new team's are smaller. And so many bytes in all, of one engine: a
// team of 64 has half of them.
enum {
    BLOCK_GRAIN = 16,
    KEPT_SIZES = 1024,
    MOST_KEPT = BLOCK_GRAIN * (KEPT_SIZES - 1),
    MOST_KEPT_IN_ALL = 1 << 20
};

// Blocks that an engine's teams have given back, by their sizes.
struct blocks {
    struct block *of_size[KEPT_SIZES];
    size_t bytes; // in all
};

void blocks_keep(struct blocks *blocks);

#endif
