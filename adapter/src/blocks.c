// Memory of the team in this process: the functions that the Rattle libraries allocate by, which the kit has over malloc
// alone. A team that begins gives back the blocks of the one before it and asks for most of these sizes again, which takes
// malloc and free a third of a region's instructions. So they are kept in between, by their sizes, as long as one call lasts
// that begins a team (blocks_keep), and what is left waits for the next such call. All else is malloc's.
//
// An engine is called by one thread at a time, which holds its team's lock: so are its blocks.
#include "blocks.h"

#include <stdbool.h>
#include <stdint.h>
#include <stdlib.h>

// What stands before a block: how many bytes it has, or which block is kept behind it.
struct block {
    _Alignas(BLOCK_GRAIN) union {
        size_t size;
        struct block *next;
    };
};

// What rattle_alloc and rattle_realloc answer.
struct tried {
    bool is_made;
    void *bytes;
};

// Those of the call that the thread is in, NULL if it keeps none.
static __thread struct blocks *kept;

static uint8_t nothing; // what stands where no block is made

// Has blocks that this thread gives back kept there, and asks for blocks there first; NULL for no more.
void blocks_keep(struct blocks *blocks) { kept = blocks; }

static struct tried made(struct block *block, size_t size)
{
    if (block == NULL)
        return (struct tried){.bytes = &nothing};
    block->size = size;
    return (struct tried){.is_made = true, .bytes = block + 1};
}

// So many bytes, or `align` ones, which divides the grain, for none: as a multiple of the grain.
static size_t size_of(size_t wanted, size_t align)
{
    return ((wanted > 0 ? wanted : align) + BLOCK_GRAIN - 1) / BLOCK_GRAIN * BLOCK_GRAIN;
}

// Takes one that is kept of this size. NULL if there is none.
static struct block *take_kept(size_t size)
{
    if (kept == NULL || size > MOST_KEPT)
        return NULL;
    struct block **place = &kept->of_size[size / BLOCK_GRAIN], *block = *place;
    if (block != NULL) {
        *place = block->next;
        kept->bytes -= size;
    }
    return block;
}

struct tried rattle_alloc(size_t wanted, size_t align)
{
    size_t size = size_of(wanted, align);
    struct block *block = take_kept(size);
    return made(block != NULL ? block : malloc(sizeof *block + size), size);
}

// A block of so many bytes in the place of another one, with what this holds.
struct tried rattle_realloc(void *bytes, size_t used, size_t wanted, size_t align)
{
    size_t size = size_of(wanted, align);
    (void)used;
    return made(realloc((struct block *)bytes - 1, sizeof(struct block) + size), size);
}

void rattle_dealloc(void *bytes)
{
    struct block *block = (struct block *)bytes - 1;
    if (kept == NULL || block->size > MOST_KEPT || kept->bytes > MOST_KEPT_IN_ALL) {
        free(block);
        return;
    }
    struct block **place = &kept->of_size[block->size / BLOCK_GRAIN];
    kept->bytes += block->size;
    block->next = *place;
    *place = block;
}
