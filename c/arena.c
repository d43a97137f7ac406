/* The three allocation functions of the library, over a buffer that the caller hands in. Nothing here calls another function, except
   memmove. Blocks follow one another. A free block can be used again when all blocks behind it are free. */
#include "arena.h"

#include <stdbool.h>
#include <stdint.h>
#include <string.h>

/* Whether there is a block, and where. */
typedef struct {
    bool ok;
    void *at;
} rattle_block;

/* The head of a block, at a multiple of 16: where the block before it has its head, and whether the block is free. */
typedef struct {
    size_t before;
    size_t is_free;
} head;

#define NONE SIZE_MAX

static uint8_t *arena;  /* the first octet at a multiple of 16 */
static size_t room;     /* octets from there on */
static size_t used;
static size_t most;
static size_t last = NONE; /* where the last block has its head */

void strip122_arena(void *memory, size_t octets) {
    size_t skip = (16 - (uintptr_t)memory % 16) % 16;
    arena = (uint8_t *)memory + skip;
    room = octets > skip ? octets - skip : 0;
    used = 0;
    most = 0;
    last = NONE;
}

size_t strip122_arena_most(void) {
    return most;
}

static rattle_block no_block(void) {
    static uint8_t nothing;
    rattle_block block = {false, &nothing};
    return block;
}

/* Sets the size of the last block, if there is room for it. */
static bool set_size(size_t size) {
    size_t start = last + sizeof(head);
    if (size > SIZE_MAX - 15 || (size + 15) / 16 * 16 > room - start) {
        return false;
    }
    used = start + (size + 15) / 16 * 16;
    most = used > most ? used : most;
    return true;
}

rattle_block rattle_alloc(size_t size, size_t align) {
    (void)align; /* each block begins at a multiple of 16 */
    if (room - used < sizeof(head)) {
        return no_block();
    }
    head *here = (head *)(void *)(arena + used);
    size_t before = last;
    last = used;
    if (!set_size(size)) {
        last = before;
        return no_block();
    }
    here->before = before;
    here->is_free = 0;
    rattle_block block = {true, here + 1};
    return block;
}

void rattle_dealloc(void *at) {
    head *here = (head *)at - 1;
    here->is_free = 1;
    while (last != NONE) {
        here = (head *)(void *)(arena + last);
        if (!here->is_free) {
            return;
        }
        used = last;
        last = here->before;
    }
}

rattle_block rattle_realloc(void *old, size_t kept, size_t size, size_t align) {
    head *here = (head *)old - 1;
    if ((uint8_t *)here == arena + last && set_size(size)) {
        rattle_block block = {true, old};
        return block;
    }
    rattle_block block = rattle_alloc(size, align);
    if (block.ok) {
        memmove(block.at, old, kept);
        rattle_dealloc(old);
    }
    return block;
}
