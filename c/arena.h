/* Memory of the library from a buffer that the caller hands in (docs/c.md, "Fixed memory"). */
#ifndef STRIP122_ARENA_H
#define STRIP122_ARENA_H

#include "strip122.h"

#ifdef __cplusplus
extern "C" {
#endif

/* Hands in the buffer from which later calls of the library, in one thread, take their memory. No call may be running, and no encoder may
   be open. Each call for a whole image or for packets gives all of it back before it returns, and strip122_encoder_free what its encoder
   has, so one buffer serves call after call. */
void strip122_arena(void *memory, size_t octets);

/* The most octets that were in use at once since it was handed in. */
size_t strip122_arena_most(void);

/* For the heads of the blocks, and for all that is small. */
#define STRIP122_ARENA_MORE 8192u

/* For what is read ahead, 131,084 octets, the tables of the words in a text, 52,448 octets, and that of missing block rows, 4,096 octets. */
#define STRIP122_ARENA_READER 187628u

/* The blocks of a segment, in an image of this size. */
static inline uint64_t strip122_segment_blocks(uint32_t width, uint32_t rows, uint32_t segment) {
    uint64_t blocks = (((uint64_t)width + 7) / 8) * (((uint64_t)rows + 7) / 8);
    return segment < blocks ? segment : blocks;
}

/* Octets that are enough for an encoder of a setting that is in range. If `rows` is 0, they are those of an image of 262,144 rows. */
static inline uint64_t strip122_memory(const strip122_setting *s) {
    uint64_t columns = ((uint64_t)s->width + 7) / 8 * 8;
    uint64_t blocks = strip122_segment_blocks(s->width, s->rows != 0 ? s->rows : 262144, s->segment);
    return 4 * (65 * columns + 65 * blocks) + s->packet + strip122_end_room(s) + STRIP122_ARENA_MORE;
}

/* Octets that are enough for strip122_encode, if the setting is in range and the room has `size` octets. */
static inline uint64_t strip122_encode_memory(const strip122_setting *s, uint64_t size) {
    uint64_t columns = ((uint64_t)s->width + 7) / 8 * 8;
    uint64_t blocks = strip122_segment_blocks(s->width, s->rows, s->segment);
    return size + 4 * (64 * columns + 65 * blocks) + s->packet + STRIP122_ARENA_MORE;
}

/* Octets that are enough for strip122_decode, if the packets are those of an image of this size, with `segment` blocks in a segment, and
   its picture has `octets` octets. If the height is reported last, `rows` is 262,144 here. */
static inline uint64_t strip122_decode_memory(uint32_t width, uint32_t rows, uint32_t segment, uint64_t octets) {
    uint64_t columns = ((uint64_t)width + 7) / 8 * 8;
    uint64_t blocks = strip122_segment_blocks(width, rows, segment);
    return octets + 640 * columns + 260 * blocks + STRIP122_ARENA_READER + STRIP122_ARENA_MORE;
}

/* The same for strip122_look, whose look has `octets` octets. */
static inline uint64_t strip122_look_memory(uint32_t width, uint32_t rows, uint32_t segment, uint64_t octets) {
    uint64_t columns = ((uint64_t)width + 7) / 8 * 8;
    return octets + columns + 260 * strip122_segment_blocks(width, rows, segment) + STRIP122_ARENA_READER + STRIP122_ARENA_MORE;
}

/* The same for strip122_rects, whose lines have `octets` octets. */
static inline uint64_t strip122_rects_memory(uint32_t width, uint32_t rows, uint32_t segment, uint64_t octets) {
    return 12 * octets + 260 * strip122_segment_blocks(width, rows, segment) + STRIP122_ARENA_READER + STRIP122_ARENA_MORE;
}

/* Octets that are enough for strip122_info, whose lines have `octets` octets. */
static inline uint64_t strip122_info_memory(uint64_t octets) {
    return 3 * octets + 4096 * 88 + 131084 + STRIP122_ARENA_MORE;
}

#ifdef __cplusplus
}
#endif
#endif
