/*
 * Miravoly: a memory arena in which every entry is proved against its contract.
 *
 * The host lends a region of bytes. The arena takes chunks in it and gives out
 * blocks, from a chunk's end downward. A block is three numbers: its offset in
 * the region, its size and its alignment. The host keeps these numbers and
 * names the block by them.
 *
 *     static uint8_t region[65536];
 *     miravoly_arena arena;
 *
 *     miravoly_create(&arena, sizeof region, 1, 0);
 *     miravoly_said hits = miravoly_allocate(&arena, region, sizeof region, 10, 1);
 *     if (hits.refusal != MIRAVOLY_SERVED)
 *         return hits.refusal;
 *     memcpy(region + hits.offset, "ACGTACGTAC", 10);
 *
 *     miravoly_said more =
 *         miravoly_grow(&arena, region, sizeof region, hits.offset, 10, 1, 20, 1);
 *     if (more.refusal != MIRAVOLY_SERVED)
 *         return more.refusal; // the old block is still there
 *     // The first 10 bytes at more.offset are ACGTACGTAC; hits.offset is void.
 *
 *     miravoly_reset(&arena); // between two reads: every block ends
 *
 * OWNERSHIP. The host owns the region and the record and lends both to each
 * call; nothing is kept between calls, nothing is allocated, and there is no
 * global state. Two arenas in two regions can be used by two threads; the calls
 * on one arena are made one after the other. The record can be copied, stored
 * and moved like any struct.
 *
 * WHAT THE HOST MUST SEE TO. Pointers are not NULL, also where a length is 0. A
 * region pointer has at least the length that is passed with it. Record, region
 * and source share no byte. All other mistakes are answered by a refusal: any
 * numbers at all may stand in the record and in a call.
 *
 * REFUSED means that record and region are as they were, byte for byte; only a
 * refused creation stores a record, that of an empty arena. If several refusals
 * apply, the lowest number is answered.
 *
 * A block that was freed, moved or ended by a reset must not be named again. If
 * its numbers happen to suit the arena the call is served, and may hit another
 * block: the arena cannot tell. bindings/rust has blocks that can.
 *
 * ALIGNMENT is that of the offset. A host that needs aligned addresses lends a
 * region that begins at a multiple of 4,096.
 *
 * SPEED. miravoly_fast.h has the calls that are made most with the record lent
 * in parts, and without a test of it where the host keeps it to itself.
 */
#ifndef MIRAVOLY_H
#define MIRAVOLY_H

#include <stdint.h>

#ifdef __cplusplus
extern "C" {
#endif

#define MIRAVOLY_LARGEST_REGION 1073741824u
#define MIRAVOLY_LARGEST_SIZE 1073741824u
#define MIRAVOLY_LARGEST_ALIGN 4096u /* alignments are powers of two from 1 */
#define MIRAVOLY_LARGEST_MINIMUM 16u /* minimum alignments too */
#define MIRAVOLY_MOST_CHUNKS 32u

enum miravoly_refusal {
    MIRAVOLY_SERVED = 0,    /* not refused */
    MIRAVOLY_STATE = 1,     /* the record is unsound */
    MIRAVOLY_REGION = 2,    /* the length lent is not the record's; at creation, too long */
    MIRAVOLY_SIZE = 3,      /* a size, capacity or source length is over the maximum */
    MIRAVOLY_ALIGN = 4,     /* an alignment, or at creation the minimum, is not allowed */
    MIRAVOLY_BLOCK = 5,     /* the block named can't be a live one of the arena */
    MIRAVOLY_DIRECTION = 6, /* grow to a smaller size, or shrink to a larger */
    MIRAVOLY_TOKEN = 7,     /* the token can't be that of a live block */
    MIRAVOLY_ROOM = 8       /* neither the current chunk nor a new one has room */
};

/*
 * The record, 808 bytes. A host may read it and should not write in it. The
 * numbers of chunk i are starts[i], sizes[i] and pointers[i], for i below count,
 * in the order taken; the last is current. Its bytes from pointer to start +
 * size are given out. The held bytes are the sum of the sizes.
 */
typedef struct miravoly_arena {
    uint64_t region;  /* the region's length */
    uint64_t minimum; /* the minimum alignment */
    uint64_t limited; /* 1 where there is a limit, else 0 */
    uint64_t limit;
    uint64_t count;
    uint64_t starts[MIRAVOLY_MOST_CHUNKS];
    uint64_t sizes[MIRAVOLY_MOST_CHUNKS];
    uint64_t pointers[MIRAVOLY_MOST_CHUNKS];
} miravoly_arena;

/* offset is that of the block, and 0 where there is none. */
typedef struct miravoly_said {
    uint64_t refusal;
    uint64_t offset;
} miravoly_said;

/* With the block's token, whose two numbers are 0 where it is refused. */
typedef struct miravoly_said_token {
    uint64_t refusal;
    uint64_t offset;
    uint64_t count;
    uint64_t pointer;
} miravoly_said_token;

/* length bytes of the region from offset on; 0 and 0 where it is refused. */
typedef struct miravoly_said_part {
    uint64_t refusal;
    uint64_t offset;
    uint64_t length;
} miravoly_said_part;

/* left counts the parts from this one on, and is 0 after the last. */
typedef struct miravoly_said_step {
    uint64_t refusal;
    uint64_t left;
    uint64_t offset;
    uint64_t length;
} miravoly_said_step;

/*
 * Stores a new record for a region of region_length bytes, whatever stood in
 * *arena. minimum is 1, 2, 4, 8 or 16. A first chunk is taken for capacity
 * bytes; capacity 0 takes none. Refused: REGION, SIZE, ALIGN, ROOM.
 */
miravoly_said miravoly_create(miravoly_arena *arena, uint64_t region_length, uint64_t minimum,
                              uint64_t capacity);

/*
 * Bounds the bytes that chunks may hold. A limit below the bytes held already
 * counts as none. Refused: STATE.
 */
miravoly_said miravoly_set_limit(miravoly_arena *arena, uint64_t limit);
miravoly_said miravoly_no_limit(miravoly_arena *arena);

/* Ends every block. The current chunk and the limit are kept. Refused: STATE. */
miravoly_said miravoly_reset(miravoly_arena *arena);

/*
 * A block of size bytes. Its bytes are those that stood there.
 * Refused: STATE, REGION, SIZE, ALIGN, ROOM.
 */
miravoly_said miravoly_allocate(miravoly_arena *arena, const uint8_t *region,
                                uint64_t region_length, uint64_t size, uint64_t align);

/* A block with a copy of the source, or of size bytes of one value. Refused: as allocate. */
miravoly_said miravoly_copy_in(miravoly_arena *arena, uint8_t *region, uint64_t region_length,
                               const uint8_t *source, uint64_t source_length, uint64_t align);
miravoly_said miravoly_fill(miravoly_arena *arena, uint8_t *region, uint64_t region_length,
                            uint64_t size, uint64_t align, uint8_t value);

/*
 * Ends a block. Only the newest block's room is given back.
 * Refused: STATE, SIZE, ALIGN, BLOCK.
 */
miravoly_said miravoly_free(miravoly_arena *arena, uint64_t offset, uint64_t size, uint64_t align);

/*
 * A larger block in place of this one, which ends. The arena runs downward, so
 * the start of the newest block moves too: go on with the offset answered. The
 * old bytes are carried over. What follows them keeps what stood there, or is
 * cleared by grow_zeroed.
 * Refused: STATE, REGION, SIZE, ALIGN, BLOCK, DIRECTION, ROOM.
 */
miravoly_said miravoly_grow(miravoly_arena *arena, uint8_t *region, uint64_t region_length,
                            uint64_t offset, uint64_t old_size, uint64_t old_align,
                            uint64_t new_size, uint64_t new_align);
miravoly_said miravoly_grow_zeroed(miravoly_arena *arena, uint8_t *region, uint64_t region_length,
                                   uint64_t offset, uint64_t old_size, uint64_t old_align,
                                   uint64_t new_size, uint64_t new_align);

/*
 * A smaller block in place of this one, with its first bytes; the offset may
 * change. Refused: as grow; ROOM only where new_align is above old_align.
 */
miravoly_said miravoly_shrink(miravoly_arena *arena, uint8_t *region, uint64_t region_length,
                              uint64_t offset, uint64_t old_size, uint64_t old_align,
                              uint64_t new_size, uint64_t new_align);

/*
 * Grow or shrink, as the sizes say, with the alignment kept. Of a block of size
 * 0 the offset is not looked at. Refused: as grow, but never DIRECTION.
 */
miravoly_said miravoly_resize(miravoly_arena *arena, uint8_t *region, uint64_t region_length,
                              uint64_t offset, uint64_t old_size, uint64_t align,
                              uint64_t new_size);

/*
 * Allocate, with a token by which the newest block can be taken back together
 * with all that its allocation took from the chunk. A cancel ends the block; if
 * it is not the newest, nothing else changes. A token is void once its block is
 * freed, moved or ended by a reset. Refused: as allocate; cancel: STATE, TOKEN.
 */
miravoly_said_token miravoly_allocate_with_token(miravoly_arena *arena, const uint8_t *region,
                                                 uint64_t region_length, uint64_t size,
                                                 uint64_t align);
miravoly_said miravoly_cancel(miravoly_arena *arena, uint64_t offset, uint64_t count,
                              uint64_t pointer);

/*
 * Where the block's bytes are: offset and size, if the arena can have given
 * such a block. Refused: STATE, REGION, SIZE, ALIGN, BLOCK.
 */
miravoly_said_part miravoly_lend(const miravoly_arena *arena, const uint8_t *region,
                                 uint64_t region_length, uint64_t offset, uint64_t size,
                                 uint64_t align);

/*
 * The bytes that chunk number index has given out; index 0 is the newest chunk.
 * Ask from 0 on until left is 0. Refused: STATE, REGION.
 */
miravoly_said_step miravoly_walk(const miravoly_arena *arena, const uint8_t *region,
                                 uint64_t region_length, uint64_t index);

#ifdef __cplusplus
}
#endif

#endif
