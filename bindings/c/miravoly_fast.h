/*
 * Miravoly: the calls that a busy host makes most, with the record lent in
 * parts. The archive is libfast.a; creation, the limits and the walk stay with
 * libhost.a, so a program links both.
 *
 *     static uint8_t region[65536];
 *     miravoly_arena arena; // only the calls write in it
 *
 *     if (miravoly_create(&arena, sizeof region, 1, 0).refusal != MIRAVOLY_SERVED)
 *         return 1;
 *     miravoly_said hits = miravoly_sound_allocate(MIRAVOLY_PARTS(&arena), 10, 1);
 *     if (hits.refusal != MIRAVOLY_SERVED)
 *         return hits.refusal;
 *     memcpy(region + hits.offset, "ACGTACGTAC", 10);
 *
 *     miravoly_said more = miravoly_sound_grow(MIRAVOLY_PARTS(&arena), region, sizeof region,
 *                                              hits.offset, 10, 1, 20, 1);
 *     if (more.refusal != MIRAVOLY_SERVED)
 *         return more.refusal; // the old block is still there
 *
 * A call is written as in miravoly.h, with one word more in its name and
 * MIRAVOLY_PARTS(&arena) in place of &arena; but miravoly_sound_allocate,
 * miravoly_sound_allocate_with_token and miravoly_sound_lend are lent no region.
 * miravoly.h says what a call does. There are two kinds, and both are proved
 * against the same definitions.
 *
 * FAST, miravoly_fast_*: record and region are tested. Whatever numbers stand in
 * the record and in the call, the answer is that of miravoly.h's call, and so
 * are the record and the bytes after it.
 *
 * SOUND, miravoly_sound_*: record and region are not tested, so STATE and REGION
 * are never answered. The call's own numbers are tested as ever. If the record
 * is sound and the region its own, all is as with miravoly.h's call.
 *
 * WHAT THE HOST MUST SEE TO. All that miravoly.h asks for; and, for the sound
 * kind, three things more:
 *
 *   - The record was made by a creation that was served. As good as a created one
 *     is a record that went with a region to a call of miravoly.h or of the fast
 *     kind, if that did not answer STATE or REGION: so a host may test a record
 *     once and then go on with the sound kind.
 *   - Since then nothing but calls of the two headers has changed a byte of it.
 *     A copy of the whole record is as good as the record.
 *   - The region that is lent has the length that the creation, or that call, was
 *     told.
 *
 * Otherwise anything may happen, writes outside the region too, since the record
 * is not tested. A host keeps to it by keeping the record where nobody else can
 * write: behind a handle that is opaque to its callers. A record that others can
 * write in between two calls goes to the fast kind or to miravoly.h each time.
 */
#ifndef MIRAVOLY_FAST_H
#define MIRAVOLY_FAST_H

#include "miravoly.h"

#ifdef __cplusplus
extern "C" {
#endif

/*
 * A record's parts: its head, which is the five numbers from region to count,
 * and its three columns. Always all four of one record. The head is reached
 * through the address of its first number: a call reads and writes all five from
 * there. The argument is named four times, so it must have no effects.
 */
#define MIRAVOLY_PARTS(arena) &(arena)->region, (arena)->starts, (arena)->sizes, (arena)->pointers

/* The same as parameters. A call that only reads has const numbers. */
#define MIRAVOLY_PARTS_OF(number)                                                                  \
    number *head, number starts[MIRAVOLY_MOST_CHUNKS], number sizes[MIRAVOLY_MOST_CHUNKS],         \
        number pointers[MIRAVOLY_MOST_CHUNKS]

/* Refused: fast STATE; sound never. */
miravoly_said miravoly_fast_reset(MIRAVOLY_PARTS_OF(uint64_t));
miravoly_said miravoly_sound_reset(MIRAVOLY_PARTS_OF(uint64_t));

/* The sound kind is lent no region: the record has its length. */
miravoly_said miravoly_fast_allocate(MIRAVOLY_PARTS_OF(uint64_t), const uint8_t *region,
                                     uint64_t region_length, uint64_t size, uint64_t align);
miravoly_said miravoly_sound_allocate(MIRAVOLY_PARTS_OF(uint64_t), uint64_t size, uint64_t align);

miravoly_said miravoly_fast_copy_in(MIRAVOLY_PARTS_OF(uint64_t), uint8_t *region,
                                    uint64_t region_length, const uint8_t *source,
                                    uint64_t source_length, uint64_t align);
miravoly_said miravoly_sound_copy_in(MIRAVOLY_PARTS_OF(uint64_t), uint8_t *region,
                                     uint64_t region_length, const uint8_t *source,
                                     uint64_t source_length, uint64_t align);

miravoly_said miravoly_fast_fill(MIRAVOLY_PARTS_OF(uint64_t), uint8_t *region,
                                 uint64_t region_length, uint64_t size, uint64_t align,
                                 uint8_t value);
miravoly_said miravoly_sound_fill(MIRAVOLY_PARTS_OF(uint64_t), uint8_t *region,
                                  uint64_t region_length, uint64_t size, uint64_t align,
                                  uint8_t value);

miravoly_said miravoly_fast_free(MIRAVOLY_PARTS_OF(uint64_t), uint64_t offset, uint64_t size,
                                 uint64_t align);
miravoly_said miravoly_sound_free(MIRAVOLY_PARTS_OF(uint64_t), uint64_t offset, uint64_t size,
                                  uint64_t align);

miravoly_said miravoly_fast_grow(MIRAVOLY_PARTS_OF(uint64_t), uint8_t *region,
                                 uint64_t region_length, uint64_t offset, uint64_t old_size,
                                 uint64_t old_align, uint64_t new_size, uint64_t new_align);
miravoly_said miravoly_sound_grow(MIRAVOLY_PARTS_OF(uint64_t), uint8_t *region,
                                  uint64_t region_length, uint64_t offset, uint64_t old_size,
                                  uint64_t old_align, uint64_t new_size, uint64_t new_align);

miravoly_said miravoly_fast_grow_zeroed(MIRAVOLY_PARTS_OF(uint64_t), uint8_t *region,
                                        uint64_t region_length, uint64_t offset, uint64_t old_size,
                                        uint64_t old_align, uint64_t new_size, uint64_t new_align);
miravoly_said miravoly_sound_grow_zeroed(MIRAVOLY_PARTS_OF(uint64_t), uint8_t *region,
                                         uint64_t region_length, uint64_t offset, uint64_t old_size,
                                         uint64_t old_align, uint64_t new_size, uint64_t new_align);

miravoly_said miravoly_fast_shrink(MIRAVOLY_PARTS_OF(uint64_t), uint8_t *region,
                                   uint64_t region_length, uint64_t offset, uint64_t old_size,
                                   uint64_t old_align, uint64_t new_size, uint64_t new_align);
miravoly_said miravoly_sound_shrink(MIRAVOLY_PARTS_OF(uint64_t), uint8_t *region,
                                    uint64_t region_length, uint64_t offset, uint64_t old_size,
                                    uint64_t old_align, uint64_t new_size, uint64_t new_align);

miravoly_said miravoly_fast_resize(MIRAVOLY_PARTS_OF(uint64_t), uint8_t *region,
                                   uint64_t region_length, uint64_t offset, uint64_t old_size,
                                   uint64_t align, uint64_t new_size);
miravoly_said miravoly_sound_resize(MIRAVOLY_PARTS_OF(uint64_t), uint8_t *region,
                                    uint64_t region_length, uint64_t offset, uint64_t old_size,
                                    uint64_t align, uint64_t new_size);

/* The sound kind is lent no region. */
miravoly_said_token miravoly_fast_allocate_with_token(MIRAVOLY_PARTS_OF(uint64_t),
                                                      const uint8_t *region, uint64_t region_length,
                                                      uint64_t size, uint64_t align);
miravoly_said_token miravoly_sound_allocate_with_token(MIRAVOLY_PARTS_OF(uint64_t), uint64_t size,
                                                       uint64_t align);

miravoly_said miravoly_fast_cancel(MIRAVOLY_PARTS_OF(uint64_t), uint64_t offset, uint64_t count,
                                   uint64_t pointer);
miravoly_said miravoly_sound_cancel(MIRAVOLY_PARTS_OF(uint64_t), uint64_t offset, uint64_t count,
                                    uint64_t pointer);

/* The sound kind is lent no region. Neither writes in the record. */
miravoly_said_part miravoly_fast_lend(MIRAVOLY_PARTS_OF(const uint64_t), const uint8_t *region,
                                      uint64_t region_length, uint64_t offset, uint64_t size,
                                      uint64_t align);
miravoly_said_part miravoly_sound_lend(MIRAVOLY_PARTS_OF(const uint64_t), uint64_t offset,
                                       uint64_t size, uint64_t align);

#ifdef __cplusplus
}
#endif

#endif
