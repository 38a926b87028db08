/* Each entry of miravoly_fast.h beside the one of miravoly.h, on two places that are equal: the answers are the same,
 * and so is every byte of record, region and guards after the call. */
#include "miravoly_fast.h"
#include "test.h"
#include <stdio.h>
#include <stdlib.h>
#include <string.h>

static answer ask_fast(miravoly_arena *a, uint8_t *region, const request *q) {
    switch (q->entry) {
    case RESET:
        return said(miravoly_fast_reset(MIRAVOLY_PARTS(a)));
    case ALLOCATE:
        return said(miravoly_fast_allocate(MIRAVOLY_PARTS(a), region, q->lent, q->size, q->new_align));
    case COPY_IN:
        return said(miravoly_fast_copy_in(MIRAVOLY_PARTS(a), region, q->lent, source, q->size, q->new_align));
    case FILL:
        return said(miravoly_fast_fill(MIRAVOLY_PARTS(a), region, q->lent, q->size, q->new_align, 0xA5));
    case FREE:
        return said(miravoly_fast_free(MIRAVOLY_PARTS(a), q->offset, q->old, q->align));
    case GROW:
        return said(
            miravoly_fast_grow(MIRAVOLY_PARTS(a), region, q->lent, q->offset, q->old, q->align, q->size, q->new_align));
    case GROW_ZEROED:
        return said(miravoly_fast_grow_zeroed(MIRAVOLY_PARTS(a), region, q->lent, q->offset, q->old, q->align, q->size,
                                              q->new_align));
    case SHRINK:
        return said(miravoly_fast_shrink(MIRAVOLY_PARTS(a), region, q->lent, q->offset, q->old, q->align, q->size,
                                         q->new_align));
    case RESIZE:
        return said(miravoly_fast_resize(MIRAVOLY_PARTS(a), region, q->lent, q->offset, q->old, q->align, q->size));
    case WITH_TOKEN:
        return said_token(miravoly_fast_allocate_with_token(MIRAVOLY_PARTS(a), region, q->lent, q->size, q->new_align));
    case CANCEL:
        return said(miravoly_fast_cancel(MIRAVOLY_PARTS(a), q->offset, q->size, q->new_align));
    case LEND:
        return said_part(miravoly_fast_lend(MIRAVOLY_PARTS(a), region, q->lent, q->offset, q->old, q->align));
    default:
        return ask(a, region, q);
    }
}

static answer ask_sound(miravoly_arena *a, uint8_t *region, const request *q) {
    switch (q->entry) {
    case RESET:
        return said(miravoly_sound_reset(MIRAVOLY_PARTS(a)));
    case ALLOCATE:
        return said(miravoly_sound_allocate(MIRAVOLY_PARTS(a), q->size, q->new_align));
    case COPY_IN:
        return said(miravoly_sound_copy_in(MIRAVOLY_PARTS(a), region, q->lent, source, q->size, q->new_align));
    case FILL:
        return said(miravoly_sound_fill(MIRAVOLY_PARTS(a), region, q->lent, q->size, q->new_align, 0xA5));
    case FREE:
        return said(miravoly_sound_free(MIRAVOLY_PARTS(a), q->offset, q->old, q->align));
    case GROW:
        return said(miravoly_sound_grow(MIRAVOLY_PARTS(a), region, q->lent, q->offset, q->old, q->align, q->size,
                                        q->new_align));
    case GROW_ZEROED:
        return said(miravoly_sound_grow_zeroed(MIRAVOLY_PARTS(a), region, q->lent, q->offset, q->old, q->align, q->size,
                                               q->new_align));
    case SHRINK:
        return said(miravoly_sound_shrink(MIRAVOLY_PARTS(a), region, q->lent, q->offset, q->old, q->align, q->size,
                                          q->new_align));
    case RESIZE:
        return said(miravoly_sound_resize(MIRAVOLY_PARTS(a), region, q->lent, q->offset, q->old, q->align, q->size));
    case WITH_TOKEN:
        return said_token(miravoly_sound_allocate_with_token(MIRAVOLY_PARTS(a), q->size, q->new_align));
    case CANCEL:
        return said(miravoly_sound_cancel(MIRAVOLY_PARTS(a), q->offset, q->size, q->new_align));
    case LEND:
        return said_part(miravoly_sound_lend(MIRAVOLY_PARTS(a), q->offset, q->old, q->align));
    default:
        return ask(a, region, q);
    }
}

/* ---- two equal places ---- */

typedef answer asking(miravoly_arena *a, uint8_t *region, const request *q);

static place plain, other;
static unsigned long asked, answered[9], served[ENTRIES];

static void begin(void) {
    asked = 0;
    memset(answered, 0, sizeof answered);
    memset(served, 0, sizeof served);
    scribble(&plain, sizeof plain);
    other = plain;
}

static answer ask_both(asking *ask_other, const request *q) {
    answer expected = ask(&plain.arena, plain.region, q);
    answer got = ask_other(&other.arena, other.region, q);
    CHECK(memcmp(&got, &expected, sizeof got) == 0);
    CHECK(memcmp(&other, &plain, sizeof other) == 0);
    /* So that one mistake is told once. */
    other = plain;
    if (RESET <= q->entry && q->entry <= LEND && expected.refusal <= MIRAVOLY_ROOM) {
        asked++;
        answered[expected.refusal]++;
        served[q->entry] += expected.refusal == 0;
    }
    return expected;
}

static void end(const char *kind) {
    printf("C: %lu calls by a %s entry and by the plain one; served %lu, refused 1 to 8:", asked, kind, answered[0]);
    for (int r = 1; r <= 8; r++)
        printf(" %lu", answered[r]);
    printf("\n");
    for (entry e = RESET; e <= LEND; e++)
        CHECK(served[e] > 0);
    for (int r = MIRAVOLY_SIZE; r <= MIRAVOLY_ROOM; r++)
        CHECK(answered[r] > 0);
}

/* ---- the tests ---- */

/* Any record, numbers and bytes; the sound entry too where the record is sound and the region its own. */
void fast_entries(unsigned long turns) {
    unsigned long by_sound = 0;
    begin();
    for (unsigned long i = 0; i < turns; i++) {
        miravoly_arena record;
        random_record(&record);
        for (entry e = RESET; e <= LEND; e++) {
            request q;
            random_request(&q, e, &record);
            plain.arena = other.arena = record;
            ask_both(ask_fast, &q);
            if (sound(&record) && q.lent == record.region) {
                plain.arena = other.arena = record;
                ask_both(ask_sound, &q);
                by_sound++;
            }
        }
    }
    end("fast or sound");
    CHECK(by_sound > turns);
    CHECK(answered[MIRAVOLY_STATE] > 0 && answered[MIRAVOLY_REGION] > 0);
}

/* Sequences of calls from a served creation on. The region is the record's own; all other numbers are as they come. */
void sound_entries(unsigned long turns) {
    begin();
    for (unsigned long i = 0; i < turns / 4; i++) {
        uint64_t length = 500 + below(LENGTH - 499), capacity = below(3) ? 0 : 1 + below(400);
        answer token = {0};
        CHECK(miravoly_create(&plain.arena, length, 1ull << below(5), capacity).refusal == 0);
        other.arena = plain.arena;
        for (int call = 0; call < 48; call++) {
            request q;
            random_request(&q, SET_LIMIT + below(WALK - SET_LIMIT), &plain.arena);
            q.lent = length;
            /* The last token, which may be void. */
            if (q.entry == CANCEL && below(2)) {
                q.offset = token.offset;
                q.size = token.more[0];
                q.new_align = token.more[1];
            }
            answer got = ask_both(ask_sound, &q);
            if (q.entry == WITH_TOKEN && got.refusal == 0)
                token = got;
        }
    }
    end("sound");
    CHECK(answered[MIRAVOLY_STATE] == 0 && answered[MIRAVOLY_REGION] == 0);
}

#define LIVE 4

typedef struct block {
    uint64_t offset, size, align;
} block;

/* A move of this block, to a size that suits the entry. */
static request some_move(const block *b) {
    request q = {GROW + below(RESIZE - GROW + 1), LENGTH, b->offset, b->size, b->align, 0, 1ull << below(5)};
    q.size = q.entry == SHRINK ? below(b->size + 1) : q.entry == RESIZE ? below(400) : b->size + below(200);
    return q;
}

static void long_moves_by(asking *ask_other, const char *kind, unsigned long turns) {
    unsigned long moved[ENTRIES] = {0};
    begin();
    for (unsigned long i = 0; i < turns / 8; i++) {
        block live[LIVE];
        uint64_t count = 0;
        scribble(&plain, sizeof plain);
        CHECK(miravoly_create(&plain.arena, LENGTH, 1ull << below(5), below(2) ? 0 : 1500).refusal == 0);
        other = plain;
        for (int call = 0; call < 24; call++) {
            request q = {below(2) ? ALLOCATE : COPY_IN, LENGTH, 0, 0, 0, below(400), 1ull << below(5)};
            block *b = &live[count];
            if (count == LIVE || (count != 0 && below(3))) {
                /* Often the newest. */
                b = &live[below(2) ? count - 1 : below(count)];
                q = some_move(b);
            }
            answer got = ask_both(ask_other, &q);
            CHECK(got.refusal == 0 || got.refusal == MIRAVOLY_ROOM);
            if (got.refusal != 0)
                continue;
            moved[q.entry] += got.offset != q.offset && q.old > 64 && q.size > 64;
            count += b == &live[count];
            *b = (block){got.offset, q.size, q.entry == RESIZE ? q.align : q.new_align};
        }
    }
    printf("C: %lu calls by a %s entry and by the plain one on live blocks; over 64 bytes moved by grow to resize:",
           asked, kind);
    for (entry e = GROW; e <= RESIZE; e++) {
        printf(" %lu", moved[e]);
        CHECK(moved[e] > 0);
    }
    printf("\n");
}

/* Sequences on live blocks of some hundred bytes: over 64 bytes are moved by other code than fewer. */
void long_moves(unsigned long turns) {
    long_moves_by(ask_fast, "fast", turns);
    long_moves_by(ask_sound, "sound", turns);
}
