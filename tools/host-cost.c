/*
 * Does one piece of work over the hosts' entries as often as it is told, for an instruction counter:
 *
 *     host-cost WORK REGION TABLE CHUNKS TURNS SIZE ALIGN NEW
 *
 * The difference of two runs that differ in TURNS alone is the cost of the turns
 * between them. Prints how many turns were served.
 *
 * As in crates/cost, a turn's numbers are read from a list, and a second call
 * names its block by them and by the offset that was answered, changed by a
 * number of the list that is 0.
 */
#define _DEFAULT_SOURCE
#include "miravoly_fast.h"
#include <inttypes.h>
#include <stdio.h>
#include <stdlib.h>
#include <string.h>
#include <sys/mman.h>

enum { MOST_TURNS = 128, FOOTER = 48, SMALL = 16 };

typedef struct numbers {
    uint64_t size, align;         /* asked for first */
    uint64_t old, old_align;      /* of the block that a second call names */
    uint64_t new_size, new_align; /* asked for by it */
    uint64_t zero, unused;        /* both 0 */
} numbers;

static miravoly_arena arena;
static uint8_t *region, *source;
static uint64_t length;

/* Blocks of many bytes are given out in the same chunk each turn: a reset costs the same whatever their size. */
static inline miravoly_said anew(miravoly_said said) {
    return said.refusal == MIRAVOLY_SERVED ? miravoly_reset(&arena) : said;
}

/* ROOM is what was wanted. */
static inline miravoly_said no_room(miravoly_said said) {
    said.refusal -= MIRAVOLY_ROOM;
    return said;
}

#define LENT &arena, region, length
#define ASKED n->size, n->align
#define NAMED at.offset ^ n->zero, n->old, n->old_align
#define WANTED n->new_size, n->new_align
#define ALLOCATE miravoly_said, miravoly_allocate(LENT, ASKED)
#define ALLOCATE_WITH_TOKEN miravoly_said_token, miravoly_allocate_with_token(LENT, ASKED)
#define RECORDED at.offset ^ n->zero, at.count ^ n->zero, at.pointer ^ n->zero

/* The same by the entries in place, and by those for a sound record. */
#define PARTS MIRAVOLY_PARTS(&arena)
#define LENT_IN_PARTS PARTS, region, length
#define FAST_ALLOCATE miravoly_said, miravoly_fast_allocate(LENT_IN_PARTS, ASKED)
#define FAST_ALLOCATE_WITH_TOKEN miravoly_said_token, miravoly_fast_allocate_with_token(LENT_IN_PARTS, ASKED)
#define SOUND_ALLOCATE miravoly_said, miravoly_sound_allocate(PARTS, ASKED)
#define SOUND_ALLOCATE_WITH_TOKEN miravoly_said_token, miravoly_sound_allocate_with_token(PARTS, ASKED)

/*
 * A line for each piece of work: its name, what a turn asks for first, and what
 * it does with the answer `at`. A turn in which either is refused ends the run.
 */
#define ALL_WORK(WORK)                                                                             \
    WORK(allocate, ALLOCATE, at)                                                                   \
    WORK(free, ALLOCATE, miravoly_free(&arena, NAMED))                                             \
    WORK(grow, ALLOCATE, miravoly_grow(LENT, NAMED, WANTED))                                       \
    WORK(grow_zeroed, ALLOCATE, miravoly_grow_zeroed(LENT, NAMED, WANTED))                         \
    WORK(shrink, ALLOCATE, miravoly_shrink(LENT, NAMED, WANTED))                                   \
    WORK(resize, ALLOCATE, miravoly_resize(LENT, NAMED, n->new_size))                              \
    WORK(reset, ALLOCATE, miravoly_reset(&arena))                                                  \
    WORK(lend, ALLOCATE, miravoly_lend(LENT, NAMED))                                               \
    WORK(token, ALLOCATE_WITH_TOKEN, at)                                                           \
    WORK(cancel, ALLOCATE_WITH_TOKEN, miravoly_cancel(&arena, RECORDED))                           \
    WORK(copy_in, miravoly_said, miravoly_copy_in(LENT, source, ASKED), at)                        \
    WORK(fill, miravoly_said, miravoly_fill(LENT, ASKED, (uint8_t)n->zero), at)                    \
    WORK(room, miravoly_said, no_room(miravoly_allocate(LENT, ASKED)), at)                         \
    WORK(bytes_grow, ALLOCATE, anew(miravoly_grow(LENT, NAMED, WANTED)))                           \
    WORK(bytes_afresh, ALLOCATE,                                                                   \
         (miravoly_allocate(LENT, 16, 1), anew(miravoly_grow(LENT, NAMED, WANTED))))               \
    WORK(bytes_shrink, ALLOCATE, anew(miravoly_shrink(LENT, NAMED, WANTED)))                       \
    WORK(bytes_fill, miravoly_said, miravoly_fill(LENT, ASKED, (uint8_t)n->zero), anew(at))        \
    WORK(bytes_zeroed, ALLOCATE, anew(miravoly_grow_zeroed(LENT, NAMED, WANTED)))                  \
    WORK(bytes_copy, miravoly_said, miravoly_copy_in(LENT, source, ASKED), anew(at))               \
    WORK(fast_allocate, FAST_ALLOCATE, at)                                                         \
    WORK(fast_free, FAST_ALLOCATE, miravoly_fast_free(PARTS, NAMED))                               \
    WORK(fast_grow, FAST_ALLOCATE, miravoly_fast_grow(LENT_IN_PARTS, NAMED, WANTED))               \
    WORK(fast_grow_zeroed, FAST_ALLOCATE,                                                          \
         miravoly_fast_grow_zeroed(LENT_IN_PARTS, NAMED, WANTED))                                  \
    WORK(fast_shrink, FAST_ALLOCATE, miravoly_fast_shrink(LENT_IN_PARTS, NAMED, WANTED))           \
    WORK(fast_resize, FAST_ALLOCATE, miravoly_fast_resize(LENT_IN_PARTS, NAMED, n->new_size))      \
    WORK(fast_reset, FAST_ALLOCATE, miravoly_fast_reset(PARTS))                                    \
    WORK(fast_lend, FAST_ALLOCATE, miravoly_fast_lend(LENT_IN_PARTS, NAMED))                       \
    WORK(fast_token, FAST_ALLOCATE_WITH_TOKEN, at)                                                 \
    WORK(fast_cancel, FAST_ALLOCATE_WITH_TOKEN, miravoly_fast_cancel(PARTS, RECORDED))             \
    WORK(fast_copy_in, miravoly_said, miravoly_fast_copy_in(LENT_IN_PARTS, source, ASKED), at)     \
    WORK(fast_fill, miravoly_said, miravoly_fast_fill(LENT_IN_PARTS, ASKED, (uint8_t)n->zero), at) \
    WORK(sound_allocate, SOUND_ALLOCATE, at)                                                       \
    WORK(sound_free, SOUND_ALLOCATE, miravoly_sound_free(PARTS, NAMED))                            \
    WORK(sound_grow, SOUND_ALLOCATE, miravoly_sound_grow(LENT_IN_PARTS, NAMED, WANTED))            \
    WORK(sound_grow_zeroed, SOUND_ALLOCATE,                                                        \
         miravoly_sound_grow_zeroed(LENT_IN_PARTS, NAMED, WANTED))                                 \
    WORK(sound_shrink, SOUND_ALLOCATE, miravoly_sound_shrink(LENT_IN_PARTS, NAMED, WANTED))        \
    WORK(sound_resize, SOUND_ALLOCATE, miravoly_sound_resize(LENT_IN_PARTS, NAMED, n->new_size))   \
    WORK(sound_reset, SOUND_ALLOCATE, miravoly_sound_reset(PARTS))                                 \
    WORK(sound_lend, SOUND_ALLOCATE, miravoly_sound_lend(PARTS, NAMED))                            \
    WORK(sound_token, SOUND_ALLOCATE_WITH_TOKEN, at)                                               \
    WORK(sound_cancel, SOUND_ALLOCATE_WITH_TOKEN, miravoly_sound_cancel(PARTS, RECORDED))          \
    WORK(sound_copy_in, miravoly_said, miravoly_sound_copy_in(LENT_IN_PARTS, source, ASKED), at)   \
    WORK(sound_fill, miravoly_said, miravoly_sound_fill(LENT_IN_PARTS, ASKED, (uint8_t)n->zero),   \
         at)

#define TURNS(name, ...) TURNS_OF(name, __VA_ARGS__)
#define TURNS_OF(name, answer, first, second)                                                      \
    static uint64_t name##_turns(const numbers *list, uint64_t turns) {                            \
        for (uint64_t turn = 0; turn < turns; turn++) {                                            \
            const numbers *n = &list[turn];                                                        \
            answer at = first;                                                                     \
            if (at.refusal != MIRAVOLY_SERVED || (second).refusal != MIRAVOLY_SERVED)              \
                return turn;                                                                       \
        }                                                                                          \
        return turns;                                                                              \
    }
ALL_WORK(TURNS)

#define ENTRY(name, ...) {#name, name##_turns},
static const struct {
    const char *name;
    uint64_t (*turns)(const numbers *list, uint64_t turns);
} all_work[] = {ALL_WORK(ENTRY)};

/*
 * A record that holds so many chunks: all of 16 bytes but the current one, which
 * has the rest of the region. The others stand before it, in the order of the
 * table or, where it is falling, in the opposite one. Where it is full the current
 * chunk has nothing left, and the gaps between the others are just too small for
 * the smallest chunk that a request of few bytes takes, 448 and its 48.
 */
static void hold(uint64_t chunks, int falling, int full) {
    arena = (miravoly_arena){.region = length, .minimum = 1, .count = chunks};
    for (uint64_t i = 0; i < chunks; i++) {
        int current = i + 1 == chunks;
        uint64_t place = falling && !current ? chunks - 2 - i : i;
        arena.starts[i] = (SMALL + FOOTER + (full ? 480 : 0)) * place;
        arena.sizes[i] = current ? length - FOOTER - arena.starts[i] : SMALL;
        arena.pointers[i] = arena.starts[i] + (full ? 0 : arena.sizes[i]);
    }
}

int main(int argc, char **argv) {
    if (argc != 9) {
        fprintf(stderr, "host-cost WORK REGION TABLE CHUNKS TURNS SIZE ALIGN NEW\n");
        return 2;
    }
    uint64_t given[9];
    for (int i = 4; i < argc; i++)
        given[i] = strtoull(argv[i], NULL, 10);
    uint64_t chunks = given[4], turns = given[5], size = given[6], align = given[7];
    length = strtoull(argv[2], NULL, 10);
    if (chunks < 1 || MIRAVOLY_MOST_CHUNKS < chunks || MOST_TURNS < turns)
        return 2;
    region = mmap(NULL, length, PROT_READ | PROT_WRITE, MAP_PRIVATE | MAP_ANONYMOUS | MAP_NORESERVE, -1, 0);
    source = calloc(size, 1);
    if (region == MAP_FAILED || source == NULL)
        return 2;
    hold(chunks, strstr(argv[3], "falling") != NULL, strstr(argv[3], "full") != NULL);
    /* The sound entries take a record that was found sound once. */
    if (miravoly_walk(&arena, region, length, 0).refusal != MIRAVOLY_SERVED)
        return 2;
    static numbers list[MOST_TURNS];
    for (int i = 0; i < MOST_TURNS; i++)
        list[i] = (numbers){size, align, size, align, given[8], align, 0, 0};
    for (size_t i = 0; i < sizeof all_work / sizeof all_work[0]; i++) {
        if (strcmp(argv[1], all_work[i].name) == 0) {
            printf("%" PRIu64 "\n", all_work[i].turns(list, turns));
            return 0;
        }
    }
    fprintf(stderr, "host-cost: no work is called %s\n", argv[1]);
    return 2;
}
