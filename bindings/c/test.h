/* What test.c and test_fast.c share. */
#ifndef MIRAVOLY_TEST_H
#define MIRAVOLY_TEST_H

#include "miravoly.h"
#include <stdbool.h>
#include <stddef.h>

#define LENGTH 2048
#define GUARD 64
#define TOO_LARGE (MIRAVOLY_LARGEST_SIZE + 1ull)

void check_at(const char *file, int line, bool holds, const char *what);
#define CHECK(holds) check_at(__FILE__, __LINE__, holds, #holds)

/* A record and a region with bytes around them that nobody may touch. */
typedef struct place {
    uint8_t before[GUARD];
    miravoly_arena arena;
    uint8_t between[GUARD];
    uint8_t region[LENGTH];
    uint8_t after[GUARD];
} place;

/* Numbers that look random, the same on every run. */
uint64_t below(uint64_t n);
void scribble(void *bytes, size_t n);

/* ---- every entry by its number, with the same numbers for all ---- */

typedef enum entry {
    CREATE,
    SET_LIMIT,
    NO_LIMIT,
    RESET, /* from here to LEND an entry has a fast and a sound form */
    ALLOCATE,
    COPY_IN,
    FILL,
    FREE,
    GROW,
    GROW_ZEROED,
    SHRINK,
    RESIZE,
    WITH_TOKEN,
    CANCEL,
    LEND,
    WALK,
    ENTRIES
} entry;

typedef struct request {
    entry entry;
    uint64_t lent;               /* the length passed with the region */
    uint64_t offset, old, align; /* the block named */
    uint64_t size, new_align;    /* what is asked for; the limit, the capacity, a token's numbers, an index */
} request;

/* refusal and offset, and what else is answered: a token's numbers, a part's length, what the walk has left. */
typedef struct answer {
    uint64_t refusal, offset, more[2];
} answer;

static inline answer said(miravoly_said got) { return (answer){got.refusal, got.offset, {0, 0}}; }

static inline answer said_token(miravoly_said_token got) {
    return (answer){got.refusal, got.offset, {got.count, got.pointer}};
}

static inline answer said_part(miravoly_said_part got) { return (answer){got.refusal, got.offset, {got.length, 0}}; }

extern uint8_t *source; /* TOO_LARGE zeros, but for the first bytes */

answer ask(miravoly_arena *a, uint8_t *region, const request *q);

bool sound(const miravoly_arena *a);

/* Sound or not. */
void random_record(miravoly_arena *a);

/* Mostly such as suit the record. No more of the region is lent than there is. */
void random_request(request *q, entry e, const miravoly_arena *a);

/* ---- the tests of test_fast.c ---- */

void fast_entries(unsigned long turns);
void sound_entries(unsigned long turns);
void long_moves(unsigned long turns);

#endif
