/* Tests of the archives through the headers. Prints what was run and ends with status 1 if a check failed. */
#include "test.h"
#include <stdio.h>
#include <stdlib.h>
#include <string.h>

_Static_assert(sizeof(miravoly_arena) == 808, "the record has 808 bytes");

static unsigned long checks, failures;

void check_at(const char *file, int line, bool holds, const char *what) {
    checks++;
    if (!holds) {
        failures++;
        if (failures < 20)
            printf("%s:%d: %s\n", file, line, what);
    }
}

static uint64_t seed = 1;

static uint64_t any(void) {
    seed ^= seed << 13;
    seed ^= seed >> 7;
    seed ^= seed << 17;
    return seed * 0x2545F4914F6CDD1Dull;
}

uint64_t below(uint64_t n) { return any() % n; }

void scribble(void *bytes, size_t n) {
    uint8_t *b = bytes;
    for (size_t i = 0; i < n; i++)
        b[i] = (uint8_t)(any() >> 56);
}

uint8_t *source;

answer ask(miravoly_arena *a, uint8_t *region, const request *q) {
    switch (q->entry) {
    case CREATE:
        return said(miravoly_create(a, q->lent, q->new_align, q->size));
    case SET_LIMIT:
        return said(miravoly_set_limit(a, q->size));
    case NO_LIMIT:
        return said(miravoly_no_limit(a));
    case RESET:
        return said(miravoly_reset(a));
    case ALLOCATE:
        return said(miravoly_allocate(a, region, q->lent, q->size, q->new_align));
    case COPY_IN:
        return said(miravoly_copy_in(a, region, q->lent, source, q->size, q->new_align));
    case FILL:
        return said(miravoly_fill(a, region, q->lent, q->size, q->new_align, 0xA5));
    case FREE:
        return said(miravoly_free(a, q->offset, q->old, q->align));
    case GROW:
        return said(miravoly_grow(a, region, q->lent, q->offset, q->old, q->align, q->size, q->new_align));
    case GROW_ZEROED:
        return said(miravoly_grow_zeroed(a, region, q->lent, q->offset, q->old, q->align, q->size, q->new_align));
    case SHRINK:
        return said(miravoly_shrink(a, region, q->lent, q->offset, q->old, q->align, q->size, q->new_align));
    case RESIZE:
        return said(miravoly_resize(a, region, q->lent, q->offset, q->old, q->align, q->size));
    case WITH_TOKEN: {
        answer got = said_token(miravoly_allocate_with_token(a, region, q->lent, q->size, q->new_align));
        CHECK(got.refusal == 0 || (got.more[0] == 0 && got.more[1] == 0));
        return got;
    }
    case CANCEL:
        return said(miravoly_cancel(a, q->offset, q->size, q->new_align));
    case LEND: {
        answer got = said_part(miravoly_lend(a, region, q->lent, q->offset, q->old, q->align));
        CHECK(got.more[0] == (got.refusal == 0 ? q->old : 0));
        return got;
    }
    case WALK: {
        miravoly_said_step got = miravoly_walk(a, region, q->lent, q->size);
        CHECK(got.left != 0 || (got.offset == 0 && got.length == 0));
        CHECK(got.left == 0 || got.offset + got.length <= q->lent);
        return (answer){got.refusal, got.offset, {got.length, got.left}};
    }
    case ENTRIES:
        break;
    }
    abort();
}

/* ---- document 01's rules that the checks need ---- */

typedef unsigned __int128 wide; /* a sum that can't wrap */

/* The clauses of "Sound", in the order of its words. */
enum clause {
    MINIMUM,
    REGION,
    LIMITED,
    LIMIT,
    COUNT,
    START,
    SIZE,
    WITHIN,
    FROM_START,
    TO_END,
    ON_MINIMUM,
    APART,
    UNUSED_START,
    UNUSED_SIZE,
    UNUSED_POINTER,
    CLAUSES
};

/* A bit for each clause that fails. */
static unsigned unsound_by(const miravoly_arena *a) {
    const uint64_t m = a->minimum;
    unsigned bits = 0;
    bits |= (unsigned)(m != 1 && m != 2 && m != 4 && m != 8 && m != 16) << MINIMUM;
    bits |= (unsigned)(a->region > MIRAVOLY_LARGEST_REGION) << REGION;
    bits |= (unsigned)(a->limited > 1) << LIMITED;
    bits |= (unsigned)(a->limited == 0 && a->limit != 0) << LIMIT;
    bits |= (unsigned)(a->count > MIRAVOLY_MOST_CHUNKS) << COUNT;
    for (uint64_t i = 0; i < MIRAVOLY_MOST_CHUNKS; i++) {
        const uint64_t start = a->starts[i], pointer = a->pointers[i];
        const wide end = (wide)start + a->sizes[i];
        if (i >= a->count) {
            bits |= (unsigned)(start != 0) << UNUSED_START;
            bits |= (unsigned)(a->sizes[i] != 0) << UNUSED_SIZE;
            bits |= (unsigned)(pointer != 0) << UNUSED_POINTER;
            continue;
        }
        bits |= (unsigned)(start % 16 != 0) << START;
        bits |= (unsigned)(a->sizes[i] % 16 != 0) << SIZE;
        bits |= (unsigned)(end + 48 > a->region) << WITHIN;
        bits |= (unsigned)(pointer < start) << FROM_START;
        bits |= (unsigned)(pointer > end) << TO_END;
        bits |= (unsigned)(m != 0 && pointer % m != 0) << ON_MINIMUM;
        for (uint64_t j = 0; j < i; j++)
            bits |= (unsigned)(start < (wide)a->starts[j] + a->sizes[j] + 48 && a->starts[j] < end + 48) << APART;
    }
    return bits;
}

bool sound(const miravoly_arena *a) { return unsound_by(a) == 0; }

/* The region after a served call, from the region before it. */
static void write_expected(uint8_t *region, const request *q, uint64_t at) {
    uint64_t kept = q->old < q->size ? q->old : q->size;
    switch (q->entry) {
    case COPY_IN:
        memcpy(region + at, source, q->size);
        break;
    case FILL:
        memset(region + at, 0xA5, q->size);
        break;
    case GROW_ZEROED:
        memmove(region + at, region + q->offset, kept);
        memset(region + at + q->old, 0, q->size - q->old);
        break;
    case GROW:
    case SHRINK:
    case RESIZE:
        if (q->old != 0)
            memmove(region + at, region + q->offset, kept);
        break;
    default:
        break;
    }
}

/* Asks, and holds every byte of record, region and guards to what was there before. */
static answer ask_checked(place *p, const request *q) {
    static place before;
    before = *p;
    bool was_sound = sound(&p->arena);
    answer got = ask(&p->arena, p->region, q);
    CHECK(got.refusal <= MIRAVOLY_ROOM);
    CHECK(got.refusal == 0 || got.offset == 0);
    if (q->entry == CREATE) {
        CHECK(sound(&p->arena));
        CHECK(p->arena.region == (got.refusal == 0 ? q->lent : 0));
        CHECK(p->arena.count == (got.refusal == 0 && q->size != 0));
        CHECK(p->arena.minimum == (got.refusal == 0 ? q->new_align : 1));
        before.arena = p->arena;
    } else {
        CHECK(was_sound == (got.refusal != MIRAVOLY_STATE));
        CHECK(sound(&p->arena) == was_sound);
    }
    if (got.refusal == 0) {
        write_expected(before.region, q, got.offset);
        before.arena = p->arena;
    }
    CHECK(memcmp(p, &before, sizeof before) == 0);
    return got;
}

/* ---- the tests ---- */

static void new_place(place *p, uint64_t minimum) {
    scribble(p, sizeof *p);
    CHECK(miravoly_create(&p->arena, LENGTH, minimum, 0).refusal == 0);
}

static void worked_example(void) {
    static uint8_t region[65536];
    miravoly_arena a;
    CHECK(miravoly_create(&a, sizeof region, 1, 0).refusal == 0);
    CHECK(miravoly_allocate(&a, region, sizeof region, 10, 1).offset == 438);
    CHECK(miravoly_allocate(&a, region, sizeof region, 8, 8).offset == 424);
    CHECK(miravoly_free(&a, 424, 8, 8).refusal == 0);
    CHECK(miravoly_allocate(&a, region, sizeof region, 6, 1).offset == 426);
    CHECK(miravoly_grow(&a, region, sizeof region, 426, 6, 1, 20, 1).offset == 412);
    CHECK(a.count == 1 && a.sizes[0] == 448);
}

/* The largest region, of which nothing is touched. */
static void largest_region(void) {
    const uint64_t length = MIRAVOLY_LARGEST_REGION;
    miravoly_arena a;
    CHECK(miravoly_create(&a, length + 1, 1, 0).refusal == MIRAVOLY_REGION);
    CHECK(miravoly_create(&a, length, 1, 0).refusal == 0);
    CHECK(miravoly_allocate(&a, source, length, length, 1).refusal == MIRAVOLY_ROOM);
    CHECK(miravoly_allocate(&a, source, length, length - 63, 1).refusal == MIRAVOLY_ROOM);
    CHECK(miravoly_allocate(&a, source, length, length - 64, 1).refusal == 0);
    CHECK(a.count == 1 && a.pointers[0] == 0);
}

/* An arena with one block, of 16 bytes at 432. */
static void one_block(place *p) {
    new_place(p, 1);
    CHECK(ask_checked(p, &(request){.entry = ALLOCATE, .lent = LENGTH, .size = 16, .new_align = 16}).offset == 432);
}

/* Each refusal by each call that can give it. In a row one thing is wrong, or several of which the lowest number
 * counts. */
static void refusals(void) {
    typedef struct row {
        request q;
        uint64_t refusal;
    } row;
    const uint64_t L = LENGTH, X = TOO_LARGE;
    const row rows[] = {
        {{CREATE, X, 0, 0, 0, X, 3}, MIRAVOLY_REGION},
        {{CREATE, L, 0, 0, 0, X, 3}, MIRAVOLY_SIZE},
        {{CREATE, L, 0, 0, 0, 0, 32}, MIRAVOLY_ALIGN},
        {{CREATE, L, 0, 0, 0, 2001, 1}, MIRAVOLY_ROOM},
        {{ALLOCATE, L - 1, 0, 0, 0, X, 3}, MIRAVOLY_REGION},
        {{ALLOCATE, L, 0, 0, 0, X, 3}, MIRAVOLY_SIZE},
        {{ALLOCATE, L, 0, 0, 0, 1, 3}, MIRAVOLY_ALIGN},
        {{ALLOCATE, L, 0, 0, 0, 1, 8192}, MIRAVOLY_ALIGN},
        {{ALLOCATE, L, 0, 0, 0, 2001, 1}, MIRAVOLY_ROOM},
        {{COPY_IN, L - 1, 0, 0, 0, X, 3}, MIRAVOLY_REGION},
        {{COPY_IN, L, 0, 0, 0, X, 3}, MIRAVOLY_SIZE},
        {{COPY_IN, L, 0, 0, 0, 1, 0}, MIRAVOLY_ALIGN},
        {{COPY_IN, L, 0, 0, 0, 2001, 1}, MIRAVOLY_ROOM},
        {{FILL, L + 1, 0, 0, 0, X, 3}, MIRAVOLY_REGION},
        {{FILL, L, 0, 0, 0, X, 3}, MIRAVOLY_SIZE},
        {{FILL, L, 0, 0, 0, 1, 3}, MIRAVOLY_ALIGN},
        {{FILL, L, 0, 0, 0, 2001, 1}, MIRAVOLY_ROOM},
        {{FREE, 0, 431, X, 3, 0, 0}, MIRAVOLY_SIZE},
        {{FREE, 0, 431, 16, 3, 0, 0}, MIRAVOLY_ALIGN},
        {{FREE, 0, 431, 16, 1, 0, 0}, MIRAVOLY_BLOCK},
        {{FREE, 0, 433, 16, 1, 0, 0}, MIRAVOLY_BLOCK},
        {{FREE, 0, UINT64_MAX, 16, 1, 0, 0}, MIRAVOLY_BLOCK},
        {{GROW, L - 1, 431, X, 3, 15, 3}, MIRAVOLY_REGION},
        {{GROW, L, 431, 16, 3, X, 3}, MIRAVOLY_SIZE},
        {{GROW, L, 431, 16, 16, 15, 3}, MIRAVOLY_ALIGN},
        {{GROW, L, 431, 16, 16, 15, 1}, MIRAVOLY_BLOCK},
        {{GROW, L, 432, 16, 16, 15, 1}, MIRAVOLY_DIRECTION},
        {{GROW, L, 432, 16, 16, 2001, 1}, MIRAVOLY_ROOM},
        {{GROW_ZEROED, L - 1, 431, X, 3, 15, 3}, MIRAVOLY_REGION},
        {{GROW_ZEROED, L, 431, 16, 3, X, 3}, MIRAVOLY_SIZE},
        {{GROW_ZEROED, L, 431, 16, 16, 15, 3}, MIRAVOLY_ALIGN},
        {{GROW_ZEROED, L, 431, 16, 16, 15, 1}, MIRAVOLY_BLOCK},
        {{GROW_ZEROED, L, 432, 16, 16, 15, 1}, MIRAVOLY_DIRECTION},
        {{GROW_ZEROED, L, 432, 16, 16, 2001, 1}, MIRAVOLY_ROOM},
        {{SHRINK, L - 1, 431, X, 3, 17, 3}, MIRAVOLY_REGION},
        {{SHRINK, L, 431, X, 3, 17, 3}, MIRAVOLY_SIZE},
        {{SHRINK, L, 431, 16, 3, 17, 1}, MIRAVOLY_ALIGN},
        {{SHRINK, L, 431, 16, 16, 17, 1}, MIRAVOLY_BLOCK},
        {{SHRINK, L, 432, 16, 16, 17, 1}, MIRAVOLY_DIRECTION},
        {{SHRINK, L, 432, 16, 16, 16, 4096}, MIRAVOLY_ROOM},
        {{RESIZE, L - 1, 431, X, 3, 17, 0}, MIRAVOLY_REGION},
        {{RESIZE, L, 431, 16, 3, X, 0}, MIRAVOLY_SIZE},
        {{RESIZE, L, 431, 16, 3, 17, 0}, MIRAVOLY_ALIGN},
        {{RESIZE, L, 431, 16, 16, 17, 0}, MIRAVOLY_BLOCK},
        {{RESIZE, L, 432, 16, 16, 2001, 0}, MIRAVOLY_ROOM},
        {{WITH_TOKEN, L - 1, 0, 0, 0, X, 3}, MIRAVOLY_REGION},
        {{WITH_TOKEN, L, 0, 0, 0, X, 3}, MIRAVOLY_SIZE},
        {{WITH_TOKEN, L, 0, 0, 0, 1, 3}, MIRAVOLY_ALIGN},
        {{WITH_TOKEN, L, 0, 0, 0, 2001, 1}, MIRAVOLY_ROOM},
        {{CANCEL, 0, 432, 0, 0, 2, 448}, MIRAVOLY_TOKEN},
        {{CANCEL, 0, 432, 0, 0, 1, 431}, MIRAVOLY_TOKEN},
        {{CANCEL, 0, 432, 0, 0, 1, 449}, MIRAVOLY_TOKEN},
        {{LEND, L - 1, 431, X, 3, 0, 0}, MIRAVOLY_REGION},
        {{LEND, L, 431, X, 3, 0, 0}, MIRAVOLY_SIZE},
        {{LEND, L, 431, 16, 3, 0, 0}, MIRAVOLY_ALIGN},
        {{LEND, L, 432, 17, 16, 0, 0}, MIRAVOLY_BLOCK},
        {{WALK, L - 1, 0, 0, 0, 0, 0}, MIRAVOLY_REGION},
    };
    static place p;
    for (size_t i = 0; i < sizeof rows / sizeof rows[0]; i++) {
        one_block(&p);
        CHECK(ask_checked(&p, &rows[i].q).refusal == rows[i].refusal);
    }
    for (entry e = SET_LIMIT; e < ENTRIES; e++) {
        one_block(&p);
        p.arena.count = 33;
        CHECK(ask_checked(&p, &(request){e, L - 1, 431, X, 3, X, 3}).refusal == MIRAVOLY_STATE);
        one_block(&p);
        p.arena.pointers[31] = 1;
        CHECK(ask_checked(&p, &(request){e, L, 432, 16, 16, 16, 16}).refusal == MIRAVOLY_STATE);
    }
}

/* A block's bytes through every call that moves them. */
static void carried(void) {
    static place p;
    const uint64_t L = LENGTH;
    new_place(&p, 1);
    uint64_t at = ask_checked(&p, &(request){COPY_IN, L, 0, 0, 0, 10, 1}).offset;
    CHECK(at == 438 && memcmp(p.region + at, source, 10) == 0);
    at = ask_checked(&p, &(request){GROW, L, at, 10, 1, 14, 1}).offset;
    CHECK(at == 434 && memcmp(p.region + at, source, 10) == 0);
    at = ask_checked(&p, &(request){GROW_ZEROED, L, at, 14, 1, 20, 1}).offset;
    CHECK(at == 428 && memcmp(p.region + at, source, 10) == 0 && p.region[at + 14] == 0 && p.region[at + 19] == 0);
    uint64_t neighbour = ask_checked(&p, &(request){FILL, L, 0, 0, 0, 3, 1}).offset;
    CHECK(neighbour == 425);
    at = ask_checked(&p, &(request){GROW, L, at, 20, 1, 500, 16}).offset;
    CHECK(p.arena.count == 2 && at % 16 == 0 && memcmp(p.region + at, source, 10) == 0);
    CHECK(p.region[neighbour] == 0xA5 && p.region[neighbour + 2] == 0xA5);
    at = ask_checked(&p, &(request){SHRINK, L, at, 500, 16, 10, 1}).offset;
    CHECK(memcmp(p.region + at, source, 10) == 0);
    at = ask_checked(&p, &(request){RESIZE, L, at, 10, 1, 12, 0}).offset;
    at = ask_checked(&p, &(request){RESIZE, L, at, 12, 1, 5, 0}).offset;
    CHECK(memcmp(p.region + at, source, 5) == 0);
    CHECK(ask_checked(&p, &(request){SHRINK, L, at, 5, 1, 3, 1}).offset == at);

    miravoly_said_part lent = miravoly_lend(&p.arena, p.region, L, at, 3, 1);
    CHECK(lent.refusal == 0 && lent.offset == at && lent.length == 3);
    miravoly_said_step step = miravoly_walk(&p.arena, p.region, L, 0);
    CHECK(step.left == 2 && step.offset == p.arena.pointers[1] && step.offset + step.length == 496 + 960);
    step = miravoly_walk(&p.arena, p.region, L, 1);
    CHECK(step.left == 1 && step.offset == 425 && step.length == 23);
    CHECK(miravoly_walk(&p.arena, p.region, L, 2).left == 0);

    uint64_t pointer = p.arena.pointers[1];
    miravoly_said_token got = miravoly_allocate_with_token(&p.arena, p.region, L, 7, 8);
    CHECK(got.refusal == 0 && got.count == 2 && got.pointer == pointer);
    CHECK(miravoly_cancel(&p.arena, got.offset, got.count, got.pointer).refusal == 0);
    CHECK(p.arena.pointers[1] == pointer);
    CHECK(miravoly_reset(&p.arena).refusal == 0 && p.arena.count == 1 && p.arena.pointers[0] == 496 + 960);
    CHECK(miravoly_set_limit(&p.arena, 960).refusal == 0 && p.arena.limited == 1 && p.arena.limit == 960);
    CHECK(miravoly_allocate(&p.arena, p.region, L, 961, 1).refusal == MIRAVOLY_ROOM);
    CHECK(miravoly_reset(&p.arena).refusal == 0 && p.arena.limited == 1 && p.arena.limit == 960);
    CHECK(miravoly_no_limit(&p.arena).refusal == 0 && p.arena.limited == 0 && p.arena.limit == 0);
}

/* ---- records and requests of random numbers ---- */

static uint64_t odd_number(void) {
    static const uint64_t edges[] = {0, 1, 16, 47, 48, 448, LENGTH, MIRAVOLY_LARGEST_SIZE, UINT64_MAX};
    switch (below(4)) {
    case 0:
        return any();
    case 1:
        return edges[below(sizeof edges / sizeof edges[0])] + below(3) - 1;
    case 2:
        return 1ull << below(64);
    default:
        return below(LENGTH);
    }
}

/* Chunks in any order of the table, many of which touch, in a region that may end where the last one does. */
static void sound_record(miravoly_arena *a) {
    const uint64_t wanted = below(4) == 0   ? below(33)
                            : below(4) == 0 ? 32
                                            : below(6),
                   widest = LENGTH / 16 / (wanted + 1);
    uint64_t at = below(2) ? 0 : 16 * below(2);
    memset(a, 0, sizeof *a);
    a->minimum = 1ull << below(5);
    a->limited = below(2);
    a->limit = a->limited ? odd_number() : 0;
    while (a->count < wanted) {
        uint64_t n = below(2) ? 0 : 16 * below(widest), place = below(a->count + 1);
        if (at + n + 48 > LENGTH)
            break;
        for (uint64_t i = a->count++; i > place; i--) {
            a->starts[i] = a->starts[i - 1];
            a->sizes[i] = a->sizes[i - 1];
            a->pointers[i] = a->pointers[i - 1];
        }
        a->starts[place] = at;
        a->sizes[place] = n;
        a->pointers[place] = at + (below(4) ? below(n + 1) / a->minimum * a->minimum : n);
        at += n + 48;
        a->region = at;
        at += wanted > 8 || below(2) ? 0 : 16 * below(4);
    }
    if (below(3))
        a->region = LENGTH - (a->region < LENGTH - 20 ? below(20) : 0);
}

/* Changes one number that the clause speaks of. */
static void change_one_number(miravoly_arena *a, enum clause clause) {
    const uint64_t i = a->count ? below(a->count) : 0, unused = a->count < 32 ? a->count + below(32 - a->count) : 31;
    uint64_t *const places[CLAUSES] = {
        &a->minimum,        &a->region,        &a->limited,          &a->limit,
        &a->count,          &a->starts[i],     &a->sizes[i],         below(2) ? &a->region : &a->sizes[i],
        &a->pointers[i],    &a->pointers[i],   &a->pointers[i],      below(2) ? &a->starts[i] : &a->sizes[i],
        &a->starts[unused], &a->sizes[unused], &a->pointers[unused],
    };
    const uint64_t steps[] = {1, 8, 16, 32, 48, a->minimum}, by = steps[below(6)];
    *places[clause] = below(4) == 0 ? odd_number() : below(2) ? *places[clause] + by : *places[clause] - by;
}

/* Any numbers at all, a sound record, or mostly one that is sound but for one number. */
void random_record(miravoly_arena *a) {
    const uint64_t kind = below(8);
    const enum clause clause = below(CLAUSES);
    if (kind == 0) {
        scribble(a, sizeof *a);
        return;
    }
    sound_record(a);
    for (int tries = 0; kind > 3 && tries < 16 && unsound_by(a) != 1u << clause; tries++) {
        sound_record(a);
        change_one_number(a, clause);
    }
}

/* Mostly near a chunk's pointer, so that many blocks are acceptable. */
static uint64_t some_offset(const miravoly_arena *a) {
    uint64_t i = a->count == 0 ? 0 : (a->count - 1 - (below(4) == 0 ? below(a->count) : 0)) % 32;
    return below(8) == 0 ? odd_number() : a->pointers[i] + (below(2) ? 0 : 16 * below(4));
}

static uint64_t some_size(void) { return below(8) == 0 ? odd_number() : below(80); }

static uint64_t some_align(void) { return below(16) == 0 ? odd_number() : 1ull << below(below(4) ? 5 : 13); }

void random_request(request *q, entry e, const miravoly_arena *a) {
    q->entry = e;
    /* Never more than there is: the host must see to that. */
    q->lent = e == CREATE ? odd_number() : below(16) == 0 ? below(LENGTH + 1) : a->region < LENGTH ? a->region : LENGTH;
    q->offset = some_offset(a);
    q->old = some_size();
    q->align = some_align();
    q->size = e == CANCEL || e == WALK ? a->count - below(2) + below(2) : some_size();
    /* The source has so many bytes and no more. */
    if (e == COPY_IN && q->size > TOO_LARGE)
        q->size = TOO_LARGE;
    q->new_align = e == CANCEL ? some_offset(a) : e == CREATE ? 1ull << below(6) : some_align();
}

static void random_records(unsigned long turns) {
    static place p;
    unsigned long asked = 0, unsound = 0, answered[9] = {0}, alone[CLAUSES] = {0};
    scribble(&p, sizeof p);
    for (unsigned long i = 0; i < turns; i++) {
        miravoly_arena record;
        random_record(&record);
        for (int clause = 0; clause < CLAUSES; clause++)
            alone[clause] += unsound_by(&record) == 1u << clause;
        for (entry e = 0; e < ENTRIES; e++) {
            request q;
            random_request(&q, e, &record);
            p.arena = record;
            uint64_t refusal = ask_checked(&p, &q).refusal;
            asked++;
            if (e != CREATE)
                unsound += !sound(&record);
            if (refusal <= MIRAVOLY_ROOM)
                answered[refusal]++;
        }
    }
    printf("C: %lu calls with random records (%lu unsound); served %lu, refused 1 to 8:", asked, unsound, answered[0]);
    for (int r = 1; r <= 8; r++) {
        printf(" %lu", answered[r]);
        CHECK(answered[r] > 0);
    }
    printf("\nC: records that are unsound by one clause alone, in the order of its words:");
    for (int clause = 0; clause < CLAUSES; clause++) {
        printf(" %lu", alone[clause]);
        CHECK(alone[clause] > turns / 100);
    }
    printf("\n");
    CHECK(answered[MIRAVOLY_STATE] == unsound);
}

int main(int argc, char **argv) {
    unsigned long turns = argc > 1 ? strtoul(argv[1], NULL, 10) : 50000;
    source = calloc(TOO_LARGE, 1);
    if (source == NULL)
        return 2;
    scribble(source, LENGTH);
    worked_example();
    largest_region();
    refusals();
    carried();
    random_records(turns);
    fast_entries(turns);
    sound_entries(turns);
    long_moves(turns);
    printf("C: %lu checks, %lu failed\n", checks, failures);
    return failures != 0;
}
