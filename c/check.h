/* What the test programs share: an index with its lists, marked beforehand, and a count of the checks. */
#ifndef CHECK_H
#define CHECK_H

#include "curator.h"

#include <stdio.h>
#include <stdlib.h>
#include <string.h>

static int passed, failed;

#define CHECK(fact)                                                                 \
    do {                                                                            \
        if (fact) passed++;                                                         \
        else { failed++; printf("%s:%d: %s\n", __FILE__, __LINE__, #fact); }        \
    } while (0)

static inline int report(void) {
    printf("%d passed, %d failed\n", passed, failed);
    return failed != 0;
}

static inline uint32_t bits_of(float x) { uint32_t b; memcpy(&b, &x, 4); return b; }
static inline float float_of(uint32_t b) { float x; memcpy(&x, &b, 4); return x; }

/* random numbers, always the same ones */
static uint64_t seed = 88172645463325252u;
static inline uint64_t any(void) { seed ^= seed << 13; seed ^= seed >> 7; seed ^= seed << 17; return seed; }
static inline size_t below(size_t n) { return (size_t)((any() >> 20) % n); }

/* how many places each list has behind those that a call asks for, and what they hold */
enum { SURPLUS = 3, MARK = 0x5a };

/* NaNs quiet and signalling, of both signs, with and without a payload. The places of a float list hold them in turn before a call: the contracts know
   one NaN, so that a place which is left alone keeps its bits is tested here. */
#define NAN_PATTERNS 0x7FC00000u, 0xFFC00000u, 0x7F800001u, 0xFF800001u, 0x7FFFFFFFu, 0xFFFFFFFFu, 0x7FC12345u, 0xFFA54321u
static const uint32_t nan_patterns[] = {NAN_PATTERNS};
enum { NAN_COUNT = sizeof nan_patterns / sizeof nan_patterns[0] };

static inline uint32_t float_mark(size_t place) { return nan_patterns[place % NAN_COUNT]; }

static inline void mark_floats(float *list, size_t count) {
    for (size_t i = 0; i < count; i++) { uint32_t b = float_mark(i); memcpy(list + i, &b, 4); }
}

static inline int floats_marked(const float *list, size_t from, size_t to) {
    for (size_t i = from; i < to; i++) if (bits_of(list[i]) != float_mark(i)) return 0;
    return 1;
}

typedef struct {
    size_t d, b, v, e, m;
    size_t state[CURATOR_STATE + SURPLUS], floats_len, numbers_len, hashes_len, text_len, work_len;
    float *floats;
    uint32_t *numbers, *work;
    uint64_t *hashes;
    uint8_t *text;
} index_t;

static inline void *marked(size_t count, size_t size) {
    void *list = malloc(count * size);
    if (!list) abort();
    memset(list, MARK, count * size);
    return list;
}

/* the longest name that can be added, and the most bytes of label text */
enum { NAME = 510, MOST_TEXT = 4177920 };

static inline uint32_t make_text(index_t *x, size_t d, size_t b, size_t leaf, size_t ef, size_t v, size_t e, size_t m, size_t text) {
    x->d = d; x->b = b; x->v = v; x->e = e; x->m = m;
    x->floats_len = CURATOR_FLOATS_SIZE(d, b, v, m);
    x->numbers_len = CURATOR_NUMBERS_SIZE(v, e, m);
    x->hashes_len = CURATOR_HASHES_SIZE(e, m);
    x->text_len = text;
    x->work_len = CURATOR_WORK_SIZE(v, e, m);
    x->floats = marked(x->floats_len + SURPLUS, sizeof(float));
    mark_floats(x->floats, x->floats_len + SURPLUS);
    x->numbers = marked(x->numbers_len + SURPLUS, sizeof(uint32_t));
    x->hashes = marked(x->hashes_len + SURPLUS, sizeof(uint64_t));
    x->text = marked(x->text_len + SURPLUS, 1);
    x->work = marked(x->work_len + SURPLUS, sizeof(uint32_t));
    memset(x->state, MARK, sizeof x->state);
    return curator_new(d, b, leaf, ef, 4, v, e, m, text, x->state, CURATOR_STATE + SURPLUS);
}

/* with room for the longest name of every entry, as far as there may be: label text is never what an add lacks */
static inline size_t ample(size_t entries) { return entries < MOST_TEXT / NAME ? NAME * entries : MOST_TEXT; }

static inline uint32_t make(index_t *x, size_t d, size_t b, size_t leaf, size_t ef, size_t v, size_t e, size_t m) {
    return make_text(x, d, b, leaf, ef, v, e, m, ample(e));
}

static inline void drop(index_t *x) { free(x->floats); free(x->numbers); free(x->hashes); free(x->text); free(x->work); }

/* whether the bytes from a place on are the mark */
static inline int is_marked(const void *list, size_t from, size_t to, size_t size) {
    const unsigned char *p = list;
    for (size_t i = from * size; i < to * size; i++) if (p[i] != MARK) return 0;
    return 1;
}

static inline int surplus_untouched(const index_t *x) {
    return is_marked(x->state, CURATOR_STATE, CURATOR_STATE + SURPLUS, sizeof(size_t))
        && floats_marked(x->floats, x->floats_len, x->floats_len + SURPLUS)
        && is_marked(x->numbers, x->numbers_len, x->numbers_len + SURPLUS, sizeof(uint32_t))
        && is_marked(x->hashes, x->hashes_len, x->hashes_len + SURPLUS, sizeof(uint64_t))
        && is_marked(x->text, x->text_len, x->text_len + SURPLUS, 1)
        && is_marked(x->work, x->work_len, x->work_len + SURPLUS, sizeof(uint32_t));
}

#define STATE(x) (x)->state, CURATOR_STATE + SURPLUS
#define STORE(x)                                                                                                             \
    (x)->floats, (x)->floats_len + SURPLUS, (x)->numbers, (x)->numbers_len + SURPLUS, (x)->hashes, (x)->hashes_len + SURPLUS, \
        (x)->text, (x)->text_len + SURPLUS
#define WORK(x) (x)->work, (x)->work_len + SURPLUS

/* every place of the state and of the lists of the store, to compare after a call that changes nothing */
typedef struct { size_t state[CURATOR_STATE + SURPLUS]; float *floats; uint32_t *numbers; uint64_t *hashes; uint8_t *text; } copy_t;

static inline void *copied(const void *list, size_t bytes) { void *to = malloc(bytes); if (!to) abort(); return memcpy(to, list, bytes); }

static inline copy_t copy(const index_t *x) {
    copy_t c;
    memcpy(c.state, x->state, sizeof c.state);
    c.floats = copied(x->floats, (x->floats_len + SURPLUS) * 4);
    c.numbers = copied(x->numbers, (x->numbers_len + SURPLUS) * 4);
    c.hashes = copied(x->hashes, (x->hashes_len + SURPLUS) * 8);
    c.text = copied(x->text, x->text_len + SURPLUS);
    return c;
}

static inline int unchanged(const index_t *x, const copy_t *c) {
    return !memcmp(c->state, x->state, sizeof c->state) && !memcmp(c->floats, x->floats, (x->floats_len + SURPLUS) * 4)
        && !memcmp(c->numbers, x->numbers, (x->numbers_len + SURPLUS) * 4) && !memcmp(c->hashes, x->hashes, (x->hashes_len + SURPLUS) * 8)
        && !memcmp(c->text, x->text, x->text_len + SURPLUS);
}

static inline void forget(copy_t *c) { free(c->floats); free(c->numbers); free(c->hashes); free(c->text); }

/* the float list before a call, and whether each place outside two parts has the same bits after it */
static inline void *floats_before(const index_t *x) {
    size_t size = (x->floats_len + SURPLUS) * sizeof(float);
    void *before = malloc(size);
    if (!before) abort();
    return memcpy(before, x->floats, size);
}

static inline int floats_kept(const index_t *x, void *before, size_t from, size_t to, size_t from2, size_t to2) {
    const char *old = before, *new = (const char *)x->floats;
    int kept = 1;
    for (size_t i = 0; i < x->floats_len + SURPLUS; i++)
        if (!(from <= i && i < to) && !(from2 <= i && i < to2)) kept &= !memcmp(old + 4 * i, new + 4 * i, 4);
    free(before);
    return kept;
}

/* where the starts of the entries' labels stand in the numbers, their lengths, and the live marks of the vectors */
static inline size_t starts_at(const index_t *x) { return 2 * x->v + 2 * x->e + 7 * x->m; }
static inline size_t lengths_at(const index_t *x) { return 2 * x->v + 3 * x->e + 7 * x->m; }
static inline size_t live_at(const index_t *x) { return 2 * x->v + 4 * x->e + 7 * x->m; }

/* FNV-1a from a start, byte by byte */
static inline uint64_t hashed(uint64_t start, const uint8_t *bytes, size_t count) {
    for (size_t i = 0; i < count; i++) start = (start ^ bytes[i]) * 0x100000001b3u;
    return start;
}

/* a vector with one label, whose second part is the longer; it writes the vector's places */
static inline uint32_t add(index_t *x, uint32_t doc_id, const float *vector, const char *label) {
    size_t length = strlen(label), first = length / 2;
    const uint8_t lengths[] = {(uint8_t)first, (uint8_t)(length - first)};
    size_t at = x->state[CURATOR_VECTORS_HELD] * x->d;
    void *before = floats_before(x);
    uint32_t number = curator_add(STATE(x), STORE(x), doc_id, vector, x->d, lengths, 2, (const uint8_t *)label, length);
    CHECK(floats_kept(x, before, at, number ? at : at + x->d, 0, 0));
    return number;
}

/* A build writes the centroids of its nodes and the centres; refused with 13 any centroid and the centres; otherwise refused, or built before, nothing. */
static inline uint32_t build(index_t *x) {
    size_t centroids = x->v * x->d, centres = centroids + x->m * x->d;
    int built = x->state[CURATOR_BUILT] == 1;
    void *before = floats_before(x);
    uint32_t number = curator_build(STATE(x), STORE(x), WORK(x));
    size_t nodes = number == CURATOR_NODES_FULL ? x->m : x->state[CURATOR_NODES_HELD];
    int writes = !built && (number == 0 || number == CURATOR_NODES_FULL);
    CHECK(floats_kept(x, before, centroids, writes ? centroids + nodes * x->d : centroids, centres, writes ? x->floats_len : centres));
    return number;
}

enum { HITS = 64 };

/* lists for an answer, marked before each search */
typedef struct {
    uint32_t ids[HITS];
    float distances[HITS];
    size_t answer[CURATOR_ANSWER + SURPLUS];
} answer_t;

static inline void mark(answer_t *a) {
    memset(a, MARK, sizeof *a);
    mark_floats(a->distances, HITS);
}

/* whether the answer lists hold the mark from a hit on, and the answer from a place on */
static inline int answer_marked(const answer_t *a, size_t hits, size_t values) {
    return is_marked(a->ids, hits, HITS, sizeof(uint32_t)) && floats_marked(a->distances, hits, HITS)
        && is_marked(a->answer, values, CURATOR_ANSWER + SURPLUS, sizeof(size_t));
}

static inline int answer_untouched(const answer_t *a) { return answer_marked(a, 0, 0); }

/* what a search leaves alone: the floats, and the answer lists from the hit count on */
static inline uint32_t searched(const index_t *x, void *before, const answer_t *a, uint32_t number) {
    CHECK(floats_kept(x, before, 0, 0, 0, 0));
    CHECK(number ? answer_untouched(a) : answer_marked(a, a->answer[CURATOR_HITS], CURATOR_ANSWER));
    return number;
}

/* the first part of the label is the longer */
static inline uint32_t search_filtered(index_t *x, answer_t *a, const float *query, const char *label, size_t k) {
    const uint8_t *bytes = (const uint8_t *)label;
    size_t length = strlen(label), first = length - length / 2;
    void *before = floats_before(x);
    mark(a);
    return searched(x, before, a,
                    curator_search_filtered(STATE(x), STORE(x), WORK(x), query, x->d, bytes, first, bytes + first, length - first, k,
                                            a->ids, HITS, a->distances, HITS, a->answer, CURATOR_ANSWER + SURPLUS));
}

static inline uint32_t search(index_t *x, answer_t *a, const float *query, size_t k) {
    void *before = floats_before(x);
    mark(a);
    return searched(x, before, a,
                    curator_search(STATE(x), STORE(x), WORK(x), query, x->d, k, a->ids, HITS, a->distances, HITS,
                                   a->answer, CURATOR_ANSWER + SURPLUS));
}

#endif
