/* What the tests of label text share: names of one hash, calls over names, a model of adds and takings back that keeps every place of the lists, and brute
   force. The model compares names byte by byte and knows no hash but to write it. */
#include "check.h"

typedef struct { size_t length; uint8_t bytes[16]; } name_t;
#define NAMED(text) {sizeof(text) - 1, text}

/* Names of one hash, which is 0: a zero byte leaves that value as it is, so the third, which begins with the second, has it too. The last two are equally
   long. */
static const name_t alike[] = {NAMED("\xd5\x6b\xb9\x53\x42\x87\x08\x36"), NAMED("77kepQFQ8Kl"), NAMED("77kepQFQ8Kl\0"), NAMED("!0IC=VloaY"),
                               NAMED("QvXtM>@Fp%")};
enum { ALIKE = sizeof alike / sizeof alike[0] };

/* the names that random echoes have: those, three of another hash, names that begin with one another, and none at all; the last four are never added */
static const name_t names[] = {
    NAMED("\xd5\x6b\xb9\x53\x42\x87\x08\x36"), NAMED("77kepQFQ8Kl"), NAMED("77kepQFQ8Kl\0"), NAMED("!0IC=VloaY"), NAMED("QvXtM>@Fp%"),
    NAMED("77kepQFQ8Klx"), NAMED("!0IC=VloaYx"), NAMED("QvXtM>@Fp%x"), NAMED("a"), NAMED("ab"), NAMED("abc"), NAMED("b"), NAMED(""),
    NAMED("77kepQFQ8Kl\0\0"), NAMED("77kepQFQ8K"), NAMED("abcd"), NAMED("none")};
enum { NAMES = sizeof names / sizeof names[0], ADDED = NAMES - 4 };

static inline int same_name(const name_t *name, const uint8_t *bytes, size_t length) {
    if (name->length != length) return 0;
    for (size_t i = 0; i < length; i++) if (name->bytes[i] != bytes[i]) return 0;
    return 1;
}

/* ---- calls over names */

enum { D = 2, LABELS = 4 };

typedef struct { uint32_t id; float vector[D], stored[D]; size_t labels; const name_t *names[LABELS]; } echo_t;

/* the names' bytes one after the other; returns how many */
static inline size_t join(const echo_t *echo, uint8_t *bytes) {
    size_t at = 0;
    for (size_t j = 0; j < echo->labels; j++) {
        memcpy(bytes + at, echo->names[j]->bytes, echo->names[j]->length);
        at += echo->names[j]->length;
    }
    return at;
}

/* an add, each name cut anywhere */
static inline uint32_t teach(index_t *x, const echo_t *echo) {
    uint8_t lengths[2 * LABELS], bytes[LABELS * sizeof alike[0].bytes];
    for (size_t j = 0; j < echo->labels; j++) {
        size_t first = below(echo->names[j]->length + 1);
        lengths[2 * j] = (uint8_t)first;
        lengths[2 * j + 1] = (uint8_t)(echo->names[j]->length - first);
    }
    size_t count = join(echo, bytes);
    return curator_add(STATE(x), STORE(x), echo->id, echo->vector, D, lengths, 2 * echo->labels, bytes, count);
}

static const float query[] = {1.0f, 0.0f};

/* a search by name, cut anywhere */
static inline uint32_t ask(index_t *x, answer_t *a, const float *vector, const name_t *name, size_t k) {
    size_t first = below(name->length + 1);
    mark(a);
    uint32_t number = curator_search_filtered(STATE(x), STORE(x), WORK(x), vector, D, name->bytes, first, name->bytes + first, name->length - first, k,
                                              a->ids, HITS, a->distances, HITS, a->answer, CURATOR_ANSWER + SURPLUS);
    CHECK(number ? answer_untouched(a) : answer_marked(a, a->answer[CURATOR_HITS], CURATOR_ANSWER));
    return number;
}

/* ---- random adds and takings back against a model */

enum { V = 10, E = 24, M = 16 * V + 1 };

/* Pairs of whole numbers whose squares sum to a square, turned, with signs and times a power of two: the norm is exact. Zeros are not divided. */
static inline void any_vector(float *vector, float *stored) {
    static const int whole[][3] = {{0, 0, 1}, {1, 0, 1}, {3, 4, 5}, {5, 12, 13}, {8, 15, 17}, {7, 24, 25}, {20, 21, 29}};
    size_t row = below(sizeof whole / sizeof whole[0]), turn = below(2);
    float scale = (float)(1u << below(6)) / 4.0f;
    for (size_t i = 0; i < D; i++) {
        float x = (float)whole[row][(i + turn) % 2];
        if (below(2)) x = -x;
        vector[i] = x * scale;
        stored[i] = row == 0 ? vector[i] : x / (float)whole[row][2];
    }
}

static inline echo_t any_echo(uint32_t id) {
    echo_t echo = {.id = id, .labels = below(LABELS + 1)};
    size_t few = below(2) ? ALIKE : ADDED;
    any_vector(echo.vector, echo.stored);
    for (size_t j = 0; j < echo.labels; j++) echo.names[j] = names + below(few);
    return echo;
}

/* the survivors, and every place of the lists: what it held at first, or what the last add wrote that had it */
typedef struct { echo_t held[V]; size_t vectors, entries, bytes, room; copy_t lists; } model_t;

static inline uint32_t model_add(model_t *m, const echo_t *echo) {
    uint8_t bytes[LABELS * sizeof alike[0].bytes];
    size_t n = m->vectors, count = join(echo, bytes);
    if (n == V) return CURATOR_VECTORS_FULL;
    if (m->entries + echo->labels > E) return CURATOR_ENTRIES_FULL;
    if (m->bytes + count > m->room) return CURATOR_TEXT_FULL;
    memcpy(m->lists.floats + n * D, echo->stored, sizeof echo->stored);
    memcpy(m->lists.text + m->bytes, bytes, count);
    m->lists.numbers[n] = echo->id;
    m->lists.numbers[CURATOR_LIVE_AT(V, E, M) + n] = 1;
    for (size_t j = 0; j < echo->labels; j++) {
        size_t e = m->entries++;
        m->lists.numbers[V + e] = (uint32_t)n;
        m->lists.hashes[e] = hashed(CURATOR_LABEL_START, echo->names[j]->bytes, echo->names[j]->length);
        m->lists.numbers[CURATOR_STARTS_AT(V, E, M) + e] = (uint32_t)m->bytes;
        m->lists.numbers[CURATOR_LENGTHS_AT(V, E, M) + e] = (uint32_t)echo->names[j]->length;
        m->bytes += echo->names[j]->length;
    }
    m->held[m->vectors++] = *echo;
    return 0;
}

static inline uint32_t model_take_back(model_t *m) {
    if (m->vectors == 0) return CURATOR_NO_VECTOR_HELD;
    const echo_t *echo = m->held + --m->vectors;
    m->entries -= echo->labels;
    for (size_t j = 0; j < echo->labels; j++) m->bytes -= echo->names[j]->length;
    return 0;
}

/* how often each number was returned */
static size_t times[21];

/* random calls, `up` of six of them adds; what is returned and every place after each */
static inline void walk(index_t *x, model_t *m, size_t calls, size_t up) {
    for (size_t i = 0; i < calls; i++) {
        int adds = below(6) < up;
        echo_t echo = any_echo((uint32_t)m->vectors);
        uint32_t number = adds ? teach(x, &echo) : curator_take_back(STATE(x), STORE(x)), expected = adds ? model_add(m, &echo) : model_take_back(m);
        CHECK(number == expected);
        m->lists.state[CURATOR_VECTORS_HELD] = m->vectors;
        m->lists.state[CURATOR_ENTRIES_HELD] = m->entries;
        m->lists.state[CURATOR_BYTES_HELD] = m->bytes;
        CHECK(unchanged(x, &m->lists));
        times[expected]++;
    }
}

/* an index of random calls that holds a vector at least, and is built */
static inline model_t random_index(index_t *x, size_t ef) {
    size_t b = 1 + below(5), leaf = below(5), room = below(2) ? below(150) : 1000;
    CHECK(make_text(x, D, b, leaf, ef, V, E, M, room) == 0);
    model_t m = {.room = room, .lists = copy(x)};
    walk(x, &m, below(30), 2 + below(5));
    while (m.vectors == 0) walk(x, &m, 1, 6);
    CHECK(build(x) == 0);
    CHECK(memcmp(x->numbers + starts_at(x), m.lists.numbers + starts_at(x), (2 * E + V + SURPLUS) * 4) == 0);
    CHECK(memcmp(x->text, m.lists.text, room + SURPLUS) == 0);
    return m;
}

/* ---- brute force by bytes */

typedef struct { uint32_t id; float distance; } hit_t;

static inline float distance(const float *a, const float *b) {
    volatile float sum = 0.0f;
    for (size_t i = 0; i < D; i++) { volatile float p = a[i] * b[i]; sum = sum + p; }
    volatile float r = 1.0f - sum;
    return r;
}

/* the documents that carry what is searched for, by distance, then id; the id of a vector is its number */
static inline size_t rank(const model_t *m, const int *carries, const float *from, hit_t *hits) {
    size_t count = 0;
    for (uint32_t i = 0; i < m->vectors; i++) {
        hit_t hit = {i, distance(from, m->held[i].stored)};
        size_t at = count;
        if (!carries[i]) continue;
        for (; at > 0 && hit.distance < hits[at - 1].distance; at--) hits[at] = hits[at - 1];
        hits[at] = hit;
        count++;
    }
    return count;
}

/* Whether an answer is the first k of the hits. One that was cut has no others than these, and in their order. */
static inline void check_hits(const answer_t *a, const hit_t *hits, size_t count, size_t k) {
    size_t found = a->answer[CURATOR_HITS], most = k < count ? k : count, at = 0;
    CHECK(a->answer[CURATOR_WHOLE] ? found == most : found <= most);
    for (size_t i = 0; i < found && i < most; i++, at++) {
        while (!a->answer[CURATOR_WHOLE] && at < count && hits[at].id != a->ids[i]) at++;
        CHECK(at < count && a->ids[i] == hits[at].id && bits_of(a->distances[i]) == bits_of(hits[at].distance));
    }
}
