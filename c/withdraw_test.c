/* Withdrawn echoes: the refusals at their boundaries and in their order, what is written, before and after the build, random adds, takings back and
   withdrawals against a model that keeps every place, and searches against brute force: hits sorted, of neighbours with one id the first, withdrawn ones
   struck, the first k. */
#include "lent.h"

static uint32_t withdraw(index_t *x, uint32_t id) { return curator_withdraw(STATE(x), STORE(x), id); }

/* ---- refusals */

/* refused, lent so many places of each list, whether a vector has the id or none: everything as before */
static void stays(index_t *x, size_t state, size_t floats, size_t numbers, size_t hashes, size_t text, uint32_t number) {
    static const uint32_t ids[] = {7, 77};
    copy_t c = copy(x);
    for (size_t i = 0; i < sizeof ids / sizeof ids[0]; i++)
        CHECK(curator_withdraw(x->state, state, x->floats, floats, x->numbers, numbers, x->hashes, hashes, x->text, text, ids[i]) == number);
    CHECK(unchanged(x, &c));
    forget(&c);
}

/* no vector held has the id */
static void unknown(index_t *x, uint32_t id) {
    copy_t c = copy(x);
    CHECK(withdraw(x, id) == CURATOR_UNKNOWN_DOCUMENT);
    CHECK(unchanged(x, &c));
    forget(&c);
}

/* accepted, and again at once: the marks of these vectors, one bit each, become 0, and no other place changes */
static void goes(index_t *x, uint32_t id, unsigned vectors) {
    copy_t c = copy(x);
    for (size_t i = 0; i < x->v; i++) if (vectors >> i & 1) c.numbers[live_at(x) + i] = 0;
    for (int times = 0; times < 2; times++) {
        CHECK(withdraw(x, id) == 0);
        CHECK(unchanged(x, &c));
    }
    forget(&c);
}

/* lists of just their size */
static void test_lists(void) {
    for (int kind = 0; kind < KINDS; kind++) {
        index_t x;
        some(&x, kind);
        copy_t c = copy(&x);
        if (kind != NOTHING) c.numbers[live_at(&x) + 1] = 0;
        CHECK(curator_withdraw(x.state, CURATOR_STATE, x.floats, x.floats_len, x.numbers, x.numbers_len, x.hashes, x.hashes_len, x.text, x.text_len, 8)
              == (kind == NOTHING ? CURATOR_UNKNOWN_DOCUMENT : CURATOR_OK));
        CHECK(unchanged(&x, &c));
        forget(&c);
        drop(&x);
    }
}

/* settings at their limits are sound */
static void test_limits(void) {
    static const struct { size_t place, value; } limits[] = {{2, 0}, {2, 4096}, {3, 0}, {3, 65537}, {4, 0}, {4, 65535}};
    for (size_t i = 0; i < sizeof limits / sizeof limits[0]; i++) {
        index_t x;
        some(&x, THREE);
        x.state[limits[i].place] = limits[i].value;
        goes(&x, 9, 4);
        unknown(&x, 10);
        drop(&x);
    }
}

/* ids that differ in one bit, the least and the greatest, and one on several vectors; those of places that are not held are unknown */
static void test_ids(void) {
    static const uint32_t ids[] = {7, 0, UINT32_MAX, 7, 0x10007u, 0x80000007u, 263, 7};
    static const float one = 1.0f;
    for (int built = 0; built < 2; built++) {
        index_t x;
        CHECK(make(&x, 1, 1, 8, 1, 10, 8, 1) == 0);
        for (size_t i = 0; i < sizeof ids / sizeof ids[0]; i++) CHECK(add(&x, ids[i], &one, "a") == 0);
        x.numbers[8] = 50;
        x.numbers[9] = 7;
        if (built) CHECK(build(&x) == 0);
        unknown(&x, 50);
        unknown(&x, 1);
        unknown(&x, 6);
        unknown(&x, 0x5a5a5a5au);
        goes(&x, 0x10007u, 1u << 4);
        goes(&x, 7, 1u << 0 | 1u << 3 | 1u << 7);
        goes(&x, UINT32_MAX, 1u << 2);
        goes(&x, 0, 1u << 1);
        goes(&x, 263, 1u << 6);
        goes(&x, 0x80000007u, 1u << 5);
        goes(&x, 7, 0);
        drop(&x);
    }
}

/* an add writes 1 whatever stood there, a taking back leaves the mark; what was taken back is not held, and its mark is not written */
static void test_taken_back(void) {
    static const float one = 1.0f;
    index_t x;
    CHECK(make(&x, 1, 1, 8, 1, 3, 8, 1) == 0);
    x.numbers[live_at(&x)] = 0;
    CHECK(add(&x, 4, &one, "a") == 0 && add(&x, 5, &one, "a") == 0 && add(&x, 4, &one, "a") == 0);
    CHECK(x.numbers[live_at(&x)] == 1);
    CHECK(curator_take_back(STATE(&x), STORE(&x)) == 0);
    goes(&x, 4, 1);
    CHECK(x.numbers[live_at(&x) + 2] == 1);
    goes(&x, 5, 2);
    CHECK(curator_take_back(STATE(&x), STORE(&x)) == 0);
    unknown(&x, 5);
    CHECK(x.numbers[live_at(&x) + 1] == 0);
    CHECK(add(&x, 5, &one, "a") == 0);
    CHECK(x.numbers[live_at(&x) + 1] == 1 && x.numbers[live_at(&x)] == 0);
    CHECK(curator_take_back(STATE(&x), STORE(&x)) == 0 && curator_take_back(STATE(&x), STORE(&x)) == 0);
    unknown(&x, 4);
    drop(&x);
}

/* 4,096 vectors: the last alone, then all others of one id at once */
static void test_largest(void) {
    enum { LAST = 4095 };
    static const float one = 1.0f;
    index_t x;
    CHECK(make(&x, 1, 1, LAST + 1, 1, LAST + 1, LAST + 1, 1) == 0);
    for (uint32_t i = 0; i <= LAST; i++)
        CHECK(curator_add(STATE(&x), STORE(&x), i == LAST ? 1 : 2, &one, 1, (const uint8_t *)"", 0, (const uint8_t *)"", 0) == 0);
    copy_t c = copy(&x);
    c.numbers[live_at(&x) + LAST] = 0;
    CHECK(withdraw(&x, 1) == 0 && unchanged(&x, &c));
    for (size_t i = 0; i < LAST; i++) c.numbers[live_at(&x) + i] = 0;
    CHECK(withdraw(&x, 2) == 0 && unchanged(&x, &c));
    unknown(&x, 3);
    forget(&c);
    drop(&x);
}

/* ---- searches by hand */

static const float query[] = {1.0f, 0.0f};

/* the bits of the distance from the query, of vectors below */
enum { NEAR = 0x00000000, MIDDLE = 0x3ECCCCCC, FAR = 0x3F800000 };
static const float near[] = {1.0f, 0.0f}, middle[] = {3.0f, 4.0f}, mirrored[] = {3.0f, -4.0f}, far[] = {0.0f, 2.0f};

typedef struct { uint32_t id, bits; } found_t;

/* these hits, after so many nodes, whole or cut */
static void gives(const answer_t *a, size_t opened, size_t whole, size_t hits, const found_t *found) {
    CHECK(a->answer[CURATOR_HITS] == hits && a->answer[CURATOR_OPENED] == opened && a->answer[CURATOR_WHOLE] == whole);
    for (size_t i = 0; i < hits && i < a->answer[CURATOR_HITS]; i++) CHECK(a->ids[i] == found[i].id && bits_of(a->distances[i]) == found[i].bits);
}

/* both searches of document 01's worked example, the first for `a`, which 7 and 9 have, with a k that is more than there are */
static void finds(index_t *x, size_t filtered, const found_t *of_a, size_t all, const found_t *of_all) {
    answer_t a;
    CHECK(search_filtered(x, &a, query, "a", 4) == 0);
    gives(&a, 5, 1, filtered, of_a);
    CHECK(search(x, &a, query, 4) == 0);
    gives(&a, 5, 1, all, of_all);
    CHECK(search(x, &a, query, 1) == 0);
    gives(&a, 5, 1, all > 0, of_all);
}

/* withdrawn one by one, before the build or after it: the nodes are opened as before */
static void test_example(void) {
    static const found_t seven = {7, NEAR}, eight = {8, FAR}, nine = {9, MIDDLE};
    for (int before = 0; before <= 3; before++) {
        index_t x;
        some(&x, THREE);
        if (before > 0) goes(&x, 7, 1);
        if (before > 1) goes(&x, 9, 4);
        if (before > 2) goes(&x, 8, 2);
        CHECK(build(&x) == 0);
        if (before == 0) finds(&x, 2, (found_t[]){seven, nine}, 3, (found_t[]){seven, nine, eight});
        if (before <= 1) goes(&x, 7, before == 0);
        if (before <= 1) finds(&x, 1, &nine, 2, (found_t[]){nine, eight});
        if (before <= 2) goes(&x, 9, before < 2 ? 4 : 0);
        if (before <= 2) finds(&x, 0, NULL, 1, &eight);
        goes(&x, 8, before < 3 ? 2 : 0);
        finds(&x, 0, NULL, 0, NULL);
        unknown(&x, 10);
        CHECK(surplus_untouched(&x));
        drop(&x);
    }
}

/* 7's leaf is the second node opened and 9's the fourth: cut or whole, and how many were opened, is as before */
static void test_cut(void) {
    static const struct { size_t ef, hits, whole; } budgets[] = {{0, 0, 0}, {1, 0, 0}, {2, 0, 0}, {3, 0, 0}, {4, 1, 0}, {5, 1, 1}};
    static const found_t nine = {9, MIDDLE};
    for (size_t i = 0; i < sizeof budgets / sizeof budgets[0]; i++) {
        index_t x;
        answer_t a;
        some(&x, BUILT);
        x.state[CURATOR_EF_SEARCH] = budgets[i].ef;
        goes(&x, 7, 1);
        CHECK(search_filtered(&x, &a, query, "a", 4) == 0);
        gives(&a, budgets[i].ef, budgets[i].whole, budgets[i].hits, &nine);
        drop(&x);
    }
}

/* any number but 0 is live, and becomes 0; marks past the vectors held say nothing */
static void test_marks(void) {
    static const uint32_t live[] = {1, 2, 3, 256, 0x10000u, 0x7FFFFFFFu, 0x80000000u, UINT32_MAX - 1, UINT32_MAX};
    static const found_t seven = {7, NEAR}, eight = {8, FAR}, nine = {9, MIDDLE};
    for (size_t i = 0; i < sizeof live / sizeof live[0]; i++)
        for (uint32_t past = 0; past < 2; past++) {
            index_t x;
            some(&x, BUILT);
            for (size_t vector = 0; vector < 3; vector++) x.numbers[live_at(&x) + vector] = live[(i + vector) % (sizeof live / sizeof live[0])];
            x.numbers[live_at(&x) + 3] = past;
            finds(&x, 2, (found_t[]){seven, nine}, 3, (found_t[]){seven, nine, eight});
            x.numbers[live_at(&x) + 2] = 0;
            finds(&x, 1, &seven, 2, (found_t[]){seven, eight});
            goes(&x, 7, 1);
            finds(&x, 0, NULL, 1, &eight);
            x.numbers[live_at(&x) + 2] = live[i];
            finds(&x, 1, &nine, 2, (found_t[]){nine, eight});
            drop(&x);
        }
}

/* document 5 is taught, withdrawn and taught again, with 6 or without, all with the label `a`: these hits are given */
static void again(const float *first, const float *second, const float *other, size_t hits, const found_t *found) {
    index_t x;
    answer_t a;
    CHECK(make(&x, 2, 2, 8, 5, 4, 8, 16) == 0);
    CHECK(add(&x, 5, first, "a") == 0);
    goes(&x, 5, 1);
    if (other) CHECK(add(&x, 6, other, "a") == 0);
    CHECK(add(&x, 5, second, "a") == 0);
    CHECK(build(&x) == 0);
    CHECK(search(&x, &a, query, 4) == 0);
    gives(&a, 1, 1, hits, found);
    CHECK(search_filtered(&x, &a, query, "a", 4) == 0);
    gives(&a, 1, 1, hits, found);
    drop(&x);
}

/* a withdrawn vector hides a live one of its document directly behind it, at a greater distance or the same; not one before it, nor one behind another */
static void test_again(void) {
    again(near, far, NULL, 0, NULL);
    again(near, near, NULL, 0, NULL);
    again(middle, mirrored, NULL, 0, NULL);
    again(mirrored, middle, NULL, 0, NULL);
    again(far, near, NULL, 1, (found_t[]){{5, NEAR}});
    again(near, far, middle, 2, (found_t[]){{6, MIDDLE}, {5, FAR}});
    again(near, middle, far, 1, (found_t[]){{6, FAR}});
    again(middle, far, near, 1, (found_t[]){{6, NEAR}});
    again(far, near, middle, 2, (found_t[]){{5, NEAR}, {6, MIDDLE}});
    again(far, middle, near, 2, (found_t[]){{6, NEAR}, {5, MIDDLE}});
    /* at one distance the ids stand side by side */
    again(middle, mirrored, middle, 1, (found_t[]){{6, MIDDLE}});
}

/* ---- a model of random calls */

enum { D = 2, MOST = 480, LABELS = 3 };

typedef struct { uint32_t id; float vector[D], stored[D]; size_t labels; uint8_t letters[LABELS]; } echo_t;

/* Whole numbers a, b and c with a² + b² = c² below 2^24, turned, with signs and times a power of two: the norm is exact and needs no root. With a small
   `most` few are different; with 44 many are near each other. */
static void any_vector(float *vector, float *stored, size_t most) {
    int m = 1 + (int)below(most), n = (int)below((size_t)m + 1), c = m * m + n * n;
    const int whole[D] = {m * m - n * n, 2 * m * n};
    size_t turn = below(2);
    float scale = (float)(1u << below(6)) / 8.0f;
    for (size_t i = 0; i < D; i++) {
        float x = (float)whole[(i + turn) % D];
        if (below(2)) x = -x;
        vector[i] = x * scale;
        stored[i] = x / (float)c;
    }
}

static echo_t any_echo(uint32_t id, size_t most) {
    echo_t echo = {.id = id, .labels = below(LABELS + 1)};
    any_vector(echo.vector, echo.stored, most);
    for (size_t j = 0; j < echo.labels; j++) echo.letters[j] = (uint8_t)('a' + below(3));
    return echo;
}

/* what is held, and every place of the lists: what it held at first, or what the last call wrote there */
typedef struct { size_t v, e, m, vectors, entries; echo_t held[MOST]; copy_t lists; } model_t;

static uint32_t *mark_of(const model_t *m, size_t vector) { return m->lists.numbers + CURATOR_LIVE_AT(m->v, m->e, m->m) + vector; }

static uint32_t model_add(model_t *m, const echo_t *echo) {
    size_t n = m->vectors;
    if (n == m->v) return CURATOR_VECTORS_FULL;
    if (m->entries + echo->labels > m->e) return CURATOR_ENTRIES_FULL;
    memcpy(m->lists.floats + n * D, echo->stored, sizeof echo->stored);
    m->lists.numbers[n] = echo->id;
    for (size_t j = 0; j < echo->labels; j++) {
        size_t e = m->entries++;
        m->lists.numbers[m->v + e] = (uint32_t)n;
        m->lists.hashes[e] = hashed(CURATOR_LABEL_START, echo->letters + j, 1);
        m->lists.numbers[CURATOR_STARTS_AT(m->v, m->e, m->m) + e] = (uint32_t)e;
        m->lists.numbers[CURATOR_LENGTHS_AT(m->v, m->e, m->m) + e] = 1;
        m->lists.text[e] = echo->letters[j];
    }
    *mark_of(m, n) = 1;
    m->held[m->vectors++] = *echo;
    return 0;
}

static uint32_t model_take_back(model_t *m) {
    if (m->vectors == 0) return CURATOR_NO_VECTOR_HELD;
    m->entries -= m->held[--m->vectors].labels;
    return 0;
}

static uint32_t model_withdraw(model_t *m, uint32_t id) {
    uint32_t number = CURATOR_UNKNOWN_DOCUMENT;
    for (size_t i = 0; i < m->vectors; i++) {
        if (m->held[i].id != id) continue;
        *mark_of(m, i) = 0;
        number = 0;
    }
    return number;
}

/* an add; each label is one letter, which is the first part of its name or the second */
static uint32_t teach(index_t *x, const echo_t *echo) {
    uint8_t lengths[2 * LABELS];
    for (size_t j = 0; j < echo->labels; j++) {
        lengths[2 * j] = (uint8_t)below(2);
        lengths[2 * j + 1] = (uint8_t)(1 - lengths[2 * j]);
    }
    return curator_add(STATE(x), STORE(x), echo->id, echo->vector, D, lengths, 2 * echo->labels, echo->letters, echo->labels);
}

/* a label is one byte, so that entries and bytes held are one number */
static model_t make_model(index_t *x, size_t v, size_t b, size_t leaf, size_t ef) {
    model_t m = {.v = v, .e = 3 * v, .m = 16 * v + 1};
    CHECK(make_text(x, D, b, leaf, ef, m.v, m.e, m.m, m.e) == 0);
    m.lists = copy(x);
    return m;
}

static void compare(const index_t *x, model_t *m) {
    m->lists.state[CURATOR_VECTORS_HELD] = m->vectors;
    m->lists.state[CURATOR_ENTRIES_HELD] = m->lists.state[CURATOR_BYTES_HELD] = m->entries;
    CHECK(unchanged(x, &m->lists));
}

/* how often each number was returned by a withdrawal, and how many withdrawn ids were taught again */
static size_t times[25], taught_again;

/* A withdrawal of which the model says what it returns and writes; every place is compared. */
static void call_withdraw(index_t *x, model_t *m, uint32_t id) {
    uint32_t expected = model_withdraw(m, id);
    CHECK(withdraw(x, id) == expected);
    compare(x, m);
    times[expected]++;
}

static int withdrawn(const model_t *m, uint32_t id) {
    for (size_t i = 0; i < m->vectors; i++) if (m->held[i].id == id && *mark_of(m, i) == 0) return 1;
    return 0;
}

/* random calls over a few ids: adds, takings back and withdrawals, so many of nine each; every place after each */
static void walk(index_t *x, model_t *m, size_t calls, size_t adds, size_t back) {
    for (size_t i = 0; i < calls; i++) {
        size_t kind = below(9);
        uint32_t id = (uint32_t)below(6);
        if (kind < adds) {
            echo_t echo = any_echo(id, 3);
            int again = withdrawn(m, id);
            uint32_t expected = model_add(m, &echo);
            CHECK(teach(x, &echo) == expected);
            taught_again += again && expected == 0;
        } else if (kind < adds + back) {
            CHECK(curator_take_back(STATE(x), STORE(x)) == model_take_back(m));
        } else {
            call_withdraw(x, m, id);
        }
        compare(x, m);
    }
}

/* ---- brute force */

typedef struct { uint32_t key, id, vector, bits; } hit_t;

static float distance(const float *a, const float *b) {
    volatile float sum = 0.0f;
    for (size_t i = 0; i < D; i++) { volatile float p = a[i] * b[i]; sum = sum + p; }
    volatile float r = 1.0f - sum;
    return r;
}

static int by_rank(const void *a, const void *b) {
    const hit_t *x = a, *y = b;
    if (x->key != y->key) return x->key < y->key ? -1 : 1;
    if (x->id != y->id) return x->id < y->id ? -1 : 1;
    return (x->vector > y->vector) - (x->vector < y->vector);
}

/* the hits of all vectors, or one for each entry of a letter, sorted; keys order as document 01's total order does */
static size_t ranked(const model_t *m, const float *from, char letter, hit_t *hits) {
    size_t count = 0;
    for (uint32_t i = 0; i < m->vectors; i++) {
        const echo_t *echo = m->held + i;
        uint32_t bits = bits_of(distance(from, echo->stored));
        const hit_t hit = {bits >> 31 ? ~bits : bits ^ 0x80000000u, echo->id, i, bits};
        if (letter == 0) hits[count++] = hit;
        for (size_t j = 0; letter && j < echo->labels; j++) if (echo->letters[j] == letter) hits[count++] = hit;
    }
    qsort(hits, count, sizeof *hits, by_rank);
    return count;
}

/* of neighbours with one id the first stays */
static size_t dropped(hit_t *hits, size_t count) {
    size_t kept = 0;
    for (size_t i = 0; i < count; i++) if (kept == 0 || hits[kept - 1].id != hits[i].id) hits[kept++] = hits[i];
    return kept;
}

static size_t struck(const model_t *m, hit_t *hits, size_t count) {
    size_t kept = 0;
    for (size_t i = 0; i < count; i++) if (*mark_of(m, hits[i].vector)) hits[kept++] = hits[i];
    return kept;
}

/* searches in which a hit was struck, with at least 16 k hits found or with fewer, and those in which striking before dropping gives another answer */
static size_t of_many, of_few, hiding;

/* whether striking first, then dropping, gives other vectors than the first of a list */
static int hides(const model_t *m, const hit_t *all, size_t count, const hit_t *listed, size_t first, size_t k) {
    static hit_t live[LABELS * MOST];
    memcpy(live, all, count * sizeof *all);
    size_t kept = dropped(live, struck(m, live, count));
    if ((kept < k ? kept : k) != first) return 1;
    for (size_t i = 0; i < first; i++) if (live[i].vector != listed[i].vector) return 1;
    return 0;
}

/* a whole search for a letter, or for none (0), against brute force */
static void check_search(index_t *x, const model_t *m, char letter, size_t k, size_t most) {
    static hit_t all[LABELS * MOST], hits[LABELS * MOST];
    const char label[] = {letter, 0};
    float heard[D], from[D];
    answer_t a;
    any_vector(heard, from, most);
    size_t count = ranked(m, from, letter, all);
    memcpy(hits, all, count * sizeof *all);
    size_t heads = dropped(hits, count), left = struck(m, hits, heads), first = left < k ? left : k;
    CHECK((letter ? search_filtered(x, &a, heard, label, k) : search(x, &a, heard, k)) == 0);
    CHECK(a.answer[CURATOR_HITS] == first && a.answer[CURATOR_WHOLE] == 1);
    for (size_t i = 0; i < first && i < a.answer[CURATOR_HITS]; i++) CHECK(a.ids[i] == hits[i].id && bits_of(a.distances[i]) == hits[i].bits);
    of_many += k > 0 && left < heads && count >= 16 * k;
    of_few += left < heads && count < 16 * k;
    hiding += (size_t)hides(m, all, count, hits, first, k);
}

/* all kinds of searches; `d` is no vector's label */
static void check_searches(index_t *x, const model_t *m, size_t most) {
    static const char letters[] = {0, 'a', 'b', 'c', 'd'};
    for (size_t i = 0; i < sizeof letters; i++) {
        check_search(x, m, letters[i], below(HITS), most);
        check_search(x, m, letters[i], below(m->vectors / 16 + 2), most);
    }
}

/* builds: the marks stay, as the starts and lengths before them do, and from here on the lists are those that the build left */
static void build_model(index_t *x, model_t *m) {
    CHECK(build(x) == 0);
    CHECK(memcmp(x->numbers + starts_at(x), m->lists.numbers + starts_at(x), (2 * m->e + m->v + SURPLUS) * 4) == 0);
    CHECK(memcmp(x->numbers, m->lists.numbers, (m->v + m->e) * 4) == 0 && memcmp(x->text, m->lists.text, m->e + SURPLUS) == 0);
    forget(&m->lists);
    m->lists = copy(x);
}

/* few vectors: every place after each call; takings back only before the build */
static void test_random(void) {
    for (int round = 0; round < 1500; round++) {
        index_t x;
        model_t m = make_model(&x, 12, 1 + below(5), below(5), 16 * 12 + 1);
        walk(&x, &m, below(50), 3 + below(4), below(3));
        while (m.vectors == 0) walk(&x, &m, 1, 9, 0);
        build_model(&x, &m);
        for (int again = 0; again < 4; again++) {
            check_searches(&x, &m, 3);
            call_withdraw(&x, &m, (uint32_t)below(7));
            /* the last mark is another: past the vectors held 0 or 1, otherwise any number that is live */
            *mark_of(&m, 11) = x.numbers[live_at(&x) + 11] = m.vectors < 12 ? (uint32_t)below(2) : (uint32_t)any() | 1;
        }
        CHECK(surplus_untouched(&x));
        forget(&m.lists);
        drop(&x);
    }
    CHECK(times[0] > 4000 && times[CURATOR_UNKNOWN_DOCUMENT] > 1000 && taught_again > 1000);
}

/* withdraws the documents nearest to a vector, so many, which is most of what a search finds first */
static void withdraw_nearest(index_t *x, model_t *m, size_t documents, size_t most) {
    static hit_t hits[LABELS * MOST];
    float heard[D], from[D];
    any_vector(heard, from, most);
    size_t count = dropped(hits, ranked(m, from, 0, hits));
    for (size_t i = 0; i < count && i < documents; i++) {
        CHECK(withdraw(x, hits[i].id) == 0 && model_withdraw(m, hits[i].id) == 0);
    }
    compare(x, m);
}

/* Many vectors, so that at least 16 k are found: few ids or many, few directions or many, some ids withdrawn while it is taught and taught again. */
static void test_many(void) {
    of_many = of_few = hiding = 0;
    for (int round = 0; round < 250; round++) {
        static const size_t ids[] = {1, 2, 3, 8, 40, 200, 100000}, directions[] = {1, 2, 5, 44};
        index_t x;
        size_t v = 16 + below(MOST - 15), few = ids[below(7)], most = directions[below(4)], often = 4 + below(40);
        model_t m = make_model(&x, v, 2 + below(15), 4 + below(60), 16 * MOST + 1);
        while (m.vectors < v) {
            echo_t echo = any_echo((uint32_t)below(few), most);
            CHECK(teach(&x, &echo) == 0 && model_add(&m, &echo) == 0);
            uint32_t id = m.held[below(m.vectors)].id;
            if (below(often) == 0) CHECK(withdraw(&x, id) == 0 && model_withdraw(&m, id) == 0);
        }
        compare(&x, &m);
        build_model(&x, &m);
        check_searches(&x, &m, most);
        for (int again = 0; again < 4; again++) {
            withdraw_nearest(&x, &m, below(again % 2 ? v / 4 : 4), most);
            check_searches(&x, &m, most);
        }
        CHECK(surplus_untouched(&x));
        forget(&m.lists);
        drop(&x);
    }
    CHECK(of_many > 2000 && of_few > 2000 && hiding > 1000);
}

/* ---- against an index without withdrawals */

/* the answer of one whose k is no limit, without the ids that are withdrawn, and of that the first k; the same nodes opened, whole or cut alike */
static void check_alike(const answer_t *a, const answer_t *all, const model_t *m, size_t k) {
    size_t at = 0;
    for (size_t i = 0; i < all->answer[CURATOR_HITS] && at < k; i++) {
        if (withdrawn(m, all->ids[i])) continue;
        CHECK(at < a->answer[CURATOR_HITS] && a->ids[at] == all->ids[i] && bits_of(a->distances[at]) == bits_of(all->distances[i]));
        at++;
    }
    CHECK(a->answer[CURATOR_HITS] == at && a->answer[CURATOR_OPENED] == all->answer[CURATOR_OPENED]);
    CHECK(a->answer[CURATOR_WHOLE] == all->answer[CURATOR_WHOLE]);
}

/* Ids withdrawn with all their vectors, before the build or after it, and budgets that cut: at most 64 hits, so that a k of 64 is no limit. */
static void test_alike(void) {
    size_t cut = 0;
    for (int round = 0; round < 600; round++) {
        index_t x, y;
        answer_t a, all;
        float heard[D], from[D];
        size_t v = 1 + below(HITS), few = 1 + below(2 * HITS), b = 1 + below(6), leaf = below(9), ef = below(4 * v + 4), k = below(v + 2);
        model_t m = make_model(&x, v, b, leaf, ef), twin = make_model(&y, v, b, leaf, ef);
        for (size_t i = 0; i < v; i++) {
            echo_t echo = any_echo((uint32_t)below(few), 44);
            CHECK(teach(&x, &echo) == 0 && teach(&y, &echo) == 0 && model_add(&m, &echo) == 0);
        }
        for (size_t i = below(v + 1); i > 0; i--) call_withdraw(&x, &m, (uint32_t)below(few));
        CHECK(build(&x) == 0 && build(&y) == 0);
        for (size_t i = below(v + 1); i > 0; i--) CHECK(withdraw(&x, m.held[i - 1].id) == model_withdraw(&m, m.held[i - 1].id));
        for (int i = 0; i < 6; i++) {
            any_vector(heard, from, 44);
            CHECK(search(&x, &a, heard, k) == 0 && search(&y, &all, heard, HITS) == 0);
            check_alike(&a, &all, &m, k);
            CHECK(search_filtered(&x, &a, heard, "b", k) == 0 && search_filtered(&y, &all, heard, "b", HITS) == 0);
            check_alike(&a, &all, &m, k);
            cut += !a.answer[CURATOR_WHOLE];
        }
        forget(&m.lists);
        forget(&twin.lists);
        drop(&x);
        drop(&y);
    }
    CHECK(cut > 500);
}

int main(void) {
    check_states(stays);
    check_lists(stays);
    test_lists();
    test_limits();
    test_ids();
    test_taken_back();
    test_largest();
    test_example();
    test_cut();
    test_marks();
    test_again();
    test_random();
    test_many();
    test_alike();
    return report();
}
