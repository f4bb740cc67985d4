/* Taking back the last add: its refusals at their boundaries and in their order, owners of any number, and random adds and takings back against a model
   that keeps the survivors and every place that an add wrote. */
#include "lent.h"

/* an accepted taking back: one vector and so many entries less, the bytes held no more than the start of the first of these, and every other number of the
   state and every place of every list as before */
static void goes(index_t *x, size_t entries) {
    copy_t c = copy(x);
    c.state[CURATOR_VECTORS_HELD] -= 1;
    c.state[CURATOR_ENTRIES_HELD] -= entries;
    if (entries > 0) {
        size_t start = x->numbers[starts_at(x) + c.state[CURATOR_ENTRIES_HELD]];
        if (start < c.state[CURATOR_BYTES_HELD]) c.state[CURATOR_BYTES_HELD] = start;
    }
    CHECK(curator_take_back(STATE(x), STORE(x)) == 0);
    CHECK(unchanged(x, &c));
    forget(&c);
}

/* a refused one, lent so many places of each list: everything as before */
static void stays(index_t *x, size_t state, size_t floats, size_t numbers, size_t hashes, size_t text, uint32_t number) {
    copy_t c = copy(x);
    CHECK(curator_take_back(x->state, state, x->floats, floats, x->numbers, numbers, x->hashes, hashes, x->text, text) == number);
    CHECK(unchanged(x, &c));
    forget(&c);
}

/* what a call returns that rows 4 and 3 do not refuse */
static uint32_t later(int kind) { return kind == NOTHING ? CURATOR_NO_VECTOR_HELD : kind == BUILT ? CURATOR_ALREADY_BUILT : CURATOR_OK; }

/* settings at their limits are sound */
static void test_limits(void) {
    static const struct { size_t place, value; } limits[] = {{2, 0}, {2, 4096}, {3, 0}, {3, 65537}, {4, 0}, {4, 65535}};
    for (size_t i = 0; i < sizeof limits / sizeof limits[0]; i++) {
        index_t x;
        some(&x, THREE);
        x.state[limits[i].place] = limits[i].value;
        goes(&x, 1);
        drop(&x);
    }
}

/* lists of just their size, and longer ones */
static void test_lists(void) {
    for (int kind = 0; kind < KINDS; kind++) {
        index_t x;
        some(&x, kind);
        size_t f = x.floats_len, n = x.numbers_len, h = x.hashes_len, t = x.text_len;
        if (later(kind)) {
            stays(&x, CURATOR_STATE, f, n, h, t, later(kind));
            stays(&x, CURATOR_STATE + SURPLUS, f + SURPLUS, n + SURPLUS, h + SURPLUS, t + SURPLUS, later(kind));
        } else {
            CHECK(curator_take_back(x.state, CURATOR_STATE, x.floats, f, x.numbers, n, x.hashes, h, x.text, t) == 0);
            CHECK(x.state[CURATOR_VECTORS_HELD] == 2 && x.state[CURATOR_ENTRIES_HELD] == 2 && x.state[CURATOR_BYTES_HELD] == 2);
        }
        CHECK(surplus_untouched(&x));
        drop(&x);
    }
}

/* document 01's worked example, with an echo taught and taken back before the third: the answer is the example's, and a tree takes nothing back */
static void test_example(void) {
    static const float query[] = {1.0f, 0.0f}, nine[] = {3.0f, 4.0f}, half_open[] = {5.0f, 1.0f};
    index_t x;
    answer_t a;
    some(&x, THREE);
    goes(&x, 1);
    CHECK(add(&x, 9, half_open, "a") == 0);
    goes(&x, 1);
    CHECK(add(&x, 9, nine, "a") == 0);
    CHECK(build(&x) == 0);
    static const size_t held[] = {2, 2, 1, 5, 4, 4, 8, 16, 3, 3, 5, 1, 4080, 3};
    CHECK(memcmp(x.state, held, sizeof held) == 0);
    CHECK(search_filtered(&x, &a, query, "a", 4) == 0);
    CHECK(a.answer[CURATOR_HITS] == 2 && a.answer[CURATOR_OPENED] == 5 && a.answer[CURATOR_WHOLE] == 1);
    CHECK(a.ids[0] == 7 && bits_of(a.distances[0]) == 0x00000000u);
    CHECK(a.ids[1] == 9 && bits_of(a.distances[1]) == 0x3ECCCCCCu);
    stays(&x, CURATOR_STATE, x.floats_len, x.numbers_len, x.hashes_len, x.text_len, CURATOR_ALREADY_BUILT);
    CHECK(surplus_untouched(&x));
    drop(&x);
}

/* puts owners behind each other and makes them those held; every number beside them is the last vector's, so that a read of what is not held shows */
static void put_owners(index_t *x, const uint32_t *owners, size_t count) {
    uint32_t last = (uint32_t)x->state[CURATOR_VECTORS_HELD] - 1;
    for (size_t i = 0; i < x->numbers_len; i++) x->numbers[i] = last;
    for (size_t i = 0; i < count; i++) x->numbers[x->v + i] = owners[i];
    x->state[CURATOR_ENTRIES_HELD] = count;
}

/* damaged owners, three vectors: the last is number 2 */
static void test_owners(void) {
    static const struct { size_t count, gone; uint32_t owners[5]; } cases[] = {
        {0, 0, {0}}, {1, 1, {2}}, {3, 3, {2, 2, 2}}, {5, 5, {2, 2, 2, 2, 2}}, {2, 1, {1, 2}}, {3, 2, {0, 2, 2}},
        /* an earlier entry of the last vector stays */
        {3, 1, {2, 0, 2}}, {5, 2, {2, 2, 1, 2, 2}}, {4, 2, {2, 7, 2, 2}}, {3, 0, {2, 2, 1}}, {2, 0, {2, 0}},
        /* an owner that no vector has, at the end */
        {3, 0, {2, 2, 3}}, {1, 0, {3}}, {2, 0, {3, 3}}, {2, 0, {2, UINT32_MAX}}, {2, 0, {2, 0x80000002u}}, {2, 0, {2, 0x10002u}}, {2, 0, {2, 258}},
        {1, 0, {0}}, {1, 0, {1}}};
    for (size_t i = 0; i < sizeof cases / sizeof cases[0]; i++) {
        index_t x;
        some(&x, THREE);
        put_owners(&x, cases[i].owners, cases[i].count);
        goes(&x, cases[i].gone);
        drop(&x);
    }
}

/* entries without a vector: a sound state, and 19 */
static void test_no_vector(void) {
    static const uint32_t owners[] = {0, UINT32_MAX, 0};
    index_t x;
    some(&x, THREE);
    put_owners(&x, owners, 3);
    x.state[CURATOR_VECTORS_HELD] = 0;
    stays(&x, CURATOR_STATE, x.floats_len, x.numbers_len, x.hashes_len, x.text_len, CURATOR_NO_VECTOR_HELD);
    drop(&x);
}

/* every row of up to five owners out of six numbers, for two numbers of vectors: what goes is the run of the last vector at the end */
static void test_all_owners(void) {
    for (uint32_t n = 1; n <= 4; n += 3) {
        const uint32_t choice[] = {n - 1, n, n + 1, n - 2, 0, UINT32_MAX - 1};
        for (size_t count = 0, rows = 1; count <= 5; count++, rows *= 6)
            for (size_t row = 0; row < rows; row++) {
                uint32_t owners[5];
                size_t gone = 0;
                index_t x;
                for (size_t i = 0, rest = row; i < count; i++, rest /= 6) owners[i] = choice[rest % 6];
                for (size_t i = 0; i < count; i++) gone = owners[i] == n - 1 ? gone + 1 : 0;
                CHECK(make(&x, 1, 1, 1, 1, 4, 5, 1) == 0);
                x.state[CURATOR_VECTORS_HELD] = n;
                put_owners(&x, owners, count);
                goes(&x, gone);
                drop(&x);
            }
    }
}

/* 4,096 vectors of four labels, in full lists without surplus: taken back one by one, until 19. Then every owner is the last vector: all entries go at once. */
static void test_largest(void) {
    enum { MOST = 4096 };
    static const uint8_t lengths[8] = {1, 0, 0, 1, 1, 0, 0, 1}, bytes[4] = {'a', 'b', 'c', 'd'};
    static const float one = 1.0f;
    index_t x;
    CHECK(make(&x, 1, 1, 0, 1, MOST, 4 * MOST, 1) == 0);
    for (uint32_t i = 0; i < MOST; i++) CHECK(curator_add(STATE(&x), STORE(&x), i, &one, 1, lengths, 8, bytes, 4) == 0);
    copy_t c = copy(&x);
    for (size_t i = MOST; i-- > 0;) {
        CHECK(curator_take_back(x.state, CURATOR_STATE, x.floats, x.floats_len, x.numbers, x.numbers_len, x.hashes, x.hashes_len, x.text, x.text_len) == 0);
        CHECK(x.state[CURATOR_VECTORS_HELD] == i && x.state[CURATOR_ENTRIES_HELD] == 4 * i && x.state[CURATOR_BYTES_HELD] == 4 * i);
    }
    CHECK(curator_take_back(STATE(&x), STORE(&x)) == CURATOR_NO_VECTOR_HELD);
    c.state[CURATOR_VECTORS_HELD] = c.state[CURATOR_ENTRIES_HELD] = c.state[CURATOR_BYTES_HELD] = 0;
    CHECK(unchanged(&x, &c));
    x.state[CURATOR_VECTORS_HELD] = MOST;
    x.state[CURATOR_ENTRIES_HELD] = x.state[CURATOR_BYTES_HELD] = 4 * MOST;
    for (size_t i = 0; i < 4 * MOST; i++) x.numbers[MOST + i] = MOST - 1;
    goes(&x, 4 * MOST);
    forget(&c);
    drop(&x);
}

/* The model of random calls. An echo has four components, up to three labels of up to two letters, and what an add stores of it. */
enum { D = 4, V = 12, E = 20, M = 16 * V + 1, LABELS = 3 };

typedef struct {
    uint32_t id;
    float vector[D], stored[D];
    size_t labels, bytes_len;
    uint8_t lengths[2 * LABELS], bytes[2 * LABELS];
    uint64_t hashes[LABELS];
} echo_t;

/* a name's length: that of its two parts */
static size_t name_length(const echo_t *echo, size_t j) { return (size_t)echo->lengths[2 * j] + echo->lengths[2 * j + 1]; }

/* Whole numbers whose squares sum to a square, turned, with signs and times a power of two: the norm is exact and needs no root. Zeros are not divided. */
static void any_vector(echo_t *echo) {
    static const struct { int x[D], norm; } whole[] = {
        {{0, 0, 0, 0}, 1}, {{1, 0, 0, 0}, 1}, {{1, 1, 1, 1}, 2}, {{2, 2, 1, 0}, 3}, {{3, 4, 0, 0}, 5}, {{1, 2, 2, 4}, 5}, {{2, 3, 6, 0}, 7}, {{1, 1, 3, 5}, 6}};
    size_t row = below(sizeof whole / sizeof whole[0]), turn = below(D);
    float scale = (float)(1u << below(8)) / 8.0f;
    for (size_t i = 0; i < D; i++) {
        float x = (float)whole[row].x[(i + turn) % D];
        if (below(2)) x = -x;
        echo->vector[i] = x * scale;
        echo->stored[i] = row == 0 ? echo->vector[i] : x / (float)whole[row].norm;
    }
}

static echo_t any_echo(void) {
    echo_t echo = {.id = (uint32_t)any()};
    if (below(3)) echo.id %= V;
    any_vector(&echo);
    echo.labels = below(LABELS + 1);
    for (size_t j = 0; j < echo.labels; j++) {
        uint8_t *label = echo.bytes + echo.bytes_len;
        size_t length = below(3), first = below(length + 1);
        echo.lengths[2 * j] = (uint8_t)first;
        echo.lengths[2 * j + 1] = (uint8_t)(length - first);
        for (size_t k = 0; k < length; k++) label[k] = (uint8_t)('a' + below(3));
        echo.hashes[j] = hashed(0xcbf29ce484222325u, label, length);
        echo.bytes_len += length;
    }
    return echo;
}

/* the survivors, and every place of the lists: what it held at first, or what the last add wrote that had it */
typedef struct { echo_t held[V]; size_t vectors, entries, bytes; copy_t lists; } model_t;

static uint32_t model_add(model_t *m, const echo_t *echo) {
    size_t n = m->vectors, e = m->entries;
    if (n == V) return CURATOR_VECTORS_FULL;
    if (e + echo->labels > E) return CURATOR_ENTRIES_FULL;
    memcpy(m->lists.floats + n * D, echo->stored, sizeof echo->stored);
    m->lists.numbers[n] = echo->id;
    m->lists.numbers[CURATOR_LIVE_AT(V, E, M) + n] = 1;
    memcpy(m->lists.text + m->bytes, echo->bytes, echo->bytes_len);
    for (size_t j = 0; j < echo->labels; j++) {
        m->lists.numbers[V + e + j] = (uint32_t)n;
        m->lists.hashes[e + j] = echo->hashes[j];
        m->lists.numbers[CURATOR_STARTS_AT(V, E, M) + e + j] = (uint32_t)m->bytes;
        m->lists.numbers[CURATOR_LENGTHS_AT(V, E, M) + e + j] = (uint32_t)name_length(echo, j);
        m->bytes += name_length(echo, j);
    }
    m->held[m->vectors++] = *echo;
    m->entries += echo->labels;
    return 0;
}

static uint32_t model_take_back(model_t *m) {
    if (m->vectors == 0) return CURATOR_NO_VECTOR_HELD;
    m->entries -= m->held[--m->vectors].labels;
    m->bytes -= m->held[m->vectors].bytes_len;
    return 0;
}

static void compare(const index_t *x, model_t *m) {
    m->lists.state[CURATOR_VECTORS_HELD] = m->vectors;
    m->lists.state[CURATOR_ENTRIES_HELD] = m->entries;
    m->lists.state[CURATOR_BYTES_HELD] = m->bytes;
    CHECK(unchanged(x, &m->lists));
}

static uint32_t teach(index_t *x, const echo_t *echo) {
    return curator_add(STATE(x), STORE(x), echo->id, echo->vector, D, echo->lengths, 2 * echo->labels, echo->bytes, echo->bytes_len);
}

/* how often each number was returned */
static size_t times[20];

/* random calls, `up` of six of them adds; what is returned and every place after each */
static void walk(index_t *x, model_t *m, size_t calls, size_t up) {
    for (size_t i = 0; i < calls; i++) {
        uint32_t number, expected;
        if (below(6) < up) {
            echo_t echo = any_echo();
            number = teach(x, &echo);
            expected = model_add(m, &echo);
        } else {
            number = curator_take_back(STATE(x), STORE(x));
            expected = model_take_back(m);
        }
        CHECK(number == expected);
        compare(x, m);
        times[expected]++;
    }
}

/* whether parts of two lists are the same */
#define SAME(a, b, list, at, count) (memcmp((a)->list + (at), (b)->list + (at), (count) * sizeof *(a)->list) == 0)

/* what two built indexes of the same capacities hold */
static void check_held(const index_t *x, const index_t *y) {
    size_t n = x->state[CURATOR_VECTORS_HELD], e = x->state[CURATOR_ENTRIES_HELD], nodes = x->state[CURATOR_NODES_HELD];
    CHECK(memcmp(x->state, y->state, sizeof x->state) == 0);
    CHECK(SAME(x, y, floats, 0, n * D));
    CHECK(SAME(x, y, floats, V * D, nodes * D));
    CHECK(SAME(x, y, numbers, 0, n));
    CHECK(SAME(x, y, numbers, V, e));
    CHECK(SAME(x, y, numbers, V + E, n));
    CHECK(SAME(x, y, numbers, 2 * V + E, 6 * nodes));
    CHECK(SAME(x, y, numbers, 2 * V + E + 6 * M, nodes - 1));
    CHECK(SAME(x, y, numbers, 2 * V + E + 7 * M, e));
    CHECK(SAME(x, y, numbers, CURATOR_STARTS_AT(V, E, M), e));
    CHECK(SAME(x, y, numbers, CURATOR_LENGTHS_AT(V, E, M), e));
    CHECK(SAME(x, y, numbers, CURATOR_LIVE_AT(V, E, M), n));
    CHECK(SAME(x, y, hashes, 0, e));
    CHECK(SAME(x, y, hashes, E, 4 * nodes));
    CHECK(SAME(x, y, text, 0, x->state[CURATOR_BYTES_HELD]));
}

/* a build leaves what the adds wrote, past the counts too */
static void check_added(const index_t *x, const copy_t *y) {
    CHECK(SAME(x, y, floats, 0, V * D));
    CHECK(SAME(x, y, numbers, 0, V + E));
    CHECK(SAME(x, y, numbers, CURATOR_STARTS_AT(V, E, M), 2 * E + V));
    CHECK(SAME(x, y, hashes, 0, E));
    CHECK(SAME(x, y, text, 0, x->text_len));
}

static void check_answers(index_t *x, index_t *y) {
    static const char *const labels[] = {"", "a", "b", "ab", "cc", "absent"};
    for (int i = 0; i < 6; i++) {
        answer_t a, b;
        echo_t heard = any_echo();
        size_t k = below(V + 2);
        CHECK(search(x, &a, heard.vector, k) == 0 && search(y, &b, heard.vector, k) == 0);
        CHECK(memcmp(&a, &b, sizeof a) == 0);
        CHECK(search_filtered(x, &a, heard.vector, labels[i], k) == 0 && search_filtered(y, &b, heard.vector, labels[i], k) == 0);
        CHECK(memcmp(&a, &b, sizeof a) == 0);
    }
}

/* builds the index, and one that was given the survivors alone; a built index takes nothing back */
static void check_survivors(index_t *x, const model_t *m, size_t b, size_t leaf, size_t ef) {
    index_t y;
    CHECK(make(&y, D, b, leaf, ef, V, E, M) == 0);
    for (size_t i = 0; i < m->vectors; i++) CHECK(teach(&y, m->held + i) == 0);
    CHECK(build(x) == 0 && build(&y) == 0);
    check_held(x, &y);
    check_added(x, &m->lists);
    check_answers(x, &y);
    stays(x, CURATOR_STATE, x->floats_len, x->numbers_len, x->hashes_len, x->text_len, CURATOR_ALREADY_BUILT);
    check_held(x, &y);
    CHECK(surplus_untouched(x));
    drop(&y);
}

static void test_random(void) {
    for (int round = 0; round < 2000; round++) {
        index_t x;
        size_t b = 1 + below(6), leaf = below(5), ef = below(40), calls = below(60), up = 1 + below(6);
        CHECK(make(&x, D, b, leaf, ef, V, E, M) == 0);
        model_t m = {.lists = copy(&x)};
        walk(&x, &m, calls, up);
        if (below(4) == 0) walk(&x, &m, m.vectors + 1, 0);
        while (m.vectors == 0) walk(&x, &m, 1 + below(8), 5);
        check_survivors(&x, &m, b, leaf, ef);
        forget(&m.lists);
        drop(&x);
    }
    CHECK(times[0] > 20000 && times[CURATOR_VECTORS_FULL] > 500 && times[CURATOR_ENTRIES_FULL] > 500 && times[CURATOR_NO_VECTOR_HELD] > 500);
}

int main(void) {
    check_states(stays);
    test_limits();
    check_lists(stays);
    test_lists();
    test_example();
    test_owners();
    test_no_vector();
    test_all_owners();
    test_largest();
    test_random();
    return report();
}
