/* Each exported function at the boundaries of its lists: the state list, the answer list, the order of the refusals, and what a refused call leaves. */
#include "check.h"

/* three vectors of document 01's worked example, built or not */
static void example(index_t *x, size_t ef, int built) {
    static const float seven[] = {1.0f, 0.0f}, eight[] = {0.0f, 2.0f}, nine[] = {3.0f, 4.0f};
    CHECK(make(x, 2, 2, 1, ef, 4, 8, 16) == 0);
    CHECK(add(x, 7, seven, "a") == 0);
    CHECK(add(x, 8, eight, "b") == 0);
    CHECK(add(x, 9, nine, "a") == 0);
    if (built) CHECK(build(x) == 0);
}

static const float query[] = {1.0f, 0.0f};

static void test_new(void) {
    size_t state[CURATOR_STATE + 1];
    memset(state, MARK, sizeof state);
    CHECK(curator_new(0, 0, 0, 0, 0, 0, 0, 0, 0, state, 0) == CURATOR_INVALID_DIMENSION);
    CHECK(curator_new(129, 16, 128, 256, 4, 1, 0, 1, 0, state, 15) == CURATOR_INVALID_DIMENSION);
    CHECK(curator_new(2, 0, 128, 256, 4, 1, 0, 1, 0, state, 0) == CURATOR_INVALID_CONFIG);
    CHECK(curator_new(2, 16, 128, 256, 65536, 1, 0, 1, 0, state, 15) == CURATOR_INVALID_CONFIG);
    CHECK(curator_new(2, 16, 128, 256, 4, 4097, 0, 1, 0, state, 15) == CURATOR_INVALID_CONFIG);
    for (size_t places = 0; places < CURATOR_STATE; places++)
        CHECK(curator_new(2, 16, 128, 256, 4, 1, 0, 1, 0, state, places) == CURATOR_INVALID_STATE);
    CHECK(is_marked(state, 0, 15, sizeof(size_t)));
    CHECK(curator_new(2, 16, 128, 256, 4, 5, 6, 7, 8, state, 14) == 0);
    static const size_t fresh[] = {2, 16, 128, 256, 4, 5, 6, 7, 0, 0, 0, 0, 8, 0};
    CHECK(memcmp(state, fresh, sizeof fresh) == 0);
    CHECK(is_marked(state, 14, 15, sizeof(size_t)));
}

/* each call on a state list of a length returns 4 and leaves everything */
static void no_state(index_t *x, size_t state_len) {
    static const uint8_t label[] = {'a'}, lengths[] = {1, 0};
    answer_t a;
    copy_t c = copy(x);
    mark(&a);
    CHECK(curator_add(x->state, state_len, STORE(x), 1, query, 2, lengths, 2, label, 1) == CURATOR_INVALID_STATE);
    CHECK(curator_add(x->state, state_len, STORE(x), 1, query, 2, lengths, 1, label, 1) == CURATOR_INVALID_STATE);
    CHECK(curator_take_back(x->state, state_len, STORE(x)) == CURATOR_INVALID_STATE);
    CHECK(curator_withdraw(x->state, state_len, STORE(x), 7) == CURATOR_INVALID_STATE);
    CHECK(curator_build(x->state, state_len, STORE(x), WORK(x)) == CURATOR_INVALID_STATE);
    CHECK(curator_search_filtered(x->state, state_len, STORE(x), WORK(x), query, 2, label, 1, label, 0, 4, a.ids, HITS, a.distances, HITS, a.answer, 3)
          == CURATOR_INVALID_STATE);
    CHECK(curator_search(x->state, state_len, STORE(x), WORK(x), query, 2, 4, a.ids, HITS, a.distances, HITS, a.answer, 3)
          == CURATOR_INVALID_STATE);
    /* row 4 comes before 3 and before 14 */
    CHECK(curator_search(x->state, state_len, x->floats, 0, x->numbers, 0, x->hashes, 0, x->text, 0, x->work, 0, query, 1, 4, a.ids, 0, a.distances, 0,
                         a.answer, 0)
          == CURATOR_INVALID_STATE);
    CHECK(answer_untouched(&a));
    CHECK(unchanged(x, &c));
    forget(&c);
}

static void test_state(void) {
    index_t x;
    for (int built = 0; built < 2; built++) {
        example(&x, 5, built);
        for (size_t places = 0; places < CURATOR_STATE; places++) no_state(&x, places);
        static const struct { size_t place, value; } unsound[] = {
            {0, 0}, {0, 129}, {1, 0}, {1, 65}, {2, 4097}, {3, 65538}, {4, 65536}, {5, 2}, {6, 2}, {7, 0}, {8, 5}, {9, 9}, {10, 17},
            {11, 2}, {11, SIZE_MAX}, {0, SIZE_MAX}, {5, SIZE_MAX}, {9, SIZE_MAX},
            /* label text: three bytes are held, and there is room for 4,080 */
            {12, 2}, {12, MOST_TEXT + 1}, {12, SIZE_MAX}, {13, 4081}, {13, SIZE_MAX}};
        for (size_t i = 0; i < sizeof unsound / sizeof unsound[0]; i++) {
            size_t kept = x.state[unsound[i].place];
            x.state[unsound[i].place] = unsound[i].value;
            no_state(&x, CURATOR_STATE + SURPLUS);
            x.state[unsound[i].place] = kept;
        }
        /* the other flag: built with no nodes, unbuilt with nodes */
        x.state[CURATOR_BUILT] = !built;
        no_state(&x, CURATOR_STATE + SURPLUS);
        drop(&x);
    }
}

static void test_add(void) {
    static const uint8_t lengths[] = {1, 0, 0, 0, 1, 1}, bytes[] = {'a', 'b', 'c'};
    static const float bad[] = {1.0f, 1.0f / 0.0f};
    index_t x;
    example(&x, 5, 0);
    static const size_t held[] = {2, 2, 1, 5, 4, 4, 8, 16, 3, 3, 0, 0, 4080, 3};
    CHECK(memcmp(x.state, held, sizeof held) == 0);
    copy_t c = copy(&x);
    CHECK(curator_add(STATE(&x), x.floats, x.floats_len - 1, x.numbers, x.numbers_len, x.hashes, x.hashes_len, x.text, x.text_len, 1, bad, 1, lengths, 6,
                      bytes, 2)
          == CURATOR_LIST_TOO_SHORT);
    CHECK(curator_add(STATE(&x), x.floats, x.floats_len, x.numbers, x.numbers_len - 1, x.hashes, x.hashes_len, x.text, x.text_len, 1, bad, 1, lengths, 6,
                      bytes, 2)
          == CURATOR_LIST_TOO_SHORT);
    CHECK(curator_add(STATE(&x), STORE(&x), 1, bad, 1, lengths, 6, bytes, 2) == CURATOR_DIMENSION_MISMATCH);
    CHECK(curator_add(STATE(&x), STORE(&x), 1, bad, 2, lengths, 6, bytes, 2) == CURATOR_NON_FINITE_INPUT);
    CHECK(curator_add(STATE(&x), STORE(&x), 1, query, 2, lengths, 6, bytes, 2) == CURATOR_LABEL_LENGTHS);
    CHECK(unchanged(&x, &c));
    CHECK(curator_add(STATE(&x), STORE(&x), 1, query, 2, lengths, 6, bytes, 3) == 0);
    CHECK(x.state[CURATOR_VECTORS_HELD] == 4 && x.state[CURATOR_ENTRIES_HELD] == 6 && x.state[CURATOR_BYTES_HELD] == 6);
    forget(&c);
    c = copy(&x);
    CHECK(curator_add(STATE(&x), STORE(&x), 1, query, 2, lengths, 6, bytes, 3) == CURATOR_VECTORS_FULL);
    CHECK(unchanged(&x, &c));
    forget(&c);
    x.state[CURATOR_VECTORS_HELD] = 3;
    c = copy(&x);
    CHECK(curator_add(STATE(&x), STORE(&x), 1, query, 2, lengths, 6, bytes, 3) == CURATOR_ENTRIES_FULL);
    CHECK(unchanged(&x, &c));
    CHECK(surplus_untouched(&x));
    forget(&c);
    drop(&x);
}

/* one echo without labels */
static uint32_t add_plain(index_t *x, const float *echo, size_t d) {
    return curator_add(STATE(x), STORE(x), 1, echo, d, (const uint8_t *)"", 0, (const uint8_t *)"", 0);
}

/* what is not finite */
static const uint32_t odd[] = {0x7F800000u, 0xFF800000u, NAN_PATTERNS};
enum { ODD = sizeof odd / sizeof odd[0] };

/* an infinity or NaN at any place of an echo is 8 and writes nothing; the squares of (1e30, -1e30) overflow, and it is stored as 0.0 and -0.0 */
static void test_components(void) {
    enum { D = 9 };
    static const float huge[] = {1e30f, -1e30f};
    index_t x;
    CHECK(make(&x, D, 1, 1, 1, 1, 0, 1) == 0);
    copy_t c = copy(&x);
    for (size_t i = 0; i < ODD; i++)
        for (size_t place = 0; place < D; place++) {
            float echo[D] = {0};
            memcpy(echo + place, odd + i, 4);
            CHECK(add_plain(&x, echo, D) == CURATOR_NON_FINITE_INPUT);
            CHECK(unchanged(&x, &c));
        }
    forget(&c);
    drop(&x);

    CHECK(make(&x, 2, 1, 1, 1, 1, 0, 1) == 0);
    void *before = floats_before(&x);
    CHECK(add_plain(&x, huge, 2) == 0);
    CHECK(bits_of(x.floats[0]) == 0 && bits_of(x.floats[1]) == 0x80000000u);
    CHECK(floats_kept(&x, before, 0, 2, 2, 2));
    drop(&x);
}

static void test_build(void) {
    index_t x;
    CHECK(make(&x, 2, 2, 1, 5, 4, 8, 16) == 0);
    copy_t c = copy(&x);
    CHECK(curator_build(STATE(&x), STORE(&x), x.work, x.work_len - 1) == CURATOR_LIST_TOO_SHORT);
    CHECK(build(&x) == CURATOR_EMPTY_INDEX);
    CHECK(unchanged(&x, &c));
    forget(&c);
    drop(&x);

    example(&x, 5, 1);
    static const size_t held[] = {2, 2, 1, 5, 4, 4, 8, 16, 3, 3, 5, 1, 4080, 3};
    CHECK(memcmp(x.state, held, sizeof held) == 0);
    c = copy(&x);
    CHECK(build(&x) == 0);
    CHECK(add(&x, 1, query, "a") == CURATOR_ALREADY_BUILT);
    CHECK(unchanged(&x, &c));
    CHECK(surplus_untouched(&x));
    forget(&c);
    drop(&x);

    /* one vector and leaf size 0: 17 nodes, one more than there is room for; an owner that no vector has */
    CHECK(make(&x, 2, 2, 0, 5, 4, 8, 16) == 0);
    CHECK(add(&x, 1, query, "a") == 0);
    size_t state[CURATOR_STATE];
    memcpy(state, x.state, sizeof state);
    CHECK(build(&x) == CURATOR_NODES_FULL);
    CHECK(memcmp(state, x.state, sizeof state) == 0);
    x.numbers[x.v] = 1;
    c = copy(&x);
    CHECK(build(&x) == CURATOR_DAMAGED);
    CHECK(unchanged(&x, &c));
    CHECK(surplus_untouched(&x));
    forget(&c);
    drop(&x);
}

/* one search of both kinds, with answer lists of some lengths */
static void both(index_t *x, const float *q, size_t q_len, size_t work_len, size_t k, size_t ids_len, size_t distances_len, size_t answer_len, uint32_t number) {
    answer_t a;
    mark(&a);
    CHECK(curator_search_filtered(STATE(x), STORE(x), x->work, work_len, q, q_len, (const uint8_t *)"", 0, (const uint8_t *)"a", 1, k,
                                  a.ids, ids_len, a.distances, distances_len, a.answer, answer_len) == number);
    CHECK(!number || answer_untouched(&a));
    mark(&a);
    CHECK(curator_search(STATE(x), STORE(x), x->work, work_len, q, q_len, k, a.ids, ids_len, a.distances, distances_len, a.answer, answer_len)
          == number);
    CHECK(!number || answer_untouched(&a));
}

static void test_search(void) {
    static const float bad[] = {0.0f, 0.0f / 0.0f};
    index_t x;
    answer_t a;
    example(&x, 5, 0);
    for (size_t n = 0; n <= 3; n++) {
        both(&x, bad, 1, x.work_len - 1, 4, 3, 3, n, CURATOR_LIST_TOO_SHORT);
        both(&x, bad, 1, x.work_len, 4, 3, 3, n, CURATOR_NOT_BUILT);
    }
    CHECK(build(&x) == 0);
    copy_t c = copy(&x);
    for (size_t n = 0; n <= 3; n++) {
        both(&x, bad, 1, x.work_len - 1, 4, 3, 3, n, CURATOR_LIST_TOO_SHORT);
        both(&x, bad, 1, x.work_len, 4, 3, 3, n, CURATOR_DIMENSION_MISMATCH);
        both(&x, bad, 2, x.work_len, 4, 3, 3, n, CURATOR_NON_FINITE_INPUT);
        both(&x, query, 2, x.work_len, 4, 3, 4, n, CURATOR_ANSWER_TOO_SHORT);
        both(&x, query, 2, x.work_len, 4, 4, 3, n, CURATOR_ANSWER_TOO_SHORT);
        both(&x, query, 2, x.work_len, SIZE_MAX, 4, 4, n, CURATOR_ANSWER_TOO_SHORT);
        both(&x, query, 2, x.work_len, 4, 4, 4, n, n < 3 ? CURATOR_ANSWER_TOO_SHORT : 0);
        both(&x, query, 2, x.work_len, 0, 0, 0, n, n < 3 ? CURATOR_ANSWER_TOO_SHORT : 0);
    }

    for (size_t i = 0; i < 2 * ODD; i++) {
        float q[2] = {1.0f, 1.0f};
        memcpy(q + i % 2, odd + i / 2, 4);
        both(&x, q, 2, x.work_len, 4, 4, 4, 3, CURATOR_NON_FINITE_INPUT);
    }

    CHECK(search_filtered(&x, &a, query, "a", 4) == 0);
    CHECK(a.answer[CURATOR_HITS] == 2 && a.answer[CURATOR_OPENED] == 5 && a.answer[CURATOR_WHOLE] == 1);
    CHECK(a.ids[0] == 7 && bits_of(a.distances[0]) == 0x00000000u);
    CHECK(a.ids[1] == 9 && bits_of(a.distances[1]) == 0x3ECCCCCCu);
    CHECK(search(&x, &a, query, 2) == 0);
    CHECK(a.answer[CURATOR_HITS] == 2 && a.answer[CURATOR_OPENED] == 5 && a.answer[CURATOR_WHOLE] == 1);
    CHECK(a.ids[0] == 7 && a.ids[1] == 9);
    CHECK(search_filtered(&x, &a, query, "", 4) == 0);
    CHECK(a.answer[CURATOR_HITS] == 0 && a.answer[CURATOR_OPENED] == 1 && a.answer[CURATOR_WHOLE] == 1);
    CHECK(unchanged(&x, &c));

    /* the root's first child is not above it */
    x.numbers[2 * x.v + x.e + 6 * x.m] = 0;
    both(&x, query, 2, x.work_len, 4, 4, 4, 3, CURATOR_DAMAGED);
    both(&x, query, 2, x.work_len, 4, 4, 4, 2, CURATOR_ANSWER_TOO_SHORT);
    CHECK(surplus_untouched(&x));
    forget(&c);
    drop(&x);

    static const struct { size_t ef, hits, opened, whole; } budgets[] = {{0, 0, 0, 0}, {2, 1, 2, 0}, {4, 2, 4, 0}, {5, 2, 5, 1}};
    for (size_t i = 0; i < 4; i++) {
        example(&x, budgets[i].ef, 1);
        CHECK(search_filtered(&x, &a, query, "a", 4) == 0);
        CHECK(a.answer[CURATOR_HITS] == budgets[i].hits && a.answer[CURATOR_OPENED] == budgets[i].opened && a.answer[CURATOR_WHOLE] == budgets[i].whole);
        drop(&x);
    }
}

int main(void) {
    test_new();
    test_state();
    test_add();
    test_components();
    test_build();
    test_search();
    return report();
}
