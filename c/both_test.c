/* Searches for two labels: every refusal at its place and in its order, what is found by hand, names of one hash, without bytes and in every parting, the same
   label twice, and random stores against brute force over what was taught and the model of both.h over the lists. */
#include "both.h"
#include "lent.h"

static const name_t a_name = NAMED("a"), b_name = NAMED("b"), c_name = NAMED("c"), none = NAMED(""), absent = NAMED("absent");

/* one vector of document 01's worked example, with some names */
static void teach_some(index_t *x, uint32_t id, float one, float two, const name_t *first, const name_t *second, const name_t *third) {
    echo_t echo = {.id = id, .vector = {one, two}, .labels = !!first + !!second + !!third, .names = {first, second, third}};
    CHECK(teach(x, &echo) == 0);
}

/* the worked example: 7 has `a` and `b`, 8 `b` and `a`, 9 `a` and `c`; a leaf has so many */
static void example(index_t *x, size_t leaf, size_t ef) {
    CHECK(make_text(x, D, 2, leaf, ef, 4, 8, 16, 64) == 0);
    teach_some(x, 7, 1.0f, 0.0f, &a_name, &b_name, NULL);
    teach_some(x, 8, 0.0f, 2.0f, &b_name, &a_name, NULL);
    teach_some(x, 9, 3.0f, 4.0f, &a_name, &c_name, NULL);
    CHECK(build(x) == 0);
}

/* ---- refusals */

/* what a search is given but for the index: lengths of the lists */
typedef struct { size_t state, floats, numbers, hashes, text, work, k, ids, distances, answer; } lens_t;

static lens_t lens(const index_t *x) {
    return (lens_t){CURATOR_STATE, x->floats_len, x->numbers_len, x->hashes_len, x->text_len, x->work_len, 4, 4, 4, CURATOR_ANSWER};
}

static uint32_t search_lent(index_t *x, answer_t *a, lens_t l, const float *vector, size_t d, const name_t *one, const name_t *two) {
    mark(a);
    return curator_search_both(x->state, l.state, x->floats, l.floats, x->numbers, l.numbers, x->hashes, l.hashes, x->text, l.text, x->work, l.work, vector, d,
                               one->bytes, one->length, one->bytes, 0, two->bytes, 0, two->bytes, two->length, l.k, a->ids, l.ids, a->distances, l.distances,
                               a->answer, l.answer);
}

/* pairs of labels that are held together, alone, twice, or not at all */
static const name_t *const pairs[][2] = {{&a_name, &b_name}, {&b_name, &a_name}, {&a_name, &a_name}, {&a_name, &none}, {&none, &none}, {&absent, &b_name}};
enum { PAIRS = sizeof pairs / sizeof pairs[0] };

/* refused, for every pair: state, store and answer lists as before; the work list too, but where it is free */
static void refused(index_t *x, lens_t l, const float *vector, size_t d, uint32_t number) {
    copy_t c = copy(x);
    uint32_t *work = copied(x->work, (x->work_len + SURPLUS) * 4);
    for (size_t i = 0; i < PAIRS; i++) {
        answer_t a;
        CHECK(search_lent(x, &a, l, vector, d, pairs[i][0], pairs[i][1]) == number);
        CHECK(answer_untouched(&a));
    }
    CHECK(unchanged(x, &c) && surplus_untouched(x));
    CHECK(number == CURATOR_DAMAGED || memcmp(work, x->work, (x->work_len + SURPLUS) * 4) == 0);
    free(work);
    forget(&c);
}

static const float not_finite[] = {1.0f, 1.0f / 0.0f};

/* rows 4 and 3, alone and with every later row: no query, one that is not finite, and short answer lists */
static void lent_so(index_t *x, size_t state, size_t floats, size_t numbers, size_t hashes, size_t text, uint32_t number) {
    lens_t l = {state, floats, numbers, hashes, text, x->work_len, 4, 4, 4, CURATOR_ANSWER};
    refused(x, l, query, D, number);
    l.work = 0;
    refused(x, l, query, D, number);
    l.ids = l.distances = l.answer = 0;
    refused(x, l, not_finite, D, number);
    refused(x, l, not_finite, 1, number);
}

/* the work list, one place too short or empty, is 3 */
static void test_work(void) {
    for (int kind = 0; kind < KINDS; kind++) {
        index_t x;
        some(&x, kind);
        for (size_t work = 0; work < x.work_len; work += work + 1 < x.work_len && work ? x.work_len - 1 - work : 1) {
            lens_t l = lens(&x);
            l.work = work;
            refused(&x, l, query, D, CURATOR_LIST_TOO_SHORT);
            l.ids = l.answer = 0;
            refused(&x, l, not_finite, 1, CURATOR_LIST_TOO_SHORT);
        }
        drop(&x);
    }
}

/* what is not finite */
static const uint32_t odd[] = {0x7F800000u, 0xFF800000u, NAN_PATTERNS};

/* answer lists that are too short for a k: any of the three */
static const lens_t shorts[] = {{.k = 4, .ids = 3, .distances = 4, .answer = 3}, {.k = 4, .ids = 4, .distances = 3, .answer = 3},
                                {.k = 4, .ids = 4, .distances = 4, .answer = 2}, {.k = 4, .ids = 4, .distances = 4, .answer = 1},
                                {.k = 4, .ids = 4, .distances = 4, .answer = 0}, {.k = 1, .ids = 0, .distances = 0, .answer = 0},
                                {.k = SIZE_MAX, .ids = 4, .distances = 4, .answer = 3}, {.k = 0, .ids = 0, .distances = 0, .answer = 2},
                                {.k = HITS, .ids = HITS - 1, .distances = HITS, .answer = 3}, {.k = HITS, .ids = HITS, .distances = HITS - 1, .answer = 3}};
enum { SHORTS = sizeof shorts / sizeof shorts[0] };

static lens_t with_answer(const index_t *x, const lens_t *s) {
    lens_t l = lens(x);
    l.k = s->k;
    l.ids = s->ids;
    l.distances = s->distances;
    l.answer = s->answer;
    return l;
}

/* 6, 7, 8, 14 and 15, each before those behind it: unbuilt, queries of another length or not finite, short answer lists, a damaged root */
static void test_order(void) {
    index_t x;
    some(&x, THREE);
    for (size_t d = 0; d <= 3; d++) {
        static const float long_query[] = {1.0f, 0.0f / 0.0f, 1.0f};
        refused(&x, lens(&x), long_query, d, CURATOR_NOT_BUILT);
        for (size_t i = 0; i < SHORTS; i++) refused(&x, with_answer(&x, shorts + i), long_query, d, CURATOR_NOT_BUILT);
    }
    drop(&x);

    for (int damaged = 0; damaged < 2; damaged++) {
        static const size_t lengths[] = {0, 1, 3, 4, 128, SIZE_MAX};
        example(&x, 1, 16);
        /* the root's first child is not above it, and its filter denies nothing */
        if (damaged) {
            x.numbers[2 * x.v + x.e + 6 * x.m] = 0;
            memset(x.hashes + CURATOR_FILTER_AT(x.e, 0), 0xff, CURATOR_FILTER * 8);
        }
        for (size_t i = 0; i <= SHORTS; i++) {
            lens_t l = i < SHORTS ? with_answer(&x, shorts + i) : lens(&x);
            for (size_t j = 0; j < sizeof lengths / sizeof lengths[0]; j++) refused(&x, l, not_finite, lengths[j], CURATOR_DIMENSION_MISMATCH);
            for (size_t j = 0; j < sizeof odd / sizeof odd[0]; j++)
                for (size_t place = 0; place < D; place++) {
                    float bad[D] = {1.0f, 1.0f};
                    memcpy(bad + place, odd + j, 4);
                    refused(&x, l, bad, D, CURATOR_NON_FINITE_INPUT);
                }
            if (i < SHORTS) refused(&x, l, query, D, CURATOR_ANSWER_TOO_SHORT);
        }
        if (damaged) refused(&x, lens(&x), query, D, CURATOR_DAMAGED);
        drop(&x);
    }
}

/* lists of just their size, and answer lists of just k */
static void test_just(void) {
    index_t x;
    answer_t a;
    example(&x, 1, 16);
    for (size_t k = 0; k <= 4; k++) {
        lens_t l = lens(&x);
        l.k = l.ids = l.distances = k;
        CHECK(search_lent(&x, &a, l, query, D, &a_name, &b_name) == 0);
        CHECK(a.answer[CURATOR_HITS] == (k < 2 ? k : 2) && answer_marked(&a, a.answer[CURATOR_HITS], CURATOR_ANSWER));
    }
    drop(&x);
}

/* ---- by hand */

/* so many nodes opened, whole or cut, and these documents, whose distances are 7's 0, 9's 0.4 and 8's 1; in either order of the labels */
static void finds(index_t *x, const name_t *one, const name_t *two, size_t opened, size_t whole, size_t hits, const uint32_t *ids) {
    for (int order = 0; order < 2; order++) {
        answer_t a;
        CHECK((order ? ask_both(x, &a, query, two, one, 8) : ask_both(x, &a, query, one, two, 8)) == 0);
        CHECK(a.answer[CURATOR_HITS] == hits && a.answer[CURATOR_OPENED] == opened && a.answer[CURATOR_WHOLE] == whole);
        CHECK(answer_marked(&a, a.answer[CURATOR_HITS], CURATOR_ANSWER));
        for (size_t i = 0; i < hits && i < a.answer[CURATOR_HITS]; i++) {
            CHECK(a.ids[i] == ids[i]);
            CHECK(bits_of(a.distances[i]) == (ids[i] == 7 ? 0x00000000u : ids[i] == 9 ? 0x3ECCCCCCu : 0x3F800000u));
        }
    }
}

/* in five nodes, and in one that is the only leaf; `c` and `b` are on different vectors */
static void test_example(void) {
    for (size_t leaf = 1; leaf <= 4; leaf += 3) {
        size_t all = leaf == 1 ? 5 : 1;
        index_t x;
        example(&x, leaf, 16);
        copy_t c = copy(&x);
        finds(&x, &a_name, &b_name, all, 1, 2, (const uint32_t[]){7, 8});
        finds(&x, &a_name, &c_name, all, 1, 1, (const uint32_t[]){9});
        finds(&x, &b_name, &c_name, all, 1, 0, NULL);
        finds(&x, &a_name, &a_name, all, 1, 3, (const uint32_t[]){7, 9, 8});
        finds(&x, &b_name, &b_name, all, 1, 2, (const uint32_t[]){7, 8});
        /* the root denies what nobody has, first or second: it is opened, and nothing waits */
        finds(&x, &a_name, &absent, 1, 1, 0, NULL);
        finds(&x, &none, &b_name, 1, 1, 0, NULL);
        finds(&x, &none, &none, 1, 1, 0, NULL);
        CHECK(unchanged(&x, &c) && surplus_untouched(&x));
        forget(&c);
        drop(&x);
    }
}

/* 7's leaf is the second node opened, 9's the fourth, 8's the fifth: a leaf that either label denies is counted as any other */
static void test_cut(void) {
    static const size_t hits[] = {0, 0, 1, 1, 1, 2};
    for (size_t ef = 0; ef <= 6; ef++) {
        size_t opened = ef < 5 ? ef : 5;
        index_t x;
        example(&x, 1, ef);
        finds(&x, &a_name, &b_name, opened, ef >= 5, hits[opened], (const uint32_t[]){7, 8});
        finds(&x, &a_name, &c_name, opened, ef >= 5, opened >= 4, (const uint32_t[]){9});
        finds(&x, &b_name, &c_name, opened, ef >= 5, 0, NULL);
        drop(&x);
    }
}

/* withdrawn vectors are not given; one taught again under its id is hidden where it comes directly behind */
static void test_withdrawn(void) {
    index_t x;
    example(&x, 1, 16);
    CHECK(curator_withdraw(STATE(&x), STORE(&x), 7) == 0);
    finds(&x, &a_name, &b_name, 5, 1, 1, (const uint32_t[]){8});
    finds(&x, &a_name, &a_name, 5, 1, 2, (const uint32_t[]){9, 8});
    CHECK(curator_withdraw(STATE(&x), STORE(&x), 8) == 0);
    finds(&x, &a_name, &b_name, 5, 1, 0, NULL);
    finds(&x, &a_name, &c_name, 5, 1, 1, (const uint32_t[]){9});
    drop(&x);

    /* the first of 7 is withdrawn; 9 stands between it and the second, if 9 has both labels */
    for (int between = 0; between < 2; between++) {
        CHECK(make_text(&x, D, 2, 4, 16, 4, 8, 16, 64) == 0);
        teach_some(&x, 8, 1.0f, 0.0f, &a_name, &b_name, NULL);
        CHECK(curator_withdraw(STATE(&x), STORE(&x), 8) == 0);
        teach_some(&x, 9, 3.0f, 4.0f, &a_name, between ? &b_name : &c_name, NULL);
        teach_some(&x, 8, 0.0f, 2.0f, &a_name, &b_name, NULL);
        CHECK(build(&x) == 0);
        finds(&x, &a_name, &b_name, 1, 1, between ? 2 : 0, (const uint32_t[]){9, 8});
        drop(&x);
    }
}

/* either label, or both, several times on a vector: one hit */
static void test_twice(void) {
    index_t x;
    CHECK(make_text(&x, D, 2, 4, 16, 4, 8, 16, 64) == 0);
    teach_some(&x, 7, 1.0f, 0.0f, &a_name, &b_name, &a_name);
    teach_some(&x, 8, 0.0f, 2.0f, &b_name, &b_name, &a_name);
    teach_some(&x, 9, 3.0f, 4.0f, &a_name, &a_name, NULL);
    CHECK(build(&x) == 0);
    finds(&x, &a_name, &b_name, 1, 1, 2, (const uint32_t[]){7, 8});
    finds(&x, &a_name, &a_name, 1, 1, 3, (const uint32_t[]){7, 9, 8});
    drop(&x);
}

/* ---- names */

/* labels of one hash are told apart by their bytes, whichever is first and whether one vector has both or two have one each */
static void test_one_hash(void) {
    for (size_t i = 0; i < ALIKE; i++)
        for (size_t j = 0; j < ALIKE; j++) {
            if (i == j) continue;
            for (size_t leaf = 1; leaf <= 4; leaf += 3) {
                index_t x;
                size_t all = leaf == 1 ? 5 : 1;
                CHECK(make_text(&x, D, 2, leaf, 16, 4, 8, 16, 64) == 0);
                teach_some(&x, 7, 1.0f, 0.0f, alike + i, NULL, NULL);
                teach_some(&x, 8, 0.0f, 2.0f, alike + j, alike + i, NULL);
                teach_some(&x, 9, 3.0f, 4.0f, alike + j, NULL, NULL);
                CHECK(build(&x) == 0);
                finds(&x, alike + i, alike + j, all, 1, 1, (const uint32_t[]){8});
                finds(&x, alike + i, alike + i, all, 1, 2, (const uint32_t[]){7, 8});
                finds(&x, alike + j, alike + j, all, 1, 2, (const uint32_t[]){9, 8});
                for (size_t other = 0; other < ALIKE; other++)
                    if (other != i && other != j) finds(&x, alike + i, alike + other, all, 1, 0, NULL);
                drop(&x);
            }
        }
}

/* names that begin with one another, and one without bytes, in every parting of both; parts of one name are not the other's */
static void test_partings(void) {
    static const name_t ab = NAMED("ab"), abc = NAMED("abc");
    static const name_t *const all[] = {&a_name, &ab, &abc, &none, alike + 1, alike + 2};
    enum { ALL = sizeof all / sizeof all[0] };
    index_t x;
    CHECK(make_text(&x, D, 2, 2, M, 9, 24, M, 200) == 0);
    for (uint32_t i = 0; i < 9; i++) {
        echo_t echo = {.id = i, .labels = 2, .names = {all[i % ALL], all[(i * 5 + 1 + i / ALL) % ALL]}};
        float stored[D];
        any_vector(echo.vector, stored);
        CHECK(teach(&x, &echo) == 0);
    }
    CHECK(build(&x) == 0);
    for (size_t i = 0; i < ALL; i++)
        for (size_t j = 0; j < ALL; j++) {
            answer_t whole, a;
            expected_t e = both_expected(&x, query, all[i], all[j], HITS);
            uint32_t number = ask_cut(&x, &whole, query, all[i], all[i]->length, all[j], all[j]->length, HITS);
            CHECK(is_expected(number, &whole, &e));
            for (size_t at = 0; at <= all[i]->length; at++)
                for (size_t other = 0; other <= all[j]->length; other++) {
                    CHECK(ask_cut(&x, &a, query, all[i], at, all[j], other, HITS) == 0);
                    CHECK(memcmp(&a, &whole, sizeof a) == 0);
                }
        }
    drop(&x);

    /* `a` and `bc`, then `ab` and `c`, and `abc` twice: only the first pair is on the vector */
    static const uint8_t *const letters = (const uint8_t *)"abc";
    static const name_t bc = NAMED("bc");
    CHECK(make_text(&x, D, 2, 2, M, 9, 24, M, 200) == 0);
    teach_some(&x, 7, 1.0f, 0.0f, &a_name, &bc, NULL);
    CHECK(build(&x) == 0);
    for (size_t one = 0; one <= 3; one++)
        for (size_t two = one; two <= 3; two++)
            for (size_t three = two; three <= 3; three++) {
                answer_t a;
                mark(&a);
                CHECK(curator_search_both(STATE(&x), STORE(&x), WORK(&x), query, D, letters, one, letters + one, two - one, letters + two, three - two,
                                          letters + three, 3 - three, 4, a.ids, HITS, a.distances, HITS, a.answer, 3)
                      == 0);
                CHECK(a.answer[CURATOR_HITS] == (two == 1));
            }
    drop(&x);
}

/* a name of any length is searched for */
static void test_long(void) {
    enum { LONG = 5000 };
    static uint8_t bytes[LONG];
    index_t x;
    answer_t a;
    example(&x, 1, 16);
    for (size_t i = 0; i < LONG; i++) bytes[i] = (uint8_t)any();
    for (size_t at = 0; at <= LONG; at += 1250)
        for (int order = 0; order < 2; order++) {
            const uint8_t *one = order ? bytes : a_name.bytes, *two = order ? a_name.bytes : bytes;
            size_t size = order ? LONG : 1, other = order ? 1 : LONG, first = order ? at : 0, second = order ? 0 : at;
            mark(&a);
            CHECK(curator_search_both(STATE(&x), STORE(&x), WORK(&x), query, D, one, first, one + first, size - first, two, second, two + second,
                                      other - second, 4, a.ids, HITS, a.distances, HITS, a.answer, 3)
                  == 0);
            CHECK(a.answer[CURATOR_HITS] == 0);
        }
    drop(&x);
}

/* ---- random stores */

/* which echoes have labels of the same bytes as both */
static void carriers(const model_t *m, const name_t *one, const name_t *two, int *carries) {
    for (size_t i = 0; i < m->vectors; i++) {
        int first = 0, second = 0;
        for (size_t j = 0; j < m->held[i].labels; j++) {
            first |= same_name(one, m->held[i].names[j]->bytes, m->held[i].names[j]->length);
            second |= same_name(two, m->held[i].names[j]->bytes, m->held[i].names[j]->length);
        }
        carries[i] = first && second;
    }
}

/* how many searches were whole or cut, found something, and found less than the first label alone */
static size_t whole, cut, found, fewer;

/* one search of two names against brute force, the model and, in the other order, itself */
static void check_pair(index_t *x, const model_t *m, const name_t *one, const name_t *two, size_t k) {
    answer_t a, b;
    int carries[V];
    hit_t hits[V];
    float heard[D], from[D];
    any_vector(heard, from);
    carriers(m, one, two, carries);
    size_t count = rank(m, carries, from, hits);
    expected_t e = check_both(x, heard, from, one, two, k);
    CHECK(ask_both(x, &a, heard, one, two, k) == 0 && ask_both(x, &b, heard, two, one, k) == 0);
    check_hits(&a, hits, count, k);
    CHECK(memcmp(&a, &b, sizeof a) == 0);
    if (one == two) check_same(x, heard, one, k);
    whole += e.whole;
    cut += !e.whole;
    found += e.hits > 0;
    fewer += ask(x, &b, heard, one, k) == 0 && b.answer[CURATOR_HITS] > e.hits;
}

/* ids all different, so that a vector's id is its number, as brute force has it */
static void test_random(void) {
    for (int round = 0; round < 1500; round++) {
        index_t x;
        model_t m = random_index(&x, below(3) ? M : below(12));
        for (int i = 0; i < 12; i++) {
            const name_t *one = names + below(NAMES), *two = below(4) ? names + below(NAMES) : one;
            /* two labels of one vector, in most cases */
            const echo_t *echo = m.held + below(m.vectors);
            if (echo->labels > 0 && below(4)) one = echo->names[below(echo->labels)], two = echo->names[below(echo->labels)];
            check_pair(&x, &m, one, two, below(3) ? V : below(V));
        }
        forget(&m.lists);
        drop(&x);
    }
    CHECK(whole > 10000 && cut > 2000 && found > 5000 && fewer > 1000);
}

/* few ids, and live marks of any kind: the model alone; a withdrawn vector hides the next of its id */
static void test_repeats(void) {
    size_t struck = 0;
    for (int round = 0; round < 1000; round++) {
        index_t x;
        model_t m = random_index(&x, below(3) ? M : below(12));
        for (size_t i = 0; i < m.vectors; i++) {
            x.numbers[i] = (uint32_t)below(4);
            if (below(3) == 0) x.numbers[live_at(&x) + i] = below(2) ? 0 : (uint32_t)any();
        }
        for (int i = 0; i < 6; i++) {
            const echo_t *echo = m.held + below(m.vectors);
            const name_t *one = echo->labels ? echo->names[below(echo->labels)] : names, *two = echo->labels ? echo->names[below(echo->labels)] : one;
            float heard[D], from[D];
            any_vector(heard, from);
            expected_t e = check_both(&x, heard, from, one, two, below(3) ? V : below(V));
            check_same(&x, heard, two, V);
            uint32_t kept[V];
            memcpy(kept, x.numbers + live_at(&x), sizeof kept);
            for (size_t j = 0; j < V; j++) x.numbers[live_at(&x) + j] = 1;
            struck += both_expected(&x, from, one, two, V).hits > e.hits;
            memcpy(x.numbers + live_at(&x), kept, sizeof kept);
        }
        forget(&m.lists);
        drop(&x);
    }
    CHECK(struck > 500);
}

/* ---- the largest */

/* 4,096 vectors and 16,384 entries in one leaf or in many; a small k, so that hits may be kept out of the queue, and a third withdrawn */
static void test_largest(void) {
    enum { MOST = 4096 };
    for (size_t leaf = 32; leaf <= MOST; leaf *= 128) {
        index_t x;
        CHECK(make_text(&x, D, 16, leaf, 65537, MOST, 4 * MOST, 8 * MOST, 64 * MOST) == 0);
        for (uint32_t i = 0; i < MOST; i++) {
            echo_t echo = {.id = i, .vector = {(float)below(2001) - 1000.0f, (float)below(2001) - 1000.0f}, .labels = 4};
            for (size_t j = 0; j < 4; j++) echo.names[j] = names + below(ADDED);
            CHECK(teach(&x, &echo) == 0);
        }
        CHECK(build(&x) == 0);
        for (int gone = 0; gone < 2; gone++) {
            for (size_t i = 0; i < 8; i++) {
                const name_t *one = names + below(ADDED), *two = i == 0 ? one : names + below(ADDED);
                static const size_t ks[] = {0, 1, 2, 5, 11, HITS};
                expected_t e = check_both(&x, query, query, one, two, ks[below(6)]);
                CHECK(e.number == 0 && e.whole == 1);
                check_same(&x, query, one, HITS);
            }
            for (uint32_t i = 0; i < MOST; i += 3) x.numbers[live_at(&x) + i] = 0;
        }
        drop(&x);
    }
}

/* one vector that has every entry there may be: half of them `a`, half `b`; and room for many vectors, of which one has the two entries that there may be */
static void test_one_owner(void) {
    enum { MOST = 16384 };
    static uint8_t lengths[2 * MOST], bytes[MOST];
    index_t x;
    for (size_t i = 0; i < MOST; i++) lengths[2 * i + 1] = 1, bytes[i] = i % 2 ? 'b' : 'a';
    CHECK(make_text(&x, D, 2, 1, 5, 1, MOST, 1, MOST) == 0);
    CHECK(curator_add(STATE(&x), STORE(&x), 7, query, D, lengths, 2 * MOST, bytes, MOST) == 0);
    CHECK(build(&x) == 0);
    finds(&x, &a_name, &b_name, 1, 1, 1, (const uint32_t[]){7});
    finds(&x, &a_name, &a_name, 1, 1, 1, (const uint32_t[]){7});
    finds(&x, &a_name, &c_name, 1, 1, 0, NULL);
    drop(&x);

    CHECK(make_text(&x, D, 2, 4096, 5, 4096, 2, 1, 2) == 0);
    for (uint32_t i = 0; i < 4096; i++) CHECK(curator_add(STATE(&x), STORE(&x), 7, query, D, lengths, i == 4095 ? 4 : 0, bytes, i == 4095 ? 2 : 0) == 0);
    CHECK(build(&x) == 0);
    for (int kind = 0; kind < FILLS; kind++) {
        fill_work(&x, kind);
        finds(&x, &a_name, &b_name, 1, 1, 1, (const uint32_t[]){7});
    }
    drop(&x);
}

int main(void) {
    check_states(lent_so);
    check_lists(lent_so);
    test_work();
    test_order();
    test_just();
    test_example();
    test_cut();
    test_withdrawn();
    test_twice();
    test_one_hash();
    test_partings();
    test_long();
    test_random();
    test_repeats();
    test_largest();
    test_one_owner();
    return report();
}
