/* A label is its bytes: the capacity of label text and the refusals that read it, what an add writes and a taking back leaves, labels of one hash, and starts
   and lengths that pass the bytes held. What is expected is worked out by hand, or by comparing names byte by byte. */
#include "named.h"

/* the hashes by the library, in every parting, and that the names are different */
static void test_hashes(void) {
    for (size_t i = 0; i < ALIKE; i++)
        for (size_t first = 0; first <= alike[i].length; first++) {
            uint64_t between = curator_label_hash(CURATOR_LABEL_START, alike[i].bytes, first);
            CHECK(curator_label_hash(between, alike[i].bytes + first, alike[i].length - first) == 0);
        }
    uint64_t other = curator_label_hash(CURATOR_LABEL_START, names[ALIKE].bytes, names[ALIKE].length);
    CHECK(other != 0);
    for (size_t i = ALIKE; i < ALIKE + 3; i++) CHECK(curator_label_hash(CURATOR_LABEL_START, names[i].bytes, names[i].length) == other);
    for (size_t i = 0; i < NAMES; i++)
        for (size_t j = 0; j < i; j++) CHECK(!same_name(names + i, names[j].bytes, names[j].length));
}

/* one vector of document 01's worked example, with one or two of the names */
static void teach_one(index_t *x, uint32_t id, float one, float two, const name_t *name, const name_t *second) {
    echo_t echo = {.id = id, .vector = {one, two}, .labels = second ? 2 : 1, .names = {name, second}};
    CHECK(teach(x, &echo) == 0);
}

/* document 01's worked example over names of one hash: 7 and 9 have the second, 8 has the fourth, 9 has it too if `both`; 64 bytes of text */
static void example(index_t *x, size_t ef, int both) {
    CHECK(make_text(x, D, 2, 1, ef, 4, 8, 16, 64) == 0);
    teach_one(x, 7, 1.0f, 0.0f, alike + 1, NULL);
    teach_one(x, 8, 0.0f, 2.0f, alike + 3, NULL);
    teach_one(x, 9, 3.0f, 4.0f, alike + 1, both ? alike + 3 : NULL);
}

/* the worked example asked for a name: so many nodes opened, whole or cut, and these documents; the distances are 7's 0, 9's 0.4 and 8's 1 */
static void finds(index_t *x, const name_t *name, size_t opened, size_t whole, size_t hits, const uint32_t *ids) {
    answer_t a;
    CHECK(ask(x, &a, query, name, 8) == 0);
    CHECK(a.answer[CURATOR_HITS] == hits && a.answer[CURATOR_OPENED] == opened && a.answer[CURATOR_WHOLE] == whole);
    for (size_t i = 0; i < hits && i < a.answer[CURATOR_HITS]; i++) {
        CHECK(a.ids[i] == ids[i]);
        CHECK(bits_of(a.distances[i]) == (ids[i] == 7 ? 0x00000000u : ids[i] == 9 ? 0x3ECCCCCCu : 0x3F800000u));
    }
}

static void damaged(index_t *x, const name_t *name) {
    answer_t a;
    CHECK(ask(x, &a, query, name, 8) == CURATOR_DAMAGED);
}

/* ---- capacities and refusals */

/* from 0 to 4,177,920; 1 comes before 2, and 2 before 4 */
static void test_capacity(void) {
    static const size_t allowed[] = {0, 1, 255, 65280, 65536, MOST_TEXT - 1, MOST_TEXT}, refused[] = {MOST_TEXT + 1, 1u << 22, UINT32_MAX, SIZE_MAX};
    for (size_t i = 0; i < sizeof allowed / sizeof allowed[0]; i++) {
        const size_t fresh[CURATOR_STATE] = {2, 16, 128, 256, 4, 1, 0, 1, 0, 0, 0, 0, allowed[i], 0};
        size_t state[CURATOR_STATE + 1];
        memset(state, MARK, sizeof state);
        CHECK(curator_new(2, 16, 128, 256, 4, 1, 0, 1, allowed[i], state, CURATOR_STATE) == 0);
        CHECK(memcmp(state, fresh, sizeof fresh) == 0);
        CHECK(is_marked(state, CURATOR_STATE, CURATOR_STATE + 1, sizeof(size_t)));
    }
    for (size_t i = 0; i < sizeof refused / sizeof refused[0]; i++) {
        size_t state[CURATOR_STATE + 1];
        memset(state, MARK, sizeof state);
        CHECK(curator_new(2, 16, 128, 256, 4, 1, 0, 1, refused[i], state, CURATOR_STATE + 1) == CURATOR_INVALID_CONFIG);
        CHECK(curator_new(2, 16, 128, 256, 4, 1, 0, 1, refused[i], state, CURATOR_STATE - 1) == CURATOR_INVALID_CONFIG);
        CHECK(curator_new(0, 16, 128, 256, 4, 1, 0, 1, refused[i], state, CURATOR_STATE + 1) == CURATOR_INVALID_DIMENSION);
        CHECK(is_marked(state, 0, CURATOR_STATE + 1, sizeof(size_t)));
    }
}

/* the numbers that the six calls return, with so many bytes of text lent; each call is made on the same index, which is put back in between */
enum { ADD, TAKE_BACK, WITHDRAW, BUILD, FILTERED, UNFILTERED, CALLS };

static uint32_t call(index_t *x, int kind, size_t text, answer_t *a) {
    static const uint8_t lengths[] = {1, 0}, label[] = {'a'};
#define LENT x->floats, x->floats_len, x->numbers, x->numbers_len, x->hashes, x->hashes_len, x->text, text
    switch (kind) {
        case ADD: return curator_add(STATE(x), LENT, 1, query, D, lengths, 2, label, 1);
        case TAKE_BACK: return curator_take_back(STATE(x), LENT);
        case WITHDRAW: return curator_withdraw(STATE(x), LENT, 7);
        case BUILD: return curator_build(STATE(x), LENT, WORK(x));
        case FILTERED:
            return curator_search_filtered(STATE(x), LENT, WORK(x), query, D, label, 1, label, 0, 4, a->ids, HITS, a->distances, HITS, a->answer, 3);
        default: return curator_search(STATE(x), LENT, WORK(x), query, D, 4, a->ids, HITS, a->distances, HITS, a->answer, 3);
    }
#undef LENT
}

/* 3 for every call and every length below the capacity, whatever rows come later, and nothing changed; from the capacity on, what comes later */
static void check_short(void (*fill)(index_t *), const uint32_t later[CALLS]) {
    for (int kind = 0; kind < CALLS; kind++) {
        index_t x;
        answer_t a;
        fill(&x);
        copy_t c = copy(&x);
        mark(&a);
        for (size_t text = 0; text < x.text_len; text++) {
            CHECK(call(&x, kind, text, &a) == CURATOR_LIST_TOO_SHORT);
            CHECK(unchanged(&x, &c) && answer_untouched(&a));
        }
        CHECK(call(&x, kind, x.text_len, &a) == later[kind]);
        CHECK(surplus_untouched(&x));
        forget(&c);
        drop(&x);
    }
}

static void fill_nothing(index_t *x) { CHECK(make_text(x, D, 2, 1, 5, 4, 8, 16, 7) == 0); }
static void fill_none(index_t *x) { CHECK(make_text(x, D, 2, 1, 5, 4, 8, 16, 0) == 0); }

static void fill_two(index_t *x) {
    CHECK(make_text(x, D, 2, 1, 5, 4, 8, 16, 7) == 0);
    teach_one(x, 7, 1.0f, 0.0f, names + 8, NULL);
    teach_one(x, 8, 0.0f, 2.0f, names + 9, names + 10);
}

static void fill_built(index_t *x) { fill_two(x); CHECK(build(x) == 0); }

static void test_short(void) {
    static const uint32_t nothing[CALLS] = {0, 19, 24, 12, 6, 6}, none[CALLS] = {20, 19, 24, 12, 6, 6};
    static const uint32_t two[CALLS] = {0, 0, 0, 0, 6, 6}, built[CALLS] = {5, 5, 0, 0, 0, 0};
    check_short(fill_nothing, nothing);
    check_short(fill_none, none);
    check_short(fill_two, two);
    check_short(fill_built, built);
}

/* an add of so many labels with so many bytes, the first label having them all: the number, and where it is refused everything as before */
static void returns(index_t *x, const float *vector, size_t lengths_len, size_t bytes_len, uint32_t number) {
    static const uint8_t bytes[64];
    uint8_t lengths[16] = {(uint8_t)bytes_len};
    copy_t c = copy(x);
    CHECK(curator_add(STATE(x), STORE(x), 1, vector, D, lengths, lengths_len, bytes, bytes_len) == number);
    CHECK((number != 0) == unchanged(x, &c));
    CHECK(surplus_untouched(x));
    forget(&c);
}

/* 20 exactly where the bytes held and those of the add are more than the capacity, in one label or with empty ones behind it */
static void test_full(void) {
    for (size_t room = 0; room <= 6; room++)
        for (size_t held = 0; held <= room; held++)
            for (size_t bytes = 0; bytes <= room + 2; bytes++)
                for (size_t labels = bytes ? 1 : 0; labels <= 3; labels++) {
                    index_t x;
                    CHECK(make_text(&x, D, 2, 1, 5, 2, 4, 4, room) == 0);
                    returns(&x, query, held ? 2 : 0, held, CURATOR_OK);
                    CHECK(x.state[CURATOR_BYTES_HELD] == held);
                    returns(&x, query, 2 * labels, bytes, held + bytes > room ? CURATOR_TEXT_FULL : CURATOR_OK);
                    CHECK(x.state[CURATOR_BYTES_HELD] == (held + bytes > room ? held : held + bytes));
                    drop(&x);
                }
}

/* 5, 8, 9, 10, 11, then 20: room for one vector, three entries and four bytes */
static void test_order(void) {
    static const float not_finite[] = {1.0f, 1.0f / 0.0f};
    index_t x;
    CHECK(make_text(&x, D, 2, 1, 5, 1, 3, 4, 4) == 0);
    returns(&x, not_finite, 8, 5, CURATOR_NON_FINITE_INPUT);
    returns(&x, query, 7, 5, CURATOR_LABEL_LENGTHS);
    returns(&x, query, 0, 5, CURATOR_LABEL_LENGTHS);
    returns(&x, query, 8, 5, CURATOR_ENTRIES_FULL);
    returns(&x, query, 8, 4, CURATOR_ENTRIES_FULL);
    returns(&x, query, 6, 5, CURATOR_TEXT_FULL);
    returns(&x, query, 2, 5, CURATOR_TEXT_FULL);
    returns(&x, query, 6, 4, CURATOR_OK);
    returns(&x, query, 8, 5, CURATOR_VECTORS_FULL);
    returns(&x, query, 2, 1, CURATOR_VECTORS_FULL);
    CHECK(build(&x) == 0);
    returns(&x, query, 2, 5, CURATOR_ALREADY_BUILT);
    drop(&x);

    /* a capacity that is full still takes an add without label bytes */
    CHECK(make_text(&x, D, 2, 1, 5, 3, 8, 4, 4) == 0);
    returns(&x, query, 2, 4, CURATOR_OK);
    returns(&x, query, 2, 1, CURATOR_TEXT_FULL);
    returns(&x, query, 2, 0, CURATOR_OK);
    returns(&x, query, 0, 0, CURATOR_OK);
    CHECK(x.state[CURATOR_BYTES_HELD] == 4 && x.state[CURATOR_ENTRIES_HELD] == 2 && x.state[CURATOR_VECTORS_HELD] == 3);
    drop(&x);
}

/* ---- what is written, by hand */

/* starts and lengths after the entries held, bytes after those held, a live mark for each vector, and no other place of these */
static void test_written(void) {
    static const uint8_t first[] = {1, 2, 0, 0}, second[] = {0, 2, 3, 0, 1, 1};
    index_t x;
    CHECK(make_text(&x, D, 2, 1, 5, 4, 6, 16, 12) == 0);
    CHECK(curator_add(STATE(&x), STORE(&x), 7, query, D, first, 4, (const uint8_t *)"abc", 3) == 0);
    CHECK(x.state[CURATOR_BYTES_HELD] == 3);
    CHECK(curator_add(STATE(&x), STORE(&x), 8, query, D, first, 0, (const uint8_t *)"", 0) == 0);
    CHECK(x.state[CURATOR_BYTES_HELD] == 3);
    CHECK(curator_add(STATE(&x), STORE(&x), 9, query, D, second, 6, (const uint8_t *)"dexyzfg", 7) == 0);
    CHECK(x.state[CURATOR_BYTES_HELD] == 10 && x.state[CURATOR_TEXT] == 12);
    static const uint32_t starts[] = {0, 3, 3, 5, 8}, lengths[] = {3, 0, 2, 3, 2}, live[] = {1, 1, 1};
    CHECK(x.numbers_len == 3 * 4 + 4 * 6 + 7 * 16);
    CHECK(memcmp(x.numbers + starts_at(&x), starts, sizeof starts) == 0);
    CHECK(is_marked(x.numbers, starts_at(&x) + 5, starts_at(&x) + 6, 4));
    CHECK(memcmp(x.numbers + lengths_at(&x), lengths, sizeof lengths) == 0);
    CHECK(is_marked(x.numbers, lengths_at(&x) + 5, lengths_at(&x) + 6, 4));
    CHECK(memcmp(x.numbers + live_at(&x), live, sizeof live) == 0);
    CHECK(is_marked(x.numbers, live_at(&x) + 3, x.numbers_len + SURPLUS, 4));
    CHECK(memcmp(x.text, "abcdexyzfg", 10) == 0);
    CHECK(is_marked(x.text, 10, 12 + SURPLUS, 1));
    CHECK(is_marked(x.numbers, 2 * x.v + x.e, starts_at(&x), 4));
    drop(&x);
}

/* what a build leaves of starts, lengths, live marks and text: all, answered and refused with 13 or 15 */
static void test_built(void) {
    for (int kind = 0; kind < 3; kind++) {
        index_t x;
        CHECK(make_text(&x, D, 2, kind == 1 ? 0 : 1, 5, 4, 8, 16, 64) == 0);
        teach_one(&x, 7, 1.0f, 0.0f, alike + 1, alike + 3);
        teach_one(&x, 8, 0.0f, 1.0f, alike + 1, NULL);
        if (kind == 2) x.numbers[x.v + 1] = 2;
        copy_t c = copy(&x);
        CHECK(build(&x) == (kind == 0 ? CURATOR_OK : kind == 1 ? CURATOR_NODES_FULL : CURATOR_DAMAGED));
        CHECK(memcmp(x.numbers + starts_at(&x), c.numbers + starts_at(&x), (2 * x.e + x.v + SURPLUS) * 4) == 0);
        CHECK(memcmp(x.text, c.text, x.text_len + SURPLUS) == 0);
        CHECK(x.state[CURATOR_TEXT] == 64 && x.state[CURATOR_BYTES_HELD] == 32);
        forget(&c);
        drop(&x);
    }
}

/* ---- taking back */

/* one vector less; the entries and bytes held after it, and nothing else changed */
static void goes(index_t *x, size_t entries, size_t bytes) {
    copy_t c = copy(x);
    c.state[CURATOR_VECTORS_HELD] -= 1;
    c.state[CURATOR_ENTRIES_HELD] = entries;
    c.state[CURATOR_BYTES_HELD] = bytes;
    CHECK(curator_take_back(STATE(x), STORE(x)) == 0);
    CHECK(unchanged(x, &c));
    forget(&c);
}

/* adds with two labels, none, one without bytes, one; what they brought goes with them, and its room can be filled again */
static void test_back(void) {
    index_t x;
    CHECK(make_text(&x, D, 2, 1, 5, 5, 8, 16, 18) == 0);
    for (int round = 0; round < 3; round++) {
        const echo_t none = {.id = 8, .vector = {0.0f, 1.0f}};
        teach_one(&x, 7, 1.0f, 0.0f, names + 10, names + 9);
        CHECK(teach(&x, &none) == 0);
        teach_one(&x, 9, 1.0f, 0.0f, names + 12, NULL);
        teach_one(&x, 10, 1.0f, 0.0f, alike + 2, NULL);
        CHECK(x.state[CURATOR_ENTRIES_HELD] == 4 && x.state[CURATOR_BYTES_HELD] == 17);
        returns(&x, query, 2, 2, CURATOR_TEXT_FULL);
        goes(&x, 3, 5);
        goes(&x, 2, 5);
        goes(&x, 2, 5);
        CHECK(memcmp(x.text, "abcab77kepQFQ8Kl\0", 17) == 0);
        goes(&x, 0, 0);
        CHECK(curator_take_back(STATE(&x), STORE(&x)) == CURATOR_NO_VECTOR_HELD);
    }
    CHECK(surplus_untouched(&x));
    drop(&x);
}

/* Every row of up to three entries of owners and starts that a damaged store may have, for two vectors and some numbers of bytes held. The lengths are all
   one byte, and starts that are not held are 0, so that reading one of them shows. */
static void test_back_damaged(void) {
    static const uint32_t owners[] = {1, 0, 2}, starts[] = {0, 4, 5, 6, UINT32_MAX};
    static const size_t held[] = {0, 5, 9};
    index_t x;
    CHECK(make_text(&x, 1, 1, 1, 1, 2, 4, 1, 9) == 0);
    for (size_t count = 0, rows = 1; count <= 3; count++, rows *= 15)
        for (size_t row = 0; row < 3 * rows; row++) {
            size_t first = count, rest = row / 3, bytes = held[row % 3], left = bytes;
            memset(x.numbers, 0, x.numbers_len * 4);
            for (size_t i = 0; i < count; i++, rest /= 15) {
                x.numbers[x.v + i] = owners[rest % 3];
                x.numbers[starts_at(&x) + i] = starts[rest / 3 % 5];
                x.numbers[lengths_at(&x) + i] = 1;
            }
            while (first > 0 && x.numbers[x.v + first - 1] == 1) first--;
            if (first < count && x.numbers[starts_at(&x) + first] < bytes) left = x.numbers[starts_at(&x) + first];
            x.state[CURATOR_VECTORS_HELD] = 2;
            x.state[CURATOR_ENTRIES_HELD] = count;
            x.state[CURATOR_BYTES_HELD] = bytes;
            goes(&x, first, left);
        }
    drop(&x);
}

/* ---- labels of one hash, by hand */

/* each label finds its own documents, though every filter has their hash; one of that hash which nobody has finds none, after the same walk */
static void test_one_hash(void) {
    index_t x;
    static const uint64_t filter[] = {1, 0, 0, 0};
    example(&x, 5, 0);
    CHECK(build(&x) == 0);
    CHECK(x.hashes[0] == 0 && x.hashes[1] == 0 && x.hashes[2] == 0);
    for (size_t node = 0; node < 5; node++) CHECK(memcmp(x.hashes + CURATOR_FILTER_AT(x.e, node), filter, sizeof filter) == 0);
    finds(&x, alike + 1, 5, 1, 2, (const uint32_t[]){7, 9});
    finds(&x, alike + 3, 5, 1, 1, (const uint32_t[]){8});
    finds(&x, alike + 0, 5, 1, 0, NULL);
    finds(&x, alike + 2, 5, 1, 0, NULL);
    finds(&x, alike + 4, 5, 1, 0, NULL);
    finds(&x, names + 8, 1, 1, 0, NULL);
    drop(&x);

    example(&x, 5, 1);
    CHECK(build(&x) == 0);
    finds(&x, alike + 1, 5, 1, 2, (const uint32_t[]){7, 9});
    finds(&x, alike + 3, 5, 1, 2, (const uint32_t[]){9, 8});
    finds(&x, alike + 0, 5, 1, 0, NULL);
    CHECK(surplus_untouched(&x));
    drop(&x);
}

/* the pair of the eight bytes and the eleven letters, on one vector each and on one vector */
static void test_pair(void) {
    index_t x;
    CHECK(make_text(&x, D, 2, 4, 5, 4, 8, 16, 64) == 0);
    teach_one(&x, 7, 1.0f, 0.0f, alike + 0, NULL);
    teach_one(&x, 9, 3.0f, 4.0f, alike + 1, NULL);
    CHECK(build(&x) == 0);
    finds(&x, alike + 0, 1, 1, 1, (const uint32_t[]){7});
    finds(&x, alike + 1, 1, 1, 1, (const uint32_t[]){9});
    drop(&x);
    CHECK(make_text(&x, D, 2, 4, 5, 4, 8, 16, 64) == 0);
    teach_one(&x, 8, 0.0f, 2.0f, alike + 1, NULL);
    teach_one(&x, 7, 1.0f, 0.0f, alike + 0, alike + 1);
    teach_one(&x, 9, 3.0f, 4.0f, alike + 0, NULL);
    CHECK(build(&x) == 0);
    finds(&x, alike + 0, 1, 1, 2, (const uint32_t[]){7, 9});
    finds(&x, alike + 1, 1, 1, 2, (const uint32_t[]){7, 8});
    drop(&x);
}

/* a name and one that begins with it, of one hash and of two; either is added first */
static void test_fronts(void) {
    static const struct { const name_t *shorter, *longer; } fronts[] = {{alike + 1, alike + 2}, {names + 8, names + 9}, {names + 9, names + 10},
                                                                       {names + 12, names + 8}, {names + 12, alike + 0}};
    for (size_t i = 0; i < 2 * (sizeof fronts / sizeof fronts[0]); i++) {
        const name_t *one = i % 2 ? fronts[i / 2].longer : fronts[i / 2].shorter, *two = i % 2 ? fronts[i / 2].shorter : fronts[i / 2].longer;
        index_t x;
        CHECK(make_text(&x, D, 2, 4, 5, 4, 8, 16, 64) == 0);
        teach_one(&x, 7, 1.0f, 0.0f, one, NULL);
        teach_one(&x, 8, 0.0f, 2.0f, two, NULL);
        CHECK(build(&x) == 0);
        finds(&x, one, 1, 1, 1, (const uint32_t[]){7});
        finds(&x, two, 1, 1, 1, (const uint32_t[]){8});
        drop(&x);
    }
}

/* ---- damage, by hand: 32 bytes are held, 64 there is room for; entry 1 is the one of 8, at place 11 with 10 bytes, entry 2 that of 9, at 21 with 11 */

static void put(index_t *x, size_t entry, uint32_t start, uint32_t length) {
    x->numbers[starts_at(x) + entry] = start;
    x->numbers[lengths_at(x) + entry] = length;
}

/* start plus length against the bytes held: 15 where the sum passes them, for every label of the hash and no other */
static void test_passing(void) {
    static const struct { uint32_t start, length; } passes[] = {
        {11, 22}, {32, 1}, {33, 0}, {22, 11}, {64, 0}, {0, 33}, {0, 64}, {UINT32_MAX, 0}, {0, UINT32_MAX}, {UINT32_MAX, 1}, {UINT32_MAX, 11}, {UINT32_MAX, 12},
        {UINT32_MAX, 33}, {UINT32_MAX - 9, 10}, {UINT32_MAX - 9, 21}, {UINT32_MAX, UINT32_MAX}, {0x80000000u, 0x80000000u}, {0x80000000u, 0x8000000au}};
    static const struct { uint32_t start, length; } within[] = {{11, 21}, {32, 0}, {0, 32}, {0, 0}, {31, 1}, {12, 10}};
    index_t x;
    answer_t a;
    example(&x, 5, 0);
    CHECK(build(&x) == 0);
    for (size_t i = 0; i < sizeof passes / sizeof passes[0]; i++) {
        put(&x, 1, passes[i].start, passes[i].length);
        for (size_t j = 0; j < ALIKE; j++) damaged(&x, alike + j);
        finds(&x, names + 8, 1, 1, 0, NULL);
        CHECK(search(&x, &a, query, 8) == 0 && a.answer[CURATOR_HITS] == 3);
    }
    for (size_t i = 0; i < sizeof within / sizeof within[0]; i++) {
        put(&x, 1, within[i].start, within[i].length);
        finds(&x, alike + 1, 5, 1, 2, (const uint32_t[]){7, 9});
        finds(&x, alike + 3, 5, 1, 0, NULL);
    }
    /* where its bytes are another label's, it is that label's */
    put(&x, 1, 21, 11);
    finds(&x, alike + 1, 5, 1, 3, (const uint32_t[]){7, 9, 8});
    finds(&x, alike + 3, 5, 1, 0, NULL);
    /* the bytes held are the bound, and not the capacity */
    put(&x, 1, 11, 10);
    x.state[CURATOR_BYTES_HELD] = 31;
    damaged(&x, alike + 3);
    x.state[CURATOR_BYTES_HELD] = 32;
    finds(&x, alike + 3, 5, 1, 1, (const uint32_t[]){8});
    drop(&x);
}

/* only in leaves that are opened and not denied: 7's is the second node opened, 9's the fourth, 8's the fifth */
static void test_opened(void) {
    for (size_t ef = 0; ef <= 5; ef++) {
        static const size_t hits[] = {0, 0, 1, 1, 2, 2};
        index_t x;
        example(&x, ef, 0);
        CHECK(build(&x) == 0);
        finds(&x, alike + 1, ef, ef == 5, hits[ef], (const uint32_t[]){7, 9});
        put(&x, 1, 33, 0);
        if (ef < 5) finds(&x, alike + 1, ef, 0, hits[ef], (const uint32_t[]){7, 9});
        else damaged(&x, alike + 1);
        put(&x, 2, 22, 11);
        if (ef < 4) finds(&x, alike + 1, ef, 0, hits[ef], (const uint32_t[]){7});
        else damaged(&x, alike + 1);
        put(&x, 0, 0, 33);
        if (ef < 2) finds(&x, alike + 1, ef, 0, 0, NULL);
        else damaged(&x, alike + 1);
        drop(&x);
    }
}

/* the leaf of a vector, by the six numbers and the leaf order */
static size_t leaf_of(const index_t *x, uint32_t vector) {
    const uint32_t *order = x->numbers + x->v + x->e, *six = order + x->v;
    for (size_t node = 0; node < x->state[CURATOR_NODES_HELD]; node++)
        for (size_t i = 0; six[6 * node + 1] == 0 && i < six[6 * node + 3]; i++) if (order[six[6 * node + 2] + i] == vector) return node;
    CHECK(!"a leaf");
    return 0;
}

static void test_denied(void) {
    index_t x;
    example(&x, 5, 0);
    CHECK(build(&x) == 0);
    put(&x, 2, 33, 0);
    damaged(&x, alike + 1);
    memset(x.hashes + CURATOR_FILTER_AT(x.e, leaf_of(&x, 2)), 0, CURATOR_FILTER * 8);
    finds(&x, alike + 1, 5, 1, 1, (const uint32_t[]){7});
    finds(&x, alike + 3, 5, 1, 1, (const uint32_t[]){8});
    drop(&x);

    /* an entry of another hash in the same leaf is not looked at */
    CHECK(make_text(&x, D, 2, 4, 5, 4, 8, 16, 64) == 0);
    teach_one(&x, 7, 1.0f, 0.0f, alike + 1, names + 8);
    CHECK(build(&x) == 0);
    put(&x, 1, 12, 1);
    finds(&x, alike + 1, 1, 1, 1, (const uint32_t[]){7});
    damaged(&x, names + 8);
    drop(&x);
}

/* ---- random adds and takings back, and searches of what is left */

/* which echoes have a label of the same bytes */
static void carriers(const model_t *m, const name_t *name, int *carries) {
    for (size_t i = 0; i < m->vectors; i++) {
        carries[i] = 0;
        for (size_t j = 0; j < m->held[i].labels; j++) carries[i] |= same_name(name, m->held[i].names[j]->bytes, m->held[i].names[j]->length);
    }
}

static void test_random(void) {
    size_t whole = 0, cut = 0, found = 0;
    for (int round = 0; round < 2000; round++) {
        index_t x;
        model_t m = random_index(&x, below(3) ? M : below(12));
        copy_t c = copy(&x);
        for (size_t i = 0; i < NAMES; i++) {
            answer_t a;
            int carries[V];
            hit_t hits[V];
            float heard[D], from[D];
            size_t k = below(3) ? V : below(V);
            any_vector(heard, from);
            carriers(&m, names + i, carries);
            size_t count = rank(&m, carries, from, hits);
            CHECK(ask(&x, &a, heard, names + i, k) == 0);
            check_hits(&a, hits, count, k);
            CHECK(i < ADDED || a.answer[CURATOR_HITS] == 0);
            whole += a.answer[CURATOR_WHOLE];
            cut += !a.answer[CURATOR_WHOLE];
            found += a.answer[CURATOR_HITS];
        }
        CHECK(unchanged(&x, &c) && surplus_untouched(&x));
        forget(&c);
        forget(&m.lists);
        drop(&x);
    }
    CHECK(whole > 10000 && cut > 1000 && found > 5000);
    CHECK(times[0] > 10000 && times[CURATOR_VECTORS_FULL] > 1000 && times[CURATOR_ENTRIES_FULL] > 50 && times[CURATOR_TEXT_FULL] > 1000
          && times[CURATOR_NO_VECTOR_HELD] > 1000);
}

/* ---- the largest text */

/* 4,096 vectors of two names of 510 bytes fill it to the last byte; one byte more is 20. The last name is found, and a name that differs in its last byte
   is not. */
static void test_largest(void) {
    enum { MOST = 4096, TWO = 2 * NAME };
    static const uint8_t lengths[] = {255, 255, 255, 255, 1, 0};
    static const float one = 1.0f;
    static uint8_t bytes[MOST_TEXT + 1];
    index_t x;
    answer_t a;
    for (size_t i = 0; i <= MOST_TEXT; i++) bytes[i] = (uint8_t)(any() >> 32);
    CHECK(make_text(&x, 1, 1, MOST, 1, MOST, 2 * MOST + 1, 1, MOST_TEXT) == 0);
    for (uint32_t i = 0; i + 1 < MOST; i++) CHECK(curator_add(STATE(&x), STORE(&x), i, &one, 1, lengths, 4, bytes + i * TWO, TWO) == 0);
    const uint8_t *last = bytes + (MOST - 1) * TWO;
    copy_t c = copy(&x);
    CHECK(curator_add(STATE(&x), STORE(&x), 9, &one, 1, lengths, 6, last, TWO + 1) == CURATOR_TEXT_FULL);
    CHECK(unchanged(&x, &c));
    CHECK(curator_add(STATE(&x), STORE(&x), MOST - 1, &one, 1, lengths, 4, last, TWO) == 0);
    CHECK(x.state[CURATOR_BYTES_HELD] == MOST_TEXT && x.state[CURATOR_ENTRIES_HELD] == 2 * MOST);
    CHECK(memcmp(x.text, bytes, MOST_TEXT) == 0 && surplus_untouched(&x));
    for (size_t i = 0; i < 2 * MOST; i++) CHECK(x.numbers[starts_at(&x) + i] == i * NAME && x.numbers[lengths_at(&x) + i] == NAME);
    CHECK(curator_take_back(STATE(&x), STORE(&x)) == 0 && x.state[CURATOR_BYTES_HELD] == MOST_TEXT - TWO);
    CHECK(curator_add(STATE(&x), STORE(&x), MOST - 1, &one, 1, lengths, 4, last, TWO) == 0);
    CHECK(curator_build(STATE(&x), STORE(&x), WORK(&x)) == 0);
    for (size_t i = 0; i < 2 * MOST; i += 1023) {
        uint8_t *name = bytes + i * NAME;
        for (int changed = 0; changed < 2; changed++, name[NAME - 1] ^= 1) {
            CHECK(curator_search_filtered(STATE(&x), STORE(&x), WORK(&x), &one, 1, name, 1, name + 1, NAME - 1, 9, a.ids, HITS, a.distances, HITS, a.answer, 3) == 0);
            CHECK(a.answer[CURATOR_HITS] == !changed && (changed || a.ids[0] == i / 2));
        }
    }
    forget(&c);
    drop(&x);
}

int main(void) {
    test_hashes();
    test_capacity();
    test_short();
    test_full();
    test_order();
    test_written();
    test_built();
    test_back();
    test_back_damaged();
    test_one_hash();
    test_pair();
    test_fronts();
    test_passing();
    test_opened();
    test_denied();
    test_random();
    test_largest();
    return report();
}
