/* Names in two parts: the label hash from any start, adds and searches of the same names parted in different ways, and the refusals that read the lengths. */
#include "check.h"

/* published values of FNV-1a, 64 bits */
static const struct { const char *name; uint64_t hash; } published[] = {
    {"", UINT64_C(0xcbf29ce484222325)},     {"a", UINT64_C(0xaf63dc4c8601ec8c)},   {"f", UINT64_C(0xaf63db4c8601ead9)},
    {"fo", UINT64_C(0x08985907b541d342)},   {"foo", UINT64_C(0xdcb27518fed9d577)}, {"foob", UINT64_C(0xdd120e790c2512af)},
    {"fooba", UINT64_C(0xcac165afa2fef40a)}, {"foobar", UINT64_C(0x85944171f73967e8)}};

/* whole, and in two parts, cut at every place */
static void test_published(void) {
    for (size_t i = 0; i < sizeof published / sizeof published[0]; i++) {
        const uint8_t *name = (const uint8_t *)published[i].name;
        size_t length = strlen(published[i].name);
        CHECK(curator_label_hash(CURATOR_LABEL_START, name, length) == published[i].hash);
        for (size_t first = 0; first <= length; first++) {
            uint64_t between = curator_label_hash(CURATOR_LABEL_START, name, first);
            CHECK(curator_label_hash(between, name + first, length - first) == published[i].hash);
        }
    }
}

static const uint64_t starts[] = {0, 1, UINT64_MAX, UINT32_MAX, UINT64_C(1) << 32, UINT64_C(1) << 63, CURATOR_LABEL_START};
enum { STARTS = sizeof starts / sizeof starts[0] };

/* from any start: no byte, each byte alone, and lists in one, two and three parts */
static void test_starts(void) {
    for (size_t i = 0; i < STARTS; i++)
        for (int b = 0; b < 256; b++) {
            uint8_t byte = (uint8_t)b;
            CHECK(curator_label_hash(starts[i], &byte, 0) == starts[i]);
            CHECK(curator_label_hash(starts[i], &byte, 1) == hashed(starts[i], &byte, 1));
        }
    for (int round = 0; round < 5000; round++) {
        uint8_t bytes[600];
        uint64_t start = below(3) ? any() : starts[below(STARTS)];
        size_t count = below(below(3) ? 20 : 600), one = below(count + 1), two = below(count - one + 1);
        for (size_t i = 0; i < count; i++) bytes[i] = (uint8_t)(any() >> 32);
        uint64_t whole = hashed(start, bytes, count), part = curator_label_hash(start, bytes, one);
        CHECK(curator_label_hash(start, bytes, count) == whole);
        CHECK(curator_label_hash(part, bytes + one, count - one) == whole);
        part = curator_label_hash(part, bytes + one, two);
        CHECK(curator_label_hash(part, bytes + one + two, count - one - two) == whole);
    }
}

/* A name may be added up to NAME bytes, and searched for at any length. */
enum { D = 3, V = 12, E = 18, M = 16 * V + 1, LABELS = 3, NAMES = 8, PART = 255, LONGEST = 1500 };

typedef struct { size_t length; uint8_t bytes[LONGEST]; } name_t;
typedef struct { uint32_t id; float vector[D]; size_t labels; const name_t *names[LABELS]; } echo_t;

/* the names that are added, and some that are not */
static name_t names[2 * NAMES];

/* Short names of few letters, so that one begins with another; long ones of any bytes. */
static void any_name(name_t *name, size_t length) {
    name->length = length;
    for (size_t i = 0; i < length; i++) name->bytes[i] = length < 8 ? (uint8_t)('a' + below(2)) : (uint8_t)(any() >> 32);
}

static size_t any_length(void) {
    switch (below(6)) {
        case 0: return 0;
        case 1: return PART - 1 + below(3);
        case 2: return PART + 1 + below(PART);
        case 3: return NAME;
        default: return 1 + below(7);
    }
}

static void any_names(void) {
    for (size_t i = 0; i < NAMES; i++) any_name(names + i, any_length());
    for (size_t i = NAMES; i < 2 * NAMES; i++) any_name(names + i, below(2) ? any_length() : NAME + 1 + below(LONGEST - NAME));
}

/* how often a name was cut in each way */
enum { FIRST_EMPTY, SECOND_EMPTY, BOTH_EMPTY, FULL_PART, LONG_NAME, LONG_PART, WAYS };
static size_t ways[WAYS];

/* where to cut a name so that neither part has more than so many bytes: as far to the front or to the end as can be, or anywhere */
static size_t cut(size_t length, size_t most) {
    size_t low = length > most ? length - most : 0, high = length < most ? length : most;
    size_t kind = below(4), first = kind == 0 ? low : kind == 1 ? high : low + below(high - low + 1), second = length - first;
    ways[FIRST_EMPTY] += !first && second;
    ways[SECOND_EMPTY] += first && !second;
    ways[BOTH_EMPTY] += !length;
    ways[FULL_PART] += first == PART || second == PART;
    ways[LONG_NAME] += length > PART;
    ways[LONG_PART] += first > PART || second > PART;
    return first;
}

static echo_t any_echo(uint32_t id) {
    echo_t echo = {.id = id, .labels = below(LABELS + 1)};
    for (size_t i = 0; i < D; i++) echo.vector[i] = (float)below(2001) / 1000.0f - 1.0f;
    for (size_t j = 0; j < echo.labels; j++) echo.names[j] = names + below(NAMES);
    return echo;
}

/* an add, each name cut anew */
static uint32_t teach(index_t *x, const echo_t *echo) {
    uint8_t lengths[2 * LABELS], bytes[LABELS * NAME];
    size_t at = 0;
    for (size_t j = 0; j < echo->labels; j++) {
        const name_t *name = echo->names[j];
        size_t first = cut(name->length, PART);
        lengths[2 * j] = (uint8_t)first;
        lengths[2 * j + 1] = (uint8_t)(name->length - first);
        memcpy(bytes + at, name->bytes, name->length);
        at += name->length;
    }
    return curator_add(STATE(x), STORE(x), echo->id, echo->vector, D, lengths, 2 * echo->labels, bytes, at);
}

/* the state and every place of every list */
static int same(const index_t *x, const index_t *y) {
    copy_t c = copy(y);
    int is = unchanged(x, &c) && memcmp(x->work, y->work, (x->work_len + SURPLUS) * 4) == 0;
    forget(&c);
    return is;
}

/* what an accepted add wrote of ids, owners, hashes and label text: vector n, entries from e on, bytes from t on; returns where the bytes end */
static size_t check_added(const index_t *x, const echo_t *echo, size_t n, size_t e, size_t t) {
    CHECK(x->state[CURATOR_VECTORS_HELD] == n + 1 && x->state[CURATOR_ENTRIES_HELD] == e + echo->labels);
    CHECK(x->numbers[n] == echo->id && x->numbers[live_at(x) + n] == 1);
    for (size_t j = 0; j < echo->labels; j++) {
        const name_t *name = echo->names[j];
        CHECK(x->numbers[V + e + j] == n);
        CHECK(x->hashes[e + j] == hashed(published[0].hash, name->bytes, name->length));
        CHECK(x->numbers[starts_at(x) + e + j] == t && x->numbers[lengths_at(x) + e + j] == name->length);
        CHECK(memcmp(x->text + t, name->bytes, name->length) == 0);
        t += name->length;
    }
    CHECK(x->state[CURATOR_BYTES_HELD] == t);
    return t;
}

/* how often each number was returned */
static size_t times[20];

/* Adds echoes to two indexes that are the same, and compares all of both after each. Returns how many are held; the id of an echo is its number. */
static size_t grow(index_t *x, index_t *y, echo_t held[V]) {
    size_t n = 0, e = 0, t = 0, adds = 1 + below(V + 4);
    CHECK(same(x, y));
    for (size_t i = 0; i < adds; i++) {
        echo_t echo = any_echo((uint32_t)n);
        uint32_t expected = n == V ? CURATOR_VECTORS_FULL : e + echo.labels > E ? CURATOR_ENTRIES_FULL : CURATOR_OK;
        copy_t before = copy(x);
        CHECK(teach(x, &echo) == expected);
        CHECK(teach(y, &echo) == expected);
        CHECK(same(x, y));
        CHECK(expected == CURATOR_OK || unchanged(x, &before));
        forget(&before);
        times[expected]++;
        if (expected) continue;
        t = check_added(x, &echo, n, e, t);
        held[n++] = echo;
        e += echo.labels;
    }
    return n;
}

/* the same after a build, which leaves anything in the centres and in work */
static void check_built(const index_t *x, const index_t *y) {
    size_t centres = D * (V + M);
    CHECK(memcmp(x->state, y->state, sizeof x->state) == 0);
    CHECK(memcmp(x->floats, y->floats, centres * 4) == 0);
    CHECK(memcmp(x->numbers, y->numbers, (x->numbers_len + SURPLUS) * 4) == 0);
    CHECK(memcmp(x->hashes, y->hashes, (x->hashes_len + SURPLUS) * 8) == 0);
    CHECK(memcmp(x->text, y->text, x->text_len + SURPLUS) == 0);
    CHECK(surplus_untouched(x) && surplus_untouched(y));
}

/* a search; the parts are cut anew and stand in lists of their own */
static uint32_t ask(index_t *x, answer_t *a, const float *query, const name_t *name, size_t k) {
    size_t at = cut(name->length, LONGEST), rest = name->length - at;
    uint8_t *first = marked(at + 1, 1), *second = marked(rest + 1, 1);
    memcpy(first, name->bytes, at);
    memcpy(second, name->bytes + at, rest);
    mark(a);
    uint32_t number = curator_search_filtered(STATE(x), STORE(x), WORK(x), query, D, first, at, second, rest, k, a->ids, HITS, a->distances, HITS,
                                              a->answer, CURATOR_ANSWER + SURPLUS);
    CHECK(number == 0 ? answer_marked(a, a->answer[CURATOR_HITS], CURATOR_ANSWER) : answer_untouched(a));
    free(first);
    free(second);
    return number;
}

static int carries(const echo_t *echo, const name_t *name) {
    for (size_t j = 0; j < echo->labels; j++)
        if (echo->names[j]->length == name->length && memcmp(echo->names[j]->bytes, name->bytes, name->length) == 0) return 1;
    return 0;
}

/* a whole answer's hits are echoes that carry the name, as many as there are up to k */
static size_t check_whole(const answer_t *a, const echo_t *held, size_t n, const name_t *name, size_t k) {
    size_t count = 0, hits = a->answer[CURATOR_HITS];
    for (size_t i = 0; i < n; i++) count += (size_t)carries(held + i, name);
    CHECK(hits == (k < count ? k : count));
    for (size_t i = 0; i < hits; i++) CHECK(a->ids[i] < n && carries(held + a->ids[i], name));
    return hits;
}

/* both indexes asked for every name; returns how many hits the whole answers had */
static size_t check_answers(index_t *x, index_t *y, const echo_t *held, size_t n) {
    size_t hits = 0;
    for (size_t i = 0; i < 2 * NAMES; i++) {
        answer_t a, b;
        echo_t heard = any_echo(0);
        size_t k = below(3) ? V : below(V);
        CHECK(ask(x, &a, heard.vector, names + i, k) == 0 && ask(y, &b, heard.vector, names + i, k) == 0);
        CHECK(memcmp(&a, &b, sizeof a) == 0);
        if (a.answer[CURATOR_WHOLE] == 1) hits += check_whole(&a, held, n, names + i, k);
    }
    return hits;
}

static void test_parted(void) {
    size_t hits = 0;
    for (int round = 0; round < 1500; round++) {
        index_t x, y;
        echo_t held[V];
        size_t b = 1 + below(5), leaf = below(5), ef = below(3) ? M : below(12);
        CHECK(make(&x, D, b, leaf, ef, V, E, M) == 0 && make(&y, D, b, leaf, ef, V, E, M) == 0);
        any_names();
        size_t n = grow(&x, &y, held);
        CHECK(build(&x) == 0 && build(&y) == 0);
        check_built(&x, &y);
        hits += check_answers(&x, &y, held, n);
        check_built(&x, &y);
        drop(&x);
        drop(&y);
    }
    CHECK(hits > 10000 && times[0] > 10000 && times[CURATOR_VECTORS_FULL] > 300 && times[CURATOR_ENTRIES_FULL] > 300);
    for (size_t i = 0; i < WAYS; i++) CHECK(ways[i] > 1000);
}

static const float fine[] = {1.0f, 0.0f}, not_finite[] = {1.0f, 1.0f / 0.0f};

/* an add of so many lengths and label bytes: the number, and where it is refused everything as before */
static void returns(index_t *x, const float *vector, const uint8_t *lengths, size_t lengths_len, size_t bytes_len, uint32_t number) {
    static const uint8_t bytes[1024];
    copy_t c = copy(x);
    CHECK(curator_add(STATE(x), STORE(x), 1, vector, 2, lengths, lengths_len, bytes, bytes_len) == number);
    CHECK((number != 0) == unchanged(x, &c));
    CHECK(surplus_untouched(x));
    forget(&c);
}

/* the lengths and the number of label bytes */
static void test_lengths(void) {
    static const struct { size_t count, bytes; uint32_t number; uint8_t lengths[5]; } cases[] = {
        /* odd, though the sum is right */
        {1, 0, 9, {0}}, {1, 1, 9, {1}}, {1, 255, 9, {255}}, {3, 0, 9, {0, 0, 0}}, {3, 1, 9, {1, 0, 0}}, {3, 1, 9, {0, 0, 1}}, {3, 3, 9, {1, 1, 1}},
        {5, 5, 9, {1, 1, 1, 1, 1}}, {5, 765, 9, {255, 0, 255, 0, 255}},
        /* odd, and the sum is that of all but the last, or of the first lengths, or none of these */
        {1, 0, 9, {1}}, {3, 2, 9, {1, 1, 1}}, {3, 3, 9, {1, 5, 2}}, {1, 1, 9, {0}}, {3, 9, 9, {1, 2, 3}},
        /* even, and the sum is wrong: by one, of the first or the second parts alone, less 256 */
        {0, 1, 9, {0}}, {2, 1, 9, {0, 0}}, {2, 0, 9, {1, 0}}, {2, 0, 9, {0, 1}}, {2, 1, 9, {1, 1}}, {2, 3, 9, {1, 1}}, {2, 2, 9, {2, 3}}, {2, 3, 9, {2, 3}},
        {4, 4, 9, {3, 1, 1, 2}}, {4, 3, 9, {3, 1, 1, 2}}, {2, 254, 9, {255, 255}}, {2, 509, 9, {255, 255}}, {2, 511, 9, {255, 255}}, {4, 0, 9, {128, 0, 0, 128}},
        /* right */
        {0, 0, 0, {0}}, {2, 0, 0, {0, 0}}, {2, 1, 0, {1, 0}}, {2, 1, 0, {0, 1}}, {2, 255, 0, {0, 255}}, {2, 256, 0, {255, 1}}, {2, 510, 0, {255, 255}},
        {4, 4, 0, {1, 1, 1, 1}}, {4, 256, 0, {128, 0, 0, 128}}, {4, 1020, 0, {255, 255, 255, 255}}};
    for (size_t i = 0; i < sizeof cases / sizeof cases[0]; i++) {
        index_t x;
        CHECK(make(&x, 2, 2, 1, 5, 4, 8, 16) == 0);
        returns(&x, fine, cases[i].lengths, cases[i].count, cases[i].bytes, cases[i].number);
        CHECK(x.state[CURATOR_ENTRIES_HELD] == (cases[i].number ? 0 : cases[i].count / 2));
        drop(&x);
    }
}

static const uint8_t ones[16] = {1, 1, 1, 1, 1, 1, 1, 1, 1, 1, 1, 1, 1, 1, 1, 1};

/* 5, then 8, 9, 10, 11: room for one vector and three entries */
static void test_order(void) {
    index_t x;
    CHECK(make(&x, 2, 2, 1, 5, 1, 3, 4) == 0);
    returns(&x, not_finite, ones, 9, 9, CURATOR_NON_FINITE_INPUT);
    returns(&x, not_finite, ones, 2, 1, CURATOR_NON_FINITE_INPUT);
    returns(&x, fine, ones, 9, 9, CURATOR_LABEL_LENGTHS);
    returns(&x, fine, ones, 8, 9, CURATOR_LABEL_LENGTHS);
    returns(&x, fine, ones, 7, 7, CURATOR_LABEL_LENGTHS);
    returns(&x, fine, ones, 8, 8, CURATOR_ENTRIES_FULL);
    returns(&x, fine, ones, 6, 6, CURATOR_OK);
    returns(&x, not_finite, ones, 1, 1, CURATOR_NON_FINITE_INPUT);
    returns(&x, fine, ones, 1, 1, CURATOR_LABEL_LENGTHS);
    returns(&x, fine, ones, 2, 3, CURATOR_LABEL_LENGTHS);
    returns(&x, fine, ones, 9, 9, CURATOR_LABEL_LENGTHS);
    returns(&x, fine, ones, 8, 8, CURATOR_VECTORS_FULL);
    returns(&x, fine, ones, 0, 0, CURATOR_VECTORS_FULL);
    CHECK(build(&x) == 0);
    returns(&x, not_finite, ones, 1, 1, CURATOR_ALREADY_BUILT);
    drop(&x);
}

/* 11 counts labels, two lengths each: any room, any number held */
static void test_room(void) {
    for (size_t room = 0; room <= 5; room++)
        for (size_t held = 0; held <= room; held++)
            for (size_t labels = 0; labels <= room + 2; labels++) {
                index_t x;
                CHECK(make(&x, 2, 2, 1, 5, 2, room, 4) == 0);
                returns(&x, fine, ones, 2 * held, 2 * held, CURATOR_OK);
                returns(&x, fine, ones, 2 * labels, 2 * labels, held + labels > room ? CURATOR_ENTRIES_FULL : CURATOR_OK);
                CHECK(x.state[CURATOR_ENTRIES_HELD] == (held + labels > room ? held : held + labels));
                drop(&x);
            }
}

int main(void) {
    test_published();
    test_starts();
    test_parted();
    test_lengths();
    test_order();
    test_room();
    return report();
}
