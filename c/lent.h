/* What the tests of taking back, of withdrawing and of searches for two labels share: each is lent what add is, and refuses with 4, then with 3. */
#include "check.h"

/* A call, lent so many places of each list, that is refused with a number and leaves everything as it was. */
typedef void refused_t(index_t *x, size_t state, size_t floats, size_t numbers, size_t hashes, size_t text, uint32_t number);

/* an index that holds nothing, three vectors with one label each, or those in a tree */
enum { NOTHING, THREE, BUILT, KINDS };

static inline void some(index_t *x, int kind) {
    static const float seven[] = {1.0f, 0.0f}, eight[] = {0.0f, 2.0f}, nine[] = {3.0f, 4.0f};
    CHECK(make(x, 2, 2, 1, 5, 4, 8, 16) == 0);
    if (kind == NOTHING) return;
    CHECK(add(x, 7, seven, "a") == 0 && add(x, 8, eight, "b") == 0 && add(x, 9, nine, "a") == 0);
    if (kind == BUILT) CHECK(build(x) == 0);
}

/* row 4, with full lists and, since it comes before 3, with short ones */
static inline void no_state(refused_t *refused, index_t *x, size_t state) {
    refused(x, state, x->floats_len, x->numbers_len, x->hashes_len, x->text_len, CURATOR_INVALID_STATE);
    refused(x, state, x->floats_len - 1, x->numbers_len - 1, x->hashes_len - 1, x->text_len - 1, CURATOR_INVALID_STATE);
    refused(x, state, 0, 0, 0, 0, CURATOR_INVALID_STATE);
}

static inline void unsound(refused_t *refused, index_t *x, size_t place, size_t value) {
    size_t kept = x->state[place];
    x->state[place] = value;
    no_state(refused, x, CURATOR_STATE);
    x->state[place] = kept;
}

static inline void check_states(refused_t *refused) {
    static const struct { size_t place, value; } limits[] = {
        {0, 0}, {0, 129}, {1, 0}, {1, 65}, {2, 4097}, {3, 65538}, {4, 65536}, {5, 0}, {5, 4097}, {6, 16385}, {7, 0}, {7, 65538}, {8, 5}, {9, 9}, {10, 17},
        {11, 2}, {11, SIZE_MAX}, {0, SIZE_MAX}, {5, SIZE_MAX}, {8, SIZE_MAX}, {9, SIZE_MAX}, {10, SIZE_MAX}, {12, MOST_TEXT + 1}, {12, SIZE_MAX},
        {13, 4081}, {13, SIZE_MAX}};
    for (int kind = 0; kind < KINDS; kind++) {
        index_t x;
        some(&x, kind);
        for (size_t length = 0; length < CURATOR_STATE; length++) no_state(refused, &x, length);
        for (size_t i = 0; i < sizeof limits / sizeof limits[0]; i++) unsound(refused, &x, limits[i].place, limits[i].value);
        if (kind != NOTHING) {
            unsound(refused, &x, CURATOR_VECTORS, 2);
            unsound(refused, &x, CURATOR_ENTRIES, 2);
            unsound(refused, &x, CURATOR_TEXT, 2);
        }
        /* the other flag; nodes in an unbuilt index; none in a built one, and a built one without vectors, which is 4 whatever comes later */
        unsound(refused, &x, CURATOR_BUILT, kind != BUILT);
        unsound(refused, &x, CURATOR_NODES_HELD, kind != BUILT);
        if (kind == BUILT) unsound(refused, &x, CURATOR_VECTORS_HELD, 0);
        CHECK(surplus_untouched(&x));
        drop(&x);
    }
}

/* row 3 for each list, one place too short and empty, whatever comes later */
static inline void check_lists(refused_t *refused) {
    for (int kind = 0; kind < KINDS; kind++) {
        index_t x;
        some(&x, kind);
        size_t f = x.floats_len, n = x.numbers_len, h = x.hashes_len, t = x.text_len;
        const size_t lengths[][4] = {{f - 1, n, h, t}, {f, n - 1, h, t}, {f, n, h - 1, t}, {f, n, h, t - 1},
                                     {0, n, h, t},     {f, 0, h, t},     {f, n, 0, t},     {f, n, h, 0},     {0, 0, 0, 0}};
        for (size_t i = 0; i < sizeof lengths / sizeof lengths[0]; i++)
            refused(&x, CURATOR_STATE, lengths[i][0], lengths[i][1], lengths[i][2], lengths[i][3], CURATOR_LIST_TOO_SHORT);
        CHECK(surplus_untouched(&x));
        drop(&x);
    }
}
