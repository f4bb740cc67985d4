/* Pooling: `curator_pool` at the boundaries of its lists, and after builds: read from the lists, the filter of every node that has children is the or of its
   children's words, and pooling them by the call gives the same. */
#include "check.h"

enum { WORDS = CURATOR_FILTER + SURPLUS };

/* words with many bits, few, all and none */
static uint64_t word(void) {
    uint64_t x = any();
    switch (below(5)) {
        case 0: return 0;
        case 1: return UINT64_MAX;
        case 2: return 1ull << (x % 64);
        case 3: return x & any() & any();
        default: return x;
    }
}

/* lists of every length up to seven: fewer than four words of either are 3 and nothing is written; otherwise the first four are the or, and no other */
static void test_lengths(void) {
    for (int round = 0; round < 200; round++)
        for (size_t f = 0; f <= WORDS; f++)
            for (size_t o = 0; o <= WORDS; o++) {
                uint64_t filter[WORDS], other[WORDS], before[WORDS], lent[WORDS];
                for (size_t i = 0; i < WORDS; i++) { before[i] = filter[i] = word(); lent[i] = other[i] = word(); }
                uint32_t number = curator_pool(filter, f, other, o);
                CHECK(number == (f < 4 || o < 4 ? CURATOR_LIST_TOO_SHORT : CURATOR_OK));
                CHECK(memcmp(other, lent, sizeof lent) == 0);
                for (size_t i = 0; i < WORDS; i++) CHECK(filter[i] == (number == 0 && i < 4 ? before[i] | lent[i] : before[i]));
            }
}

/* an index of random echoes, each with up to three labels of up to two letters */
static void grow(index_t *x, size_t count) {
    for (size_t i = 0; i < count; i++) {
        float echo[8];
        uint8_t lengths[6], bytes[6];
        size_t labels = below(4), at = 0;
        for (size_t j = 0; j < x->d; j++) echo[j] = (float)below(2001) / 1000.0f - 1.0f;
        for (size_t j = 0; j < labels; j++) {
            size_t length = below(3), first = below(length + 1);
            lengths[2 * j] = (uint8_t)first;
            lengths[2 * j + 1] = (uint8_t)(length - first);
            for (size_t k = 0; k < length; k++) bytes[at++] = (uint8_t)('a' + below(26));
        }
        CHECK(curator_add(STATE(x), STORE(x), (uint32_t)i, echo, x->d, lengths, 2 * labels, bytes, at) == 0);
    }
}

/* every node of a built index by its six numbers, links and words; returns how many have children */
static size_t check_nodes(const index_t *x) {
    size_t nodes = x->state[CURATOR_NODES_HELD], six = 2 * x->v + x->e, links = six + 6 * x->m, inner = 0;
    for (size_t i = 0; i < nodes; i++) {
        size_t start = x->numbers[six + 6 * i], count = x->numbers[six + 6 * i + 1];
        const uint64_t *own = x->hashes + CURATOR_FILTER_AT(x->e, i);
        uint64_t or[CURATOR_FILTER] = {0}, pool[CURATOR_FILTER] = {0};
        if (count == 0) continue;
        inner++;
        CHECK(start + count <= nodes);
        for (size_t j = 0; j < count; j++) {
            size_t child = x->numbers[links + start + j];
            CHECK(i < child && child < nodes);
            const uint64_t *words = x->hashes + CURATOR_FILTER_AT(x->e, child);
            for (size_t w = 0; w < CURATOR_FILTER; w++) or[w] |= words[w];
            CHECK(curator_pool(pool, CURATOR_FILTER, words, CURATOR_FILTER) == 0);
        }
        CHECK(memcmp(own, or, sizeof or) == 0);
        CHECK(memcmp(own, pool, sizeof pool) == 0);
    }
    return inner;
}

static void test_builds(void) {
    size_t inner = 0;
    for (int round = 0; round < 300; round++) {
        index_t x;
        CHECK(make(&x, 1 + below(8), 1 + below(7), below(5), 5, 60, 180, 1100) == 0);
        grow(&x, 1 + below(60));
        CHECK(build(&x) == 0);
        inner += check_nodes(&x);
        drop(&x);
    }
    CHECK(inner > 3000);
}

/* the roots of two indexes, pooled either way, are the root of one that holds what both hold */
static void test_gateways(void) {
    for (int round = 0; round < 100; round++) {
        index_t north, south, all;
        size_t a = 1 + below(20), b = 1 + below(20);
        CHECK(make(&north, 3, 4, 2, 5, 20, 60, 400) == 0);
        CHECK(make(&south, 3, 2, 1, 5, 30, 90, 600) == 0);
        CHECK(make(&all, 3, 5, 3, 5, 40, 120, 800) == 0);
        uint64_t start = seed;
        grow(&north, a);
        grow(&south, b);
        seed = start;
        grow(&all, a);
        grow(&all, b);
        CHECK(build(&north) == 0 && build(&south) == 0 && build(&all) == 0);
        const uint64_t *n = north.hashes + CURATOR_FILTER_AT(north.e, 0), *s = south.hashes + CURATOR_FILTER_AT(south.e, 0);
        uint64_t first[CURATOR_FILTER], second[CURATOR_FILTER];
        memcpy(first, n, sizeof first);
        memcpy(second, s, sizeof second);
        CHECK(curator_pool(first, 4, s, 4) == 0 && curator_pool(second, 4, n, 4) == 0);
        CHECK(memcmp(first, all.hashes + CURATOR_FILTER_AT(all.e, 0), sizeof first) == 0);
        CHECK(memcmp(second, first, sizeof first) == 0);
        drop(&north); drop(&south); drop(&all);
    }
}

int main(void) {
    test_lengths();
    test_builds();
    test_gateways();
    return report();
}
