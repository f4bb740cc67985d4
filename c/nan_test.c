/* A result that comes out NaN has the bits 7FC00000 in memory (document 01, 'Distance'). A contract cannot tell two NaNs apart, so this program
   looks: it damages the stored vectors, searches, and reads the distances; it damages them before a build, and reads the centroids. */
#include "check.h"

#define NAN_BITS 0x7FC00000u

/* NaNs, infinities, zeros, the largest number */
static const uint32_t odd[] = {NAN_PATTERNS, 0x7F800000u, 0xFF800000u, 0x00000000u, 0x80000000u, 0x7F7FFFFFu};
enum { ODD = sizeof odd / sizeof odd[0], VECTORS = 3 };

static int is_nan(uint32_t b) { return (b & 0x7FFFFFFFu) > 0x7F800000u; }

/* an index of VECTORS vectors, each with the label `a` */
static void fill(index_t *x, size_t d) {
    float vector[128];
    CHECK(make(x, d, 2, VECTORS, 8, VECTORS, VECTORS, 4) == 0);
    for (uint32_t i = 0; i < VECTORS; i++) {
        for (size_t j = 0; j < d; j++) vector[j] = (float)(i + j + 1);
        CHECK(add(x, 30 - i, vector, "a") == 0);
    }
}

/* puts one pattern at a place of every vector, and another at the next */
static void damage(index_t *x, size_t place, uint32_t one, uint32_t two) {
    for (size_t i = 0; i < VECTORS; i++) {
        x->floats[i * x->d + place] = float_of(one);
        if (place + 1 < x->d) x->floats[i * x->d + place + 1] = float_of(two);
    }
}

/* NaN results, and those of them for which a plain computation has another pattern */
static int nans, others;

static int plain_is_nan(float result) {
    uint32_t b = bits_of(result);
    if (is_nan(b)) { nans++; others += b != NAN_BITS; }
    return is_nan(b);
}

/* whether a distance is NaN is left to C: 1 minus the sum of the products */
static int distance_is_nan(const index_t *x, const float *query, size_t vector) {
    volatile float sum = 0.0f;
    for (size_t j = 0; j < x->d; j++) { volatile float p = query[j] * x->floats[vector * x->d + j]; sum = sum + p; }
    volatile float r = 1.0f - sum;
    return plain_is_nan(r);
}

/* every hit's distance is NaN exactly where C's is, and then has the one pattern; NaNs come last, by document id */
static void look(index_t *x, const answer_t *a, const float *query) {
    CHECK(a->answer[CURATOR_HITS] == VECTORS);
    for (size_t i = 0; i < a->answer[CURATOR_HITS]; i++) {
        uint32_t b = bits_of(a->distances[i]);
        int nan = distance_is_nan(x, query, 30 - a->ids[i]);
        CHECK(is_nan(b) == nan);
        if (nan) CHECK(b == NAN_BITS);
        if (nan && i > 0 && is_nan(bits_of(a->distances[i - 1]))) CHECK(a->ids[i - 1] < a->ids[i]);
        if (!nan && i > 0) CHECK(!is_nan(bits_of(a->distances[i - 1])));
    }
}

static void distances(size_t d) {
    index_t x;
    answer_t a;
    float query[128];
    fill(&x, d);
    CHECK(build(&x) == 0);
    for (size_t place = 0; place < d; place++)
        for (size_t i = 0; i < ODD; i++)
            for (size_t j = 0; j < ODD; j++) {
                for (size_t c = 0; c < d; c++) query[c] = c == place + 1 && (i + j) % 2 ? 0.0f : 1.0f;
                damage(&x, place, odd[i], odd[j]);
                /* the query as it is normalised does not matter to what is NaN: its components are 0 or above 0 */
                CHECK(search_filtered(&x, &a, query, "a", HITS) == 0);
                look(&x, &a, query);
                CHECK(search(&x, &a, query, HITS) == 0);
                look(&x, &a, query);
                damage(&x, place, 0, 0);
            }
    CHECK(surplus_untouched(&x));
    drop(&x);
}

/* the centroid of the one node: a sum from +0.0, in order, over the size */
static void centroids(size_t d) {
    for (size_t i = 0; i < ODD; i++)
        for (size_t j = 0; j < ODD; j++) {
            index_t x;
            fill(&x, d);
            for (size_t c = 0; c < d; c++) {
                x.floats[c] = float_of(odd[i]);
                x.floats[d + c] = float_of(odd[j]);
            }
            CHECK(build(&x) == 0);
            for (size_t c = 0; c < d; c++) {
                volatile float sum = 0.0f;
                for (size_t v = 0; v < VECTORS; v++) sum = sum + x.floats[v * d + c];
                volatile float mean = sum / (float)VECTORS;
                uint32_t b = bits_of(x.floats[VECTORS * d + c]);
                if (plain_is_nan(mean)) CHECK(b == NAN_BITS);
                else CHECK(b == bits_of(mean));
            }
            drop(&x);
        }
}

int main(void) {
    for (size_t d = 1; d <= 17; d++) distances(d);
    distances(64);
    for (size_t d = 1; d <= 17; d++) centroids(d);
    centroids(128);
    CHECK(others > 10000 && nans - others > 10000);
    return report();
}
