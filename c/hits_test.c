/* Hit records: every place of the list after calls that are filled and calls that are refused, on lists made here.

   tools/static_libraries && gcc -Ic c/hits_test.c target/staticlib/libhit_records.a -o target/hits_test && target/hits_test */
#include "hit_records.h"

#include "check.h"

enum { PLACES = 8 };

/* What place i holds before a call; its distance is a NaN. */
static uint32_t held_id(size_t i) { return 90 + (uint32_t)i; }

/* One call on the first places of a list of eight: what it returns, and every place after it. */
static void fill(size_t lent, const uint32_t *ids, size_t ids_len, const float *distances, size_t distances_len, size_t count, uint32_t expected) {
    struct curator_hit hits[PLACES];
    for (size_t i = 0; i < PLACES; i++) hits[i] = (struct curator_hit){held_id(i), float_of(float_mark(i))};
    CHECK(curator_hits(hits, lent, ids, ids_len, distances, distances_len, count) == expected);
    for (size_t i = 0; i < PLACES; i++) {
        int written = expected == 0 && i < count;
        CHECK(hits[i].id == (written ? ids[i] : held_id(i)));
        CHECK(bits_of(hits[i].distance) == (written ? bits_of(distances[i]) : float_mark(i)));
    }
}

int main(void) {
    /* the bits of a distance are copied: of -0.0, of the one NaN that a search writes */
    const uint32_t ids[4] = {7, 9, UINT32_MAX, 0};
    const float distances[4] = {0.0f, float_of(0x3ECCCCCC), float_of(0x7FC00000), float_of(0x80000000)};

    CHECK(sizeof(struct curator_hit) == 8);
    for (size_t count = 0; count <= 4; count++) fill(PLACES, ids, 4, distances, 4, count, 0);
    fill(4, ids, 4, distances, 4, 4, 0);
    fill(0, ids, 0, distances, 0, 0, 0);
    fill(3, ids, 4, distances, 4, 4, 14);
    fill(PLACES, ids, 3, distances, 4, 4, 14);
    fill(PLACES, ids, 4, distances, 3, 4, 14);
    fill(0, ids, 0, distances, 0, 1, 14);
    fill(PLACES, ids, 4, distances, 4, SIZE_MAX, 14);
    return report();
}
